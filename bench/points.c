/* Times of the two calls on points of libbench_points.a and of the same calls in C, by turns in one run on the same
   inputs at p = 65521, with all checks: ns of CPU time, the least of some rounds, and the ratio. Every answer and every
   slice of the two sides must be equal. COMPILER names the compiler of the C side. */
#define _POSIX_C_SOURCE 199309L
#include "calls.c"
#include "points_calls.c"
#include "calls_sets.c"
#include <time.h>

#ifndef COMPILER
#define COMPILER "an unnamed compiler"
#endif

enum { P = 65521, INPUTS = 16, PAIRS = 4096, ROUNDS = 40 };

int32_t bench_points_sum(const uint8_t *curve, size_t curve_len, const uint32_t *points, size_t points_len, uint8_t *out,
                         size_t out_len);
int32_t bench_points_of(const uint8_t *curve, size_t curve_len, const uint8_t *divisor, size_t divisor_len,
                        uint32_t *out, size_t out_len);

/* ---- inputs ---- */

static struct set set; /* a curve, and random multiples of a point */
static struct curve curve;

/* The points with first coordinate a have the roots of this as second coordinates. */
static struct cubic over(uint32_t a)
{
    const uint32_t *f = curve.f; /* y^3 less F */
    uint32_t low[5] = {f[0], f[3], f[6], f[9], f[12]}, mid[3] = {f[4], f[7], f[10]}, value[3] = {0, 0, 0};
    for (int i = 4; i >= 0; i--)
        value[0] = fmul_add(P, value[0], a, low[i]);
    for (int i = 2; i >= 0; i--)
        value[1] = fmul_add(P, value[1], a, mid[i]);
    value[2] = fmul_add(P, f[11], a, f[8]);
    return (struct cubic){fneg(P, value[0]), fneg(P, value[1]), fneg(P, value[2]), 1};
}

/* `count` points with one random first coordinate: 1 or 2. */
static void random_points(unsigned count, uint32_t *n)
{
    for (;;) {
        uint32_t a = random_below(P), b = 0;
        struct cubic c = over(a);
        unsigned found = 0;
        for (; found < count; found++, b++) {
            b = root_from(P, &c, b);
            if (b == P)
                break;
            n[2 * found] = a;
            n[2 * found + 1] = b;
        }
        if (found == count)
            return;
    }
}

static struct record sum_of(const uint32_t *n, unsigned count)
{
    struct record s = {0, {0}};
    for (unsigned i = 0; i < count; i++) {
        struct record r = point_record(P, n[2 * i], n[2 * i + 1]);
        s = sum(&curve, &s, &r);
    }
    return s;
}

static struct record random_31(void)
{
    uint32_t n[2];
    random_points(1, n);
    struct record r = point_record(P, n[0], n[1]);
    return multiple(&curve, &r, 1000 + random_below(2147483647));
}

static struct record three_points(void)
{
    uint32_t n[6];
    for (int i = 0; i < 3; i++)
        random_points(1, n + 2 * i);
    return sum_of(n, 3);
}

/* Two of the points have the same first coordinate, so f2 is 0. */
static struct record two_and_one(void)
{
    uint32_t n[6];
    random_points(2, n);
    random_points(1, n + 4);
    return sum_of(n, 3);
}

static struct record two_apart(void)
{
    uint32_t n[4];
    random_points(1, n);
    random_points(1, n + 2);
    return sum_of(n, 2);
}

static struct record two_above(void)
{
    uint32_t n[4];
    random_points(2, n);
    return sum_of(n, 2);
}

static struct record one_point(void)
{
    uint32_t n[2];
    random_points(1, n);
    return sum_of(n, 1);
}

static struct record twice_and_one(void)
{
    uint32_t n[6];
    random_points(1, n);
    memcpy(n + 2, n, 8);
    random_points(1, n + 4);
    return sum_of(n, 3);
}

static struct record none(void)
{
    return (struct record){0, {0}};
}

static const struct {
    const char *name;
    struct record (*make)(void);
    uint32_t kind;
    int f2_zero;
} row[] = {
    {"kind 31, a random class", random_31, 31, 0},
    {"kind 31, three points", three_points, 31, 0},
    {"kind 31, one of two points twice", twice_and_one, 31, 0},
    {"kind 31, f2 = 0", two_and_one, 31, 1},
    {"kind 21", two_apart, 21, 0},
    {"kind 22", two_above, 22, 0},
    {"kind 11", one_point, 11, 0},
    {"kind 0", none, 0, 0},
};

enum { ROWS = sizeof row / sizeof *row };

static uint8_t record[ROWS][INPUTS][40];
static size_t length[ROWS][INPUTS];
static uint32_t points[2 * PAIRS];

static void make_inputs(void)
{
    random_set(&set, P);
    if (read_curve(set.curve, set.curve_len, &curve) != 0)
        fail("the curve is refused");
    for (int i = 0; i < ROWS; i++)
        for (int j = 0; j < INPUTS; j++) {
            struct record r;
            do
                r = row[i].make();
            while (r.kind != row[i].kind || (r.kind == 31 && (r.n[2] == 0) != row[i].f2_zero));
            length[i][j] = (size_t)answer(&r, record[i][j], 40);
        }
    for (int i = 0; i < PAIRS; i++)
        random_points(1, points + 2 * i);
}

/* ---- times ---- */

static double now(void)
{
    struct timespec s;
    clock_gettime(CLOCK_PROCESS_CPUTIME_ID, &s);
    return 1e9 * (double)s.tv_sec + (double)s.tv_nsec;
}

/* Side 0 is proved, side 1 is C. */
static int32_t points_of(int side, int i, int j, uint32_t out[6])
{
    return (side == 0 ? bench_points_of : base_points_of)(set.curve, set.curve_len, record[i][j], length[i][j], out, 6);
}

static int32_t points_sum(int side, unsigned pairs, uint8_t out[40])
{
    return (side == 0 ? bench_points_sum : base_points_sum)(set.curve, set.curve_len, points, 2 * pairs, out, 40);
}

static void same_points(int i)
{
    for (int j = 0; j < INPUTS; j++) {
        uint32_t out[2][6];
        memset(out, 170, sizeof out);
        int32_t a = points_of(0, i, j, out[0]), b = points_of(1, i, j, out[1]);
        if (a < 0 || a != b || memcmp(out[0], out[1], sizeof out[0]) != 0)
            fail(row[i].name);
    }
}

static void same_sum(unsigned pairs)
{
    uint8_t out[2][40];
    memset(out, 170, sizeof out);
    int32_t a = points_sum(0, pairs, out[0]), b = points_sum(1, pairs, out[1]);
    if (a < 0 || a != b || memcmp(out[0], out[1], 40) != 0)
        fail("a sum of points");
}

static void print_row(const char *name, const double best[2])
{
    printf("| %-34s | %9.0f | %9.0f | %5.2f |\n", name, best[0], best[1], best[0] / best[1]);
}

/* The mean over the inputs, in the best of the rounds. */
static void time_points(int i)
{
    double best[2] = {1e18, 1e18};
    uint32_t out[6];
    int calls = row[i].kind < 21 ? 20 * INPUTS : INPUTS; /* for kinds 0 and 11 nothing is scanned */
    same_points(i);
    for (int turn = 0; turn < 2 * ROUNDS; turn++) {
        int side = turn % 2;
        double start = now();
        for (int j = 0; j < calls; j++)
            points_of(side, i, j % INPUTS, out);
        double took = (now() - start) / calls;
        best[side] = took < best[side] ? took : best[side];
    }
    print_row(row[i].name, best);
}

static void time_sum(const char *name, unsigned pairs, int calls)
{
    double best[2] = {1e18, 1e18};
    uint8_t out[40];
    same_sum(pairs);
    for (int turn = 0; turn < 2 * ROUNDS; turn++) {
        int side = turn % 2;
        double start = now();
        for (int j = 0; j < calls; j++)
            points_sum(side, pairs, out);
        double took = (now() - start) / calls / pairs;
        best[side] = took < best[side] ? took : best[side];
    }
    print_row(name, best);
}

int main(void)
{
    make_inputs();
    printf("C side by %s; p = %d, ns of CPU time, proved and C by turns, least of %d rounds. All answers agree.\n\n",
           COMPILER, P, ROUNDS);
    printf("| %-34s | %9s | %9s | %5s |\n|---|---:|---:|---:|\n", "call", "proved", "C", "ratio");
    for (int i = 0; i < ROWS; i++)
        time_points(i);
    time_sum("sum of 3 points, for each", 3, 100);
    time_sum("sum of 4,096 points, for each", PAIRS, 1);
    printf("\n");
    return 0;
}
