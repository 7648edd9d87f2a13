/* Test and times of quick.c.
     quick_test         every version against the general sum of core.c, and known terms of two sequences
     quick_test times   ns of CPU time for an operation, by each version
     quick_test alone VERSION sum|double N   N operations by one version, for a counter of instructions */
#define _POSIX_C_SOURCE 199309L
#include "core.h"
#include "field.h"
#include "quick.h"
#include <stdio.h>
#include <stdlib.h>
#include <string.h>
#include <time.h>

#ifndef COMPILER
#define COMPILER "an unnamed compiler"
#endif

static void fail(const char *what, const char *who)
{
    printf("%s: %s\n", who, what);
    exit(1);
}

/* ---- curves and records ---- */

static uint64_t seed = 20260801;

static uint32_t random_below(uint32_t m)
{
    seed = seed * 6364136223846793005u + 1442695040888963407u;
    return (uint32_t)((seed >> 32) % m);
}

struct set {
    struct curve general;
    struct quick_curve quick;
    struct record point; /* of kind 11 */
};

static void set_curve(struct set *s, uint32_t p, const uint32_t c[9])
{
    s->general = make_curve(p, 1, c);
    quick_prepare(&s->quick, p, c[3], c[4], c[7]);
}

/* A random nonsingular curve with c5 = c6 = c8 = 0 through a random point. */
static void random_set(struct set *s, uint32_t p)
{
    do {
        uint32_t c[9] = {0}, x = random_below(p), y = random_below(p), v;
        static const int free_places[5] = {1, 2, 3, 4, 7};
        for (int i = 0; i < 5; i++)
            c[free_places[i]] = random_below(p);
        uint32_t x2 = fmul(p, x, x), y2 = fmul(p, y, y), xy = fmul(p, x, y);
        v = fmul_add(p, y2, y, fmul(p, x2, x2));
        v = fmul_add(p, c[1], x, fmul_add(p, c[2], y, v));
        v = fmul_add(p, c[3], x2, fmul_add(p, c[4], xy, v));
        c[0] = fneg(p, fmul_add(p, c[7], fmul(p, x2, y), v));
        set_curve(s, p, c);
        s->point = (struct record){11, {fneg(p, x), fneg(p, y)}};
    } while (!nonsingular(&s->general));
}

/* A random multiple of the point. */
static struct record random_record(const struct set *s)
{
    return multiple(&s->general, &s->point, 1000 + random_below(2147483647));
}

static struct nine nine_of(const struct record *r)
{
    struct nine n;
    memcpy(n.n, r->n, sizeof n.n);
    return n;
}

/* ---- the versions against the general sum ---- */

struct served {
    long pairs, sums, doubles;
};

/* An answer is right, and there is one exactly if the first version gives one. */
static void check(const char *who, int answer, const struct nine *r, const struct record *right, int first)
{
    if (answer != first)
        fail("serves other pairs than the first version", who);
    if (answer && (right->kind != 31 || right->n[2] == 0 || memcmp(r->n, right->n, sizeof r->n) != 0))
        fail("wrong", who);
}

static void check_pair(const struct set *s, const struct record *a, const struct record *b, struct served *t)
{
    struct record sum_ab = sum(&s->general, a, b), twice_a = twice(&s->general, a);
    struct nine na = nine_of(a), nb = nine_of(b);
    int first_sum = 0, first_double = 0;
    for (int i = 0; i < QUICK_VERSIONS; i++) {
        struct nine r = na, q = na;
        int served_sum = quick_version[i].sum(&s->quick, &r, &nb, &r);
        first_sum = i == 0 ? served_sum : first_sum;
        check(quick_version[i].name, served_sum, &r, &sum_ab, first_sum);
        int served_double = quick_version[i].twice(&s->quick, &q, &q);
        first_double = i == 0 ? served_double : first_double;
        check(quick_version[i].name, served_double, &q, &twice_a, first_double);
    }
    t->pairs++;
    t->sums += first_sum;
    t->doubles += first_double;
}

static void compare(uint32_t p, int curves, int records)
{
    struct served t = {0, 0, 0};
    for (int i = 0; i < curves; i++) {
        struct set s;
        struct record a, b;
        random_set(&s, p);
        a = random_record(&s);
        for (int j = 0; j < records; j++) {
            b = random_record(&s);
            if (a.kind == 31 && b.kind == 31)
                check_pair(&s, &a, &b, &t);
            a = b;
        }
    }
    printf("p = %u: %ld pairs of kind 31, %ld sums and %ld doubles served, all right\n", p, t.pairs, t.sums, t.doubles);
}

/* Numbers that are 0, 1, p - 1, p - 2 or random, of divisors or not: all versions compute the same functions. */
static void extremes(uint32_t p)
{
    struct quick_curve c;
    struct nine ab[2], r[2], q[2];
    long served = 0, tries = 200000;
    for (long i = 0; i < tries; i++) {
        for (int j = 0; j < 18; j++) {
            uint32_t choice[6] = {0, 1, p - 1, p - 2, p - 1, random_below(p)};
            ab[j / 9].n[j % 9] = choice[random_below(6)];
        }
        uint32_t bits = random_below(8);
        quick_prepare(&c, p, bits % 2 * (p - 1), bits / 2 % 2 * (p - 1), bits / 4 * (p - 1));
        int sum_0 = quick_version[0].sum(&c, &ab[0], &ab[1], &r[0]), twice_0 = quick_version[0].twice(&c, &ab[0], &q[0]);
        for (int v = 1; v < QUICK_VERSIONS; v++) {
            int sum_v = quick_version[v].sum(&c, &ab[0], &ab[1], &r[1]), twice_v = quick_version[v].twice(&c, &ab[0], &q[1]);
            if (sum_v != sum_0 || twice_v != twice_0 || (sum_0 && memcmp(&r[0], &r[1], sizeof r[0]) != 0) ||
                (twice_0 && memcmp(&q[0], &q[1], sizeof q[0]) != 0))
                fail("differs from the first version", quick_version[v].name);
        }
        served += sum_0 + twice_0;
    }
    printf("p = %u: %ld results from extreme numbers, all versions agree\n", p, served);
}

/* ---- sequences ---- */

static const uint32_t paper_curve[9] = {65135542, 63973501, 56254855, 248132507, 141962734, 0, 0, 154267501, 0};
static const struct nine paper_d1 = {
    {235998213, 26531881, 210235455, 255282327, 87572390, 146578381, 13450942, 210148245, 9642394}};
static const struct nine paper_d2 = {
    {64403020, 200985767, 176922400, 97210118, 146832683, 176410447, 246544812, 257391833, 43402044}};
/* Terms 1000 and 100000 of D1, D2, D1 + D2, ... and of D1, 2 D1, 4 D1, ... */
static const struct nine fibonacci_terms[2] = {
    {{182177383, 259135969, 147974876, 66490817, 139303654, 160273811, 117244707, 35821711, 252718343}},
    {{226097682, 14867583, 248661167, 91971055, 58240935, 250816897, 76986126, 3335946, 46935855}}};
static const struct nine doubling_terms[2] = {
    {{57608037, 174789285, 38201215, 263599240, 159904917, 209475238, 213256843, 198944248, 126583348}},
    {{164263149, 82901221, 64495473, 98273313, 51365327, 195844460, 35560876, 137166019, 930776}}};

/* Of *a, *b, *a + *b, ... n terms more, so that *a and *b are the last two; 0 if one is not served. */
static int fibonacci(const struct quick_curve *c, quick_sum *f, struct nine *a, struct nine *b, int n)
{
    struct nine x = *a, y = *b;
    int served = 1;
    for (; n >= 2; n -= 2)
        served &= f(c, &x, &y, &x) & f(c, &y, &x, &y);
    if (n == 1) {
        struct nine z;
        served &= f(c, &x, &y, &z);
        x = y;
        y = z;
    }
    *a = x;
    *b = y;
    return served;
}

static int doubling(const struct quick_curve *c, quick_double *f, struct nine *a, int n)
{
    int served = 1;
    for (; n > 0; n--)
        served &= f(c, a, a);
    return served;
}

static void sequences(void)
{
    struct set s;
    set_curve(&s, 268435399, paper_curve);
    for (int i = 0; i < QUICK_VERSIONS; i++) {
        struct nine a = paper_d1, b = paper_d2, d = paper_d1;
        for (int j = 0; j < 2; j++) {
            if (!fibonacci(&s.quick, quick_version[i].sum, &a, &b, j == 0 ? 998 : 99000) ||
                memcmp(&b, &fibonacci_terms[j], sizeof b) != 0)
                fail("Fibonacci terms differ", quick_version[i].name);
            if (!doubling(&s.quick, quick_version[i].twice, &d, j == 0 ? 999 : 99000) ||
                memcmp(&d, &doubling_terms[j], sizeof d) != 0)
                fail("doubling terms differ", quick_version[i].name);
        }
    }
    printf("p = 268435399: terms 1000 and 100000 of both sequences are right\n");
}

/* ---- times ---- */

enum { RECORDS = 512, CHAIN = 1000, ROUNDS = 400 };

static double now(void)
{
    struct timespec t;
    clock_gettime(CLOCK_PROCESS_CPUTIME_ID, &t);
    return 1e9 * (double)t.tv_sec + (double)t.tv_nsec;
}

static struct nine array[RECORDS], result[RECORDS];

/* ns of one operation: a chain of sums, independent sums, a chain of doubles, independent doubles. */
static double once(const struct quick_curve *c, int v, int what)
{
    struct nine a = array[0], b = array[1];
    int served = 1, n = what % 2 == 0 ? CHAIN : RECORDS;
    double t = now();
    if (what == 0)
        served = fibonacci(c, quick_version[v].sum, &a, &b, n);
    else if (what == 2)
        served = doubling(c, quick_version[v].twice, &a, n);
    else
        for (int i = 0; i < n; i++)
            served &= what == 1 ? quick_version[v].sum(c, &array[i], &array[(i + 1) % RECORDS], &result[i])
                                : quick_version[v].twice(c, &array[i], &result[i]);
    t = now() - t;
    if (!served)
        fail("not served", quick_version[v].name);
    return t / n;
}

static void times(const struct set *s)
{
    double best[QUICK_VERSIONS][4];
    for (int v = 0; v < QUICK_VERSIONS; v++)
        for (int what = 0; what < 4; what++)
            best[v][what] = 1e30;
    for (int i = 0; i < RECORDS; i++) {
        struct record r = random_record(s);
        array[i] = nine_of(&r);
    }
    for (int round = 0; round < ROUNDS; round++)
        for (int v = 0; v < QUICK_VERSIONS; v++)
            for (int what = 0; what < 4; what++) {
                double t = once(&s->quick, v, what);
                best[v][what] = t < best[v][what] ? t : best[v][what];
            }
    printf("\n| %s, p = %-10u | sum, chain | sum, array | double, chain | double, array |\n", COMPILER,
           (unsigned)s->quick.p);
    printf("|---|---:|---:|---:|---:|\n");
    for (int v = 0; v < QUICK_VERSIONS; v++)
        printf("| %-10s | %5.1f | %5.1f | %5.1f | %5.1f |\n", quick_version[v].name, best[v][0], best[v][1], best[v][2],
               best[v][3]);
}

/* One version of one operation n times. */
static int alone(const char *name, const char *operation, int n)
{
    struct set s;
    struct nine a = paper_d1, b = paper_d2;
    set_curve(&s, 268435399, paper_curve);
    for (int v = 0; v < QUICK_VERSIONS; v++)
        if (strcmp(name, quick_version[v].name) == 0)
            return strcmp(operation, "sum") == 0 ? !fibonacci(&s.quick, quick_version[v].sum, &a, &b, n)
                                                 : !doubling(&s.quick, quick_version[v].twice, &a, n);
    fail("no such version", name);
    return 1;
}

int main(int argc, char **argv)
{
    static const uint32_t prime[7] = {2147483647, 268435399, 1009, 101, 11, 7, 5};
    if (argc == 5 && strcmp(argv[1], "alone") == 0)
        return alone(argv[2], argv[3], atoi(argv[4]));
    if (argc > 1 && strcmp(argv[1], "times") == 0) {
        for (int i = 0; i < 2; i++) {
            struct set s;
            random_set(&s, prime[i]);
            times(&s);
        }
        return 0;
    }
    for (int i = 0; i < 7; i++)
        compare(prime[i], 20, 500);
    extremes(2147483647);
    extremes(2147483629);
    sequences();
    return 0;
}
