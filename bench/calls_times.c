/* Times of fourteen calls of libc34.a and of the same calls in C, by turns in one run on the same inputs, and
   ratios. The parts of a call are differences of calls' times. For the calls on what two divisors have in common there
   are also ratios to the sum of the same two.
     calls_times [NS]       prints all tables; NS is Singular's time of a bare sum, left out where it is not known
     calls_times short      prints the tables without the sequences
     calls_times parts      prints the table of the parts and that of the ratios to a sum
     calls_times singular   prints a Singular program that times bare sums of the same records and prints NS
   Every answer and every result buffer of the two sides must be equal. COMPILER names the compiler of the C side. */
#define _POSIX_C_SOURCE 199309L
#include "c34.h"
#include "calls.c"
#include "overlap_calls.c"
#include "calls_sets.c"
#include <time.h>

#ifndef COMPILER
#define COMPILER "an unnamed compiler"
#endif

enum { ROUNDS = 100, CHUNK = 1000, SINGULAR_SUMS = 1000, SINGULAR_TURNS = 5 };

/* ---- the calls on record i of a set ---- */

typedef int32_t call(const struct set *, int, uint8_t *);

#define CURVE s->curve, s->curve_len
#define RECORD(i) s->rec[(i) % RECORDS], s->len[(i) % RECORDS]
#define LIST s->list, s->list_len
#define BOTH_AS(label, name, ...)                                           \
    static int32_t proved_##label(const struct set *s, int i, uint8_t *out) \
    {                                                                       \
        (void)i, (void)out;                                                 \
        return c34_##name(__VA_ARGS__);                                     \
    }                                                                       \
    static int32_t plain_##label(const struct set *s, int i, uint8_t *out)  \
    {                                                                       \
        (void)i, (void)out;                                                 \
        return base_##name(__VA_ARGS__);                                    \
    }
#define BOTH(name, ...) BOTH_AS(name, name, __VA_ARGS__)

BOTH(check_curve, CURVE)
BOTH(check_divisor, CURVE, RECORD(i))
BOTH(sum, CURVE, RECORD(i), RECORD(i + 1), out, 40)
BOTH(double, CURVE, RECORD(i), out, 40)
BOTH(negative, CURVE, RECORD(i), out, 40)
BOTH(compare, CURVE, RECORD(i), RECORD(i / 2 * 2))
BOTH(compare_words, CURVE, RECORD(i), RECORD(i / 2 * 2))
BOTH(count, CURVE, LIST, 31)
BOTH(list_sum, CURVE, LIST, out, 40)
BOTH(multiple, CURVE, RECORD(i), s->n[i % MULTIPLES], out, 40)
BOTH(reduce_curve, s->fractions[i % RECORDS], 76, read_u32(s->curve + 4), out, 44)
BOTH(common_part, CURVE, RECORD(i), RECORD(i + 1), out, 40)
BOTH(common_multiple, CURVE, RECORD(i), RECORD(i + 1), out, 40)
BOTH(sum_by_parts, CURVE, RECORD(i), RECORD(i + 1), out, 40)
BOTH_AS(sum_equal, sum, CURVE, RECORD(i), RECORD(i), out, 40)
BOTH_AS(by_parts_equal, sum_by_parts, CURVE, RECORD(i), RECORD(i), out, 40)
/* What comes before the test whether the curve is singular. */
BOTH_AS(refused_curve, check_curve, s->refused, s->curve_len)

enum {
    CHECK_CURVE,
    CHECK_DIVISOR,
    SUM,
    DOUBLE,
    NEGATIVE,
    COMPARE,
    COMPARE_WORDS,
    COUNT_KIND,
    LIST_SUM,
    MULTIPLE,
    REDUCE_CURVE,
    COMMON_PART,
    COMMON_MULTIPLE,
    SUM_BY_PARTS,
    SUM_EQUAL,
    BY_PARTS_EQUAL,
    REFUSED_CURVE,
    CALLS
};

enum { OUT = 44 }; /* the longest record that is written */

#define ROW(name) #name, {proved_##name, plain_##name}
static const struct {
    const char *name;
    call *side[2]; /* proved, C */
    int inputs;
    int32_t refusal; /* what the call returns if it is refused, else 0 */
} row[CALLS] = {
    {ROW(check_curve), RECORDS, 0}, {ROW(check_divisor), RECORDS, 0}, {ROW(sum), RECORDS, 0},
    {ROW(double), RECORDS, 0},      {ROW(negative), RECORDS, 0},      {ROW(compare), RECORDS, 0},
    {ROW(compare_words), RECORDS, 0},
    {ROW(count), 1, 0},             {ROW(list_sum), 1, 0},            {ROW(multiple), MULTIPLES, 0},
    {ROW(reduce_curve), RECORDS, 0},
    {ROW(common_part), RECORDS, 0}, {ROW(common_multiple), RECORDS, 0}, {ROW(sum_by_parts), RECORDS, 0},
    {"sum, a = b", {proved_sum_equal, plain_sum_equal}, RECORDS, 0},
    {"sum_by_parts, a = b", {proved_by_parts_equal, plain_by_parts_equal}, RECORDS, 0},
    {"check_curve, refused with 4", {proved_refused_curve, plain_refused_curve}, RECORDS, -4},
};

/* ---- times ---- */

/* ns of both sides: proved, C. */
struct times {
    double side[2];
};

static double now(void)
{
    struct timespec s;
    clock_gettime(CLOCK_PROCESS_CPUTIME_ID, &s);
    return 1e9 * (double)s.tv_sec + (double)s.tv_nsec;
}

static void same_answers(int k, const struct set *s)
{
    for (int i = 0; i < row[k].inputs; i++) {
        uint8_t out[2][OUT];
        memset(out, 170, sizeof out);
        int32_t a = row[k].side[0](s, i, out[0]), b = row[k].side[1](s, i, out[1]);
        if ((a < 0 && a != row[k].refusal) || a != b || memcmp(out[0], out[1], OUT) != 0)
            fail(row[k].name);
    }
}

/* The calls' times: for each set the least time of a turn over a call's inputs, then the mean over the sets. The turns
   of all calls and both sides are mixed, so that differences of two calls' times have a meaning. */
static void timed(const struct set *sets, int count, int rounds, struct times mean[CALLS])
{
    memset(mean, 0, CALLS * sizeof mean[0]);
    for (int j = 0; j < count; j++) {
        double best[CALLS][2];
        for (int k = 0; k < CALLS; k++) {
            same_answers(k, &sets[j]);
            best[k][0] = best[k][1] = 1e18;
        }
        for (int turn = 0; turn < rounds * CALLS * 2; turn++) {
            uint8_t out[OUT];
            int side = turn % 2, k = turn / 2 % CALLS;
            double start = now();
            for (int i = 0; i < row[k].inputs; i++)
                row[k].side[side](&sets[j], i, out);
            double took = (now() - start) / row[k].inputs;
            best[k][side] = took < best[k][side] ? took : best[k][side];
        }
        for (int k = 0; k < CALLS; k++)
            for (int side = 0; side < 2; side++)
                mean[k].side[side] += best[k][side] / count;
    }
}

/* x + m y */
static struct times plus(struct times x, double m, struct times y)
{
    return (struct times){{x.side[0] + m * y.side[0], x.side[1] + m * y.side[1]}};
}

static struct times over(struct times x, double m)
{
    return (struct times){{x.side[0] / m, x.side[1] / m}};
}

static void print_row(const char *name, struct times a, struct times b)
{
    printf("| %-34s | %9.0f | %9.0f | %5.2f | %9.0f | %9.0f | %5.2f |\n", name, a.side[0], a.side[1],
           a.side[0] / a.side[1], b.side[0], b.side[1], b.side[0] / b.side[1]);
}

static void print_head(const char *name)
{
    printf("\n| %-34s | %9s | %9s | %5s | %9s | %9s | %5s |\n", name, "proved", "C", "ratio", "proved", "C", "ratio");
    printf("|---|---:|---:|---:|---:|---:|---:|\n");
}

/* ---- sequences ---- */

static const uint32_t fibonacci_1000[9] = {182177383, 259135969, 147974876, 66490817, 139303654,
                                           160273811, 117244707, 35821711,  252718343};
static const uint32_t fibonacci_100000[9] = {226097682, 14867583, 248661167, 91971055, 58240935,
                                             250816897, 76986126, 3335946,   46935855};
static const uint32_t doubling_1000[9] = {57608037,  174789285, 38201215,  263599240, 159904917,
                                          209475238, 213256843, 198944248, 126583348};
static const uint32_t doubling_100000[9] = {164263149, 82901221, 64495473,  98273313, 51365327,
                                            195844460, 35560876, 137166019, 930776};

/* The terms of a sequence up to the given one: the last two (Fibonacci) are records 0 and 1, the last one (doubling) is
   record 0. Returns how many new terms are not of kind 31. */
static int advance(struct set *s, int k, int side, int from, int to)
{
    int others = 0;
    for (int term = from; term < to; term++) {
        uint8_t out[40];
        int32_t len = row[k].side[side](s, 0, out);
        if (len < 0)
            fail("a term was refused");
        int last = k == SUM ? 1 : 0;
        if (last == 1) {
            memcpy(s->rec[0], s->rec[1], 40);
            s->len[0] = s->len[1];
        }
        memcpy(s->rec[last], out, 40);
        s->len[last] = (size_t)len;
        others += len != 40;
    }
    return others;
}

static void expect(const struct set *s, int k, const uint32_t n[9])
{
    for (int i = 0; i < 9; i++)
        if (read_u32(s->rec[k == SUM ? 1 : 0] + 4 + 4 * i) != n[i])
            fail("a term differs from its check value");
}

struct sequence {
    struct times ns;   /* of a term */
    int terms, others; /* computed terms, and how many of them are not of kind 31 */
};

/* D1, D2, D1 + D2, ... (k = SUM) or D1, 2 D1, 4 D1, ... (k = DOUBLE) up to a term, by chunks, both sides by turns; of
   each chunk the least time of three counts. */
static struct sequence sequence(const struct set *start, int k, int last, const uint32_t *at_1000,
                                const uint32_t *at_100000)
{
    static struct set s[2], before;
    struct sequence q = {{{0, 0}}, 0, 0};
    s[0] = s[1] = *start;
    int from = k == SUM ? 2 : 1;
    q.terms = last - from;
    for (int to = CHUNK; to <= last; from = to, to += CHUNK) {
        double best[2] = {1e18, 1e18};
        before = s[0];
        for (int turn = 0; turn < 6; turn++) {
            int side = turn % 2;
            s[side] = before;
            double t = now();
            int others = advance(&s[side], k, side, from, to);
            t = now() - t;
            best[side] = t < best[side] ? t : best[side];
            q.others += turn == 0 ? others : 0;
        }
        if (memcmp(&s[0], &s[1], sizeof s[0]) != 0)
            fail("the sequences differ");
        if (to == 1000 && at_1000 != NULL)
            expect(&s[0], k, at_1000);
        if (to == 100000 && at_100000 != NULL)
            expect(&s[0], k, at_100000);
        for (int side = 0; side < 2; side++)
            q.ns.side[side] += best[side] / q.terms;
    }
    return q;
}

static void print_sequence(const char *name, const char *p, struct sequence q)
{
    printf("| %-9s | %-10s | %7d | %7.3f | %9.0f | %9.0f | %5.2f | %9.0f |\n", name, p, q.terms,
           100.0 * q.others / q.terms, q.ns.side[0], q.ns.side[1], q.ns.side[0] / q.ns.side[1], 1e9 / q.ns.side[0]);
}

static struct sequence small_sequences(int k, int last)
{
    struct sequence all = {{{0, 0}}, 0, 0};
    for (int j = 0; j < PRIMES; j++) {
        struct sequence q = sequence(&small[j], k, last, NULL, NULL);
        all.ns = plus(all.ns, 1.0 / PRIMES, q.ns);
        all.terms += q.terms;
        all.others += q.others;
    }
    return all;
}

/* ---- Singular ---- */

static void print_record(const uint8_t *b, const char *between)
{
    printf("%u", read_u16(b + 2));
    for (unsigned i = 4; i < read_u16(b); i += 4)
        printf("%s%u", i == 4 ? between : ",", read_u32(b + i));
}

/* Bare sums of the records by definition.sing, results compared with the library's after the clock has stopped. */
static void singular_program(const struct set *s)
{
    uint32_t c[9];
    for (int i = 0; i < 9; i++)
        c[i] = read_u32(s->curve + 8 + 4 * i);
    printf("< \"tests/singular/definition.sing\";\n");
    printf("ring R = %u,(y,x),wp(4,3);\n", read_u32(s->curve + 4));
    printf("qring Q = std(ideal(y^3+x^4+%u*x*y^2+%u*x^2*y+%u*x^3+%u*y^2+%u*x*y+%u*x^2+%u*y+%u*x+%u));\n", c[8], c[7],
           c[6], c[5], c[4], c[3], c[2], c[1], c[0]);
    printf("list A; list S;\n");
    for (int i = 0; i < RECORDS; i++) {
        uint8_t out[40];
        proved_sum(s, i, out);
        printf("A[%d] = ideal_of(intvec(", i + 1);
        print_record(s->rec[i], ",");
        printf("));\nS[%d] = \"%u ", i + 1, read_u16(out));
        print_record(out, ":");
        printf("\";\n");
    }
    printf("list T; int h; int i; int j; int k; int t; int least_t = 2147483647;\n"
           "system(\"--ticks-per-sec\", 1000000);\n"
           "for (h = 0; h < %d; h++)\n"
           "{\n"
           "  t = timer;\n"
           "  for (i = 0; i < %d; i++) { j = i %% %d; k = (i + 1) %% %d; T[j + 1] = reduced(A[j + 1] * A[k + 1]); }\n"
           "  t = timer - t;\n"
           "  if (t < least_t) { least_t = t; }\n"
           "}\n"
           "for (i = 1; i <= %d; i++) { if (record_text(T[i]) != S[i]) { \"a sum differs\"; quit; } }\n"
           "bigint(least_t) * 1000 div %d;\n",
           SINGULAR_TURNS, SINGULAR_SUMS, RECORDS, RECORDS, RECORDS, SINGULAR_SUMS);
}

/* ---- the tables ---- */

/* The mean number of sums of two nonzero classes in a multiple. */
static double operations(const struct set *s)
{
    double sum = 0;
    for (int i = 0; i < MULTIPLES; i++)
        sum += 62 + __builtin_popcountll((uint64_t)s->n[i]) - 1;
    return sum / MULTIPLES;
}

static double mean_operations(void)
{
    double sum = 0;
    for (int j = 0; j < PRIMES; j++)
        sum += operations(&small[j]);
    return sum / PRIMES;
}

/* The times of the calls at p = 2147483647, and their means over the primes below 256. */
static struct times at_large[CALLS], at_small[CALLS];

static void print_calls(void)
{
    print_head("call");
    for (int k = 0; k < CALLS; k++)
        print_row(row[k].name, at_large[k], at_small[k]);
}

/* A divisor's check. */
static struct times check(const struct times a[CALLS])
{
    return over(plus(a[COUNT_KIND], -1, a[CHECK_CURVE]), LISTED);
}

/* A call on two divisors without its checks. */
static struct times bare(const struct times a[CALLS], int k)
{
    return plus(plus(a[k], -1, a[CHECK_CURVE]), -2, check(a));
}

/* What follows from the times of the calls. */
struct parts {
    struct times singular, check, star, sum, fractions;
};

static struct parts parts(const struct times a[CALLS])
{
    struct parts t;
    t.singular = plus(a[CHECK_CURVE], -1, a[REFUSED_CURVE]);
    t.check = check(a);
    t.star = plus(a[NEGATIVE], -1, a[CHECK_DIVISOR]);
    t.sum = bare(a, SUM);
    t.fractions = plus(a[REDUCE_CURVE], -1, a[CHECK_CURVE]);
    return t;
}

/* Prints the parts; returns the times of a bare sum at p = 2147483647. */
static struct times print_parts(void)
{
    const struct times *a = at_large, *b = at_small;
    struct parts t = parts(a), u = parts(b);
    print_head("part, from the calls' times");
    print_row("test whether the curve is singular", t.singular, u.singular);
    print_row("divisor's check, from count", t.check, u.check);
    print_row("star of a record, from negative", t.star, u.star);
    print_row("bare sum: sum without its checks", t.sum, u.sum);
    print_row("product and its star, from the two", plus(t.sum, -1, t.star), plus(u.sum, -1, u.star));
    print_row("list_sum, per record", over(a[LIST_SUM], LISTED), over(b[LIST_SUM], LISTED));
    print_row("list_sum less count, per record", over(plus(a[LIST_SUM], -1, a[COUNT_KIND]), LISTED),
              over(plus(b[LIST_SUM], -1, b[COUNT_KIND]), LISTED));
    print_row("multiple, per doubling or addition", over(a[MULTIPLE], operations(&large)),
              over(b[MULTIPLE], mean_operations()));
    print_row("reduce_curve less check_curve", t.fractions, u.fractions);
    printf("\n"
           "Share of the checks (curve and both divisors) in a sum call: at p = 2147483647 proved %.0f %%, C %.0f %%,\n"
           "below 256 proved %.0f %%, C %.0f %%.\n\n",
           100 - 100 * t.sum.side[0] / a[SUM].side[0], 100 - 100 * t.sum.side[1] / a[SUM].side[1],
           100 - 100 * u.sum.side[0] / b[SUM].side[0], 100 - 100 * u.sum.side[1] / b[SUM].side[1]);
    return t.sum;
}

static void print_ratio(const char *name, struct times a, struct times a_sum, struct times b, struct times b_sum)
{
    printf("| %-34s | %9.2f | %9.2f | %9.2f | %9.2f |\n", name, a.side[0] / a_sum.side[0], a.side[1] / a_sum.side[1],
           b.side[0] / b_sum.side[0], b.side[1] / b_sum.side[1]);
}

/* The calls on what two divisors have in common: their times over that of the sum of the same two divisors. */
static void print_ratios(void)
{
    static const int of[4][2] = {
        {COMMON_PART, SUM}, {COMMON_MULTIPLE, SUM}, {SUM_BY_PARTS, SUM}, {BY_PARTS_EQUAL, SUM_EQUAL}};
    const struct times *a = at_large, *b = at_small;
    printf("| %-34s | %9s | %9s | %9s | %9s |\n", "time over that of a sum", "proved", "C", "proved", "C");
    printf("|---|---:|---:|---:|---:|\n");
    for (int i = 0; i < 4; i++)
        print_ratio(row[of[i][0]].name, a[of[i][0]], a[of[i][1]], b[of[i][0]], b[of[i][1]]);
    for (int i = 0; i < 4; i++) {
        char name[64];
        snprintf(name, sizeof name, "%s, no checks", row[of[i][0]].name);
        print_ratio(name, bare(a, of[i][0]), bare(a, of[i][1]), bare(b, of[i][0]), bare(b, of[i][1]));
    }
    printf("\n");
}

static void print_sequences(void)
{
    printf("Sequences by the calls sum and double, each term a call with all its checks; ns a term.\n\n");
    printf("| %-9s | %-10s | %7s | %7s | %9s | %9s | %5s | %9s |\n", "sequence", "p", "terms", "% other", "proved", "C",
           "ratio", "proved/s");
    printf("|---|---|---:|---:|---:|---:|---:|---:|\n");
    print_sequence("Fibonacci", "268435399", sequence(&paper, SUM, 100000, fibonacci_1000, fibonacci_100000));
    print_sequence("doubling", "268435399", sequence(&paper, DOUBLE, 100000, doubling_1000, doubling_100000));
    print_sequence("Fibonacci", "2147483647", sequence(&large, SUM, 20000, NULL, NULL));
    print_sequence("doubling", "2147483647", sequence(&large, DOUBLE, 20000, NULL, NULL));
    print_sequence("Fibonacci", "197 to 251", small_sequences(SUM, 10000));
    print_sequence("doubling", "197 to 251", small_sequences(DOUBLE, 10000));
    printf("\n"
           "%% other: terms of another kind than 31. At p = 268435399 the input is that of document 002, section\n"
           "12.3, and terms 1000 and 100000 of both sequences are the known ones.\n\n");
}

static void print_notes(void)
{
    printf("Where the two sides differ. Primality: every call checks its curve, and with it that p is a prime.\n"
           "The C side bisects a table of primes and multiplies by their inverses; the library scans tables of\n"
           "its own, which is faster at p = 2147483647 and slower below 256, so the ratios of whole calls are\n"
           "also those of two primality tests. The parts are free of it, but for a %d-th of it in list_sum per\n"
           "record and a 90-th in multiple. The zero class: a sum with it, of which a list and a multiple have\n"
           "one, is a general sum in C and a copy in the library. Compilers: the library is compiled through\n"
           "LLVM, which among other things takes a 32-bit division where the numbers allow it, as clang does and\n"
           "gcc does not; the ratio to clang is the one that compares the programs.\n\n",
           LISTED);
}

int main(int argc, char **argv)
{
    const char *mode = argc > 1 ? argv[1] : "";
    make_sets();
    if (strcmp(mode, "singular") == 0) {
        singular_program(&large);
        return 0;
    }
    timed(&large, 1, ROUNDS, at_large);
    timed(small, PRIMES, ROUNDS / 4, at_small);
    printf("C side by %s; ns of CPU time, proved and C by turns, least of %d. Left: p = 2147483647, a random\n"
           "curve, random records of kind 31. Right: mean over the ten primes from 197 to 251, random records.\n"
           "Lists of %d records, multipliers of 63 bits (%.0f doublings and additions), fractions of 32-bit numbers\n"
           "that give the curve modulo p. All answers agree.\n",
           COMPILER, ROUNDS, LISTED, operations(&large));
    if (strcmp(mode, "parts") != 0)
        print_calls();
    struct times bare_sum = print_parts();
    print_ratios();
    if (strcmp(mode, "short") == 0 || strcmp(mode, "parts") == 0)
        return 0;
    print_sequences();
    print_notes();
    if (atof(mode) > 0)
        printf("Singular, bare sums of the records on the left by the definitions, in one process, least of %d turns\n"
               "of %d sums: %.0f ns a sum, %.0f times the library's bare sum.\n\n",
               SINGULAR_TURNS, SINGULAR_SUMS, atof(mode), atof(mode) / bare_sum.side[0]);
    else
        printf("Singular: not installed, no time of its sums.\n\n");
    return 0;
}
