/* Times of the usual sum: what a sum and a double by value take inside the calls of libc34.a, against the same formulas
   in C (quick.c) and against the plain sum in C (core.c), in one run: quick_times. ns of CPU time, least of many rounds.
   By value: for a sum the multiple by 2^62 - 1 less that by 2^61, for each of its 61 sums; for a double the multiple by
   2^61 less that by 1, for each doubling. In a list: a list sum less a count of the same list, for each record. All
   results are compared. */
#define _POSIX_C_SOURCE 199309L
#include "c34.h"
#include "core.h"
#include "field.h"
#include "quick.h"
#include <stdio.h>
#include <stdlib.h>
#include <string.h>
#include <time.h>

#ifndef COMPILER
#define COMPILER "an unnamed compiler"
#endif

enum { RECORDS = 800, DOUBLINGS = 61, ROUNDS = 300, CURVE = 44, RECORD = 40 };

struct input {
    uint32_t p, c[9], n[9];
};

/* The input of document 002, section 12.3. */
static const struct input paper = {
    268435399, {65135542, 63973501, 56254855, 248132507, 141962734, 0, 0, 154267501, 0},
    {235998213, 26531881, 210235455, 255282327, 87572390, 146578381, 13450942, 210148245, 9642394},
};

static double now(void)
{
    struct timespec t;
    clock_gettime(CLOCK_PROCESS_CPUTIME_ID, &t);
    return (double)t.tv_sec * 1e9 + (double)t.tv_nsec;
}

static void fail(const char *what)
{
    printf("quick_times: %s\n", what);
    exit(1);
}

static void put(uint8_t *out, unsigned length, unsigned kind, const uint32_t *numbers, int count)
{
    out[0] = (uint8_t)length;
    out[1] = 0;
    out[2] = (uint8_t)kind;
    out[3] = 0;
    for (int i = 0; i < count; i++)
        for (int j = 0; j < 4; j++)
            out[4 + 4 * i + j] = (uint8_t)(numbers[i] >> (8 * j));
}

/* The numbers of a record of kind 31. */
static void get(const uint8_t *record, uint32_t numbers[9])
{
    for (int i = 0; i < 9; i++) {
        numbers[i] = 0;
        for (int j = 3; j >= 0; j--)
            numbers[i] = numbers[i] << 8 | record[4 + 4 * i + j];
    }
}

static uint64_t seed = 20260808;

static uint32_t random_below(uint32_t m)
{
    seed = seed * 6364136223846793005u + 1442695040888963407u;
    return (uint32_t)((seed >> 32) % m);
}

/* A curve with c5 = c6 = c8 = 0 through a random point, and a multiple of the point. */
static struct input random_input(uint32_t p)
{
    for (;;) {
        struct input in = {p, {0}, {0}};
        uint32_t x = random_below(p), y = random_below(p);
        for (int i = 1; i < 9; i++)
            in.c[i] = i == 5 || i == 6 || i == 8 ? 0 : random_below(p);
        uint64_t xx = (uint64_t)x * x % p, yy = (uint64_t)y * y % p;
        uint64_t v = (yy * y + xx * xx % p + (uint64_t)in.c[7] * (xx * y % p) % p) % p;
        v = (v + (uint64_t)in.c[4] * ((uint64_t)x * y % p) + (uint64_t)in.c[3] * xx % p) % p;
        v = (v + (uint64_t)in.c[2] * y % p + (uint64_t)in.c[1] * x % p) % p;
        in.c[0] = (uint32_t)((p - v) % p);
        uint8_t curve[CURVE], point[12], out[RECORD];
        uint32_t numbers[10] = {p};
        memcpy(numbers + 1, in.c, sizeof in.c);
        put(curve, CURVE, C34_CURVE, numbers, 10);
        uint32_t coordinates[2] = {(p - x) % p, (p - y) % p};
        put(point, 12, C34_KIND_11, coordinates, 2);
        if (c34_multiple(curve, CURVE, point, 12, 1000003, out, RECORD) != RECORD)
            continue;
        get(out, in.n);
        return in;
    }
}

static void least(double *best, double t)
{
    if (t < *best)
        *best = t;
}

/* ns of one multiple. */
static double multiple_time(const uint8_t *curve, const uint8_t *record, int64_t n, uint8_t *out)
{
    double t = now();
    if (c34_multiple(curve, CURVE, record, RECORD, n, out, RECORD) != RECORD)
        fail("a multiple is not of kind 31");
    return now() - t;
}

static void same(const struct nine *s, const uint8_t *out, const char *what)
{
    uint8_t copy[RECORD];
    put(copy, RECORD, C34_KIND_31, s->n, 9);
    if (memcmp(copy, out, RECORD) != 0)
        fail(what);
}

/* The multiple by 2^(DOUBLINGS + 1) - 1, by doubling and adding. */
static struct nine all_ones(const struct quick_curve *q, int version, const struct nine *a)
{
    struct nine sum = *a, power = *a;
    for (int i = 0; i < DOUBLINGS; i++)
        if (!quick_version[version].twice(q, &power, &power) || !quick_version[version].sum(q, &sum, &power, &sum))
            fail("a sum or a double is not served");
    return sum;
}

static void one(const struct input *in)
{
    static uint8_t list[RECORDS * RECORD];
    static struct nine nine[RECORDS];
    static struct record record[RECORDS];
    uint8_t curve[CURVE], out[RECORD], other[RECORD];
    uint32_t numbers[10] = {in->p};
    struct quick_curve q;
    struct curve general = make_curve(in->p, 1, in->c);
    memcpy(numbers + 1, in->c, sizeof in->c);
    put(curve, CURVE, C34_CURVE, numbers, 10);
    quick_prepare(&q, in->p, in->c[3], in->c[4], in->c[7]);
    put(list, RECORD, C34_KIND_31, in->n, 9);
    memcpy(nine[0].n, in->n, sizeof in->n);
    /* The second record is three times the first, and each other one twice the one before it. */
    for (int i = 1; i < RECORDS; i++) {
        if (c34_multiple(curve, CURVE, list + (i - 1) * RECORD, RECORD, i == 1 ? 3 : 2, out, RECORD) != RECORD)
            fail("a record is not of kind 31");
        memcpy(list + i * RECORD, out, RECORD);
        get(out, nine[i].n);
    }
    for (int i = 0; i < RECORDS; i++) {
        record[i].kind = 31;
        memcpy(record[i].n, nine[i].n, sizeof record[i].n);
    }
    double sums = 1e18, count = 1e18, ones = 1e18, twice = 1e18, single = 1e18, plain = 1e18, c_sum[QUICK_VERSIONS], c_double[QUICK_VERSIONS];
    for (int k = 0; k < QUICK_VERSIONS; k++)
        c_sum[k] = c_double[k] = 1e18;
    for (int r = 0; r < ROUNDS; r++) {
        double t = now();
        if (c34_list_sum(curve, CURVE, list, sizeof list, out, RECORD) != RECORD)
            fail("a list sum is not of kind 31");
        least(&sums, now() - t);
        t = now();
        if (c34_count(curve, CURVE, list, sizeof list, 31) != RECORDS)
            fail("a count is wrong");
        least(&count, now() - t);
        for (int k = 0; k < QUICK_VERSIONS; k++) {
            struct nine s = nine[0];
            t = now();
            for (int i = 1; i < RECORDS; i++)
                if (!quick_version[k].sum(&q, &nine[i], &s, &s))
                    fail("a sum is not served");
            least(&c_sum[k], now() - t);
            same(&s, out, "a list sum differs from that of the library");
        }
        least(&ones, multiple_time(curve, list, (INT64_C(1) << (DOUBLINGS + 1)) - 1, other));
        for (int k = 0; k < QUICK_VERSIONS; k++) {
            struct nine s = all_ones(&q, k, &nine[0]);
            same(&s, other, "a multiple of sums differs from that of the library");
        }
        least(&single, multiple_time(curve, list, 1, other));
        same(&nine[0], other, "a multiple by 1 differs from the record");
        least(&twice, multiple_time(curve, list, INT64_C(1) << DOUBLINGS, out));
        for (int k = 0; k < QUICK_VERSIONS; k++) {
            struct nine s = nine[0];
            t = now();
            for (int i = 0; i < DOUBLINGS; i++)
                if (!quick_version[k].twice(&q, &s, &s))
                    fail("a double is not served");
            least(&c_double[k], now() - t);
            same(&s, out, "a multiple differs from that of the library");
        }
        if (r < 3) {
            struct record s = record[0];
            t = now();
            for (int i = 1; i < RECORDS; i++)
                s = sum(&general, &record[i], &s);
            least(&plain, now() - t);
        }
    }
    double best_sum = 1e18, best_double = 1e18;
    for (int k = 0; k < QUICK_VERSIONS; k++) {
        printf("| C, %-10s | %10u | %6.0f | %6.0f |\n", quick_version[k].name, in->p, c_sum[k] / (RECORDS - 1), c_double[k] / DOUBLINGS);
        least(&best_sum, c_sum[k] / (RECORDS - 1));
        least(&best_double, c_double[k] / DOUBLINGS);
    }
    double by_value = (ones - twice) / DOUBLINGS, doubled = (twice - single) / DOUBLINGS;
    double in_list = (sums - count) / (RECORDS - 1);
    printf("| proved, by value | %10u | %6.0f | %6.0f |\n", in->p, by_value, doubled);
    printf("| its ratio to the best C | %10u | %6.2f | %6.2f |\n", in->p, by_value / best_sum, doubled / best_double);
    printf("| proved, in a list | %10u | %6.0f | |\n", in->p, in_list);
    printf("| its ratio to the best C | %10u | %6.2f | |\n", in->p, in_list / best_sum);
    printf("| its ratio to the plain sum in C, %.0f ns | %10u | %6.3f | |\n", plain / (RECORDS - 1), in->p, in_list / (plain / (RECORDS - 1)));
    printf("| list sum, multiple, per operation, to the best C and the checks | %10u | %6.2f | %6.2f |\n", in->p,
           (sums / RECORDS) / (best_sum + count / RECORDS), twice / (best_double * DOUBLINGS + single));
}

int main(void)
{
    printf("The C side by %s.\n\n| | p | sum, ns | double, ns |\n|---|---:|---:|---:|\n", COMPILER);
    struct input large = random_input(2147483647);
    one(&large);
    one(&paper);
    return 0;
}
