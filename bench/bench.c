/* Times of the parts of a sum, of common part, common multiple and sum by parts and, in a build with -DCOUNT, their
   field operations: bench [SECONDS PER PART].
   p = 2147483647, a random curve through a random point, records of kind 31 that are multiples of the point. */
#define _POSIX_C_SOURCE 199309L
#include "calls.c"
#include "field.h"
#include "overlap.h"
#include <stdio.h>
#include <stdlib.h>
#include <string.h>
#include <time.h>

enum { RECORDS = 256 };

static uint64_t seed = 20260101;
static const uint32_t p = 2147483647;
static struct curve c;
static uint8_t curve_bytes[44];
static struct record rec[RECORDS];
static uint8_t rec_bytes[RECORDS][40];
static uint32_t t[RECORDS][3][26], prod[RECORDS][3][26];
static unsigned d[RECORDS][3], prod_d[RECORDS][3];
static volatile uint32_t sink;

static uint32_t random_below(uint32_t m)
{
    seed = seed * 6364136223846793005u + 1442695040888963407u;
    return (uint32_t)((seed >> 32) % m);
}

static uint64_t mul(uint64_t a, uint64_t b)
{
    return a * b % p;
}

/* Random c1 to c8 and the c0 that puts (x, y) on the curve. */
static void random_curve(uint32_t x, uint32_t y)
{
    uint32_t n[9];
    for (int i = 1; i < 9; i++)
        n[i] = random_below(p);
    uint64_t xx = mul(x, x), xy = mul(x, y), yy = mul(y, y);
    uint64_t s = mul(yy, y) + mul(xx, xx) + mul(n[8], mul(xy, y)) + mul(n[7], mul(xx, y)) + mul(n[6], mul(xx, x)) +
                 mul(n[5], yy) + mul(n[4], xy) + mul(n[3], xx) + mul(n[2], y) + mul(n[1], x);
    n[0] = (uint32_t)((p - s % p) % p);
    c = make_curve(p, 1, n);
    write_u16(curve_bytes, 44);
    write_u16(curve_bytes + 2, 34);
    write_u32(curve_bytes + 4, p);
    for (int i = 0; i < 9; i++)
        write_u32(curve_bytes + 8 + 4 * i, n[i]);
}

static void random_records(uint32_t x, uint32_t y)
{
    struct record point = {11, {p - x, p - y}};
    for (int i = 0; i < RECORDS; i++) {
        rec[i] = multiple(&c, &point, 1000 + random_below(p));
        if (rec[i].kind != 31 || answer(&rec[i], rec_bytes[i], 40) != 40)
            exit(1);
        triple_of(&c, &rec[i], t[i], d[i]);
    }
    for (int i = 0; i < RECORDS; i++) {
        int k = (i + 1) % RECORDS;
        product(&c, t[i], d[i], t[k], d[k], prod[i], prod_d[i]);
    }
}

static void do_product(int i)
{
    uint32_t r[3][26];
    unsigned e[3];
    int k = (i + 1) % RECORDS;
    product(&c, t[i], d[i], t[k], d[k], r, e);
    sink += r[0][0];
}

static void do_star_product(int i)
{
    sink += star(&c, prod[i], prod_d[i]).n[0];
}

static void do_star_record(int i)
{
    sink += star(&c, t[i], d[i]).n[0];
}

static void do_nonsingular(int i)
{
    sink += (uint32_t)(nonsingular(&c) + i);
}

static void do_closed(int i)
{
    sink += (uint32_t)closed(&c, t[i], d[i]);
}

static void do_sum(int i)
{
    sink += sum(&c, &rec[i], &rec[(i + 1) % RECORDS]).n[0];
}

static void do_double(int i)
{
    sink += twice(&c, &rec[i]).n[0];
}

static void do_common_part(int i)
{
    sink += common_part(&c, &rec[i], &rec[(i + 1) % RECORDS]).n[0];
}

static void do_common_multiple(int i)
{
    sink += common_multiple(&c, &rec[i], &rec[(i + 1) % RECORDS]).n[0];
}

static void do_sum_by_parts(int i)
{
    sink += sum_by_parts(&c, &rec[i], &rec[(i + 1) % RECORDS]).n[0];
}

static void do_double_by_parts(int i)
{
    sink += sum_by_parts(&c, &rec[i], &rec[i]).n[0];
}

static void do_prime(int i)
{
    sink += (uint32_t)(is_prime(p) + i);
}

static void do_call_sum(int i)
{
    uint8_t out[40];
    sink += (uint32_t)base_sum(curve_bytes, 44, rec_bytes[i], 40, rec_bytes[(i + 1) % RECORDS], 40, out, 40);
}

static double now(void)
{
    struct timespec s;
    clock_gettime(CLOCK_PROCESS_CPUTIME_ID, &s);
    return (double)s.tv_sec + 1e-9 * (double)s.tv_nsec;
}

/* The least time of a round over all records, for a number of seconds. */
static void part(const char *name, void (*f)(int), double seconds)
{
    double best = 1e9, start = now();
    uint64_t mul0 = count_mul, inv0 = count_inv, rounds = 0;
    while (now() - start < seconds || rounds == 0) {
        double t0 = now();
        for (int i = 0; i < RECORDS; i++)
            f(i);
        double one = (now() - t0) / RECORDS;
        best = one < best ? one : best;
        rounds++;
    }
    printf("%-28s %8.0f ns", name, 1e9 * best);
    if (count_mul != 0)
        printf(" %7.1f mul %5.2f inv", (double)(count_mul - mul0) / (double)(rounds * RECORDS),
               (double)(count_inv - inv0) / (double)(rounds * RECORDS));
    printf("\n");
}

int main(int argc, char **argv)
{
    double s = argc > 1 ? atof(argv[1]) : 0.1;
    uint32_t x = 1 + random_below(p - 1), y = 1 + random_below(p - 1);
    random_curve(x, y);
    if (base_check_curve(curve_bytes, 44) != 1)
        return 1;
    random_records(x, y);
    part("is p a prime", do_prime, s);
    part("nonsingular", do_nonsingular, s);
    part("closed", do_closed, s);
    part("product", do_product, s);
    part("star of a product", do_star_product, s);
    part("star of a record", do_star_record, s);
    part("sum", do_sum, s);
    part("double", do_double, s);
    part("common part", do_common_part, s);
    part("common multiple", do_common_multiple, s);
    part("sum by parts", do_sum_by_parts, s);
    part("sum by parts, a = b", do_double_by_parts, s);
    part("sum call, bytes in and out", do_call_sum, s);
    return 0;
}
