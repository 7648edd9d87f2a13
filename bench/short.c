/* Times of the short form of a record alone, without the checks of curve and basis: the proved function of
   libbench_short.a, and the same in C over calls.c and short_calls.c. It reads a record, checks its form and its
   numbers, and writes the short record. A time is that of a call by a pointer, in ns of CPU time: both sides by turns
   in one run on the same records, the least of some rounds. A row has many records with random numbers below p, and a
   round goes through them many times. Before a row is timed, every answer and every buffer of the two sides must be
   equal, those of calls that are refused too. COMPILER names the compiler of the C side. */
#define _POSIX_C_SOURCE 199309L
#include "calls.c"
#include "short_calls.c"
#include <stdio.h>
#include <stdlib.h>
#include <string.h>
#include <time.h>

#ifndef COMPILER
#define COMPILER "an unnamed compiler"
#endif

enum { RECORDS = 64, CYCLES = 500, ROUNDS = 200 };

/* ---- the two sides ---- */

/* The length of the short record that is written, or 0 with the buffer left: where it has under 40 bytes, where the
   record's size, kind or kind's length is refused, and where a number is not below p. */
uint32_t bench_shorten(uint32_t p, const uint8_t *divisor, size_t divisor_len, uint8_t *out, size_t out_len);

/* As read_divisor, but for the check of the basis: 1 with the record in *r, or 0. */
static int read_numbers(uint32_t p, const uint8_t *b, size_t len, struct record *r)
{
    if (len < 4 || read_u16(b) != len || kind_length(read_u16(b + 2)) != len)
        return 0;
    r->kind = read_u16(b + 2);
    unsigned m = count_of(r->kind);
    if (!all_below(p, b + 4, m))
        return 0;
    for (unsigned i = 0; i < 9; i++)
        r->n[i] = i < m ? read_u32(b + 4 + 4 * i) : 0;
    return 1;
}

/* As the proved function is: not inlined, and at a multiple of 64 bytes. p is at least 2. */
__attribute__((noinline, aligned(64))) static uint32_t c_shorten(uint32_t p, const uint8_t *divisor, size_t divisor_len,
                                                                 uint8_t *out, size_t out_len)
{
    struct record r;
    if (!read_numbers(p, divisor, divisor_len, &r))
        return 0;
    int32_t length = answer_short(p, &r, out, out_len);
    return length < 0 ? 0 : (uint32_t)length;
}

enum { PROVED, C, SIDES };

typedef uint32_t shortening(uint32_t p, const uint8_t *divisor, size_t divisor_len, uint8_t *out, size_t out_len);

static shortening *const side[SIDES] = {bench_shorten, c_shorten};

/* ---- the records ---- */

static const struct {
    uint32_t kind, p;
} row[] = {
    {31, 2147483647}, {21, 2147483647}, {22, 2147483647}, {11, 2147483647}, {0, 2147483647},
    {31, 268435399},  {31, 65521},      {31, 101},        {31, 5},          {31, 2},
};

enum { ROWS = sizeof row / sizeof *row };

static uint8_t rec[RECORDS][MIN_BUFFER], out[RECORDS][MIN_BUFFER];
static size_t rec_len;

static uint64_t seed = 20260901;

static uint32_t random_below(uint32_t m)
{
    seed = seed * 6364136223846793005u + 1442695040888963407u;
    return (uint32_t)((seed >> 32) % m);
}

static void make_records(int i)
{
    for (int j = 0; j < RECORDS; j++) {
        struct record r = {row[i].kind, {0}};
        for (int k = 0; k < 9; k++)
            r.n[k] = random_below(row[i].p);
        rec_len = (size_t)answer(&r, rec[j], MIN_BUFFER);
    }
}

/* ---- answers ---- */

static void fail(int i, const char *what)
{
    printf("kind %u, p = %u: %s\n", row[i].kind, row[i].p, what);
    exit(1);
}

/* What both sides return and leave in buffers with the same bytes. */
static uint32_t same_answer(int i, const uint8_t *b, size_t len, size_t out_len)
{
    uint8_t left[SIDES][MIN_BUFFER];
    uint32_t length[SIDES];
    memset(left, 170, sizeof left);
    for (int k = 0; k < SIDES; k++)
        length[k] = side[k](row[i].p, b, len, left[k], out_len);
    if (length[PROVED] != length[C] || memcmp(left[PROVED], left[C], MIN_BUFFER) != 0)
        fail(i, "the two sides differ");
    return length[C];
}

/* The record with one of its first four bytes changed, with one number not below p, without its last byte, and with a
   buffer of 39 bytes. */
static void same_refusals(int i, const uint8_t *b)
{
    uint8_t other[MIN_BUFFER];
    uint32_t taken = same_answer(i, b, rec_len - 1, MIN_BUFFER) + same_answer(i, b, rec_len, MIN_BUFFER - 1);
    for (size_t at = 0; at < rec_len; at += at < 4 ? 1 : 4) {
        memcpy(other, b, rec_len);
        if (at < 4)
            other[at] ^= (uint8_t)(1 + random_below(255));
        else
            write_u32(other + at, row[i].p + random_below(-row[i].p));
        taken += same_answer(i, other, rec_len, MIN_BUFFER);
    }
    if (taken != 0)
        fail(i, "a record is not refused");
}

/* Compares the answers; returns the length of the short records. */
static uint32_t same_answers(int i)
{
    uint32_t length = same_answer(i, rec[0], rec_len, MIN_BUFFER);
    for (int j = 0; j < RECORDS; j++) {
        if (length == 0 || same_answer(i, rec[j], rec_len, MIN_BUFFER) != length)
            fail(i, "a length is wrong");
        same_refusals(i, rec[j]);
    }
    return length;
}

/* ---- times ---- */

static double now(void)
{
    struct timespec s;
    clock_gettime(CLOCK_PROCESS_CPUTIME_ID, &s);
    return 1e9 * (double)s.tv_sec + (double)s.tv_nsec;
}

/* The time of a call in the best of the rounds, by side; each call must return the length. */
static void time_row(int i, uint32_t length, double best[SIDES])
{
    uint64_t sum = 0;
    for (int k = 0; k < SIDES; k++)
        best[k] = 1e18;
    for (int turn = 0; turn < SIDES * ROUNDS; turn++) {
        shortening *f = side[turn % SIDES];
        double start = now();
        for (int n = 0; n < CYCLES; n++)
            for (int j = 0; j < RECORDS; j++)
                sum += f(row[i].p, rec[j], rec_len, out[j], MIN_BUFFER);
        double took = (now() - start) / (CYCLES * RECORDS);
        best[turn % SIDES] = took < best[turn % SIDES] ? took : best[turn % SIDES];
    }
    if (sum != (uint64_t)SIDES * ROUNDS * CYCLES * RECORDS * length)
        fail(i, "a length is wrong");
}

int main(void)
{
    printf("C side by %s; ns of CPU time, both sides by turns, least of %d rounds. All answers agree.\n\n", COMPILER,
           ROUNDS);
    printf("| %4s | %10s | %5s | %10s | %6s | %10s |\n", "kind", "p", "bytes", "proved, ns", "C, ns", "ratio to C");
    printf("|---:|---:|---:|---:|---:|---:|\n");
    for (int i = 0; i < ROWS; i++) {
        double best[SIDES];
        make_records(i);
        uint32_t length = same_answers(i);
        time_row(i, length, best);
        printf("| %4u | %10u | %5u | %10.1f | %6.1f | %10.2f |\n", row[i].kind, row[i].p, length, best[PROVED], best[C],
               best[PROVED] / best[C]);
    }
    printf("\n");
    return 0;
}
