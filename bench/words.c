/* Times of the walk of a comparison alone, without the checks of curve and divisors: the two proved walks of
   libbench_words.a, by bytes as the comparison was before change request 2026-03 and by words of four bytes as it is;
   the walk by words of calls.c; and memcmp. A time is that of a call by a pointer, in ns of CPU time: all sides by
   turns in one run on the same pairs, the least of some rounds. A pair is two records with random numbers, each in a
   buffer of its own; a row has many pairs, and a round goes through them many times. Every answer, 1 for the same bytes
   and 0 for others, must be right. COMPILER names the compiler of the C side. */
#define _POSIX_C_SOURCE 199309L
#include "calls.c"
#include <stdio.h>
#include <stdlib.h>
#include <string.h>
#include <time.h>

#ifndef COMPILER
#define COMPILER "an unnamed compiler"
#endif

enum { PAIRS = 64, CYCLES = 500, ROUNDS = 200 };

/* ---- the walks ---- */

uint32_t bench_by_bytes(const uint8_t *a, size_t a_len, const uint8_t *b, size_t b_len);
uint32_t bench_by_words(const uint8_t *a, size_t a_len, const uint8_t *b, size_t b_len);

/* As the proved walks are: not inlined, and at a multiple of 64 bytes. */
#define APART __attribute__((noinline, aligned(64)))

APART static uint32_t c_by_words(const uint8_t *a, size_t a_len, const uint8_t *b, size_t b_len)
{
    return (uint32_t)walk_words(a, a_len, b, b_len).same;
}

APART static uint32_t by_memcmp(const uint8_t *a, size_t a_len, const uint8_t *b, size_t b_len)
{
    return a_len == b_len && memcmp(a, b, a_len) == 0;
}

enum { BY_BYTES, BY_WORDS, C_BY_WORDS, BY_MEMCMP, SIDES };

typedef uint32_t comparison(const uint8_t *a, size_t a_len, const uint8_t *b, size_t b_len);

static comparison *const side[SIDES] = {bench_by_bytes, bench_by_words, c_by_words, by_memcmp};

/* ---- the pairs ---- */

/* Where the second record differs from the first. */
enum place { NOWHERE, KIND, SECOND_WORD, LAST_WORD, LAST_BYTE };

static const struct {
    const char *name;
    uint32_t kind;
    enum place place;
} row[] = {
    {"kind 31, equal", 31, NOWHERE},
    {"kind 21, equal", 21, NOWHERE},
    {"kind 22, equal", 22, NOWHERE},
    {"kind 11, equal", 11, NOWHERE},
    {"kind 0, equal", 0, NOWHERE},
    {"kinds 31 and 21", 31, KIND},
    {"kind 31, other second word", 31, SECOND_WORD},
    {"kind 31, other last word", 31, LAST_WORD},
    {"kind 31, other last byte", 31, LAST_BYTE},
};

enum { ROWS = sizeof row / sizeof *row };

static uint8_t a[PAIRS][MIN_BUFFER], b[PAIRS][MIN_BUFFER];
static size_t a_len, b_len;

static uint64_t seed = 20260301;

static uint32_t random32(void)
{
    seed = seed * 6364136223846793005u + 1442695040888963407u;
    return (uint32_t)(seed >> 32);
}

/* A record of the kind with random numbers; its length is returned. */
static size_t put_random(uint32_t kind, uint8_t *to)
{
    struct record r = {kind, {0}};
    for (int i = 0; i < 9; i++)
        r.n[i] = random32() % MAX_P;
    return (size_t)answer(&r, to, MIN_BUFFER);
}

static void change_word(uint8_t *at)
{
    write_u32(at, read_u32(at) ^ (1 + random32() % MAX_P));
}

static void make_pair(int i, int j)
{
    a_len = b_len = put_random(row[i].kind, a[j]);
    memcpy(b[j], a[j], a_len);
    if (row[i].place == KIND)
        b_len = put_random(21, b[j]);
    if (row[i].place == SECOND_WORD)
        change_word(b[j] + 4);
    if (row[i].place == LAST_WORD)
        change_word(b[j] + b_len - 4);
    if (row[i].place == LAST_BYTE)
        b[j][b_len - 1] ^= (uint8_t)(1 + random32() % 255);
}

/* ---- times ---- */

static double now(void)
{
    struct timespec s;
    clock_gettime(CLOCK_PROCESS_CPUTIME_ID, &s);
    return 1e9 * (double)s.tv_sec + (double)s.tv_nsec;
}

static void fail(const char *what)
{
    printf("the walks differ: %s\n", what);
    exit(1);
}

static void same_answers(int i)
{
    for (int j = 0; j < PAIRS; j++)
        for (int k = 0; k < SIDES; k++)
            if (side[k](a[j], a_len, b[j], b_len) != (row[i].place == NOWHERE))
                fail(row[i].name);
}

/* The time of a call in the best of the rounds, by side. */
static void time_row(int i, double best[SIDES])
{
    uint32_t same = 0;
    for (int k = 0; k < SIDES; k++)
        best[k] = 1e18;
    for (int turn = 0; turn < SIDES * ROUNDS; turn++) {
        comparison *f = side[turn % SIDES];
        double start = now();
        for (int n = 0; n < CYCLES; n++)
            for (int j = 0; j < PAIRS; j++)
                same += f(a[j], a_len, b[j], b_len);
        double took = (now() - start) / (CYCLES * PAIRS);
        best[turn % SIDES] = took < best[turn % SIDES] ? took : best[turn % SIDES];
    }
    if (same != (row[i].place == NOWHERE ? (uint32_t)SIDES * ROUNDS * CYCLES * PAIRS : 0))
        fail(row[i].name);
}

int main(void)
{
    printf("C side by %s; ns of CPU time, all sides by turns, least of %d rounds. All answers agree.\n\n", COMPILER,
           ROUNDS);
    printf("| %-26s | %8s | %8s | %5s | %10s | %10s | %6s |\n", "pair", "by bytes", "by words", "ratio", "C by words",
           "ratio to C", "memcmp");
    printf("|---|---:|---:|---:|---:|---:|---:|\n");
    for (int i = 0; i < ROWS; i++) {
        double best[SIDES];
        for (int j = 0; j < PAIRS; j++)
            make_pair(i, j);
        same_answers(i);
        time_row(i, best);
        printf("| %-26s | %8.1f | %8.1f | %5.2f | %10.1f | %10.2f | %6.1f |\n", row[i].name, best[BY_BYTES],
               best[BY_WORDS], best[BY_WORDS] / best[BY_BYTES], best[C_BY_WORDS], best[BY_WORDS] / best[C_BY_WORDS],
               best[BY_MEMCMP]);
    }
    printf("\n");
    return 0;
}
