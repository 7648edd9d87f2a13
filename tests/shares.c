/* The share that the counting program prints, and which records it counts as typical: shares PROGRAM.

   It is run on lists of t typical records, u records of kind 31 with f2 = 0 and n - t - u zero records on the curve E of
   document 01: every t and u for every n up to 12; with u = 0 every t for every n up to 40, and every t and n with a share
   at a half, if the list has room. The hundredths are found by trying all: the nearest, and of two as near as each other
   the even one.

   Then on every accepted record of kind 31 alone, and on all accepted records in one list, on E and on each nonsingular
   curve over F_2. */
#include "program.h"
#include "records.h"
#include <stdio.h>
#include <string.h>

enum { MIXED = 12, SMALL = 40 };    /* every t and u up to MIXED records, every t with u = 0 up to SMALL */
enum { ZERO = 4, OF_KIND_31 = 40 }; /* the lengths of the records */

static const struct curve E = {5, {1}};
static uint8_t input[C34_CURVE_LENGTH + C34_LIST_LIMIT];

static uint32_t nearest(uint32_t t, uint32_t n)
{
    uint32_t best = 0, least = UINT32_MAX;
    for (uint32_t h = 0; h <= 10000; h++) {
        uint32_t d = 10000 * t > h * n ? 10000 * t - h * n : h * n - 10000 * t;
        if (d < least || (d == least && h % 2 == 0)) {
            best = h;
            least = d;
        }
    }
    return best;
}

/* 10000 t / n is a whole number and a half. */
static int at_half(uint32_t t, uint32_t n)
{
    return 20000 * t % n == 0 && 20000 * t / n % 2 == 1;
}

/* The program on the first m bytes of the input, whose list has so many records of each kind, t of them typical. */
static void try_list(const char *program, size_t m, const uint32_t count[5], uint32_t t)
{
    char want[200];
    uint32_t n = count[0] + count[1] + count[2] + count[3] + count[4], h = nearest(t, n);
    sprintf(want, "zero %u\n11 %u\n21 %u\n22 %u\n31 %u\nshare %u.%02u\nsum ", count[0], count[1], count[2], count[3],
            count[4], h / 100, h % 100);
    const char *got = run_program(program, input, m);
    if (strncmp(got, want, strlen(want)) != 0)
        printf("%u typical of %u: wanted\n%s...\nprinted\n%s", t, n, want, got);
    require(strncmp(got, want, strlen(want)) == 0, "a share or a count differs", NULL);
}

static void try_share(const char *program, uint32_t t, uint32_t u, uint32_t n)
{
    static const uint32_t typical[9] = {4, 2, 4, 0, 3, 0, 3, 0, 4}, other[9] = {0, 4, 0, 0, 3, 0, 1, 2, 4};
    size_t m = put_curve(input, E.p, E.c);
    for (uint32_t i = 0; i < n; i++)
        m += put_record(input + m, i < t + u ? C34_KIND_31 : C34_ZERO, i < t ? typical : other);
    try_list(program, m, (const uint32_t[5]){n - t - u, 0, 0, 0, t + u}, t);
}

/* The kind's place among the five. */
static int place(uint32_t kind)
{
    static const uint32_t kinds[5] = {C34_ZERO, C34_KIND_11, C34_KIND_21, C34_KIND_22, C34_KIND_31};
    int i = 0;
    while (kinds[i] != kind)
        i++;
    return i;
}

/* Every record of kind 31 on the curve alone, and all records; how many of kind 31 there are, and how many have f2 = 0. */
static void try_records(const char *program, const struct curve *k, long *of_31, long *untypical)
{
    static struct record r[CLASSES];
    uint32_t count[5] = {0}, t = 0;
    unsigned n = all_records(k, r);
    size_t start = put_curve(input, k->p, k->c), m = start;
    for (unsigned i = 0; i < n; i++)
        if (get16(r[i].b + 2) == C34_KIND_31) {
            int is_typical = get32(r[i].b + 4 + 4 * F2) != 0;
            memcpy(input + start, r[i].b, r[i].len);
            try_list(program, start + r[i].len, (const uint32_t[5]){0, 0, 0, 0, 1}, is_typical);
            t += is_typical;
            *untypical += !is_typical;
            ++*of_31;
        }
    for (unsigned i = 0; i < n; i++) {
        memcpy(input + m, r[i].b, r[i].len);
        m += r[i].len;
        count[place(get16(r[i].b + 2))]++;
    }
    try_list(program, m, count, t);
}

int main(int argc, char **argv)
{
    long tried = 0, halves = 0, of_31 = 0, untypical = 0;
    unsigned curves = 0;
    require(argc == 2, "usage: shares PROGRAM", NULL);
    for (uint32_t n = 1; n <= MIXED; n++)
        for (uint32_t t = 0; t <= n; t++)
            for (uint32_t u = 1; t + u <= n; u++, tried++)
                try_share(argv[1], t, u, n);
    for (uint32_t n = 1; ZERO * n <= C34_LIST_LIMIT; n++)
        for (uint32_t t = 0; t <= n && OF_KIND_31 * t + ZERO * (n - t) <= C34_LIST_LIMIT; t++)
            if (n <= SMALL || at_half(t, n)) {
                try_share(argv[1], t, 0, n);
                tried++;
                halves += at_half(t, n);
            }
    printf("shares: %ld lists agree, %ld of them at a half\n", tried, halves);
    for (uint32_t bits = 0; bits < 512; bits++) {
        struct curve k = over_two(bits);
        if (nonsingular(&k)) {
            try_records(argv[1], &k, &of_31, &untypical);
            curves++;
        }
    }
    try_records(argv[1], &E, &of_31, &untypical);
    require(untypical > 0 && untypical < of_31, "all records of kind 31 are typical, or none is", NULL);
    printf("shares: all %ld records of kind 31 on %u curves over F_2 and on E agree, %ld of them with f2 = 0\n", of_31, curves,
           untypical);
    return 0;
}
