/* The inputs of calls_times.c, to be included after calls.c: curves with records on them.

   large    p = 2147483647, a random curve, random records of kind 31
   small    ten primes below 256, for each a random curve and random records
   paper    the curve, D1 and D2 of document 002, section 12.3 */
#include <stdio.h>
#include <stdlib.h>
#include <string.h>

enum { RECORDS = 64, LISTED = 500, PRIMES = 10, MULTIPLES = 8 };

/* A curve with records on it, a list of records and multipliers of 63 bits; the curve with c8 = p; fractions that give
   the curve modulo p. */
struct set {
    uint8_t curve[44], refused[44], fractions[RECORDS][76], rec[RECORDS][40], list[LISTED * 40];
    size_t curve_len, len[RECORDS], list_len;
    int64_t n[MULTIPLES];
};

static struct set large, paper, small[PRIMES];
static const uint32_t small_prime[PRIMES] = {251, 241, 239, 233, 229, 227, 223, 211, 199, 197};

static void fail(const char *what)
{
    printf("%s\n", what);
    exit(1);
}

static uint64_t seed = 20260101;

static uint32_t random_below(uint32_t m)
{
    seed = seed * 6364136223846793005u + 1442695040888963407u;
    return (uint32_t)((seed >> 32) % m);
}

static void write_curve(struct set *s, uint32_t p, const uint32_t c[9])
{
    s->curve_len = (size_t)answer_curve(p, c, s->curve, 44);
    memcpy(s->refused, s->curve, 44);
    write_u32(s->refused + 40, p);
}

/* Random c1 to c8 and the c0 that puts (x, y) on the curve. */
static void random_curve(struct set *s, uint64_t p, uint64_t x, uint64_t y)
{
    uint32_t c[9];
    uint64_t x2 = x * x % p, xy = x * y % p, y2 = y * y % p;
    const uint64_t monomial[9] = {1, x, y, x2, xy, y2, x2 * x % p, x2 * y % p, xy * y % p};
    uint64_t value = (y2 * y + x2 * x2 % p) % p;
    for (int i = 1; i < 9; i++) {
        c[i] = random_below((uint32_t)p);
        value = (value + c[i] * monomial[i]) % p;
    }
    c[0] = (uint32_t)((p - value) % p);
    write_curve(s, (uint32_t)p, c);
}

/* A random curve through a random point, nonsingular; records and list are random multiples of the point. */
static void random_set(struct set *s, uint32_t p)
{
    struct curve c;
    struct record point = {11, {0}};
    do {
        uint32_t x = 1 + random_below(p - 1), y = 1 + random_below(p - 1);
        point.n[0] = p - x;
        point.n[1] = p - y;
        random_curve(s, p, x, y);
    } while (read_curve(s->curve, 44, &c) != 0);
    for (int i = 0; i < RECORDS; i++) {
        struct record r = multiple(&c, &point, 1000 + random_below(2147483647));
        s->len[i] = (size_t)answer(&r, s->rec[i], 40);
    }
    for (int i = 0; i < LISTED; i++) {
        struct record r = multiple(&c, &point, 1000 + random_below(2147483647));
        s->list_len += (size_t)answer(&r, s->list + s->list_len, 40);
    }
    for (int i = 0; i < MULTIPLES; i++)
        s->n[i] = (int64_t)1 << 62 | (int64_t)random_below(1u << 31) << 31 | random_below(1u << 31);
}

static void write_31(struct set *s, int i, const uint32_t n[9])
{
    struct record r = {31, {0}};
    memcpy(r.n, n, sizeof r.n);
    s->len[i] = (size_t)answer(&r, s->rec[i], 40);
}

/* The curve, D1 and D2 of document 002, section 12.3. */
static void paper_set(struct set *s)
{
    static const uint32_t c[9] = {65135542, 63973501, 56254855, 248132507, 141962734, 0, 0, 154267501, 0};
    static const uint32_t d1[9] = {235998213, 26531881,  210235455, 255282327, 87572390,
                                   146578381, 13450942, 210148245, 9642394};
    static const uint32_t d2[9] = {64403020,  200985767, 176922400, 97210118, 146832683,
                                   176410447, 246544812, 257391833, 43402044};
    write_curve(s, 268435399, c);
    write_31(s, 0, d1);
    write_31(s, 1, d2);
}

/* Random denominators that p does not divide, and for each the numerator that fits and is next to a random number. */
static void random_fractions(const struct set *s, uint8_t *b)
{
    uint32_t p = read_u32(s->curve + 4), d;
    write_u16(b, 76);
    write_u16(b + 2, 36);
    for (int i = 0; i < 9; i++) {
        do
            d = random_below(4294967295);
        while (d % p == 0);
        int64_t r = fmul(p, read_u32(s->curve + 8 + 4 * i), d % p);
        int64_t n = (int64_t)random_below(4294967295) - 2147483648;
        write_u32(b + 4 + 8 * i, (uint32_t)(r + (n - r) / p * p));
        write_u32(b + 8 + 8 * i, d);
    }
}

static void fill_fractions(struct set *s)
{
    for (int i = 0; i < RECORDS; i++)
        random_fractions(s, s->fractions[i]);
}

static void make_sets(void)
{
    random_set(&large, 2147483647);
    for (int i = 0; i < RECORDS; i++)
        if (large.len[i] != 40)
            fail("a record is not of kind 31");
    for (int j = 0; j < PRIMES; j++)
        random_set(&small[j], small_prime[j]);
    paper_set(&paper);
    fill_fractions(&large);
    for (int j = 0; j < PRIMES; j++)
        fill_fractions(&small[j]);
}
