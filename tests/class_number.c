/* Class numbers. On a curve of genus 3 over F_p the numbers of points over F_p, F_p^2 and F_p^3 give the class number:
   with S_r = N_r - p^r - 1, a1 = S_1, 2 a2 = S_2 + S_1 a1, 3 a3 = S_3 + S_2 a1 + S_1 a2, it is
   1 + a1 + a2 + a3 + p a2 + p^2 a1 + p^3. It must be the number of records that the library accepts, of all there are,
   and that number times each record must be zero. class_number [slow] also counts the records on a curve over F_7. */
#include "sample.h"
#include <stdio.h>
#include <string.h>

/* ---- the field of p^d elements: digits to the base p ---- */

enum { MOST = 3, LARGEST = 2197 };

static uint32_t p, d, q;
static uint32_t modulus[MOST]; /* z^d = the sum of -modulus[i] z^i */
static uint16_t digit[LARGEST][MOST];

static uint32_t number(const uint32_t *a)
{
    uint32_t r = 0;
    for (uint32_t i = d; i-- > 0;)
        r = r * p + a[i];
    return r;
}

static uint32_t field_add(uint32_t a, uint32_t b)
{
    uint32_t r[MOST];
    for (uint32_t i = 0; i < d; i++)
        r[i] = (digit[a][i] + (uint32_t)digit[b][i]) % p;
    return number(r);
}

static uint32_t field_multiply(uint32_t a, uint32_t b)
{
    uint32_t r[2 * MOST] = {0};
    for (uint32_t i = 0; i < d; i++)
        for (uint32_t j = 0; j < d; j++)
            r[i + j] += (uint32_t)digit[a][i] * digit[b][j];
    for (uint32_t i = 2 * d - 2; i >= d; i--)
        for (uint32_t j = 0; j < d; j++)
            r[i - d + j] += (r[i] % p) * (p - modulus[j]);
    for (uint32_t i = 0; i < d; i++)
        r[i] %= p;
    return number(r);
}

/* 1 if z^d + ... has no root in F_p, which for d = 2 and 3 makes it irreducible. */
static int has_no_root(void)
{
    for (uint32_t z = 0; z < p; z++) {
        uint32_t v = 1;
        for (uint32_t i = d; i-- > 0;)
            v = (v * z + modulus[i]) % p;
        if (v == 0)
            return 0;
    }
    return 1;
}

static void make_field(uint32_t prime, uint32_t degree)
{
    p = prime;
    d = degree;
    q = 1;
    for (uint32_t i = 0; i < d; i++)
        q *= p;
    for (uint32_t a = 0; a < q; a++)
        for (uint32_t i = 0, rest = a; i < MOST; i++, rest /= p)
            digit[a][i] = (uint16_t)(i < d ? rest % p : 0);
    uint32_t n = 0;
    do
        for (uint32_t i = 0; i < d; i++)
            modulus[i] = d == 1 ? 0 : digit[n][i];
    while (n++ < q && d > 1 && !has_no_root());
}

/* ---- points ---- */

static uint32_t horner(const uint32_t *c, int count, uint32_t x)
{
    uint32_t r = 0;
    while (count-- > 0)
        r = field_add(field_multiply(r, x), c[count]);
    return r;
}

/* The points of the curve over the field, the one at infinity included. */
static int64_t points(const struct curve *k)
{
    const uint32_t *c = k->c;
    int64_t n = 1;
    for (uint32_t x = 0; x < q; x++) {
        uint32_t in_y[4] = {horner((uint32_t[]){c[0], c[1], c[3], c[6], 1}, 5, x),
                            horner((uint32_t[]){c[2], c[4], c[7]}, 3, x), horner((uint32_t[]){c[5], c[8]}, 2, x), 1};
        for (uint32_t y = 0; y < q; y++)
            n += horner(in_y, 4, y) == 0;
    }
    return n;
}

static int64_t class_number(const struct curve *k)
{
    int64_t s[4], power = 1, m = k->p;
    for (uint32_t r = 1; r <= 3; r++) {
        make_field(k->p, r);
        power *= m;
        s[r] = points(k) - power - 1;
    }
    int64_t a1 = s[1], a2 = (s[2] + s[1] * a1) / 2, a3 = (s[3] + s[2] * a1 + s[1] * a2) / 3;
    return 1 + a1 + a2 + a3 + m * a2 + m * m * a1 + m * m * m;
}

/* ---- records ---- */

static int64_t h;

static void require_zero_multiple(const uint8_t *curve, const uint8_t *record, size_t len)
{
    uint8_t out[C34_BUFFER];
    int32_t e = c34_multiple(curve, C34_CURVE_LENGTH, record, len, h, out, sizeof out);
    require(e == 4 && get32(out) == 4, "the class number times a record is not zero", NULL);
}

/* The next row of m numbers below the prime; 0 after the last. */
static int next(uint32_t *numbers, int m, uint32_t prime)
{
    for (int i = 0; i < m; i++) {
        if (++numbers[i] < prime)
            return 1;
        numbers[i] = 0;
    }
    return 0;
}

/* How many records of a kind the library accepts; the class number times each of them is zero. */
static int64_t accepted(const uint8_t *curve, uint32_t prime, uint32_t kind)
{
    uint32_t numbers[9] = {0};
    uint8_t b[C34_BUFFER];
    int64_t n = 0;
    do {
        size_t len = put_record(b, kind, numbers);
        if (c34_check_divisor(curve, C34_CURVE_LENGTH, b, len) == 1) {
            require_zero_multiple(curve, b, len);
            n++;
        }
    } while (next(numbers, numbers_of(kind), prime));
    return n;
}

static void count_records(const struct curve *k)
{
    uint8_t curve[C34_CURVE_LENGTH];
    put_curve(curve, k->p, k->c);
    h = class_number(k);
    int64_t n = accepted(curve, k->p, 0) + accepted(curve, k->p, 11) + accepted(curve, k->p, 21) +
                accepted(curve, k->p, 22) + accepted(curve, k->p, 31);
    if (n != h)
        printf("%lld accepted records, class number %lld\n", (long long)n, (long long)h);
    require(n == h, "the number of accepted records is not the class number", NULL);
}

/* ---- curves ---- */

static struct curve random_curve(uint32_t prime)
{
    struct curve k = {prime, {0}};
    do
        for (int i = 0; i < 9; i++)
            k.c[i] = random_below(prime);
    while (!nonsingular(&k));
    return k;
}

/* All nonsingular curves over F_2. */
static int all_over_two(void)
{
    int curves = 0;
    for (uint32_t n = 0; n < 512; n++) {
        struct curve k = {2, {0}};
        for (int i = 0; i < 9; i++)
            k.c[i] = n >> i & 1;
        if (nonsingular(&k)) {
            count_records(&k);
            curves++;
        }
    }
    return curves;
}

static void multiples_on_samples(uint32_t prime)
{
    static struct sample s;
    make_sample(&s, prime, RECORDS);
    h = class_number(&s.k);
    for (unsigned i = 0; i < s.records; i++)
        require_zero_multiple(s.curve, s.record[i].b, s.record[i].len);
}

int main(int argc, char **argv)
{
    static const uint32_t larger[] = {7, 7, 11, 11, 13};
    const struct curve E = {5, {1, 0, 0, 0, 0, 0, 0, 0, 0}};
    int over_two = all_over_two(), over_three = 24;
    seed(7);
    for (int i = 0; i < over_three; i++) {
        struct curve k = random_curve(3);
        count_records(&k);
    }
    count_records(&E);
    if (argc > 1 && strcmp(argv[1], "slow") == 0) {
        struct curve k = random_curve(7);
        count_records(&k);
    }
    for (int i = 0; i < 5; i++)
        multiples_on_samples(larger[i]);
    printf("class_number: the accepted records are as many as classes on %d curves over F_2, %d over F_3 and E\n", over_two,
           over_three);
    return 0;
}
