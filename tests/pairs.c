/* Two records that agree before a number, and a curve for them: see pairs.h. The numbers come first. F is then a
   polynomial that lies in the ideals of both records, found by linear algebra. */
#include "pairs.h"
#include "records.h"
#include <string.h>

enum { P = 2147483647 };

static uint32_t plus(uint32_t a, uint32_t b)
{
    return (uint32_t)(((uint64_t)a + b) % P);
}

static uint32_t less(uint32_t a, uint32_t b)
{
    return minus(P, a, b);
}

/* ---- numbers ---- */

/* Kind 31: some numbers of a are set such that b, where one or two that are no constants are moved by the step, differs
   from a by the step at `number` and not before. If both have two points over the same x, they share one of them, for F
   has degree 3 in y. */
static void relate_31(unsigned number, uint32_t step, uint32_t *a, uint32_t *b)
{
    unsigned moved = number;
    switch (number) {
    case F0:
        a[F2] = 1;
        a[G1] = 0;
        moved = H2;
        break;
    case F1:
        a[G2] = a[H1] = 0;
        break;
    case F2:
        a[H1] = 0;
        a[H2] = a[G1];
        break;
    case G0:
        a[F2] = P - 1;
        a[F1] = a[G2];
        moved = H1;
        break;
    case G1:
        a[F2] = a[G2] = 0;
        a[H2] = plus(plus(a[G1], a[G1]), step);
        break;
    case G2:
        a[G1] = a[H1] = 0;
        a[F1] = plus(plus(a[G2], a[G2]), step);
        break;
    case H0:
        a[F2] = a[H1] = 0;
        a[G1] = 1;
        moved = H2;
        break;
    case H1:
        a[F2] = 0;
        a[F1] = less(a[G2], a[G1]);
        a[H1] = plus(a[H2], a[F1]);
        break;
    default:
        a[F2] = a[G1] = a[H1] = 0;
    }
    memcpy(b, a, NUMBERS_31 * sizeof *b);
    b[moved] = plus(b[moved], step);
    if (number == H1)
        b[H2] = plus(b[H2], step);
    set_constants(P, a);
    set_constants(P, b);
}

/* Kind 22: y^2 + g1 y + g0 has the root -1 in both where g0 differs, and 0 where g1 does. */
static void relate_22(unsigned number, uint32_t step, uint32_t *a, uint32_t *b)
{
    if (number == 1)
        a[2] = plus(a[1], 1);
    if (number == 2)
        a[1] = 0;
    memcpy(b, a, NUMBERS_31 * sizeof *b);
    b[number] = plus(b[number], step);
    if (number == 1)
        b[2] = plus(b[2], step);
}

static void random_numbers(uint32_t kind, unsigned number, uint32_t step, uint32_t *a, uint32_t *b)
{
    for (unsigned i = 0; i < NUMBERS_31; i++)
        a[i] = random_below(P);
    if (kind == C34_KIND_31)
        relate_31(number, step, a, b);
    else if (kind == C34_KIND_22)
        relate_22(number, step, a, b);
    else {
        memcpy(b, a, NUMBERS_31 * sizeof *b);
        b[number] = plus(b[number], step);
    }
}

/* ---- the curve ---- */

enum { DEGREE = 4, MONOMIALS = 15, ROWS = 10 }; /* F has total degree 4 and nine coefficients */

/* Monomials by total degree, then by the power of y. */
static unsigned place(unsigned i, unsigned j)
{
    return (i + j) * (i + j + 1) / 2 + j;
}

/* x^i y^j times a polynomial, given by pole number, is put into the space if its degree is not above 4. */
static void insert_multiple(struct space *s, unsigned i, unsigned j, const uint32_t *v)
{
    uint32_t w[WIDTH] = {0};
    for (unsigned n = 0; n <= 8; n++)
        if (v[n] != 0) {
            unsigned y = n % 3, x = (n - 4 * y) / 3;
            if (x + i + y + j > DEGREE)
                return;
            w[place(x + i, y + j)] = v[n];
        }
    insert(s, w);
}

/* The polynomials of degree up to 4 in the ideal of a record. */
static void record_space(const struct record *r, struct space *s)
{
    uint32_t v[3][WIDTH];
    unsigned count = polynomials(r->b, v);
    make_empty(s, P, MONOMIALS);
    for (unsigned n = 0; n < count; n++)
        for (unsigned i = 0; i <= DEGREE; i++)
            for (unsigned j = 0; i + j <= DEGREE; j++)
                insert_multiple(s, i, j, v[n]);
}

/* Random coefficients such that F lies in the ideals of both records; 0 if none are found. Row 0 is y^3 + x^4 modulo
   the two ideals, row t the monomial of coefficient t - 1: with the coefficients as factors the rows have sum zero. */
static int through_records(struct curve *k, const struct record *a, const struct record *b)
{
    static struct space s[2];
    uint32_t rows[ROWS][2 * MONOMIALS + ROWS] = {{0}}, *row[ROWS], sum[ROWS] = {0};
    record_space(a, &s[0]);
    record_space(b, &s[1]);
    for (unsigned t = 0; t < ROWS; t++) {
        row[t] = rows[t];
        row[t][2 * MONOMIALS + t] = 1;
        for (unsigned side = 0; side < 2; side++) {
            uint32_t *v = row[t] + side * MONOMIALS;
            v[place(term_x[t], term_y[t])] = 1;
            if (t == 0)
                v[place(4, 0)] = 1;
            reduce(&s[side], v);
        }
    }
    unsigned solutions = kernel(P, row, ROWS, 2 * MONOMIALS);
    for (unsigned n = 0; n < solutions; n++) {
        uint32_t factor = random_below(P);
        for (unsigned t = 0; t < ROWS; t++)
            sum[t] = plus(sum[t], times(P, factor, row[n][2 * MONOMIALS + t]));
    }
    for (unsigned t = 1; sum[0] != 0 && t < ROWS; t++)
        k->c[t - 1] = times(P, sum[t], inverse(P, sum[0]));
    return sum[0] != 0;
}

void make_pair(struct pair *q, uint32_t kind, unsigned number, unsigned byte)
{
    uint32_t a[NUMBERS_31], b[NUMBERS_31], step = 1u << (8 * byte);
    struct curve k = {P, {0}};
    do {
        do
            random_numbers(kind, number, step, a, b);
        while (a[number] / step / 256 != b[number] / step / 256 || a[number] % step != b[number] % step);
        q->a.len = put_record(q->a.b, kind, a);
        q->b.len = put_record(q->b.b, kind, b);
    } while (!through_records(&k, &q->a, &q->b) || !nonsingular(&k));
    require(is_basis(&k, q->a.b) && is_basis(&k, q->b.b), "a record of a pair is not accepted", NULL);
    put_curve(q->curve, P, k.c);
}
