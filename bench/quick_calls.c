/* The calls of change request 2026-08 over quick.c, as static functions, to be included after overlap_calls.c:
   base_quick_sum, base_quick_double and base_quick_serves. Signatures and refusals as those of base_sum, base_double
   and base_compare. */
#include "quick.h"
#include <string.h>

/* Of kind 31 with f2 not 0. */
static int is_typical(const struct record *a)
{
    return a->kind == 31 && a->n[2] != 0;
}

/* c5, c6 and c8 are 0, and p is above 3. */
static int is_short(const struct curve *c)
{
    return c->p > 3 && c->f[8] == 0 && c->f[9] == 0 && c->f[11] == 0;
}

/* 1 and *r = a + b where the formulas serve, else 0; for equal records they are those of the double. */
static int by_formulas(const struct curve *c, const struct record *a, const struct record *b, struct record *r)
{
    struct quick_curve q;
    struct nine s, t, n;
    if (!is_short(c) || !is_typical(a) || !is_typical(b))
        return 0;
    quick_prepare(&q, c->p, fneg(c->p, c->f[6]), fneg(c->p, c->f[7]), fneg(c->p, c->f[10]));
    memcpy(s.n, a->n, sizeof s.n);
    memcpy(t.n, b->n, sizeof t.n);
    int equal = memcmp(s.n, t.n, sizeof s.n) == 0;
    if (!(equal ? quick_double_montgomery(&q, &s, &n) : quick_sum_montgomery(&q, &s, &t, &n)))
        return 0;
    r->kind = 31;
    memcpy(r->n, n.n, sizeof r->n);
    return 1;
}

static struct record usual_sum(const struct curve *c, const struct record *a, const struct record *b)
{
    struct record r;
    return by_formulas(c, a, b, &r) ? r : sum(c, a, b);
}

static int32_t base_quick_sum(const uint8_t *curve, size_t curve_len, const uint8_t *a, size_t a_len, const uint8_t *b,
                              size_t b_len, uint8_t *out, size_t out_len)
{
    return of_two(curve, curve_len, a, a_len, b, b_len, out, out_len, usual_sum);
}

static int32_t base_quick_double(const uint8_t *curve, size_t curve_len, const uint8_t *a, size_t a_len, uint8_t *out,
                                 size_t out_len)
{
    struct curve c;
    struct record r;
    int32_t e = read_curve(curve, curve_len, &c);
    if (e == 0)
        e = read_divisor(&c, a, a_len, &r);
    if (e != 0)
        return -e;
    r = usual_sum(&c, &r, &r);
    return answer(&r, out, out_len);
}

static int32_t base_quick_serves(const uint8_t *curve, size_t curve_len, const uint8_t *a, size_t a_len,
                                 const uint8_t *b, size_t b_len)
{
    struct curve c;
    struct record r, s, t;
    int32_t e = read_curve(curve, curve_len, &c);
    if (e == 0)
        e = read_divisor(&c, a, a_len, &r);
    if (e == 0)
        e = read_divisor(&c, b, b_len, &s);
    return e != 0 ? -e : by_formulas(&c, &r, &s, &t);
}
