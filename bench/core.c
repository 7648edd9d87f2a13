/* The curve, the star of a triple, and divisors as records. core.h says what the words mean. */
#include "core.h"
#include "field.h"
#include "span.h"

/* ---- the curve ---- */

struct curve make_curve(uint32_t p, uint32_t a0, const uint32_t c[9])
{
    struct curve r;
    r.p = p;
    zero(r.f);
    r.f[12] = fneg(p, a0);
    r.f[11] = fneg(p, c[8]);
    r.f[10] = fneg(p, c[7]);
    r.f[9] = fneg(p, c[6]);
    r.f[8] = fneg(p, c[5]);
    r.f[7] = fneg(p, c[4]);
    r.f[6] = fneg(p, c[3]);
    r.f[4] = fneg(p, c[2]);
    r.f[3] = fneg(p, c[1]);
    r.f[0] = fneg(p, c[0]);
    r.k = a0 == 1 ? p - 1 : finv(p, r.f[12]);
    return r;
}

/* -m * a */
static uint32_t derived(uint32_t p, uint32_t m, uint32_t a)
{
    return fneg(p, fmul(p, m % p, a));
}

/* The derivative of F by x, below 10. */
static void derivative_x(uint32_t p, const uint32_t f[26], uint32_t out[26])
{
    zero(out);
    out[9] = derived(p, 4, f[12]);
    out[8] = derived(p, 1, f[11]);
    out[7] = derived(p, 2, f[10]);
    out[6] = derived(p, 3, f[9]);
    out[4] = derived(p, 1, f[7]);
    out[3] = derived(p, 2, f[6]);
    out[0] = derived(p, 1, f[3]);
}

/* The derivative of F by y, below 9. */
static void derivative_y(uint32_t p, const uint32_t f[26], uint32_t out[26])
{
    zero(out);
    out[8] = 3 % p;
    out[7] = derived(p, 2, f[11]);
    out[6] = derived(p, 1, f[10]);
    out[4] = derived(p, 2, f[8]);
    out[3] = derived(p, 1, f[7]);
    out[0] = derived(p, 1, f[4]);
}

/* 1 if the triple's module is the whole ring. */
static int whole(const unsigned d[3])
{
    return d[0] == 0 && d[1] == 4 && d[2] == 8;
}

/* Inserts v, y * v and y^2 * v, for v below top, until the module is the whole ring. */
static void insert_multiples(const struct curve *c, uint32_t t[3][26], unsigned d[3], const uint32_t v[26],
                             unsigned top)
{
    uint32_t ys[3][26];
    y_multiples(c->p, c->f, v, top, ys);
    for (unsigned j = 0; j < 3 && !whole(d); j++)
        insert(c->p, t, d, ys[j], top + 4 * j);
}

int nonsingular(const struct curve *c)
{
    uint32_t t[3][26], v[26];
    unsigned d[3];
    empty(t, d);
    derivative_y(c->p, c->f, v);
    insert_multiples(c, t, d, v, 9);
    derivative_x(c->p, c->f, v);
    insert_multiples(c, t, d, v, 10);
    return whole(d);
}

/* ---- star ---- */

/* The sum of lam[q] * v[q - s] for from <= q < to. */
static uint32_t dot(uint32_t p, const uint32_t lam[26], const uint32_t v[26], unsigned s, unsigned from, unsigned to)
{
    uint32_t r = 0;
    for (unsigned q = from; q < to; q++)
        r = fmul_add(p, lam[q], v[q - s], r);
    return r;
}

/* The value at x^(s/3) * v of the functional that is 0 below c: the products below max(c, s) are 0. */
static uint32_t value(uint32_t p, const uint32_t lam[26], unsigned c, const uint32_t v[26], unsigned s, unsigned to)
{
    return dot(p, lam, v, s, c < s ? s : c, to);
}

/* The functional of f, deg f = d <= 12, from f's y-multiples, up to the place c + 8: 0 below c = d + 5, 1 at c, and 0
   at every multiple of f. The lead of y^j * f is 1, or -a0 with inverse k. */
static void functional(const struct curve *c, const uint32_t ys[3][26], unsigned d, uint32_t lam[26])
{
    zero(lam);
    lam[d + 5] = 1;
    for (unsigned s = 6; s < 14; s++) {
        unsigned j = s % 3;
        uint32_t v = value(c->p, lam, d + 5, ys[j], s - 4 * j, d + s);
        lam[d + s] = fneg(c->p, d % 3 + j < 3 ? v : fmul(c->p, c->k, v));
    }
}

/* What the star of a triple J is read from: f its least member, u and w those of the next two classes. */
struct dual {
    unsigned d, d1, d2;          /* the degrees of f, u and w; d1 is d + 1 or d + 4, d2 is d + 2 or d + 5 */
    uint32_t lam[26];            /* the functional of f */
    uint32_t u[3][26], w[3][26]; /* the y-multiples of u and w */
    uint32_t w4, v4, v3;         /* the functional at y * w, y * v and x * v, v the multiple of w of degree d + 5 */
};

/* The functional at e_n * u. */
static uint32_t at_u(uint32_t p, const struct dual *s, unsigned n)
{
    return value(p, s->lam, s->d + 5, s->u[n % 3], n - 4 * (n % 3), n + s->d1 + 1);
}

/* The functional at e_n * x^(h/3) * w. */
static uint32_t at_w(uint32_t p, const struct dual *s, unsigned n, unsigned h)
{
    return value(p, s->lam, s->d + 5, s->w[n % 3], n - 4 * (n % 3) + h, n + h + s->d2 + 1);
}

/* The dual of a triple whose member of class j is the least one, f. */
static struct dual dual_of(const struct curve *c, const uint32_t t[3][26], const unsigned d[3], unsigned j)
{
    struct dual s;
    uint32_t ys[3][26];
    unsigned j1 = (j + 1) % 3, j2 = (j + 2) % 3;
    s.d = d[j];
    s.d1 = d[j1];
    s.d2 = d[j2];
    y_multiples(c->p, c->f, t[j], s.d + 1, ys);
    functional(c, ys, s.d, s.lam);
    y_multiples(c->p, c->f, t[j1], s.d1 + 1, s.u);
    y_multiples(c->p, c->f, t[j2], s.d2 + 1, s.w);
    s.w4 = at_w(c->p, &s, 4, 0);
    s.v4 = at_w(c->p, &s, 4, s.d + 5 - s.d2);
    s.v3 = at_w(c->p, &s, 3, s.d + 5 - s.d2);
    return s;
}

/* a with e_n + a[2] * y + a[1] * x + a[0] in J*: a[2] is 0 if d1 is d + 4, and a[1] is 0 if d2 is d + 5. The functional
   is 1 or -a0 at y * u, 1 at x * w for d2 = d + 2, and 1 at v. */
static void solve(const struct curve *c, const struct dual *s, unsigned n, uint32_t a[3])
{
    uint32_t p = c->p;
    a[1] = a[2] = 0;
    if (s->d1 == s->d + 1)
        a[2] = fneg(p, fmul(p, s->d % 3 == 1 ? c->k : 1, at_u(p, s, n)));
    if (s->d2 == s->d + 2)
        a[1] = fneg(p, fmul_add(p, a[2], s->w4, at_w(p, s, n, 0)));
    a[0] = fmul_add(p, a[2], s->v4, at_w(p, s, n, s->d + 5 - s->d2));
    a[0] = fneg(p, fmul_add(p, a[1], s->v3, a[0]));
}

static struct record record_zero(void)
{
    struct record r = {0, {0}};
    return r;
}

/* x + f0; y + g0 */
static struct record star_11(const struct curve *c, const struct dual *s)
{
    uint32_t f[3], g[3];
    solve(c, s, 3, f);
    solve(c, s, 4, g);
    return (struct record){11, {f[0], g[0]}};
}

/* y + f1 * x + f0; x^2 + g1 * x + g0 */
static struct record star_21(const struct curve *c, const struct dual *s)
{
    uint32_t f[3], g[3];
    solve(c, s, 4, f);
    solve(c, s, 6, g);
    return (struct record){21, {f[0], f[1], g[0], g[1]}};
}

/* x + f0; y^2 + g1 * y + g0 */
static struct record star_22(const struct curve *c, const struct dual *s)
{
    uint32_t f[3], g[3];
    solve(c, s, 3, f);
    solve(c, s, 8, g);
    return (struct record){22, {f[0], g[0], g[2]}};
}

/* x^2 + f2 * y + f1 * x + f0; x * y + g2 * y + g1 * x + g0; y^2 + h2 * y + h1 * x + h0 */
static struct record star_31(const struct curve *c, const struct dual *s)
{
    uint32_t f[3], g[3], h[3];
    solve(c, s, 6, f);
    solve(c, s, 7, g);
    solve(c, s, 8, h);
    return (struct record){31, {f[0], f[1], f[2], g[0], g[1], g[2], h[0], h[1], h[2]}};
}

/* The class of the least degree. */
static unsigned least(const unsigned d[3])
{
    unsigned j = d[1] < d[0] ? 1 : 0;
    return d[2] < d[j] ? 2 : j;
}

/* The degrees less the least one are (1, 2), (4, 2), (1, 5), (4, 5) or (4, 8) in the order of the classes. */
struct record star(const struct curve *c, const uint32_t t[3][26], const unsigned d[3])
{
    unsigned j = least(d), g1 = d[(j + 1) % 3] - d[j], g2 = d[(j + 2) % 3] - d[j];
    if (g2 == 8)
        return record_zero();
    struct dual s = dual_of(c, t, d, j);
    if (g2 == 2)
        return g1 == 1 ? star_31(c, &s) : star_21(c, &s);
    return g1 == 1 ? star_22(c, &s) : star_11(c, &s);
}

/* ---- records ---- */

/* v = the monic polynomial of degree m with the lower terms a0 + a3 * x + a4 * y. */
static void polynomial(uint32_t v[26], unsigned m, uint32_t a0, uint32_t a3, uint32_t a4)
{
    zero(v);
    v[0] = a0;
    v[3] = a3;
    v[4] = a4;
    v[m] = 1;
}

/* The triple of 1. */
static void triple_0(const struct curve *c, uint32_t t[3][26], unsigned d[3])
{
    polynomial(t[0], 0, 0, 0, 0);
    polynomial(t[1], 4, 0, 0, 0);
    times_y(c->p, c->f, t[1], 5, t[2]);
    d[0] = 0, d[1] = 4, d[2] = 8;
}

/* x + f0; y + g0; y times the second */
static void triple_11(const struct curve *c, const uint32_t n[9], uint32_t t[3][26], unsigned d[3])
{
    polynomial(t[0], 3, n[0], 0, 0);
    polynomial(t[1], 4, n[1], 0, 0);
    times_y(c->p, c->f, t[1], 5, t[2]);
    d[0] = 3, d[1] = 4, d[2] = 8;
}

/* x^2 + g1 * x + g0; y + f1 * x + f0; y times the second */
static void triple_21(const struct curve *c, const uint32_t n[9], uint32_t t[3][26], unsigned d[3])
{
    polynomial(t[0], 6, n[2], n[3], 0);
    polynomial(t[1], 4, n[0], n[1], 0);
    times_y(c->p, c->f, t[1], 5, t[2]);
    d[0] = 6, d[1] = 4, d[2] = 8;
}

/* x + f0; y times the first; y^2 + g1 * y + g0 */
static void triple_22(const struct curve *c, const uint32_t n[9], uint32_t t[3][26], unsigned d[3])
{
    polynomial(t[0], 3, n[0], 0, 0);
    times_y(c->p, c->f, t[0], 4, t[1]);
    polynomial(t[2], 8, n[1], 0, n[2]);
    d[0] = 3, d[1] = 7, d[2] = 8;
}

/* x^2 + f2 * y + f1 * x + f0; x * y + g2 * y + g1 * x + g0; y^2 + h2 * y + h1 * x + h0 */
static void triple_31(const uint32_t n[9], uint32_t t[3][26], unsigned d[3])
{
    polynomial(t[0], 6, n[0], n[1], n[2]);
    polynomial(t[1], 7, n[3], n[4], n[5]);
    polynomial(t[2], 8, n[6], n[7], n[8]);
    d[0] = 6, d[1] = 7, d[2] = 8;
}

void triple_of(const struct curve *c, const struct record *r, uint32_t t[3][26], unsigned d[3])
{
    if (r->kind == 0)
        triple_0(c, t, d);
    else if (r->kind == 11)
        triple_11(c, r->n, t, d);
    else if (r->kind == 21)
        triple_21(c, r->n, t, d);
    else if (r->kind == 22)
        triple_22(c, r->n, t, d);
    else
        triple_31(r->n, t, d);
}

struct record negative(const struct curve *c, const struct record *a)
{
    uint32_t t[3][26];
    unsigned d[3];
    triple_of(c, a, t, d);
    return star(c, t, d);
}

struct record sum(const struct curve *c, const struct record *a, const struct record *b)
{
    uint32_t t1[3][26], t2[3][26], t[3][26];
    unsigned d1[3], d2[3], d[3];
    triple_of(c, a, t1, d1);
    triple_of(c, b, t2, d2);
    product(c, t1, d1, t2, d2, t, d);
    struct record r = star(c, t, d);
    return negative(c, &r);
}

struct record twice(const struct curve *c, const struct record *a)
{
    return sum(c, a, a);
}

/* The sum of r and n times b stays the same. */
struct record multiple(const struct curve *c, const struct record *a, uint64_t n)
{
    struct record r = record_zero(), b = *a;
    while (n != 0) {
        if (n % 2 == 1)
            r = sum(c, &r, &b);
        n = n / 2;
        if (n != 0)
            b = twice(c, &b);
    }
    return r;
}
