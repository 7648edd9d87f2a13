/* Vectors by pole number, and triples: multiplying, inserting, reducing, the product. core.h says what the words mean.
   In each function the vectors that it writes are apart from those that it reads. */
#include "span.h"
#include "field.h"

uint64_t count_mul, count_inv;

/* The normal monomial x^i y^j of each pole number: j, and 3 * i; at the gaps 1, 2 and 5 they are 3 and 0. */
static const uint8_t y_power[26] = {0, 3, 3, 0, 1, 3, 0, 1, 2, 0, 1, 2, 0, 1, 2, 0, 1, 2, 0, 1, 2, 0, 1, 2, 0, 1};
static const uint8_t x_pole[26] = {0, 0,  0, 3,  0, 0,  6,  3,  0,  9,  6,  3,  12,
                                   9, 6, 15, 12, 9, 18, 15, 12, 21, 18, 15, 24, 21};

/* ---- vectors ---- */

void zero(uint32_t v[26])
{
    for (unsigned i = 0; i < 26; i++)
        v[i] = 0;
}

static void copy(const uint32_t v[26], uint32_t out[26])
{
    for (unsigned i = 0; i < 26; i++)
        out[i] = v[i];
}

/* r plus c * x^(s/3) times the part of b below e, s + e <= 26. */
static void axpy(uint32_t p, uint32_t r[26], uint32_t c, const uint32_t b[26], unsigned s, unsigned e)
{
    for (unsigned i = 0; i < e; i++)
        if (b[i] != 0)
            r[i + s] = fmul_add(p, c, b[i], r[i + s]);
}

/* v less the multiple of the monic b of degree d that takes place n away; d <= n, d = n mod 3. */
static void clear(uint32_t p, uint32_t v[26], unsigned n, const uint32_t b[26], unsigned d)
{
    axpy(p, v, fneg(p, v[n]), b, n - d, d);
    v[n] = 0;
}

/* v with its places below e times c. */
static void scale(uint32_t p, uint32_t v[26], uint32_t c, unsigned e)
{
    for (unsigned i = 0; i < e; i++)
        v[i] = fmul(p, c, v[i]);
}

/* y times the part of v, v below top, that has no y^2. */
static void shift_y(const uint32_t v[26], unsigned top, uint32_t out[26])
{
    zero(out);
    for (unsigned n = 0; n < top; n++)
        if (y_power[n + 4] != 0)
            out[n + 4] = v[n];
}

/* out = y * v, for v below top <= 22. */
void times_y(uint32_t p, const uint32_t f[26], const uint32_t v[26], unsigned top, uint32_t out[26])
{
    shift_y(v, top, out);
    for (unsigned n = 8; n < top; n += 3)
        if (v[n] != 0)
            axpy(p, out, v[n], f, n - 8, 13);
}

/* ys = v, y * v, y^2 * v, for v below top <= 18. */
void y_multiples(uint32_t p, const uint32_t f[26], const uint32_t v[26], unsigned top, uint32_t ys[3][26])
{
    copy(v, ys[0]);
    times_y(p, f, v, top, ys[1]);
    times_y(p, f, ys[1], top + 4, ys[2]);
}

/* out = b * v from the y-multiples of v, for b below e, v below top, e + top <= 27. */
static void times(uint32_t p, const uint32_t b[26], unsigned e, const uint32_t ys[3][26], unsigned top,
                  uint32_t out[26])
{
    zero(out);
    for (unsigned n = 0; n < e; n++)
        if (b[n] != 0)
            axpy(p, out, b[n], ys[y_power[n]], x_pole[n], top + 4 * y_power[n]);
}

/* ---- triples ---- */

void empty(uint32_t t[3][26], unsigned d[3])
{
    for (unsigned j = 0; j < 3; j++) {
        zero(t[j]);
        d[j] = 26;
    }
}

/* v made monic, for v of degree m. */
static void monic(uint32_t p, uint32_t v[26], unsigned m)
{
    if (v[m] != 1) {
        scale(p, v, finv(p, v[m]), m);
        v[m] = 1;
    }
}

static void swap(uint32_t v[26], uint32_t w[26])
{
    for (unsigned i = 0; i < 26; i++) {
        uint32_t h = v[i];
        v[i] = w[i];
        w[i] = h;
    }
}

/* Puts v, below top, into the module of the triple; v is used up. d[0] + d[1] + d[2] + n falls. */
void insert(uint32_t p, uint32_t t[3][26], unsigned d[3], uint32_t v[26], unsigned top)
{
    unsigned n = top;
    while (n > 0) {
        unsigned m = n - 1, j = m % 3;
        if (v[m] == 0) {
            n = m;
        } else if (d[j] <= m) {
            clear(p, v, m, t[j], d[j]);
            n = m;
        } else {
            unsigned old = d[j];
            monic(p, v, m);
            swap(v, t[j]);
            d[j] = m;
            if (old < 26)
                clear(p, v, old, t[j], m);
            n = old < 26 ? old : 0;
        }
    }
}

/* v less an element of the module, for v below top; afterwards v is 0 at every lead of the module. */
static void reduce(uint32_t p, const uint32_t t[3][26], const unsigned d[3], uint32_t v[26], unsigned top)
{
    for (unsigned n = top; n > 0; n--) {
        unsigned m = n - 1, j = m % 3;
        if (v[m] != 0 && d[j] <= m)
            clear(p, v, m, t[j], d[j]);
    }
}

/* 1 if v, below top, is 0. */
static int is_zero(const uint32_t v[26], unsigned top)
{
    for (unsigned i = 0; i < top; i++)
        if (v[i] != 0)
            return 0;
    return 1;
}

int closed(const struct curve *c, const uint32_t t[3][26], const unsigned d[3])
{
    for (unsigned j = 0; j < 3; j++) {
        uint32_t v[26];
        times_y(c->p, c->f, t[j], d[j] + 1, v);
        reduce(c->p, t, d, v, d[j] + 5);
        if (!is_zero(v, 8))
            return 0;
    }
    return 1;
}

int inside(uint32_t p, const uint32_t t[3][26], const unsigned d[3], const uint32_t s[3][26], const unsigned e[3])
{
    for (unsigned j = 0; j < 3; j++) {
        uint32_t v[26];
        copy(t[j], v);
        reduce(p, s, e, v, d[j] + 1);
        if (!is_zero(v, d[j] + 1))
            return 0;
    }
    return 1;
}

void add_product(const struct curve *c, uint32_t t[3][26], unsigned d[3], const uint32_t t1[3][26],
                 const unsigned d1[3], const uint32_t v[26], unsigned top)
{
    uint32_t ys[3][26];
    y_multiples(c->p, c->f, v, top, ys);
    for (unsigned i = 0; i < 3; i++) {
        uint32_t w[26];
        times(c->p, t1[i], d1[i] + 1, ys, top, w);
        insert(c->p, t, d, w, d1[i] + top);
    }
}

/* Inserts b times each member of a triple of degrees d2, from the members' y-multiples, for monic b of degree db. */
static void insert_products(uint32_t p, uint32_t t[3][26], unsigned d[3], const uint32_t b[26], unsigned db,
                            const uint32_t ys[3][3][26], const unsigned d2[3])
{
    for (unsigned j = 0; j < 3; j++) {
        uint32_t v[26];
        times(p, b, db + 1, ys[j], d2[j] + 1, v);
        insert(p, t, d, v, db + d2[j] + 1);
    }
}

/* The products with the member of class 0 come first: they are monic and fill the three classes. */
void product(const struct curve *c, const uint32_t t1[3][26], const unsigned d1[3], const uint32_t t2[3][26],
             const unsigned d2[3], uint32_t t[3][26], unsigned d[3])
{
    uint32_t ys[3][3][26];
    for (unsigned j = 0; j < 3; j++)
        y_multiples(c->p, c->f, t2[j], d2[j] + 1, ys[j]);
    empty(t, d);
    for (unsigned i = 0; i < 3; i++)
        insert_products(c->p, t, d, t1[i], d1[i], ys, d2);
}
