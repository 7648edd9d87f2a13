/* Ideals of the ring by naive linear algebra: see independent.h.

   An ideal is looked at through a window: its elements of pole number at most T, a linear space. If a space of such
   elements is closed under multiplying by x and by y as far as T allows, and for each residue modulo 3 has an element of
   pole number at most T - 4 with that residue, then it is the window of an ideal: let w0, w1, w2 be elements of least pole
   number by residue. By taking off multiples each element of the space is a sum of multiples of these by polynomials in x,
   and y times each of the three is again in the space. Every window below is checked to be so wide. */
#include "independent.h"
#include <string.h>

const unsigned term_x[TERMS] = {0, 0, 1, 0, 2, 1, 0, 3, 2, 1, 4}, term_y[TERMS] = {3, 0, 0, 1, 0, 1, 2, 0, 1, 2, 0};

/* y^3, c0 to c8, x^4. */
uint32_t term(const struct curve *k, int t)
{
    return t == 0 || t == TERMS - 1 ? 1 : k->c[t - 1];
}

/* ---- the ring ---- */

static int is_pole(unsigned n)
{
    return n != 1 && n != 2 && n != 5;
}

static unsigned lead(const uint32_t *v)
{
    unsigned n = WIDTH - 1;
    while (n > 0 && v[n] == 0)
        n--;
    return n;
}

/* x^i times v, added to `out` t times. */
static void add_shifted(const struct curve *k, uint32_t t, unsigned i, const uint32_t *v, uint32_t *out)
{
    unsigned m = lead(v);
    require(m + 3 * i < WIDTH, "an element is too long", NULL);
    for (unsigned n = 0; n <= m; n++)
        if (v[n] != 0)
            out[n + 3 * i] = (uint32_t)(((uint64_t)t * v[n] + out[n + 3 * i]) % k->p);
}

/* y times v: where that gives x^i y^3, it is replaced by what it equals modulo F. */
static void multiply_y(const struct curve *k, const uint32_t *v, uint32_t *out)
{
    unsigned m = lead(v);
    require(m + 4 < WIDTH, "an element is too long", NULL);
    memset(out, 0, WIDTH * sizeof *out);
    for (unsigned n = 0; n <= m; n++)
        if (n % 3 != 2)
            out[n + 4] = v[n];
    for (unsigned n = 8; n <= m; n += 3)
        for (int t = 1; v[n] != 0 && t < TERMS; t++) {
            uint32_t *at = &out[n - 8 + 3 * term_x[t] + 4 * term_y[t]];
            *at = minus(k->p, *at, times(k->p, v[n], term(k, t)));
        }
}

/* The normal monomial with pole number n has y to the power n % 3. */
static void multiply(const struct curve *k, const uint32_t *a, const uint32_t *b, uint32_t *out)
{
    uint32_t by_y[3][WIDTH];
    unsigned m = lead(a);
    memcpy(by_y[0], b, sizeof by_y[0]);
    multiply_y(k, by_y[0], by_y[1]);
    multiply_y(k, by_y[1], by_y[2]);
    memset(out, 0, WIDTH * sizeof *out);
    for (unsigned n = 0; n <= m; n++)
        if (a[n] != 0)
            add_shifted(k, a[n], (n - 4 * (n % 3)) / 3, by_y[n % 3], out);
}

static void multiply_monomial(const struct curve *k, unsigned n, const uint32_t *b, uint32_t *out)
{
    uint32_t v[WIDTH], w[WIDTH];
    memcpy(v, b, sizeof v);
    for (unsigned j = 0; j < n % 3; j++) {
        multiply_y(k, v, w);
        memcpy(v, w, sizeof v);
    }
    memset(out, 0, WIDTH * sizeof *out);
    add_shifted(k, 1, (n - 4 * (n % 3)) / 3, v, out);
}

/* ---- windows ---- */

/* Multiplies by x and y as far as the window allows until nothing new comes; each row once. */
static void close(const struct curve *k, struct space *s)
{
    uint32_t v[WIDTH];
    uint8_t done[WIDTH] = {0};
    for (int grew = 1; grew;) {
        grew = 0;
        for (unsigned n = 0; n < s->width; n++)
            if (s->has[n] && !done[n]) {
                for (unsigned by = 3; by <= 4 && n + by < s->width; by++) {
                    multiply_monomial(k, by, s->row[n], v);
                    grew |= insert(s, v);
                }
                done[n] = 1;
            }
    }
}

/* The generators by residue of the ideal whose window is s. */
static struct ideal generators(const struct space *s)
{
    struct ideal a;
    for (unsigned j = 0; j < 3; j++) {
        unsigned n = j;
        while (n < s->width && !s->has[n])
            n += 3;
        require(n + 4 < s->width, "a window is too narrow", NULL);
        memset(a.g[j], 0, sizeof a.g[j]);
        memcpy(a.g[j], s->row[n], s->width * sizeof *s->row[n]);
        a.pole[j] = n;
    }
    return a;
}

/* The window up to `top` of the ideal that some elements generate. */
static void window(const struct curve *k, uint32_t (*v)[WIDTH], unsigned count, unsigned top, struct space *s)
{
    make_empty(s, k->p, top + 1);
    for (unsigned i = 0; i < count; i++) {
        require(lead(v[i]) <= top, "a generator is outside the window", NULL);
        insert(s, v[i]);
    }
    close(k, s);
}

static void ideal_window(const struct curve *k, const struct ideal *a, unsigned top, struct space *s)
{
    uint32_t v[3][WIDTH];
    memcpy(v, a->g, sizeof v);
    window(k, v, 3, top, s);
}

/* ---- records and ideals ---- */

enum { RECORD_TOP = 12 }; /* a record's ideal has elements of pole numbers 6 or 3 or 0, 7 or 4, and 8 */

unsigned polynomials(const uint8_t *record, uint32_t v[3][WIDTH])
{
    static const unsigned lead_of[5][3] = {{0}, {3, 4}, {4, 6}, {3, 8}, {6, 7, 8}};
    static const unsigned count[5] = {1, 2, 2, 2, 3};
    static const unsigned below[5][3][4] = {
        {{0}}, {{1, 0}, {1, 0}}, {{2, 0, 3}, {2, 0, 3}}, {{1, 0}, {2, 0, 4}}, {{3, 0, 3, 4}, {3, 0, 3, 4}, {3, 0, 3, 4}}};
    uint32_t kind = get16(record + 2);
    unsigned r = kind == 0 ? 0 : kind == 11 ? 1 : kind == 21 ? 2 : kind == 22 ? 3 : 4;
    const uint8_t *at = record + 4;
    memset(v, 0, 3 * sizeof v[0]);
    for (unsigned i = 0; i < count[r]; i++) {
        v[i][lead_of[r][i]] = 1;
        for (unsigned m = 1; m <= below[r][i][0]; m++, at += 4)
            v[i][below[r][i][m]] = get32(at);
    }
    return count[r];
}

static void record_window(const struct curve *k, const uint8_t *record, struct space *s)
{
    uint32_t v[3][WIDTH];
    unsigned count = polynomials(record, v);
    window(k, v, count, RECORD_TOP, s);
}

struct ideal ideal_of(const struct curve *k, const uint8_t *record)
{
    struct space s;
    record_window(k, record, &s);
    return generators(&s);
}

/* No nonzero combination of the remaining monomials is in the ideal: they can be added to it one by one. */
int is_basis(const struct curve *k, const uint8_t *record)
{
    static const unsigned remaining_x[2] = {0, 3}, remaining_y[2] = {0, 4}, remaining_both[3] = {0, 3, 4};
    uint32_t kind = get16(record + 2);
    unsigned count = kind == 0 ? 0 : kind == 11 ? 1 : kind == 31 ? 3 : 2;
    const unsigned *remaining = kind == 31 ? remaining_both : kind == 22 ? remaining_y : remaining_x;
    struct space s;
    record_window(k, record, &s);
    for (unsigned i = 0; i < count; i++) {
        uint32_t v[WIDTH] = {0};
        v[remaining[i]] = 1;
        if (!insert(&s, v))
            return 0;
    }
    return 1;
}

/* The coefficients of the element of the window that is the monomial `top` plus remaining monomials. */
static void tail(const struct space *s, unsigned top, uint32_t *v)
{
    memcpy(v, s->row[top], s->width * sizeof *v);
    v[top] = 0;
    reduce(s, v);
}

size_t record_of(const struct curve *k, const struct ideal *a, uint8_t *record)
{
    struct space s;
    uint32_t u[WIDTH], v[WIDTH], w[WIDTH];
    ideal_window(k, a, RECORD_TOP, &s);
    if (s.has[0])
        return put_record(record, 0, NULL);
    if (s.has[3] && s.has[4]) {
        tail(&s, 3, u);
        tail(&s, 4, v);
        return put_record(record, 11, (uint32_t[]){u[0], v[0]});
    }
    if (s.has[4]) {
        tail(&s, 4, u);
        tail(&s, 6, v);
        return put_record(record, 21, (uint32_t[]){u[0], u[3], v[0], v[3]});
    }
    if (s.has[3]) {
        tail(&s, 3, u);
        tail(&s, 8, v);
        return put_record(record, 22, (uint32_t[]){u[0], v[0], v[4]});
    }
    require(s.has[6] && s.has[7] && s.has[8], "a reduced ideal has no record", NULL);
    tail(&s, 6, u);
    tail(&s, 7, v);
    tail(&s, 8, w);
    return put_record(record, 31, (uint32_t[]){u[0], u[3], u[4], v[0], v[3], v[4], w[0], w[3], w[4]});
}

/* ---- product and star ---- */

struct ideal product(const struct curve *k, const struct ideal *a, const struct ideal *b)
{
    uint32_t v[9][WIDTH];
    unsigned top = 0;
    struct space s;
    for (unsigned i = 0; i < 9; i++) {
        unsigned pole = a->pole[i / 3] + b->pole[i % 3];
        multiply(k, a->g[i / 3], b->g[i % 3], v[i]);
        top = pole > top ? pole : top;
    }
    window(k, v, 9, top + 4, &s);
    return generators(&s);
}

/* The window up to `top` of the multiples of f: the monomials times f. */
static void multiples(const struct curve *k, const uint32_t *f, unsigned top, struct space *s)
{
    uint32_t v[WIDTH];
    make_empty(s, k->p, top + 1);
    for (unsigned n = 0; n + lead(f) <= top; n++)
        if (is_pole(n)) {
            multiply_monomial(k, n, f, v);
            insert(s, v);
        }
}

/* Puts the solutions of a kernel into the space: from place `from` on a row holds coefficients, of these monomials. */
static void insert_solutions(struct space *s, uint32_t **row, unsigned solutions, unsigned from,
                             const unsigned *monomial, unsigned count)
{
    for (unsigned i = 0; i < solutions; i++) {
        uint32_t v[WIDTH] = {0};
        for (unsigned m = 0; m < count; m++)
            v[monomial[m]] = row[i][from + m];
        insert(s, v);
    }
}

/* J* holds f, so it is enough to look for the g made of monomials that lead no multiple of f. For such a g the products
   with the three generators of J must be zero modulo f: linear equations, solved by elimination. */
struct ideal star(const struct curve *k, const struct ideal *a)
{
    static struct space s;
    static uint32_t rows[WIDTH][4 * WIDTH];
    uint32_t v[WIDTH], *row[WIDTH];
    unsigned least = 0, most = 0, count = 0, monomial[WIDTH];
    for (unsigned j = 1; j < 3; j++) {
        least = a->pole[j] < a->pole[least] ? j : least;
        most = a->pole[j] > a->pole[most] ? j : most;
    }
    unsigned narrow = a->pole[least] + 12, width = narrow + a->pole[most] + 1;
    multiples(k, a->g[least], width - 1, &s);
    for (unsigned n = 0; n <= narrow; n++)
        if (is_pole(n) && !s.has[n])
            monomial[count++] = n;
    memset(rows, 0, sizeof rows);
    for (unsigned i = 0; i < count; i++) {
        row[i] = rows[i];
        for (unsigned j = 0; j < 3; j++) {
            multiply_monomial(k, monomial[i], a->g[j], v);
            reduce(&s, v);
            memcpy(row[i] + j * width, v, width * sizeof *v);
        }
        row[i][3 * width + i] = 1;
    }
    require(3 * width + count <= 4 * WIDTH, "an equation is too long", NULL);
    unsigned solutions = kernel(k->p, row, count, 3 * width);
    multiples(k, a->g[least], narrow, &s);
    insert_solutions(&s, row, solutions, 3 * width, monomial, count);
    return generators(&s);
}

struct ideal reduced(const struct curve *k, const struct ideal *a)
{
    struct ideal b = star(k, a);
    return star(k, &b);
}

/* ---- two ideals ---- */

static unsigned highest(const struct ideal *a)
{
    unsigned n = a->pole[0] > a->pole[1] ? a->pole[0] : a->pole[1];
    return a->pole[2] > n ? a->pole[2] : n;
}

static unsigned higher(const struct ideal *a, const struct ideal *b)
{
    return highest(a) > highest(b) ? highest(a) : highest(b);
}

struct ideal together(const struct curve *k, const struct ideal *a, const struct ideal *b)
{
    uint32_t v[6][WIDTH];
    struct space s;
    memcpy(v, a->g, sizeof a->g);
    memcpy(v + 3, b->g, sizeof b->g);
    window(k, v, 6, higher(a, b) + 4, &s);
    return generators(&s);
}

/* The combinations of monomials that leave nothing modulo a and nothing modulo b: linear equations, solved by
   elimination. The generator of a with residue 0 times each one of b is in both, so the window is wide enough. */
struct ideal intersection(const struct curve *k, const struct ideal *a, const struct ideal *b)
{
    static struct space s[2];
    static uint32_t rows[WIDTH][3 * WIDTH];
    uint32_t *row[WIDTH];
    unsigned top = highest(a) + highest(b) + 4, width = top + 1, count = 0, monomial[WIDTH];
    require(width <= WIDTH, "an equation is too long", NULL);
    ideal_window(k, a, top, &s[0]);
    ideal_window(k, b, top, &s[1]);
    memset(rows, 0, sizeof rows);
    for (unsigned n = 0; n <= top; n++)
        if (is_pole(n)) {
            row[count] = rows[count];
            for (unsigned side = 0; side < 2; side++) {
                row[count][side * width + n] = 1;
                reduce(&s[side], row[count] + side * width);
            }
            row[count][2 * width + count] = 1;
            monomial[count++] = n;
        }
    unsigned solutions = kernel(k->p, row, count, 2 * width);
    make_empty(&s[0], k->p, width);
    insert_solutions(&s[0], row, solutions, 2 * width, monomial, count);
    return generators(&s[0]);
}

/* ---- powers ---- */

/* 1 if a lies inside b: the generators of a are in b's window. */
static int lies_inside(const struct curve *k, const struct ideal *a, const struct ideal *b)
{
    struct space s;
    ideal_window(k, b, higher(a, b) + 4, &s);
    for (unsigned j = 0; j < 3; j++)
        if (insert(&s, a->g[j]))
            return 0;
    return 1;
}

unsigned multiplicity(const struct curve *k, const struct ideal *a, const struct ideal *point)
{
    struct ideal power = *point;
    unsigned n = 0;
    while (lies_inside(k, a, &power)) {
        power = product(k, &power, point);
        n++;
    }
    return n;
}
