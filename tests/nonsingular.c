/* Whether a curve is nonsingular, from document 01's definition: 1 = r F + s Fx + t Fy for polynomials r, s, t in x and y.

   The polynomials of weight at most W (3 for x, 4 for y) that come from F, Fx and Fy by adding and by multiplying with x
   and y below W form a space. If 1 is in it the curve is nonsingular. If 1 is not, and W is at least the weight of the
   least common multiple of any two of its minimal leads, then Buchberger's criterion holds: these leads are those of the
   whole ideal, and the curve is singular. Otherwise W is raised. */
#include "independent.h"
#include "call.h"
#include "space.h"
#include <string.h>

enum { FIRST_WEIGHT = 24, LAST_WEIGHT = 42, MAX_X = 15, MAX_Y = 11 };

static unsigned monomials, x_of[WIDTH], y_of[WIDTH], place[MAX_X][MAX_Y];

/* The monomials of weight at most w by weight, and by y where weights agree. */
static void list_monomials(unsigned w)
{
    monomials = 0;
    for (unsigned e = 0; e <= w; e++)
        for (unsigned j = 0; 4 * j <= e; j++)
            if ((e - 4 * j) % 3 == 0) {
                unsigned i = (e - 4 * j) / 3;
                x_of[monomials] = i;
                y_of[monomials] = j;
                place[i][j] = monomials++;
            }
}

static unsigned weight(unsigned i, unsigned j)
{
    return 3 * i + 4 * j;
}

/* The derivative of F by x (or by y), and F itself. */
static void start(struct space *s, const struct curve *k)
{
    uint32_t f[WIDTH] = {0}, fx[WIDTH] = {0}, fy[WIDTH] = {0};
    for (int t = 0; t < TERMS; t++) {
        unsigned i = term_x[t], j = term_y[t];
        uint32_t c = term(k, t);
        f[place[i][j]] = c;
        if (i > 0)
            fx[place[i - 1][j]] = times(k->p, c, i % k->p);
        if (j > 0)
            fy[place[i][j - 1]] = times(k->p, c, j % k->p);
    }
    insert(s, f);
    insert(s, fx);
    insert(s, fy);
}

/* The row n times x^i y^j, put into the space; 1 if it is new. */
static int insert_multiple(struct space *s, unsigned n, unsigned i, unsigned j)
{
    uint32_t v[WIDTH] = {0};
    for (unsigned m = 0; m <= n; m++)
        if (s->row[n][m] != 0)
            v[place[x_of[m] + i][y_of[m] + j]] = s->row[n][m];
    return insert(s, v);
}

/* Each row is multiplied once; a row that comes below it is seen in the next round. */
static void close(struct space *s, unsigned w)
{
    uint8_t done[WIDTH] = {0};
    for (int grew = 1; grew;) {
        grew = 0;
        for (unsigned n = 0; n < s->width; n++)
            if (s->has[n] && !done[n]) {
                unsigned e = weight(x_of[n], y_of[n]);
                grew |= e + 3 <= w && insert_multiple(s, n, 1, 0);
                grew |= e + 4 <= w && insert_multiple(s, n, 0, 1);
                done[n] = 1;
            }
    }
}

static int minimal(const struct space *s, unsigned n)
{
    for (unsigned m = 0; m < n; m++)
        if (s->has[m] && x_of[m] <= x_of[n] && y_of[m] <= y_of[n])
            return 0;
    return s->has[n];
}

/* 1 if the least common multiple of any two minimal leads has weight at most w. */
static int wide_enough(const struct space *s, unsigned w)
{
    for (unsigned n = 0; n < s->width; n++)
        for (unsigned m = 0; m < n; m++) {
            unsigned i = x_of[n] > x_of[m] ? x_of[n] : x_of[m], j = y_of[n] > y_of[m] ? y_of[n] : y_of[m];
            if (weight(i, j) > w && minimal(s, n) && minimal(s, m))
                return 0;
        }
    return 1;
}

int nonsingular(const struct curve *k)
{
    static struct space s;
    for (unsigned w = FIRST_WEIGHT; w <= LAST_WEIGHT; w += 6) {
        list_monomials(w);
        make_empty(&s, k->p, monomials);
        start(&s, k);
        close(&s, w);
        if (s.has[0] || wide_enough(&s, w))
            return s.has[0];
    }
    require(0, "nonsingular: the weight is never large enough", NULL);
    return 0;
}
