/* What two divisors have in common, and their sum by it: see overlap.h. */
#include "overlap.h"
#include "span.h"

/* ---- combinations ---- */

/* A monic polynomial of degree d. */
struct polynomial {
    uint32_t v[26];
    unsigned d;
};

/* The member of class j of the triple of a record. */
static struct polynomial member(const struct curve *c, const struct record *a, unsigned j)
{
    struct polynomial r;
    uint32_t t[3][26];
    unsigned d[3];
    triple_of(c, a, t, d);
    for (unsigned n = 0; n < 26; n++)
        r.v[n] = t[j][n];
    r.d = d[j];
    return r;
}

/* Puts u times the ideal of a into the module of a triple. */
static void add(const struct curve *c, const struct polynomial *u, const struct record *a, uint32_t t[3][26],
                unsigned d[3])
{
    uint32_t t1[3][26];
    unsigned d1[3];
    triple_of(c, a, t1, d1);
    add_product(c, t, d, t1, d1, u->v, u->d + 1);
}

/* The star of u I + v J, for the ideals I of a and J of b. */
static struct record star_of(const struct curve *c, const struct polynomial *u, const struct record *a,
                             const struct polynomial *v, const struct record *b)
{
    uint32_t t[3][26];
    unsigned d[3];
    empty(t, d);
    add(c, u, a, t, d);
    add(c, v, b, t, d);
    return star(c, t, d);
}

/* ---- common part and common multiple ---- */

/* The class of the first, the second or, for kind 31, the third polynomial of a record in its triple. */
static unsigned place(uint32_t kind, unsigned i)
{
    return kind == 21 ? (4 - i) % 3 : kind == 22 ? 2 * i % 3 : i;
}

/* The first polynomial, the least element of the ideal. */
static struct polynomial least_of(const struct curve *c, const struct record *a)
{
    return member(c, a, place(a->kind, 0));
}

/* The reduced ideal of u I + v J, for the ideals I of a and J of b. */
static struct record reduced(const struct curve *c, const struct polynomial *u, const struct record *a,
                             const struct polynomial *v, const struct record *b)
{
    struct record s = star_of(c, u, a, v, b);
    return negative(c, &s);
}

struct record common_part(const struct curve *c, const struct record *a, const struct record *b)
{
    const struct record zero = {0, {0}};
    struct polynomial one = member(c, &zero, 0);
    return reduced(c, &one, a, &one, b);
}

/* The reduced ideal of the intersection of (u : N) and J, for the ideals N of n, which u is in, and J of b: the star of
   u J* + v N, v the least element of J. */
static struct record meet(const struct curve *c, const struct polynomial *u, const struct record *n,
                          const struct record *b)
{
    struct record m = negative(c, b);
    struct polynomial v = least_of(c, b);
    return star_of(c, u, &m, &v, n);
}

struct record common_multiple(const struct curve *c, const struct record *a, const struct record *b)
{
    struct record n = negative(c, a);
    struct polynomial u = least_of(c, a);
    return meet(c, &u, &n, b);
}

/* ---- the sum ---- */

static unsigned degree(const struct record *a)
{
    return a->kind / 10;
}

/* For I inside J: common multiple and common part of A and J, where A = (u : I*) is equivalent to I and does not lie
   inside J. u is the second polynomial of I*, or the third. */
static void apart(const struct curve *c, const struct record *a, const struct record *b, struct record *multiple,
                  struct record *part)
{
    struct record n = negative(c, a);
    struct polynomial f = least_of(c, a), u = member(c, &n, place(n.kind, 1));
    *part = reduced(c, &u, a, &f, b);
    if (degree(part) == degree(b)) {
        u = member(c, &n, place(n.kind, 2));
        *part = reduced(c, &u, a, &f, b);
    }
    *multiple = meet(c, &u, &n, b);
}

/* The sum of x and y stays the same, and the smaller of their degrees falls. */
struct record sum_by_parts(const struct curve *c, const struct record *a, const struct record *b)
{
    struct record x = *a, y = *b;
    for (;;) {
        if (degree(&x) < degree(&y)) {
            struct record z = x;
            x = y;
            y = z;
        }
        if (y.kind == 0)
            return x;
        struct record multiple, part = common_part(c, &x, &y);
        if (degree(&part) < degree(&y))
            multiple = common_multiple(c, &x, &y);
        else
            apart(c, &x, &y, &multiple, &part);
        x = multiple;
        y = part;
    }
}
