/* Sum and double of divisors of kind 31 with one inversion. quick.h says what the functions do. A number is below p
   unless it is said to be below 2 p; a sum of products stays below 4 p^2 + 7 p < 2^64 until it is reduced. */
#include "quick.h"
#include <stddef.h>

#define INLINE static inline __attribute__((always_inline))
typedef uint64_t u64;
typedef unsigned __int128 u128;
typedef const struct quick_curve *curve;

/* ---- numbers modulo p ---- */

/* How a sum of products is reduced. MONTGOMERY divides it by R = -2^64, so one factor of each product, and each term
   without a factor, is a number times R: such numbers have names that end in R. For the others R is 1. */
enum form { MONTGOMERY, RECIPROCAL, REMAINDER };

/* Of two numbers modulo 2^64, one of which may have gone below 0. */
INLINE u64 lesser(u64 a, u64 b)
{
    return a < b ? a : b;
}

INLINE u64 plus(curve c, u64 a, u64 b)
{
    return lesser(a + b, a + b - c->p);
}

INLINE u64 minus(curve c, u64 a, u64 b)
{
    return lesser(a - b, a - b + c->p);
}

/* x / R for any x. In Montgomery's way: with m p = 2^64 h + x, h is below p, and it is -x / 2^64. */
INLINE u64 reduce(enum form w, curve c, u64 x)
{
    if (w == MONTGOMERY)
        return (u64)((u128)(x * c->inverse) * c->p >> 64);
    if (w == REMAINDER)
        return x % c->p;
    u64 r = x - (u64)((u128)x * c->reciprocal >> 64) * c->p;
    return lesser(r, r - c->p);
}

/* x / R + t */
INLINE u64 reduce_plus(enum form w, curve c, u64 x, u64 t)
{
    return w == MONTGOMERY ? plus(c, reduce(w, c, x), t) : reduce(w, c, x + t);
}

/* The same, below 2 p. */
INLINE u64 reduce_near(enum form w, curve c, u64 x, u64 t)
{
    return w == MONTGOMERY ? reduce(w, c, x) + t : reduce(w, c, x + t);
}

/* a R */
INLINE u64 times_R(enum form w, curve c, u64 a)
{
    return w == MONTGOMERY ? reduce(w, c, a * c->square) : a;
}

/* aR / R */
INLINE u64 over_R(enum form w, curve c, u64 aR)
{
    return w == MONTGOMERY ? reduce(w, c, aR) : aR;
}

/* cy / 2^k, below 2 p: with 2^64 q + l = 2^64 cy / 2^k it is q + l / 2^64, and l / 2^64 is -l / R. */
INLINE u64 halved(curve c, u64 cy, unsigned k, u64 negative)
{
    u64 d = (cy >> k) - reduce(MONTGOMERY, c, cy << 1 << (63 - k));
    return (d ^ negative) - negative + c->p;
}

/* Without jumps: whether x < y as m, a choice by m, and the distance of x and y. */
#ifdef __clang__
#define LESS(x, y) ((u64)((x) < (y)))
#define CHOICE(m, a, b) ((m) ? (a) : (b))
#define DISTANCE(m, x, y) ((m) ? (y) - (x) : (x) - (y))
#else
#define LESS(x, y) ((u64)((int64_t)((x) - (y)) >> 63))
#define CHOICE(m, a, b) ((b) ^ (((a) ^ (b)) & (m)))
#define DISTANCE(m, x, y) ((((x) - (y)) ^ (m)) - (m))
#endif

/* An inverse of a != 0, below 2 p. By halving: x and y are odd, a cy = 2^k y and a cx = -2^k x, or both with the other
   sign, and x cy + y cx = p. */
INLINE u64 inverse(curve c, u64 a)
{
    unsigned k = (unsigned)__builtin_ctzll(a);
    u64 x = c->p, y = a >> k, cx = 0, cy = 1, negative = 0;
    while (y != 1) {
        u64 less = LESS(x, y), distance = DISTANCE(less, x, y), both = cx + cy;
        unsigned z = (unsigned)__builtin_ctzll(x - y);
        cy = CHOICE(less, cx, cy) << z;
        y = CHOICE(less, x, y);
        x = distance >> z;
        cx = both;
        k += z;
        negative ^= less;
    }
    return halved(c, cy, k, -(negative & 1));
}

/* ---- divisors ---- */

struct numbers {
    u64 f0, f1, f2, g0, g1, g2, h0, h1, h2;
};

INLINE struct numbers numbers_of(const struct nine *a)
{
    const uint32_t *n = a->n;
    return (struct numbers){n[0], n[1], n[2], n[3], n[4], n[5], n[6], n[7], n[8]};
}

INLINE struct nine nine_of(u64 f0, u64 f1, u64 f2, u64 g0, u64 g1, u64 g2, u64 h0, u64 h1, u64 h2)
{
    return (struct nine){{(uint32_t)f0, (uint32_t)f1, (uint32_t)f2, (uint32_t)g0, (uint32_t)g1, (uint32_t)g2,
                          (uint32_t)h0, (uint32_t)h1, (uint32_t)h2}};
}

/* The numbers that are needed times R. */
struct scaled {
    u64 f1R, f2R, g1R, g2R;
};

INLINE struct scaled scaled_of(enum form w, curve c, const struct numbers *a)
{
    return (struct scaled){times_R(w, c, a->f1), times_R(w, c, a->f2), times_R(w, c, a->g1), times_R(w, c, a->g2)};
}

/* ---- columns: coefficients of 1, x, y modulo the ideal of a divisor ---- */

struct column {
    u64 a, b, d;
};

/* The column of -x z / R from that of z. */
INLINE struct column minus_x(enum form w, curve c, const struct numbers *e, struct column z)
{
    return (struct column){reduce(w, c, e->f0 * z.b + e->g0 * z.d),
                           reduce(w, c, e->f1 * z.b + e->g1 * z.d + (c->p - z.a)),
                           reduce(w, c, e->f2 * z.b + e->g2 * z.d)};
}

/* (a b - e d) / R */
INLINE u64 minor(enum form w, curve c, u64 a, u64 b, u64 e, u64 d)
{
    return reduce(w, c, a * b + (c->pp - e * d));
}

INLINE struct column cross(enum form w, curve c, struct column s, struct column t)
{
    return (struct column){minor(w, c, s.b, t.d, s.d, t.b), minor(w, c, s.d, t.a, s.a, t.d),
                           minor(w, c, s.a, t.b, s.b, t.a)};
}

INLINE u64 dot(enum form w, curve c, struct column s, struct column t)
{
    return reduce(w, c, s.a * t.a + s.b * t.b + s.d * t.d);
}

/* The first three columns; the fourth and fifth times -1 / R. */
struct matrix {
    struct column c1, c2, c3, d, e;
};

INLINE struct matrix sum_matrix(enum form w, curve c, const struct numbers *s, const struct numbers *t)
{
    struct matrix m;
    m.c1 = (struct column){minus(c, s->f0, t->f0), minus(c, s->f1, t->f1), minus(c, s->f2, t->f2)};
    m.c2 = (struct column){minus(c, s->g0, t->g0), minus(c, s->g1, t->g1), minus(c, s->g2, t->g2)};
    m.c3 = (struct column){minus(c, s->h0, t->h0), minus(c, s->h1, t->h1), minus(c, s->h2, t->h2)};
    m.d = minus_x(w, c, t, m.c1);
    m.e = minus_x(w, c, t, m.c2);
    return m;
}

/* With R2 = c7 - f2, R1 = -f1, s = f1 - g2, k = R1 - g2, l = R2 - f2. */
INLINE struct matrix double_matrix(enum form w, curve c, const struct numbers *a, const struct scaled *b)
{
    u64 pp = c->pp, f1R = b->f1R, f2R = b->f2R, g1R = b->g1R, g2R = b->g2R;
    u64 r2 = minus(c, c->c7, a->f2), l = minus(c, r2, a->f2);
    u64 lR = w == MONTGOMERY ? minus(c, minus(c, c->c7R, f2R), f2R) : l;
    u64 sR = minus(c, f1R, g2R), minus_kR = plus(c, f1R, g2R);
    u64 t0 = reduce_plus(w, c, pp - f2R * r2, c->p - a->h2);
    u64 s0 = reduce_plus(w, c, pp - f1R * l, minus(c, c->c4, a->h1));
    u64 r0 = reduce_plus(w, c, f1R * a->f1, minus(c, c->c3, a->f0));
    struct matrix m;
    m.c1 = (struct column){reduce_plus(w, c, sR * t0 + (pp - f2R * s0), c->p - a->g0), minus(c, t0, a->g1),
                           minus(c, minus(c, a->f1, a->g2), a->g2)};
    m.c2 = (struct column){reduce_plus(w, c, g1R * t0 + f2R * minus(c, r0, a->f0), c->p - a->h0),
                           reduce_plus(w, c, 2 * pp - f2R * (a->f1 + a->f1), c->p - a->h1),
                           reduce_plus(w, c, f2R * l, minus(c, plus(c, t0, a->g1), a->h2))};
    m.c3 = (struct column){reduce(w, c, (pp - minus_kR * a->f0) + lR * a->g0 + (pp - sR * r0) + (pp - g1R * s0)),
                           reduce_plus(w, c, (2 * pp - g2R * (a->f1 + a->f1)) + lR * a->g1, minus(c, a->f0, r0)),
                           reduce_plus(w, c, (pp - minus_kR * a->f2) + lR * a->g2 + (pp - sR * r2), c->p - s0)};
    m.d = minus_x(w, c, a, m.c1);
    m.e = minus_x(w, c, a, m.c2);
    return m;
}

/* ---- after the inversion ---- */

/* u = x f + a1 f + b1 g + c1 h, v = x g + a2 f + b2 g + c2 h, t = 1 / F2; all seven times R. */
struct kernel {
    u64 a1R, b1R, c1R, a2R, b2R, c2R, tR;
};

INLINE struct nine finish(enum form w, curve c, const struct numbers *s, const struct scaled *b, struct kernel q)
{
    u64 p = c->p, pp = c->pp, c7R = w == MONTGOMERY ? c->c7R : c->c7;
    u64 u5R = q.c1R, u4R = plus(c, b->f2R, q.b1R), u3R = plus(c, b->f1R, q.a1R);
    u64 v5R = q.c2R, v4R = plus(c, b->g2R, q.b2R), v3R = plus(c, b->g1R, q.a2R);
    u64 u5 = over_R(w, c, u5R), u4 = over_R(w, c, u4R);
    u64 u2 = reduce(w, c, q.a1R * s->f2 + q.b1R * s->g2 + q.c1R * s->h2);
    u64 u1 = reduce_plus(w, c, q.a1R * s->f1 + q.b1R * s->g1 + q.c1R * s->h1, s->f0);
    u64 v2 = reduce(w, c, q.a2R * s->f2 + q.b2R * s->g2 + q.c2R * s->h2);
    u64 v1 = reduce_plus(w, c, q.a2R * s->f1 + q.b2R * s->g1 + q.c2R * s->h1, s->g0);
    u64 e = reduce(w, c, u5R * u5 + (p - v5R)), F2 = plus(c, e, u4);
    u64 eR = w == MONTGOMERY ? minus(c, reduce(w, c, u5R * u5R), v5R) : e;
    u64 r0 = reduce(w, c, u5R * (F2 + minus(c, u4, c->c7)) + u3R + (p - v4R));
    u64 G1 = reduce(w, c, F2 * eR + (pp - u5R * r0) + (pp - u5 * u3R) + v3R);
    u64 i = reduce_near(w, c, u4R * r0 + (pp - u5R * G1), p - u2);
    u64 F1 = reduce(w, c, q.tR * i + (pp - u4R * u5) + v4R), G2 = minus(c, F1, r0);
    u64 j = reduce_near(w, c, F2 * u3R + F1 * u4R, minus(c, u2, c->c4));
    u64 k = reduce(w, c, F2 * eR + G2 * u5R);
    u64 l = reduce_plus(w, c, G2 * u3R + G1 * u4R + (pp - F2 * v3R) + (pp - F1 * v4R), minus(c, u1, v2));
    u64 F0 = reduce_plus(w, c, u5R * j + (pp - c7R * k), l);
    u64 m = reduce_plus(w, c, F1 * u3R, minus(c, u1, c->c3));
    u64 G0 = reduce_plus(w, c, (2 * pp - u5R * (F0 + m)) + F1 * v3R + (pp - G1 * u3R), v1);
    u64 tRR = times_R(w, c, q.tR), tG1R = reduce(w, c, tRR * G1), tr0R = reduce(w, c, tRR * r0);
    u64 H0 = reduce(w, c, F0 * tG1R + (pp - G0 * tr0R)), H1 = reduce(w, c, tG1R * G2 + (pp - q.tR * G0));
    u64 H2 = reduce_plus(w, c, q.tR * F0 + (pp - G2 * tr0R), G1);
    return nine_of(F0, F1, F2, G0, G1, G2, H0, H1, H2);
}

/* ---- the determinant Z, z0 = Z^2 F2, and the inversion ---- */

/* Each number is a power of R times what it stands for: R^-1 in d, e and n1 to n3, R^-2 in z, R^-3 in z3, y and a1 to
   c2, R^-7 in z0, R^-10 in z1, R^-11 in zzz. z0 and zzz are then taken times R^3, so that o is R^5 / Z. For b = NULL
   it is computed here, where it need not be waited for. */
INLINE int solve(enum form w, curve c, const struct numbers *s, const struct scaled *b, const struct matrix *m,
                 struct nine *r)
{
    struct column n1 = cross(w, c, m->c2, m->c3), n2 = cross(w, c, m->c3, m->c1), n3 = cross(w, c, m->c1, m->c2);
    u64 z = dot(w, c, m->c1, n1), z3 = over_R(w, c, z);
    u64 b1 = dot(w, c, m->d, n2), c1 = dot(w, c, m->d, n3), c2 = dot(w, c, m->e, n3);
    u64 y = reduce_near(w, c, z * s->f2, minus(c, b1, c2));
    u64 z0 = reduce(w, c, z3 * y + c1 * c1), z1 = reduce(w, c, z * z0);
    if (z1 == 0)
        return 0;
    struct scaled own = b == NULL ? scaled_of(w, c, s) : *b;
    u64 a1 = dot(w, c, m->d, n1), a2 = dot(w, c, m->e, n1), b2 = dot(w, c, m->e, n2);
    u64 zzz = reduce(w, c, reduce(w, c, z3 * z3) * z3);
    if (w == MONTGOMERY) {
        z0 = reduce(w, c, z0 * c->fourth);
        zzz = reduce(w, c, zzz * c->fourth);
    }
    u64 i = inverse(c, z1), o = reduce(w, c, z0 * i);
    struct kernel q = {reduce(w, c, o * a1), reduce(w, c, o * b1), reduce(w, c, o * c1),  reduce(w, c, o * a2),
                       reduce(w, c, o * b2), reduce(w, c, o * c2), reduce(w, c, zzz * i)};
    *r = finish(w, c, s, &own, q);
    return 1;
}

INLINE int sum_by(enum form w, curve c, const struct nine *a, const struct nine *b, struct nine *r)
{
    struct numbers s = numbers_of(a), t = numbers_of(b);
    struct matrix m = sum_matrix(w, c, &s, &t);
    return solve(w, c, &s, NULL, &m, r);
}

INLINE int double_by(enum form w, curve c, const struct nine *a, struct nine *r)
{
    struct numbers s = numbers_of(a);
    struct scaled b = scaled_of(w, c, &s);
    struct matrix m = double_matrix(w, c, &s, &b);
    return solve(w, c, &s, &b, &m, r);
}

#define BY(name, form)                                                                        \
    int quick_sum_##name(curve c, const struct nine *a, const struct nine *b, struct nine *r) \
    {                                                                                         \
        return sum_by(form, c, a, b, r);                                                      \
    }                                                                                         \
    int quick_double_##name(curve c, const struct nine *a, struct nine *r)                    \
    {                                                                                         \
        return double_by(form, c, a, r);                                                      \
    }

BY(montgomery, MONTGOMERY)
BY(reciprocal, RECIPROCAL)
BY(remainder, REMAINDER)

/* ---- document 000, section 6 ---- */

/* Puts the rows in an order in which a1 and b1 = a1 a7 - a2 a6 are not 0, and returns b1; 0 if there is none. */
INLINE u64 order_rows(curve c, u64 m[3][5])
{
    for (int i = 0; i < 6; i++) {
        u64 b1 = minor(REMAINDER, c, m[0][0], m[1][1], m[0][1], m[1][0]);
        if (m[0][0] != 0 && b1 != 0)
            return b1;
        for (int j = 0; j < 5; j++) { /* rows 1 and 2, then 2 and 3, and so on: that goes through all six orders */
            u64 x = m[i % 2][j];
            m[i % 2][j] = m[i % 2 + 1][j];
            m[i % 2 + 1][j] = x;
        }
    }
    return 0;
}

/* The source's Table 6.3 from the matrix of Table 6.1 or 6.2, whose rows may change places. */
INLINE int source(curve c, const struct numbers *s, const struct matrix *o, struct nine *r)
{
    enum form w = REMAINDER;
    u64 p = c->p, pp = c->pp, c7 = c->c7, c4 = c->c4, c3 = c->c3;
    u64 m[3][5] = {{o->c1.a, o->c2.a, o->c3.a, minus(c, 0, o->d.a), minus(c, 0, o->e.a)},
                   {o->c1.b, o->c2.b, o->c3.b, minus(c, 0, o->d.b), minus(c, 0, o->e.b)},
                   {o->c1.d, o->c2.d, o->c3.d, minus(c, 0, o->d.d), minus(c, 0, o->e.d)}};
    u64 b1 = order_rows(c, m);
    if (b1 == 0)
        return 0;
    u64 a1 = m[0][0], a2 = m[0][1], a3 = m[0][2], a4 = m[0][3], a5 = m[0][4];
    u64 a6 = m[1][0], a7 = m[1][1], a8 = m[1][2], a9 = m[1][3], a10 = m[1][4];
    u64 a11 = m[2][0], a12 = m[2][1], a13 = m[2][2], a14 = m[2][3], a15 = m[2][4];
    u64 d1 = minor(w, c, a1, a12, a2, a11), d2 = minor(w, c, a6, a12, a7, a11);
    u64 b2 = minor(w, c, a1, a8, a3, a6), b3 = minor(w, c, a1, a9, a4, a6), b4 = minor(w, c, a1, a10, a5, a6);
    u64 b5 = reduce(w, c, b1 * a13 + (pp - d1 * a8) + d2 * a3);
    u64 b6 = reduce(w, c, b1 * a14 + (pp - d1 * a9) + d2 * a4);
    u64 b7 = reduce(w, c, b1 * a15 + (pp - d1 * a10) + d2 * a5);
    u64 y = reduce(w, c, a1 * b1), z = reduce(w, c, y * b5);
    u64 e1 = minor(w, c, b3, b5, b2, b6), e2 = minor(w, c, b4, b5, b2, b7);
    u64 A1 = minor(w, c, b1, minor(w, c, a4, b5, b6, a3), a2, e1);
    u64 A2 = minor(w, c, b1, minor(w, c, a5, b5, b7, a3), a2, e2);
    u64 B1 = reduce(w, c, a1 * e1), C1 = reduce(w, c, y * b6), B2 = reduce(w, c, a1 * e2), C2 = reduce(w, c, y * b7);
    u64 U1 = reduce(w, c, z * s->f0 + (pp - C1 * s->h1) + (pp - B1 * s->g1) + (pp - A1 * s->f1));
    u64 U2 = reduce(w, c, 3 * pp - C1 * s->h2 - B1 * s->g2 - A1 * s->f2);
    u64 U3 = reduce(w, c, z * s->f1 + p - A1), U4 = reduce(w, c, z * s->f2 + p - B1), U5 = minus(c, 0, C1);
    u64 V1 = reduce(w, c, z * s->g0 + (pp - C2 * s->h1) + (pp - B2 * s->g1) + (pp - A2 * s->f1));
    u64 V2 = reduce(w, c, 3 * pp - C2 * s->h2 - B2 * s->g2 - A2 * s->f2);
    u64 V3 = reduce(w, c, z * s->g1 + p - A2), V4 = reduce(w, c, z * s->g2 + p - B2), V5 = minus(c, 0, C2);
    u64 z0 = reduce(w, c, U5 * U5 + z * minus(c, U4, V5)), z1 = reduce(w, c, z * z0);
    if (z1 == 0)
        return 0;
    u64 z2 = reduce(w, c, inverse(c, z1)), o1 = reduce(w, c, z0 * z2);
    u64 t = reduce(w, c, reduce(w, c, z * z) * reduce(w, c, z * z2));
    u64 u1 = reduce(w, c, o1 * U1), u2 = reduce(w, c, o1 * U2), u3 = reduce(w, c, o1 * U3);
    u64 u4 = reduce(w, c, o1 * U4), u5 = reduce(w, c, o1 * U5), v1 = reduce(w, c, o1 * V1), v2 = reduce(w, c, o1 * V2);
    u64 v3 = reduce(w, c, o1 * V3), v4 = reduce(w, c, o1 * V4), v5 = reduce(w, c, o1 * V5);
    u64 F2 = reduce(w, c, u5 * u5 + u4 + p - v5);
    u64 r0 = reduce(w, c, u5 * (F2 + u4 + p - c7) + u3 + p - v4);
    u64 r1 = reduce(w, c, F2 * minus(c, F2, u4));
    u64 G1 = reduce(w, c, 2 * pp - u5 * (u3 + r0) + r1 + v3);
    u64 G2 = reduce(w, c, t * reduce(w, c, u4 * r0 + (pp - u5 * G1) + p - u2) + (pp - u4 * u5) + v4 + p - r0);
    u64 F1 = plus(c, r0, G2);
    u64 i = reduce(w, c, F2 * u3 + F1 * u4 + u2 + p - c4), j = reduce(w, c, u5 * G2 + r1);
    u64 k = reduce(w, c, u5 * i + (pp - c7 * j) + G2 * u3 + u1 + p - v2);
    u64 F0 = reduce(w, c, G1 * u4 + (pp - F2 * v3) + (pp - F1 * v4) + k);
    u64 l = reduce(w, c, F1 * u3 + F0 + u1 + p - c3);
    u64 G0 = reduce(w, c, (pp - u5 * l) + (pp - G1 * u3) + F1 * v3 + v1);
    u64 H0 = reduce(w, c, t * minor(w, c, F0, G1, G0, r0)), H1 = reduce(w, c, t * reduce(w, c, G1 * G2 + p - G0));
    u64 H2 = reduce(w, c, t * reduce(w, c, pp - G2 * r0 + F0) + G1);
    *r = nine_of(F0, F1, F2, G0, G1, G2, H0, H1, H2);
    return 1;
}

int quick_sum_source(curve c, const struct nine *a, const struct nine *b, struct nine *r)
{
    struct numbers s = numbers_of(a), t = numbers_of(b);
    struct matrix m = sum_matrix(REMAINDER, c, &s, &t);
    return source(c, &s, &m, r);
}

int quick_double_source(curve c, const struct nine *a, struct nine *r)
{
    struct numbers s = numbers_of(a);
    struct scaled b = scaled_of(REMAINDER, c, &s);
    struct matrix m = double_matrix(REMAINDER, c, &s, &b);
    return source(c, &s, &m, r);
}

/* ---- the curve's constants ---- */

void quick_prepare(struct quick_curve *c, uint32_t p, uint32_t c3, uint32_t c4, uint32_t c7)
{
    u64 R = p - (UINT64_MAX % p + 1) % p;
    c->p = p;
    c->pp = (u64)p * p;
    c->inverse = p;
    for (int i = 0; i < 5; i++)
        c->inverse *= 2 - p * c->inverse;
    c->reciprocal = UINT64_MAX / p;
    c->square = R * R % p;
    c->fourth = c->square * c->square % p;
    c->c3 = c3, c->c4 = c4, c->c7 = c7;
    c->c7R = c7 * R % p;
}

const struct quick_version quick_version[QUICK_VERSIONS] = {
    {"montgomery", quick_sum_montgomery, quick_double_montgomery},
    {"reciprocal", quick_sum_reciprocal, quick_double_reciprocal},
    {"remainder", quick_sum_remainder, quick_double_remainder},
    {"source", quick_sum_source, quick_double_source},
};
