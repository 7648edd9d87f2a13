/* Divisor class arithmetic on C34 curves in C: the algorithms that the Rattle code follows function by function.

   vector   uint32_t[26] by pole number: place n = 3i + 4j holds the coefficient of x^i y^j, j = n % 3.
            The places 1, 2 and 5 are no pole numbers and stay 0.
   below e  said of a vector whose places from e on are 0.
   triple   t[3] and d[3]: t[j] is monic of degree d[j], d[j] % 3 = j. A member that is absent has d[j] = 26 and
            t[j] = 0. The triple stands for all sums of multiples of its members by polynomials in x.
   record   a divisor as kind and numbers, in the order of its bytes. */
#ifndef CORE_H
#define CORE_H
#include <stdint.h>

struct curve {
    uint32_t p;     /* the modulus, a prime below 2^32 */
    uint32_t f[26]; /* y^3 as a vector: -a0 at 12, -c8 at 11, ..., -c0 at 0 */
    uint32_t k;     /* the inverse of -a0 */
};

struct record {
    uint32_t kind; /* 0, 11, 21, 22 or 31 */
    uint32_t n[9]; /* the numbers; those that the kind does not have are 0 */
};

/* The curve with a0 before x^4 and c[0] to c[8]. */
struct curve make_curve(uint32_t p, uint32_t a0, const uint32_t c[9]);
/* 1 if 1 is in the ideal of Fx and Fy in the ring, else 0. */
int nonsingular(const struct curve *c);

/* The triple of a record. */
void triple_of(const struct curve *c, const struct record *r, uint32_t t[3][26], unsigned d[3]);
/* 1 if y times each member is in the triple's module, else 0. */
int closed(const struct curve *c, const uint32_t t[3][26], const unsigned d[3]);
/* The triple (t, d) of the product of the modules of two triples. */
void product(const struct curve *c, const uint32_t t1[3][26], const unsigned d1[3], const uint32_t t2[3][26],
             const unsigned d2[3], uint32_t t[3][26], unsigned d[3]);
/* The record of J* for the ideal J of a triple whose least degree is at most 12. */
struct record star(const struct curve *c, const uint32_t t[3][26], const unsigned d[3]);

struct record negative(const struct curve *c, const struct record *a);
struct record sum(const struct curve *c, const struct record *a, const struct record *b);
struct record twice(const struct curve *c, const struct record *a);
/* n times a for an n not below 0. */
struct record multiple(const struct curve *c, const struct record *a, uint64_t n);

#endif
