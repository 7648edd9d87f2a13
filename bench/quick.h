/* Sum and double of divisors of kind 31 with one inversion, on curves y^3 + x^4 + c7 x^2 y + c4 x y + c3 x^2 + c2 y +
   c1 x + c0 modulo an odd prime p, 3 < p < 2^31. Residues are plain, in and out.

   quick_prepare   what the functions need to know of a curve, made once
   quick_sum_X     1 and *r = a + b, or 0 where the determinant or the sum's f2 is 0, so for a = b too
   quick_double_X  1 and *r = 2 a, or 0 where the determinant or the double's f2 is 0

   r may be a or b. X says how it is done:
   montgomery   cofactors; sums of products are reduced in Montgomery's way, with one factor of each in his form
   reciprocal   cofactors; sums of products are reduced by a 64-bit reciprocal of p
   remainder    cofactors; sums of products are reduced by %
   source       the straight-line programs of document 000, section 6, with % */
#ifndef QUICK_H
#define QUICK_H
#include <stdint.h>

struct nine {
    uint32_t n[9]; /* f0 f1 f2 g0 g1 g2 h0 h1 h2 */
};

struct quick_curve {
    uint64_t p, pp;           /* p and its square */
    uint64_t inverse;         /* the inverse of p modulo 2^64 */
    uint64_t reciprocal;      /* (2^64 - 1) / p */
    uint64_t square, fourth;  /* powers of R = -2^64 modulo p */
    uint64_t c3, c4, c7, c7R; /* the curve's coefficients; c7 R */
};

void quick_prepare(struct quick_curve *c, uint32_t p, uint32_t c3, uint32_t c4, uint32_t c7);

typedef int quick_sum(const struct quick_curve *c, const struct nine *a, const struct nine *b, struct nine *r);
typedef int quick_double(const struct quick_curve *c, const struct nine *a, struct nine *r);

quick_sum quick_sum_montgomery, quick_sum_reciprocal, quick_sum_remainder, quick_sum_source;
quick_double quick_double_montgomery, quick_double_reciprocal, quick_double_remainder, quick_double_source;

/* All of them. */
enum { QUICK_VERSIONS = 4 };
struct quick_version {
    const char *name;
    quick_sum *sum;
    quick_double *twice;
};
extern const struct quick_version quick_version[QUICK_VERSIONS];

#endif
