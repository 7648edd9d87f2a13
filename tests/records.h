/* All records on a curve over a small field.

   F0 to H2        the places of the numbers of kind 31
   set_constants   the numbers of kind 31 at F0, G0 and H0, from the others
   over_two        the curve over F_2 whose coefficients are the bits of a number below 512
   all_records     every accepted record on a curve, by kinds; their number is returned */
#ifndef RECORDS_H
#define RECORDS_H
#include "sample.h"

enum { F0, F1, F2, G0, G1, G2, H0, H1, H2, NUMBERS_31 };

/* With these constants, and no others, f, g and h are a basis of their ideal in k[x, y]. They follow from
   (x^2) y = x (xy) and (xy) y = x (y^2), where f, g and h give x^2, xy and y^2. An accepted record has them: f, g and h
   leave no monomials but 1, x and y, and modulo f, g, h and F these three are still independent. */
void set_constants(uint32_t p, uint32_t *n);

struct curve over_two(uint32_t bits);

enum { CLASSES = 2349 }; /* no curve of genus 3 over F_7 has more: the sixth power of 1 + sqrt(7) is below 2349 */

/* p is at most 7. r has room for CLASSES records; more are an error. */
unsigned all_records(const struct curve *k, struct record *r);

#endif
