/* What two divisors have in common, and their sum by it. core.h says what the words mean.

   common_part      the record of I + J, for the ideals I of a and J of b
   common_multiple  the record of the reduced ideal of the intersection of I and J
   sum_by_parts     the sum, by common multiples and common parts */
#ifndef OVERLAP_H
#define OVERLAP_H
#include "core.h"

struct record common_part(const struct curve *c, const struct record *a, const struct record *b);
struct record common_multiple(const struct curve *c, const struct record *a, const struct record *b);
struct record sum_by_parts(const struct curve *c, const struct record *a, const struct record *b);

#endif
