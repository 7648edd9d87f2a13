/* Two records of a kind that agree before one of their numbers and differ in one byte of it, and a curve on which both
   are accepted; p = 2147483647.

   pair        the curve and the two records
   make_pair   a random one, by the number, counted from 0, and the byte of it, counted from the lowest

   After that number the two agree as well, but for g0 of kind 22 and f0, g0, h0 and h1 of kind 31: there a later number
   differs too. */
#ifndef PAIRS_H
#define PAIRS_H
#include "sample.h"

struct pair {
    uint8_t curve[C34_CURVE_LENGTH];
    struct record a, b;
};

void make_pair(struct pair *q, uint32_t kind, unsigned number, unsigned byte);

#endif
