/* Vectors by pole number and triples, as core.h explains them.

   zero         the vector 0
   times_y      y * v
   y_multiples  v, y * v, y^2 * v
   empty        the triple without members
   insert       puts a vector into the module of a triple
   add_product  puts a vector times the module of another triple into that of a triple
   closed       is y times each member in the module
   inside       is the module of one triple inside that of another
   product      the triple of the product of two modules */
#ifndef SPAN_H
#define SPAN_H
#include "core.h"

void zero(uint32_t v[26]);
/* out = y * v, for v below top <= 22. */
void times_y(uint32_t p, const uint32_t f[26], const uint32_t v[26], unsigned top, uint32_t out[26]);
/* ys = v, y * v, y^2 * v, for v below top <= 18. */
void y_multiples(uint32_t p, const uint32_t f[26], const uint32_t v[26], unsigned top, uint32_t ys[3][26]);

void empty(uint32_t t[3][26], unsigned d[3]);
/* Puts v, below top, into the module of the triple; v is used up. */
void insert(uint32_t p, uint32_t t[3][26], unsigned d[3], uint32_t v[26], unsigned top);
/* Puts v times each member of (t1, d1) into the module of (t, d), for v below top <= 18, top + d1[i] <= 26. */
void add_product(const struct curve *c, uint32_t t[3][26], unsigned d[3], const uint32_t t1[3][26],
                 const unsigned d1[3], const uint32_t v[26], unsigned top);
/* 1 if the module of (t, d) lies inside that of (s, e), else 0; the triples have three members each. */
int inside(uint32_t p, const uint32_t t[3][26], const unsigned d[3], const uint32_t s[3][26], const unsigned e[3]);

#endif
