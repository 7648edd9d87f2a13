/* Linear algebra over the field of p elements, the plain way.

   space    a space of vectors of `width` entries. Row n, if there is one, is 1 at place n and 0 above it.
   reduce   takes rows off a vector until it is 0 at every place that has a row
   insert   adds a vector to a space; 1 if it was not in it
   kernel   the combinations of given vectors that are zero */
#ifndef SPACE_H
#define SPACE_H
#include <stdint.h>

enum { WIDTH = 96 };

struct space {
    uint32_t p;
    unsigned width;
    uint8_t has[WIDTH];
    uint32_t row[WIDTH][WIDTH];
};

uint32_t times(uint32_t p, uint32_t a, uint32_t b);
uint32_t minus(uint32_t p, uint32_t a, uint32_t b);
uint32_t inverse(uint32_t p, uint32_t a);

void make_empty(struct space *s, uint32_t p, unsigned width);
void reduce(const struct space *s, uint32_t *v);
int insert(struct space *s, const uint32_t *v);

/* Row k of v is a vector of `width` entries followed, from place width on, by the k-th unit vector of `count` entries.
   Afterwards the first rows, as many as returned, are 0 up to width, and what follows spans all combinations that
   give zero. */
unsigned kernel(uint32_t p, uint32_t **v, unsigned count, unsigned width);

#endif
