/* Whether the formulas of change request 2026-08 serve, by ideals and without the formulas: see independent.h.

   The determinant for two different records, of I and J, is that of the columns of I's three polynomials modulo J. It
   is 0 exactly if some combination of the three, not 0, is in J: these combinations are the elements of I of pole number
   8 or less. For equal records with f2 not 0 it is 0 exactly if such an element is in the square of I. */
#include "independent.h"
#include <string.h>

int is_typical(const uint8_t *record)
{
    return get16(record + 2) == 31 && get32(record + 12) != 0;
}

int is_short(const struct curve *k)
{
    return k->p > 3 && k->c[5] == 0 && k->c[6] == 0 && k->c[8] == 0;
}

/* 1 if no element but 0 has a pole number of 8 or less. */
static int starts_above_8(const struct ideal *a)
{
    return a->pole[0] > 8 && a->pole[1] > 8 && a->pole[2] > 8;
}

static int has_pivots(const struct curve *k, const uint8_t *a, const uint8_t *b)
{
    struct ideal i = ideal_of(k, a), j = ideal_of(k, b);
    int equal = memcmp(a, b, C34_BUFFER) == 0;
    struct ideal both = equal ? product(k, &i, &i) : intersection(k, &i, &j);
    return starts_above_8(&both);
}

static int has_typical_sum(const struct curve *k, const uint8_t *a, const uint8_t *b)
{
    uint8_t record[C34_BUFFER];
    struct ideal i = ideal_of(k, a), j = ideal_of(k, b), both = product(k, &i, &j), r = reduced(k, &both);
    record_of(k, &r, record);
    return is_typical(record);
}

int serves(const struct curve *k, const uint8_t *a, const uint8_t *b)
{
    return is_short(k) && is_typical(a) && is_typical(b) && has_pivots(k, a, b) && has_typical_sum(k, a, b);
}
