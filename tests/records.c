/* All records on a curve over a small field: see records.h. */
#include "records.h"

/* ab + cd */
static uint32_t products(uint32_t p, uint32_t a, uint32_t b, uint32_t c, uint32_t d)
{
    return (uint32_t)(((uint64_t)times(p, a, b) + times(p, c, d)) % p);
}

void set_constants(uint32_t p, uint32_t *n)
{
    uint32_t u = minus(p, n[H2], n[G1]), v = minus(p, n[F1], n[G2]);
    n[F0] = products(p, n[F2], u, n[G2], v);
    n[G0] = minus(p, times(p, n[G1], n[G2]), times(p, n[F2], n[H1]));
    n[H0] = products(p, n[H1], v, n[G1], u);
}

struct curve over_two(uint32_t bits)
{
    struct curve k = {2, {0}};
    for (int i = 0; i < 9; i++)
        k.c[i] = bits >> i & 1;
    return k;
}

/* The next numbers of the kind, but for the constants of kind 31; 0 after the last. */
static int next(uint32_t p, uint32_t kind, uint32_t *n)
{
    for (int i = 0; i < numbers_of(kind); i++) {
        if (kind == C34_KIND_31 && (i == F0 || i == G0 || i == H0))
            continue;
        if (++n[i] < p)
            return 1;
        n[i] = 0;
    }
    return 0;
}

unsigned all_records(const struct curve *k, struct record *r)
{
    static const uint32_t kinds[5] = {0, 11, 21, 22, 31};
    unsigned count = 0;
    for (int i = 0; i < 5; i++) {
        uint32_t n[NUMBERS_31] = {0};
        do {
            struct record one;
            if (kinds[i] == C34_KIND_31)
                set_constants(k->p, n);
            one.len = put_record(one.b, kinds[i], n);
            if (is_basis(k, one.b)) {
                require(count < CLASSES, "more records are accepted than there can be classes", NULL);
                r[count++] = one;
            }
        } while (next(k->p, kinds[i], n));
    }
    return count;
}
