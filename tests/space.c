/* Linear algebra over the field of p elements, the plain way: see space.h. */
#include "space.h"
#include <string.h>

uint32_t times(uint32_t p, uint32_t a, uint32_t b)
{
    return (uint32_t)((uint64_t)a * b % p);
}

uint32_t minus(uint32_t p, uint32_t a, uint32_t b)
{
    return a >= b ? a - b : a + (p - b);
}

/* a to the power p - 2. */
uint32_t inverse(uint32_t p, uint32_t a)
{
    uint32_t r = 1;
    for (uint32_t e = p - 2; e != 0; e /= 2) {
        if (e % 2 == 1)
            r = times(p, r, a);
        a = times(p, a, a);
    }
    return r;
}

/* v - t w on the first `width` entries. */
static void take_off(uint32_t p, uint32_t *v, uint32_t t, const uint32_t *w, unsigned width)
{
    for (unsigned n = 0; n < width; n++)
        if (w[n] != 0)
            v[n] = minus(p, v[n], times(p, t, w[n]));
}

void make_empty(struct space *s, uint32_t p, unsigned width)
{
    s->p = p;
    s->width = width;
    memset(s->has, 0, sizeof s->has);
}

void reduce(const struct space *s, uint32_t *v)
{
    for (unsigned n = s->width; n-- > 0;)
        if (v[n] != 0 && s->has[n])
            take_off(s->p, v, v[n], s->row[n], n + 1);
}

int insert(struct space *s, const uint32_t *v)
{
    uint32_t w[WIDTH];
    unsigned n = s->width;
    memcpy(w, v, n * sizeof *w);
    reduce(s, w);
    while (n > 0 && w[n - 1] == 0)
        n--;
    if (n == 0)
        return 0;
    uint32_t t = inverse(s->p, w[n - 1]);
    for (unsigned i = 0; i < WIDTH; i++)
        s->row[n - 1][i] = i < n ? times(s->p, t, w[i]) : 0;
    s->has[n - 1] = 1;
    return 1;
}

unsigned kernel(uint32_t p, uint32_t **v, unsigned count, unsigned width)
{
    unsigned left = count; /* the rows below `left` are still to be cleared */
    for (unsigned n = 0; n < width; n++) {
        unsigned k = 0;
        while (k < left && v[k][n] == 0)
            k++;
        if (k == left)
            continue;
        uint32_t *pivot = v[k];
        v[k] = v[--left];
        v[left] = pivot;
        uint32_t t = inverse(p, pivot[n]);
        for (k = 0; k < left; k++)
            if (v[k][n] != 0)
                take_off(p, v[k], times(p, t, v[k][n]), pivot, width + count);
    }
    return left;
}
