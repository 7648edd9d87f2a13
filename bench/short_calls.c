/* The calls on short records, as static functions, to be included after calls.c: base_shorten and base_lengthen.
   Signatures as those of base_double. The numbers pass through 64 bits, which take and give words of 32 bits, lowest
   first; so the machine must be little-endian. */
#include <string.h>

enum { SHORT_KIND = 100 };

/* The bit length of p - 1. */
static unsigned width(uint32_t p)
{
    return 32 - (unsigned)__builtin_clz(p - 1);
}

static unsigned count_of(uint32_t kind)
{
    return (kind_length(kind) - 4) / 4;
}

/* Writes the short record and returns its length, or refuses the buffer. */
static int32_t answer_short(uint32_t p, const struct record *r, uint8_t *out, size_t len)
{
    if (len < MIN_BUFFER)
        return -10;
    unsigned w = width(p), m = count_of(r->kind), held = 0;
    uint32_t length = 4 + (m * w + 7) / 8;
    uint64_t bits = 0; /* below 2^held */
    write_u16(out, length);
    write_u16(out + 2, SHORT_KIND + r->kind);
    out = out + 4;
    for (unsigned i = 0; i < m; i++) {
        bits = bits | (uint64_t)r->n[i] << held;
        held = held + w;
        if (held >= 32) {
            memcpy(out, &bits, 4);
            out = out + 4;
            bits = bits >> 32;
            held = held - 32;
        }
    }
    for (uint32_t left = (held + 7) / 8; left > 0; left--) {
        *out++ = (uint8_t)bits;
        bits = bits >> 8;
    }
    return (int32_t)length;
}

/* m numbers of w bits from b on into n; the bits of the last word after them are returned. */
static uint64_t unpack(unsigned w, const uint8_t *b, unsigned m, uint32_t *n)
{
    uint64_t bits = 0, mask = ((uint64_t)1 << w) - 1;
    unsigned held = 0;
    for (unsigned i = 0; i < m; i++) {
        if (held < w) {
            uint32_t word;
            memcpy(&word, b, 4);
            b = b + 4;
            bits = bits | (uint64_t)word << held;
            held = held + 32;
        }
        n[i] = (uint32_t)(bits & mask);
        bits = bits >> w;
        held = held - w;
    }
    return bits;
}

/* 0 with the record in *r, or the number of the refusal. */
static int32_t read_short(const struct curve *c, const uint8_t *b, size_t len, struct record *r)
{
    uint8_t body[MIN_BUFFER] = {0};
    if (len < 4 || read_u16(b) != len)
        return 6;
    r->kind = read_u16(b + 2) - SHORT_KIND;
    if (kind_length(r->kind) == 0)
        return 7;
    unsigned w = width(c->p), m = count_of(r->kind);
    if (len != 4 + (m * w + 7) / 8)
        return 6;
    memset(r->n, 0, sizeof r->n);
    memcpy(body, b + 4, len - 4);
    uint64_t filling = unpack(w, body, m, r->n);
    for (unsigned i = 0; i < m; i++)
        if (r->n[i] >= c->p)
            return 8;
    if (filling != 0)
        return 15;
    return is_basis(c, r) ? 0 : 9;
}

static int32_t base_shorten(const uint8_t *curve, size_t curve_len, const uint8_t *a, size_t a_len, uint8_t *out,
                            size_t out_len)
{
    struct curve c;
    struct record r;
    int32_t e = read_curve(curve, curve_len, &c);
    if (e == 0)
        e = read_divisor(&c, a, a_len, &r);
    return e != 0 ? -e : answer_short(c.p, &r, out, out_len);
}

static int32_t base_lengthen(const uint8_t *curve, size_t curve_len, const uint8_t *a, size_t a_len, uint8_t *out,
                             size_t out_len)
{
    struct curve c;
    struct record r;
    int32_t e = read_curve(curve, curve_len, &c);
    if (e == 0)
        e = read_short(&c, a, a_len, &r);
    return e != 0 ? -e : answer(&r, out, out_len);
}
