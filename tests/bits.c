/* Short records from the words of change request 2026-09, one bit after another: see independent.h. */
#include "independent.h"
#include <string.h>

unsigned width_of(uint32_t p)
{
    unsigned w = 0;
    for (uint32_t a = p - 1; a > 0; a = a / 2)
        w++;
    return w;
}

static unsigned bit(const uint8_t *b, unsigned i)
{
    return b[i / 8] >> i % 8 & 1;
}

static void put_bit(uint8_t *b, unsigned i, unsigned a)
{
    b[i / 8] = (uint8_t)((b[i / 8] & ~(1u << i % 8)) | a << i % 8);
}

void put_bits(uint8_t *b, unsigned w, unsigned n, uint32_t a)
{
    for (unsigned i = 0; i < w; i++)
        put_bit(b, w * n + i, a >> i & 1);
}

/* The n-th number of w bits. */
static uint32_t get_bits(const uint8_t *b, unsigned w, unsigned n)
{
    uint32_t a = 0;
    for (unsigned i = 0; i < w; i++)
        a |= (uint32_t)bit(b, w * n + i) << i;
    return a;
}

unsigned bits_of(uint32_t p, uint32_t kind)
{
    return (unsigned)numbers_of(kind) * width_of(p);
}

size_t short_length(uint32_t p, uint32_t kind)
{
    unsigned bits = bits_of(p, kind);
    while (bits % 8 != 0)
        bits++;
    return 4 + bits / 8;
}

size_t shorten(uint32_t p, const uint8_t *record, uint8_t *out)
{
    uint32_t kind = get16(record + 2);
    size_t length = short_length(p, kind);
    memset(out, 0, length);
    put16(out, (uint32_t)length);
    put16(out + 2, 100 + kind);
    for (int n = 0; n < numbers_of(kind); n++)
        put_bits(out + 4, width_of(p), (unsigned)n, get32(record + 4 + 4 * n));
    return length;
}

size_t lengthen(uint32_t p, const uint8_t *record, uint8_t *out)
{
    uint32_t kind = get16(record + 2) - 100, numbers[9];
    for (int n = 0; n < numbers_of(kind); n++)
        numbers[n] = get_bits(record + 4, width_of(p), (unsigned)n);
    return put_record(out, kind, numbers);
}

int32_t short_refusal(const struct curve *k, struct slice s)
{
    uint8_t record[C34_BUFFER];
    if (s.len < 4 || get16(s.at) != s.len)
        return 6;
    uint32_t kind = get16(s.at + 2);
    if (kind != 100 && kind != 111 && kind != 121 && kind != 122 && kind != 131)
        return 7;
    if (s.len != short_length(k->p, kind - 100))
        return 6;
    lengthen(k->p, s.at, record);
    for (int n = 0; n < numbers_of(kind - 100); n++)
        if (get32(record + 4 + 4 * n) >= k->p)
            return 8;
    for (unsigned i = bits_of(k->p, kind - 100); i < 8 * (s.len - 4); i++)
        if (bit(s.at + 4, i) != 0)
            return 15;
    return is_basis(k, record) ? 0 : 9;
}
