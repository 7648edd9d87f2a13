/* Prints the sum of the points (1, 2) and (2, 2) on the curve y^3 + x^4 + 1 over the field of 5 elements: its kind and
   its numbers. Build and run: make -C examples */
#include "c34.h"
#include <stdio.h>

static uint8_t *put(uint8_t *at, unsigned bytes, uint32_t number)
{
    for (unsigned i = 0; i < bytes; i++)
        *at++ = (uint8_t)(number >> (8 * i));
    return at;
}

static uint32_t get(const uint8_t *at, unsigned bytes)
{
    uint32_t number = 0;
    for (unsigned i = 0; i < bytes; i++)
        number |= (uint32_t)at[i] << (8 * i);
    return number;
}

/* The record of the given kind and count of numbers; its length is returned. */
static size_t record(uint8_t *at, uint32_t kind, const uint32_t *numbers, unsigned count)
{
    uint8_t *end = put(put(at, 2, 4 + 4 * count), 2, kind);
    for (unsigned i = 0; i < count; i++)
        end = put(end, 4, numbers[i]);
    return (size_t)(end - at);
}

int main(void)
{
    static const uint32_t equation[10] = {5, 1, 0, 0, 0, 0, 0, 0, 0, 0}; /* p, then c0 to c8 */
    static const uint32_t first[2] = {4, 3}, second[2] = {3, 3};         /* minus the coordinates, modulo 5 */
    uint8_t curve[C34_CURVE_LENGTH], a[12], b[12], out[C34_BUFFER];
    size_t curve_len = record(curve, C34_CURVE, equation, 10);
    size_t a_len = record(a, C34_KIND_11, first, 2);
    size_t b_len = record(b, C34_KIND_11, second, 2);

    int32_t length = c34_sum(curve, curve_len, a, a_len, b, b_len, out, sizeof out);
    if (length < 0) {
        printf("refused %d\n", (int)-length);
        return 1;
    }
    printf("%u:", (unsigned)get(out + 2, 2));
    for (int32_t at = 4; at < length; at += 4)
        printf(" %u", (unsigned)get(out + at, 4));
    printf("\n");
    return 0;
}
