/* The calls on what two divisors have in common, over overlap.c, as static functions, to be included after calls.c:
   base_common_part, base_common_multiple and base_sum_by_parts. Signatures and refusals as those of base_sum. */
#include "overlap.h"

/* Reads the curve and two divisors, and answers with what is made of these. base_sum keeps its own lines: written by this
   function, it made the check of a curve, which every call has, 100 ns slower by gcc below 256. */
static int32_t of_two(const uint8_t *curve, size_t curve_len, const uint8_t *a, size_t a_len, const uint8_t *b,
                      size_t b_len, uint8_t *out, size_t out_len,
                      struct record (*made)(const struct curve *, const struct record *, const struct record *))
{
    struct curve c;
    struct record r, s;
    int32_t e = read_curve(curve, curve_len, &c);
    if (e == 0)
        e = read_divisor(&c, a, a_len, &r);
    if (e == 0)
        e = read_divisor(&c, b, b_len, &s);
    if (e != 0)
        return -e;
    r = made(&c, &r, &s);
    return answer(&r, out, out_len);
}

static int32_t base_common_part(const uint8_t *curve, size_t curve_len, const uint8_t *a, size_t a_len,
                                const uint8_t *b, size_t b_len, uint8_t *out, size_t out_len)
{
    return of_two(curve, curve_len, a, a_len, b, b_len, out, out_len, common_part);
}

static int32_t base_common_multiple(const uint8_t *curve, size_t curve_len, const uint8_t *a, size_t a_len,
                                    const uint8_t *b, size_t b_len, uint8_t *out, size_t out_len)
{
    return of_two(curve, curve_len, a, a_len, b, b_len, out, out_len, common_multiple);
}

static int32_t base_sum_by_parts(const uint8_t *curve, size_t curve_len, const uint8_t *a, size_t a_len,
                                 const uint8_t *b, size_t b_len, uint8_t *out, size_t out_len)
{
    return of_two(curve, curve_len, a, a_len, b, b_len, out, out_len, sum_by_parts);
}
