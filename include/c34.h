/* Divisor class arithmetic on C34 curves over prime fields: the nineteen calls of libc34.a, for C and C++.

   The curve is y^3 + x^4 + c8 xy^2 + c7 x^2y + c6 x^3 + c5 y^2 + c4 xy + c3 x^2 + c2 y + c1 x + c0 over the field of
   p elements, p a prime from 2 to 2147483647. A divisor class is named by its reduced divisor, which is one record.

   Records. Two bytes of length (of the whole record), two bytes of kind, then numbers of four bytes; all unsigned and
   little-endian, but for the numerators of fractions, which are signed (two's complement).

     kind                length  numbers in order             polynomials
     C34_CURVE       34      44  p, c0 to c8
     C34_FRACTIONS   36      76  numerator and denominator of c0, of c1, and so on to c8: a curve over the rationals
     C34_ZERO         0       4  none                         1
     C34_KIND_11     11      12  f0, g0                       x + f0; y + g0
     C34_KIND_21     21      20  f0, f1, g0, g1               y + f1 x + f0; x^2 + g1 x + g0
     C34_KIND_22     22      16  f0, g0, g1                   x + f0; y^2 + g1 y + g0
     C34_KIND_31     31      40  f0, f1, f2, g0 .. g2, h0 .. h2
                                 x^2 + f2 y + f1 x + f0; xy + g2 y + g1 x + g0; y^2 + h2 y + h1 x + h0

   The point (a, b) of the curve is kind 11 with the numbers p - a and p - b, 0 in place of p.
   A list is divisor records one after another, at most C34_LIST_LIMIT bytes; an empty list is accepted.

   Short records. The kinds C34_SHORT_ZERO (100), C34_SHORT_11 (111), C34_SHORT_21 (121), C34_SHORT_22 (122) and
   C34_SHORT_31 (131) have the numbers of the kinds 0, 11, 21, 22 and 31 in w bits each, where w is the bit length of
   p - 1. They are packed from the lowest bit of the first byte after the kind upward, a number's lowest bit first, and
   the last byte is filled with zero bits. Only c34_lengthen takes short records, and only c34_shorten writes them.

   Slices. Each slice is a pointer and then its number of bytes; no alignment is asked for. Slices that are only read
   may overlap. A result buffer must lie apart from every other slice of the same call.

   Null pointers. A null pointer may be passed with length 0: it is an empty slice. The names below are macros over the
   functions of the archive that see to this. The functions themselves, reached by a pointer to them or by a name in
   parentheses, as (c34_sum)(...), want a pointer that is not null even with length 0.

   Results. A call that writes a divisor, short or not, needs a buffer of at least C34_BUFFER bytes, whatever the
   result, and the one that writes a curve needs C34_CURVE_LENGTH. It writes the record from the buffer's start, returns
   the record's length and leaves the bytes after it as they were. On a refusal every buffer stays as it was and the
   call returns minus the number of the refusal (C34_REFUSED_...).

   Refusals. The first cause in this order decides: the curve (1 for its size, 2, 1 for the kind's length, 3, 4, 5);
   C34_REFUSED_LIST_LIMIT; each divisor from first to last (6 for its size, 7, 6 for the kind's length, 8, 9);
   C34_REFUSED_BUFFER. Where fractions are reduced: 12, 3, 13, 5, 10. For a short record: 6 for its size, 7, 6 for the
   kind's length, 8, 15, 9. No call keeps state: all may be made from several threads at once. */
#ifndef C34_H
#define C34_H

#include <stddef.h>
#include <stdint.h>

#ifdef __cplusplus
extern "C" {
#endif

/* The kinds of records. */
enum {
    C34_ZERO = 0,
    C34_KIND_11 = 11,
    C34_KIND_21 = 21,
    C34_KIND_22 = 22,
    C34_KIND_31 = 31,
    C34_CURVE = 34,
    C34_FRACTIONS = 36,
    C34_SHORT_ZERO = 100,
    C34_SHORT_11 = 111,
    C34_SHORT_21 = 121,
    C34_SHORT_22 = 122,
    C34_SHORT_31 = 131
};

/* Lengths in bytes. */
enum {
    C34_CURVE_LENGTH = 44, /* also the least result buffer of c34_reduce_curve */
    C34_FRACTIONS_LENGTH = 76,
    C34_BUFFER = 40,       /* the least result buffer for a divisor, and the longest divisor record */
    C34_LIST_LIMIT = 32768 /* the longest list */
};

/* The refusals: a call returns minus one of these numbers. */
enum {
    C34_REFUSED_CURVE_LENGTH = 1,    /* curve bytes under 4, length field unlike the bytes given, or not 44 */
    C34_REFUSED_CURVE_KIND = 2,      /* curve kind not 34 */
    C34_REFUSED_MODULUS = 3,         /* p not a prime from 2 to 2147483647 */
    C34_REFUSED_COEFFICIENT = 4,     /* some c not below p */
    C34_REFUSED_SINGULAR = 5,        /* curve singular */
    C34_REFUSED_DIVISOR_LENGTH = 6,  /* divisor bytes under 4, length field unlike the bytes given (in a list: under 4 or
                                        above the bytes left), or not the length of its kind */
    C34_REFUSED_DIVISOR_KIND = 7,    /* divisor kind not 0, 11, 21, 22 or 31, for c34_lengthen not 100, 111, 121, 122
                                        or 131 */
    C34_REFUSED_DIVISOR_NUMBER = 8,  /* divisor number not below p */
    C34_REFUSED_NOT_A_BASIS = 9,     /* the ideal has a nonzero element made of the remaining monomials alone */
    C34_REFUSED_BUFFER = 10,         /* result buffer under 40 bytes, for a curve under 44 */
    C34_REFUSED_LIST_LIMIT = 11,     /* list over 32,768 bytes */
    C34_REFUSED_FRACTIONS = 12,      /* fractions: bytes under 4, length field unlike the bytes given, kind not 36, or
                                        length not 76 */
    C34_REFUSED_DENOMINATOR = 13,    /* a denominator divisible by p, zero included */
    C34_REFUSED_FILLING = 15         /* a filling bit of a short record that is not zero */
};

/* Whether the bytes are a nonsingular curve.
   Domain: any bytes. Result: 1. Refusals: 1 to 5. Writes nothing. */
int32_t c34_check_curve(const uint8_t *curve, size_t curve_len);

/* Whether the bytes are a reduced divisor on the curve.
   Domain: any bytes. Result: 1. Refusals: 1 to 9. Writes nothing. */
int32_t c34_check_divisor(const uint8_t *curve, size_t curve_len, const uint8_t *divisor, size_t divisor_len);

/* The sum of two divisor classes, equal and overlapping divisors included.
   Domain: any bytes. Result: the length of the record written. Refusals: 1 to 9, for a before b, then 10.
   Buffer: the record of a + b at its start; the rest stays. */
int32_t c34_sum(const uint8_t *curve, size_t curve_len, const uint8_t *a, size_t a_len, const uint8_t *b, size_t b_len,
                uint8_t *out, size_t out_len);

/* The sum of a divisor class with itself.
   Domain: any bytes. Result: the length of the record written. Refusals: 1 to 10.
   Buffer: the record of 2 a at its start; the rest stays. */
int32_t c34_double(const uint8_t *curve, size_t curve_len, const uint8_t *a, size_t a_len, uint8_t *out,
                   size_t out_len);

/* The negative of a divisor class.
   Domain: any bytes. Result: the length of the record written. Refusals: 1 to 10.
   Buffer: the record of -a at its start; the rest stays. */
int32_t c34_negative(const uint8_t *curve, size_t curve_len, const uint8_t *a, size_t a_len, uint8_t *out,
                     size_t out_len);

/* The multiple of a divisor class by n; 0 gives the zero class, n below 0 the negative of the multiple by -n.
   Domain: any bytes, any n, INT64_MIN included. Result: the length of the record written. Refusals: 1 to 10.
   Buffer: the record of n a at its start; the rest stays. */
int32_t c34_multiple(const uint8_t *curve, size_t curve_len, const uint8_t *a, size_t a_len, int64_t n, uint8_t *out,
                     size_t out_len);

/* The sum of all divisor classes of a list, the zero class for an empty list.
   Domain: any bytes. Result: the length of the record written. Refusals: 1 to 5, 11, then 6 to 9 for each record from
   first to last, then 10. Buffer: the record of the sum at its start; the rest stays. */
int32_t c34_list_sum(const uint8_t *curve, size_t curve_len, const uint8_t *list, size_t list_len, uint8_t *out,
                     size_t out_len);

/* The common part of two divisors, their greatest common divisor: its ideal is the one that the polynomials of both
   generate together, which is always that of a record.
   Domain: any bytes. Result: the length of the record written. Refusals: 1 to 9, for a before b, then 10.
   Buffer: the record of the common part at its start; the rest stays. */
int32_t c34_common_part(const uint8_t *curve, size_t curve_len, const uint8_t *a, size_t a_len, const uint8_t *b,
                        size_t b_len, uint8_t *out, size_t out_len);

/* The common multiple of two divisors: the reduced divisor in the class of their least common multiple, whose ideal is
   the intersection of the two ideals. The common multiple and the common part have the sum a + b.
   Domain: any bytes. Result: the length of the record written. Refusals: 1 to 9, for a before b, then 10.
   Buffer: the record of the common multiple at its start; the rest stays. */
int32_t c34_common_multiple(const uint8_t *curve, size_t curve_len, const uint8_t *a, size_t a_len, const uint8_t *b,
                            size_t b_len, uint8_t *out, size_t out_len);

/* The sum of two divisor classes by common multiples and common parts, another algorithm than that of c34_sum. On the
   same bytes both calls return the same and write the same.
   Domain: any bytes. Result: the length of the record written. Refusals: 1 to 9, for a before b, then 10.
   Buffer: the record of a + b at its start; the rest stays. */
int32_t c34_sum_by_parts(const uint8_t *curve, size_t curve_len, const uint8_t *a, size_t a_len, const uint8_t *b,
                         size_t b_len, uint8_t *out, size_t out_len);

/* The sum of two divisor classes by formulas with one inversion, where these serve (c34_quick_serves), and by that of
   c34_sum where they do not. On the same bytes both calls return the same and write the same.
   Domain: any bytes. Result: the length of the record written. Refusals: 1 to 9, for a before b, then 10.
   Buffer: the record of a + b at its start; the rest stays. */
int32_t c34_quick_sum(const uint8_t *curve, size_t curve_len, const uint8_t *a, size_t a_len, const uint8_t *b,
                      size_t b_len, uint8_t *out, size_t out_len);

/* The sum of a divisor class with itself, likewise; the same as c34_double.
   Domain: any bytes. Result: the length of the record written. Refusals: 1 to 10.
   Buffer: the record of 2 a at its start; the rest stays. */
int32_t c34_quick_double(const uint8_t *curve, size_t curve_len, const uint8_t *a, size_t a_len, uint8_t *out,
                         size_t out_len);

/* Whether the formulas of c34_quick_sum serve for two divisors, those of c34_quick_double for two equal ones. They serve
   exactly if p is above 3, c5, c6 and c8 are 0, both divisors and their sum have the kind 31 with f2 not 0, and a
   determinant made of the curve's and the divisors' numbers is not 0, as for almost all pairs over a large field.
   Domain: any bytes. Result: 1 for yes, 0 for no. Refusals: 1 to 9, for a before b. Writes nothing. */
int32_t c34_quick_serves(const uint8_t *curve, size_t curve_len, const uint8_t *a, size_t a_len, const uint8_t *b,
                         size_t b_len);

/* Whether two divisors have the same bytes, which is whether their classes are equal.
   Domain: any bytes. Result: 1 for yes, 0 for no. Refusals: 1 to 9, for a before b. Writes nothing. */
int32_t c34_compare(const uint8_t *curve, size_t curve_len, const uint8_t *a, size_t a_len, const uint8_t *b,
                    size_t b_len);

/* How many pairs of words of four bytes that comparison takes, from the first: up to and with the first pair that
   differs, or all where none does. Divisors of different kinds differ in the first word, which is length and kind.
   Domain: any bytes. Result: the count, 1 to 10. Refusals: 1 to 9, for a before b. Writes nothing. */
int32_t c34_compare_words(const uint8_t *curve, size_t curve_len, const uint8_t *a, size_t a_len, const uint8_t *b,
                          size_t b_len);

/* How many records of a list have the kind.
   Domain: any bytes, any kind. Result: the count; 0 for a number that is no divisor kind. Refusals: 1 to 5, 11, then
   6 to 9 for each record from first to last. Writes nothing. */
int32_t c34_count(const uint8_t *curve, size_t curve_len, const uint8_t *list, size_t list_len, uint32_t kind);

/* The curve over the field of p elements of a curve with fractions: each coefficient is the number from 0 to p - 1 that
   times the denominator gives the numerator modulo p. Fractions are taken as written: 5/5 is refused for p = 5.
   Domain: any bytes, any p. Result: 44. Refusals: 12, 3, 13, 5, then 10 for a buffer under 44 bytes.
   Buffer: the curve's record at its start; the rest stays. */
int32_t c34_reduce_curve(const uint8_t *fractions, size_t fractions_len, uint32_t p, uint8_t *out, size_t out_len);

/* The short form of a divisor's record. It is never longer than the record, and c34_lengthen gives the record back.
   Domain: any bytes. Result: the length of the short record written. Refusals: 1 to 10.
   Buffer: the short record at its start; the rest stays. */
int32_t c34_shorten(const uint8_t *curve, size_t curve_len, const uint8_t *divisor, size_t divisor_len, uint8_t *out,
                    size_t out_len);

/* The divisor that a short record stands for. c34_shorten gives the short record's bytes back.
   Domain: any bytes. Result: the length of the record written. Refusals: 1 to 8, 15, 9, then 10.
   Buffer: the divisor's record at its start; the rest stays. */
int32_t c34_lengthen(const uint8_t *curve, size_t curve_len, const uint8_t *record, size_t record_len, uint8_t *out,
                     size_t out_len);

/* A slice's pointer, or that of a byte of our own for a null one: it is passed on with length 0, and never used. */
static inline const uint8_t *c34_read(const uint8_t *bytes)
{
    static const uint8_t none = 0;
    return bytes != NULL ? bytes : &none;
}

static inline uint8_t *c34_written(uint8_t *bytes)
{
    static uint8_t none = 0;
    return bytes != NULL ? bytes : &none;
}

#ifdef __cplusplus
}
#endif

#define c34_check_curve(curve, curve_len) (c34_check_curve)(c34_read(curve), (curve_len))
#define c34_check_divisor(curve, curve_len, divisor, divisor_len) \
    (c34_check_divisor)(c34_read(curve), (curve_len), c34_read(divisor), (divisor_len))
#define c34_sum(curve, curve_len, a, a_len, b, b_len, out, out_len) \
    (c34_sum)(c34_read(curve), (curve_len), c34_read(a), (a_len), c34_read(b), (b_len), c34_written(out), (out_len))
#define c34_double(curve, curve_len, a, a_len, out, out_len) \
    (c34_double)(c34_read(curve), (curve_len), c34_read(a), (a_len), c34_written(out), (out_len))
#define c34_negative(curve, curve_len, a, a_len, out, out_len) \
    (c34_negative)(c34_read(curve), (curve_len), c34_read(a), (a_len), c34_written(out), (out_len))
#define c34_multiple(curve, curve_len, a, a_len, n, out, out_len) \
    (c34_multiple)(c34_read(curve), (curve_len), c34_read(a), (a_len), (n), c34_written(out), (out_len))
#define c34_list_sum(curve, curve_len, list, list_len, out, out_len) \
    (c34_list_sum)(c34_read(curve), (curve_len), c34_read(list), (list_len), c34_written(out), (out_len))
#define c34_common_part(curve, curve_len, a, a_len, b, b_len, out, out_len) \
    (c34_common_part)(c34_read(curve), (curve_len), c34_read(a), (a_len), c34_read(b), (b_len), c34_written(out), \
                      (out_len))
#define c34_common_multiple(curve, curve_len, a, a_len, b, b_len, out, out_len) \
    (c34_common_multiple)(c34_read(curve), (curve_len), c34_read(a), (a_len), c34_read(b), (b_len), c34_written(out), \
                          (out_len))
#define c34_sum_by_parts(curve, curve_len, a, a_len, b, b_len, out, out_len) \
    (c34_sum_by_parts)(c34_read(curve), (curve_len), c34_read(a), (a_len), c34_read(b), (b_len), c34_written(out), \
                       (out_len))
#define c34_quick_sum(curve, curve_len, a, a_len, b, b_len, out, out_len) \
    (c34_quick_sum)(c34_read(curve), (curve_len), c34_read(a), (a_len), c34_read(b), (b_len), c34_written(out), \
                    (out_len))
#define c34_quick_double(curve, curve_len, a, a_len, out, out_len) \
    (c34_quick_double)(c34_read(curve), (curve_len), c34_read(a), (a_len), c34_written(out), (out_len))
#define c34_quick_serves(curve, curve_len, a, a_len, b, b_len) \
    (c34_quick_serves)(c34_read(curve), (curve_len), c34_read(a), (a_len), c34_read(b), (b_len))
#define c34_compare(curve, curve_len, a, a_len, b, b_len) \
    (c34_compare)(c34_read(curve), (curve_len), c34_read(a), (a_len), c34_read(b), (b_len))
#define c34_compare_words(curve, curve_len, a, a_len, b, b_len) \
    (c34_compare_words)(c34_read(curve), (curve_len), c34_read(a), (a_len), c34_read(b), (b_len))
#define c34_count(curve, curve_len, list, list_len, kind) \
    (c34_count)(c34_read(curve), (curve_len), c34_read(list), (list_len), (kind))
#define c34_reduce_curve(fractions, fractions_len, p, out, out_len) \
    (c34_reduce_curve)(c34_read(fractions), (fractions_len), (p), c34_written(out), (out_len))
#define c34_shorten(curve, curve_len, divisor, divisor_len, out, out_len) \
    (c34_shorten)(c34_read(curve), (curve_len), c34_read(divisor), (divisor_len), c34_written(out), (out_len))
#define c34_lengthen(curve, curve_len, record, record_len, out, out_len) \
    (c34_lengthen)(c34_read(curve), (curve_len), c34_read(record), (record_len), c34_written(out), (out_len))

#endif
