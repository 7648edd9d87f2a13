/* Bytes that must not be touched: every slice ends at a page that cannot be read or written, or starts after one; what
   is only read cannot be written. On such slices the library is held against the independent implementation on every
   truncation and lengthening of curve, fractions, records and lists, on wrong length and kind fields, on numbers and
   moduli at the borders of what is accepted, on result buffers of 0 to 60 bytes and on empty slices with a null
   pointer; the comparisons also on records that agree before a number and differ in one byte of it, and on all pairs of
   records over F_2; the quick calls also on pairs for which their formulas serve. */
#include "check.h"
#include "pairs.h"
#include "records.h"
#include <stdio.h>
#include <string.h>

enum { MOST = 40000 };

/* ---- variations of one slice of a call ---- */

static struct slice *argument(struct call *c, int i)
{
    return i == 0 ? &c->curve : i == 1 ? &c->a : &c->b;
}

/* Every shorter slice and some longer ones, with the length field as it was and set to the new length, then also with
   another kind; and 65,536 bytes more, where the field is right but for what it cannot hold. */
static void vary_length(const struct call *given, int i)
{
    static uint8_t b[LONGEST];
    struct call c = *given;
    struct slice *s = argument(&c, i);
    size_t whole = s->len;
    for (size_t n = 0; n <= whole + 8; n++)
        for (int fields = 0; fields < 3; fields++) {
            memset(b, 0, whole + 8);
            memcpy(b, argument((struct call *)given, i)->at, whole);
            if (fields > 0 && n >= 2)
                put16(b, (uint32_t)n);
            if (fields > 1 && n >= 4)
                put16(b + 2, 12);
            *s = (struct slice){b, n};
            check(&c);
        }
    memset(b, 0, whole + 65536);
    memcpy(b, argument((struct call *)given, i)->at, whole);
    *s = (struct slice){b, whole + 65536};
    check(&c);
}

static void vary_header(const struct call *given, int i)
{
    static const uint16_t value[] = {0,    1,     2,     3,     4,     5,     8,     10,  11,  12,  13,  16,   20,
                                     21,   22,    23,    30,    31,    32,    33,    34,  35,  36,  37,  39,   40,
                                     41,   44,    48,    75,    76,    77,    80,    84,  85,  99,  100, 101,  110,
                                     111,  112,   121,   122,   123,   131,   132,   134, 136, 255, 256, 2816, 5632,
                                     9216, 19456, 25600, 28416, 32768, 33536, 65535};
    uint8_t b[C34_FRACTIONS_LENGTH];
    struct call c = *given;
    struct slice *s = argument(&c, i);
    for (size_t at = 0; at <= 2 && s->len >= 4 && s->len <= sizeof b; at += 2)
        for (size_t v = 0; v < sizeof value / sizeof *value; v++) {
            memcpy(b, argument((struct call *)given, i)->at, s->len);
            put16(b + at, value[v]);
            *s = (struct slice){b, s->len};
            check(&c);
        }
}

/* Each number in turn at the borders of what is accepted. */
static void vary_numbers(const struct call *given, int i, uint32_t p)
{
    const uint32_t value[] = {0, 1, p - 1, p, p + 1, 2 * p, 0x7FFFFFFF, 0x80000000, 0xFFFFFFFF};
    uint8_t b[C34_FRACTIONS_LENGTH];
    struct call c = *given;
    struct slice *s = argument(&c, i);
    for (size_t at = 4; at + 4 <= s->len && s->len <= sizeof b; at += 4)
        for (size_t v = 0; v < sizeof value / sizeof *value; v++) {
            memcpy(b, argument((struct call *)given, i)->at, s->len);
            put32(b + at, value[v]);
            *s = (struct slice){b, s->len};
            check(&c);
        }
}

/* Each byte in turn with another lowest or highest bit. */
static void vary_bytes(const struct call *given, int i)
{
    uint8_t b[C34_CURVE_LENGTH];
    struct call c = *given;
    struct slice *s = argument(&c, i);
    for (size_t at = 0; at < s->len; at++)
        for (int bit = 0; bit < 8; bit += 7) {
            memcpy(b, argument((struct call *)given, i)->at, s->len);
            b[at] ^= (uint8_t)(1 << bit);
            *s = (struct slice){b, s->len};
            check(&c);
        }
}

static void vary_buffer(const struct call *given)
{
    struct call c = *given;
    for (c.out_len = 0; c.out_len <= 60; c.out_len++)
        check(&c);
    c.out_len = 4096;
    check(&c);
}

/* The modulus beside the record at the borders of what is accepted, also with a buffer that is too short. */
static void vary_modulus(const struct call *given)
{
    static const uint32_t value[] = {0,          1,          2,          3,          4,         5,
                                     2147483647, 2147483648, 2147483659, 4294967291, 4294967295};
    struct call c = *given;
    for (size_t v = 0; v < sizeof value / sizeof *value; v++)
        for (c.out_len = C34_CURVE_LENGTH - 1; c.out_len <= C34_CURVE_LENGTH; c.out_len++) {
            c.p = value[v];
            check(&c);
        }
}

static void vary(const struct call *c, uint32_t p)
{
    check(c);
    for (int i = 0; i < slices_read(c->verb); i++) {
        vary_length(c, i);
        vary_header(c, i);
        vary_numbers(c, i, p);
        if (compares(c->verb) || c->verb == LENGTHEN)
            vary_bytes(c, i);
    }
    if (writes(c->verb))
        vary_buffer(c);
    if (c->verb == REDUCE_CURVE)
        vary_modulus(c);
}

/* ---- the calls ---- */

/* A list of one record of each kind and some more; its length is returned. */
static size_t make_list(const struct sample *s, uint8_t *list)
{
    static const uint32_t kinds[] = {31, 0, 11, 22, 21, 31};
    size_t n = 0;
    for (int i = 0; i < 6; i++) {
        const struct record *r = of_kind(s, kinds[i]);
        memcpy(list + n, r->b, r->len);
        n += r->len;
    }
    return n;
}

static void run_sample(const struct sample *s)
{
    static const uint32_t kinds[5] = {0, 11, 21, 22, 31};
    static uint8_t list[6 * C34_BUFFER], fractions[C34_FRACTIONS_LENGTH];
    struct slice all = {list, make_list(s, list)};
    for (enum verb v = 0; v < VERBS; v++)
        for (int i = 0; i < (v == CHECK_CURVE || takes_list(v) ? 1 : takes_two(v) ? 10 : 5); i++) {
            struct call c = {.verb = v, .curve = slice_of_curve(s), .n = -3, .kind = kinds[4], .p = s->k.p};
            if (c.verb == REDUCE_CURVE)
                c.curve = (struct slice){fractions, put_fractions(s, fractions)};
            c.a = takes_list(c.verb) ? all : slice_of_record(of_kind(s, kinds[i % 5]));
            c.b = slice_of_record(of_kind(s, kinds[i < 5 ? 4 - i : i - 5])); /* from i = 5 on the same record as a */
            c.out_len = least_buffer(c.verb);
            struct record shorter = short_of(s->k.p, of_kind(s, kinds[i % 5]));
            if (c.verb == LENGTHEN)
                c.a = slice_of_record(&shorter);
            vary(&c, s->k.p);
        }
}

/* Fractions with every set of causes for a refusal: the first in order decides. */
static void run_causes(const struct sample *s)
{
    uint8_t b[C34_FRACTIONS_LENGTH];
    for (unsigned causes = 0; causes < 32; causes++)
        for (size_t place = 4; place < sizeof b; place += 8) {
            struct call c = {.verb = REDUCE_CURVE, .p = s->k.p, .out_len = C34_CURVE_LENGTH};
            c.curve = (struct slice){b, put_fractions(s, b)};
            if (causes & 1)
                put16(b + 2, C34_CURVE);
            if (causes & 2)
                c.p = 4 * c.p;
            if (causes & 4)
                put32(b + place + 4, random_below(2) * s->k.p);
            for (size_t i = 4; (causes & 8) && i < sizeof b; i += 8)
                put32(b + i, 0); /* y^3 + x^4 is singular */
            if (causes & 16)
                c.out_len = random_below(C34_CURVE_LENGTH);
            check(&c);
        }
}

/* Every value of the length and of the kind field of a record, of a short one, of a curve and of fractions. */
static void run_headers(const struct sample *s)
{
    uint8_t b[C34_FRACTIONS_LENGTH], fractions[C34_FRACTIONS_LENGTH];
    put_fractions(s, fractions);
    for (uint32_t v = 0; v < 65536; v++)
        for (size_t at = 0; at <= 2; at += 2) {
            struct call c = {.verb = CHECK_DIVISOR, .curve = slice_of_curve(s)};
            const struct record *r = &s->record[v % s->records];
            memcpy(b, r->b, r->len);
            put16(b + at, v);
            c.a = (struct slice){b, r->len};
            check(&c);
            c = (struct call){.verb = LENGTHEN, .curve = slice_of_curve(s), .out_len = C34_BUFFER};
            c.a = (struct slice){b, shorten(s->k.p, r->b, b)};
            put16(b + at, v);
            check(&c);
            c = (struct call){.verb = CHECK_CURVE, .curve = {b, C34_CURVE_LENGTH}};
            memcpy(b, s->curve, C34_CURVE_LENGTH);
            put16(b + at, v);
            check(&c);
            c = (struct call){.verb = REDUCE_CURVE, .curve = {b, sizeof b}, .p = s->k.p, .out_len = C34_CURVE_LENGTH};
            memcpy(b, fractions, sizeof b);
            put16(b + at, v);
            check(&c);
        }
}

/* Lists around the limit, empty ones, and every kind asked for. */
static void run_lists(const struct sample *s)
{
    static uint8_t list[MOST];
    struct call c = {.verb = LIST_SUM, .curve = slice_of_curve(s), .out_len = C34_BUFFER};
    for (size_t i = 0; i < MOST; i += 4)
        put_record(list + i, C34_ZERO, NULL);
    for (size_t n = C34_LIST_LIMIT - 8; n <= C34_LIST_LIMIT + 8; n++) {
        c.a = (struct slice){list, n};
        check(&c);
        put16(list, 3);
        check(&c);
        put16(list, 4);
    }
    c.verb = COUNT;
    c.a.len = make_list(s, list);
    for (c.kind = 0; c.kind < 70000; c.kind += 1 + c.kind / 64)
        check(&c);
}

/* Records that agree before a number and differ in one byte of it, whichever number and byte it is. */
static void run_bytes(void)
{
    static const uint32_t kinds[4] = {11, 21, 22, 31};
    static struct pair q;
    for (int i = 0; i < 4; i++)
        for (int n = 0; n < 4 * numbers_of(kinds[i]); n++) {
            make_pair(&q, kinds[i], (unsigned)n / 4, (unsigned)n % 4);
            struct call c = {.verb = COMPARE, .curve = {q.curve, sizeof q.curve}};
            c.a = slice_of_record(&q.a);
            c.b = slice_of_record(&q.b);
            check(&c);
            require(by_library(&c) == 0, "two records that differ in a byte are the same", &c);
            c.verb = COMPARE_WORDS;
            check(&c);
            require(by_library(&c) == n / 4 + 2, "the first words that differ are others", &c);
        }
}

/* Both comparisons of two accepted records; the number of pairs of words is returned. */
static int32_t compare(struct slice curve, struct slice a, struct slice b)
{
    static const enum verb verbs[2] = {COMPARE, COMPARE_WORDS};
    static const uint8_t nothing[1];
    int32_t expected = 0;
    for (int i = 0; i < 2; i++) {
        struct call c = {.verb = verbs[i], .curve = curve, .a = a, .b = b};
        expected = answer_of(&c);
        check_at(&c, AT_END, expected, nothing);
        check_at(&c, AT_FRONT, expected, nothing);
    }
    return expected;
}

/* All pairs of accepted records on every curve over F_2: some differ first in the first word, some in the second, up to
   the tenth. */
static void run_pairs(void)
{
    static struct record r[CLASSES];
    uint8_t curve[C34_CURVE_LENGTH];
    long differ[11] = {0};
    for (uint32_t bits = 0; bits < 512; bits++) {
        struct curve k = over_two(bits);
        put_curve(curve, k.p, k.c);
        unsigned count = nonsingular(&k) ? all_records(&k, r) : 0;
        for (unsigned i = 0; i < count * count; i++) {
            struct slice a = slice_of_record(&r[i / count]), b = slice_of_record(&r[i % count]);
            int32_t words = compare((struct slice){curve, sizeof curve}, a, b);
            differ[words] += i / count != i % count;
        }
    }
    for (int words = 1; words <= 10; words++)
        require(differ[words] > 0, "no two records over F_2 differ first in some word", NULL);
}

/* The quick calls on two different records, and on two equal ones, for which their formulas serve. */
static void run_served(const struct sample *s)
{
    int done[2] = {0}; /* for different records, for equal ones */
    for (unsigned i = 0; i < s->records * s->records; i++) {
        const struct record *a = &s->record[i / s->records], *b = &s->record[i % s->records];
        if (done[same(a, b)] || !serves(&s->k, a->b, b->b))
            continue;
        for (enum verb v = QUICK_SUM; v <= QUICK_SERVES; v++) {
            struct call c = {v, slice_of_curve(s), slice_of_record(a), slice_of_record(b), .out_len = least_buffer(v)};
            vary(&c, s->k.p);
        }
        done[same(a, b)] = 1;
    }
    require(done[0] && done[1], "the quick formulas serve for no two records", NULL);
}

/* A null pointer with length 0 is an empty slice; so is, for the archive itself, a pointer behind the last byte. For
   calls that take two divisors, two and a result buffer, one and a result buffer: */
#define NULL_OF_TWO(call)                                                                                  \
    require(call(NULL, 0, a, al, a, al) == -1, "null curve: " #call, NULL);                                \
    require(call(k, kl, NULL, 0, a, al) == -6 && call(k, kl, a, al, NULL, 0) == -6, "null: " #call, NULL); \
    require((call)(k, kl, a, al, a + al, 0) == -6, "empty divisor behind the last byte: " #call, NULL)
#define NULL_OF_SUM(call)                                                                     \
    require(call(NULL, 0, a, al, a, al, out, 40) == -1, "null curve: " #call, NULL);          \
    require(call(k, kl, NULL, 0, a, al, out, 40) == -6, "null first divisor: " #call, NULL);  \
    require(call(k, kl, a, al, NULL, 0, out, 40) == -6, "null second divisor: " #call, NULL); \
    require(call(k, kl, a, al, a, al, NULL, 0) == -10, "null result: " #call, NULL);          \
    require((call)(k, kl, a, al, a + al, 0, out, 40) == -6, "empty divisor behind the last byte: " #call, NULL)
#define NULL_OF_DOUBLE(call)                                                                                        \
    require(call(NULL, 0, a, al, out, 40) == -1 && call(k, kl, NULL, 0, out, 40) == -6, "null slice: " #call, NULL); \
    require(call(k, kl, a, al, NULL, 0) == -10, "null result: " #call, NULL)

static void run_null(const struct sample *s)
{
    uint8_t out[C34_CURVE_LENGTH], f[C34_FRACTIONS_LENGTH];
    struct record shorter = short_of(s->k.p, &s->record[0]);
    const uint8_t *k = s->curve, *a = s->record[0].b;
    size_t kl = C34_CURVE_LENGTH, al = s->record[0].len, fl = put_fractions(s, f);
    require(c34_check_curve(NULL, 0) == -1 && c34_check_divisor(NULL, 0, a, al) == -1, "null curve", NULL);
    require(c34_check_divisor(k, kl, NULL, 0) == -6, "null divisor", NULL);
    NULL_OF_TWO(c34_compare);
    NULL_OF_TWO(c34_compare_words);
    NULL_OF_TWO(c34_quick_serves);
    NULL_OF_SUM(c34_sum);
    NULL_OF_SUM(c34_common_part);
    NULL_OF_SUM(c34_common_multiple);
    NULL_OF_SUM(c34_sum_by_parts);
    NULL_OF_SUM(c34_quick_sum);
    NULL_OF_DOUBLE(c34_double);
    NULL_OF_DOUBLE(c34_negative);
    NULL_OF_DOUBLE(c34_quick_double);
    NULL_OF_DOUBLE(c34_shorten);
    require(c34_multiple(k, kl, a, al, 2, NULL, 0) == -10, "null result of a multiple", NULL);
    require(c34_list_sum(k, kl, NULL, 0, out, 40) == 4 && c34_count(k, kl, NULL, 0, 0) == 0, "null list", NULL);
    require((c34_list_sum)(k, kl, k + kl, 0, out, 40) == 4, "empty list behind the last byte", NULL);
    require(c34_reduce_curve(NULL, 0, s->k.p, out, 44) == -12, "null fractions", NULL);
    require(c34_reduce_curve(NULL, 0, 4, NULL, 0) == -12, "null fractions and a null result", NULL);
    require(c34_reduce_curve(f, fl, s->k.p, NULL, 0) == -10, "null result of fractions", NULL);
    require((c34_reduce_curve)(f + fl, 0, s->k.p, out, 44) == -12, "empty fractions behind the last byte", NULL);
    a = shorter.b;
    al = shorter.len;
    NULL_OF_DOUBLE(c34_lengthen);
}

int main(void)
{
    static const uint32_t primes[] = {2, 5, 101, 2147483647};
    static struct sample s;
    seed(34);
    make_pages();
    for (int i = 0; i < 4; i++) {
        do
            make_sample(&s, primes[i], RECORDS);
        while (!has_all_kinds(&s));
        run_sample(&s);
        run_causes(&s);
        run_lists(&s);
        run_null(&s);
        if (primes[i] == 5)
            run_headers(&s);
        while (primes[i] > 3 && !is_short(&s.k))
            make_sample(&s, primes[i], RECORDS);
        if (primes[i] > 3)
            run_served(&s);
    }
    run_bytes();
    run_pairs();
    printf("guard: %ld calls between guard pages agree\n", calls);
    return 0;
}
