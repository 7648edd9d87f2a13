/* Short records. Every call is made between guard pages and held against the independent implementation.
     there and back   every accepted record on each nonsingular curve over F_2 and on E, and random ones for the least
                      and the largest prime of each width from 1 to 31 and some others: the short form is not longer,
                      and lengthening it gives the record
     back and there   every string of bytes that has the length of a short kind, where one or two bytes are numbers, on
                      these curves for the small primes, but where two are, on one in 16 of the curves over F_2: where
                      it is accepted, shortening the record gives the string
     borders          short records with each number in turn at the borders of what is accepted, each filling bit set,
                      and buffers of 40 and 39 bytes: 8 comes before 15, 15 before 9, and 9 before 10
     forms            short records to every other call that takes a divisor, ordinary ones to c34_lengthen: 7 */
#include "check.h"
#include "records.h"
#include <stdio.h>
#include <string.h>

enum { WIDTHS = 31, LAST_KIND = 31, REFUSALS = 15 };

static const uint32_t kinds[5] = {0, 11, 21, 22, 31};
static struct curve k;
static uint8_t curve[C34_CURVE_LENGTH];
static long trips, strings[LAST_KIND + 1], accepted[LAST_KIND + 1], refused[REFUSALS + 1];
static long filled[REFUSALS + 1]; /* filling bits set, by the refusal without them, 0 for none */

static void set_curve(const struct curve *c)
{
    k = *c;
    put_curve(curve, k.p, k.c);
}

/* The call on a record: what it returns is returned, and *r is what it writes. */
static int32_t made(enum verb verb, const struct record *a, struct record *r)
{
    struct call c = {verb, {curve, sizeof curve}, slice_of_record(a), .out = r->b, .out_len = sizeof r->b};
    int32_t e = check(&c);
    r->len = e < 0 ? 0 : (size_t)e;
    return e;
}

static void must(int condition, const char *what, enum verb verb, const struct record *a)
{
    struct call c = {verb, {curve, sizeof curve}, slice_of_record(a), .out_len = C34_BUFFER};
    require(condition, what, &c);
}

/* ---- there and back ---- */

static void there_and_back(const struct record *a)
{
    struct record s, back;
    int32_t e = made(SHORTEN, a, &s);
    must(e > 0 && s.len <= a->len, "the short form is longer, or refused", SHORTEN, a);
    made(LENGTHEN, &s, &back);
    must(same(&back, a), "the way back gives another record", LENGTHEN, &s);
    trips++;
}

/* ---- back and there ---- */

/* Those with at most so many bytes of numbers. */
static void all_strings(uint32_t kind, size_t most)
{
    struct record s, whole, back;
    s.len = short_length(k.p, kind);
    if (s.len > 4 + most)
        return;
    put16(s.b, (uint32_t)s.len);
    put16(s.b + 2, 100 + kind);
    for (uint32_t n = 0; n < 1u << 8 * (s.len - 4); n++) {
        for (size_t i = 4; i < s.len; i++)
            s.b[i] = (uint8_t)(n >> 8 * (i - 4));
        int32_t e = made(LENGTHEN, &s, &whole);
        strings[kind]++;
        if (e < 0) {
            refused[-e]++;
            continue;
        }
        made(SHORTEN, &whole, &back);
        must(same(&back, &s), "the way there again gives another string", SHORTEN, &whole);
        accepted[kind]++;
    }
}

/* ---- borders ---- */

/* What c34_lengthen returns; with a buffer of 39 bytes it is the same if it is a refusal, else minus 10. */
static int32_t lengthened(const struct record *a)
{
    struct record r;
    int32_t e = made(LENGTHEN, a, &r);
    struct call c = {LENGTHEN, {curve, sizeof curve}, slice_of_record(a), .out_len = C34_BUFFER - 1};
    require(check(&c) == (e < 0 ? e : -C34_REFUSED_BUFFER), "a buffer of 39 bytes", &c);
    return e;
}

/* Each filling bit set alone in a short record that is refused with e, or accepted. */
static void vary_filling(const struct record *given, int32_t e)
{
    for (unsigned i = bits_of(k.p, get16(given->b + 2) - 100u); i < 8 * (given->len - 4); i++) {
        struct record s = *given;
        s.b[4 + i / 8] ^= (uint8_t)(1 << i % 8);
        int32_t f = lengthened(&s);
        must(f == (e == -C34_REFUSED_DIVISOR_NUMBER ? e : -C34_REFUSED_FILLING), "a filling bit", LENGTHEN, &s);
        filled[e < 0 ? -e : 0]++;
    }
}

static void vary_bits(const struct record *given)
{
    unsigned w = width_of(k.p);
    const uint64_t value[] = {0, 1, k.p - 1, k.p, k.p + 1ull, ((uint64_t)1 << w) - 1};
    vary_filling(given, 0);
    for (int n = 0; n < numbers_of(get16(given->b + 2) - 100u); n++)
        for (size_t v = 0; v < sizeof value / sizeof *value; v++) {
            struct record s = *given;
            if (value[v] >> w != 0) /* it does not fit in w bits */
                continue;
            put_bits(s.b + 4, w, (unsigned)n, (uint32_t)value[v]);
            int32_t e = lengthened(&s);
            must((e == -C34_REFUSED_DIVISOR_NUMBER) == (value[v] >= k.p), "a number at a border", LENGTHEN, &s);
            vary_filling(&s, e);
        }
}

/* ---- forms ---- */

/* A record of the form that a call does not take, as its first divisor or list, and as its second divisor. */
static void other_form(enum verb verb, const struct record *a)
{
    struct record other = verb == LENGTHEN ? *a : short_of(k.p, a);
    struct call c = {verb, {curve, sizeof curve}, slice_of_record(&other), .out_len = least_buffer(verb)};
    c.b = slice_of_record(a);
    require(check(&c) == -C34_REFUSED_DIVISOR_KIND, "a record of the other form is not refused with 7", &c);
    c.a = slice_of_record(a);
    c.b = slice_of_record(&other);
    if (takes_two(verb))
        require(check(&c) == -C34_REFUSED_DIVISOR_KIND, "a second record of the other form is not refused with 7", &c);
}

/* ---- the curves ---- */

/* All records on a curve over a small field, and all strings with at most so many bytes of numbers; the number of
   records is returned, 0 for a singular curve. */
static unsigned run_curve(const struct curve *c, size_t most)
{
    static struct record r[CLASSES];
    unsigned count = nonsingular(c) ? all_records(c, r) : 0;
    set_curve(c);
    for (unsigned i = 0; i < count; i++)
        there_and_back(&r[i]);
    for (int i = 0; count > 0 && i < 5; i++)
        all_strings(kinds[i], most);
    return count;
}

/* The points (0, 0) and (1, 1) on a curve through both: all their numbers are 0, all are p - 1. */
static void run_corners(uint32_t p)
{
    struct curve c = {p, {0}};
    struct record r;
    do {
        c.c[1] = random_below(p);
        c.c[2] = minus(p, minus(p, 0, 2 % p), c.c[1]);
    } while (!nonsingular(&c));
    set_curve(&c);
    for (uint32_t i = 0; i < 2; i++) {
        r.len = put_point(&c, i, i, r.b);
        there_and_back(&r);
        r = short_of(p, &r);
        vary_bits(&r);
    }
}

static void run_prime(uint32_t p)
{
    static struct sample s;
    do
        make_sample(&s, p, RECORDS);
    while (!has_all_kinds(&s));
    run_corners(p);
    set_curve(&s.k);
    for (unsigned i = 0; i < s.records; i++)
        there_and_back(&s.record[i]);
    for (int i = 0; i < 5; i++) {
        struct record r = short_of(p, of_kind(&s, kinds[i]));
        vary_bits(&r);
        all_strings(kinds[i], 2);
        for (enum verb v = 0; v < VERBS; v++)
            if (slices_read(v) > 1)
                other_form(v, of_kind(&s, kinds[i]));
    }
}

/* The least and the largest prime with p - 1 of w bits. */
static void run_width(unsigned w)
{
    uint32_t least = (1u << (w - 1)) + 1, largest = 1u << w;
    while (!is_prime(least))
        least++;
    while (!is_prime(largest))
        largest--;
    require(width_of(least) == w && width_of(largest) == w, "a prime has another width", NULL);
    run_prime(least);
    if (largest != least)
        run_prime(largest);
}

int main(void)
{
    static const uint32_t others[] = {11, 101, 1000003, 268435399, 2147483629};
    const struct curve E = {5, {1, 0, 0, 0, 0, 0, 0, 0, 0}};
    unsigned curves = 0, records = 0;
    seed(2026);
    make_pages();
    for (uint32_t bits = 0; bits < 512; bits++) {
        struct curve c = over_two(bits);
        unsigned count = run_curve(&c, curves % 16 == 0 ? 2 : 1);
        curves += count > 0;
        records += count;
    }
    unsigned on_e = run_curve(&E, 2);
    for (unsigned w = 1; w <= WIDTHS; w++)
        run_width(w);
    for (size_t i = 0; i < sizeof others / sizeof *others; i++)
        run_prime(others[i]);
    printf("shorts: all %u records on %u curves over F_2, all %u on E and %ld others of each width from 1 to %d there "
           "and back; strings accepted of those tried, by kind 100, 111, 121, 122, 131:",
           records, curves, on_e, trips - records - on_e, WIDTHS);
    for (int i = 0; i < 5; i++)
        printf(" %ld of %ld", accepted[kinds[i]], strings[kinds[i]]);
    printf(", refused with 8, 15, 9: %ld %ld %ld; filling bits set in records else accepted, else refused with 8, "
           "with 9: %ld %ld %ld; %ld calls between guard pages agree\n",
           refused[8], refused[15], refused[9], filled[0], filled[8], filled[9], calls);
    for (int i = 0; i < 5; i++)
        require(accepted[kinds[i]] > 0, "no string of a kind is accepted", NULL);
    require(filled[0] > 0 && filled[8] > 0 && filled[9] > 0, "a filling bit was never set", NULL);
    return 0;
}
