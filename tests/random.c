/* Random and mutated inputs, from a fixed seed: the library against the independent implementation.
   random [ACCEPTED] [MUTATED]: so many accepted calls, then so many mutated ones. */
#include "pairs.h"
#include "sample.h"
#include <stdio.h>
#include <stdlib.h>
#include <string.h>

enum { SAMPLES = 40, LIST_ROOM = 4096, OUT_ROOM = 128, FILL = 0x5A, REFUSALS = 15, WORDS = 10, ALIKE = 18 };
enum { OVERLAPS = 64, OF_POINTS = 14 }; /* this refusal is of the calls on points alone */

static const uint32_t primes[] = {2,  2,  2,   3,   3,    3,     5,         5,          7,
                                  11, 13, 101, 251, 1009, 65521, 268435399, 2147483629, 2147483647};

static struct sample sample[SAMPLES];
static struct pair alike[ALIKE]; /* one for each number of each kind */
static struct record overlap[SAMPLES][OVERLAPS][2]; /* where a sample has points, sums of the same few of them */
static uint8_t given[3][LIST_ROOM + 64]; /* the bytes of curve, or fractions, of a and of b */
static struct call c;
static long refused[REFUSALS + 1], accepted[VERBS], compared[WORDS + 1], made;
static long common[C34_KIND_31 + 1]; /* by kind, how many common parts have it */
static long served[2];               /* how often the formulas of the quick sum do not serve, and how often they do */

/* ---- an accepted call ---- */

static void lend(int i, struct slice s, struct slice *to)
{
    memcpy(given[i], s.at, s.len);
    *to = (struct slice){given[i], s.len};
}

static void lend_list(const struct sample *s)
{
    unsigned count = random_below(10) == 0 ? random_below(40) : random_below(6);
    size_t n = 0;
    for (unsigned i = 0; i < count; i++) {
        const struct record *r = pick(s);
        memcpy(given[1] + n, r->b, r->len);
        n += r->len;
    }
    c.a = (struct slice){given[1], n};
}

/* Two random records mostly differ in the first or the second word; these may agree in more. */
static void lend_alike(void)
{
    const struct pair *q = &alike[random_below(ALIKE)];
    lend(0, (struct slice){q->curve, sizeof q->curve}, &c.curve);
    lend(1, slice_of_record(&q->a), &c.a);
    lend(2, slice_of_record(&q->b), &c.b);
}

/* Two random records mostly have nothing in common; these mostly have. */
static void pick_overlap(const struct sample *s, struct record *a, struct record *b)
{
    unsigned i = random_below(OVERLAPS);
    *a = overlap[s - sample][i][0];
    *b = overlap[s - sample][i][1];
}

/* Two records of kind 31 with f2 not 0, if some tries find them. */
static void pick_typical(const struct sample *s, struct record *a, struct record *b)
{
    for (int tries = 0; tries < 20 && !is_typical(a->b); tries++)
        *a = *pick(s);
    for (int tries = 0; tries < 20 && !is_typical(b->b); tries++)
        *b = *pick(s);
}

static int64_t random_multiplier(void)
{
    static const int64_t border[] = {0, 1, -1, 2, -2, INT64_MAX, INT64_MIN, INT64_MIN + 1};
    int64_t n = (int64_t)((uint64_t)random32() << 32 | random32());
    switch (random_below(8)) {
    case 0:
        return border[random_below(8)];
    case 1:
        return n;
    default:
        return (int64_t)random_below(41) - 20;
    }
}

/* One time in six the sum, one in six a quick call, else any. */
static enum verb random_verb(void)
{
    static const enum verb more[6] = {SUM, SUM, SUM, QUICK_SUM, QUICK_DOUBLE, QUICK_SERVES};
    return random_below(3) == 0 ? more[random_below(6)] : (enum verb)random_below(VERBS);
}

static void make_call(const struct sample *s)
{
    static uint8_t out[OUT_ROOM];
    struct record a, b;
    c.verb = random_verb();
    pick_pair(s, &a, &b);
    if (s->points > 0 && random_below(3) == 0)
        pick_overlap(s, &a, &b);
    if (c.verb >= QUICK_SUM && c.verb <= QUICK_SERVES && random_below(2) == 0)
        pick_typical(s, &a, &b);
    lend(0, slice_of_curve(s), &c.curve);
    lend(1, slice_of_record(&a), &c.a);
    lend(2, slice_of_record(&b), &c.b);
    if (takes_list(c.verb))
        lend_list(s);
    if (c.verb == LENGTHEN)
        c.a.len = shorten(s->k.p, a.b, given[1]);
    if (c.verb == REDUCE_CURVE)
        c.curve = (struct slice){given[0], put_fractions(s, given[0])};
    c.n = random_multiplier();
    c.kind = random_below(4) == 0 ? random32() : get16(pick(s)->b + 2);
    c.p = s->k.p;
    c.out = out;
    c.out_len = writes(c.verb) && random_below(10) == 0 ? random_below(64) : least_buffer(c.verb);
}

/* ---- comparing ---- */

/* Both implementations return the same and leave the same buffer; e is the number of the refusal, or 0. */
static void compare(int32_t e)
{
    static uint8_t other[OUT_ROOM];
    struct call d = c;
    memset(c.out, FILL, OUT_ROOM);
    memset(other, FILL, OUT_ROOM);
    d.out = other;
    int32_t want = e != 0 ? -e : answer_of(&d), got = by_library(&c);
    if (want != got)
        printf("returned %d, by the definition %d\n", (int)got, (int)want);
    require(want == got, "the returned numbers differ", &c);
    require(memcmp(c.out, other, OUT_ROOM) == 0, "the result buffers differ", &c);
    made++;
    if (want < 0)
        refused[-want]++;
    else
        accepted[c.verb]++;
    if (want > 0 && c.verb == COMPARE_WORDS)
        compared[want]++;
    if (want > 0 && c.verb == COMMON_PART)
        common[get16(c.out + 2)]++;
    if (want >= 0 && c.verb == QUICK_SERVES)
        served[want]++;
}

/* ---- mutations ---- */

static void mutate_number(uint8_t *b, uint32_t p)
{
    const uint32_t value[] = {0, 1, p - 1, p, p + 1, 2 * p, 0x7FFFFFFF, 0x80000000, 0xFFFFFFFF, random32()};
    put32(b, random_below(2) == 0 ? random_below(p) : value[random_below(10)]);
}

static void mutate_header(uint8_t *b)
{
    static const uint16_t value[] = {0,  1,  3,  4,  11, 12,  16,  20,  21,  22,  31,  34,
                                     36, 40, 44, 76, 95, 100, 111, 121, 122, 131, 256, 65535};
    put16(b + 2 * random_below(2), random_below(4) == 0 ? random_below(65536) : value[random_below(24)]);
}

/* Changes, shortens or lengthens the bytes; numbers are taken at multiples of four. */
static void mutate(struct slice *s, uint8_t *b, uint32_t p)
{
    size_t words = s->len / 4;
    switch (random_below(8)) {
    case 0:
        s->len = random_below((uint32_t)s->len + 1);
        return;
    case 1:
        memset(b + s->len, (int)random_below(3), 48);
        s->len += 1 + random_below(48);
        if (random_below(2) == 0)
            put16(b, (uint32_t)s->len);
        return;
    case 2:
        if (s->len > 0)
            b[random_below((uint32_t)s->len)] ^= (uint8_t)(1 << random_below(8));
        return;
    case 3:
        if (words > 0)
            mutate_header(b + 4 * random_below(random_below(2) == 0 ? 1 : (uint32_t)words));
        return;
    default:
        if (words > 1)
            mutate_number(b + 4 + 4 * random_below((uint32_t)words - 1), p);
    }
}

/* A record of random numbers below p: often no basis. */
static void random_record(struct slice *s, uint8_t *b, uint32_t p)
{
    static const uint32_t kinds[4] = {11, 21, 22, 31};
    uint32_t numbers[9], kind = kinds[random_below(4)];
    for (int i = 0; i < 9; i++)
        numbers[i] = random_below(p);
    s->len = put_record(b, kind, numbers);
}

/* Random numbers below p, a number at the borders of what is accepted, or a bit of the last byte, where the filling is;
   or as other bytes. */
static void mutate_short(uint32_t p)
{
    unsigned w = width_of(p);
    const uint32_t value[] = {0, 1, p - 1, p, p + 1, 0xFFFFFFFF, random32()};
    uint8_t *b = given[1], record[C34_BUFFER];
    int count = numbers_of(get16(b + 2) - 100u);
    switch (random_below(4)) {
    case 0:
        random_record(&c.a, record, p);
        c.a = (struct slice){b, shorten(p, record, b)};
        return;
    case 1:
        if (count > 0)
            put_bits(b + 4, w, random_below((uint32_t)count), value[random_below(7)]);
        return;
    case 2:
        if (c.a.len > 0)
            b[c.a.len - 1] ^= (uint8_t)(1 << random_below(8));
        return;
    default:
        mutate(&c.a, b, p);
    }
}

/* Large and small numerators of either sign and denominators, one in 100 a multiple of p: the curve may be singular. */
static void random_fractions(struct slice *s, uint8_t *b, uint32_t p)
{
    uint32_t numbers[18];
    for (int i = 0; i < 18; i += 2) {
        const uint32_t value[] = {0, p, 0 - p, 0x7FFFFFFF, 0x80000000, random_below(19) - 9, random32(), random32()};
        numbers[i] = value[random_below(8)];
        numbers[i + 1] = random_below(100) == 0 ? random32() / p * p : random_denominator(p);
    }
    s->len = put_record(b, C34_FRACTIONS, numbers);
}

/* Mostly no prime, or above the largest that is accepted. */
static uint32_t random_modulus(void)
{
    static const uint32_t value[] = {0,          1,          4,          9,          15,         35,        2147210243,
                                     2147483646, 2147483648, 2147483659, 4294967291, 4294967295, 2147483629};
    return random_below(4) == 0 ? random32() : value[random_below(13)];
}

static void mutate_fractions(const struct sample *s)
{
    switch (random_below(16)) {
    case 0:
        c.p = random_modulus();
        return;
    case 1:
    case 2:
    case 3:
        mutate(&c.curve, given[0], s->k.p);
        return;
    default:
        random_fractions(&c.curve, given[0], s->k.p);
    }
}

static void mutate_call(const struct sample *s)
{
    uint32_t which = random_below(20);
    if (c.verb == REDUCE_CURVE)
        mutate_fractions(s);
    else if (which == 0)
        mutate(&c.curve, given[0], s->k.p);
    else if (c.verb == LENGTHEN)
        mutate_short(s->k.p);
    else if (which < 5 && takes_two(c.verb))
        mutate(&c.b, given[2], s->k.p);
    else if (which < 8 && !takes_list(c.verb))
        random_record(&c.a, given[1], s->k.p);
    else
        mutate(&c.a, given[1], s->k.p);
    if (random_below(8) == 0)
        mutate_call(s);
}

/* ---- the runs ---- */

static const struct sample *random_sample(void)
{
    return &sample[random_below(SAMPLES)];
}

/* The independent implementation does. */
static int takes_long(enum verb verb)
{
    return verb == QUICK_SERVES || (writes(verb) && verb != REDUCE_CURVE && verb != SHORTEN && verb != LENGTHEN);
}

/* Of the mutated calls that are still accepted and take long one in 64 is made. */
static void run_mutated(void)
{
    const struct sample *s = random_sample();
    for (int i = 0; i < 64; i++) {
        make_call(s);
        mutate_call(s);
        int32_t e = refusal_of(&c);
        if (e != 0 || !takes_long(c.verb) || random_below(64) == 0)
            compare(e);
    }
}

/* A random sample; for p above 3, if so asked, on a curve with c5, c6 and c8 zero. */
static void make_some(struct sample *s, uint32_t p, int short_form)
{
    do
        make_sample(s, p, RECORDS);
    while (short_form && p > 3 && !is_short(&s->k));
}

static void make_alike(void)
{
    static const uint32_t kinds[4] = {11, 21, 22, 31};
    struct pair *q = alike;
    for (int i = 0; i < 4; i++)
        for (int n = 0; n < numbers_of(kinds[i]); n++)
            make_pair(q++, kinds[i], (unsigned)n, random_below(4));
}

/* The sum of one to three of three points. */
static struct record sum_of_some(const struct sample *s, const struct record *const three[3])
{
    struct record r = *three[random_below(3)];
    for (unsigned more = random_below(3); more > 0; more--)
        r = sum_of(s, &r, three[random_below(3)]);
    return r;
}

/* Pairs of sums of the same points, one time in three multiples of one point. */
static void make_overlaps(const struct sample *s)
{
    for (unsigned i = 0; s->points > 0 && i < OVERLAPS; i++) {
        const struct record *three[3];
        for (unsigned j = 0; j < 3; j++)
            three[j] = j > 0 && i % 3 == 0 ? three[0] : &s->point[random_below(s->points)];
        overlap[s - sample][i][0] = sum_of_some(s, three);
        overlap[s - sample][i][1] = sum_of_some(s, three);
    }
}

int main(int argc, char **argv)
{
    static const uint32_t kinds[5] = {0, 11, 21, 22, 31};
    long full = argc > 1 ? atol(argv[1]) : 20000, mutated = argc > 2 ? atol(argv[2]) : 2000000, sums = 0;
    seed(20261115);
    for (unsigned i = 0; i < SAMPLES; i++)
        make_some(&sample[i], primes[i % (sizeof primes / sizeof *primes)], i % 2);
    make_alike();
    for (unsigned i = 0; i < SAMPLES; i++)
        make_overlaps(&sample[i]);
    for (long i = 0; i < full; i++) {
        make_call(random_sample());
        if (compares(c.verb) && random_below(3) == 0)
            lend_alike();
        compare(refusal_of(&c));
    }
    for (int v = 0; v < VERBS; v++)
        sums += writes((enum verb)v) ? accepted[v] : 0;
    printf("random: %ld accepted calls agree, %ld of them give a record; pairs of words, 1 to %d:", full, sums, WORDS);
    for (int n = 1; n <= WORDS; n++)
        printf(" %ld", compared[n]);
    printf("; common parts of kind 0, 11, 21, 22, 31:");
    for (int i = 0; i < 5; i++)
        printf(" %ld", common[kinds[i]]);
    printf("; the quick formulas serve for %ld of %ld\n", served[1], served[0] + served[1]);
    made = 0;
    while (made < mutated)
        run_mutated();
    printf("random: %ld mutated calls agree; refused by number 1 to %d:", made, REFUSALS);
    for (int e = 1; e <= REFUSALS; e++)
        printf(" %ld", refused[e]);
    printf("\n");
    for (int e = 1; e <= REFUSALS; e++)
        require(refused[e] > 0 || e == C34_REFUSED_LIST_LIMIT || e == OF_POINTS, "a refusal was never met", NULL);
    for (int n = 1; n <= WORDS; n++)
        require(compared[n] > 0, "a number of words was never met", NULL);
    for (int i = 0; i < 5; i++)
        require(common[kinds[i]] > 0, "a kind of common parts was never met", NULL);
    require(served[0] > 0 && served[1] > 0, "the quick formulas always serve, or never", NULL);
    return 0;
}
