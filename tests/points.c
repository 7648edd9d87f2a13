/* The two calls on points, by the archive of the crate bench_points: points [ROUNDS]. Every slice ends at a page that
   cannot be read or written, or starts after one; what is only read cannot be written.

   Refusals: every truncation of curve and divisor and some lengthenings, every count of numbers up to 12 and around the
   limit, slices of 0 to 7 numbers, buffers of 0 to 41 bytes, numbers and kinds at the borders, sets of causes for a
   refusal; against the independent implementation.
   Answers: so many rounds of random sums of points and of points of random records. For small p the points of a record
   are found by trying all pairs, for every p by the zeros of the record's polynomials; their multiplicities by powers of
   ideals. They come in rising order. A sum of at most three points, where no fewer give it, has these points.
   Round trips: where a record has as many points as its degree, their sum is the record. */
#include "pages.h"
#include "sample.h"
#include <stdio.h>
#include <stdlib.h>
#include <string.h>

/* Lengths are numbers of elements here. */
int32_t bench_points_sum(const uint8_t *curve, size_t curve_len, const uint32_t *points, size_t points_len, uint8_t *out,
                         size_t out_len);
int32_t bench_points_of(const uint8_t *curve, size_t curve_len, const uint8_t *divisor, size_t divisor_len,
                        uint32_t *out, size_t out_len);

enum { LIMIT = 8192, ROOM = LIMIT + 8, LAST_SCANNED = 65521, REFUSALS = 14 };

static long made[ALL_VERBS], refused[REFUSALS + 1], trips, triples, doubles, followed, above;

/* ---- one call ---- */

static int32_t by_archive(const struct call *c)
{
    if (c->verb == POINTS_SUM)
        return bench_points_sum(c->curve.at, c->curve.len, (const uint32_t *)(const void *)c->a.at, c->a.len / 4,
                                c->out, c->out_len);
    return bench_points_of(c->curve.at, c->curve.len, c->a.at, c->a.len, (uint32_t *)(void *)c->out, c->out_len / 4);
}

static int by_coordinates(const void *a, const void *b)
{
    uint32_t p[2], q[2];
    memcpy(p, a, sizeof p);
    memcpy(q, b, sizeof q);
    int i = p[0] != q[0] ? 0 : 1;
    return p[i] < q[i] ? -1 : p[i] > q[i];
}

/* Makes the call between guard pages. It returns what it should and leaves what it should in the buffer; points rise. */
static void check_at(const struct call *given, enum side side, int32_t expected, const uint8_t *want)
{
    struct call c = between_pages(given, side);
    int32_t e = by_archive(&c);
    if (e != expected)
        printf("returned %d, by the definition %d\n", (int)e, (int)expected);
    require(e == expected, "the returned number is wrong", given);
    for (int32_t i = 1; c.verb == POINTS_OF && i < e; i++)
        require(by_coordinates(c.out + 8 * (i - 1), c.out + 8 * i) <= 0, "the points do not rise", given);
    require(memcmp(c.out, want, c.out_len) == 0, "the result is wrong, or something else has changed", given);
    made[c.verb]++;
    if (e < 0)
        refused[-e]++;
}

static void check_both(const struct call *given, int32_t expected, const uint8_t *want)
{
    check_at(given, AT_END, expected, want);
    check_at(given, AT_FRONT, expected, want);
}

/* Against the independent implementation; what the call returns is returned. */
static int32_t check(const struct call *given)
{
    static uint8_t want[LONGEST];
    struct call d = *given;
    d.out = want;
    memset(want, FILL, d.out_len);
    int32_t expected = by_definition(&d);
    check_both(given, expected, want);
    return expected;
}

static struct slice slice_of_numbers(const uint32_t *n, size_t count)
{
    return (struct slice){(const uint8_t *)(const void *)n, 4 * count};
}

static struct call sum_call(const struct sample *s, const uint32_t *n, size_t count)
{
    return (struct call){
        .verb = POINTS_SUM, .curve = slice_of_curve(s), .a = slice_of_numbers(n, count), .out_len = C34_BUFFER};
}

static struct call points_call(const struct sample *s, const struct record *r)
{
    return (struct call){
        .verb = POINTS_OF, .curve = slice_of_curve(s), .a = slice_of_record(r), .out_len = least_buffer(POINTS_OF)};
}

/* ---- points of a sample ---- */

/* The coordinates of the i-th point. */
static void coordinates(const struct sample *s, unsigned i, uint32_t q[2])
{
    q[0] = minus(s->k.p, 0, get32(s->point[i].b + 4));
    q[1] = minus(s->k.p, 0, get32(s->point[i].b + 8));
}

/* Random points of the sample, often repeated. */
static void random_points(const struct sample *s, uint32_t *n, size_t pairs)
{
    unsigned among = 1 + random_below(s->points), from = random_below(s->points);
    for (size_t i = 0; i < pairs; i++)
        coordinates(s, (from + random_below(among)) % s->points, n + 2 * i);
}

/* A pair below p that is not on the curve; 0 if none is found. */
static int off_curve(const struct curve *k, uint32_t q[2])
{
    for (int tries = 0; tries < 200; tries++) {
        q[0] = random_below(k->p);
        q[1] = random_below(k->p);
        if (!on_curve(k, q[0], q[1]))
            return 1;
    }
    return 0;
}

/* ---- refusals ---- */

/* Every shorter slice and some longer ones, with the length field as it was and set to the new length; and 65,536 bytes
   more, where the field is right but for what it cannot hold. s is a slice of the call. */
static void vary_length(const struct call *given, struct slice *s)
{
    static uint8_t b[C34_CURVE_LENGTH + 65536];
    struct slice old = *s;
    for (size_t n = 0; n <= old.len + 8; n++)
        for (int field = 0; field < 2; field++) {
            memset(b, 0, sizeof b);
            memcpy(b, old.at, old.len);
            if (field == 1 && n >= 2)
                put16(b, (uint32_t)n);
            *s = (struct slice){b, n};
            check(given);
        }
    memcpy(b, old.at, old.len);
    *s = (struct slice){b, old.len + 65536};
    check(given);
    *s = old;
}

/* Each number of a record in turn at the borders of what is accepted, and every kind. s is a slice of the call. */
static void vary_numbers(const struct call *given, struct slice *s, uint32_t p)
{
    const uint32_t value[] = {0, 1, p - 1, p, p + 1, 65521, 65537, 0x7FFFFFFF, 0xFFFFFFFF};
    uint8_t b[C34_CURVE_LENGTH];
    struct slice old = *s;
    *s = (struct slice){b, old.len};
    for (size_t at = 4; at + 4 <= old.len; at += 4)
        for (size_t v = 0; v < sizeof value / sizeof *value; v++) {
            memcpy(b, old.at, old.len);
            put32(b + at, value[v]);
            check(given);
        }
    for (uint32_t kind = 0; kind < 40; kind++) {
        memcpy(b, old.at, old.len);
        put16(b + 2, kind);
        check(given);
    }
    *s = old;
}

static void vary_buffer(const struct call *given)
{
    struct call c = *given;
    size_t step = c.verb == POINTS_OF ? 4 : 1;
    for (c.out_len = 0; c.out_len <= least_buffer(c.verb) + step; c.out_len += step)
        check(&c);
    c.out_len = 4096;
    check(&c);
}

/* Every count of numbers up to 12; a wrong number at each place, and wrong ones at two places: the first decides. */
static void vary_points(const struct sample *s)
{
    uint32_t n[12], bad[12], q[2];
    random_points(s, n, 6);
    for (size_t count = 0; count <= 12; count++) {
        struct call c = sum_call(s, n, count);
        check(&c);
    }
    for (size_t at = 0; at < 12; at++)
        for (size_t other = 0; other < 12; other += 2) {
            struct call c = sum_call(s, bad, 12);
            memcpy(bad, n, sizeof n);
            bad[at] = s->k.p + random_below(2) * (UINT32_MAX - s->k.p);
            check(&c);
            if (!off_curve(&s->k, q))
                continue;
            memcpy(bad + other, q, sizeof q);
            check(&c);
            c.out_len = random_below(C34_BUFFER);
            check(&c);
        }
}

/* The counts around the limit, with points, and with a wrong number first. */
static void vary_count(const struct sample *s)
{
    static uint32_t n[ROOM];
    random_points(s, n, ROOM / 2);
    for (size_t count = LIMIT - 1; count <= LIMIT + 2; count++)
        for (int wrong = 0; wrong < 2; wrong++) {
            struct call c = sum_call(s, n, count);
            if (wrong)
                n[0] = s->k.p;
            check(&c);
            coordinates(s, 0, n);
        }
}

/* Every set of causes for a refusal: the first in the order of document 02 decides. */
static void sum_causes(const struct sample *s)
{
    uint8_t curve[C34_CURVE_LENGTH];
    uint32_t n[10], q[2];
    for (unsigned causes = 0; causes < 256; causes++) {
        struct call c = sum_call(s, n, 10);
        memcpy(curve, s->curve, sizeof curve);
        random_points(s, n, 5);
        c.curve.at = curve;
        if (causes & 1)
            put16(curve + 2, C34_FRACTIONS);
        if (causes & 2)
            put32(curve + 4, 4 * s->k.p);
        if (causes & 4)
            put32(curve + 8 + 4 * random_below(9), 5 * s->k.p);
        for (size_t i = 8; (causes & 8) && i < sizeof curve; i += 4)
            put32(curve + i, 0); /* y^3 + x^4 is singular */
        if (causes & 16)
            c.a.len -= 4;
        if (causes & 32)
            n[random_below(4)] = s->k.p;
        if ((causes & 64) && off_curve(&s->k, q))
            memcpy(n + 2 * random_below(4), q, sizeof q);
        if (causes & 128)
            c.out_len = random_below(C34_BUFFER);
        check(&c);
    }
}

/* The same for the points of a divisor. */
static void points_causes(const struct sample *s)
{
    static struct sample large;
    make_sample(&large, 65537, 4);
    for (unsigned causes = 0; causes < 64; causes++)
        for (unsigned i = 0; i < s->records; i += 1 + s->records / 8) {
            struct record r = s->record[i];
            struct call c = points_call(s, &r);
            if (causes & 1)
                c.curve.len--;
            if (causes & 2)
                c.curve.at = large.curve;
            if (causes & 4)
                put16(r.b + 2, 12);
            if (causes & 8)
                c.a.len--;
            if ((causes & 16) && r.len > 4)
                put32(r.b + 4 + 4 * random_below((uint32_t)r.len / 4 - 1), causes & 2 ? 65537 : s->k.p);
            if (causes & 32)
                c.out_len = 4 * random_below(6);
            check(&c);
        }
}

static void run_refusals(uint32_t p)
{
    static const uint32_t kinds[5] = {0, 11, 21, 22, 31};
    static struct sample s;
    uint32_t n[4];
    do
        make_sample(&s, p, RECORDS);
    while (s.points == 0 || !has_all_kinds(&s));
    random_points(&s, n, 2);
    struct call c = sum_call(&s, n, 4);
    vary_length(&c, &c.curve);
    vary_numbers(&c, &c.curve, p);
    vary_buffer(&c);
    vary_points(&s);
    vary_count(&s);
    sum_causes(&s);
    points_causes(&s);
    for (int i = 0; i < 5; i++) {
        c = points_call(&s, of_kind(&s, kinds[i]));
        if (i == 4)
            vary_length(&c, &c.curve);
        vary_length(&c, &c.a);
        vary_numbers(&c, &c.a, p);
        vary_buffer(&c);
    }
}

/* ---- points of a record, for any p ---- */

/* The polynomials of a record at x = a are quadratic in y: c[0] + c[1] y + c[2] y^2. */
struct in_y {
    uint32_t p, c[3][3];
    unsigned count;
};

static struct in_y at_x(const struct curve *k, const uint8_t *record, uint32_t a)
{
    uint32_t v[3][WIDTH], p = k->p;
    struct in_y q = {p, {{0}}, polynomials(record, v)};
    for (unsigned i = 0; i < q.count; i++) {
        uint32_t two = times(p, times(p, v[i][6], a), a);
        q.c[i][0] = (uint32_t)(((uint64_t)v[i][0] + times(p, v[i][3], a) + two) % p);
        q.c[i][1] = (uint32_t)(((uint64_t)v[i][4] + times(p, v[i][7], a)) % p);
        q.c[i][2] = v[i][8];
    }
    return q;
}

/* 1 if all are zero at y = b. */
static int vanish(const struct in_y *q, uint32_t b)
{
    for (unsigned i = 0; i < q->count; i++) {
        const uint32_t *c = q->c[i];
        uint64_t value = (uint64_t)c[0] + times(q->p, c[1], b) + times(q->p, times(q->p, c[2], b), b);
        if (value % q->p != 0)
            return 0;
    }
    return 1;
}

/* 1 if one of them is a nonzero constant. */
static int never(const struct in_y *q)
{
    for (unsigned i = 0; i < q->count; i++)
        if (q->c[i][0] != 0 && q->c[i][1] == 0 && q->c[i][2] == 0)
            return 1;
    return 0;
}

/* Where one of them is linear its root is the only place, else every y is tried: those from *from to before *to. */
static void places(const struct in_y *q, uint32_t *from, uint32_t *to)
{
    *from = 0;
    *to = q->p;
    for (unsigned i = 0; i < q->count; i++)
        if (q->c[i][1] != 0 && q->c[i][2] == 0) {
            *from = times(q->p, minus(q->p, 0, q->c[i][0]), inverse(q->p, q->c[i][1]));
            *to = *from + 1;
        }
}

struct pairs {
    unsigned count;
    uint32_t n[6];
};

/* Adds a common zero as often as its multiplicity. */
static void add_zero(const struct curve *k, const struct ideal *a, uint32_t x, uint32_t y, struct pairs *found)
{
    uint8_t record[C34_BUFFER];
    require(on_curve(k, x, y), "a common zero is off the curve", NULL);
    put_point(k, x, y, record);
    struct ideal point = ideal_of(k, record);
    unsigned m = multiplicity(k, a, &point);
    require(m > 0 && found->count + m <= 3, "a common zero has a wrong multiplicity", NULL);
    for (; m > 0; m--, found->count++) {
        found->n[2 * found->count] = x;
        found->n[2 * found->count + 1] = y;
    }
}

/* The points of a record: the common zeros of its polynomials. */
static struct pairs zeros_of(const struct curve *k, const uint8_t *record)
{
    struct pairs found = {0, {0}};
    struct ideal a = ideal_of(k, record);
    for (uint32_t x = 0; x < k->p; x++) {
        struct in_y q = at_x(k, record, x);
        uint32_t y, to;
        if (never(&q))
            continue;
        for (places(&q, &y, &to); y < to; y++)
            if (vanish(&q, y))
                add_zero(k, &a, x, y, &found);
    }
    return found;
}

/* ---- answers ---- */

static unsigned degree(const struct record *r)
{
    return get16(r->b + 2) / 10;
}

/* The call on the record gives these pairs, which rise. */
static void check_pairs(const struct sample *s, const struct record *r, const struct pairs *q)
{
    static uint8_t want[4 * 8];
    struct call c = points_call(s, r);
    c.out_len = sizeof want;
    memset(want, FILL, sizeof want);
    memcpy(want, q->n, 8 * q->count);
    check_both(&c, (int32_t)q->count, want);
}

/* The sum of the points of a record is the record, where they are as many as its degree. */
static void check_round_trip(const struct sample *s, const struct record *r, const struct pairs *q)
{
    uint8_t want[C34_BUFFER];
    struct call c = sum_call(s, q->n, 2 * q->count);
    if (q->count != degree(r))
        return;
    memset(want, FILL, sizeof want);
    memcpy(want, r->b, r->len);
    check_both(&c, (int32_t)r->len, want);
    trips++;
}

/* Lists with a point thrice, twice, twice with another behind it, and with different points of one x. */
static void count_cases(const struct pairs *q)
{
    const uint32_t *n = q->n;
    int first = q->count > 1 && memcmp(n, n + 2, 8) == 0, second = q->count > 2 && memcmp(n + 2, n + 4, 8) == 0;
    triples += first && second;
    doubles += first != second;
    followed += first && q->count > 2 && !second;
    above += (q->count > 1 && !first && n[0] == n[2]) || (q->count > 2 && !second && n[2] == n[4]);
}

/* Where all pairs can be tried, the definition decides; it agrees with the common zeros. */
static void check_record(const struct sample *s, const struct record *r)
{
    struct pairs q = zeros_of(&s->k, r->b);
    if (s->k.p <= TRIED) {
        struct call c = points_call(s, r);
        check(&c);
    }
    check_pairs(s, r, &q);
    check_round_trip(s, r, &q);
    count_cases(&q);
}

/* A sum of one, two or three points, where no fewer give it, has these points. */
static void check_made(const struct sample *s, unsigned count)
{
    struct pairs q = {count, {0}};
    struct record r;
    random_points(s, q.n, count);
    qsort(q.n, count, 8, by_coordinates);
    struct call c = sum_call(s, q.n, 2 * count);
    c.out = r.b;
    r.len = (size_t)by_definition(&c);
    if (degree(&r) == count) {
        check_pairs(s, &r, &q);
        check_round_trip(s, &r, &q);
        count_cases(&q);
    }
}

/* Random sums, and points of records. */
static void run_answers(uint32_t p, int rounds, unsigned records)
{
    static struct sample s;
    static uint32_t n[ROOM];
    for (int i = 0; i < rounds; i++) {
        make_sample(&s, p, records);
        for (unsigned j = 0; j < s.records; j++)
            if (p <= LAST_SCANNED)
                check_record(&s, &s.record[j]);
        for (unsigned pairs = 0; s.points > 0 && pairs < 12; pairs++) {
            random_points(&s, n, pairs);
            struct call c = sum_call(&s, n, 2 * pairs);
            check(&c);
            if (p <= LAST_SCANNED)
                check_made(&s, 1 + pairs % 3);
        }
    }
}

/* Moduli above the limit: points are added, but not listed. */
static void run_large(uint32_t p)
{
    static struct sample s;
    make_sample(&s, p, 12);
    vary_points(&s);
    vary_count(&s);
    sum_causes(&s);
    for (unsigned i = 0; i < s.records; i++) {
        struct call c = points_call(&s, &s.record[i]);
        require(check(&c) == -14, "a large modulus is not refused", &c);
    }
}

int main(int argc, char **argv)
{
    static const uint32_t few[] = {2, 5, 13}, small[] = {2, 3, 5, 7, 11, 13, 101}, large[] = {65537, 2147483647};
    int rounds = argc > 1 ? atoi(argv[1]) : 4;
    seed(202602);
    make_pages();
    for (int i = 0; i < 3; i++)
        run_refusals(few[i]);
    for (int i = 0; i < 2; i++)
        run_large(large[i]);
    printf("points: %ld sums and %ld lists of points between guard pages agree; refused by number 1 to %d:",
           made[POINTS_SUM], made[POINTS_OF], REFUSALS);
    for (int e = 1; e <= REFUSALS; e++)
        printf(" %ld", refused[e]);
    printf("\n");
    for (int e = 1; e <= REFUSALS; e++)
        require(refused[e] > 0 || (e > C34_REFUSED_BUFFER && e < REFUSALS), "a refusal was never met", NULL);
    made[POINTS_SUM] = made[POINTS_OF] = 0;
    for (int i = 0; i < 7; i++)
        run_answers(small[i], small[i] < 100 ? 4 * rounds : rounds, RECORDS);
    run_answers(LAST_SCANNED, rounds, 8);
    for (int i = 0; i < 2; i++)
        run_answers(large[i], rounds, 4);
    printf("points: %ld random sums and %ld lists agree, %ld lists with a point twice, %ld of them with another behind it, "
           "%ld thrice, %ld with different points of one x; %ld round trips\n",
           made[POINTS_SUM], made[POINTS_OF], doubles, followed, triples, above, trips);
    require(doubles > 0 && followed > 0 && triples > 0 && above > 0 && trips > 0, "a case was never met", NULL);
    return 0;
}
