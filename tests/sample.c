/* Curves and divisors to test with: see sample.h. */
#include "sample.h"
#include <string.h>

enum { SEARCHED = 2000 }; /* up to this p all y are tried for a point */

struct slice slice_of_curve(const struct sample *s)
{
    return (struct slice){s->curve, C34_CURVE_LENGTH};
}

struct slice slice_of_record(const struct record *r)
{
    return (struct slice){r->b, r->len};
}

int same(const struct record *a, const struct record *b)
{
    return a->len == b->len && memcmp(a->b, b->b, a->len) == 0;
}

struct record made_of(enum verb verb, const uint8_t *curve, const struct record *a, const struct record *b,
                      int32_t (*by)(const struct call *))
{
    struct record r;
    struct call c = {.verb = verb, .curve = {curve, C34_CURVE_LENGTH}, .out = r.b, .out_len = sizeof r.b};
    c.a = slice_of_record(a);
    c.b = slice_of_record(b);
    int32_t length = by(&c);
    require(length > 0 && length <= C34_BUFFER, "two accepted records are refused", &c);
    r.len = (size_t)length;
    return r;
}

struct record short_of(uint32_t p, const struct record *a)
{
    struct record r;
    r.len = shorten(p, a->b, r.b);
    return r;
}

/* ---- points ---- */

static uint32_t power(uint32_t p, uint32_t a, unsigned n)
{
    uint32_t r = 1 % p;
    while (n-- > 0)
        r = times(p, r, a);
    return r;
}

/* F at (x, y) without the terms below `from` (1 leaves out none but c0, and so on). */
static uint32_t value(const struct curve *k, uint32_t x, uint32_t y, int from)
{
    uint32_t r = 0;
    for (int t = 0; t < TERMS; t++)
        if (t == 0 || t > from) {
            uint32_t m = times(k->p, power(k->p, x, term_x[t]), power(k->p, y, term_y[t]));
            r = (uint32_t)(((uint64_t)term(k, t) * m + r) % k->p);
        }
    return r;
}

static struct record point_record(const struct curve *k, uint32_t x, uint32_t y)
{
    struct record r;
    r.len = put_point(k, x, y, r.b);
    return r;
}

static void add_point(struct sample *s, uint32_t x, uint32_t y)
{
    if (s->points < POINTS)
        s->point[s->points++] = point_record(&s->k, x, y);
}

/* All points for p below 10, some for larger p. */
static void search_points(struct sample *s)
{
    uint32_t p = s->k.p, tried = p < 200 ? p : 200;
    for (uint32_t i = 0; i < tried && s->points < POINTS; i++) {
        uint32_t x = p < 10 ? i : random_below(p);
        for (uint32_t y = 0; y < p && y < SEARCHED; y++)
            if (value(&s->k, x, y, 0) == 0)
                add_point(s, x, y);
    }
}

/* Sets c0, c1 and c2 such that three points are on the curve; 0 if these points are on a line. */
static int through_three_points(struct curve *k, const uint32_t x[3], const uint32_t y[3])
{
    uint32_t rows[4][8] = {{0}}, *row[4] = {rows[0], rows[1], rows[2], rows[3]};
    for (unsigned i = 0; i < 3; i++) {
        rows[0][i] = value(k, x[i], y[i], 3); /* all terms but c0, c1 x and c2 y */
        rows[1][i] = 1;
        rows[2][i] = x[i];
        rows[3][i] = y[i];
    }
    for (unsigned i = 0; i < 4; i++)
        rows[i][3 + i] = 1;
    if (kernel(k->p, row, 4, 3) != 1 || row[0][3] == 0)
        return 0;
    uint32_t t = inverse(k->p, row[0][3]);
    for (unsigned i = 0; i < 3; i++)
        k->c[i] = times(k->p, t, row[0][4 + i]);
    return 1;
}

/* ---- records ---- */

static struct record written(const struct curve *k, const struct ideal *a)
{
    struct record r;
    r.len = record_of(k, a, r.b);
    return r;
}

struct record sum_of(const struct sample *s, const struct record *a, const struct record *b)
{
    struct ideal i = ideal_of(&s->k, a->b), j = ideal_of(&s->k, b->b), product_ideal = product(&s->k, &i, &j);
    struct ideal r = reduced(&s->k, &product_ideal);
    return written(&s->k, &r);
}

struct record negative_of(const struct sample *s, const struct record *a)
{
    struct ideal i = ideal_of(&s->k, a->b), r = star(&s->k, &i);
    return written(&s->k, &r);
}

const struct record *pick(const struct sample *s)
{
    return &s->record[random_below(s->records)];
}

/* A record of random numbers that is a basis: such may have no point with coordinates in the field. Few numbers are, so
   kind 31 is tried over the smallest fields only; the zero class if none is found. */
static struct record found(const struct sample *s)
{
    static const uint32_t kinds[3] = {21, 22, 31};
    uint32_t kind = kinds[random_below(s->k.p < 5 ? 3 : 2)], numbers[9];
    struct record r;
    for (int tries = 0; tries < 2000; tries++) {
        for (int i = 0; i < 9; i++)
            numbers[i] = random_below(s->k.p);
        r.len = put_record(r.b, kind, numbers);
        if (is_basis(&s->k, r.b))
            return r;
    }
    r.len = put_record(r.b, C34_ZERO, NULL);
    return r;
}

/* The points, the zero class, then sums of what is there with a point, negatives, and records found at small p. */
static void fill_records(struct sample *s, unsigned records)
{
    s->records = 0;
    for (unsigned i = 0; i < s->points; i++)
        s->record[s->records++] = s->point[i];
    s->record[s->records].len = put_record(s->record[s->records].b, C34_ZERO, NULL);
    s->records++;
    while (s->records < records) {
        struct record r = s->k.p < 12 && random_below(3) == 0 ? found(s) : *pick(s);
        if (s->points > 0 && random_below(4) > 0)
            r = sum_of(s, &r, &s->point[random_below(s->points)]);
        s->record[s->records++] = random_below(4) == 0 ? negative_of(s, &r) : r;
    }
}

/* A pair that is equal, opposite, overlapping or has a zero class in it. */
static void degenerate(const struct sample *s, struct record *a, struct record *b)
{
    *a = *pick(s);
    *b = *a;
    switch (random_below(s->points > 0 ? 6 : 3)) {
    case 0:
        return; /* equal */
    case 1:
        *b = negative_of(s, a);
        return;
    case 2:
        b->len = put_record(b->b, C34_ZERO, NULL);
        return;
    case 3: /* a point and the same point with more */
        *b = s->point[random_below(s->points)];
        *a = sum_of(s, b, &s->point[random_below(s->points)]);
        return;
    case 4: /* a record and twice it */
        *b = sum_of(s, a, a);
        return;
    default: /* two that share a point */
        *a = s->point[random_below(s->points)];
        *b = sum_of(s, a, pick(s));
        *a = sum_of(s, a, &s->point[random_below(s->points)]);
    }
}

static void fill_pairs(struct sample *s)
{
    for (unsigned i = 0; i < PAIRS; i++)
        degenerate(s, &s->pair[i][0], &s->pair[i][1]);
}

void pick_pair(const struct sample *s, struct record *a, struct record *b)
{
    unsigned i = random_below(3 * PAIRS);
    *a = i < PAIRS ? s->pair[i][0] : *pick(s);
    *b = i < PAIRS ? s->pair[i][1] : *pick(s);
}

/* ---- fractions ---- */

uint32_t random_denominator(uint32_t p)
{
    uint32_t d;
    do
        d = random_below(2) == 0 ? random32() : 1 + random_below(9);
    while (d % p == 0);
    return d;
}

/* A number with residue r modulo p that lies between r and a random number, large or small, which may be negative. */
static uint32_t random_numerator(uint32_t p, uint32_t r)
{
    int64_t to = random_below(2) == 0 ? (int64_t)random32() - 2147483648 : (int64_t)random_below(19) - 9;
    return (uint32_t)(r + (to - r) / p * p);
}

size_t put_fractions(const struct sample *s, uint8_t *record)
{
    uint32_t numbers[18];
    for (int i = 0; i < 9; i++) {
        uint32_t d = random_denominator(s->k.p);
        numbers[2 * i] = random_numerator(s->k.p, times(s->k.p, s->k.c[i], d % s->k.p));
        numbers[2 * i + 1] = d;
    }
    return put_record(record, C34_FRACTIONS, numbers);
}

/* ---- samples ---- */

static void set_curve(struct sample *s, const struct curve *k)
{
    s->k = *k;
    s->points = 0;
    put_curve(s->curve, k->p, k->c);
}

static void random_coefficients(struct curve *k)
{
    int short_form = random_below(3) == 0; /* some coefficients 0, as in most papers */
    for (unsigned i = 0; i < 9; i++)
        k->c[i] = short_form && i > 4 && i != 7 ? 0 : random_below(k->p);
}

/* A random curve through three points that are not on a line. */
static void make_sample_through(struct sample *s, uint32_t p, const uint32_t x[3], const uint32_t y[3],
                                unsigned records)
{
    struct curve k = {p, {0}};
    do
        random_coefficients(&k);
    while (!through_three_points(&k, x, y) || !nonsingular(&k));
    set_curve(s, &k);
    for (unsigned i = 0; i < 3; i++)
        add_point(s, x[i], y[i]);
    fill_records(s, records);
    fill_pairs(s);
}

void make_sample(struct sample *s, uint32_t p, unsigned records)
{
    struct curve k = {p, {0}};
    uint32_t x[3], y[3];
    for (unsigned i = 0; i < 3; i++) {
        x[i] = random_below(p);
        y[i] = random_below(p);
    }
    if (p > SEARCHED) {
        make_sample_through(s, p, x, y, records);
        return;
    }
    do
        random_coefficients(&k);
    while (!nonsingular(&k));
    set_curve(s, &k);
    search_points(s);
    fill_records(s, records);
    fill_pairs(s);
}

const struct record *of_kind(const struct sample *s, uint32_t kind)
{
    for (unsigned i = 0; i < s->records; i++)
        if (get16(s->record[i].b + 2) == kind)
            return &s->record[i];
    return NULL;
}

int has_all_kinds(const struct sample *s)
{
    return of_kind(s, 11) && of_kind(s, 21) && of_kind(s, 22) && of_kind(s, 31);
}
