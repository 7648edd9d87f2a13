/* Curves and divisors to test with, made by the independent implementation.

   sample        a nonsingular curve with some points and accepted records on it
   make_sample   a random one
   of_kind       the first record of the sample that has the kind, NULL for none
   pick          a record of the sample
   pick_pair     two records of the sample, one time in three a degenerate pair
   same          1 if two records have the same bytes
   made_of       the record that a call writes
   short_of      the short form of a record
   put_fractions fractions that give the sample's curve modulo its p */
#ifndef SAMPLE_H
#define SAMPLE_H
#include "independent.h"

enum { POINTS = 16, RECORDS = 48, PAIRS = 32 };

struct record {
    uint8_t b[C34_BUFFER];
    size_t len;
};

struct sample {
    uint8_t curve[C34_CURVE_LENGTH];
    struct curve k;
    unsigned points, records;
    struct record point[POINTS], record[RECORDS]; /* the first records are the points and the zero class */
    struct record pair[PAIRS][2];                 /* equal, opposite, overlapping, or with a zero class */
};

struct slice slice_of_curve(const struct sample *s);
struct slice slice_of_record(const struct record *r);

/* For a large p the curve is laid through three random points; for a small one points are searched. */
void make_sample(struct sample *s, uint32_t p, unsigned records);

const struct record *of_kind(const struct sample *s, uint32_t kind);
/* Has it a record of each of the kinds 11, 21, 22 and 31? */
int has_all_kinds(const struct sample *s);
const struct record *pick(const struct sample *s);
struct record sum_of(const struct sample *s, const struct record *a, const struct record *b);
struct record negative_of(const struct sample *s, const struct record *a);
void pick_pair(const struct sample *s, struct record *a, struct record *b);
int same(const struct record *a, const struct record *b);
/* Of two accepted records on an accepted curve; by_library or answer_of makes the call. */
struct record made_of(enum verb verb, const uint8_t *curve, const struct record *a, const struct record *b,
                      int32_t (*by)(const struct call *));
struct record short_of(uint32_t p, const struct record *a);

/* A random denominator that p does not divide, large or small. */
uint32_t random_denominator(uint32_t p);
/* Random ones, with large and small numbers; the record's length is returned. */
size_t put_fractions(const struct sample *s, uint8_t *record);

#endif
