/* What the tests of the archive share.

   call         one call of the library as data: the verb and its arguments
   by_library   makes it by libc34.a
   put_record   a record as bytes
   random_below the next number of a fixed sequence
   require      ends the program with a message if a condition fails */
#ifndef CALL_H
#define CALL_H
#include "c34.h"
#include <stddef.h>
#include <stdint.h>

enum verb {
    CHECK_CURVE,
    CHECK_DIVISOR,
    SUM,
    DOUBLE,
    NEGATIVE,
    MULTIPLE,
    LIST_SUM,
    COMPARE,
    COUNT,
    REDUCE_CURVE,
    COMPARE_WORDS,
    COMMON_PART,
    COMMON_MULTIPLE,
    SUM_BY_PARTS,
    QUICK_SUM,
    QUICK_DOUBLE,
    QUICK_SERVES,
    SHORTEN,
    LENGTHEN,
    VERBS, /* those before are calls of libc34.a, those after of the archive of bench_points */
    POINTS_SUM,
    POINTS_OF,
    ALL_VERBS
};

struct slice {
    const uint8_t *at;
    size_t len;
};

struct call {
    enum verb verb;
    struct slice curve; /* for REDUCE_CURVE the fractions */
    struct slice a;     /* the divisor, the first divisor or the list; for LENGTHEN the short record, for POINTS_SUM
                           the numbers */
    struct slice b;     /* the second divisor, for the verbs that take two */
    int64_t n;          /* for MULTIPLE */
    uint32_t kind;      /* for COUNT */
    uint32_t p;         /* for REDUCE_CURVE */
    uint8_t *out;       /* the result buffer of the verbs that write; for POINTS_OF the slice of numbers */
    size_t out_len;     /* in bytes, as all lengths here */
};

extern const char *const verb_name[ALL_VERBS];

int writes(enum verb verb);
int takes_list(enum verb verb);
int takes_two(enum verb verb);
int compares(enum verb verb);
/* How many slices the verb reads: 1 is the curve or the fractions, 2 also a, 3 also b. */
int slices_read(enum verb verb);
/* The least result buffer that the verb takes, 0 if it writes nothing. */
size_t least_buffer(enum verb verb);

int32_t by_library(const struct call *c);

/* ---- bytes ---- */

uint32_t get16(const uint8_t *b);
uint32_t get32(const uint8_t *b);
void put16(uint8_t *b, uint32_t a);
void put32(uint8_t *b, uint32_t a);

/* How many numbers a record of the kind has, curves and fractions included; -1 for a number that is no kind. */
int numbers_of(uint32_t kind);
/* Writes the record and returns its length. */
size_t put_record(uint8_t *b, uint32_t kind, const uint32_t *numbers);
size_t put_curve(uint8_t *b, uint32_t p, const uint32_t c[9]);

/* ---- the fixed sequence ---- */

void seed(uint64_t s);
uint32_t random32(void);
uint32_t random_below(uint32_t n);

/* ---- failing ---- */

/* Prints a call with its bytes. */
void show(const struct call *c);
void require(int condition, const char *what, const struct call *c);

#endif
