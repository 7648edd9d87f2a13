/* What the tests of the archive share, all but the calls of the archive itself: see call.h. */
#include "call.h"
#include <stdio.h>
#include <stdlib.h>

const char *const verb_name[ALL_VERBS] = {"curve", "divisor", "sum",     "double", "neg",  "mul",   "lsum",
                                          "cmp",   "count",   "frac",    "words",  "gcd",  "lcm",   "road",
                                          "qsum",  "qdouble", "qserves", "short",  "long", "",      "psum",
                                          "points"};

int writes(enum verb verb)
{
    return least_buffer(verb) > 0;
}

int takes_list(enum verb verb)
{
    return verb == LIST_SUM || verb == COUNT;
}

int compares(enum verb verb)
{
    return verb == COMPARE || verb == COMPARE_WORDS;
}

int takes_two(enum verb verb)
{
    return verb == SUM || verb == COMMON_PART || verb == COMMON_MULTIPLE || verb == SUM_BY_PARTS || verb == QUICK_SUM ||
           verb == QUICK_SERVES || compares(verb);
}

int slices_read(enum verb verb)
{
    return verb == CHECK_CURVE || verb == REDUCE_CURVE ? 1 : takes_two(verb) ? 3 : 2;
}

size_t least_buffer(enum verb verb)
{
    switch (verb) {
    case SUM:
    case DOUBLE:
    case NEGATIVE:
    case MULTIPLE:
    case LIST_SUM:
    case COMMON_PART:
    case COMMON_MULTIPLE:
    case SUM_BY_PARTS:
    case QUICK_SUM:
    case QUICK_DOUBLE:
    case SHORTEN:
    case LENGTHEN:
    case POINTS_SUM:
        return 40;
    case REDUCE_CURVE:
        return 44;
    case POINTS_OF:
        return 24;
    default:
        return 0;
    }
}

/* ---- bytes ---- */

uint32_t get16(const uint8_t *b)
{
    return b[0] + 256u * b[1];
}

uint32_t get32(const uint8_t *b)
{
    return get16(b) + 65536u * get16(b + 2);
}

void put16(uint8_t *b, uint32_t a)
{
    b[0] = (uint8_t)(a % 256);
    b[1] = (uint8_t)(a / 256 % 256);
}

void put32(uint8_t *b, uint32_t a)
{
    put16(b, a % 65536);
    put16(b + 2, a / 65536);
}

int numbers_of(uint32_t kind)
{
    static const struct {
        uint32_t kind;
        int numbers;
    } known[] = {{0, 0}, {11, 2}, {21, 4}, {22, 3}, {31, 9}, {34, 10}, {36, 18}};
    for (unsigned i = 0; i < sizeof known / sizeof *known; i++)
        if (known[i].kind == kind)
            return known[i].numbers;
    return -1;
}

size_t put_record(uint8_t *b, uint32_t kind, const uint32_t *numbers)
{
    int m = numbers_of(kind);
    put16(b, 4 + 4 * (uint32_t)m);
    put16(b + 2, kind);
    for (int i = 0; i < m; i++)
        put32(b + 4 + 4 * i, numbers[i]);
    return 4 + 4 * (size_t)m;
}

size_t put_curve(uint8_t *b, uint32_t p, const uint32_t c[9])
{
    uint32_t numbers[10] = {p};
    for (int i = 0; i < 9; i++)
        numbers[i + 1] = c[i];
    return put_record(b, C34_CURVE, numbers);
}

/* ---- the fixed sequence: splitmix64 ---- */

static uint64_t state;

void seed(uint64_t s)
{
    state = s;
}

uint32_t random32(void)
{
    uint64_t z = state += 0x9E3779B97F4A7C15u;
    z = (z ^ (z >> 30)) * 0xBF58476D1CE4E5B9u;
    z = (z ^ (z >> 27)) * 0x94D049BB133111EBu;
    return (uint32_t)((z ^ (z >> 31)) >> 32);
}

uint32_t random_below(uint32_t n)
{
    return (uint32_t)((uint64_t)random32() * n >> 32);
}

/* ---- failing ---- */

static void show_slice(const char *name, struct slice s)
{
    printf(" %s[%zu]=", name, s.len);
    for (size_t i = 0; i < s.len && i < 200; i++)
        printf("%02x", s.at[i]);
}

void show(const struct call *c)
{
    printf("%s", verb_name[c->verb]);
    show_slice(c->verb == REDUCE_CURVE ? "fractions" : "curve", c->curve);
    if (slices_read(c->verb) > 1)
        show_slice("a", c->a);
    if (slices_read(c->verb) > 2)
        show_slice("b", c->b);
    printf(" n=%lld kind=%u p=%u buffer=%zu\n", (long long)c->n, c->kind, c->p, c->out_len);
}

void require(int condition, const char *what, const struct call *c)
{
    if (condition)
        return;
    printf("FAILED: %s\n", what);
    if (c != NULL)
        show(c);
    exit(1);
}
