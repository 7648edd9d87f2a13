/* What two divisors have in common, on every pair of accepted records, in either order, on each nonsingular curve over
   F_2 and on E. The library's common part and common multiple are those of the independent implementation; the two have
   the sum of the pair; and the sum by parts is the sum. All is compared byte for byte. */
#include "records.h"
#include <stdio.h>

static uint8_t curve[C34_CURVE_LENGTH];
static long parts[C34_KIND_31 + 1]; /* by kind, how many common parts have it */
static long inside, equal;          /* pairs where the common part, not zero, is one of the two, and equal ones */

static void check(const struct record *a, const struct record *b)
{
    struct call shown = {.verb = SUM, .curve = {curve, sizeof curve}, .a = slice_of_record(a), .b = slice_of_record(b)};
    struct record part = made_of(COMMON_PART, curve, a, b, by_library);
    struct record multiple = made_of(COMMON_MULTIPLE, curve, a, b, by_library);
    struct record sum = made_of(SUM, curve, a, b, by_library);
    struct record by_parts = made_of(SUM_BY_PARTS, curve, a, b, by_library);
    struct record both = made_of(SUM, curve, &multiple, &part, by_library);
    struct record want_part = made_of(COMMON_PART, curve, a, b, answer_of);
    struct record want = made_of(COMMON_MULTIPLE, curve, a, b, answer_of);
    require(same(&part, &want_part), "the common part is another", &shown);
    require(same(&multiple, &want), "the common multiple is another", &shown);
    require(same(&both, &sum), "common multiple and common part have another sum", &shown);
    require(same(&by_parts, &sum), "the sum by parts is another", &shown);
    parts[get16(part.b + 2)]++;
    equal += same(a, b);
    inside += !same(a, b) && part.len > 4 && (same(&part, a) || same(&part, b));
}

/* All pairs; their number is returned, 0 for a singular curve. */
static unsigned check_curve(const struct curve *k)
{
    static struct record r[CLASSES];
    unsigned count = nonsingular(k) ? all_records(k, r) : 0;
    put_curve(curve, k->p, k->c);
    for (unsigned i = 0; i < count * count; i++)
        check(&r[i / count], &r[i % count]);
    return count * count;
}

int main(void)
{
    static const uint32_t kinds[5] = {0, 11, 21, 22, 31};
    const struct curve E = {5, {1, 0, 0, 0, 0, 0, 0, 0, 0}};
    unsigned curves = 0, pairs = 0;
    for (uint32_t bits = 0; bits < 512; bits++) {
        struct curve k = over_two(bits);
        unsigned count = check_curve(&k);
        curves += count > 0;
        pairs += count;
    }
    unsigned on_e = check_curve(&E);
    printf("overlap: all %u pairs on %u curves over F_2 and all %u on E agree; common parts of kind 0, 11, 21, 22, 31:",
           pairs, curves, on_e);
    for (int i = 0; i < 5; i++)
        printf(" %ld", parts[kinds[i]]);
    printf("; %ld equal pairs, %ld where one divisor, not zero, lies inside the other\n", equal, inside);
    for (int i = 0; i < 5; i++)
        require(parts[kinds[i]] > 0, "no common part has a kind", NULL);
    return 0;
}
