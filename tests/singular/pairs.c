/* Prints the left sides of pairs.txt: random pairs of records from a fixed seed, a third of them equal, opposite,
   overlapping or with a zero class; some negatives. tests/singular/make adds what Singular answers. */
#include "../sample.h"
#include <stdio.h>

enum { CURVES = 12, EACH = 50 };

static void print_record(const uint8_t *b)
{
    uint32_t kind = get16(b + 2);
    printf(" %u:", kind);
    for (int i = 0; i < numbers_of(kind); i++)
        printf(i == 0 ? "%u" : ",%u", get32(b + 4 + 4 * i));
}

static void print_sample(const struct sample *s)
{
    for (int i = 0; i < EACH; i++) {
        struct record a, b;
        pick_pair(s, &a, &b);
        int negative = random_below(10) == 0;
        printf(negative ? "neg" : "sum");
        if (i == 0)
            print_record(s->curve);
        else
            printf(" \"");
        print_record(a.b);
        if (!negative)
            print_record(b.b);
        printf(" 40\n");
    }
}

int main(void)
{
    static const uint32_t primes[] = {2, 3, 5, 101, 2147483647};
    static struct sample s;
    seed(1234);
    for (int i = 0; i < 5; i++)
        for (int k = 0; k < CURVES; k++) {
            make_sample(&s, primes[i], RECORDS);
            print_sample(&s);
        }
    return 0;
}
