/* The quick sum and the quick double, the sum and the double: all are, byte for byte, the sum by parts, which takes
   another way. Whether the formulas serve is held against the independent decision.
     random pairs   1,000 disjoint typical ones at p = 2147483647 on curves with c5, c6 and c8 zero: the formulas serve
                    for 990 sums and 990 doubles at least; and 1,000 on curves of another form
     sequences      terms 1000 and 100000 of D1, D2, D1 + D2, ... and of D1, 2 D1, 4 D1, ... on the curve of source
                    document 002, section 12.3
     all pairs      of accepted records, in either order, on every nonsingular curve over F_2 and on curves over F_3,
                    F_5 and F_7, with c5, c6 and c8 zero and not */
#include "records.h"
#include <stdio.h>
#include <string.h>
#include <time.h>

static uint8_t curve[C34_CURVE_LENGTH];

/* ---- one pair ---- */

static struct record made(enum verb verb, const struct record *a, const struct record *b)
{
    return made_of(verb, curve, a, b, by_library);
}

static struct call serves_call(const struct record *a, const struct record *b)
{
    return (struct call){QUICK_SERVES, {curve, sizeof curve}, slice_of_record(a), slice_of_record(b), .out_len = 0};
}

/* All calls that add agree; 1 if the formulas serve, by the library, else 0. */
static int check(const struct record *a, const struct record *b)
{
    struct call c = serves_call(a, b);
    struct record want = made(SUM_BY_PARTS, a, b), sum = made(SUM, a, b), quick = made(QUICK_SUM, a, b);
    require(same(&sum, &want), "the sum is not the sum by parts", &c);
    require(same(&quick, &want), "the quick sum is not the sum by parts", &c);
    if (same(a, b)) {
        struct record twice = made(DOUBLE, a, a), quick_twice = made(QUICK_DOUBLE, a, a);
        require(same(&twice, &want), "the double is not the sum by parts", &c);
        require(same(&quick_twice, &want), "the quick double is not the sum by parts", &c);
    }
    int32_t answer = by_library(&c);
    require(answer == 0 || answer == 1, "c34_quick_serves gives neither 0 nor 1", &c);
    return answer;
}

/* The same; the answer is the independent decision too. */
static int check_decision(const struct curve *k, const struct record *a, const struct record *b)
{
    struct call c = serves_call(a, b);
    int answer = check(a, b);
    require(answer == serves(k, a->b, b->b), "c34_quick_serves differs from the independent decision", &c);
    return answer;
}

/* ---- random pairs ---- */

enum { RANDOM_CURVES = 10, RANDOM_PAIRS = 1000, LEAST = 990 };

static struct record random_multiple(const struct record *a)
{
    struct record r;
    struct call c = {.verb = MULTIPLE, .curve = {curve, sizeof curve}, .out = r.b, .out_len = sizeof r.b};
    c.a = slice_of_record(a);
    c.n = (int64_t)((uint64_t)random32() << 32 | random32());
    int32_t length = by_library(&c);
    require(length > 0, "a point is refused", &c);
    r.len = (size_t)length;
    return r;
}

/* A sum of random multiples of the three points, drawn again until it is typical. */
static struct record random_typical(const struct sample *s)
{
    struct record r;
    do {
        r = random_multiple(&s->point[0]);
        for (unsigned i = 1; i < s->points; i++) {
            struct record more = random_multiple(&s->point[i]);
            r = made(SUM_BY_PARTS, &r, &more);
        }
    } while (!is_typical(r.b));
    return r;
}

/* On curves with c5, c6 and c8 zero, or on others. */
static void run_random(int short_form)
{
    static struct sample s;
    int sums = 0, doubles = 0;
    for (int i = 0; i < RANDOM_PAIRS;) {
        if (i % (RANDOM_PAIRS / RANDOM_CURVES) == 0) {
            do
                make_sample(&s, 2147483647, POINTS);
            while (is_short(&s.k) != short_form);
            memcpy(curve, s.curve, sizeof curve);
        }
        struct record a = random_typical(&s), b = random_typical(&s), part = made(COMMON_PART, &a, &b);
        if (get16(part.b + 2) != C34_ZERO)
            continue;
        sums += check_decision(&s.k, &a, &b);
        doubles += check_decision(&s.k, &a, &a);
        i++;
    }
    printf("quick: %d random disjoint typical pairs on %d curves %s agree; %d sums and %d doubles are served\n",
           RANDOM_PAIRS, RANDOM_CURVES, short_form ? "with c5, c6 and c8 zero" : "of another form", sums, doubles);
    require(!short_form || (sums >= LEAST && doubles >= LEAST), "the formulas serve for too few pairs", NULL);
}

/* ---- sequences ---- */

static const struct curve paper = {268435399, {65135542, 63973501, 56254855, 248132507, 141962734, 0, 0, 154267501, 0}};
static const uint32_t d1[9] = {235998213, 26531881, 210235455, 255282327, 87572390,
                               146578381, 13450942, 210148245, 9642394};
static const uint32_t d2[9] = {64403020,  200985767, 176922400, 97210118, 146832683,
                               176410447, 246544812, 257391833, 43402044};
static const struct {
    int term;
    uint32_t fibonacci[9], doubling[9];
} known[2] = {{1000,
               {182177383, 259135969, 147974876, 66490817, 139303654, 160273811, 117244707, 35821711, 252718343},
               {57608037, 174789285, 38201215, 263599240, 159904917, 209475238, 213256843, 198944248, 126583348}},
              {100000,
               {226097682, 14867583, 248661167, 91971055, 58240935, 250816897, 76986126, 3335946, 46935855},
               {164263149, 82901221, 64495473, 98273313, 51365327, 195844460, 35560876, 137166019, 930776}}};

static struct record of_kind_31(const uint32_t numbers[9])
{
    struct record r;
    r.len = put_record(r.b, C34_KIND_31, numbers);
    return r;
}

static void run_sequences(void)
{
    struct record a = of_kind_31(d1), b = of_kind_31(d2), twice = a;
    int at = 2, at_twice = 1;
    put_curve(curve, paper.p, paper.c);
    for (int i = 0; i < 2; i++) {
        struct record want = of_kind_31(known[i].fibonacci), want_twice = of_kind_31(known[i].doubling);
        for (; at < known[i].term; at++) {
            struct record next = made(QUICK_SUM, &a, &b);
            a = b;
            b = next;
        }
        for (; at_twice < known[i].term; at_twice++)
            twice = made(QUICK_DOUBLE, &twice, &twice);
        require(same(&b, &want), "a term of the Fibonacci sequence is another", NULL);
        require(same(&twice, &want_twice), "a term of the doubling sequence is another", NULL);
    }
    printf("quick: terms %d and %d of both sequences are right\n", known[0].term, known[1].term);
}

/* ---- all pairs ---- */

static struct {
    long curves, pairs, typical; /* typical: pairs of typical records on a curve with c5, c6, c8 zero and p above 3 */
    long sums, doubles;          /* for which the formulas serve: of different records, of equal ones */
} done;

static void check_curve(const struct curve *k)
{
    static struct record r[CLASSES];
    unsigned count = all_records(k, r);
    put_curve(curve, k->p, k->c);
    for (unsigned i = 0; i < count; i++)
        for (unsigned j = 0; j <= i; j++) {
            int answer = check_decision(k, &r[i], &r[j]), other = i == j ? answer : check(&r[j], &r[i]);
            int both_typical = is_short(k) && is_typical(r[i].b) && is_typical(r[j].b);
            require(other == answer, "the formulas serve for a pair in one order alone", NULL);
            require(is_short(k) || answer == 0, "the formulas serve on a curve of another form", NULL);
            *(i == j ? &done.doubles : &done.sums) += i == j ? answer : 2 * answer;
            done.pairs += i == j ? 1 : 2;
            done.typical += i == j ? both_typical : 2 * both_typical;
        }
    done.curves++;
}

/* A nonsingular curve; c5, c6 and c8 are not 0 where the bits 0, 1 and 2 of the form are set, and else 0. */
static struct curve random_curve(uint32_t p, unsigned form)
{
    static const int place[3] = {5, 6, 8};
    struct curve k = {p, {0}};
    do {
        for (int i = 0; i < 9; i++)
            k.c[i] = random_below(p);
        for (int i = 0; i < 3; i++)
            k.c[place[i]] = form >> i & 1 ? 1 + random_below(p - 1) : 0;
    } while (!nonsingular(&k));
    return k;
}

/* So many curves of the form. */
static void check_form(uint32_t p, unsigned form, int curves)
{
    for (int i = 0; i < curves; i++) {
        struct curve k = random_curve(p, form);
        check_curve(&k);
    }
}

static void report(const char *what)
{
    printf("quick: all %ld pairs on %ld curves %s agree", done.pairs, done.curves, what);
    printf("; %ld could be served, %ld sums and %ld doubles are\n", done.typical, done.sums, done.doubles);
    memset(&done, 0, sizeof done);
}

static void run_all(void)
{
    for (uint32_t bits = 0; bits < 512; bits++) {
        struct curve k = over_two(bits);
        if (nonsingular(&k))
            check_curve(&k);
    }
    report("over F_2");
    for (unsigned form = 0; form < 8; form++)
        check_form(3, form, 3);
    report("over F_3");
    for (unsigned form = 1; form < 8; form++)
        check_form(5, form, 1);
    check_form(7, 7, 1);
    report("of another form over F_5 and F_7");
    check_form(5, 0, 6);
    check_form(7, 0, 2);
    require(done.sums > 0 && done.doubles > 0, "the formulas serve for no pair", NULL);
    require(done.typical > done.sums + done.doubles, "the formulas serve for every pair", NULL);
    report("with c5, c6 and c8 zero over F_5 and F_7");
}

int main(void)
{
    seed(20260801);
    run_random(1);
    run_random(0);
    run_sequences();
    run_all();
    printf("quick: %.1f seconds\n", (double)clock() / CLOCKS_PER_SEC);
    return 0;
}
