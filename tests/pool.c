/* Adding by pairs, at small p: a pool of records, random sum calls with buffers of any length, and the groups that document
   01 defines. Each record that comes in is byte for byte the list sum of its group by the definition; the last one is the
   library's list sum. For lists of up to four records every order of pair sums is tried. pool [LISTS] */
#include "sample.h"
#include <stdio.h>
#include <stdlib.h>
#include <string.h>

enum { MOST = 10, ALL_ORDERS = 4, SAMPLES = 24 };

struct pool {
    unsigned count;
    struct record record[MOST];
    uint32_t group[MOST]; /* bit i: the record at place i of the given list is in it */
};

static long sums, refusals, orders;

/* ---- the list sum of a group ---- */

static struct record list_sum(const struct sample *s, const struct pool *given, uint32_t group,
                              int32_t (*by)(const struct call *))
{
    uint8_t list[MOST * C34_BUFFER];
    struct record r;
    struct call c = {.verb = LIST_SUM, .curve = slice_of_curve(s), .out = r.b, .out_len = C34_BUFFER};
    size_t n = 0;
    for (unsigned i = 0; i < given->count; i++)
        if (group >> i & 1) {
            memcpy(list + n, given->record[i].b, given->record[i].len);
            n += given->record[i].len;
        }
    c.a = (struct slice){list, n};
    int32_t length = by(&c);
    require(length > 0, "a list of accepted records is refused", &c);
    r.len = (size_t)length;
    return r;
}

/* ---- sum calls ---- */

/* The records at places i and j leave the pool, the rest close up, and r comes in at the end. */
static void take_in(struct pool *p, unsigned i, unsigned j, const struct record *r)
{
    struct pool q = {0, {{{0}, 0}}, {0}};
    for (unsigned k = 0; k < p->count; k++)
        if (k != i && k != j) {
            q.record[q.count] = p->record[k];
            q.group[q.count++] = p->group[k];
        }
    q.record[q.count] = *r;
    q.group[q.count++] = p->group[i] | p->group[j];
    *p = q;
}

/* One sum call of the pool; 1 if it was not refused. */
static int step(const struct sample *s, struct pool *p, unsigned i, unsigned j, size_t out_len)
{
    uint8_t out[64], before[64];
    struct call c = {.verb = SUM, .curve = slice_of_curve(s), .out = out, .out_len = out_len};
    struct record r;
    c.a = slice_of_record(&p->record[i]);
    c.b = slice_of_record(&p->record[j]);
    memset(out, 0xEE, sizeof out);
    memset(before, 0xEE, sizeof before);
    int32_t e = by_library(&c);
    if (out_len < C34_BUFFER) {
        require(e == -10 && memcmp(out, before, sizeof out) == 0, "a short buffer is not refused, or changed", &c);
        return 0;
    }
    require(e > 0 && e <= C34_BUFFER, "a sum of the pool is refused", &c);
    memcpy(r.b, out, (size_t)e);
    r.len = (size_t)e;
    take_in(p, i, j, &r);
    return 1;
}

/* ---- random calls ---- */

static void run(const struct sample *s, const struct pool *given)
{
    struct pool p = *given;
    uint32_t everything = (1u << given->count) - 1;
    while (p.count > 1) {
        unsigned i = random_below(p.count), j = random_below(p.count - 1);
        j += j >= i;
        if (!step(s, &p, i, j, random_below(5) == 0 ? random_below(C34_BUFFER) : C34_BUFFER + random_below(24))) {
            refusals++;
            continue;
        }
        struct record want = list_sum(s, given, p.group[p.count - 1], by_definition);
        require(same(&p.record[p.count - 1], &want), "a record of the pool is not the list sum of its group", NULL);
        sums++;
    }
    if (p.count == 1) {
        struct record all = list_sum(s, given, everything, by_library);
        require(p.group[0] == everything, "the last group is not the whole list", NULL);
        require(same(&p.record[0], &all), "the last record is not the library's list sum", NULL);
    }
}

/* ---- every order ---- */

static void run_all(const struct sample *s, const struct pool *p, const struct record *want)
{
    if (p->count == 1) {
        require(same(&p->record[0], want), "an order of pair sums gives another record", NULL);
        orders++;
    }
    for (unsigned i = 0; i < p->count; i++)
        for (unsigned j = 0; j < p->count; j++)
            if (i != j) {
                struct pool q = *p;
                step(s, &q, i, j, C34_BUFFER);
                run_all(s, &q, want);
            }
}

static struct pool make_pool(const struct sample *s, unsigned count)
{
    struct pool p = {count, {{{0}, 0}}, {0}};
    for (unsigned i = 0; i < count; i++) {
        p.record[i] = i > 0 && random_below(5) == 0 ? p.record[random_below(i)] : *pick(s);
        p.group[i] = 1u << i;
    }
    return p;
}

int main(int argc, char **argv)
{
    static const uint32_t primes[] = {2, 2, 3, 3, 5, 5, 7, 11};
    static struct sample sample[SAMPLES];
    long lists = argc > 1 ? atol(argv[1]) : 1500;
    seed(3);
    for (unsigned i = 0; i < SAMPLES; i++)
        make_sample(&sample[i], primes[i % 8], 40);
    for (long n = 0; n < lists; n++) {
        const struct sample *s = &sample[n % SAMPLES];
        struct pool p = make_pool(s, 1 + random_below(MOST));
        run(s, &p);
        p = make_pool(s, 1 + random_below(ALL_ORDERS));
        struct record want = list_sum(s, &p, (1u << p.count) - 1, by_definition);
        run_all(s, &p, &want);
    }
    printf("pool: %ld lists, %ld sums as their groups say, %ld refused buffers; %ld whole orders agree\n", lists, sums,
           refusals, orders);
    return 0;
}
