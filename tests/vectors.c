/* Makes the calls of a file of test vectors and compares: vectors FILE [PROGRAM]. The head of vectors.txt says how a
   line reads. Every call is made between guard pages: each slice, the result buffer included, ends at a page that
   cannot be touched. PROGRAM is the counting program; without it the lines of verb prog are left out. One verb is no
   call, but made of two, for the papers' examples:

     negsum C LIST L   the negative of the list sum */
#include "pages.h"
#include "program.h"
#include <stdio.h>
#include <stdlib.h>
#include <string.h>

enum { ROOM = 1 << 18, WORDS = 8, NUMBERS = 18 };

static char argument[WORDS][ROOM]; /* the arguments of this line, for the next one's dittos */
static uint8_t bytes[WORDS][ROOM], want[ROOM];
static size_t length[WORDS];

/* ---- reading ---- */

static unsigned digit(char c)
{
    return (unsigned)(c <= '9' ? c - '0' : c - 'a' + 10);
}

/* The bytes of one part without its repetition; w is the length of its text. */
static size_t part(const char *s, size_t w, uint8_t *to)
{
    uint32_t numbers[NUMBERS] = {0};
    size_t n = 0;
    if (*s == 'x') {
        for (size_t i = 1; i + 1 < w; i += 2)
            to[n++] = (uint8_t)(16 * digit(s[i]) + digit(s[i + 1]));
        return n;
    }
    char *end;
    uint32_t kind = (uint32_t)strtoul(s, &end, 10);
    while (end + 1 < s + w && n < NUMBERS)
        numbers[n++] = (uint32_t)strtoll(end + 1, &end, 10);
    require(numbers_of(kind) == (int)n, "a record of the file has the wrong number of numbers", NULL);
    return put_record(to, kind, numbers);
}

/* The bytes of an argument. */
static size_t read_bytes(const char *s, uint8_t *to)
{
    size_t n = 0;
    while (*s != 0 && strcmp(s, "-") != 0) {
        size_t w = strcspn(s, "+"), times = 1;
        const char *star = memchr(s, '*', w);
        if (star != NULL) {
            times = strtoul(s, NULL, 10);
            w -= (size_t)(star + 1 - s);
            s = star + 1;
        }
        size_t one = part(s, w, to + n);
        require(n + one * times <= ROOM, "an argument of the file is too long", NULL);
        for (size_t i = 1; i < times; i++)
            memcpy(to + n + i * one, to + n, one);
        n += one * times;
        s += w + (s[w] == '+');
    }
    return n;
}

static struct slice slice_of(int i)
{
    struct slice s = {bytes[i], length[i]};
    return s;
}

/* ---- the calls ---- */

/* Makes the call between guard pages; c->out is then its result buffer. */
static int32_t made(struct call *c, enum verb verb)
{
    c->verb = verb;
    *c = between_pages(c, AT_END);
    return by_library(c);
}

/* The record of n bytes that stands in the result buffer; no bytes for a refusal. */
static struct slice written(const struct call *c, int32_t n)
{
    require(n <= C34_BUFFER && n <= (int32_t)c->out_len, "a call returns a number that is no record's length", c);
    return (struct slice){c->out, n < 0 ? 0 : (size_t)n};
}

static int32_t negsum(struct call *c)
{
    int32_t n = made(c, LIST_SUM);
    c->a = written(c, n);
    return n < 0 ? n : made(c, NEGATIVE);
}

/* The verb of this name, VERBS if it is no call. */
static enum verb verb_of(const char *name)
{
    int v = 0;
    while (v < VERBS && strcmp(verb_name[v], name) != 0)
        v++;
    return (enum verb)v;
}

static int slices_of(const char *name)
{
    enum verb verb = verb_of(name);
    return verb < VERBS ? slices_read(verb) : strcmp(name, "prog") == 0 ? 1 : 2;
}

/* The call of a line with `count` arguments: slices, then a number if there is one, then the length of the buffer. */
static int32_t make(const char *name, int count, struct call *c)
{
    enum verb verb = verb_of(name);
    int slices = slices_of(name), numbers = verb == MULTIPLE || verb == COUNT || verb == REDUCE_CURVE;
    int buffer = verb == VERBS || writes(verb);
    require(count == slices + numbers + buffer, "a line has too few or too many arguments", NULL);
    *c = (struct call){.curve = slice_of(0)};
    if (slices > 1)
        c->a = slice_of(1);
    if (slices > 2)
        c->b = slice_of(2);
    if (verb == MULTIPLE)
        c->n = strtoll(argument[slices], NULL, 10);
    if (verb == COUNT)
        c->kind = (uint32_t)strtoul(argument[slices], NULL, 10);
    if (verb == REDUCE_CURVE)
        c->p = (uint32_t)strtoul(argument[slices], NULL, 10);
    if (buffer)
        c->out_len = strtoul(argument[count - 1], NULL, 10);
    if (verb < VERBS)
        return made(c, verb);
    require(strcmp(name, "negsum") == 0, "a line has an unknown verb", NULL);
    return negsum(c);
}

/* The buffer holds the n wanted bytes and is as it was after them. */
static int buffer_is(const struct call *c, size_t n)
{
    if (n > c->out_len || memcmp(c->out, want, n) != 0)
        return 0;
    for (size_t i = n; i < c->out_len; i++)
        if (c->out[i] != FILL)
            return 0;
    return 1;
}

/* ---- the counting program ---- */

/* The output is `text` with ' / ' for each end of a line but the last. */
static int output_is(const char *o, const char *text)
{
    for (; *text != 0; o++) {
        if (strncmp(text, " / ", 3) == 0) {
            text += 2;
            if (*o != '\n')
                return 0;
        } else if (*text != *o)
            return 0;
        text++;
    }
    return strcmp(o, "\n") == 0;
}

/* ---- lines ---- */

/* Splits the arguments of a line at its blanks; their number is returned. */
static int read_arguments(char *text)
{
    int n = 0;
    for (char *w = strtok(text, " "); w != NULL && n < WORDS; w = strtok(NULL, " "), n++)
        if (strcmp(w, "\"") != 0)
            strcpy(argument[n], w);
    return n;
}

/* 1 if the line holds, 0 if not, -1 if it is left out. */
static int line(char *text, const char *program)
{
    struct call c;
    char *answer = strstr(text, " = "), *space = strchr(text, ' ');
    require(answer != NULL && space < answer, "a line has no answer", NULL);
    *answer = *space = 0;
    answer += 3;
    int count = read_arguments(space + 1);
    for (int i = 0; i < slices_of(text); i++)
        length[i] = read_bytes(argument[i], bytes[i]);
    if (strcmp(text, "prog") == 0) {
        if (program == NULL)
            return -1;
        return output_is(run_program(program, bytes[0], length[0]), answer);
    }
    int32_t e = make(text, count, &c);
    char *record = strchr(answer, ' ');
    return e == strtol(answer, NULL, 10) && buffer_is(&c, record == NULL ? 0 : read_bytes(record + 1, want));
}

int main(int argc, char **argv)
{
    static char text[ROOM], kept[ROOM];
    int good = 0, omitted = 0, number = 0;
    FILE *f = argc > 1 ? fopen(argv[1], "r") : NULL;
    require(f != NULL, "usage: vectors FILE [PROGRAM]", NULL);
    make_pages();
    while (fgets(text, ROOM, f) != NULL) {
        number++;
        text[strcspn(text, "\n")] = 0;
        if (text[0] == '#' || text[0] == 0)
            continue;
        strcpy(kept, text);
        int r = line(text, argc > 2 ? argv[2] : NULL);
        if (r == 0)
            printf("%s:%d: %s\n", argv[1], number, kept);
        require(r != 0, "a vector differs", NULL);
        good += r == 1;
        omitted += r == -1;
    }
    printf("vectors: %d of %s agree", good, argv[1]);
    printf(omitted == 0 ? "\n" : ", %d of the counting program left out\n", omitted);
    require(good + omitted > 0, "no vector", NULL);
    return 0;
}
