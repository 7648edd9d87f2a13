/* A call between guard pages, held against the independent implementation: see check.h. */
#include "check.h"
#include <stdio.h>
#include <string.h>

long calls;

void check_at(const struct call *given, enum side side, int32_t expected, const uint8_t *want)
{
    struct call c = between_pages(given, side);
    int32_t e = by_library(&c);
    if (e != expected)
        printf("returned %d, by the definition %d\n", (int)e, (int)expected);
    require(e == expected, "the returned number is wrong", given);
    require(memcmp(c.out, want, c.out_len) == 0, "the result buffer is wrong", given);
    for (size_t i = e < 0 ? 0 : (size_t)e; i < c.out_len; i++)
        require(c.out[i] == FILL, "bytes after the result have changed", given);
    calls++;
}

int32_t check(const struct call *given)
{
    static uint8_t want[LONGEST];
    struct call d = *given;
    d.out = want;
    memset(want, FILL, d.out_len);
    int32_t expected = by_definition(&d);
    check_at(given, AT_END, expected, want);
    check_at(given, AT_FRONT, expected, want);
    if (given->out != NULL)
        memcpy(given->out, want, given->out_len);
    return expected;
}
