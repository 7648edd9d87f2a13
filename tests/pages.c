/* Slices between guard pages: see pages.h. */
#include "pages.h"
#include <signal.h>
#include <stdio.h>
#include <string.h>
#include <sys/mman.h>
#include <unistd.h>

enum { READ = 3 }; /* the first arenas are for what is read */

/* LONGEST bytes that can be seen twice: lent to a call, with a guard page on both sides, and where we write them. */
struct arena {
    uint8_t *lent, *ours;
};

static struct arena arena[READ + 1]; /* curve, a, b, result */
static struct call last;

static void make_arena(struct arena *a, int rights)
{
    size_t page = (size_t)sysconf(_SC_PAGESIZE);
    FILE *f = tmpfile();
    require(f != NULL && ftruncate(fileno(f), LONGEST) == 0, "no temporary file", NULL);
    uint8_t *m = mmap(NULL, LONGEST + 2 * page, PROT_NONE, MAP_PRIVATE | MAP_ANONYMOUS, -1, 0);
    require(m != MAP_FAILED, "no memory", NULL);
    a->lent = mmap(m + page, LONGEST, rights, MAP_SHARED | MAP_FIXED, fileno(f), 0);
    a->ours = mmap(NULL, LONGEST, PROT_READ | PROT_WRITE, MAP_SHARED, fileno(f), 0);
    require(a->lent != MAP_FAILED && a->ours != MAP_FAILED, "no memory", NULL);
    fclose(f);
}

static void touched(int signal)
{
    (void)signal;
    require(0, "bytes were touched that must not be; the last call between guard pages:", &last);
}

void make_pages(void)
{
    for (int i = 0; i <= READ; i++)
        make_arena(&arena[i], i < READ ? PROT_READ : PROT_READ | PROT_WRITE);
    signal(SIGSEGV, touched);
    signal(SIGBUS, touched);
}

/* Where a slice of the length begins in its arena. */
static size_t place(size_t len, enum side side)
{
    require(len <= LONGEST, "a slice is too long for its arena", NULL);
    return side == AT_FRONT ? 0 : LONGEST - len;
}

/* The bytes in arena i, where they cannot be written. */
static struct slice lend(int i, struct slice s, enum side side)
{
    size_t at = place(s.len, side);
    if (s.len > 0)
        memcpy(arena[i].ours + at, s.at, s.len);
    return (struct slice){arena[i].lent + at, s.len};
}

struct call between_pages(const struct call *given, enum side side)
{
    last = *given;
    last.curve = lend(0, given->curve, side);
    last.a = lend(1, given->a, side);
    last.b = lend(2, given->b, side);
    last.out = arena[READ].lent + place(given->out_len, side);
    memset(last.out, FILL, given->out_len);
    return last;
}
