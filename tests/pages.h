/* Slices between guard pages: what a call reads lies where it cannot be written, its result buffer where it can, and
   each slice ends at, or starts after, a page that cannot be touched. A touch ends the program with a message.

   make_pages      to be called once, before the other
   between_pages   the call with its slices there, and with a result buffer that is filled with FILL */
#ifndef PAGES_H
#define PAGES_H
#include "call.h"

enum { FILL = 0xC3, LONGEST = 1 << 18 }; /* no slice is longer */

enum side { AT_END, AT_FRONT };

void make_pages(void);
struct call between_pages(const struct call *given, enum side side);

#endif
