/* A call between guard pages, held against the independent implementation: it returns what it should, writes what it
   should and changes nothing else. make_pages is to be called before.

   check      with slices that end at a guard page, and with slices that start after one; what the call returns is
              returned, and given->out gets the result buffer if it is not null
   check_at   on one side, with what the call should return and what should then be in the buffer
   calls      how many were made */
#ifndef CHECK_H
#define CHECK_H
#include "independent.h"
#include "pages.h"

extern long calls;

int32_t check(const struct call *given);
void check_at(const struct call *given, enum side side, int32_t expected, const uint8_t *want);

#endif
