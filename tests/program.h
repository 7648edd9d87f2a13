/* The counting program, run as a user would. */
#ifndef PROGRAM_H
#define PROGRAM_H
#include <stddef.h>
#include <stdint.h>

/* What the program at this path prints for n bytes of standard input, until the next call; it must end with status 0. */
const char *run_program(const char *program, const uint8_t *in, size_t n);

#endif
