/* Cases with random and damaged input, as lines `case => answer` with the library's answers. */
#ifndef RANDOM_LINES_H
#define RANDOM_LINES_H

#include <stdint.h>

void print_lines(uint64_t count);

#endif
