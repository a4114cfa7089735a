/* Test cases as lines of text, `op key=value ..`, answered through the library: the format of reference/vectors.py. */
#ifndef LINES_H
#define LINES_H

#include <stddef.h>

enum { ANSWER_MOST = 200000 };

/* Writes what the library answers to the case, which ends at ' => ' or with the line. False where the operation is not one of the library's. */
int answer_line(const char *line, char answer[ANSWER_MOST]);

#endif
