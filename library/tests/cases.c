/* Answers test cases, `case => answer` a line on standard input, through the library, and compares. Lines of text that no call could be made of are left out. */
#define _GNU_SOURCE
#include "lines.h"

#include <stdio.h>
#include <stdlib.h>
#include <string.h>

int main(void) {
    static char answer[ANSWER_MOST];
    char *line = NULL;
    size_t room = 0, same = 0, other = 0, left_out = 0;
    while (getline(&line, &room, stdin) > 0) {
        line[strcspn(line, "\n")] = 0;
        char *wanted = strstr(line, " => ");
        if (wanted == NULL || strcmp(wanted, " => unreadable") == 0) {
            left_out++;
            continue;
        }
        *wanted = 0, wanted += 4;
        if (!answer_line(line, answer)) left_out++;
        else if (strcmp(answer, wanted) == 0) same++;
        else {
            other++;
            printf("%s\n  wanted   %s\n  answered %s\n", line, wanted, answer);
        }
    }
    free(line);
    printf("%zu as wanted, %zu otherwise, %zu left out\n", same, other, left_out);
    return other != 0 || same == 0;
}
