/* Bytes to lend to a call: on one side of them a page that no one may touch, on the other canary bytes. The side changes with each use. */
#ifndef LENT_H
#define LENT_H

#include <stddef.h>
#include <stdint.h>

/* The largest workspace, and the bytes of a run of sheets. */
enum { LENT_MOST = 6291456 };

typedef struct {
    uint8_t *area;
    uint8_t *copy;
    uint8_t *bytes;
    size_t size;
    int at_end;
} lent;

/* The bytes as they are now, to be lent. */
void lend(lent *l, const void *bytes, size_t size);

/* As many bytes of one value. */
void lend_filled(lent *l, uint8_t value, size_t size);

/* Ends the program where a byte before or behind the lent ones has changed. */
void check_around(const lent *l);

/* The same where a lent byte has changed. */
void check_kept(const lent *l);

/* Ends the program with a message if the condition does not hold. */
void hold_at(int holds, const char *condition, const char *file, int line);
#define HOLD(condition) hold_at((condition) != 0, #condition, __FILE__, __LINE__)

#endif
