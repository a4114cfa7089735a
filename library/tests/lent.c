#define _GNU_SOURCE
#include "lent.h"

#include <stdio.h>
#include <stdlib.h>
#include <string.h>
#include <sys/mman.h>

enum { PAGE = 4096, CANARY = 0xA7, CANARIES = 256 };

void hold_at(int holds, const char *condition, const char *file, int line) {
    if (holds) return;
    fflush(stdout);
    fprintf(stderr, "%s:%d: does not hold: %s\n", file, line, condition);
    abort();
}

static void map_area(lent *l) {
    uint8_t *all = mmap(NULL, LENT_MOST + 2 * PAGE, PROT_NONE, MAP_PRIVATE | MAP_ANONYMOUS, -1, 0);
    HOLD(all != MAP_FAILED);
    HOLD(mprotect(all + PAGE, LENT_MOST, PROT_READ | PROT_WRITE) == 0);
    l->area = all + PAGE;
    l->copy = malloc(LENT_MOST);
    HOLD(l->copy != NULL);
}

/* The canary bytes stand on the side that has no page. */
static size_t canaries(const lent *l) {
    size_t room = LENT_MOST - l->size;
    return room < CANARIES ? room : CANARIES;
}

static uint8_t *canary_at(const lent *l) {
    return l->at_end ? l->bytes - canaries(l) : l->bytes + l->size;
}

static void place(lent *l, size_t size) {
    if (l->area == NULL) map_area(l);
    HOLD(size <= LENT_MOST);
    l->at_end = !l->at_end;
    l->size = size;
    l->bytes = l->at_end ? l->area + LENT_MOST - size : l->area;
    memset(canary_at(l), CANARY, canaries(l));
}

void lend(lent *l, const void *bytes, size_t size) {
    place(l, size);
    memcpy(l->bytes, bytes, size);
    memcpy(l->copy, bytes, size);
}

void lend_filled(lent *l, uint8_t value, size_t size) {
    place(l, size);
    memset(l->bytes, value, size);
    memset(l->copy, value, size);
}

void check_around(const lent *l) {
    const uint8_t *at = canary_at(l);
    for (size_t i = 0; i < canaries(l); i++) HOLD(at[i] == CANARY);
}

void check_kept(const lent *l) {
    check_around(l);
    HOLD(memcmp(l->bytes, l->copy, l->size) == 0);
}
