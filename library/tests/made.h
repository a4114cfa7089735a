/* Random input: plans, route sheets and packets, made and damaged. The same seed makes the same input. */
#ifndef MADE_H
#define MADE_H

#include "nafthurm.h"

/* ---- Numbers ---- */

void set_seed(uint64_t seed);
uint32_t below(uint32_t n);
int chance(uint32_t percent);
uint8_t any_byte(void);
#define ONE_OF(...) ((int[]){__VA_ARGS__}[below(sizeof((int[]){__VA_ARGS__}) / sizeof(int))])

/* ---- Shapes and nodes ---- */

/* At most this many nodes. */
nafthurm_shape made_shape(int most);

/* Half of them large. */
nafthurm_shape packet_shape(void);

/* With an extent or the wrap changed, mostly to what is refused. */
nafthurm_shape hurt_shape(nafthurm_shape s);

/* A number that is no node: just outside, elsewhere below 4,096, or above. */
uint16_t outside(int nodes);

/* A node, or with 8 % a number that is none. */
uint16_t any_node(int nodes);

/* Anywhere, half a ring from `here` or at the far end in some dimensions or in all, or next to it. */
uint16_t some_node(nafthurm_shape s, uint16_t here);

/* ---- Sheets ---- */

enum { BYTES_MOST = 40000 };

typedef struct {
    uint8_t at[BYTES_MOST];
    size_t size;
} bytes;

extern bytes a_plan, a_sheet;

void put_word(bytes *b, size_t at, size_t value);
void random_bytes(bytes *b, size_t size);

/*
 * An accepted plan sheet in a_plan, of either version: of the shape, with about this many faults; a snake, two or three long rows joined at one end; a ring of
 * even length with one or two dead links, so that routes go the other way round by legs of half the ring; on the edge of a limit; a mesh of which the one route
 * from node 0 to the last of the first plane's first column is by two far corners, along edges of the mesh.
 */
void make_plan(nafthurm_shape s, int faults);
nafthurm_shape make_snake(int most);
nafthurm_shape make_ring(int most);
nafthurm_shape make_limit_plan(void);
nafthurm_shape make_far_vias(void);

/* Some accepted plan of at most so many nodes, then damaged with `damaged` %; the shape is that before the damage. */
nafthurm_shape any_plan(int most, uint32_t damaged);

/* The same with 255, 256 or 257 faults, and of the largest machine. */
nafthurm_shape plan_for_reading(void);

/* Two nodes to plan between, of the shape of the plan in a_plan: anywhere, round one of its faults, or at the machine's ends; some are no nodes. */
typedef struct {
    uint16_t source, destination;
} ends;

ends some_ends(nafthurm_shape s);

/* At an end of the machine in each dimension. */
uint16_t corner(nafthurm_shape s);

/*
 * A route sheet in a_sheet with routes that nobody planned, `listed` % of the destinations, of version 3 or 2. Of an old sheet, which is of version 1, mostly all
 * entries can be kept, or all but one. any_sheet makes one of the version, mostly, where that is not the old one, then damaged.
 */
void make_sheet(nafthurm_shape s, uint32_t listed);
void make_old_sheet(nafthurm_shape s, uint32_t listed);
void any_sheet(nafthurm_shape s, int version, uint32_t damaged);
void damage_sheet(void);

size_t some_room(size_t size);

/* ---- Packets and runs ---- */

/* With at most three legs, and no check declines it: new, on its way or arrived; some with a leg that the next hop only will drop, some that no allowed hops reach. */
nafthurm_packet good_packet(nafthurm_shape s);

/* Of the same shape, made 14 by one thing: its source, its node, a target, the count of its legs, or its mark. */
nafthurm_packet hurt_packet(nafthurm_shape s, nafthurm_packet packet);

nafthurm_packet any_packet(nafthurm_shape s);

enum { RUN_MOST = 400 };

/* Directions, mostly allowed ones, to the arrival, past it, short of it, or with a wrong one: how many. */
size_t made_run(nafthurm_shape s, nafthurm_packet packet, uint8_t run[RUN_MOST]);

uint8_t some_direction(nafthurm_shape s, nafthurm_packet packet);

/* Allowed directions until the packet has arrived: how many. */
size_t whole_run(nafthurm_shape s, nafthurm_packet packet, uint8_t run[RUN_MOST]);

#endif
