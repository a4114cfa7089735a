/*
 * Nafthurm for a board's program: plan and route sheets, planned routes, packets, steps, walks, and hops taken back.
 *
 * Link libnafthurm.a (`rt lib` in crates/nafthurm writes crates/nafthurm/out/libnafthurm.a; x86-64 Linux). It needs nothing but memcpy
 * and memset.
 *
 * Every call is proved to meet its contract in crates/nafthurm/src, which is the definition of the call that it stands for: it ends, never reaches
 * outside the bytes that it is lent, and takes any bytes and any numbers. Nothing has to be tested before a call. What the proof takes for granted,
 * since C cannot be asked, is that
 *   - a pointer and the size behind it name that many bytes (of a workspace: words) that may be read (and written where it is not const); no pointer is
 *     null, also where the size is 0;
 *   - the bytes lent as output or workspace overlap none of the others, and nobody alters lent bytes during a call.
 * Nothing is allocated, no state is kept between calls and no pointer is kept after one: calls may run at the same time in several threads.
 * A call uses at most NAFTHURM_STACK bytes of stack; nafthurm_pair NAFTHURM_STACK_PAIR, nafthurm_write_sheet NAFTHURM_STACK_SHEET,
 * nafthurm_all_sheets NAFTHURM_STACK_ALL and nafthurm_listing NAFTHURM_STACK_LISTING.
 *
 * A field or result `number` is 0, or the number of a refusal, 1 to 18: docs/NUMBERS.md. A call that is refused writes no lent byte, but to a
 * workspace.
 *
 * The checks of a plan are 1 to 6, 16, and then 7 and 8 fault by fault, in this order.
 *
 * Directions are 0 X+, 1 X-, 2 Y+, 3 Y-, 4 Z+, 5 Z-. The kind of a route, as in a route sheet of version 3 and in the listing, is 16 times its vias plus a
 * bit for each deterministic leg, leg one lowest: 0 direct adaptive, 1 direct deterministic, 16 to 19 by a via, 32 to 39 by two. 160 is a dead destination,
 * 176 no clear choice.
 *
 * An adaptive leg may take any hop that brings it nearer to its target. A deterministic leg takes the first of X, Y, Z where the coordinates differ, the
 * shorter way; at exactly half a ring it goes plus from an even coordinate of that dimension and minus from an odd one.
 */
#ifndef NAFTHURM_H
#define NAFTHURM_H

#include <stdbool.h>
#include <stddef.h>
#include <stdint.h>

#ifdef __cplusplus
extern "C" {
#endif

/* The largest plan sheet has 256 faults, the largest route sheet 4,095 entries. An output of as many bytes as the largest is never refused with 12. */
#define NAFTHURM_PLAN_BYTES 780
#define NAFTHURM_SHEET_BYTES 28672
#define NAFTHURM_LISTING_BYTES 94222

/* The workspace of nafthurm_all_sheets: so many words of 16 bits a board of the plan; the largest plan has 4,096 boards. */
#define NAFTHURM_ALL_WORDS_A_BOARD 512
#define NAFTHURM_ALL_WORDS 2097152

/* The `number` of a run with fewer words; no refusal of docs/NUMBERS.md. */
#define NAFTHURM_FEW_WORDS 255

/* Bytes of stack, held to by library/tests/test.c. */
#define NAFTHURM_STACK 1024
#define NAFTHURM_STACK_PAIR 98304
#define NAFTHURM_STACK_SHEET 131072
#define NAFTHURM_STACK_ALL 131072
#define NAFTHURM_STACK_LISTING 262144

/* Extents of the dimensions X, Y, Z, each 1 to 16; wrap has bits 0, 1, 2 for X, Y, Z. */
typedef struct {
    uint8_t x, y, z;
    uint8_t wrap;
} nafthurm_shape;

/* Weights of the dimensions X, Y, Z, each 1 to 8: what a hop there adds to a distance or a length. */
typedef struct {
    uint8_t x, y, z;
} nafthurm_weights;

/* What writing gives: the bytes written, or the number, with size 0. */
typedef struct {
    uint8_t number;
    size_t size;
} nafthurm_written;

/*
 * A run of sheets, if number is 0: the bytes written, and the board to go on with, which is the plan's board count when no sheet is left. If not, next and
 * size are 0.
 */
typedef struct {
    uint8_t number;
    uint16_t next;
    size_t size;
} nafthurm_run;

/* What converting gives: the bytes written, or the number, with size 0. With 17, entry is the first that cannot be kept, counted from 0; otherwise it is 0. */
typedef struct {
    uint8_t number;
    uint16_t entry;
    size_t size;
} nafthurm_converted;

/* A part of a lent sheet: size bytes from byte start on. */
typedef struct {
    size_t start;
    size_t size;
} nafthurm_part;

/*
 * A route, if number is 0: its kind, and its vias in the order in which they are met, an absent one 0. If not, kind is 160 with 10, 176 with 11, else 255, and
 * the vias are 0: read number first.
 */
typedef struct {
    uint8_t number;
    uint8_t kind;
    uint16_t via[2];
} nafthurm_route;

/* A planned route and its length, the sum of the weights of its hops, at most 1,080; 0 where it is refused. */
typedef struct {
    nafthurm_route route;
    uint16_t length;
} nafthurm_planned;

/* mode: 0 adaptive, any other byte deterministic. */
typedef struct {
    uint16_t target;
    uint8_t mode;
} nafthurm_leg;

/*
 * A packet: the source of its route, its present node, and the route, which is the first `count` of the legs, at most three, in the order in which they are gone.
 * `mark` is the number of the current leg, from 0 on; where it is `count`, just past the last leg, the packet has arrived. Legs behind the route are not judged.
 * A board may store and send a packet as it likes; no other byte of it counts. Steps, walks and hops taken back change node and mark only.
 */
typedef struct {
    uint16_t source;
    uint16_t node;
    nafthurm_leg legs[3];
    uint8_t count;
    uint8_t mark;
} nafthurm_packet;

/* The packet after one hop, or before its last; or as it was lent, with 5, 6, 14, and of a step 15, of a hop taken back 18. */
typedef struct {
    nafthurm_packet packet;
    uint8_t number;
} nafthurm_stepped;

/* How a walk ended. */
enum {
    NAFTHURM_ARRIVED = 0,
    NAFTHURM_NOT_ALLOWED = 1,
    NAFTHURM_USED_UP = 2,
    NAFTHURM_REFUSED = 3
};

/* The packet after the hops taken, and how many; number is 15 if the ending is NAFTHURM_NOT_ALLOWED, 5, 6 or 14 if it is NAFTHURM_REFUSED, else 0. */
typedef struct {
    nafthurm_packet packet;
    uint8_t number;
    uint8_t ending;
    size_t hops;
} nafthurm_walked;

/* ---- Plan sheets ---- */

/* The number of the first check of a plan that declines the sheet, or 0. */
uint8_t nafthurm_plan_check(const uint8_t *plan, size_t plan_size);

/* Extents and wrap; zeros where a check declines the sheet. */
nafthurm_shape nafthurm_plan_shape(const uint8_t *plan, size_t plan_size);

/* Weights, of a version 1 sheet 1, 1, 1; zeros where a check declines the sheet. */
nafthurm_weights nafthurm_plan_weights(const uint8_t *plan, size_t plan_size);

/* Whether the node, or the link that leaves the node in the direction, is dead; no where a check declines the sheet or there is none. */
bool nafthurm_dead_node(const uint8_t *plan, size_t plan_size, uint16_t node);
bool nafthurm_dead_link(const uint8_t *plan, size_t plan_size, uint16_t node, uint8_t direction);

/* The sheet as it is, in its own version, into out: the checks of a plan, then 12. Bytes of out past the sheet are untouched. */
nafthurm_written nafthurm_plan_write_back(const uint8_t *plan, size_t plan_size, uint8_t *out, size_t out_size);

/* ---- Planning ---- */

/* The route from the source to the destination: the checks of a plan, then 9, 10, 11. */
nafthurm_planned nafthurm_pair(const uint8_t *plan, size_t plan_size, uint16_t source, uint16_t destination);

/* The route sheet of every destination from the source, in version 3, into out: the checks of a plan, then 9, 10, 12. Bytes of out past the sheet are untouched. */
nafthurm_written nafthurm_write_sheet(const uint8_t *plan, size_t plan_size, uint16_t source, uint8_t *out, size_t out_size);

/*
 * The route sheets of the sound boards from board `from` on, in rising order and one behind the other, into out: as many whole ones as it takes. Bytes 1 and 2
 * of a sheet say how many bytes follow them; a dead board has none. The checks of a plan, then 9 for `from`, then NAFTHURM_FEW_WORDS for fewer words than
 * NAFTHURM_ALL_WORDS_A_BOARD a board of the plan, then 12 where not even the first sheet fits. Bytes of out past the sheets are untouched. What work holds before the
 * call does not matter, and what it holds afterwards means nothing; it changes only where the number is 0 or 12.
 *
 * Each call plans the whole machine into work anew, so an output for many sheets is quicker than one for few. All sheets, whatever plan it is:
 *
 *     static uint16_t work[NAFTHURM_ALL_WORDS];
 *     static uint8_t out[64 * NAFTHURM_SHEET_BYTES];
 *
 *     nafthurm_shape shape = nafthurm_plan_shape(plan, plan_size);
 *     nafthurm_run run = {0, 0, 0};
 *     do {
 *         run = nafthurm_all_sheets(plan, plan_size, run.next, work, NAFTHURM_ALL_WORDS, out, sizeof out);
 *         if (run.number != 0) return run.number;
 *         fwrite(out, 1, run.size, file);
 *     } while (run.next < shape.x * shape.y * shape.z);
 */
nafthurm_run nafthurm_all_sheets(const uint8_t *plan, size_t plan_size, uint16_t from, uint16_t *work, size_t work_words, uint8_t *out, size_t out_size);

/*
 * The listing of a two-byte source and a plan sheet, as text in lines: source, node count, fault count; then of each node destination, kind, two vias, each `-` if
 * absent, length or `-`. Where the checks of a plan, 9 or 10 decline the input, the text is the line `refused` and the number. So the number that this call gives is
 * 12 or 0. No zero byte ends the text. Bytes of out past it are untouched.
 */
nafthurm_written nafthurm_listing(const uint8_t *input, size_t input_size, uint8_t *out, size_t out_size);

/* ---- Route sheets; they answer from the sheet alone and never judge its routes against the plan's faults ---- */

/*
 * Versions 3 and 2 are read; any other is 13. Version 2 has entries of five bytes, with one via, and other kinds: 2, 3, 4, 5 for 16, 18, 17, 19, 10 for 160 and
 * 11 for 176. A version 1 sheet has version 2's layout, but its deterministic legs went plus at every half ring: nafthurm_convert, which reads version 1 alone,
 * makes version 2 of it where that keeps its walks.
 */

/* The checks of the plan, then 13 of the sheet: the number of the first that declines, or 0. */
uint8_t nafthurm_sheet_check(const uint8_t *plan, size_t plan_size, const uint8_t *sheet, size_t sheet_size);

/*
 * The sheet in version 3, into out: the same checks, then 12. A version 3 sheet comes back as the same bytes, one of version 2 with the same routes, two bytes
 * longer an entry. Bytes of out past the sheet are untouched.
 */
nafthurm_written nafthurm_sheet_write_back(const uint8_t *plan, size_t plan_size, const uint8_t *sheet, size_t sheet_size, uint8_t *out, size_t out_size);

/* The bytes of the destination's entry, seven of version 3, five of version 2. Empty, at the sheet's start, if the destination is not listed or the lookup is declined. */
nafthurm_part nafthurm_lookup(const uint8_t *plan, size_t plan_size, const uint8_t *sheet, size_t sheet_size, uint16_t destination);

/* The destination's route: the checks of a plan, 13, then 9; 10 or 11 for an entry without a route. A destination that is not listed is direct and adaptive. */
nafthurm_route nafthurm_lookup_route(const uint8_t *plan, size_t plan_size, const uint8_t *sheet, size_t sheet_size, uint16_t destination);

/*
 * A version 1 sheet as version 2, its entries' bytes unchanged, into out: the checks of a plan, then 13 for all but a good sheet of version 1, then 17 for an
 * entry that cannot be kept, then 12. Bytes of out past the sheet are untouched. An entry cannot be kept if it is of kind 11, or if a deterministic leg of it
 * travels exactly half a ring from an odd coordinate, in any dimension and from that leg's own start: then write the sheet anew from the plan in use.
 *
 * A converted sheet stands for the same walks as the old one. Clear legs and first place in the order are claimed only of sheets as planned, by the rule they
 * were planned under.
 */
nafthurm_converted nafthurm_convert(const uint8_t *plan, size_t plan_size, const uint8_t *sheet, size_t sheet_size, uint8_t *out, size_t out_size);

/* ---- Packets ----
 * A step and a walk judge a packet with the current leg dropped, which raises the mark, while its target is the present node. Only a hop stores the drops, before
 * it and again after it. Taking back judges the mark as it stands.
 *
 * A step, a walk and a hop taken back divide by nothing but powers of two: there is no divide instruction in any of them. A walk has a start of its own for each
 * leg: for one hop or two the step is the quicker, from three hops on the walk.
 */

/*
 * The new packet of a route that nafthurm_pair or nafthurm_lookup_route gave: at the source, with the mark on the first leg whose target is another node, and past
 * the last where there is none. Of a refused route, or a kind of 48 or more, a packet with count 255 and mark 0, which every call below refuses with 14. Of any
 * other kind as many vias count as it has sixteens.
 */
nafthurm_packet nafthurm_new_packet(uint16_t source, uint16_t destination, nafthurm_route route);

/*
 * Checks 5, 6, then 14: the number of the first that declines, or 0. 14 is a count above 3, a mark above the count, or a node outside the shape as source, as
 * present node or as the target of a leg of the route, travelled ones too.
 */
uint8_t nafthurm_packet_check(nafthurm_shape shape, nafthurm_packet packet);

/* One hop in the direction, if it is allowed: checks 5, 6, 14, then 15. A packet that no allowed hops reach from its source may go on all the same. */
nafthurm_stepped nafthurm_step(nafthurm_shape shape, nafthurm_packet packet, uint8_t direction);

/*
 * The packet before its last hop, which was made in the direction: checks 5, 6, 14, then 18. It is granted where some allowed walk of the route from the source
 * ends at this packet by that hop, whichever walk was taken, and where the packet has arrived too; a step in the direction then gives this packet again. 18 is no
 * such walk: of a new packet, of a direction above 5, of a mark on a leg whose target is the present node, which no hop stores, and of any packet that allowed
 * hops do not reach from its source.
 */
nafthurm_stepped nafthurm_take_back(nafthurm_shape shape, nafthurm_packet packet, uint8_t direction);

/*
 * One hop a byte of the directions. It ends with the first that holds: arrived; a direction not allowed; bytes used up. Checks 5, 6, 14 come first.
 * A walk ending on 15 keeps its earlier hops.
 */
nafthurm_walked nafthurm_walk(nafthurm_shape shape, nafthurm_packet packet, const uint8_t *directions, size_t directions_size);

#ifdef __cplusplus
}
#endif

#endif
