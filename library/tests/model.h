/* What document 01 with E1 to E6 says, told plainly and from the bytes alone: the tests hold the library to it. Slow, and meant to be read. */
#ifndef MODEL_H
#define MODEL_H

#include "nafthurm.h"

size_t word(const uint8_t *at);

/* ---- The machine: nodes are of the shape, whose extents and wrap are accepted ---- */

int extent(nafthurm_shape s, int dim);
int wrapped(nafthurm_shape s, int dim);
int nodes_of(nafthurm_shape s);
int place(nafthurm_shape s, int node, int dim);
int stride(nafthurm_shape s, int dim);

/* The node over the link, or -1 where there is none. */
int over(nafthurm_shape s, int node, int direction);

/* By hops, as a useful hop and half a ring are judged; and by weights, as lengths and the order are. */
int hops(nafthurm_shape s, int from, int to);
int distance(nafthurm_shape s, nafthurm_weights w, int from, int to);

/* Whether a deterministic leg goes plus where the target is half a ring away in the dimension. The tests set other rules, call by call. */
typedef int half_rule(nafthurm_shape s, int node, int target, int dim);
extern half_rule *half_plus;

/* The rule that route sheets of version 1 were planned under. */
half_rule always_plus;

/* Whether a leg to the target, deterministic if `mode` is not 0, may take the direction. */
int leg_allows(nafthurm_shape s, int node, int target, int mode, int direction);

/* ---- Checks: the number of the first that declines, or 0 ---- */

uint8_t shape_number(nafthurm_shape s);
uint8_t packet_number(nafthurm_shape s, nafthurm_packet packet);

/* Where the first fault stands in a plan sheet of this version; 9 also for versions that there are not. */
size_t head_size(int version);

int fault_exists(nafthurm_shape s, size_t node, int kind);
uint8_t plan_number(const uint8_t *plan, size_t size);

/* ---- Route sheets ---- */

/* The version that is written, the one before it, which is read too, and the first, which the converter alone reads. */
enum { OLD_VERSION = 1, SECOND_VERSION = 2, SHEET_VERSION = 3 };

/* Of a version 3 sheet 7, of any other 5. */
size_t entry_size(int version);

/* The kind of version 3 with the same legs, or the same refusal, as the byte in a sheet of this version; NO_KIND where the byte is none that is listed. */
enum { DEAD_KIND = 160, NONE_KIND = 176, NO_KIND = 255 };
int kind_in(int version, int byte);

/* How many vias a listed kind of version 3 has. */
int vias_of(int kind);

/* 13 or 0, of a sheet that is to have the version, under a plan of this shape; and of one that ordinary reading takes, in its own version. */
uint8_t sheet_number(nafthurm_shape s, int version, const uint8_t *sheet, size_t size);
uint8_t read_number(nafthurm_shape s, const uint8_t *sheet, size_t size);

/* What an entry of a good sheet of this version says. */
nafthurm_route model_entry(int version, const uint8_t *entry);

/* Where the destination's entry stands in a good sheet; the size where there is none. */
size_t entry_at(const uint8_t *sheet, size_t size, size_t destination);

/* A good sheet of either version that is read, as version 3: how many bytes. */
size_t model_back(const uint8_t *sheet, size_t size, uint8_t *out);

/* ---- Old route sheets ---- */

/* Whether a leg travels exactly half a ring in the dimension. */
int travels_half(nafthurm_shape s, int from, int to, int dim);

/* Whether an entry of a good version 1 sheet from the source can be kept. */
int entry_kept(nafthurm_shape s, int source, const uint8_t *entry);

/* Under an accepted plan of this shape, into so many bytes. */
nafthurm_converted model_convert(nafthurm_shape s, const uint8_t *sheet, size_t size, size_t room);

/* ---- Packets ---- */

/* The legs of a packet's array. */
enum { MOST_LEGS = 3 };

/* In every field, legs behind the route too. */
int same_packet(nafthurm_packet a, nafthurm_packet b);

/* The mark raised while the current leg's target is the present node. */
nafthurm_packet dropped(nafthurm_packet packet);

/* Whether no leg is left, after the drops. */
int arrived(nafthurm_packet packet);

/* The new packet with the source and the legs of this one. */
nafthurm_packet renewed(nafthurm_packet packet);

/* The packet is one that no check declines, here and below. */
int allowed(nafthurm_shape s, nafthurm_packet packet, int direction);

nafthurm_stepped model_step(nafthurm_shape s, nafthurm_packet packet, uint8_t direction);
nafthurm_walked model_walk(nafthurm_shape s, nafthurm_packet packet, const uint8_t *directions, size_t size);

/* Looks for a packet from which the hop leads to this one, at the node before it, on each leg of which some walk passes that node. */
nafthurm_stepped model_take_back(nafthurm_shape s, nafthurm_packet packet, uint8_t direction);

/* Whether allowed hops, or none, reach the packet from the new one. */
int reached(nafthurm_shape s, nafthurm_packet packet);

/* By every allowed walk from the new packet, on a machine of at most MODEL_NODES nodes: how many packets lead to this one by a hop in each direction, and one of them. */
void search_back(nafthurm_shape s, nafthurm_packet packet, int found[6], nafthurm_packet before[6]);

/* ---- Plans ---- */

/* Choices are looked for on plans of at most so many nodes. */
enum { MODEL_NODES = 64 };

/* An accepted plan: bit d of lost[n] for a dead link that leaves node n in direction d. Which legs are clear is noted as it is found, 1 for clear and 2 for not. */
typedef struct {
    nafthurm_shape shape;
    nafthurm_weights weights;
    uint8_t dead[4096];
    uint8_t lost[4096];
    uint8_t noted[2][MODEL_NODES][MODEL_NODES];
} model_plan;

void read_plan(model_plan *plan, const uint8_t *bytes);

/* The distance of two nodes of the plan. */
int apart(const model_plan *plan, int from, int to);

/* Whether no walk that the leg's mode allows crosses a dead link. */
int leg_clear(const model_plan *plan, int from, int target, int mode);

/* The first clear choice, or 11: the two nodes are of the plan and not dead. */
nafthurm_planned first_choice(model_plan *plan, int source, int destination);

/* The route that is refused with the number. */
nafthurm_route refused_route(uint8_t number);

/* 9, 10, 11, or the first clear choice. */
nafthurm_planned model_pair(model_plan *plan, size_t source, size_t destination);

#endif
