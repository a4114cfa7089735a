#include "model.h"

#include <stdlib.h>
#include <string.h>

size_t word(const uint8_t *at) { return (size_t)at[0] * 256 + at[1]; }

/* ---- The machine ---- */

int extent(nafthurm_shape s, int dim) { return dim == 0 ? s.x : dim == 1 ? s.y : s.z; }
int wrapped(nafthurm_shape s, int dim) { return s.wrap >> dim & 1; }
int nodes_of(nafthurm_shape s) { return s.x * s.y * s.z; }
int place(nafthurm_shape s, int node, int dim) { return dim == 0 ? node % s.x : dim == 1 ? node / s.x % s.y : node / s.x / s.y; }
int stride(nafthurm_shape s, int dim) { return dim == 0 ? 1 : dim == 1 ? s.x : s.x * s.y; }

int over(nafthurm_shape s, int node, int direction) {
    if (direction > 5) return -1;
    int dim = direction / 2, p = place(s, node, dim), q = direction % 2 ? p - 1 : p + 1;
    if (q < 0 || q == extent(s, dim)) {
        if (!wrapped(s, dim)) return -1;
        q = q < 0 ? extent(s, dim) - 1 : 0;
    }
    return node + (q - p) * stride(s, dim);
}

static int hops_along(nafthurm_shape s, int dim, int from, int to) {
    int d = abs(place(s, from, dim) - place(s, to, dim)), round = extent(s, dim) - d;
    return wrapped(s, dim) && round < d ? round : d;
}

int hops(nafthurm_shape s, int from, int to) { return hops_along(s, 0, from, to) + hops_along(s, 1, from, to) + hops_along(s, 2, from, to); }

int distance(nafthurm_shape s, nafthurm_weights w, int from, int to) {
    return w.x * hops_along(s, 0, from, to) + w.y * hops_along(s, 1, from, to) + w.z * hops_along(s, 2, from, to);
}

static int useful(nafthurm_shape s, int node, int target, int direction) {
    int to = over(s, node, direction);
    return to >= 0 && hops(s, to, target) + 1 == hops(s, node, target);
}

/* By the place where the travel in the dimension begins: that is the node, since less than half a ring is left of a travel that has begun. */
static int from_even(nafthurm_shape s, int node, int target, int dim) {
    (void)target;
    return place(s, node, dim) % 2 == 0;
}

half_rule *half_plus = from_even;

int always_plus(nafthurm_shape s, int node, int target, int dim) { return (void)s, (void)node, (void)target, (void)dim, 1; }

/* The direction of a deterministic leg that travels in the dimension. */
static int way(nafthurm_shape s, int node, int target, int dim) {
    int plus = useful(s, node, target, 2 * dim), minus = useful(s, node, target, 2 * dim + 1);
    if (plus && minus) plus = half_plus(s, node, target, dim);
    return plus ? 2 * dim : 2 * dim + 1;
}

int leg_allows(nafthurm_shape s, int node, int target, int mode, int direction) {
    if (mode == 0) return useful(s, node, target, direction);
    for (int dim = 0; dim < 3; dim++)
        if (place(s, node, dim) != place(s, target, dim)) return direction == way(s, node, target, dim);
    return 0;
}

/* ---- Checks ---- */

uint8_t shape_number(nafthurm_shape s) {
    for (int dim = 0; dim < 3; dim++)
        if (extent(s, dim) < 1 || extent(s, dim) > 16) return 5;
    for (int dim = 0; dim < 3; dim++)
        if (wrapped(s, dim) && extent(s, dim) < 3) return 6;
    return s.wrap > 7 ? 6 : 0;
}

static uint8_t weights_number(nafthurm_weights w) { return w.x < 1 || w.x > 8 || w.y < 1 || w.y > 8 || w.z < 1 || w.z > 8 ? 16 : 0; }

uint8_t packet_number(nafthurm_shape s, nafthurm_packet packet) {
    uint8_t number = shape_number(s);
    if (number != 0) return number;
    if (packet.count > MOST_LEGS || packet.mark > packet.count || packet.source >= nodes_of(s) || packet.node >= nodes_of(s)) return 14;
    for (int leg = 0; leg < packet.count; leg++)
        if (packet.legs[leg].target >= nodes_of(s)) return 14;
    return 0;
}

int fault_exists(nafthurm_shape s, size_t node, int kind) {
    if (node >= (size_t)nodes_of(s) || kind > 3) return 0;
    return kind == 3 || over(s, (int)node, 2 * kind) >= 0;
}

/* 7, then 8, fault by fault. A fault is above another where its three bytes are. */
static uint8_t faults_number(nafthurm_shape s, const uint8_t *fault, const uint8_t *end) {
    for (const uint8_t *last = NULL; fault < end; last = fault, fault += 3) {
        if (!fault_exists(s, word(fault), fault[2])) return 7;
        if (last != NULL && memcmp(last, fault, 3) >= 0) return 8;
    }
    return 0;
}

static nafthurm_shape shape_in(const uint8_t *plan) { return (nafthurm_shape){plan[3], plan[4], plan[5], plan[6]}; }

static nafthurm_weights weights_in(const uint8_t *plan) {
    return plan[0] == 2 ? (nafthurm_weights){plan[7], plan[8], plan[9]} : (nafthurm_weights){1, 1, 1};
}

size_t head_size(int version) { return version == 2 ? 12 : 9; }

/* The fault count stands before the faults. */
uint8_t plan_number(const uint8_t *plan, size_t size) {
    if (size < 9 || size < head_size(plan[0])) return 1;
    if (plan[0] != 1 && plan[0] != 2) return 2;
    size_t head = head_size(plan[0]), count = word(plan + head - 2);
    if (count > 256) return 3;
    if (word(plan + 1) != size - 3 || word(plan + 1) != head - 3 + 3 * count) return 4;
    uint8_t number = shape_number(shape_in(plan));
    if (number == 0) number = weights_number(weights_in(plan));
    return number != 0 ? number : faults_number(shape_in(plan), plan + head, plan + size);
}

/* ---- Route sheets ---- */

size_t entry_size(int version) { return version == SHEET_VERSION ? 7 : 5; }

/* Leg one has the lowest bit: of 3, adaptive then deterministic, that is 18. */
int kind_in(int version, int byte) {
    static const int old[] = {NO_KIND, 1, 16, 18, 17, 19};
    if (version == SHEET_VERSION) return vias_of(byte) >= 0 ? byte : NO_KIND;
    return byte < 6 ? old[byte] : byte == 10 ? DEAD_KIND : byte == 11 ? NONE_KIND : NO_KIND;
}

int vias_of(int kind) {
    if (kind == 1 || kind == DEAD_KIND || kind == NONE_KIND) return 0;
    if (kind >= 16 && kind < 20) return 1;
    return kind >= 32 && kind < 40 ? 2 : -1;
}

/* The via in that place of an entry, 0 or 1. */
static size_t via_in(int version, const uint8_t *entry, int i) { return i == 0 || version == SHEET_VERSION ? word(entry + 3 + 2 * i) : 0; }

static int entry_good(nafthurm_shape s, int version, size_t source, const uint8_t *entry) {
    size_t nodes = (size_t)nodes_of(s), destination = word(entry);
    int vias = vias_of(kind_in(version, entry[2]));
    if (destination >= nodes || destination == source || vias < 0) return 0;
    for (int i = 0; i < 2; i++) {
        size_t via = via_in(version, entry, i);
        if (i < vias ? via >= nodes || via == source || via == destination : via != 0) return 0;
    }
    return vias < 2 || via_in(version, entry, 0) != via_in(version, entry, 1);
}

uint8_t sheet_number(nafthurm_shape s, int version, const uint8_t *sheet, size_t size) {
    size_t each = entry_size(version);
    if (size < 7 || sheet[0] != version) return 13;
    if (word(sheet + 1) != size - 3 || word(sheet + 1) != 4 + each * word(sheet + 5)) return 13;
    if (word(sheet + 3) >= (size_t)nodes_of(s)) return 13;
    for (const uint8_t *entry = sheet + 7; entry < sheet + size; entry += each) {
        if (!entry_good(s, version, word(sheet + 3), entry)) return 13;
        if (entry > sheet + 7 && word(entry) <= word(entry - each)) return 13;
    }
    return 0;
}

uint8_t read_number(nafthurm_shape s, const uint8_t *sheet, size_t size) {
    return sheet_number(s, size > 0 && sheet[0] == SECOND_VERSION ? SECOND_VERSION : SHEET_VERSION, sheet, size);
}

nafthurm_route refused_route(uint8_t number) { return (nafthurm_route){number, number == 10 ? DEAD_KIND : number == 11 ? NONE_KIND : NO_KIND, {0, 0}}; }

nafthurm_route model_entry(int version, const uint8_t *entry) {
    int kind = kind_in(version, entry[2]);
    if (kind == DEAD_KIND) return refused_route(10);
    if (kind == NONE_KIND) return refused_route(11);
    return (nafthurm_route){0, (uint8_t)kind, {(uint16_t)via_in(version, entry, 0), (uint16_t)via_in(version, entry, 1)}};
}

size_t entry_at(const uint8_t *sheet, size_t size, size_t destination) {
    for (size_t at = 7; at < size; at += entry_size(sheet[0]))
        if (word(sheet + at) == destination) return at;
    return size;
}

size_t model_back(const uint8_t *sheet, size_t size, uint8_t *out) {
    size_t each = entry_size(sheet[0]), follows = 4 + 7 * word(sheet + 5);
    const uint8_t head[] = {SHEET_VERSION, (uint8_t)(follows >> 8), (uint8_t)follows, sheet[3], sheet[4], sheet[5], sheet[6]};
    memcpy(out, head, sizeof head);
    out += 7;
    for (const uint8_t *entry = sheet + 7; entry < sheet + size; entry += each, out += 7) {
        memcpy(out, entry, 5);
        out[2] = (uint8_t)kind_in(sheet[0], entry[2]);
        size_t second = via_in(sheet[0], entry, 1);
        out[5] = (uint8_t)(second >> 8), out[6] = (uint8_t)second;
    }
    return 3 + follows;
}

/* ---- Old route sheets ---- */

int travels_half(nafthurm_shape s, int from, int to, int dim) { return wrapped(s, dim) && 2 * hops_along(s, dim, from, to) == extent(s, dim); }

/* Whether a deterministic leg goes another way than it did: at half a ring from an odd coordinate. */
static int goes_otherwise(nafthurm_shape s, int from, int to) {
    for (int dim = 0; dim < 3; dim++)
        if (travels_half(s, from, to, dim) && place(s, from, dim) % 2 == 1) return 1;
    return 0;
}

int entry_kept(nafthurm_shape s, int source, const uint8_t *entry) {
    int destination = (int)word(entry), via = (int)word(entry + 3);
    switch (entry[2]) {
    case 1: return !goes_otherwise(s, source, destination);
    case 3: return !goes_otherwise(s, via, destination);
    case 4: return !goes_otherwise(s, source, via);
    case 5: return !goes_otherwise(s, source, via) && !goes_otherwise(s, via, destination);
    case 11: return 0; /* there may be a route now */
    default: return 1; /* 2 has no deterministic leg, 10 no leg */
    }
}

nafthurm_converted model_convert(nafthurm_shape s, const uint8_t *sheet, size_t size, size_t room) {
    if (sheet_number(s, OLD_VERSION, sheet, size) != 0) return (nafthurm_converted){13, 0, 0};
    for (size_t entry = 0; 7 + 5 * entry < size; entry++)
        if (!entry_kept(s, (int)word(sheet + 3), sheet + 7 + 5 * entry)) return (nafthurm_converted){17, (uint16_t)entry, 0};
    return room < size ? (nafthurm_converted){12, 0, 0} : (nafthurm_converted){0, 0, size};
}

/* ---- Packets ---- */

int same_packet(nafthurm_packet a, nafthurm_packet b) {
    for (int i = 0; i < MOST_LEGS; i++)
        if (a.legs[i].target != b.legs[i].target || a.legs[i].mode != b.legs[i].mode) return 0;
    return a.source == b.source && a.node == b.node && a.count == b.count && a.mark == b.mark;
}

nafthurm_packet dropped(nafthurm_packet packet) {
    while (packet.mark < packet.count && packet.legs[packet.mark].target == packet.node) packet.mark++;
    return packet;
}

int arrived(nafthurm_packet packet) { return dropped(packet).mark == packet.count; }

nafthurm_packet renewed(nafthurm_packet packet) {
    packet.node = packet.source, packet.mark = 0;
    return dropped(packet);
}

int allowed(nafthurm_shape s, nafthurm_packet packet, int direction) {
    if (arrived(packet)) return 0;
    nafthurm_leg leg = packet.legs[dropped(packet).mark];
    return leg_allows(s, packet.node, leg.target, leg.mode, direction);
}

nafthurm_stepped model_step(nafthurm_shape s, nafthurm_packet packet, uint8_t direction) {
    uint8_t number = packet_number(s, packet);
    if (number == 0 && !allowed(s, packet, direction)) number = 15;
    if (number != 0) return (nafthurm_stepped){packet, number};
    nafthurm_packet after = dropped(packet);
    after.node = (uint16_t)over(s, after.node, direction);
    return (nafthurm_stepped){dropped(after), 0};
}

nafthurm_walked model_walk(nafthurm_shape s, nafthurm_packet packet, const uint8_t *directions, size_t size) {
    nafthurm_walked w = {packet, packet_number(s, packet), NAFTHURM_REFUSED, 0};
    if (w.number != 0) return w;
    for (; !arrived(w.packet); w.hops++) {
        w.ending = NAFTHURM_USED_UP;
        if (w.hops == size) return w;
        nafthurm_stepped hop = model_step(s, w.packet, directions[w.hops]);
        w.ending = NAFTHURM_NOT_ALLOWED, w.number = hop.number;
        if (hop.number != 0) return w;
        w.packet = hop.packet;
    }
    w.ending = NAFTHURM_ARRIVED;
    return w;
}

/* Whether a walk of the leg from a node passes another one: it goes there by hops that the leg allows and that come nearer to it. */
static int passes(nafthurm_shape s, int from, int by, nafthurm_leg leg) {
    for (int at = from; at != by;) {
        int next = -1;
        for (int d = 0; d < 6 && next < 0; d++)
            if (leg_allows(s, at, leg.target, leg.mode, d) && useful(s, at, by, d)) next = over(s, at, d);
        if (next < 0) return 0;
        at = next;
    }
    return 1;
}

/* Whether some walk of the current leg, from where that begins, has come to the packet, and goes on. */
static int under_way(nafthurm_shape s, nafthurm_packet packet) {
    if (packet.mark == packet.count || packet.legs[packet.mark].target == packet.node) return 0;
    return passes(s, packet.mark == 0 ? packet.source : packet.legs[packet.mark - 1].target, packet.node, packet.legs[packet.mark]);
}

nafthurm_stepped model_take_back(nafthurm_shape s, nafthurm_packet packet, uint8_t direction) {
    uint8_t number = packet_number(s, packet);
    int node = number == 0 && direction < 6 ? over(s, packet.node, direction ^ 1) : -1;
    for (uint8_t mark = 0; node >= 0 && mark <= packet.mark; mark++) {
        nafthurm_packet before = packet;
        before.node = (uint16_t)node, before.mark = mark;
        if (!under_way(s, before)) continue;
        nafthurm_stepped hop = model_step(s, before, direction);
        if (hop.number == 0 && same_packet(hop.packet, packet)) return (nafthurm_stepped){before, 0};
    }
    return (nafthurm_stepped){packet, number ? number : 18};
}

int reached(nafthurm_shape s, nafthurm_packet packet) {
    int is = same_packet(packet, renewed(packet));
    for (uint8_t d = 0; d < 6; d++) is = is || model_take_back(s, packet, d).number == 0;
    return is;
}

void search_back(nafthurm_shape s, nafthurm_packet packet, int found[6], nafthurm_packet before[6]) {
    uint8_t seen[MODEL_NODES][MOST_LEGS + 1] = {{0}};
    nafthurm_packet todo[MODEL_NODES * (MOST_LEGS + 1)] = {renewed(packet)};
    int count = 1;
    memset(found, 0, 6 * sizeof *found);
    while (count > 0) {
        nafthurm_packet earlier = todo[--count];
        for (uint8_t d = 0; d < 6; d++) {
            nafthurm_stepped hop = model_step(s, earlier, d);
            if (hop.number != 0) continue;
            if (same_packet(hop.packet, packet)) before[d] = earlier, found[d]++;
            uint8_t *noted = &seen[hop.packet.node][hop.packet.mark];
            if (!*noted) *noted = 1, todo[count++] = hop.packet;
        }
    }
}

/* ---- Plans ---- */

static void lose(model_plan *plan, int node, int direction) {
    int to = over(plan->shape, node, direction);
    if (to < 0) return;
    plan->lost[node] |= (uint8_t)(1 << direction);
    plan->lost[to] |= (uint8_t)(1 << (direction ^ 1));
}

static void lose_fault(model_plan *plan, int node, int kind) {
    if (kind < 3) {
        lose(plan, node, 2 * kind);
        return;
    }
    plan->dead[node] = 1;
    for (int d = 0; d < 6; d++) lose(plan, node, d);
}

void read_plan(model_plan *plan, const uint8_t *bytes) {
    size_t head = head_size(bytes[0]);
    *plan = (model_plan){.shape = shape_in(bytes), .weights = weights_in(bytes)};
    for (size_t i = 0; i < word(bytes + head - 2); i++) lose_fault(plan, (int)word(bytes + head + 3 * i), bytes[head + 2 + 3 * i]);
}

int apart(const model_plan *plan, int from, int to) { return distance(plan->shape, plan->weights, from, to); }

/* Puts the nodes that the leg can come to next; false where a dead link leads there. */
static int go_on(const model_plan *plan, int node, int target, int mode, uint8_t *seen, int *todo, int *count) {
    for (int d = 0; d < 6; d++) {
        if (!leg_allows(plan->shape, node, target, mode, d)) continue;
        if (plan->lost[node] >> d & 1) return 0;
        int to = over(plan->shape, node, d);
        if (!seen[to]) seen[to] = 1, todo[(*count)++] = to;
    }
    return 1;
}

int leg_clear(const model_plan *plan, int from, int target, int mode) {
    uint8_t seen[4096];
    int todo[4096], count = 1;
    memset(seen, 0, (size_t)nodes_of(plan->shape));
    seen[from] = 1, todo[0] = from;
    while (count > 0)
        if (!go_on(plan, todo[--count], target, mode, seen, todo, &count)) return 0;
    return 1;
}

static int is_clear(model_plan *plan, int from, int target, int mode) {
    if (nodes_of(plan->shape) > MODEL_NODES) return leg_clear(plan, from, target, mode);
    uint8_t *noted = &plan->noted[mode][from][target];
    if (*noted == 0) *noted = leg_clear(plan, from, target, mode) ? 1 : 2;
    return *noted == 1;
}

/* A choice is earlier by its length, its deterministic legs, its vias, its first via, its second, and its modes leg by leg; one of length -1 is none. */
typedef struct {
    int length;
    int64_t rank;
    nafthurm_route route;
} choice;

/* Whether the legs to these stops are clear. `modes` has a bit for each deterministic one, leg one lowest. */
static int all_clear(model_plan *plan, int source, const int *stops, int legs, int modes) {
    for (int leg = 0; leg < legs; leg++)
        if (!is_clear(plan, leg == 0 ? source : stops[leg - 1], stops[leg], modes >> leg & 1)) return 0;
    return 1;
}

static int64_t rank_of(const int *stops, int legs, int modes) {
    int deterministic = 0, in_order = 0, vias = legs - 1;
    for (int leg = 0; leg < legs; leg++) deterministic += modes >> leg & 1, in_order = 2 * in_order + (modes >> leg & 1);
    return ((((int64_t)deterministic * 3 + vias) * 4096 + (vias > 0 ? stops[0] : 0)) * 4096 + (vias > 1 ? stops[1] : 0)) * 8 + in_order;
}

/* Takes the earliest clear choice by these stops, the last of which is the destination, where it is earlier than the best. */
static void try_stops(model_plan *plan, int source, const int *stops, int legs, choice *best) {
    int length = apart(plan, source, stops[0]), vias = legs - 1;
    for (int leg = 1; leg < legs; leg++) length += apart(plan, stops[leg - 1], stops[leg]);
    if (best->length >= 0 && best->length < length) return;
    for (int modes = 0; modes < 1 << legs; modes++) {
        int64_t rank = rank_of(stops, legs, modes);
        if (best->length == length && best->rank < rank) continue;
        if (!all_clear(plan, source, stops, legs, modes)) continue;
        *best = (choice){length, rank, {0, (uint8_t)(16 * vias + modes), {(uint16_t)(vias > 0 ? stops[0] : 0), (uint16_t)(vias > 1 ? stops[1] : 0)}}};
    }
}

nafthurm_planned first_choice(model_plan *plan, int source, int destination) {
    if (source == destination) return (nafthurm_planned){{0, 0, {0, 0}}, 0};
    choice best = {.length = -1};
    int nodes = nodes_of(plan->shape);
    try_stops(plan, source, (int[]){destination}, 1, &best);
    if (best.length >= 0 && best.route.kind == 0) return (nafthurm_planned){best.route, (uint16_t)best.length}; /* none is earlier */
    for (int via = 0; via < nodes; via++) {
        if (via == source || via == destination) continue;
        if (best.length >= 0 && best.length < apart(plan, source, via) + apart(plan, via, destination)) continue; /* nor by a second via is it as short */
        try_stops(plan, source, (int[]){via, destination}, 2, &best);
        for (int second = 0; second < nodes; second++)
            if (second != source && second != destination && second != via) try_stops(plan, source, (int[]){via, second, destination}, 3, &best);
    }
    return best.length < 0 ? (nafthurm_planned){refused_route(11), 0} : (nafthurm_planned){best.route, (uint16_t)best.length};
}

nafthurm_planned model_pair(model_plan *plan, size_t source, size_t destination) {
    size_t nodes = (size_t)nodes_of(plan->shape);
    if (source >= nodes || destination >= nodes) return (nafthurm_planned){refused_route(9), 0};
    if (plan->dead[source] || plan->dead[destination]) return (nafthurm_planned){refused_route(10), 0};
    return first_choice(plan, (int)source, (int)destination);
}
