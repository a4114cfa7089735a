/*
 * fuzz [--seed N] [--count N] [--lines]
 *
 * Hands every call of the library made, damaged and random input, and holds it to what is claimed of every input: no byte outside the lent parts is
 * touched, a refusal changes nothing and has the number that the model says, an accepted sheet is written back as the same bytes, a route sheet of version 2 as
 * version 3, an old one is converted where its walks are the same now, each hop, walk and hop taken back is the model's, a planned route is the model's on small plans, its length is the weight of its
 * hops, and its packet, by whatever hops are allowed, arrives after the route's hops without crossing a dead link, and by these taken back is new again.
 * --lines prints cases with the library's answers instead, for against-reference.
 */
#include "lent.h"
#include "made.h"
#include "model.h"
#include "random_lines.h"

#include <inttypes.h>
#include <stdio.h>
#include <stdlib.h>
#include <string.h>

static lent plan, sheet, out, work, directions;
static uint64_t inputs, calls, refused, converted, not_kept, hops_taken, taken_back, arrivals, longest, heaviest, by_two;

/* What the model says of the lent plan: the number, and the plan where that is 0. */
static uint8_t plan_refused;
static model_plan model;

static void lend_plan(void) {
    lend(&plan, a_plan.at, a_plan.size);
    plan_refused = plan_number(plan.bytes, plan.size);
    model = (model_plan){0};
    if (plan_refused == 0) read_plan(&model, plan.bytes);
}

static void lend_both(void) {
    lend_plan();
    lend(&sheet, a_sheet.at, a_sheet.size);
    inputs++;
}

static void lend_out(size_t size) { lend_filled(&out, any_byte(), size); }

static int plan_nodes(void) { return nodes_of(model.shape); }

/* A node of the plan or a number outside it; of a refused plan any number. */
static uint16_t plan_node(void) { return any_node(plan_nodes() ? plan_nodes() : 16); }

/* A writing call, whose checks but 12 give `number`, of bytes that are known where there is no refusal. */
static void check_written(nafthurm_written w, uint8_t number, const uint8_t *written, size_t size) {
    calls++;
    check_around(&out);
    if (number == 0 && out.size < size) number = 12;
    HOLD(w.number == number);
    if (number != 0) {
        refused++;
        HOLD(w.size == 0);
        check_kept(&out);
        return;
    }
    HOLD(w.size == size);
    HOLD(memcmp(out.bytes, written, size) == 0);
    HOLD(memcmp(out.bytes + size, out.copy + size, out.size - size) == 0);
}

/* ---- Packets ---- */

static nafthurm_stepped step(nafthurm_shape s, nafthurm_packet packet, uint8_t direction) {
    nafthurm_stepped r = nafthurm_step(s, packet, direction), wanted = model_step(s, packet, direction);
    calls++;
    refused += r.number != 0;
    HOLD(r.number == wanted.number);
    HOLD(same_packet(r.packet, wanted.packet));
    return r;
}

static nafthurm_walked walk(nafthurm_shape s, nafthurm_packet packet, const uint8_t *run, size_t size) {
    lend(&directions, run, size);
    nafthurm_walked w = nafthurm_walk(s, packet, directions.bytes, directions.size), wanted = model_walk(s, packet, run, size);
    calls++;
    refused += w.number != 0;
    check_kept(&directions);
    HOLD(w.number == wanted.number && w.ending == wanted.ending);
    HOLD(w.hops == wanted.hops);
    HOLD(same_packet(w.packet, wanted.packet));
    return w;
}

static nafthurm_stepped back(nafthurm_shape s, nafthurm_packet packet, uint8_t direction) {
    nafthurm_stepped r = nafthurm_take_back(s, packet, direction), wanted = model_take_back(s, packet, direction);
    calls++;
    refused += r.number != 0, taken_back += r.number == 0;
    HOLD(r.number == wanted.number);
    HOLD(same_packet(r.packet, wanted.packet));
    return r;
}

/* A step and then its direction taken back, which give the packet where allowed hops reach it; the direction taken back and then a step, which give it always. */
static void there_and_back(nafthurm_shape s, nafthurm_packet packet, uint8_t direction, int is_reached) {
    nafthurm_stepped later = step(s, packet, direction), earlier = back(s, packet, direction);
    if (later.number == 0) {
        nafthurm_stepped again = back(s, later.packet, direction);
        HOLD(!is_reached || (again.number == 0 && same_packet(again.packet, packet)));
    }
    if (earlier.number != 0) return;
    nafthurm_stepped again = step(s, earlier.packet, direction);
    HOLD(is_reached && again.number == 0 && same_packet(again.packet, packet));
}

/* By every allowed walk, on a small machine: one packet at most leads to this one by a hop, and that is taken back. */
static void try_search(nafthurm_shape s, nafthurm_packet packet, int is_reached) {
    int found[6], any = 0;
    nafthurm_packet before[6];
    search_back(s, packet, found, before);
    for (uint8_t d = 0; d < 6; d++) {
        nafthurm_stepped earlier = back(s, packet, d);
        HOLD(found[d] == (earlier.number == 0));
        HOLD(found[d] == 0 || same_packet(earlier.packet, before[d]));
        any |= found[d];
    }
    HOLD(is_reached == (any || same_packet(packet, renewed(packet))));
}

static void try_packet(nafthurm_shape s, nafthurm_packet packet) {
    uint8_t run[RUN_MOST] = {0}, number = packet_number(s, packet);
    int is_reached = number == 0 && reached(s, packet);
    calls++;
    HOLD(nafthurm_packet_check(s, packet) == number);
    for (uint8_t d = 0; d < 8; d++) there_and_back(s, packet, d < 7 ? d : any_byte(), is_reached);
    if (number == 0 && nodes_of(s) <= MODEL_NODES) try_search(s, packet, is_reached);
    walk(s, packet, run, 0);
    size_t size = number ? below(RUN_MOST) : made_run(s, packet, run);
    walk(s, packet, run, size);
}

/* The new packet of a route that is not refused. */
static nafthurm_packet new_packet(uint16_t source, uint16_t destination, nafthurm_route route) {
    nafthurm_packet packet = nafthurm_new_packet(source, destination, route);
    int vias = route.kind / 16;
    calls++;
    HOLD(packet.source == source && packet.count == vias + 1 && same_packet(packet, renewed(packet)));
    for (int leg = 0; leg <= vias; leg++)
        HOLD(packet.legs[leg].target == (leg < vias ? route.via[leg] : destination) && packet.legs[leg].mode == (route.kind >> leg & 1));
    return packet;
}

static void one_packet(void) {
    nafthurm_shape s = packet_shape();
    nafthurm_packet packet = any_packet(s);
    if (chance(10)) {
        if (chance(40)) packet = hurt_packet(s, packet);
        s = hurt_shape(s);
    }
    try_packet(s, packet);
}

/* The sum of the distances of a new packet's legs: in hops under weights of 1. */
static int length_of(nafthurm_shape s, nafthurm_weights w, nafthurm_packet packet) {
    int sum = 0, at = packet.source;
    for (int leg = 0; leg < packet.count; leg++) sum += distance(s, w, at, packet.legs[leg].target), at = packet.legs[leg].target;
    return sum;
}

/* One allowed hop at random, after each direction has been tried; false where none is allowed. `sound`: no dead link may be crossed. */
static int travel_on(nafthurm_shape s, nafthurm_packet *packet, uint8_t *taken, int sound) {
    int ways = 0;
    uint8_t by[6];
    for (uint8_t d = 0; d < 7; d++) {
        if (step(s, *packet, (uint8_t)(d < 6 ? d : 6 + below(250))).number != 0) continue;
        if (sound) HOLD(!nafthurm_dead_link(plan.bytes, plan.size, packet->node, d));
        by[ways++] = d;
    }
    if (ways == 0) return 0;
    *taken = by[below((uint32_t)ways)];
    *packet = step(s, *packet, *taken).packet;
    if (sound) HOLD(!nafthurm_dead_node(plan.bytes, plan.size, packet->node));
    return 1;
}

/* The walk of the hops taken, with a byte more, cut short, and with a wrong byte. */
static void walk_again(nafthurm_shape s, nafthurm_packet first, nafthurm_packet last, uint8_t *taken, size_t hops) {
    nafthurm_walked w = walk(s, first, taken, hops);
    HOLD(w.ending == NAFTHURM_ARRIVED && w.hops == hops && same_packet(w.packet, last));
    taken[hops] = any_byte();
    w = walk(s, first, taken, hops + 1);
    HOLD(w.ending == NAFTHURM_ARRIVED && w.hops == hops && same_packet(w.packet, last));
    if (hops == 0) return;
    size_t part = below((uint32_t)hops);
    w = walk(s, first, taken, part);
    HOLD(w.ending == NAFTHURM_USED_UP && w.hops == part);
    taken[part] = (uint8_t)(6 + below(250));
    nafthurm_walked wrong = walk(s, first, taken, hops);
    HOLD(wrong.ending == NAFTHURM_NOT_ALLOWED && wrong.hops == part && same_packet(wrong.packet, w.packet));
}

/* The hops taken back, from the last to the first; now and then another direction is tried. */
static void travel_back(nafthurm_shape s, nafthurm_packet first, nafthurm_packet last, const uint8_t *taken, int hops) {
    nafthurm_packet packet = last;
    while (hops > 0) {
        if (chance(20)) back(s, packet, (uint8_t)below(8));
        nafthurm_stepped earlier = back(s, packet, taken[--hops]);
        HOLD(earlier.number == 0);
        packet = earlier.packet;
    }
    HOLD(same_packet(packet, first));
    HOLD(back(s, packet, (uint8_t)below(8)).number == 18);
}

/* By allowed hops at random to the end, and back. */
static void travel(nafthurm_shape s, nafthurm_packet first, uint16_t destination, int sound) {
    uint8_t taken[3 * 45 + 1];
    int count = 0, wanted = length_of(s, (nafthurm_weights){1, 1, 1}, first);
    nafthurm_packet packet = first;
    HOLD(nafthurm_packet_check(s, packet) == 0);
    for (; travel_on(s, &packet, taken + count, sound); count++) HOLD(count < wanted);
    HOLD(packet.node == destination);
    HOLD(count == wanted);
    hops_taken += (uint64_t)count, arrivals++;
    if (longest < (uint64_t)count) longest = (uint64_t)count;
    travel_back(s, first, packet, taken, count);
    walk_again(s, first, packet, taken, (size_t)count);
}

/* ---- Plan sheets ---- */

static void try_dead(uint16_t node, uint8_t direction) {
    int inside = node < plan_nodes();
    calls += 2;
    HOLD(nafthurm_dead_node(plan.bytes, plan.size, node) == (inside && model.dead[node]));
    HOLD(nafthurm_dead_link(plan.bytes, plan.size, node, direction) == (inside && direction < 6 && model.lost[node] >> direction & 1));
}

static void try_plan(void) {
    nafthurm_shape s = nafthurm_plan_shape(plan.bytes, plan.size);
    nafthurm_weights w = nafthurm_plan_weights(plan.bytes, plan.size);
    calls += 3;
    HOLD(nafthurm_plan_check(plan.bytes, plan.size) == plan_refused);
    HOLD(s.x == model.shape.x && s.y == model.shape.y && s.z == model.shape.z && s.wrap == model.shape.wrap);
    HOLD(w.x == model.weights.x && w.y == model.weights.y && w.z == model.weights.z);
    for (int i = 0; i < 4; i++) try_dead(plan_node(), (uint8_t)below(8));
    lend_out(some_room(plan.size));
    check_written(nafthurm_plan_write_back(plan.bytes, plan.size, out.bytes, out.size), plan_refused, plan.copy, plan.size);
}

/* ---- Planning ---- */

static int same_route(nafthurm_route a, nafthurm_route b) { return a.number == b.number && a.kind == b.kind && a.via[0] == b.via[0] && a.via[1] == b.via[1]; }

/* The number with which the pair is refused before any choice is looked for, or 0. */
static uint8_t pair_number(uint16_t source, uint16_t destination) {
    if (plan_refused != 0) return plan_refused;
    if (source >= plan_nodes() || destination >= plan_nodes()) return 9;
    return model.dead[source] || model.dead[destination] ? 10 : 0;
}

static void try_refused_pair(nafthurm_planned p, uint8_t number, uint16_t source, uint16_t destination) {
    refused++;
    HOLD(same_route(p.route, refused_route(number ? number : 11)) && p.length == 0);
    HOLD(nafthurm_packet_check(model.shape, nafthurm_new_packet(source, destination, p.route)) == (plan_refused ? 5 : 14));
}

/* Of a route: nodes of the plan, none of them an end, and different; absent ones are 0. */
static void check_vias(nafthurm_route r, uint16_t source, uint16_t destination) {
    int vias = r.kind == 0 ? 0 : vias_of(r.kind);
    HOLD(r.kind < DEAD_KIND && vias >= 0);
    for (int i = 0; i < 2; i++)
        HOLD(i < vias ? r.via[i] < plan_nodes() && r.via[i] != source && r.via[i] != destination : r.via[i] == 0);
    HOLD(vias < 2 || r.via[0] != r.via[1]);
    if (vias == 2) by_two++;
}

static nafthurm_planned try_pair(uint16_t source, uint16_t destination) {
    nafthurm_planned p = nafthurm_pair(plan.bytes, plan.size, source, destination);
    uint8_t number = pair_number(source, destination);
    calls++;
    if (number == 0 && plan_nodes() <= MODEL_NODES) {
        nafthurm_planned wanted = first_choice(&model, source, destination);
        HOLD(same_route(p.route, wanted.route));
        HOLD(p.length == wanted.length);
    }
    if (number != 0 || p.route.number != 0) {
        try_refused_pair(p, number, source, destination);
        return p;
    }
    check_vias(p.route, source, destination);
    nafthurm_packet first = new_packet(source, destination, p.route);
    HOLD(p.length == length_of(model.shape, model.weights, first));
    if (heaviest < p.length) heaviest = p.length;
    travel(model.shape, first, destination, 1);
    return p;
}

/* ---- Route sheets ---- */

/* The number with which a sheet from the source is refused, or 0. */
static uint8_t source_number(uint16_t source) {
    if (plan_refused != 0) return plan_refused;
    return source >= plan_nodes() ? 9 : model.dead[source] ? 10 : 0;
}

/* Of the lent sheet, which is a good one and not empty. */
static const uint8_t *some_entry(void) {
    size_t each = entry_size(sheet.bytes[0]);
    return sheet.bytes + 7 + each * below((uint32_t)((sheet.size - 7) / each));
}

/* The lookup in a sheet that is refused with `number`. */
static nafthurm_route try_lookup(uint8_t number, uint16_t destination) {
    nafthurm_part part = nafthurm_lookup(plan.bytes, plan.size, sheet.bytes, sheet.size, destination);
    nafthurm_route r = nafthurm_lookup_route(plan.bytes, plan.size, sheet.bytes, sheet.size, destination);
    calls += 2;
    if (number == 0 && destination >= plan_nodes()) number = 9;
    size_t at = number ? sheet.size : entry_at(sheet.bytes, sheet.size, destination);
    if (at == sheet.size) {
        HOLD(part.start == 0 && part.size == 0);
        HOLD(same_route(r, number ? refused_route(number) : (nafthurm_route){0, 0, {0, 0}}));
        return r;
    }
    HOLD(part.start == at && part.size == entry_size(sheet.bytes[0]));
    HOLD(same_route(r, model_entry(sheet.bytes[0], sheet.bytes + at)));
    return r;
}

/* Converting the lent sheet: its version alone is another. */
static uint8_t try_convert(size_t room) {
    static uint8_t wanted_bytes[BYTES_MOST];
    nafthurm_converted wanted = plan_refused ? (nafthurm_converted){plan_refused, 0, 0} : model_convert(model.shape, sheet.bytes, sheet.size, room);
    lend_out(room);
    nafthurm_converted c = nafthurm_convert(plan.bytes, plan.size, sheet.bytes, sheet.size, out.bytes, out.size);
    check_kept(&sheet);
    memcpy(wanted_bytes, sheet.copy, sheet.size);
    wanted_bytes[0] = SECOND_VERSION;
    check_written((nafthurm_written){c.number, c.size}, wanted.number, wanted_bytes, sheet.size);
    HOLD(c.entry == wanted.entry);
    converted += c.number == 0, not_kept += c.number == 17;
    return c.number;
}

/* Version 3 comes back as the same bytes. */
static void try_write_back(uint8_t number) {
    static uint8_t again[NAFTHURM_SHEET_BYTES];
    size_t size = number ? sheet.size : model_back(sheet.bytes, sheet.size, again);
    HOLD(number != 0 || sheet.bytes[0] != SHEET_VERSION || (size == sheet.size && memcmp(again, sheet.bytes, size) == 0));
    lend_out(some_room(chance(90) ? size : sheet.size));
    check_written(nafthurm_sheet_write_back(plan.bytes, plan.size, sheet.bytes, sheet.size, out.bytes, out.size), number, again, size);
}

static void try_sheet(void) {
    uint8_t number = plan_refused ? plan_refused : read_number(model.shape, sheet.bytes, sheet.size);
    calls++;
    HOLD(nafthurm_sheet_check(plan.bytes, plan.size, sheet.bytes, sheet.size) == number);
    try_write_back(number);
    try_convert(some_room(sheet.size));
    for (int i = 0; i < 4; i++) {
        int listed = number == 0 && sheet.size > 7 && chance(50);
        uint16_t destination = listed ? (uint16_t)word(some_entry()) : plan_node();
        nafthurm_route r = try_lookup(number, destination);
        if (r.number != 0) continue;
        nafthurm_packet first = new_packet((uint16_t)word(sheet.bytes + 3), destination, r);
        travel(model.shape, first, destination, 0);
    }
}

/* ---- Old route sheets ---- */

/* An entry of the lent sheet can be kept exactly where a whole walk of the time when every half ring went plus is one now. */
static void try_kept(const uint8_t *entry) {
    if (entry[2] >= 10) return;
    uint8_t run[RUN_MOST];
    uint16_t source = (uint16_t)word(sheet.bytes + 3);
    nafthurm_packet first = new_packet(source, (uint16_t)word(entry), model_entry(OLD_VERSION, entry));
    half_rule *now = half_plus;
    half_plus = always_plus;
    size_t size = whole_run(model.shape, first, run);
    half_plus = now;
    HOLD((walk(model.shape, first, run, size).ending == NAFTHURM_ARRIVED) == entry_kept(model.shape, source, entry));
}

/* By every call; where all entries can be kept, ordinary reading takes the converted sheet. */
static void try_old_sheet(void) {
    try_sheet();
    if (plan_refused != 0 || sheet_number(model.shape, OLD_VERSION, sheet.bytes, sheet.size) != 0) return;
    for (int i = 0; i < 4 && sheet.size > 7; i++) try_kept(some_entry());
    if (try_convert(sheet.size) != 0) return;
    lend(&sheet, out.bytes, out.size);
    try_sheet();
}

/* Every length that the sheet can be cut to, up to some bytes. */
static void try_cut_short(void) {
    for (size_t size = 0; size < a_sheet.size && size < 200; size++) {
        lend(&sheet, a_sheet.at, size);
        try_convert(some_room(size));
    }
}

/* ---- Planned sheets ---- */

/* Of each destination, or of so many at random, the lent sheet says what planning the pair says. */
static void try_planned(uint16_t source, uint32_t destinations) {
    uint32_t nodes = (uint32_t)plan_nodes();
    for (uint32_t i = 0; i < destinations && i < nodes; i++) {
        uint16_t destination = (uint16_t)(destinations < nodes ? below(nodes) : i);
        nafthurm_route r = try_lookup(0, destination);
        HOLD(same_route(r, try_pair(source, destination).route));
    }
}

/* The sheet that planning writes, of any source. */
static void try_write_sheet(uint16_t source, uint32_t destinations) {
    static uint8_t written[NAFTHURM_SHEET_BYTES];
    uint8_t number = source_number(source);
    lend_out(number ? some_room(100) : NAFTHURM_SHEET_BYTES);
    nafthurm_written w = nafthurm_write_sheet(plan.bytes, plan.size, source, out.bytes, out.size);
    size_t size = w.size;
    HOLD(size <= NAFTHURM_SHEET_BYTES);
    memcpy(written, out.bytes, size);
    check_written(w, number, written, size);
    if (number != 0) return;
    if (plan_nodes() <= 512) {
        lend_out(some_room(size));
        check_written(nafthurm_write_sheet(plan.bytes, plan.size, source, out.bytes, out.size), 0, written, size);
    }
    lend(&sheet, written, size);
    HOLD(nafthurm_sheet_check(plan.bytes, plan.size, sheet.bytes, sheet.size) == 0);
    HOLD(sheet_number(model.shape, SHEET_VERSION, sheet.bytes, sheet.size) == 0);
    HOLD(word(sheet.bytes + 3) == source);
    try_planned(source, destinations);
}

/* ---- All sheets ---- */

/* Sheets of boards from some board on as nafthurm_write_sheet writes them, one behind the other, up to the board `behind`: board b's begins at byte begins[b]. */
static struct {
    int behind;
    uint8_t bytes[4 * NAFTHURM_SHEET_BYTES];
    size_t begins[4097];
} row;

/* So many sheets, or as many as are left. */
static void write_row(int from, int sheets) {
    int b = from;
    for (row.begins[b] = 0; b < plan_nodes() && sheets > 0; b++) {
        size_t at = row.begins[b];
        nafthurm_written w = nafthurm_write_sheet(plan.bytes, plan.size, (uint16_t)b, row.bytes + at, sizeof row.bytes - at);
        row.begins[b + 1] = at + w.size;
        sheets -= w.number == 0;
    }
    row.behind = b;
}

/* A room that ends with some sheet behind the board, or a byte before or behind it. */
static size_t run_room(int from) {
    size_t size = row.begins[from + 1 + (int)below((uint32_t)(row.behind - from))] - row.begins[from];
    switch (below(4)) {
    case 0: return size + 1;
    case 1: return size > 0 ? size - 1 : 0;
    default: return size;
    }
}

/* A run with a workspace of so many words. Where no check but 12 declines it, the row has its sheets and the first that does not fit. */
static nafthurm_run try_run(uint16_t from, size_t words, size_t room) {
    uint8_t number = plan_refused ? plan_refused : from >= plan_nodes() ? 9 : words < 512 * (size_t)plan_nodes() ? NAFTHURM_FEW_WORDS : 0;
    lend_filled(&work, any_byte(), 2 * words);
    lend_out(room);
    nafthurm_run r = nafthurm_all_sheets(plan.bytes, plan.size, from, (uint16_t *)work.bytes, words, out.bytes, out.size);
    check_around(&work);
    if (number != 0) check_kept(&work);
    int next = from;
    while (number == 0 && next < row.behind && row.begins[next + 1] - row.begins[from] <= room) next++;
    size_t size = number ? 0 : row.begins[next] - row.begins[from];
    if (number == 0 && size == 0 && next < plan_nodes()) number = 12;
    HOLD(r.next == (number ? 0 : next));
    check_written((nafthurm_written){r.number, r.size}, number, number ? NULL : row.bytes + row.begins[from], size);
    return r;
}

/* Refusals, whose numbers come before anything is planned. */
static void try_no_run(void) {
    uint16_t from = plan_node();
    size_t words = 512 * (size_t)plan_nodes();
    if (plan_refused != 0 || from >= plan_nodes()) try_run(from, chance(50) ? words : below(100), some_room(100));
    else if (plan_nodes() <= 512) try_run(from, ONE_OF(0, 1) ? words - 1 : below((uint32_t)words), some_room(100));
}

/* All sheets by runs into as many bytes each; single runs from anywhere. */
static void try_all_sheets(void) {
    int nodes = plan_nodes();
    size_t words = 512 * (size_t)nodes, longest = 7;
    try_no_run();
    if (plan_refused != 0) return;
    write_row(0, nodes);
    HOLD(row.behind == nodes);
    for (int b = 0; b < nodes; b++)
        if (longest < row.begins[b + 1] - row.begins[b]) longest = row.begins[b + 1] - row.begins[b];
    size_t room = longest + below((uint32_t)(row.begins[nodes] + 1));
    for (int from = 0; from < nodes;) {
        nafthurm_run r = try_run((uint16_t)from, words, room);
        HOLD(r.number == 0 && r.next > from);
        from = r.next;
    }
    for (int i = 0; i < 3; i++) {
        uint16_t from = (uint16_t)below((uint32_t)nodes);
        try_run(from, words + below(3), run_room(from));
    }
}

/* On a machine of any size the run of up to four boards. */
static void try_few_boards(void) {
    if (plan_refused != 0) return;
    int nodes = plan_nodes(), from = chance(30) && nodes > 4 ? nodes - 4 : (int)below((uint32_t)nodes);
    write_row(from, 4);
    size_t room = run_room(from), all = row.begins[row.behind];
    try_run((uint16_t)from, 512 * (size_t)nodes, row.behind < nodes && room >= all ? all - 1 : room);
}

/* The listing of the plan that is lent: its lines are what planning the pairs says. */
static void try_listing(uint16_t source) {
    static uint8_t input[2 + BYTES_MOST];
    static char text[NAFTHURM_LISTING_BYTES];
    uint8_t number = source_number(source);
    int size = number ? sprintf(text, "refused %d\n", number) : sprintf(text, "%d %d %zu\n", source, plan_nodes(), word(plan.bytes + head_size(plan.bytes[0]) - 2));
    for (int d = 0; number == 0 && d < plan_nodes(); d++) {
        nafthurm_planned p = nafthurm_pair(plan.bytes, plan.size, source, (uint16_t)d);
        size += sprintf(text + size, "%d %d ", d, p.route.kind);
        for (int i = 0; i < 2; i++) size += p.route.number == 0 && p.route.kind / 16 > i ? sprintf(text + size, "%d ", p.route.via[i]) : sprintf(text + size, "- ");
        size += p.route.number == 0 ? sprintf(text + size, "%d\n", p.length) : sprintf(text + size, "-\n");
    }
    input[0] = (uint8_t)(source >> 8), input[1] = (uint8_t)source;
    memcpy(input + 2, plan.copy, plan.size);
    lend(&sheet, input, plan.size + 2);
    lend_out(some_room((size_t)size));
    check_written(nafthurm_listing(sheet.bytes, sheet.size, out.bytes, out.size), 0, (const uint8_t *)text, (size_t)size);
}

/* ---- Inputs ---- */

/* The largest machine, with up to 256 faults, and the largest sheets. */
static void one_largest(void) {
    nafthurm_shape s = {16, 16, 16, (uint8_t)below(8)};
    if (chance(50)) s = make_limit_plan();
    else make_plan(s, (int)below(20));
    (chance(50) ? make_sheet : make_old_sheet)(s, chance(50) ? 100 : 60);
    if (chance(30)) damage_sheet();
    lend_both();
    try_plan();
    try_old_sheet();
    try_write_sheet(plan_node(), 4);
    try_few_boards();
}

static void one_random(void) {
    random_bytes(&a_plan, below(400));
    random_bytes(&a_sheet, below(400));
    lend_both();
    try_plan();
    uint16_t source = any_node(16), destination = any_node(16);
    try_pair(source, destination);
    if (plan_refused != 0) try_write_sheet(source, 4), try_listing(source);
    lend(&sheet, a_sheet.at, a_sheet.size);
    try_sheet();
}

static void one_plan(void) {
    plan_for_reading();
    lend_both();
    try_plan();
    uint16_t source = plan_node(), destination = plan_node();
    if (pair_number(source, destination) != 0) try_pair(source, destination);
    if (source_number(source) != 0) try_write_sheet(source, 0), try_listing(source);
    if (chance(20)) try_no_run();
}

static void one_pair(void) {
    nafthurm_shape s = any_plan(ONE_OF(12, 64, 64, 64, 512), 10);
    lend_both();
    try_plan();
    ends e = some_ends(s);
    try_pair(e.source, e.destination);
}

/* Long ways: from end to end of a large machine, or there and back. */
static void one_long_pair(void) {
    if (chance(50)) {
        nafthurm_shape s = {16, 16, 16, 0};
        make_plan(s, (int)below(3));
        lend_both();
        uint16_t source = corner(s), destination = corner(s);
        try_pair(source, destination);
        return;
    }
    nafthurm_shape s = make_far_vias();
    lend_both();
    int last = nodes_of(s) - 1, row = (s.y - 1) * stride(s, 1);
    nafthurm_planned p = try_pair(0, (uint16_t)row);
    HOLD(p.route.kind == 37 && p.route.via[0] == last && p.route.via[1] == last - row);
}

static void one_written_sheet(void) {
    any_plan(ONE_OF(12, 32, 48), 10);
    lend_both();
    try_plan();
    if (plan_nodes() > MODEL_NODES) return;
    try_write_sheet(plan_node(), MODEL_NODES);
    try_listing(plan_node());
    if (chance(30)) try_all_sheets();
}

static nafthurm_shape plan_for_sheets(void) {
    if (chance(75)) return any_plan(ONE_OF(12, 64, 512), 8);
    nafthurm_shape s = packet_shape();
    make_plan(s, (int)below(6));
    return s;
}

static void one_sheet(void) {
    any_sheet(plan_for_sheets(), SHEET_VERSION, 50);
    lend_both();
    try_plan();
    try_sheet();
}

static void one_old_sheet(void) {
    any_sheet(plan_for_sheets(), OLD_VERSION, 40);
    lend_both();
    try_old_sheet();
    if (chance(2)) try_cut_short();
}

static void one_input(uint64_t i) {
    a_sheet.size = 0;
    uint32_t way = below(100);
    if (i % 4096 == 4095) one_largest();
    else if (way < 8) one_random();
    else if (way < 28) one_plan();
    else if (way < 46) one_pair();
    else if (way < 48) one_long_pair();
    else if (way < 51) one_written_sheet();
    else if (way < 66) one_sheet();
    else if (way < 78) one_old_sheet();
    else one_packet(), inputs++;
    check_kept(&plan);
    check_kept(&sheet);
}

int main(int words, char **word_at) {
    uint64_t seed = 1, count = 20000;
    int lines = 0;
    for (int i = 1; i < words; i++) {
        if (strcmp(word_at[i], "--lines") == 0) lines = 1;
        else if (i + 1 < words && strcmp(word_at[i], "--seed") == 0) seed = strtoull(word_at[++i], NULL, 10);
        else if (i + 1 < words && strcmp(word_at[i], "--count") == 0) count = strtoull(word_at[++i], NULL, 10);
        else return fprintf(stderr, "fuzz [--seed N] [--count N] [--lines]\n"), 2;
    }
    set_seed(seed);
    if (lines) {
        print_lines(count);
        return 0;
    }
    lend_both(), inputs = 0;
    for (uint64_t i = 0; i < count; i++) one_input(i);
    printf("seed %" PRIu64 ": %" PRIu64 " inputs, %" PRIu64 " calls, %" PRIu64 " refusals, %" PRIu64 " sheets converted, %" PRIu64 " not for an entry, %" PRIu64
           " packets brought to their destination in %" PRIu64 " hops, at most %" PRIu64 ", by routes of at most length %" PRIu64 ", %" PRIu64 " of them planned by two vias, %" PRIu64 " hops taken back\n",
           seed, inputs, calls, refused, converted, not_kept, arrivals, hops_taken, longest, heaviest, by_two, taken_back);
    return 0;
}
