#include "lines.h"

#include "lent.h"
#include "nafthurm.h"

#include <stdarg.h>
#include <stdint.h>
#include <stdio.h>
#include <stdlib.h>
#include <string.h>

static lent plan, sheet, out, directions;
static char *to;
static size_t used;

static void put(const char *format, ...) {
    va_list values;
    va_start(values, format);
    int n = vsnprintf(to + used, ANSWER_MOST - used, format, values);
    va_end(values);
    HOLD(n >= 0 && (size_t)n < ANSWER_MOST - used);
    used += (size_t)n;
}

static void put_hex(const uint8_t *bytes, size_t size) {
    if (size == 0) put("-");
    for (size_t i = 0; i < size; i++) put("%02x", bytes[i]);
}

/* ---- Fields ---- */

/* The text of a field, which ends at a blank or with the line. */
static const char *text(const char *line, const char *key) {
    size_t length = strlen(key);
    for (const char *at = strchr(line, ' '); at != NULL; at = strchr(at + 1, ' '))
        if (strncmp(at + 1, key, length) == 0 && at[1 + length] == '=') return at + length + 2;
    HOLD(!"the line has the field");
    return NULL;
}

static size_t text_size(const char *at) { return strcspn(at, " \n"); }

static unsigned long number(const char *line, const char *key) { return strtoul(text(line, key), NULL, 10); }

static uint16_t node(const char *line, const char *key) {
    unsigned long value = number(line, key);
    HOLD(value < 65536);
    return (uint16_t)value;
}

static int digit(char c) { return c >= 'a' ? c - 'a' + 10 : c - '0'; }

static void lend_hex(lent *l, const char *at, size_t size) {
    static uint8_t bytes[LENT_MOST];
    if (size == 1 && *at == '-') size = 0;
    HOLD(size % 2 == 0 && size / 2 <= LENT_MOST);
    for (size_t i = 0; i < size / 2; i++) bytes[i] = (uint8_t)(16 * digit(at[2 * i]) + digit(at[2 * i + 1]));
    lend(l, bytes, size / 2);
}

static void lend_field(lent *l, const char *line, const char *key) {
    const char *at = text(line, key);
    lend_hex(l, at, text_size(at));
}

static nafthurm_shape shape_in(const char *line) {
    unsigned x, y, z;
    HOLD(sscanf(text(line, "extents"), "%u,%u,%u", &x, &y, &z) == 3);
    return (nafthurm_shape){(uint8_t)x, (uint8_t)y, (uint8_t)z, (uint8_t)number(line, "wrap")};
}

enum { MOST_LEGS = 3 };

/* Of more legs than a packet holds the count is kept, and the first of them. */
static nafthurm_packet packet_in(const char *line) {
    char *at;
    nafthurm_packet packet = {0};
    packet.source = (uint16_t)strtoul(text(line, "packet"), &at, 10);
    packet.node = (uint16_t)strtoul(at + 1, &at, 10);
    packet.mark = (uint8_t)strtoul(at + 1, &at, 10);
    while (*++at >= '0' && *at <= '9') {
        uint16_t target = (uint16_t)strtoul(at, &at, 10);
        if (packet.count < MOST_LEGS) packet.legs[packet.count] = (nafthurm_leg){target, at[1] == 'D'};
        if (packet.count < 255) packet.count++;
        at += 2;
    }
    return packet;
}

static int same_packet(nafthurm_packet a, nafthurm_packet b) {
    for (int i = 0; i < MOST_LEGS; i++)
        if (a.legs[i].target != b.legs[i].target || a.legs[i].mode != b.legs[i].mode) return 0;
    return a.source == b.source && a.node == b.node && a.count == b.count && a.mark == b.mark;
}

static void put_legs(nafthurm_packet packet) {
    HOLD(packet.count <= MOST_LEGS);
    for (int i = 0; i < packet.count; i++) put("%s%d:%c", i > 0 ? "," : "", packet.legs[i].target, packet.legs[i].mode ? 'D' : 'A');
}

static void put_packet(nafthurm_packet packet) {
    put("%d;%d;%d;", packet.source, packet.node, packet.mark);
    put_legs(packet);
}

/* A packet that is as it was lent is shown as the line has it, legs past the third too. */
static void put_after(const char *line, nafthurm_packet lent_packet, nafthurm_packet after) {
    const char *at = text(line, "packet");
    if (same_packet(lent_packet, after)) put("%.*s", (int)text_size(at), at);
    else put_packet(after);
}

/* The output after a call that gave the number. */
static void check_out(uint8_t number) {
    check_around(&out);
    if (number != 0) check_kept(&out);
}

static void put_written(nafthurm_written w) {
    put("number=%d size=%zu out=", w.number, w.size);
    put_hex(out.bytes, out.size);
    check_out(w.number);
}

static const char *ending_text(uint8_t ending) {
    static const char *texts[] = {"arrived", "not-allowed", "used-up", "refused"};
    HOLD(ending < 4);
    return texts[ending];
}

/* ---- Operations ---- */

static void put_stepped(const char *line, nafthurm_stepped (*call)(nafthurm_shape, nafthurm_packet, uint8_t)) {
    nafthurm_packet packet = packet_in(line);
    nafthurm_stepped s = call(shape_in(line), packet, (uint8_t)number(line, "direction"));
    put("number=%d packet=", s.number);
    put_after(line, packet, s.packet);
}

static void op_step(const char *line) { put_stepped(line, nafthurm_step); }

static void op_takeback(const char *line) { put_stepped(line, nafthurm_take_back); }

static void op_walk(const char *line) {
    nafthurm_packet packet = packet_in(line);
    lend_field(&directions, line, "run");
    nafthurm_walked w = nafthurm_walk(shape_in(line), packet, directions.bytes, directions.size);
    check_kept(&directions);
    put("number=%d packet=", w.number);
    put_after(line, packet, w.packet);
    put(" hops=%zu ending=%s", w.hops, ending_text(w.ending));
}

static void op_plan(const char *line) {
    lend_field(&plan, line, "plan");
    uint8_t refused = nafthurm_plan_check(plan.bytes, plan.size);
    nafthurm_shape shape = nafthurm_plan_shape(plan.bytes, plan.size);
    put("number=%d", refused);
    if (refused != 0) return;
    put(" extents=%d,%d,%d wrap=%d faults=", shape.x, shape.y, shape.z, shape.wrap);
    const uint8_t *first = plan.bytes + (plan.bytes[0] == 2 ? 12 : 9), *end = plan.bytes + plan.size;
    if (first == end) put("-");
    for (const uint8_t *fault = first; fault < end; fault += 3) put("%s%d:%d", fault == first ? "" : ",", fault[0] * 256 + fault[1], fault[2]);
}

static void op_weights(const char *line) {
    lend_field(&plan, line, "plan");
    nafthurm_weights weights = nafthurm_plan_weights(plan.bytes, plan.size);
    put("weights=%d,%d,%d", weights.x, weights.y, weights.z);
}

static void op_planback(const char *line) {
    lend_field(&plan, line, "plan");
    lend_filled(&out, 0xEE, number(line, "room"));
    put_written(nafthurm_plan_write_back(plan.bytes, plan.size, out.bytes, out.size));
}

static void op_dead(const char *line) {
    lend_field(&plan, line, "plan");
    put("node=%d link=%d", nafthurm_dead_node(plan.bytes, plan.size, node(line, "node")),
        nafthurm_dead_link(plan.bytes, plan.size, node(line, "node"), (uint8_t)number(line, "direction")));
}

static void op_masks(const char *line) {
    lend_field(&plan, line, "plan");
    nafthurm_shape shape = nafthurm_plan_shape(plan.bytes, plan.size);
    static uint8_t masks[4096];
    size_t nodes = (size_t)shape.x * shape.y * shape.z;
    for (size_t n = 0; n < nodes; n++) {
        masks[n] = 0;
        for (uint8_t d = 0; d < 6; d++)
            if (nafthurm_dead_link(plan.bytes, plan.size, (uint16_t)n, d)) masks[n] |= (uint8_t)(1 << d);
    }
    put("masks=");
    put_hex(masks, nodes);
}

static void op_pair(const char *line) {
    lend_field(&plan, line, "plan");
    uint16_t source = node(line, "source"), destination = node(line, "destination");
    nafthurm_planned p = nafthurm_pair(plan.bytes, plan.size, source, destination);
    put("number=%d", p.route.number);
    if (p.route.number != 0) return;
    put(" legs=");
    put_legs(nafthurm_new_packet(source, destination, p.route));
    put(" length=%d", p.length);
}

static void op_sheet(const char *line) {
    lend_field(&plan, line, "plan");
    lend_filled(&out, 0xEE, number(line, "room"));
    put_written(nafthurm_write_sheet(plan.bytes, plan.size, node(line, "source"), out.bytes, out.size));
}

/* The text with _ for a blank and / for a line's end. */
static void op_listing(const char *line) {
    lend_field(&plan, line, "input");
    lend_filled(&out, 0xEE, NAFTHURM_LISTING_BYTES);
    nafthurm_written w = nafthurm_listing(plan.bytes, plan.size, out.bytes, out.size);
    HOLD(w.number == 0);
    check_around(&out);
    put("text=");
    for (size_t i = 0; i < w.size; i++) put("%c", out.bytes[i] == ' ' ? '_' : out.bytes[i] == '\n' ? '/' : out.bytes[i]);
}

static void op_lookup(const char *line) {
    lend_field(&plan, line, "plan");
    lend_field(&sheet, line, "sheet");
    uint16_t destination = node(line, "destination");
    nafthurm_part part = nafthurm_lookup(plan.bytes, plan.size, sheet.bytes, sheet.size, destination);
    nafthurm_route route = nafthurm_lookup_route(plan.bytes, plan.size, sheet.bytes, sheet.size, destination);
    put("part=%zu:%zu number=%d", part.start, part.start + part.size, route.number);
    if (route.number != 0) return;
    uint16_t source = (uint16_t)(sheet.bytes[3] * 256 + sheet.bytes[4]);
    put(" source=%d legs=", source);
    put_legs(nafthurm_new_packet(source, destination, route));
}

/* The plan, the route sheet, and an output of so many bytes. */
static void lend_to_write(const char *line, size_t room) {
    lend_field(&plan, line, "plan");
    lend_field(&sheet, line, "sheet");
    lend_filled(&out, 0xEE, room);
}

static void op_back(const char *line) {
    lend_to_write(line, number(line, "room"));
    nafthurm_written w = nafthurm_sheet_write_back(plan.bytes, plan.size, sheet.bytes, sheet.size, out.bytes, out.size);
    HOLD((w.number == 0 || w.number == 12) == (nafthurm_sheet_check(plan.bytes, plan.size, sheet.bytes, sheet.size) == 0));
    put_written(w);
}

static nafthurm_converted converted(const char *line, size_t room) {
    lend_to_write(line, room);
    return nafthurm_convert(plan.bytes, plan.size, sheet.bytes, sheet.size, out.bytes, out.size);
}

static void op_convert(const char *line) {
    nafthurm_converted c = converted(line, number(line, "room"));
    put_written((nafthurm_written){c.number, c.size});
}

/* The first entry that cannot be kept, where the output is long enough for any sheet. */
static void op_lost(const char *line) {
    nafthurm_converted c = converted(line, NAFTHURM_SHEET_BYTES);
    check_out(c.number);
    put("number=%d entry=%d", c.number, c.entry);
}

/*
 * The call that `call` spells with `size` characters, on the packet: a step, `s` and a direction; a hop taken back, `b` and a direction; or a walk, `w` and a run
 * of them. Gives the packet after it.
 */
static nafthurm_packet make_call(const char *call, size_t size, nafthurm_shape shape, nafthurm_packet packet) {
    lend_hex(&directions, call + 1, size - 1);
    if (*call != 'w') {
        nafthurm_stepped s = (*call == 's' ? nafthurm_step : nafthurm_take_back)(shape, packet, directions.bytes[0]);
        put("%d", s.number);
        return s.packet;
    }
    nafthurm_walked w = nafthurm_walk(shape, packet, directions.bytes, directions.size);
    check_kept(&directions);
    put("%zu+%s", w.hops, ending_text(w.ending));
    return w.packet;
}

/* The calls of a line, with commas between, the first on the new packet of a route, each later one on what the last gave. */
static void put_run(const char *line, nafthurm_packet packet) {
    nafthurm_shape shape = nafthurm_plan_shape(plan.bytes, plan.size);
    put("legs=");
    put_legs(packet);
    put(" answers=");
    const char *call = text(line, "calls"), *end = call + text_size(call);
    if (*call == '-') put("-"), call = end;
    while (call < end) {
        size_t size = strcspn(call, ", \n");
        packet = make_call(call, size, shape, packet);
        if (call[size] == ',') put(","), size++;
        call += size;
    }
    put(" packet=");
    put_packet(packet);
}

static void op_run(const char *line) {
    lend_field(&plan, line, "plan");
    uint16_t source = node(line, "source"), destination = node(line, "destination");
    nafthurm_route route = nafthurm_pair(plan.bytes, plan.size, source, destination).route;
    if (route.number != 0) put("number=%d", route.number);
    else put_run(line, nafthurm_new_packet(source, destination, route));
}

/* A run along what the sheet that planning from the source writes says of the destination. */
static void op_sheetrun(const char *line) {
    lend_field(&plan, line, "plan");
    uint16_t source = node(line, "source"), destination = node(line, "destination");
    lend_filled(&out, 0xEE, NAFTHURM_SHEET_BYTES);
    nafthurm_written w = nafthurm_write_sheet(plan.bytes, plan.size, source, out.bytes, out.size);
    check_around(&out);
    if (w.number != 0) {
        check_kept(&out);
        put("number=%d", w.number);
        return;
    }
    lend(&sheet, out.bytes, w.size);
    nafthurm_part part = nafthurm_lookup(plan.bytes, plan.size, sheet.bytes, sheet.size, destination);
    nafthurm_route route = nafthurm_lookup_route(plan.bytes, plan.size, sheet.bytes, sheet.size, destination);
    put("number=%d", route.number);
    if (route.number != 0) return;
    put(" size=%zu entry=", w.size);
    put_hex(sheet.bytes + part.start, part.size);
    put(" ");
    put_run(line, nafthurm_new_packet(source, destination, route));
}

int answer_line(const char *line, char answer[ANSWER_MOST]) {
    static const struct {
        const char *name;
        void (*op)(const char *line);
    } ops[] = {{"step", op_step}, {"walk", op_walk}, {"takeback", op_takeback}, {"plan", op_plan}, {"planback", op_planback}, {"weights", op_weights}, {"dead", op_dead},
               {"masks", op_masks}, {"pair", op_pair}, {"sheet", op_sheet}, {"listing", op_listing}, {"lookup", op_lookup}, {"back", op_back},
               {"convert", op_convert}, {"lost", op_lost}, {"run", op_run}, {"runback", op_run}, {"sheetrun", op_sheetrun}};
    size_t name = text_size(line);
    for (size_t i = 0; i < sizeof ops / sizeof *ops; i++) {
        if (strlen(ops[i].name) != name || strncmp(ops[i].name, line, name) != 0) continue;
        to = answer, used = 0, to[0] = 0;
        lend_filled(&plan, 0, 0), lend_filled(&sheet, 0, 0);
        ops[i].op(line);
        check_kept(&plan), check_kept(&sheet);
        return 1;
    }
    return 0;
}
