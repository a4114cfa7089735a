#include "random_lines.h"

#include "lent.h"
#include "lines.h"
#include "made.h"
#include "model.h"

#include <stdarg.h>
#include <stdio.h>

static char line[ANSWER_MOST];
static size_t used;

static void say(const char *format, ...) {
    va_list values;
    va_start(values, format);
    int n = vsnprintf(line + used, sizeof line - used, format, values);
    va_end(values);
    HOLD(n >= 0 && (size_t)n < sizeof line - used);
    used += (size_t)n;
}

static void say_hex(const uint8_t *at, size_t size) {
    for (size_t i = 0; i < size; i++) say("%02x", at[i]);
}

static void say_bytes(const char *key, const bytes *b) {
    say(" %s=%s", key, b->size ? "" : "-");
    say_hex(b->at, b->size);
}

static void say_plan(void) { say_bytes("plan", &a_plan); }

/* ---- Packets ---- */

/* Of the legs of the route; more than three, as many as the packet says up to five. */
static void say_packet(nafthurm_shape s, nafthurm_packet p) {
    say(" extents=%d,%d,%d wrap=%d packet=%d;%d;%d;", s.x, s.y, s.z, s.wrap, p.source, p.node, p.mark);
    for (int i = 0; i < p.count && i < 5; i++) say("%s%d:%c", i ? "," : "", p.legs[i % MOST_LEGS].target, p.legs[i % MOST_LEGS].mode ? 'D' : 'A');
}

/* A direction by which the packet came, where there is one. */
static uint8_t some_way_back(nafthurm_shape s, nafthurm_packet packet) {
    uint8_t first = (uint8_t)below(6);
    for (uint8_t i = 0; i < 6; i++) {
        uint8_t direction = (uint8_t)((first + i) % 6);
        if (model_take_back(s, packet, direction).number == 0) return direction;
    }
    return (uint8_t)ONE_OF(0, 1, 2, 3, 4, 5, 6, 255);
}

static void packet_line(int walked) {
    nafthurm_shape s = packet_shape(), given = chance(10) ? hurt_shape(s) : s;
    nafthurm_packet packet = any_packet(s);
    bytes run = {.size = 0};
    if (packet_number(s, packet) == 0) run.size = made_run(s, packet, run.at);
    say(walked ? "walk" : "step");
    say_packet(given, packet);
    if (walked) say_bytes("run", &run);
    else say(" direction=%d", run.size > 0 && chance(70) ? run.at[0] : ONE_OF(0, 1, 2, 3, 4, 5, 6, 255));
}

/* On a machine of few nodes, since the reference searches every walk. */
static void takeback_line(void) {
    nafthurm_shape s = made_shape(64), given = chance(10) ? hurt_shape(s) : s;
    nafthurm_packet packet = any_packet(s);
    say("takeback");
    say_packet(given, packet);
    say(" direction=%d", packet_number(s, packet) == 0 && chance(80) ? some_way_back(s, packet) : ONE_OF(0, 1, 2, 3, 4, 5, 6, 255));
}

/* ---- Runs ---- */

/* Of calls, `backs` % take a hop back. */
static nafthurm_packet say_call(nafthurm_shape s, nafthurm_packet packet, uint32_t backs) {
    uint8_t run[RUN_MOST];
    if (chance(backs)) {
        uint8_t direction = chance(85) ? some_way_back(s, packet) : (uint8_t)below(7);
        say("b%02x", direction);
        return model_take_back(s, packet, direction).packet;
    }
    if (chance(50)) {
        uint8_t direction = chance(75) ? some_direction(s, packet) : (uint8_t)below(7);
        say("s%02x", direction);
        return model_step(s, packet, direction).packet;
    }
    size_t size = made_run(s, packet, run);
    if (size > 0 && chance(50)) size = below((uint32_t)size);
    say("w");
    say_hex(run, size);
    return model_walk(s, packet, run, size).packet;
}

static void say_calls(nafthurm_shape s, nafthurm_packet packet, uint32_t backs) {
    uint32_t count = below(backs ? 12 : 7);
    say(" calls=%s", count ? "" : "-");
    for (uint32_t i = 0; i < count; i++) {
        if (i > 0) say(",");
        packet = say_call(s, packet, backs);
    }
}

/* A plan of few nodes, on which the reference is quick. */
static nafthurm_shape small_plan(int most, uint32_t damaged) {
    for (;;) {
        nafthurm_shape s = any_plan(most, damaged);
        if (plan_number(a_plan.at, a_plan.size) != 0 || a_plan.at[3] * a_plan.at[4] * a_plan.at[5] <= most) return s;
    }
}

/* Along the planned route between two nodes. */
static void run_line(const char *operation, int most, uint32_t backs) {
    static model_plan model;
    nafthurm_shape s = small_plan(most, 5);
    ends e = some_ends(s);
    say("%s", operation);
    say_plan();
    say(" source=%d destination=%d", e.source, e.destination);
    nafthurm_planned p = {refused_route(1), 0};
    if (plan_number(a_plan.at, a_plan.size) == 0) {
        read_plan(&model, a_plan.at);
        p = model_pair(&model, e.source, e.destination);
    }
    if (p.route.number != 0) say(" calls=-");
    else say_calls(model.shape, nafthurm_new_packet(e.source, e.destination, p.route), backs);
}

/* ---- Plans and sheets ---- */

/* Sheets of plans of any size: nothing is planned. */
static nafthurm_shape route_line(const char *operation, int version) {
    nafthurm_shape s = chance(25) ? packet_shape() : made_shape(64);
    make_plan(s, (int)below(6));
    if (chance(8)) s = any_plan(64, 100);
    any_sheet(s, version, 50);
    say("%s", operation);
    say_plan();
    say_bytes("sheet", &a_sheet);
    return s;
}

/* For the sheet as it is, or as a sheet of version 2 is written again. */
static void say_room(void) { say(" room=%zu", some_room(chance(50) ? a_sheet.size : a_sheet.size + (a_sheet.size < 7 ? 0 : 2 * word(a_sheet.at + 5)) % 30000)); }

static void lookup_line(void) {
    nafthurm_shape s = route_line("lookup", SHEET_VERSION);
    size_t each = a_sheet.size > 0 ? entry_size(a_sheet.at[0]) : 5;
    say(" destination=%d", a_sheet.size >= 7 + each && chance(50) ? (int)word(a_sheet.at + 7 + each * below((uint32_t)((a_sheet.size - 7) / each))) : any_node(nodes_of(s)));
}

static void pair_line(void) {
    nafthurm_shape s = small_plan(64, 10);
    ends e = some_ends(s);
    say("pair");
    say_plan();
    say(" source=%d destination=%d", e.source, e.destination);
}

static void sheet_line(void) {
    nafthurm_shape s = small_plan(24, 10);
    say("sheet");
    say_plan();
    say(" source=%d room=%d", any_node(nodes_of(s)), ONE_OF(0, 7, 14, 40, 80, 112, 400));
}

static void listing_line(void) {
    nafthurm_shape s = small_plan(24, 20);
    bytes source = {.size = 2};
    put_word(&source, 0, any_node(nodes_of(s)));
    say("listing input=");
    say_hex(source.at, 2);
    say_hex(a_plan.at, a_plan.size);
}

static void plan_line(void) {
    nafthurm_shape s = plan_for_reading();
    switch (below(6)) {
    case 0:
        say("masks"), say_plan();
        break;
    case 1:
        say("planback"), say_plan();
        say(" room=%zu", some_room(a_plan.size));
        break;
    case 2:
        say("dead"), say_plan();
        say(" node=%d direction=%d", any_node(nodes_of(s)), ONE_OF(0, 1, 2, 3, 4, 5, 6));
        break;
    case 3:
        say("weights"), say_plan();
        break;
    default: say("plan"), say_plan(); break;
    }
}

static void make_line(void) {
    used = 0;
    switch (below(15)) {
    case 0: pair_line(); break;
    case 1: sheet_line(); break;
    case 2: listing_line(); break;
    case 3: run_line("run", 64, 0); break;
    case 4: run_line("runback", 64, 45); break;
    case 5: run_line("sheetrun", 32, 0); break;
    case 6: lookup_line(); break;
    case 7: route_line("back", SHEET_VERSION), say_room(); break;
    case 8: route_line("convert", OLD_VERSION), say_room(); break;
    case 9: route_line("lost", OLD_VERSION); break;
    case 10: packet_line(0); break;
    case 11: packet_line(1); break;
    case 12: takeback_line(); break;
    default: plan_line(); break;
    }
}

void print_lines(uint64_t count) {
    static char answer[ANSWER_MOST];
    for (uint64_t i = 0; i < count; i++) {
        make_line();
        HOLD(answer_line(line, answer));
        printf("%s => %s\n", line, answer);
    }
}
