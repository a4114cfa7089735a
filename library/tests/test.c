/*
 * Document 01's worked machine W and its edges, a machine with weights, half rings, old route sheets, and hops taken back, through the C interface; sizes of the
 * forms, and the stack that each call uses.
 */
#include "lent.h"
#include "nafthurm.h"

#include <stdio.h>
#include <stdlib.h>
#include <string.h>
#include <ucontext.h>

static const uint8_t W[] = {0x01, 0x00, 0x09, 0x04, 0x04, 0x01, 0x03, 0x00, 0x01, 0x00, 0x00, 0x00};
static const uint8_t W_SHEET[] = {
    0x03, 0x00, 0x3C, 0x00, 0x00, 0x00, 0x08,
    0x00, 0x01, 0x20, 0x00, 0x03, 0x00, 0x02, 0x00, 0x02, 0x10, 0x00, 0x03, 0x00, 0x00, 0x00, 0x05, 0x10, 0x00, 0x04, 0x00, 0x00,
    0x00, 0x06, 0x10, 0x00, 0x03, 0x00, 0x00, 0x00, 0x09, 0x10, 0x00, 0x04, 0x00, 0x00, 0x00, 0x0A, 0x10, 0x00, 0x03, 0x00, 0x00,
    0x00, 0x0D, 0x10, 0x00, 0x0C, 0x00, 0x00, 0x00, 0x0E, 0x10, 0x00, 0x03, 0x00, 0x00};

/* Of version 2, with routes of up to two legs; and as it is written again. */
static const uint8_t W_SECOND_SHEET[] = {
    0x02, 0x00, 0x2C, 0x00, 0x00, 0x00, 0x08,
    0x00, 0x01, 0x03, 0x00, 0x03, 0x00, 0x02, 0x02, 0x00, 0x03, 0x00, 0x05, 0x02, 0x00, 0x04, 0x00, 0x06, 0x02, 0x00, 0x03,
    0x00, 0x09, 0x02, 0x00, 0x04, 0x00, 0x0A, 0x02, 0x00, 0x03, 0x00, 0x0D, 0x02, 0x00, 0x0C, 0x00, 0x0E, 0x02, 0x00, 0x03};
static const uint8_t W_WRITTEN_AGAIN[] = {
    0x03, 0x00, 0x3C, 0x00, 0x00, 0x00, 0x08,
    0x00, 0x01, 0x12, 0x00, 0x03, 0x00, 0x00, 0x00, 0x02, 0x10, 0x00, 0x03, 0x00, 0x00, 0x00, 0x05, 0x10, 0x00, 0x04, 0x00, 0x00,
    0x00, 0x06, 0x10, 0x00, 0x03, 0x00, 0x00, 0x00, 0x09, 0x10, 0x00, 0x04, 0x00, 0x00, 0x00, 0x0A, 0x10, 0x00, 0x03, 0x00, 0x00,
    0x00, 0x0D, 0x10, 0x00, 0x0C, 0x00, 0x00, 0x00, 0x0E, 0x10, 0x00, 0x03, 0x00, 0x00};

/* Of version 1, as document 01 has it. */
static const uint8_t W_OLD_SHEET[] = {
    0x01, 0x00, 0x2C, 0x00, 0x00, 0x00, 0x08,
    0x00, 0x01, 0x03, 0x00, 0x04, 0x00, 0x02, 0x02, 0x00, 0x03, 0x00, 0x05, 0x02, 0x00, 0x04, 0x00, 0x06, 0x02, 0x00, 0x03,
    0x00, 0x09, 0x02, 0x00, 0x04, 0x00, 0x0A, 0x02, 0x00, 0x03, 0x00, 0x0D, 0x02, 0x00, 0x0C, 0x00, 0x0E, 0x02, 0x00, 0x03};

/* W with another dead link, 3 X+, and of version 2: X weighs 3. */
static const uint8_t WEIGHED[] = {0x02, 0x00, 0x0C, 0x04, 0x04, 0x01, 0x03, 0x03, 0x01, 0x01, 0x00, 0x01, 0x00, 0x03, 0x00};

static lent plan, sheet, out, work, directions;

static nafthurm_planned pair(const uint8_t *bytes, size_t size, uint16_t source, uint16_t destination) {
    lend(&plan, bytes, size);
    nafthurm_planned p = nafthurm_pair(plan.bytes, plan.size, source, destination);
    check_kept(&plan);
    return p;
}

static void is_route(nafthurm_planned p, uint8_t kind, uint16_t via, uint16_t second, uint16_t length) {
    HOLD(p.route.number == 0);
    HOLD(p.route.kind == kind);
    HOLD(p.route.via[0] == via && p.route.via[1] == second);
    HOLD(p.length == length);
}

static void is_refused(nafthurm_planned p, uint8_t number) {
    HOLD(p.route.number == number);
    HOLD(p.route.kind == (number == 10 ? 160 : number == 11 ? 176 : 255));
    HOLD(p.route.via[0] == 0 && p.route.via[1] == 0);
    HOLD(p.length == 0);
}

static uint8_t plan_check(const uint8_t *bytes, size_t size) {
    lend(&plan, bytes, size);
    uint8_t number = nafthurm_plan_check(plan.bytes, plan.size);
    check_kept(&plan);
    return number;
}

static void forms(void) {
    HOLD(sizeof(nafthurm_shape) == 4);
    HOLD(sizeof(nafthurm_weights) == 3);
    HOLD(sizeof(nafthurm_leg) == 4);
    HOLD(sizeof(nafthurm_packet) == 18);
    HOLD(sizeof(nafthurm_stepped) == 20);
    HOLD(sizeof(nafthurm_route) == 6);
    HOLD(sizeof(nafthurm_planned) == 8);
    HOLD(sizeof(nafthurm_run) == 16);
    HOLD(sizeof(nafthurm_converted) == 16);
    HOLD(NAFTHURM_ALL_WORDS == 4096 * NAFTHURM_ALL_WORDS_A_BOARD);
}

static void worked_pairs(void) {
    is_route(pair(W, sizeof W, 0, 1), 32, 3, 2, 3);
    is_route(pair(W, sizeof W, 0, 2), 16, 3, 0, 2);
    is_route(pair(W, sizeof W, 0, 7), 0, 0, 0, 2);
    is_route(pair(W, sizeof W, 0, 0), 0, 0, 0, 0);
    is_route(pair(W, sizeof W, 0, 15), 0, 0, 0, 2);
    is_refused(pair(W, sizeof W, 0, 16), 9);
    is_refused(pair(W, sizeof W, 16, 0), 9);
    is_refused(pair(W, 8, 0, 1), 1);

    uint8_t ring[] = {1, 0, 9, 4, 1, 1, 1, 0, 1, 0, 0, 0};
    is_route(pair(ring, sizeof ring, 0, 1), 32, 3, 2, 3);
    ring[3] = 5;
    is_route(pair(ring, sizeof ring, 0, 1), 16, 3, 0, 4);
    const uint8_t open[] = {1, 0, 9, 2, 1, 1, 0, 0, 1, 0, 0, 0};
    is_refused(pair(open, sizeof open, 0, 1), 11);
    const uint8_t one[] = {1, 0, 9, 1, 1, 1, 0, 0, 1, 0, 0, 3};
    is_refused(pair(one, sizeof one, 0, 0), 10);
}

/* By hops the route from 0 to 3 is by 1 and 2; with weights it is by 4 and 7. */
static void weighed_pairs(void) {
    const uint8_t by_hops[] = {1, 0, 9, 4, 4, 1, 3, 0, 1, 0, 3, 0};
    is_route(pair(by_hops, sizeof by_hops, 0, 3), 32, 1, 2, 3);
    is_route(pair(WEIGHED, sizeof WEIGHED, 0, 3), 32, 4, 7, 5);
    is_route(pair(WEIGHED, sizeof WEIGHED, 0, 1), 0, 0, 0, 3);
    is_route(pair(WEIGHED, sizeof WEIGHED, 0, 0), 0, 0, 0, 0);
    is_refused(pair(WEIGHED, sizeof WEIGHED, 0, 16), 9);
    is_refused(pair(WEIGHED, 11, 0, 1), 1);

    uint8_t far[] = {2, 0, 9, 16, 16, 16, 0, 8, 8, 8, 0, 0};
    is_route(pair(far, sizeof far, 0, 4095), 0, 0, 0, 360);
    far[9] = 9;
    is_refused(pair(far, sizeof far, 0, 4095), 16);
}

static int are_weights(const uint8_t *bytes, size_t size, int x, int y, int z) {
    lend(&plan, bytes, size);
    nafthurm_weights w = nafthurm_plan_weights(plan.bytes, plan.size);
    check_kept(&plan);
    return w.x == x && w.y == y && w.z == z;
}

/* Each weight at its edges, also that of the absent dimension Z; 16 after 6 and before 7; sheets of 9 to 12 bytes. */
static void weighed_plans(void) {
    HOLD(plan_check(WEIGHED, sizeof WEIGHED) == 0);
    HOLD(are_weights(WEIGHED, sizeof WEIGHED, 3, 1, 1));
    HOLD(are_weights(W, sizeof W, 1, 1, 1));
    HOLD(are_weights(W, sizeof W - 1, 0, 0, 0));
    uint8_t bytes[sizeof WEIGHED];
    for (int dim = 0; dim < 3; dim++)
        for (int weight = 0; weight < 256; weight++) {
            memcpy(bytes, WEIGHED, sizeof bytes);
            bytes[7 + dim] = (uint8_t)weight;
            HOLD(plan_check(bytes, sizeof bytes) == (weight >= 1 && weight <= 8 ? 0 : 16));
            HOLD(are_weights(bytes, sizeof bytes, 0, 0, 0) == (weight < 1 || weight > 8));
        }
    bytes[12] = 255;
    HOLD(plan_check(bytes, sizeof bytes) == 16);
    bytes[9] = 8;
    HOLD(plan_check(bytes, sizeof bytes) == 7);
    bytes[6] = 4, bytes[9] = 9;
    HOLD(plan_check(bytes, sizeof bytes) == 6);
    uint8_t small[] = {2, 0, 9, 4, 4, 1, 3, 1, 1, 1, 0, 0};
    HOLD(plan_check(small, 12) == 0 && plan_check(small, 11) == 1 && plan_check(small, 9) == 1);
    small[0] = 3;
    HOLD(plan_check(small, 12) == 2 && plan_check(small, 11) == 2 && plan_check(small, 9) == 2 && plan_check(small, 8) == 1);
}

/* 256 faults are accepted and 257 are not, in a sheet of either version. */
static void many_faults(uint8_t version) {
    size_t head = version == 2 ? 12 : 9;
    uint8_t many[NAFTHURM_PLAN_BYTES + 3] = {version, 0, 0, 16, 16, 16, 7, 1, 2, 3};
    for (size_t count = 256; count <= 257; count++) {
        size_t size = head + 3 * count;
        many[1] = (uint8_t)((size - 3) >> 8), many[2] = (uint8_t)(size - 3);
        many[head - 2] = (uint8_t)(count >> 8), many[head - 1] = (uint8_t)count;
        for (size_t i = 0; i < count; i++) {
            uint8_t *fault = many + head + 3 * i;
            fault[0] = (uint8_t)(i >> 8), fault[1] = (uint8_t)i, fault[2] = 0;
        }
        HOLD(plan_check(many, size) == (count == 256 ? 0 : 3));
    }
}

/* The sheet written back into outputs of every length. */
static void written_back(const uint8_t *bytes, size_t size) {
    lend(&plan, bytes, size);
    for (size_t room = 0; room < size + 8; room++) {
        lend_filled(&out, 0xEE, room);
        nafthurm_written w = nafthurm_plan_write_back(plan.bytes, plan.size, out.bytes, out.size);
        if (room < size) {
            HOLD(w.number == 12 && w.size == 0);
            check_kept(&out);
            continue;
        }
        HOLD(w.number == 0 && w.size == size && memcmp(out.bytes, bytes, size) == 0);
        for (size_t i = size; i < room; i++) HOLD(out.bytes[i] == 0xEE);
        check_around(&out);
    }
    check_kept(&plan);
}

static void worked_plans(void) {
    HOLD(plan_check(W, sizeof W) == 0);
    HOLD(plan_check(W, 0) == 1);
    uint8_t none[] = {1, 0, 6, 16, 1, 1, 0, 0, 0};
    HOLD(plan_check(none, sizeof none) == 0);
    none[3] = 17;
    HOLD(plan_check(none, sizeof none) == 5);
    none[3] = 3, none[6] = 1;
    HOLD(plan_check(none, sizeof none) == 0);
    none[3] = 2;
    HOLD(plan_check(none, sizeof none) == 6);

    many_faults(1);
    many_faults(2);
    written_back(W, sizeof W);
    written_back(WEIGHED, sizeof WEIGHED);

    lend(&plan, W, sizeof W);
    nafthurm_shape shape = nafthurm_plan_shape(plan.bytes, plan.size);
    HOLD(shape.x == 4 && shape.y == 4 && shape.z == 1 && shape.wrap == 3);
    for (uint16_t node = 0; node < 20; node++) {
        HOLD(!nafthurm_dead_node(plan.bytes, plan.size, node));
        for (uint8_t d = 0; d < 8; d++)
            HOLD(nafthurm_dead_link(plan.bytes, plan.size, node, d) == ((node == 0 && d == 0) || (node == 1 && d == 1)));
    }
    check_kept(&plan);
}

static void worked_sheet(void) {
    lend(&plan, W, sizeof W);
    for (size_t room = 0; room < 80; room++) {
        lend_filled(&out, 0xEE, room);
        nafthurm_written w = nafthurm_write_sheet(plan.bytes, plan.size, 0, out.bytes, out.size);
        if (room < sizeof W_SHEET) {
            HOLD(w.number == 12 && w.size == 0);
            check_kept(&out);
            continue;
        }
        HOLD(w.number == 0 && w.size == sizeof W_SHEET && memcmp(out.bytes, W_SHEET, sizeof W_SHEET) == 0);
        for (size_t i = sizeof W_SHEET; i < room; i++) HOLD(out.bytes[i] == 0xEE);
        check_around(&out);
    }
    lend_filled(&out, 0xEE, 80);
    HOLD(nafthurm_write_sheet(plan.bytes, plan.size, 16, out.bytes, out.size).number == 9);
    check_kept(&out);
    check_kept(&plan);
}

/* ---- All sheets ---- */

enum { MOST_BOARDS = 16 };

/* The sheets of the lent plan's boards as nafthurm_write_sheet writes them, one behind the other: board b's ends at byte ends[b]. */
static struct {
    int boards;
    uint8_t bytes[4096];
    size_t ends[MOST_BOARDS];
} row;

static void write_row(void) {
    nafthurm_shape s = nafthurm_plan_shape(plan.bytes, plan.size);
    size_t size = 0;
    row.boards = s.x * s.y * s.z;
    HOLD(row.boards <= MOST_BOARDS);
    for (int b = 0; b < row.boards; b++) {
        nafthurm_written w = nafthurm_write_sheet(plan.bytes, plan.size, (uint16_t)b, row.bytes + size, sizeof row.bytes - size);
        HOLD(w.number == 0 || w.number == 10);
        size += w.size, row.ends[b] = size;
    }
}

static size_t begins(int board) { return board == 0 ? 0 : row.ends[board - 1]; }

static nafthurm_run run_from(uint16_t from, size_t words, size_t room) {
    lend_filled(&work, (uint8_t)(from + room), 2 * words);
    lend_filled(&out, 0xEE, room);
    nafthurm_run r = nafthurm_all_sheets(plan.bytes, plan.size, from, (uint16_t *)work.bytes, words, out.bytes, out.size);
    check_around(&work);
    check_around(&out);
    return r;
}

static void is_no_run(uint8_t number, uint16_t from, size_t words, size_t room) {
    nafthurm_run r = run_from(from, words, room);
    HOLD(r.number == number && r.next == 0 && r.size == 0);
    check_kept(&out);
    if (number != 12) check_kept(&work);
}

/* The run has the sheets that fit, and ends before the next sound board. */
static void is_run(uint16_t from, size_t room) {
    int next = from;
    while (next < row.boards && row.ends[next] - begins(from) <= room) next++;
    size_t size = begins(next) - begins(from);
    if (size == 0 && next < row.boards) {
        is_no_run(12, from, (size_t)row.boards * NAFTHURM_ALL_WORDS_A_BOARD, room);
        return;
    }
    nafthurm_run r = run_from(from, (size_t)row.boards * NAFTHURM_ALL_WORDS_A_BOARD, room);
    HOLD(r.number == 0 && r.next == next && r.size == size);
    HOLD(memcmp(out.bytes, row.bytes + begins(from), size) == 0);
    for (size_t i = size; i < room; i++) HOLD(out.bytes[i] == 0xEE);
}

/* The loop of the header's comment. */
static void is_row_by_runs(size_t room) {
    size_t written = 0;
    nafthurm_run run = {0, 0, 0};
    do {
        run = run_from(run.next, (size_t)row.boards * NAFTHURM_ALL_WORDS_A_BOARD, room);
        HOLD(run.number == 0);
        HOLD(memcmp(out.bytes, row.bytes + written, run.size) == 0);
        written += run.size;
    } while (run.next < row.boards);
    HOLD(written == begins(row.boards));
}

static size_t longest_sheet(void) {
    size_t most = 0;
    for (int b = 0; b < row.boards; b++)
        if (most < row.ends[b] - begins(b)) most = row.ends[b] - begins(b);
    return most;
}

/* Outputs of every length, from the first board and from others; every output by which the loop gets on. */
static void all_sheets_of(const uint8_t *bytes, size_t size) {
    lend(&plan, bytes, size);
    write_row();
    size_t all = begins(row.boards), words = (size_t)row.boards * NAFTHURM_ALL_WORDS_A_BOARD;
    for (size_t room = 0; room < all + 3; room++) is_run(0, room);
    for (uint16_t from = 0; from < row.boards; from++)
        for (size_t room = 0; room < all + 60; room += 29) is_run(from, room);
    for (size_t room = longest_sheet(); room < all + 3; room += 7) is_row_by_runs(room);
    const uint16_t outside[] = {(uint16_t)row.boards, (uint16_t)(row.boards + 1), 4095, 4096, 65535};
    for (size_t i = 0; i < sizeof outside / sizeof *outside; i++) is_no_run(9, outside[i], words, all);
    const size_t few[] = {0, 1, words / 2, words - 1};
    for (size_t i = 0; i < sizeof few / sizeof *few; i++) {
        is_no_run(NAFTHURM_FEW_WORDS, 0, few[i], all);
        is_no_run(NAFTHURM_FEW_WORDS, 0, few[i], 0);
        is_no_run(9, (uint16_t)row.boards, few[i], 0);
    }
    check_kept(&plan);
    lend(&plan, bytes, size - 1);
    is_no_run(size == 9 ? 1 : 4, 0, words, all);
    is_no_run(size == 9 ? 1 : 4, (uint16_t)row.boards, 0, 0);
}

static void worked_all_sheets(void) {
    all_sheets_of(W, sizeof W);
    all_sheets_of(WEIGHED, sizeof WEIGHED);
    const uint8_t sound[] = {1, 0, 6, 3, 2, 1, 1, 0, 0}, ends_dead[] = {1, 0, 15, 3, 3, 1, 2, 0, 3, 0, 0, 3, 0, 4, 0, 0, 8, 3};
    all_sheets_of(sound, sizeof sound);
    all_sheets_of(ends_dead, sizeof ends_dead);
    const uint8_t last_left[] = {1, 0, 12, 3, 1, 1, 0, 0, 2, 0, 0, 3, 0, 1, 3}, one_dead[] = {1, 0, 9, 1, 1, 1, 0, 0, 1, 0, 0, 3};
    all_sheets_of(last_left, sizeof last_left);
    all_sheets_of(one_dead, sizeof one_dead);
}

static void is_listing(const uint8_t *input, size_t size, const char *text) {
    size_t length = strlen(text);
    lend(&plan, input, size);
    for (size_t room = length - 1; room < length + 3; room++) {
        lend_filled(&out, 0xEE, room);
        nafthurm_written w = nafthurm_listing(plan.bytes, plan.size, out.bytes, out.size);
        if (room < length) {
            HOLD(w.number == 12 && w.size == 0);
            check_kept(&out);
            continue;
        }
        HOLD(w.number == 0 && w.size == length && memcmp(out.bytes, text, length) == 0);
        for (size_t i = length; i < room; i++) HOLD(out.bytes[i] == 0xEE);
        check_around(&out);
    }
    check_kept(&plan);
}

static void worked_listing(void) {
    uint8_t input[2 + sizeof W] = {0, 0};
    memcpy(input + 2, W, sizeof W);
    is_listing(input, sizeof input,
               "0 16 1\n0 0 - - 0\n1 32 3 2 3\n2 16 3 - 2\n3 0 - - 1\n4 0 - - 1\n5 16 4 - 2\n6 16 3 - 3\n7 0 - - 2\n8 0 - - 2\n9 16 4 - 3\n10 16 3 - 4\n11 0 - - 3\n12 0 - - 1\n"
               "13 16 12 - 2\n14 16 3 - 3\n15 0 - - 2\n");
    uint8_t weighed[2 + sizeof WEIGHED] = {0, 0};
    memcpy(weighed + 2, WEIGHED, sizeof WEIGHED);
    is_listing(weighed, sizeof weighed,
               "0 16 1\n0 0 - - 0\n1 0 - - 3\n2 16 1 - 6\n3 32 4 7 5\n4 0 - - 1\n5 0 - - 4\n6 16 1 - 7\n7 16 4 - 4\n8 0 - - 2\n9 0 - - 5\n10 16 1 - 8\n11 16 4 - 5\n12 0 - - 1\n"
               "13 0 - - 4\n14 16 1 - 7\n15 16 12 - 4\n");
    const uint8_t none[] = {0, 0, 1, 0, 12, 3, 1, 1, 0, 0, 2, 0, 0, 0, 0, 2, 3};
    is_listing(none, sizeof none, "0 3 2\n0 0 - - 0\n1 176 - - -\n2 160 - - -\n");
    weighed[9] = 9;
    is_listing(weighed, sizeof weighed, "refused 16\n");
    is_listing(input, 1, "refused 1\n");
    is_listing(input, 9, "refused 1\n");
    is_listing(input, sizeof input - 1, "refused 4\n");
    input[1] = 16;
    is_listing(input, sizeof input, "refused 9\n");
    const uint8_t dead[] = {0, 0, 1, 0, 9, 1, 1, 1, 0, 0, 1, 0, 0, 3};
    is_listing(dead, sizeof dead, "refused 10\n");
}

/* The lent sheet, into outputs of every length: these bytes, as many as W's sheet has. */
static void is_written_back(const uint8_t *bytes) {
    size_t size = sizeof W_SHEET;
    for (size_t room = 0; room < size + 8; room++) {
        lend_filled(&out, 0xEE, room);
        nafthurm_written w = nafthurm_sheet_write_back(plan.bytes, plan.size, sheet.bytes, sheet.size, out.bytes, out.size);
        HOLD(w.number == (room < size ? 12 : 0) && w.size == (room < size ? 0 : size));
        if (room < size) check_kept(&out);
        else HOLD(memcmp(out.bytes, bytes, size) == 0);
        check_around(&out);
    }
}

static void worked_lookups(void) {
    lend(&plan, W, sizeof W);
    lend(&sheet, W_SHEET, sizeof W_SHEET);
    HOLD(nafthurm_sheet_check(plan.bytes, plan.size, sheet.bytes, sheet.size) == 0);
    for (uint16_t d = 0; d < 16; d++) {
        nafthurm_part part = nafthurm_lookup(plan.bytes, plan.size, sheet.bytes, sheet.size, d);
        nafthurm_route r = nafthurm_lookup_route(plan.bytes, plan.size, sheet.bytes, sheet.size, d);
        nafthurm_planned p = nafthurm_pair(plan.bytes, plan.size, 0, d);
        HOLD(r.number == 0 && r.number == p.route.number && r.kind == p.route.kind && r.via[0] == p.route.via[0] && r.via[1] == p.route.via[1]);
        if (r.kind == 0) {
            HOLD(part.start == 0 && part.size == 0);
            continue;
        }
        HOLD(part.size == 7 && part.start + 7 <= sheet.size && (part.start - 7) % 7 == 0);
        const uint8_t *entry = sheet.bytes + part.start;
        HOLD(entry[0] * 256 + entry[1] == d && entry[2] == r.kind && entry[3] * 256 + entry[4] == r.via[0] && entry[5] * 256 + entry[6] == r.via[1]);
    }
    nafthurm_part part = nafthurm_lookup(plan.bytes, plan.size, sheet.bytes, sheet.size, 16);
    HOLD(part.start == 0 && part.size == 0);
    HOLD(nafthurm_lookup_route(plan.bytes, plan.size, sheet.bytes, sheet.size, 16).number == 9);
    HOLD(nafthurm_lookup_route(plan.bytes, plan.size, sheet.bytes, sheet.size - 1, 1).number == 13);
    HOLD(nafthurm_lookup_route(plan.bytes, 8, sheet.bytes, sheet.size, 1).number == 1);
    is_written_back(W_SHEET);
    check_kept(&plan);
    check_kept(&sheet);

    /* Entries of kinds 160 and 176 give 10 and 11; a via equal to an end, two equal vias and an absent one that is not 0 are 13. */
    uint8_t made[] = {3, 0, 18, 0, 0, 0, 2, 0, 1, 160, 0, 0, 0, 0, 0, 2, 176, 0, 0, 0, 0};
    lend(&sheet, made, sizeof made);
    HOLD(nafthurm_lookup_route(plan.bytes, plan.size, sheet.bytes, sheet.size, 1).number == 10);
    HOLD(nafthurm_lookup_route(plan.bytes, plan.size, sheet.bytes, sheet.size, 2).number == 11);
    HOLD(nafthurm_lookup(plan.bytes, plan.size, sheet.bytes, sheet.size, 2).start == 14);
    const uint8_t bad[][3] = {{16, 2, 0}, {16, 0, 0}, {16, 16, 0}, {16, 3, 4}, {32, 3, 3}, {32, 3, 2}, {32, 3, 0}, {32, 3, 16}, {1, 3, 0}, {1, 0, 3}, {0, 0, 0}, {2, 3, 0}, {20, 3, 0},
                              {40, 3, 4}, {10, 0, 0}, {160, 0, 1}, {176, 1, 0}, {255, 0, 0}};
    for (size_t i = 0; i <= sizeof bad / sizeof *bad; i++) {
        const uint8_t *entry = i < sizeof bad / sizeof *bad ? bad[i] : (const uint8_t[]){39, 3, 4};
        made[16] = entry[0], made[18] = entry[1], made[20] = entry[2];
        lend(&sheet, made, sizeof made);
        HOLD(nafthurm_sheet_check(plan.bytes, plan.size, sheet.bytes, sheet.size) == (i < sizeof bad / sizeof *bad ? 13 : 0));
    }
}

/* W's sheet of version 2: its own five bytes, the kinds of version 3, and written again with the same routes. */
static void second_version(void) {
    lend(&plan, W, sizeof W);
    lend(&sheet, W_SECOND_SHEET, sizeof W_SECOND_SHEET);
    HOLD(nafthurm_sheet_check(plan.bytes, plan.size, sheet.bytes, sheet.size) == 0);
    is_written_back(W_WRITTEN_AGAIN);
    nafthurm_part part = nafthurm_lookup(plan.bytes, plan.size, sheet.bytes, sheet.size, 2);
    HOLD(part.start == 12 && part.size == 5);
    for (uint16_t d = 0; d < 16; d++) {
        nafthurm_route r = nafthurm_lookup_route(plan.bytes, plan.size, sheet.bytes, sheet.size, d);
        nafthurm_route again = nafthurm_lookup_route(plan.bytes, plan.size, W_WRITTEN_AGAIN, sizeof W_WRITTEN_AGAIN, d);
        HOLD(r.number == 0 && r.kind == again.kind && r.via[0] == again.via[0] && r.via[1] == 0 && again.via[1] == 0);
    }
    HOLD(nafthurm_lookup_route(plan.bytes, plan.size, sheet.bytes, sheet.size, 1).kind == 18);
    check_kept(&plan);
    check_kept(&sheet);

    uint8_t made[] = {2, 0, 14, 0, 0, 0, 2, 0, 1, 10, 0, 0, 0, 2, 11, 0, 0};
    lend(&sheet, made, sizeof made);
    HOLD(nafthurm_lookup_route(plan.bytes, plan.size, sheet.bytes, sheet.size, 1).number == 10);
    HOLD(nafthurm_lookup_route(plan.bytes, plan.size, sheet.bytes, sheet.size, 2).number == 11);
    lend_filled(&out, 0xEE, 21);
    HOLD(nafthurm_sheet_write_back(plan.bytes, plan.size, sheet.bytes, sheet.size, out.bytes, out.size).size == 21);
    HOLD(out.bytes[9] == 160 && out.bytes[16] == 176);
    made[14] = 16, made[16] = 3;
    lend(&sheet, made, sizeof made);
    HOLD(nafthurm_sheet_check(plan.bytes, plan.size, sheet.bytes, sheet.size) == 13);
}

/*
 * A sheet of W, of version `own`, with each other version byte is 13 by every call that reads it. The converter takes 1 alone, of version 2's layout, and finds 17 in
 * the first entry, by 3.
 */
static void sheet_versions(const uint8_t *own, size_t size) {
    uint8_t bytes[sizeof W_SHEET];
    memcpy(bytes, own, size);
    lend(&plan, W, sizeof W);
    for (int version = 0; version < 256; version++) {
        uint8_t number = version == own[0] ? 0 : 13;
        bytes[0] = (uint8_t)version;
        lend(&sheet, bytes, size);
        lend_filled(&out, 0xEE, sizeof bytes);
        HOLD(nafthurm_sheet_check(plan.bytes, plan.size, sheet.bytes, sheet.size) == number);
        HOLD(nafthurm_lookup(plan.bytes, plan.size, sheet.bytes, sheet.size, 1).size == (number ? 0 : own[0] == 2 ? 5 : 7));
        HOLD(nafthurm_lookup_route(plan.bytes, plan.size, sheet.bytes, sheet.size, 1).number == number);
        HOLD(nafthurm_lookup_route(plan.bytes, plan.size, sheet.bytes, sheet.size, 7).number == number);
        HOLD(nafthurm_sheet_write_back(plan.bytes, plan.size, sheet.bytes, sheet.size, out.bytes, out.size).number == number);
        if (number != 0) check_kept(&out);
        lend_filled(&out, 0xEE, sizeof bytes);
        HOLD(nafthurm_convert(plan.bytes, plan.size, sheet.bytes, sheet.size, out.bytes, out.size).number == (version == 1 && own[0] == 2 ? 17 : 13));
        check_kept(&out);
        check_kept(&sheet);
    }
    check_kept(&plan);
}

/* ---- Old route sheets ---- */

static nafthurm_converted convert(const uint8_t *bytes, size_t size, size_t room) {
    lend(&sheet, bytes, size);
    lend_filled(&out, 0xEE, room);
    nafthurm_converted c = nafthurm_convert(plan.bytes, plan.size, sheet.bytes, sheet.size, out.bytes, out.size);
    check_kept(&plan);
    check_kept(&sheet);
    check_around(&out);
    if (c.number != 0) check_kept(&out);
    return c;
}

static void is_converted(const uint8_t *bytes, size_t size) {
    for (size_t room = 0; room < size + 8; room++) {
        nafthurm_converted c = convert(bytes, size, room);
        HOLD(c.entry == 0);
        HOLD(c.number == (room < size ? 12 : 0) && c.size == (room < size ? 0 : size));
        if (room < size) continue;
        HOLD(out.bytes[0] == 2 && memcmp(out.bytes + 1, bytes + 1, size - 1) == 0);
        for (size_t i = size; i < room; i++) HOLD(out.bytes[i] == 0xEE);
    }
}

/* With whatever room. */
static void is_not_converted(const uint8_t *bytes, size_t size, uint8_t number, uint16_t entry) {
    for (size_t room = 0; room < size + 8; room++) {
        nafthurm_converted c = convert(bytes, size, room);
        HOLD(c.number == number && c.entry == entry && c.size == 0);
    }
}

/* Ordinary reading takes the converted sheet, which leads from 0 to 1 by 4 as the old one did; planning now leads by 3 and 2. */
static void worked_conversion(void) {
    uint8_t bytes[sizeof W_OLD_SHEET + 1] = {0};
    memcpy(bytes, W_OLD_SHEET, sizeof W_OLD_SHEET);
    lend(&plan, W, sizeof W);
    is_converted(bytes, sizeof W_OLD_SHEET);
    HOLD(convert(bytes, sizeof W_OLD_SHEET, sizeof W_OLD_SHEET).number == 0);
    nafthurm_route r = nafthurm_lookup_route(plan.bytes, plan.size, out.bytes, out.size, 1);
    HOLD(r.number == 0 && r.kind == 18 && r.via[0] == 4 && r.via[1] == 0);
    HOLD(nafthurm_lookup_route(plan.bytes, plan.size, sheet.bytes, sheet.size, 1).number == 13);
    for (size_t size = 0; size < sizeof W_OLD_SHEET; size++) is_not_converted(bytes, size, 13, 0);
    is_not_converted(bytes, sizeof bytes, 13, 0);
    const uint8_t none[] = {1, 0, 4, 0, 15, 0, 0};
    is_converted(none, sizeof none);

    /* Kind 11 in the last entry but one; then 13 of the last comes first, and of all that of the plan. */
    bytes[39] = 11, bytes[41] = 0;
    is_not_converted(bytes, sizeof W_OLD_SHEET, 17, 6);
    bytes[44] = 12;
    is_not_converted(bytes, sizeof W_OLD_SHEET, 13, 0);
    lend(&plan, W, sizeof W - 1);
    is_not_converted(bytes, sizeof W_OLD_SHEET, 4, 0);
}

/* Sheets that planning wrote when every half ring went plus: of a ring with one dead link, from a source. */
static void old_rings(void) {
    uint8_t ring[] = {1, 0, 9, 4, 1, 1, 1, 0, 1, 0, 0, 0};
    const uint8_t of_4_from_0[] = {1, 0, 14, 0, 0, 0, 2, 0, 1, 11, 0, 0, 0, 2, 2, 0, 3}, of_4_from_1[] = {1, 0, 14, 0, 1, 0, 2, 0, 0, 3, 0, 2, 0, 3, 2, 0, 2};
    lend(&plan, ring, sizeof ring);
    is_not_converted(of_4_from_0, sizeof of_4_from_0, 17, 0);
    is_converted(of_4_from_1, sizeof of_4_from_1);
    const uint8_t of_6_from_1[] = {1, 0, 19, 0, 1, 0, 3, 0, 0, 3, 0, 3, 0, 4, 2, 0, 2, 0, 5, 2, 0, 3};
    ring[3] = 6;
    lend(&plan, ring, sizeof ring);
    is_not_converted(of_6_from_1, sizeof of_6_from_1, 17, 0);
    const uint8_t of_8_from_2[] = {1, 0, 24, 0, 2, 0, 4, 0, 0, 2, 0, 5, 0, 1, 3, 0, 5, 0, 6, 2, 0, 3, 0, 7, 2, 0, 4};
    ring[3] = 8, ring[10] = 1;
    lend(&plan, ring, sizeof ring);
    is_not_converted(of_8_from_2, sizeof of_8_from_2, 17, 1);
}

/* Whether a sheet of one entry is converted, or else 17. */
static int keeps(int source, int destination, int kind, int via) {
    const uint8_t bytes[] = {1, 0, 9, 0, (uint8_t)source, 0, 1, 0, (uint8_t)destination, (uint8_t)kind, 0, (uint8_t)via};
    nafthurm_converted c = convert(bytes, sizeof bytes, sizeof bytes);
    HOLD(c.number == 0 || c.number == 17);
    return c.number == 0;
}

/* Entries whose legs travel half the ring, from one place of it, or less. */
static void half_ring_entries(int stride, int length, int from) {
    int here = from * stride, half = (from + length / 2) % length * stride, next = (from + 1) % length * stride, even = from % 2 == 0;
    HOLD(keeps(here, half, 1, 0) == even);
    HOLD(keeps(here, next, 4, half) == even);
    HOLD(keeps(here, next, 5, half) == even);
    HOLD(keeps(next, half, 3, here) == even);
    HOLD(keeps(next, half, 5, here) == even);
    HOLD(keeps(here, half, 2, next));
    HOLD(keeps(here, next, 3, half));
    HOLD(keeps(next, half, 4, here));
    HOLD(keeps(here, (from + length / 2 - 1) % length * stride, 1, 0));
    HOLD(keeps(here, half, 10, 0));
    HOLD(!keeps(here, half, 11, 0));
}

/* In each dimension and of every even length, from every place; along Y and Z the node number is even whatever the coordinate. */
static void half_ring_conversions(void) {
    for (int dim = 0; dim < 3; dim++)
        for (int length = 4; length <= 16; length += 2) {
            const uint8_t bytes[] = {1, 0, 6, (uint8_t)(dim == 0 ? length : 4), (uint8_t)(dim == 1 ? length : 3), (uint8_t)(dim == 2 ? length : 5), 7, 0, 0};
            lend(&plan, bytes, sizeof bytes);
            for (int from = 0; from < length; from++) half_ring_entries(dim == 0 ? 1 : dim == 1 ? 4 : 12, length, from);
        }
}

static int same_packet(nafthurm_packet a, nafthurm_packet b) {
    for (int i = 0; i < 3; i++)
        if (a.legs[i].target != b.legs[i].target || a.legs[i].mode != b.legs[i].mode) return 0;
    return a.source == b.source && a.node == b.node && a.count == b.count && a.mark == b.mark;
}

static size_t weight_of(uint8_t direction) {
    nafthurm_weights w = nafthurm_plan_weights(plan.bytes, plan.size);
    return direction < 2 ? w.x : direction < 4 ? w.y : w.z;
}

/* The hops taken back, from the last one on; behind the first there is none. */
static void all_back(nafthurm_shape shape, nafthurm_packet first, nafthurm_packet last, const uint8_t *taken, size_t hops) {
    nafthurm_packet packet = last;
    while (hops > 0) {
        nafthurm_stepped s = nafthurm_take_back(shape, packet, taken[--hops]);
        HOLD(s.number == 0);
        HOLD(same_packet(nafthurm_step(shape, s.packet, taken[hops]).packet, packet));
        packet = s.packet;
    }
    HOLD(same_packet(packet, first));
    for (int d = 0; d < 256; d++) {
        nafthurm_stepped s = nafthurm_take_back(shape, packet, (uint8_t)d);
        HOLD(s.number == 18 && same_packet(s.packet, packet));
    }
}

/* Under the lent plan from 0 to the destination and back, step by step, by the lowest or by the highest direction allowed: its hops weigh the route's length. */
static void packet_to(nafthurm_shape shape, uint16_t destination, int highest) {
    nafthurm_planned p = nafthurm_pair(plan.bytes, plan.size, 0, destination);
    nafthurm_packet packet = nafthurm_new_packet(0, destination, p.route), first = packet;
    HOLD(nafthurm_packet_check(shape, packet) == 0);
    uint8_t taken[50];
    size_t hops = 0, length = 0;
    for (int tried = 0; tried < 6;) {
        uint8_t direction = (uint8_t)(highest ? 5 - tried : tried);
        nafthurm_stepped s = nafthurm_step(shape, packet, direction);
        if (s.number == 15) {
            HOLD(same_packet(s.packet, packet));
            tried++;
            continue;
        }
        HOLD(s.number == 0);
        HOLD(!nafthurm_dead_link(plan.bytes, plan.size, packet.node, direction));
        packet = s.packet, taken[hops++] = direction, tried = 0;
        length += weight_of(direction);
        HOLD(length <= p.length);
    }
    HOLD(packet.node == destination && length == p.length);
    all_back(shape, first, packet, taken, hops);
    lend(&directions, taken, hops);
    nafthurm_walked w = nafthurm_walk(shape, first, directions.bytes, directions.size);
    HOLD(w.number == 0 && w.ending == NAFTHURM_ARRIVED && w.hops == hops);
    HOLD(same_packet(w.packet, hops == 0 ? first : packet));
    check_kept(&directions);
}

static void packets_of(const uint8_t *bytes, size_t size) {
    lend(&plan, bytes, size);
    for (uint16_t d = 0; d < 16; d++)
        for (int highest = 0; highest < 2; highest++) packet_to(nafthurm_plan_shape(plan.bytes, plan.size), d, highest);
}

/* By every call that takes the packet, which it leaves. */
static void is_14(nafthurm_shape shape, nafthurm_packet packet) {
    HOLD(nafthurm_packet_check(shape, packet) == 14);
    for (uint8_t d = 0; d < 8; d++) {
        nafthurm_stepped there = nafthurm_step(shape, packet, d), back = nafthurm_take_back(shape, packet, d);
        nafthurm_walked w = nafthurm_walk(shape, packet, &d, 1);
        HOLD(there.number == 14 && same_packet(there.packet, packet));
        HOLD(back.number == 14 && same_packet(back.packet, packet));
        HOLD(w.number == 14 && w.ending == NAFTHURM_REFUSED && w.hops == 0 && same_packet(w.packet, packet));
    }
}

static void worked_packets(void) {
    packets_of(WEIGHED, sizeof WEIGHED);
    packets_of(W, sizeof W);
    nafthurm_shape shape = nafthurm_plan_shape(plan.bytes, plan.size);
    /* Endings and refusals of a walk from 0 by 3 and 2 to 1. */
    const nafthurm_packet new = {0, 0, {{3, 0}, {2, 0}, {1, 0}}, 3, 0};
    nafthurm_packet packet = new;
    const uint8_t run[] = {1, 1, 1, 1};
    nafthurm_walked w = nafthurm_walk(shape, packet, run, 4);
    HOLD(w.ending == NAFTHURM_ARRIVED && w.hops == 3 && w.packet.node == 1 && w.packet.mark == 3);
    w = nafthurm_walk(shape, packet, run, 2);
    HOLD(w.ending == NAFTHURM_USED_UP && w.number == 0 && w.hops == 2 && w.packet.node == 2 && w.packet.mark == 2);
    const uint8_t wrong[] = {1, 0};
    w = nafthurm_walk(shape, packet, wrong, 2);
    HOLD(w.ending == NAFTHURM_NOT_ALLOWED && w.number == 15 && w.hops == 1 && w.packet.node == 3 && w.packet.mark == 1);
    packet.count = 4;
    w = nafthurm_walk(shape, packet, run, 3);
    HOLD(w.ending == NAFTHURM_REFUSED && w.number == 14 && w.hops == 0 && same_packet(w.packet, packet));
    /* 14 of a source, a node, a mark and a target; of legs of the route alone, also where they are travelled. */
    packet = new, packet.source = 16;
    is_14(shape, packet);
    packet = new, packet.node = 16;
    is_14(shape, packet);
    for (int count = 0; count <= 3; count++)
        for (int mark = 0; mark < 256; mark++) {
            packet = new, packet.count = (uint8_t)count, packet.mark = (uint8_t)mark;
            if (mark <= count) HOLD(nafthurm_packet_check(shape, packet) == 0);
            else is_14(shape, packet);
        }
    for (int leg = 0; leg < 3; leg++)
        for (int count = 0; count <= 3; count++)
            for (int mark = 0; mark <= count; mark++) {
                packet = new, packet.legs[leg].target = 16, packet.count = (uint8_t)count, packet.mark = (uint8_t)mark;
                if (leg >= count) HOLD(nafthurm_packet_check(shape, packet) == 0);
                else is_14(shape, packet);
            }
    /* Two legs that end where they begin are dropped at once; one behind another waits. */
    nafthurm_packet here = {0, 0, {{0, 1}, {0, 0}, {3, 0}}, 3, 0}, waits = {0, 0, {{3, 0}, {0, 0}, {0, 0}}, 3, 0};
    nafthurm_stepped s = nafthurm_step(shape, here, 1);
    HOLD(s.number == 0 && s.packet.node == 3 && s.packet.mark == 3);
    s = nafthurm_step(shape, waits, 1);
    HOLD(s.number == 0 && s.packet.node == 3 && s.packet.mark == 1);
    s = nafthurm_step(shape, s.packet, 0);
    HOLD(s.number == 0 && s.packet.node == 0 && s.packet.mark == 3);
    /* Any other byte of a mode is deterministic, and comes back as it was. */
    nafthurm_packet odd = {0, 0, {{2, 7}, {2, 9}, {2, 200}}, 1, 0};
    HOLD(nafthurm_step(shape, odd, 1).number == 15);
    s = nafthurm_step(shape, odd, 0);
    HOLD(s.number == 0 && s.packet.node == 1 && s.packet.legs[0].mode == 7 && s.packet.legs[1].mode == 9 && s.packet.legs[2].mode == 200);
    shape.x = 17;
    HOLD(nafthurm_step(shape, odd, 0).number == 5);
    shape.x = 2;
    HOLD(nafthurm_step(shape, odd, 0).number == 6);
    /* A refused route makes a packet that every call refuses. */
    nafthurm_route refused = {11, 176, {0, 0}};
    is_14(nafthurm_plan_shape(plan.bytes, plan.size), nafthurm_new_packet(0, 1, refused));
    for (int kind = 48; kind < 256; kind++) {
        nafthurm_route no_kind = {0, (uint8_t)kind, {0, 0}};
        HOLD(nafthurm_new_packet(0, 1, no_kind).count == 255 && nafthurm_new_packet(0, 1, no_kind).mark == 0);
    }
    /* The legs of every kind: a bit for each deterministic one, leg one lowest. */
    for (int vias = 0; vias < 3; vias++)
        for (int modes = 0; modes < 2 << vias; modes++) {
            nafthurm_route route = {0, (uint8_t)(16 * vias + modes), {(uint16_t)(vias > 0 ? 7 : 0), (uint16_t)(vias > 1 ? 9 : 0)}};
            nafthurm_packet made = nafthurm_new_packet(3, 1, route);
            HOLD(made.source == 3 && made.node == 3 && made.count == vias + 1 && made.mark == 0);
            for (int leg = 0; leg <= vias; leg++) {
                nafthurm_leg l = made.legs[leg];
                HOLD(l.target == (leg == vias ? 1 : route.via[leg]) && l.mode == (modes >> leg & 1));
            }
        }
}

/* Whether a packet of one leg, at a place of a ring and bound for another, both in that dimension, may go plus, and whether minus. */
static void may_go(nafthurm_shape shape, int stride, int dim, int from, int to, uint8_t mode, int plus, int minus) {
    nafthurm_packet packet = {(uint16_t)(from * stride), (uint16_t)(from * stride), {{(uint16_t)(to * stride), mode}}, 1, 0};
    HOLD(nafthurm_step(shape, packet, (uint8_t)(2 * dim)).number == (plus ? 0 : 15));
    HOLD(nafthurm_step(shape, packet, (uint8_t)(2 * dim + 1)).number == (minus ? 0 : 15));
}

/* In each dimension and of every even length, from every place: a deterministic leg of half the ring goes plus from an even place and minus from an odd one. */
static void half_rings(void) {
    for (int dim = 0; dim < 3; dim++)
        for (int length = 4; length <= 16; length += 2) {
            nafthurm_shape shape = {(uint8_t)(dim == 0 ? length : 3), (uint8_t)(dim == 1 ? length : 5), (uint8_t)(dim == 2 ? length : 7), 7};
            int stride = dim == 0 ? 1 : dim == 1 ? 3 : 15;
            for (int from = 0; from < length; from++) {
                int half = (from + length / 2) % length;
                may_go(shape, stride, dim, from, half, 1, from % 2 == 0, from % 2 == 1);
                may_go(shape, stride, dim, from, half, 0, 1, 1);
                may_go(shape, stride, dim, from, (half + length - 1) % length, 1, 1, 0);
                may_go(shape, stride, dim, from, (half + 1) % length, 1, 0, 1);
            }
        }
}

/* On a ring of 4 from 0 by 3 to 1, the second leg deterministic: it begins anew, at an odd place. */
static void half_ring_route(void) {
    const uint8_t minus[] = {1, 1, 1}, plus[] = {1, 0};
    nafthurm_packet packet = nafthurm_new_packet(0, 1, (nafthurm_route){0, 18, {3, 0}});
    nafthurm_shape shape = {4, 1, 1, 1};
    nafthurm_walked w = nafthurm_walk(shape, packet, minus, sizeof minus);
    HOLD(w.ending == NAFTHURM_ARRIVED && w.hops == 3 && w.packet.node == 1);
    w = nafthurm_walk(shape, packet, plus, sizeof plus);
    HOLD(w.ending == NAFTHURM_NOT_ALLOWED && w.hops == 1 && w.packet.node == 3);
}

/* ---- Hops taken back ---- */

/* The packet before the hop is at the node with the mark; and the hop leads from there to the packet. */
static void comes_from(nafthurm_shape shape, nafthurm_packet packet, uint8_t direction, uint16_t node, uint8_t mark) {
    nafthurm_stepped s = nafthurm_take_back(shape, packet, direction);
    nafthurm_packet before = packet;
    before.node = node, before.mark = mark;
    HOLD(s.number == 0 && same_packet(s.packet, before));
    s = nafthurm_step(shape, before, direction);
    HOLD(s.number == 0 && same_packet(s.packet, packet));
}

/* By no direction but those whose bit is set. */
static void comes_only(nafthurm_shape shape, nafthurm_packet packet, unsigned directions_set) {
    for (int d = 0; d < 256; d++) {
        nafthurm_stepped s = nafthurm_take_back(shape, packet, (uint8_t)d);
        if (d < 6 && directions_set >> d & 1) HOLD(s.number == 0);
        else HOLD(s.number == 18 && same_packet(s.packet, packet));
    }
}

enum { X_PLUS = 1, X_MINUS = 2, Y_PLUS = 4, Y_MINUS = 8 };

static void hops_back(void) {
    const nafthurm_shape w = {4, 4, 1, 3}, row = {5, 1, 1, 0};
    /* From 0 by 3 and 2 to 1: at 1 it has arrived; at 3 the first leg has ended, and a mark on it was stored by no hop. */
    comes_from(w, (nafthurm_packet){0, 1, {{3, 0}, {2, 0}, {1, 0}}, 3, 3}, 1, 2, 2);
    comes_only(w, (nafthurm_packet){0, 1, {{3, 0}, {2, 0}, {1, 0}}, 3, 3}, X_MINUS);
    comes_from(w, (nafthurm_packet){0, 3, {{3, 0}, {2, 0}, {1, 0}}, 3, 1}, 1, 0, 0);
    comes_only(w, (nafthurm_packet){0, 3, {{3, 0}, {2, 0}, {1, 0}}, 3, 0}, 0);
    comes_only(w, (nafthurm_packet){0, 0, {{3, 0}, {2, 0}, {1, 0}}, 3, 0}, 0);
    /* From 0 to 5, by 1 or by 4; of a deterministic leg by 1 alone. */
    comes_from(w, (nafthurm_packet){0, 5, {{5, 0}}, 1, 1}, 0, 4, 0);
    comes_from(w, (nafthurm_packet){0, 5, {{5, 0}}, 1, 1}, 2, 1, 0);
    comes_only(w, (nafthurm_packet){0, 5, {{5, 0}}, 1, 1}, X_PLUS | Y_PLUS);
    comes_only(w, (nafthurm_packet){0, 5, {{5, 1}}, 1, 1}, Y_PLUS);
    comes_only(w, (nafthurm_packet){0, 4, {{5, 1}}, 1, 0}, 0);
    /* Half a ring, from an even place and from an odd one; a packet on the other side goes on, and did not come there. */
    comes_only(w, (nafthurm_packet){0, 2, {{2, 0}}, 1, 1}, X_PLUS | X_MINUS);
    comes_only(w, (nafthurm_packet){0, 2, {{2, 1}}, 1, 1}, X_PLUS);
    comes_only(w, (nafthurm_packet){1, 3, {{3, 1}}, 1, 1}, X_MINUS);
    comes_only(w, (nafthurm_packet){0, 3, {{2, 0}}, 1, 0}, X_MINUS);
    comes_only(w, (nafthurm_packet){0, 3, {{2, 1}}, 1, 0}, 0);
    HOLD(nafthurm_step(w, (nafthurm_packet){0, 3, {{2, 1}}, 1, 0}, 1).number == 0);
    /* In a row from 2 to 0 and on to 4: at 2 on the second leg it is not new. */
    comes_from(row, (nafthurm_packet){2, 2, {{0, 0}, {4, 1}}, 2, 1}, 0, 1, 1);
    comes_from(row, (nafthurm_packet){2, 1, {{0, 0}, {4, 1}}, 2, 1}, 0, 0, 1);
    comes_from(row, (nafthurm_packet){2, 0, {{0, 0}, {4, 1}}, 2, 1}, 1, 1, 0);
    comes_only(row, (nafthurm_packet){2, 2, {{0, 0}, {4, 1}}, 2, 0}, 0);
    /* Legs that end where they begin: the mark passes them with the hop before, and back. */
    comes_from(row, (nafthurm_packet){0, 1, {{1, 0}, {1, 1}, {2, 0}}, 3, 2}, 0, 0, 0);
    comes_only(row, (nafthurm_packet){0, 1, {{1, 0}, {1, 1}, {2, 0}}, 3, 1}, 0);
    comes_from(row, (nafthurm_packet){0, 1, {{1, 0}, {1, 1}, {1, 0}}, 3, 3}, 0, 0, 0);
    comes_from(row, (nafthurm_packet){0, 1, {{0, 0}, {0, 1}, {2, 0}}, 3, 2}, 0, 0, 2);
    comes_only(row, (nafthurm_packet){0, 0, {{0, 0}, {0, 1}, {2, 0}}, 3, 2}, 0);
    /* To the node itself, without a leg, and past the last leg elsewhere than at its target. */
    comes_only(row, nafthurm_new_packet(3, 3, (nafthurm_route){0, 0, {0, 0}}), 0);
    comes_only(row, (nafthurm_packet){3, 3, {{3, 0}}, 0, 0}, 0);
    comes_only(row, (nafthurm_packet){3, 4, {{3, 0}}, 0, 0}, 0);
    comes_only(row, (nafthurm_packet){0, 3, {{4, 0}}, 1, 1}, 0);
    /* Legs behind the route are kept, and a mode as it was. */
    comes_from(row, (nafthurm_packet){0, 1, {{2, 200}, {65535, 9}, {5, 7}}, 1, 0}, 0, 0, 0);
    /* 5 and 6 come first. */
    nafthurm_packet bad = {9, 1, {{2, 0}}, 1, 2};
    HOLD(nafthurm_take_back((nafthurm_shape){17, 1, 1, 0}, bad, 6).number == 5);
    HOLD(nafthurm_take_back((nafthurm_shape){2, 1, 1, 1}, bad, 6).number == 6);
    HOLD(nafthurm_take_back(row, bad, 6).number == 14);
}

/* A new packet's mark is on the first leg whose target is not its source. */
static void new_marks(void) {
    for (uint8_t kind = 0; kind < 3; kind++)
        for (int ends = 0; ends < 8; ends++) {
            uint16_t stops[3];
            int mark = 0;
            for (int leg = 0; leg < 3; leg++) stops[leg] = ends >> leg & 1 ? 3 : (uint16_t)(5 + leg);
            uint16_t destination = stops[kind];
            while (mark <= kind && stops[mark] == 3) mark++;
            nafthurm_packet packet = nafthurm_new_packet(3, destination, (nafthurm_route){0, (uint8_t)(16 * kind), {stops[0], stops[1]}});
            HOLD(packet.source == 3 && packet.node == 3 && packet.count == kind + 1 && packet.mark == mark);
        }
}

/* ---- The stack ---- */

static uint8_t stack[1 << 19] __attribute__((aligned(64)));
static uint8_t big_input[2 + NAFTHURM_PLAN_BYTES], *const big_plan = big_input + 2, big_sheet[NAFTHURM_SHEET_BYTES], big_old[7 + 5 * 4095];
static uint8_t big_out[NAFTHURM_LISTING_BYTES], run_of_45[45];
static uint16_t big_work[NAFTHURM_ALL_WORDS];
static size_t big_sheet_size;
static ucontext_t main_stack, on_stack;
static volatile size_t answer;

static const nafthurm_shape CUBE = {16, 16, 16, 7};
static const nafthurm_packet THREE_LEGS = {0, 0, {{7, 0}, {9, 1}, {11, 0}}, 3, 0}, ARRIVED = {0, 11, {{7, 0}, {9, 1}, {11, 0}}, 3, 3};

static void no_call(void) { answer = 0; }
static void calls_plan_check(void) { answer = nafthurm_plan_check(big_plan, NAFTHURM_PLAN_BYTES); }
static void calls_plan_shape(void) { answer = nafthurm_plan_shape(big_plan, NAFTHURM_PLAN_BYTES).x; }
static void calls_plan_weights(void) { answer = nafthurm_plan_weights(big_plan, NAFTHURM_PLAN_BYTES).x; }
static void calls_dead_node(void) { answer = nafthurm_dead_node(big_plan, NAFTHURM_PLAN_BYTES, 9); }
static void calls_dead_link(void) { answer = nafthurm_dead_link(big_plan, NAFTHURM_PLAN_BYTES, 9, 3); }
static void calls_plan_write_back(void) { answer = nafthurm_plan_write_back(big_plan, NAFTHURM_PLAN_BYTES, big_out, sizeof big_out).size; }
enum { CUT_OFF = 273 };

static void calls_pair(void) { answer = nafthurm_pair(big_plan, NAFTHURM_PLAN_BYTES, 0, CUT_OFF).route.kind; }
static void calls_write_sheet(void) { answer = nafthurm_write_sheet(big_plan, NAFTHURM_PLAN_BYTES, 0, big_out, sizeof big_out).size; }
static void calls_all_sheets(void) {
    answer = nafthurm_all_sheets(big_plan, NAFTHURM_PLAN_BYTES, 4094, big_work, NAFTHURM_ALL_WORDS, big_out, sizeof big_out).size;
}
static void calls_listing(void) { answer = nafthurm_listing(big_input, sizeof big_input, big_out, sizeof big_out).size; }
static void calls_sheet_check(void) { answer = nafthurm_sheet_check(big_plan, NAFTHURM_PLAN_BYTES, big_sheet, big_sheet_size); }
static void calls_sheet_write_back(void) {
    answer = nafthurm_sheet_write_back(big_plan, NAFTHURM_PLAN_BYTES, big_sheet, big_sheet_size, big_out, sizeof big_out).size;
}
static void calls_lookup(void) { answer = nafthurm_lookup(big_plan, NAFTHURM_PLAN_BYTES, big_sheet, big_sheet_size, 4000).size; }
static void calls_lookup_route(void) { answer = nafthurm_lookup_route(big_plan, NAFTHURM_PLAN_BYTES, big_sheet, big_sheet_size, 4000).kind; }
static void calls_convert(void) { answer = nafthurm_convert(big_plan, NAFTHURM_PLAN_BYTES, big_old, sizeof big_old, big_out, sizeof big_out).size; }
static void calls_packet_check(void) { answer = nafthurm_packet_check(CUBE, THREE_LEGS); }
static void calls_step(void) { answer = nafthurm_step(CUBE, THREE_LEGS, 0).number; }
static void calls_take_back(void) { answer = nafthurm_take_back(CUBE, ARRIVED, 0).number; }
static void calls_walk(void) { answer = nafthurm_walk(CUBE, THREE_LEGS, run_of_45, sizeof run_of_45).hops; }

/* The bytes of stack that the call changes. */
static size_t stack_of(void (*call)(void)) {
    memset(stack, 0xC3, sizeof stack);
    HOLD(getcontext(&on_stack) == 0);
    on_stack.uc_stack.ss_sp = stack;
    on_stack.uc_stack.ss_size = sizeof stack;
    on_stack.uc_link = &main_stack;
    makecontext(&on_stack, call, 0);
    HOLD(swapcontext(&main_stack, &on_stack) == 0);
    size_t untouched = 0;
    while (untouched < sizeof stack && stack[untouched] == 0xC3) untouched++;
    return sizeof stack - untouched;
}

/* The largest old sheet, from 0 by 2, all legs deterministic: both begin at even coordinates. */
static void make_big_old(void) {
    const uint8_t head[] = {1, 0x4F, 0xFF, 0, 0, 0x0F, 0xFF};
    memcpy(big_old, head, sizeof head);
    for (int d = 1; d < 4096; d++) {
        const uint8_t entry[] = {(uint8_t)(d >> 8), (uint8_t)d, d == 2 ? 1 : 5, 0, d == 2 ? 0 : 2};
        memcpy(big_old + 2 + 5 * d, entry, sizeof entry);
    }
    calls_convert();
    HOLD(answer == sizeof big_old);
}

static int by_place(const void *a, const void *b) { return memcmp(a, b, 3); }

/* The largest plan: every fault a dead link. The first six cut off a board, so that planning a route to it comes to the last step. */
static void make_big(void) {
    const uint8_t head[] = {2, 3, 9, 16, 16, 16, 7, 1, 1, 3, 1, 0};
    const uint8_t cut_off[6][3] = {{0, 17, 2}, {1, 1, 1}, {1, 16, 0}, {1, 17, 0}, {1, 17, 1}, {1, 17, 2}};
    uint8_t *faults = big_plan + sizeof head;
    int count = 6;
    memcpy(big_plan, head, sizeof head);
    memcpy(faults, cut_off, sizeof cut_off);
    for (int i = 0; count < 256; i++) {
        int node = 16 * i + i % 16;
        const uint8_t fault[3] = {(uint8_t)(node >> 8), (uint8_t)node, (uint8_t)(i % 3)};
        int listed = 0;
        for (int k = 0; k < 6; k++) listed |= memcmp(fault, cut_off[k], 3) == 0;
        if (!listed) memcpy(faults + 3 * count++, fault, 3);
    }
    qsort(faults, 256, 3, by_place);
    nafthurm_written w = nafthurm_write_sheet(big_plan, NAFTHURM_PLAN_BYTES, 1, big_sheet, sizeof big_sheet);
    HOLD(w.number == 0);
    big_sheet_size = w.size;
    make_big_old();
}

static void stack_use(void) {
    void (*small[])(void) = {calls_plan_check, calls_plan_shape, calls_plan_weights, calls_dead_node, calls_dead_link, calls_plan_write_back,
                             calls_sheet_check, calls_sheet_write_back, calls_lookup, calls_lookup_route, calls_convert, calls_packet_check, calls_step, calls_take_back, calls_walk};
    make_big();
    size_t without = stack_of(no_call), most = 0;
    for (size_t i = 0; i < sizeof small / sizeof *small; i++) {
        size_t used = stack_of(small[i]) - without;
        if (most < used) most = used;
    }
    size_t of_pair = stack_of(calls_pair) - without, of_sheet = stack_of(calls_write_sheet) - without;
    calls_pair();
    HOLD(answer == 176);
    size_t of_all = stack_of(calls_all_sheets) - without, of_listing = stack_of(calls_listing) - without;
    HOLD(most <= NAFTHURM_STACK);
    HOLD(of_pair <= NAFTHURM_STACK_PAIR);
    HOLD(of_sheet <= NAFTHURM_STACK_SHEET);
    HOLD(of_all <= NAFTHURM_STACK_ALL);
    HOLD(of_listing <= NAFTHURM_STACK_LISTING);
    printf("nafthurm_pair %zu bytes, nafthurm_write_sheet %zu, nafthurm_all_sheets %zu, nafthurm_listing %zu, any other call at most %zu\n",
           of_pair, of_sheet, of_all, of_listing, most);
}

/* test [--stack]: a sanitizer and valgrind have stacks of their own, so that the stack is asked for by itself. */
int main(int count, char **words) {
    if (count > 1 && strcmp(words[1], "--stack") == 0) return stack_use(), 0;
    forms();
    worked_pairs();
    weighed_pairs();
    worked_plans();
    weighed_plans();
    worked_sheet();
    worked_all_sheets();
    worked_listing();
    worked_lookups();
    second_version();
    sheet_versions(W_SHEET, sizeof W_SHEET);
    sheet_versions(W_SECOND_SHEET, sizeof W_SECOND_SHEET);
    worked_conversion();
    old_rings();
    half_ring_conversions();
    worked_packets();
    half_rings();
    half_ring_route();
    hops_back();
    new_marks();
    puts("W and its edges are as documents 01 and 02 have them, a machine with weights goes by weight, half a ring by where it begins, old sheets keep their walks, hops are taken back");
    return 0;
}
