/*
 * Wrong answers put around the library's calls, one at a time, by the number in the environment's WRONG: the script run sees that fuzz notices each of them.
 * They are slips of one place each, most of them such that few inputs show them.
 */
#include "model.h"

#include <stdlib.h>
#include <string.h>

static int wrong(int number) {
    static int chosen = -1;
    if (chosen < 0) chosen = getenv("WRONG") != NULL ? atoi(getenv("WRONG")) : 0;
    return chosen == number;
}

/* The linker's --wrap has the program call the first name, and gives the library's call the second. */
#define AROUND(type, name, ...) \
    type __real_##name(__VA_ARGS__); \
    type __wrap_##name(__VA_ARGS__); \
    type __wrap_##name(__VA_ARGS__)

static int count_of(const uint8_t *plan, size_t plan_size) { return nodes_of(nafthurm_plan_shape(plan, plan_size)); }

/* ---- Other rules at half a ring: what the model says by them ---- */

/* Where the walk or the pair's route begins. */
static int first_node;

static int from_odd(nafthurm_shape s, int node, int target, int dim) { return (void)target, place(s, node, dim) % 2; }
static int by_target(nafthurm_shape s, int node, int target, int dim) { return (void)node, place(s, target, dim) % 2 == 0; }
static int by_number(nafthurm_shape s, int node, int target, int dim) { return (void)s, (void)target, (void)dim, node % 2 == 0; }
static int by_first(nafthurm_shape s, int node, int target, int dim) { return (void)node, (void)target, place(s, first_node, dim) % 2 == 0; }

static half_rule *right_rule;

static void begin_rule(half_rule *rule, int node) { right_rule = half_plus, half_plus = rule, first_node = node; }
static void end_rule(void) { half_plus = right_rule; }

/* ---- Plan sheets ---- */

static int rises(const uint8_t *plan, size_t at) { return at == head_size(plan[0]) || memcmp(plan + at - 3, plan + at, 3) < 0; }

static size_t fault_count(const uint8_t *plan) { return word(plan + head_size(plan[0]) - 2); }

/* Whether a weight of a dimension of at least this extent is outside 1 to `most`. */
static int bad_weight(const uint8_t *plan, int extent, int most) {
    for (int dim = 0; plan[0] == 2 && dim < 3; dim++)
        if (plan[3 + dim] >= extent && (plan[7 + dim] < 1 || plan[7 + dim] > most)) return 1;
    return 0;
}

/* Where the first fault stands that does not exist; the size where there is none. */
static size_t absent_at(const uint8_t *plan, size_t plan_size) {
    nafthurm_shape s = {plan[3], plan[4], plan[5], plan[6]};
    size_t at = head_size(plan[0]);
    while (at < plan_size && fault_exists(s, word(plan + at), plan[at + 2])) at += 3;
    return at;
}

AROUND(uint8_t, nafthurm_plan_check, const uint8_t *plan, size_t plan_size) {
    uint8_t number = __real_nafthurm_plan_check(plan, plan_size);
    if (wrong(1) && number == 8 && absent_at(plan, plan_size) < plan_size) return 7;       /* 7 of any fault before 8 of any */
    if (wrong(2) && number == 7 && !rises(plan, absent_at(plan, plan_size))) return 8;     /* 8 before 7 at one fault */
    if (wrong(3) && number == 0 && fault_count(plan) == 256) return 3;                     /* 256 faults are too many */
    if (wrong(4) && number == 3 && fault_count(plan) == 257) return 8;                     /* and 257 are not */
    if (wrong(5) && number == 3 && word(plan + 1) != plan_size - 3) return 4;              /* 4 before 3 */
    if (wrong(6) && number == 1 && plan_size > 0 && plan[0] != 1 && plan[0] != 2) return 2; /* 2 before 1 */
    if (wrong(7) && number == 5 && plan[6] > 7) return 6;                                  /* 6 before 5 */
    if (wrong(8) && number == 4 && plan_size == head_size(plan[0]) + 3 * fault_count(plan)) return 0; /* the length field is not looked at */
    if (wrong(9) && number == 6 && (plan[6] & 127) < 8) return 0;                          /* the last spare bit may be set */
    if (wrong(66) && number == 16 && !bad_weight(plan, 0, 9)) return 0;                    /* 9 is accepted as a weight */
    if (wrong(67) && number == 16 && !bad_weight(plan, 2, 8)) return 0;                    /* weights of absent dimensions are not judged */
    if (wrong(68) && number == 16 && absent_at(plan, plan_size) < plan_size) return 7;     /* 16 after 7 */
    if (wrong(69) && number == 6 && bad_weight(plan, 0, 8)) return 16;                     /* 16 before 6 */
    if (wrong(70) && number == 1 && plan_size == 11 && plan[0] == 2) return 4;             /* 11 bytes are enough for version 2 */
    if (wrong(71) && number == 2 && plan_size < 12) return 1;                              /* 12 bytes are asked of any version */
    return number;
}

AROUND(nafthurm_weights, nafthurm_plan_weights, const uint8_t *plan, size_t plan_size) {
    nafthurm_weights w = __real_nafthurm_plan_weights(plan, plan_size);
    if (wrong(72)) return (nafthurm_weights){w.x, w.z, w.y};
    if (wrong(73) && w.x == 0) return (nafthurm_weights){1, 1, 1}; /* of a sheet that is declined */
    return w;
}

AROUND(bool, nafthurm_dead_link, const uint8_t *plan, size_t plan_size, uint16_t node, uint8_t direction) {
    bool dead = __real_nafthurm_dead_link(plan, plan_size, node, direction);
    if (wrong(10) && direction == 3) return false;
    if (wrong(11) && dead) return nafthurm_dead_node(plan, plan_size, node) || /* a link to a dead node is sound */
        !nafthurm_dead_node(plan, plan_size, (uint16_t)over(nafthurm_plan_shape(plan, plan_size), node, direction));
    return dead;
}

AROUND(nafthurm_written, nafthurm_plan_write_back, const uint8_t *plan, size_t plan_size, uint8_t *out, size_t out_size) {
    nafthurm_written w = __real_nafthurm_plan_write_back(plan, plan_size, out, out_size);
    if (wrong(12) && w.number == 0) out[out_size] = 0;
    if (wrong(13) && w.number == 0 && out_size == plan_size) return (nafthurm_written){12, 0}; /* one byte more is asked for */
    return w;
}

/* ---- Planning ---- */

/* Whether the direct deterministic leg is clear, and as short as the route. */
static int deterministic_would_do(const uint8_t *plan, uint16_t source, uint16_t destination, int length) {
    static model_plan model;
    read_plan(&model, plan);
    return apart(&model, source, destination) == length && leg_clear(&model, source, destination, 1);
}

static int route_hops(nafthurm_shape s, nafthurm_route route, uint16_t source, uint16_t destination) {
    int sum = 0, at = source;
    for (int i = 0; i < route.kind / 16; i++) sum += hops(s, at, route.via[i]), at = route.via[i];
    return sum + hops(s, at, destination);
}

/* On plans that are small for the model. */
static nafthurm_planned pair_by(half_rule *rule, const uint8_t *plan, uint16_t source, uint16_t destination) {
    static model_plan model;
    read_plan(&model, plan);
    begin_rule(rule, source);
    nafthurm_planned p = model_pair(&model, source, destination);
    end_rule();
    return p;
}

/* A route by two vias in the place of this one, as short and with its modes: one with a lower second via (147), or with a higher one behind the same first (148). */
static nafthurm_planned other_order(nafthurm_planned p, const uint8_t *plan, int source, int destination) {
    static model_plan model;
    if (p.route.kind < 32) return p;
    read_plan(&model, plan);
    int nodes = nodes_of(model.shape), modes = p.route.kind & 7;
    for (int via = 0; via < nodes; via++)
        for (int second = 0; second < nodes; second++) {
            if (via == source || via == destination || second == source || second == destination || via == second) continue;
            if (apart(&model, source, via) + apart(&model, via, second) + apart(&model, second, destination) != p.length) continue;
            if (wrong(147) && second >= p.route.via[1]) continue;
            if (wrong(148) && (via != p.route.via[0] || second <= p.route.via[1])) continue;
            if (!leg_clear(&model, source, via, modes & 1) || !leg_clear(&model, via, second, modes >> 1 & 1) || !leg_clear(&model, second, destination, modes >> 2)) continue;
            return (nafthurm_planned){{0, p.route.kind, {(uint16_t)via, (uint16_t)second}}, p.length};
        }
    return p;
}

AROUND(nafthurm_planned, nafthurm_pair, const uint8_t *plan, size_t plan_size, uint16_t source, uint16_t destination) {
    nafthurm_planned p = __real_nafthurm_pair(plan, plan_size, source, destination);
    int count = count_of(plan, plan_size);
    half_rule *rule = wrong(86) ? always_plus : wrong(87) ? from_odd : wrong(88) ? by_target : wrong(89) ? by_number : wrong(90) ? by_first : NULL;
    if (rule != NULL && count > 0 && count <= 64) return pair_by(rule, plan, source, destination);
    if (wrong(14) && p.route.number == 9 && source == count) return __real_nafthurm_pair(plan, plan_size, (uint16_t)(source - 1), destination);
    if (wrong(15) && p.route.number == 9 && destination == count) return (nafthurm_planned){refused_route(11), 0};
    int dead = nafthurm_dead_node(plan, plan_size, source) || nafthurm_dead_node(plan, plan_size, destination);
    if (wrong(16) && p.route.number == 9 && dead) return (nafthurm_planned){refused_route(10), 0}; /* 10 before 9 */
    if (p.route.number != 0) return p;
    if (wrong(17) && p.route.kind == 18) p.route.kind = 17;
    if (wrong(18) && p.route.kind >= 16) p.route = (nafthurm_route){0, 0, {0, 0}};
    if (wrong(19) && p.length > 30) return (nafthurm_planned){refused_route(11), 0};
    if (wrong(20) && p.route.kind == 16 && deterministic_would_do(plan, source, destination, p.length)) p.route = (nafthurm_route){0, 1, {0, 0}}; /* vias before modes */
    if (wrong(21) && p.route.kind == 16 && p.route.via[0] == 0) p.route.kind = 0; /* via 0 taken for none */
    if (wrong(141) && p.route.kind >= 32) return (nafthurm_planned){refused_route(11), 0};                     /* no second via */
    if (wrong(142) && p.route.kind == 39) p.route.kind = 38;
    if (wrong(143) && p.route.kind == 33) p.route.kind = 36;                                                   /* leg one highest */
    if (wrong(144) && p.route.kind >= 32 && p.route.via[1] == 0) p.route.kind = (uint8_t)(16 + p.route.kind % 4);
    if (wrong(145) && p.route.kind >= 32) p.route.via[0] ^= p.route.via[1], p.route.via[1] ^= p.route.via[0], p.route.via[0] ^= p.route.via[1];
    if (wrong(146) && p.length > 720) p.length = 720;
    if ((wrong(147) || wrong(148)) && count <= 64) return other_order(p, plan, source, destination);
    if (wrong(74)) p.length = (uint16_t)route_hops(nafthurm_plan_shape(plan, plan_size), p.route, source, destination);
    if (wrong(75)) p.length &= 255;
    if (wrong(76) && p.length > 511) p.length = 511;
    return p;
}

/* Where the first entry of the kind stands; the size where there is none. */
static size_t kind_at(const uint8_t *sheet, size_t size, int kind) {
    size_t at = 7;
    while (at < size && sheet[at + 2] != kind) at += entry_size(sheet[0]);
    return at;
}

AROUND(nafthurm_written, nafthurm_write_sheet, const uint8_t *plan, size_t plan_size, uint16_t source, uint8_t *out, size_t out_size) {
    int count = count_of(plan, plan_size);
    if (wrong(22) && count > 0 && source == count) source--;
    nafthurm_written w = __real_nafthurm_write_sheet(plan, plan_size, source, out, out_size);
    if (wrong(23) && w.number == 12 && out_size > 0) out[0] ^= 1;
    size_t at = w.number == 0 ? kind_at(out, w.size, NONE_KIND) : 0;
    if (wrong(24) && w.number == 0 && at < w.size) out[at + 2] = DEAD_KIND;
    if (wrong(91) && w.number == 0) out[0] = 2; /* version 2 is written */
    if (wrong(149) && w.number == 0 && at < w.size) out[at + 2] = 11;
    at = w.number == 0 ? kind_at(out, w.size, 16) : 0;
    if (wrong(150) && w.number == 0 && at < w.size) out[at + 6] = out[at + 4]; /* an absent via that is not 0 */
    return w;
}

/* Where the last sheet of a run begins. */
static size_t last_at(const uint8_t *sheets, size_t size) {
    size_t at = 0;
    while (at + 3 + word(sheets + at + 1) < size) at += 3 + word(sheets + at + 1);
    return at;
}

AROUND(nafthurm_run, nafthurm_all_sheets, const uint8_t *plan, size_t plan_size, uint16_t from, uint16_t *work, size_t work_words, uint8_t *out, size_t out_size) {
    int count = count_of(plan, plan_size);
    if (wrong(54) && count > 0 && from == count) return (nafthurm_run){0, from, 0}; /* the board behind the last is no refusal */
    if (wrong(55) && work_words > 0) work[0] ^= 1;                                    /* a refusal alters the workspace */
    nafthurm_run r = __real_nafthurm_all_sheets(plan, plan_size, from, work, work_words, out, out_size);
    if (wrong(56) && r.number == 9 && work_words < 512 * (size_t)count) r.number = NAFTHURM_FEW_WORDS;
    if (wrong(57) && r.number == NAFTHURM_FEW_WORDS && work_words + 1 == 512 * (size_t)count) r = (nafthurm_run){0, (uint16_t)count, 0};
    if (wrong(58) && r.number == NAFTHURM_FEW_WORDS && out_size == 0) r.number = 12;
    if (wrong(59) && r.number == 12) r = (nafthurm_run){0, from, 0};                  /* a run of no sheet in place of 12 */
    if (r.number != 0) return r;
    size_t last = r.size > 0 ? last_at(out, r.size) : 0;
    if (wrong(60) && r.size < out_size) out[r.size] ^= 1;
    if (wrong(61) && r.size > 0 && r.size == out_size) return __real_nafthurm_all_sheets(plan, plan_size, from, work, work_words, out, out_size - 1);
    if (wrong(62) && last > 0) out[last + 4] = out[4];                                /* the last sheet with the first one's source */
    if (wrong(92) && r.size > 0) out[last] = 2;                                       /* the last sheet of version 2 */
    if (wrong(63) && r.next < count && nafthurm_dead_node(plan, plan_size, (uint16_t)(r.next - 1))) r.next--; /* it stops before a dead board */
    if (wrong(64) && r.next == count) r.next--;
    if (wrong(65) && last > 0 && kind_at(out, last, 16) < last) r.size = last; /* a sheet less is told */
    return r;
}

AROUND(nafthurm_written, nafthurm_listing, const uint8_t *input, size_t input_size, uint8_t *out, size_t out_size) {
    nafthurm_written w = __real_nafthurm_listing(input, input_size, out, out_size);
    if (wrong(25) && w.number == 0 && w.size < out_size) out[w.size] = 0;
    return w;
}

/* ---- Route sheets ---- */

/* A node that is none of these three. */
static size_t other_node(size_t one, size_t two, size_t three) {
    size_t node = 0;
    while (node == one || node == two || node == three) node++;
    return node;
}

/* Whether the entry's via in that place is one that the wrong answer takes for good. */
static int forgiven(int version, const uint8_t *entry, int place, size_t count) {
    int by_via = vias_of(kind_in(version, entry[2])) > place;
    size_t via = word(entry + 3 + 2 * place);
    if (wrong(27)) return !by_via && via != 0 && place == 0;
    if (wrong(28)) return by_via && via == word(entry) && place == 0;
    if (wrong(151)) return !by_via && via != 0 && place == 1;
    if (wrong(152)) return by_via && via == word(entry) && place == 1;
    if (wrong(153)) return by_via && place == 1 && via == word(entry + 3);
    return wrong(29) && by_via && via == count;
}

static uint8_t copy[40000];

/* The sheet, one of a version that is read as well made the version that is read. */
static const uint8_t *read_too(int version, int as, const uint8_t *sheet, size_t sheet_size) {
    memcpy(copy, sheet, sheet_size);
    if (sheet_size > 0 && sheet[0] == version) copy[0] = (uint8_t)as;
    return copy;
}

/* The sheet with good vias in each entry whose vias are forgiven. */
static const uint8_t *mended(const uint8_t *sheet, size_t sheet_size, size_t count) {
    memcpy(copy, sheet, sheet_size);
    size_t each = sheet_size > 0 ? entry_size(sheet[0]) : 5;
    for (size_t at = 7; at + each <= sheet_size; at += each)
        for (int place = 0; place < (each == 7 ? 2 : 1); place++) {
            if (!forgiven(sheet[0], copy + at, place, count)) continue;
            size_t via = wrong(27) || wrong(151) ? 0 : other_node(word(sheet + 3), word(sheet + at), each == 7 ? word(copy + at + 5 - 2 * place) : word(sheet + 3));
            copy[at + 3 + 2 * (size_t)place] = (uint8_t)(via >> 8), copy[at + 4 + 2 * (size_t)place] = (uint8_t)via;
        }
    return copy;
}

AROUND(uint8_t, nafthurm_sheet_check, const uint8_t *plan, size_t plan_size, const uint8_t *sheet, size_t sheet_size) {
    const volatile uint8_t *end = sheet + sheet_size;
    if (wrong(26)) (void)*end;
    if (wrong(93)) return __real_nafthurm_sheet_check(plan, plan_size, read_too(OLD_VERSION, SECOND_VERSION, sheet, sheet_size), sheet_size);
    if (wrong(94)) return __real_nafthurm_sheet_check(plan, plan_size, read_too(4, SHEET_VERSION, sheet, sheet_size), sheet_size);
    if (wrong(154)) return __real_nafthurm_sheet_check(plan, plan_size, read_too(SECOND_VERSION, 0, sheet, sheet_size), sheet_size); /* version 2 is not read */
    return __real_nafthurm_sheet_check(plan, plan_size, mended(sheet, sheet_size, (size_t)count_of(plan, plan_size)), sheet_size);
}

AROUND(nafthurm_written, nafthurm_sheet_write_back, const uint8_t *plan, size_t plan_size, const uint8_t *sheet, size_t sheet_size, uint8_t *out, size_t out_size) {
    if (wrong(95)) sheet = read_too(OLD_VERSION, SECOND_VERSION, sheet, sheet_size);
    nafthurm_written w = __real_nafthurm_sheet_write_back(plan, plan_size, sheet, sheet_size, out, out_size);
    if (wrong(96) && w.number == 0) out[0] = 2; /* version 2 is written back */
    if (w.number == 12 && sheet[0] == SECOND_VERSION && out_size >= sheet_size && wrong(155)) { /* version 2 comes back as it is, where that fits */
        memcpy(out, sheet, sheet_size);
        return (nafthurm_written){0, sheet_size};
    }
    size_t at = w.number == 0 && sheet[0] == SECOND_VERSION ? kind_at(out, w.size, 18) : 0;
    if (wrong(156) && at > 0 && at < w.size) out[at + 2] = 17; /* leg one highest */
    at = w.number == 0 && sheet[0] == SECOND_VERSION ? kind_at(out, w.size, NONE_KIND) : 0;
    if (wrong(157) && at > 0 && at < w.size) out[at + 2] = 11;
    return w;
}

AROUND(nafthurm_part, nafthurm_lookup, const uint8_t *plan, size_t plan_size, const uint8_t *sheet, size_t sheet_size, uint16_t destination) {
    if (wrong(97)) sheet = read_too(OLD_VERSION, SECOND_VERSION, sheet, sheet_size);
    nafthurm_part part = __real_nafthurm_lookup(plan, plan_size, sheet, sheet_size, destination);
    if (wrong(30) && part.size != 0 && destination == 0) part.start += part.size;
    if (wrong(158) && part.size == 7) part.size = 5;
    if (wrong(159) && part.size == 5) part.size = 7;
    if (wrong(31) && part.size == 0) part.start = sheet_size;
    return part;
}

AROUND(nafthurm_route, nafthurm_lookup_route, const uint8_t *plan, size_t plan_size, const uint8_t *sheet, size_t sheet_size, uint16_t destination) {
    if (wrong(98)) sheet = read_too(OLD_VERSION, SECOND_VERSION, sheet, sheet_size);
    nafthurm_route r = __real_nafthurm_lookup_route(plan, plan_size, sheet, sheet_size, destination);
    int count = count_of(plan, plan_size);
    if (wrong(32) && r.number == 9 && destination == count) return (nafthurm_route){0, 0, {0, 0}};
    if (wrong(33) && r.number == 13 && destination >= count) return refused_route(9); /* 9 before 13 */
    if (wrong(34) && r.number == 0 && r.kind == 18) r.kind = 17;
    if (wrong(160) && r.number == 0 && r.kind == 35) r.kind = 38;
    if (wrong(161) && r.number == 0) r.via[1] = 0;
    if (wrong(162) && r.number == 11 && sheet[0] == SECOND_VERSION) r.number = 13; /* the kinds of version 3 alone are known */
    return r;
}

/* ---- Old route sheets ---- */

/* A leg of an entry. The second begins at the via, the last ends at the destination. */
typedef struct {
    int source, from, to, deterministic, second, last;
} leg;

static int odd(nafthurm_shape s, int node, int dim) { return place(s, node, dim) % 2; }
static int half(nafthurm_shape s, leg l, int dim) { return l.deterministic && travels_half(s, l.from, l.to, dim); }
static int odd_half(nafthurm_shape s, leg l, int dim) { return half(s, l, dim) && odd(s, l.from, dim); }

static int first_dim(nafthurm_shape s, leg l) {
    int dim = 0;
    while (dim < 2 && place(s, l.from, dim) == place(s, l.to, dim)) dim++;
    return dim;
}

/* Other rules of which legs cannot be kept: whether the leg is such by its travel in the dimension. */
typedef int lost_rule(nafthurm_shape s, leg l, int dim);

static int lost_from_even(nafthurm_shape s, leg l, int dim) { return half(s, l, dim) && !odd(s, l.from, dim); }
static int lost_from_any(nafthurm_shape s, leg l, int dim) { return half(s, l, dim); }
static int lost_by_number(nafthurm_shape s, leg l, int dim) { return half(s, l, dim) && l.from % 2; }
static int lost_by_target(nafthurm_shape s, leg l, int dim) { return half(s, l, dim) && odd(s, l.to, dim); }
static int lost_by_source(nafthurm_shape s, leg l, int dim) { return half(s, l, dim) && odd(s, l.source, dim); }
static int lost_from_source(nafthurm_shape s, leg l, int dim) { return l.from = l.source, odd_half(s, l, dim); }
static int lost_in_x(nafthurm_shape s, leg l, int dim) { return dim == 0 && odd_half(s, l, dim); }
static int lost_in_first_dim(nafthurm_shape s, leg l, int dim) { return dim == first_dim(s, l) && odd_half(s, l, dim); }
static int lost_in_first_leg(nafthurm_shape s, leg l, int dim) { return !l.second && odd_half(s, l, dim); }
static int lost_in_last_leg(nafthurm_shape s, leg l, int dim) { return l.last && odd_half(s, l, dim); }
static int lost_if_adaptive(nafthurm_shape s, leg l, int dim) { return l.deterministic = 1, odd_half(s, l, dim); }
static int lost_if_open(nafthurm_shape s, leg l, int dim) { return s.wrap = 7, odd_half(s, l, dim); }

/* Half of an odd ring too, rounded. */
static int lost_near_half(nafthurm_shape s, leg l, int dim) {
    int apart = abs(place(s, l.from, dim) - place(s, l.to, dim));
    return l.deterministic && wrapped(s, dim) && odd(s, l.from, dim) && abs(2 * apart - extent(s, dim)) <= 1;
}

static lost_rule *wrong_rule(void) {
    return wrong(99) ? lost_from_even : wrong(100) ? lost_from_any : wrong(101) ? lost_by_number : wrong(102) ? lost_by_target : wrong(103) ? lost_by_source
        : wrong(104) ? lost_from_source : wrong(105) ? lost_in_x : wrong(106) ? lost_in_first_dim : wrong(107) ? lost_in_first_leg
        : wrong(108) ? lost_in_last_leg : wrong(109) ? lost_if_adaptive : wrong(110) ? lost_if_open : wrong(111) ? lost_near_half : NULL;
}

static int leg_lost(lost_rule *rule, nafthurm_shape s, leg l) { return rule(s, l, 0) || rule(s, l, 1) || rule(s, l, 2); }

static int wrongly_kept(nafthurm_shape s, int source, const uint8_t *entry) {
    lost_rule *rule = wrong_rule();
    int destination = (int)word(entry), kind = entry[2], via = (int)word(entry + 3);
    if (kind == 10) return !wrong(112);
    if (kind == 11) return wrong(113);
    if (rule == NULL) return entry_kept(s, source, entry);
    if (kind == 1) return !leg_lost(rule, s, (leg){source, source, destination, 1, 0, 1});
    return !leg_lost(rule, s, (leg){source, source, via, (kind - 2) / 2, 0, 0}) && !leg_lost(rule, s, (leg){source, via, destination, (kind - 2) % 2, 1, 1});
}

/* The first entry from this one on that is not kept, wrongly or not; the entry count where all are. */
static size_t next_lost(nafthurm_shape s, const uint8_t *sheet, size_t entry) {
    while (entry < word(sheet + 5) && wrongly_kept(s, (int)word(sheet + 3), sheet + 7 + 5 * entry)) entry++;
    return entry;
}

static size_t last_lost(nafthurm_shape s, const uint8_t *sheet, size_t entry) {
    for (size_t next = entry; next < word(sheet + 5); next = next_lost(s, sheet, next + 1)) entry = next;
    return entry;
}

/* Of a good sheet, whose entries are judged from this one on. */
static nafthurm_converted convert_from(size_t entry, nafthurm_shape s, const uint8_t *sheet, size_t size, uint8_t *out, size_t room) {
    size_t lost = next_lost(s, sheet, entry);
    if (lost < word(sheet + 5)) return (nafthurm_converted){17, (uint16_t)lost, 0};
    if (room < size) return (nafthurm_converted){12, 0, 0};
    memcpy(out, sheet, size);
    out[0] = SECOND_VERSION;
    return (nafthurm_converted){0, 0, size};
}

/* Of a bad sheet with a good head, the first entry that cannot be kept, if those up to it are good; the entry count if not. */
static size_t lost_before_bad(nafthurm_shape s, const uint8_t *sheet) {
    size_t count = word(sheet + 5);
    memcpy(copy, sheet, 7 + 5 * count);
    for (size_t entry = 0; entry < count; entry++) {
        size_t size = 12 + 5 * entry;
        copy[1] = (uint8_t)((size - 3) >> 8), copy[2] = (uint8_t)(size - 3), copy[5] = (uint8_t)((entry + 1) >> 8), copy[6] = (uint8_t)(entry + 1);
        if (sheet_number(s, OLD_VERSION, copy, size) != 0) return count;
        if (!entry_kept(s, (int)word(sheet + 3), sheet + size - 5)) return entry;
    }
    return count;
}

static int head_good(const uint8_t *sheet, size_t size) {
    return size >= 7 && sheet[0] == OLD_VERSION && word(sheet + 1) == size - 3 && size == 7 + 5 * word(sheet + 5);
}

/* Of a sheet that is 13. */
static nafthurm_converted wrong_of_bad(nafthurm_converted c, nafthurm_shape s, const uint8_t *sheet, size_t size, size_t room) {
    size_t lost = wrong(114) && head_good(sheet, size) ? lost_before_bad(s, sheet) : size;
    if (lost < size && lost < word(sheet + 5)) return (nafthurm_converted){17, (uint16_t)lost, 0}; /* 17 before 13 of a later entry */
    if (wrong(115) && room < size) return (nafthurm_converted){12, 0, 0};                          /* 12 before 13 */
    return c;
}

/* Of a sheet with an entry that cannot be kept. */
static nafthurm_converted wrong_of_lost(nafthurm_converted c, nafthurm_shape s, const uint8_t *sheet, size_t size, uint8_t *out, size_t room) {
    if (wrong(116) && room < size) return (nafthurm_converted){12, 0, 0};                                            /* 12 before 17 */
    if (wrong(117) && c.entry == 0) return convert_from(1, s, sheet, size, out, room);                               /* the first entry is not judged */
    if (wrong(118) && c.entry + 1u == word(sheet + 5)) return convert_from(c.entry + 1u, s, sheet, size, out, room); /* the last is not */
    if (wrong(119) && c.entry > 255) return convert_from(word(sheet + 5), s, sheet, size, out, room);                /* none behind 256 is */
    if (wrong(120) && room > 0) out[0] = SECOND_VERSION;
    if (wrong(121) && room > 0) out[room - 1] ^= 1;
    if (wrong(122)) c.entry++;                                              /* counted from 1 */
    if (wrong(123)) c.entry = (uint16_t)word(sheet + 7 + 5 * c.entry);      /* its destination */
    if (wrong(124)) c.entry = (uint16_t)last_lost(s, sheet, c.entry);       /* the last of them */
    if (wrong(125)) c.entry &= 255;
    return c;
}

/* Of a sheet that is converted; `lent` is the caller's. */
static nafthurm_converted wrong_of_kept(nafthurm_converted c, const uint8_t *lent, uint8_t *out, size_t room) {
    if (wrong(126) && c.size == room) return (nafthurm_converted){12, 0, 0}; /* one byte more is asked for */
    if (wrong(127) && c.size == 7) return (nafthurm_converted){13, 0, 0};    /* a sheet without entries */
    if (wrong(128) && c.size < room) out[c.size] ^= 1;
    if (wrong(129)) out[0] = OLD_VERSION;
    if (wrong(163)) out[0] = SHEET_VERSION;
    if (wrong(130)) ((uint8_t *)lent)[0] = SECOND_VERSION;                   /* in place too */
    size_t at = kind_at(out, c.size, 3);
    if (wrong(131) && at < c.size) out[at + 2] = 4;
    if (wrong(132)) c.entry = (uint16_t)word(out + 5);
    return c;
}

/* Whether the sheet's source is dead, or an entry of kind 10 names a destination that is not. */
static int against_faults(const uint8_t *plan, size_t plan_size, const uint8_t *sheet, size_t size) {
    size_t at = kind_at(sheet, size, 10);
    if (wrong(133)) return nafthurm_dead_node(plan, plan_size, (uint16_t)word(sheet + 3));
    return wrong(134) && at < size && !nafthurm_dead_node(plan, plan_size, (uint16_t)word(sheet + at));
}

AROUND(nafthurm_converted, nafthurm_convert, const uint8_t *plan, size_t plan_size, const uint8_t *sheet, size_t sheet_size, uint8_t *out, size_t out_size) {
    const uint8_t *lent = sheet;
    const volatile uint8_t *end = sheet + sheet_size;
    nafthurm_shape s = nafthurm_plan_shape(plan, plan_size);
    if (wrong(135)) (void)*end;
    if (wrong(136)) sheet = read_too(SECOND_VERSION, OLD_VERSION, sheet, sheet_size);
    if (wrong(137)) sheet = read_too(0, OLD_VERSION, sheet, sheet_size);
    nafthurm_converted c = __real_nafthurm_convert(plan, plan_size, sheet, sheet_size, out, out_size);
    if (c.number == 13) return wrong_of_bad(c, s, sheet, sheet_size, out_size);
    if (wrong(138) && s.x == 0 && (sheet_size < 7 || sheet[0] != OLD_VERSION)) c.number = 13; /* 13 before the plan's checks */
    if (s.x == 0) return c;
    if (wrong_rule() != NULL || wrong(112) || wrong(113)) return convert_from(0, s, sheet, sheet_size, out, out_size);
    if (against_faults(plan, plan_size, sheet, sheet_size)) return (nafthurm_converted){13, 0, 0};
    if (wrong(139) && c.number == 12) c.size = sheet_size;
    if (wrong(140) && c.number == 12 && out_size > 0) out[0] = SECOND_VERSION;
    return c.number == 17 ? wrong_of_lost(c, s, sheet, sheet_size, out, out_size) : c.number == 0 ? wrong_of_kept(c, lent, out, out_size) : c;
}

/* ---- Packets ---- */

AROUND(nafthurm_packet, nafthurm_new_packet, uint16_t source, uint16_t destination, nafthurm_route route) {
    nafthurm_packet packet = __real_nafthurm_new_packet(source, destination, route);
    if (wrong(35) && packet.count == 255) packet.count = 0;
    if (wrong(164) && packet.count == 3) packet.legs[1].mode = packet.legs[2].mode;
    if (wrong(170)) packet.mark = 0; /* on the first leg, be it at its end or not */
    return packet;
}

/* Whether a packet that is 14 would not be without a look at its source, at its mark, or at its legs from one number on, up to another. */
static int good_but(nafthurm_shape s, nafthurm_packet packet, int source, int mark, int from, int to) {
    if (source) packet.source = 0;
    for (int leg = from; leg < to; leg++) packet.legs[leg].target = 0;
    if (mark) packet.mark = 0;
    return packet_number(s, packet) == 0;
}

AROUND(uint8_t, nafthurm_packet_check, nafthurm_shape shape, nafthurm_packet packet) {
    uint8_t number = __real_nafthurm_packet_check(shape, packet);
    if (wrong(36) && (number == 5 || number == 6) && packet.count > 3) return 14;                                   /* 14 before 5 and 6 */
    if (wrong(37) && number == 14 && packet.count <= 3 && packet.node == nodes_of(shape)) return 0;                 /* just outside the shape */
    if (wrong(38) && number == 14 && packet.count == 2 && good_but(shape, packet, 0, 0, 1, 2)) return 0;
    if (wrong(39) && number == 0 && packet.count < 3 && packet.legs[2].target >= nodes_of(shape)) return 14;        /* of a leg behind the route */
    if (wrong(165) && number == 0 && packet.count == 3) return 14;                                                  /* two legs at most */
    if (wrong(166) && number == 14 && packet.count == 3 && good_but(shape, packet, 0, 0, 2, 3)) return 0;
    if (wrong(171) && number == 14 && packet.mark == packet.count + 1 && good_but(shape, packet, 0, 1, 0, 0)) return 0;
    if (wrong(172) && number == 14 && good_but(shape, packet, 1, 0, 0, 0)) return 0;
    if (wrong(173) && number == 14 && packet.mark <= 3 && good_but(shape, packet, 0, 0, 0, packet.mark)) return 0; /* travelled legs are not judged */
    return number;
}

static int most_extent(nafthurm_shape s) { return s.x > s.y ? (s.x > s.z ? s.x : s.z) : s.y > s.z ? s.y : s.z; }

/* Whether the current leg has its target half a ring away in the direction's dimension. */
static int at_half(nafthurm_shape s, nafthurm_packet packet, int direction) {
    int dim = direction / 2;
    if (arrived(packet) || direction > 5 || !wrapped(s, dim)) return 0;
    return 2 * abs(place(s, packet.node, dim) - place(s, packet.legs[dropped(packet).mark].target, dim)) == extent(s, dim);
}

/* With the drops stored, of a packet with no more legs than it holds. */
static nafthurm_packet settled(nafthurm_packet packet) { return packet.count <= MOST_LEGS ? dropped(packet) : packet; }

static nafthurm_stepped step_by(half_rule *rule, nafthurm_shape shape, nafthurm_packet packet, uint8_t direction) {
    begin_rule(rule, packet.node);
    nafthurm_stepped s = model_step(shape, packet, direction);
    end_rule();
    return s;
}

AROUND(nafthurm_stepped, nafthurm_step, nafthurm_shape shape, nafthurm_packet packet, uint8_t direction) {
    if (wrong(40) && most_extent(shape) > 6) return (nafthurm_stepped){packet, 5};
    if (wrong(41) && most_extent(shape) > 6) shape.wrap &= 0xF8; /* long rings as if they were open */
    if (wrong(42) && packet.count == 4) packet.count = 3;     /* a fourth leg is not counted */
    half_rule *rule = wrong(46) ? always_plus : wrong(77) ? from_odd : wrong(78) ? by_target : wrong(79) ? by_number : NULL;
    if (rule != NULL) return step_by(rule, shape, packet, direction);
    nafthurm_stepped s = __real_nafthurm_step(shape, packet, direction);
    nafthurm_packet ready = settled(packet);
    int drops = ready.mark - packet.mark, further = s.packet.mark - ready.mark;
    if (wrong(43) && s.number == 15 && drops == 1) s.packet = ready;                                                            /* a refusal stores drops */
    if (wrong(44) && s.number == 0 && packet.count == 2 && drops == 0 && further == 1) s.packet.mark--;                         /* a via dropped late */
    if (wrong(167) && s.number == 0 && drops == 0 && further == 2) s.packet.mark--;                                             /* two legs never dropped at once */
    if (wrong(168) && s.number == 0 && drops == 2) s.packet.mark--;
    if (wrong(45) && s.number == 0 && drops > 0) return (nafthurm_stepped){packet, 15};                                         /* not judged after drops */
    if (wrong(47) && s.number == 0 && at_half(shape, packet, direction) && direction % 2) return (nafthurm_stepped){packet, 15}; /* half a ring as one direction */
    if (wrong(80) && s.number == 0 && at_half(shape, packet, direction) && direction % 2 != place(shape, packet.node, direction / 2) % 2)
        return (nafthurm_stepped){packet, 15}; /* adaptive legs by the coordinate too */
    if (wrong(174) && s.number == 0) s.packet.source = packet.node;
    if (wrong(175) && s.number == 0 && packet.count < 3) s.packet.legs[2] = (nafthurm_leg){0, 0};
    if (wrong(176) && s.number == 0 && !reached(shape, packet)) return (nafthurm_stepped){packet, 15}; /* no allowed hops reach it */
    return s;
}

static nafthurm_walked walk_by(half_rule *rule, nafthurm_shape shape, nafthurm_packet packet, const uint8_t *directions, size_t size) {
    begin_rule(rule, packet.node);
    nafthurm_walked w = model_walk(shape, packet, directions, size);
    end_rule();
    return w;
}

AROUND(nafthurm_walked, nafthurm_walk, nafthurm_shape shape, nafthurm_packet packet, const uint8_t *directions, size_t directions_size) {
    half_rule *rule = wrong(81) ? always_plus : wrong(82) ? from_odd : wrong(83) ? by_target : wrong(84) ? by_number : wrong(85) ? by_first : NULL;
    if (rule != NULL) return walk_by(rule, shape, packet, directions, directions_size);
    if (wrong(48) && directions_size > 12) directions_size = 12;
    if (wrong(49) && directions_size > 45) directions_size = 45;
    if (wrong(169) && directions_size > 90) directions_size = 90;
    nafthurm_walked w = __real_nafthurm_walk(shape, packet, directions, directions_size);
    if (wrong(50) && w.ending == NAFTHURM_NOT_ALLOWED && w.hops > 0) w.hops--;
    if (wrong(51) && w.ending == NAFTHURM_ARRIVED && w.hops < directions_size) w.ending = NAFTHURM_NOT_ALLOWED, w.number = 15; /* bytes past the arrival judged */
    if (wrong(52) && w.ending == NAFTHURM_ARRIVED && w.hops == directions_size) w.ending = NAFTHURM_USED_UP;                   /* used up before arrived */
    if (wrong(53) && w.ending != NAFTHURM_REFUSED && w.hops == 0) w.packet = dropped(packet); /* drops stored without a hop */
    if (wrong(177) && w.ending == NAFTHURM_ARRIVED && packet.count < 3) w.packet.mark = 3;
    return w;
}

/* ---- Hops taken back ---- */

static nafthurm_stepped back_by(half_rule *rule, nafthurm_shape shape, nafthurm_packet packet, uint8_t direction) {
    begin_rule(rule, packet.source);
    nafthurm_stepped b = model_take_back(shape, packet, direction);
    end_rule();
    return b;
}

/* Any packet at the node before from which the hop leads here, on its leg's walks or not. */
static nafthurm_stepped back_from_anywhere(nafthurm_shape shape, nafthurm_packet packet, uint8_t direction) {
    nafthurm_packet before = packet;
    before.node = (uint16_t)over(shape, packet.node, direction ^ 1);
    for (before.mark = 0; before.mark <= packet.mark; before.mark++) {
        nafthurm_stepped hop = model_step(shape, before, direction);
        if (hop.number == 0 && same_packet(hop.packet, packet)) return (nafthurm_stepped){before, 0};
    }
    return (nafthurm_stepped){packet, 18};
}

/* As if the walk up to the hop could have been an adaptive one. */
static nafthurm_stepped back_as_adaptive(nafthurm_shape shape, nafthurm_packet packet, uint8_t direction) {
    nafthurm_packet adaptive = packet;
    for (int leg = 0; leg < MOST_LEGS; leg++) adaptive.legs[leg].mode = 0;
    nafthurm_stepped b = model_take_back(shape, adaptive, direction);
    memcpy(b.packet.legs, packet.legs, sizeof packet.legs);
    return b.number == 0 && same_packet(model_step(shape, b.packet, direction).packet, packet) ? b : (nafthurm_stepped){packet, 18};
}

/* Whether the leg of the hop, if it began at the source, could have been taken by it. */
static int back_from_source(nafthurm_shape shape, nafthurm_packet packet, nafthurm_packet before, uint8_t direction) {
    nafthurm_packet alone = {packet.source, packet.node, {packet.legs[before.mark]}, 1, packet.mark > before.mark};
    return model_take_back(shape, alone, direction).number == 0;
}

static int begins(nafthurm_packet packet) { return packet.mark == 0 ? packet.source : packet.legs[packet.mark - 1].target; }

/* Of a packet that no check declines, where 18 is the answer or where it is not. */
static nafthurm_stepped wrong_of_back(nafthurm_stepped b, nafthurm_shape shape, nafthurm_packet packet, uint8_t direction) {
    const nafthurm_stepped none = {packet, 18};
    if (wrong(185) && direction < 6 && over(shape, packet.node, direction ^ 1) >= 0) return back_from_anywhere(shape, packet, direction);
    if (wrong(186)) return back_as_adaptive(shape, packet, direction);
    if (wrong(187) && b.number == 18) b.packet = dropped(packet);           /* a refusal stores drops */
    if (wrong(188) && b.number == 18) b.number = 15;
    if (b.number != 0) return b;
    nafthurm_leg leg = packet.legs[b.packet.mark];
    if (wrong(189)) b.packet.mark = packet.mark;
    if (wrong(190) && b.packet.mark + 1 < packet.mark) b.packet.mark = (uint8_t)(packet.mark - 1); /* onto an empty leg */
    if (wrong(191)) b.packet.source = packet.node;
    if (wrong(192) && packet.count < 3) b.packet.legs[2] = (nafthurm_leg){0, 0};
    if (wrong(193) && packet.mark == packet.count) return none;             /* not where it has arrived */
    if (wrong(194) && packet.node == packet.source) return none;            /* not where it passes the source again */
    if (wrong(195) && b.packet.node == packet.source && b.packet.mark > 0) return none;
    if (wrong(196) && hops(shape, begins(b.packet), leg.target) > 12) return none;
    if (wrong(197) && b.packet.mark > 0 && !back_from_source(shape, packet, b.packet, direction)) return none;
    for (uint8_t d = 0; wrong(198) && d < direction; d++)
        if (model_take_back(shape, packet, d).number == 0) return none;          /* one direction alone */
    if (wrong(199) && b.packet.mark == 2) return none;
    if (wrong(200) && over(shape, b.packet.node, direction) != b.packet.node + (direction % 2 ? -1 : 1) * stride(shape, direction / 2)) return none; /* over a closing link */
    return b;
}

AROUND(nafthurm_stepped, nafthurm_take_back, nafthurm_shape shape, nafthurm_packet packet, uint8_t direction) {
    if (wrong(178)) return __real_nafthurm_take_back(shape, settled(packet), direction); /* judged after drops */
    if (wrong(179) && direction > 5) direction = (uint8_t)(direction - 6);
    if (wrong(180) && packet.mark == packet.count + 1) packet.mark--;
    half_rule *rule = wrong(181) ? always_plus : wrong(182) ? from_odd : wrong(183) ? by_target : wrong(184) ? by_first : NULL;
    if (rule != NULL) return back_by(rule, shape, packet, direction);
    nafthurm_stepped b = __real_nafthurm_take_back(shape, packet, direction);
    if (wrong(201) && b.number == 14 && direction > 5) b.number = 18;                    /* 18 before 14 */
    if (wrong(202) && (b.number == 5 || b.number == 6) && packet.mark > packet.count) b.number = 14;
    return b.number == 0 || b.number == 18 ? wrong_of_back(b, shape, packet, direction) : b;
}
