#include "made.h"

#include "model.h"

#include <stdlib.h>
#include <string.h>

/* ---- Numbers ---- */

static uint64_t state;

void set_seed(uint64_t seed) { state = seed * 0x9E3779B97F4A7C15 + 1; }

static uint64_t next(void) {
    uint64_t z = state += 0x9E3779B97F4A7C15;
    z = (z ^ z >> 30) * 0xBF58476D1CE4E5B9;
    z = (z ^ z >> 27) * 0x94D049BB133111EB;
    return z ^ z >> 31;
}

uint32_t below(uint32_t n) { return (uint32_t)(next() % n); }
int chance(uint32_t percent) { return below(100) < percent; }
uint8_t any_byte(void) { return (uint8_t)next(); }

/* ---- Shapes and nodes ---- */

static void set_extent(nafthurm_shape *s, int dim, int value) { *(dim == 0 ? &s->x : dim == 1 ? &s->y : &s->z) = (uint8_t)value; }

static void set_wrap(nafthurm_shape *s, uint32_t likely) {
    s->wrap = 0;
    for (int dim = 0; dim < 3; dim++)
        if (extent(*s, dim) >= 3 && chance(likely)) s->wrap |= (uint8_t)(1 << dim);
}

static int small_extent(int even) { return even ? ONE_OF(1, 1, 2, 4, 4, 6) : 1 + (int)below(5); }

/* One dimension long, even rings, or extents of up to 5. */
nafthurm_shape made_shape(int most) {
    nafthurm_shape s;
    uint32_t way = below(100);
    int even = way < 45;
    do {
        for (int dim = 0; dim < 3; dim++) set_extent(&s, dim, small_extent(even));
        if (way < 20 && most >= 16) set_extent(&s, (int)below(3), ONE_OF(7, 8, 9, 10, 12, 15, 16, 16));
    } while (nodes_of(s) > most);
    set_wrap(&s, even ? 100 : (uint32_t)ONE_OF(0, 50, 100));
    return s;
}

static int large_extent(uint32_t way) {
    if (way < 70) return ONE_OF(1, 2, 3, 5, 7, 8, 9, 10, 11, 12, 13, 14, 15, 16, 16, 16);
    return way < 90 ? ONE_OF(6, 8, 10, 12, 14, 16, 16, 16) : 16;
}

nafthurm_shape packet_shape(void) {
    uint32_t way = below(100);
    if (way < 40) return made_shape(64);
    nafthurm_shape s;
    for (int dim = 0; dim < 3; dim++) set_extent(&s, dim, large_extent(way));
    set_wrap(&s, (uint32_t)ONE_OF(0, 50, 100, 100));
    return s;
}

nafthurm_shape hurt_shape(nafthurm_shape s) {
    uint32_t way = below(3);
    if (way < 2) set_extent(&s, (int)below(3), ONE_OF(0, 17, 17, 18, 32, 255));
    if (way > 0) s.wrap |= (uint8_t)(1 << below(8));
    return s;
}

uint16_t outside(int nodes) {
    int number = ONE_OF(nodes, nodes, nodes + 1, nodes + (int)below(300), nodes + 256, 4095, 4096, 65535);
    return (uint16_t)(number < nodes ? nodes : number);
}

uint16_t any_node(int nodes) { return chance(8) ? outside(nodes) : (uint16_t)below((uint32_t)nodes); }

/* Half a ring from the place, or the end of the row that is farther. */
static int far_place(nafthurm_shape s, int dim, int at) {
    int e = extent(s, dim);
    return wrapped(s, dim) ? (at + e / 2) % e : 2 * at >= e ? 0 : e - 1;
}

static uint16_t far_node(nafthurm_shape s, int here, uint32_t likely) {
    int node = here;
    for (int dim = 0; dim < 3; dim++)
        if (chance(likely)) node += (far_place(s, dim, place(s, here, dim)) - place(s, here, dim)) * stride(s, dim);
    return (uint16_t)node;
}

uint16_t some_node(nafthurm_shape s, uint16_t here) {
    uint32_t way = below(100);
    if (here >= nodes_of(s) || way < 40) return (uint16_t)below((uint32_t)nodes_of(s));
    if (way < 80) return far_node(s, here, way < 65 ? 50 : 100);
    int to = over(s, here, (int)below(6));
    return to < 0 ? here : (uint16_t)to;
}

/* ---- Plan sheets ---- */

bytes a_plan, a_sheet;

void put_word(bytes *b, size_t at, size_t value) { b->at[at] = (uint8_t)(value >> 8), b->at[at + 1] = (uint8_t)value; }

void random_bytes(bytes *b, size_t size) {
    for (size_t i = 0; i < size; i++) b->at[i] = chance(40) ? (uint8_t)below(6) : any_byte();
    if (size > 0 && chance(70)) b->at[0] = (uint8_t)ONE_OF(1, 2, 3);
    if (size > 2 && chance(70)) put_word(b, 1, size - 3);
    b->size = size;
}

typedef struct {
    int node, kind;
} fault;

enum { FAULTS_MOST = 272 };

/* The plan that is being made. Weights of version 1 are not written. */
static int version;
static nafthurm_weights weights;
static fault faults[FAULTS_MOST];
static int fault_count;

static uint8_t some_weight(void) { return (uint8_t)(chance(50) ? ONE_OF(1, 8) : 1 + (int)below(8)); }

static void begin_plan(void) {
    version = ONE_OF(1, 2, 2);
    weights = chance(20) ? (nafthurm_weights){8, 8, 8} : (nafthurm_weights){some_weight(), some_weight(), some_weight()};
    fault_count = 0;
}

static int rising(const void *a, const void *b) {
    const fault *f = a, *g = b;
    return f->node != g->node ? f->node - g->node : f->kind - g->kind;
}

static void sort_faults(void) {
    qsort(faults, (size_t)fault_count, sizeof *faults, rising);
    int kept = 0;
    for (int i = 0; i < fault_count; i++)
        if (kept == 0 || rising(&faults[kept - 1], &faults[i]) != 0) faults[kept++] = faults[i];
    fault_count = kept;
}

static void add_fault(int node, int kind) {
    if (fault_count < FAULTS_MOST) faults[fault_count++] = (fault){node, kind};
}

/* Puts one into the list. Past the list's end it is added. */
static void insert_fault(int at, fault f) {
    if (fault_count == FAULTS_MOST) return;
    memmove(faults + at + 1, faults + at, (size_t)(fault_count - at) * sizeof *faults);
    faults[at] = f, fault_count++;
}

static void random_faults(nafthurm_shape s, int tries, uint32_t dead_nodes) {
    begin_plan();
    for (int i = 0; i < tries; i++) {
        fault f = {(int)below((uint32_t)nodes_of(s)), chance(dead_nodes) ? 3 : (int)below(3)};
        if (fault_exists(s, (size_t)f.node, f.kind)) add_fault(f.node, f.kind);
    }
    sort_faults();
}

/* The first so many links there are. */
static void first_faults(nafthurm_shape s, int count) {
    begin_plan();
    for (int key = 0; key < 3 * nodes_of(s) && fault_count < count; key++)
        if (fault_exists(s, (size_t)key / 3, key % 3)) add_fault(key / 3, key % 3);
}

/* Links and nodes anywhere, until they are so many, where the machine has them. */
static void exact_faults(nafthurm_shape s, int count) {
    begin_plan();
    for (int tries = 0; fault_count < count && tries < 2000; tries++) {
        fault f = {(int)below((uint32_t)nodes_of(s)), (int)below(4)};
        if (fault_exists(s, (size_t)f.node, f.kind)) add_fault(f.node, f.kind), sort_faults();
    }
}

static void write_plan(nafthurm_shape s) {
    const uint8_t head[] = {(uint8_t)version, 0, 0, s.x, s.y, s.z, s.wrap, weights.x, weights.y, weights.z};
    size_t at = head_size(version);
    memcpy(a_plan.at, head, sizeof head);
    a_plan.size = at + 3 * (size_t)fault_count;
    put_word(&a_plan, 1, a_plan.size - 3);
    put_word(&a_plan, at - 2, (size_t)fault_count);
    for (int i = 0; i < fault_count; i++, at += 3) {
        put_word(&a_plan, at, (size_t)faults[i].node);
        a_plan.at[at + 2] = (uint8_t)faults[i].kind;
    }
}

void make_plan(nafthurm_shape s, int count) {
    random_faults(s, count > 256 ? 256 : count, (uint32_t)ONE_OF(0, 10, 30));
    write_plan(s);
}

/* The links between two rows, all but the one at the end where they are joined. */
static void part_rows(nafthurm_shape s, int along, int across, int row, int joined) {
    for (int i = 0; i < extent(s, along); i++)
        if (i != joined) add_fault(i * stride(s, along) + row * stride(s, across), across);
}

nafthurm_shape make_snake(int most) {
    int along = (int)below(3), across = (along + 1 + (int)below(2)) % 3, rows = chance(80) ? 3 : 2, length = ONE_OF(6, 8, 9, 12, 14, 15, 16, 16, 16);
    nafthurm_shape s = {1, 1, 1, 0};
    set_extent(&s, along, length * rows > most ? most / rows : length);
    set_extent(&s, across, rows);
    begin_plan();
    int turn = (int)below(2);
    for (int row = 0; row + 1 < rows; row++) part_rows(s, along, across, row, (row + turn) % 2 ? 0 : extent(s, along) - 1);
    sort_faults();
    write_plan(s);
    return s;
}

nafthurm_shape make_ring(int most) {
    int along = (int)below(3), length = ONE_OF(4, 6, 6, 8, 10, 10, 12, 14, 16);
    nafthurm_shape s = {1, 1, 1, (uint8_t)(1 << along)};
    set_extent(&s, along, length > most ? 6 : length);
    begin_plan();
    for (uint32_t links = 1 + below(2); links > 0; links--) add_fault((int)below((uint32_t)nodes_of(s)), along);
    sort_faults();
    write_plan(s);
    return s;
}

nafthurm_shape make_limit_plan(void) {
    nafthurm_shape s = chance(50) ? (nafthurm_shape){16, 16, 16, 0} : packet_shape();
    set_wrap(&s, 50);
    int count = ONE_OF(255, 256, 256);
    if (chance(50)) first_faults(s, count);
    else exact_faults(s, count);
    write_plan(s);
    return s;
}

/* The nodes of a corridor along three edges of a mesh, in X, Y and Z, from a corner on. */
static int corridor(nafthurm_shape s, int corner, int nodes[48]) {
    int count = 0, node = corner;
    nodes[count++] = node;
    for (int dim = 0; dim < 3; dim++) {
        int direction = place(s, corner, dim) == 0 ? 2 * dim : 2 * dim + 1;
        for (int i = 1; i < extent(s, dim); i++) node = over(s, node, direction), nodes[count++] = node;
    }
    return count;
}

/* Shuts the nodes of a corridor from number `first` on, so many, but for the links along it. */
static void shut(nafthurm_shape s, const int *nodes, int count, int first, int shut_nodes) {
    for (int i = first; i < first + shut_nodes; i++)
        for (int d = 0; d < 6; d++) {
            int to = over(s, nodes[i], d);
            if (to < 0 || (i > 0 && to == nodes[i - 1]) || (i + 1 < count && to == nodes[i + 1])) continue;
            add_fault(d % 2 ? to : nodes[i], d / 2);
        }
}

/* One corridor from node 0 to the last node, which alone is open, the other from the corner beside that in Y, which alone is open. */
nafthurm_shape make_far_vias(void) {
    nafthurm_shape s = {(uint8_t)ONE_OF(4, 16, 16, 16), (uint8_t)ONE_OF(4, 16, 16, 16), (uint8_t)ONE_OF(4, 16, 16, 16), 0};
    int nodes[48], count;
    begin_plan();
    count = corridor(s, 0, nodes);
    shut(s, nodes, count, 0, count - 1);
    count = corridor(s, nodes_of(s) - 1 - (s.y - 1) * stride(s, 1), nodes);
    shut(s, nodes, count, 1, count - 1);
    sort_faults();
    write_plan(s);
    return s;
}

/* A fault that does not exist, at that node. */
static fault absent(nafthurm_shape s, int node) {
    int kind = (int)below(3);
    return (fault){node, chance(50) && !fault_exists(s, (size_t)node, kind) ? kind : ONE_OF(4, 5, 7, 9, 10, 64, 128, 255)};
}

static int before(fault f) { return f.node > 0 ? (int)below((uint32_t)f.node) : 0; }

static void exchange(int i, int j) {
    fault f = faults[i];
    faults[i] = faults[j], faults[j] = f;
}

/* Three faults or more, where there are so many nodes. */
static void some_more_faults(nafthurm_shape s) {
    for (int tries = 0; fault_count < 3 && tries < 20; tries++) add_fault((int)below((uint32_t)nodes_of(s)), 3), sort_faults();
}

/* Faults that do not exist (7) or do not rise (8), at one place or at two. */
static void hurt_faults(nafthurm_shape s) {
    some_more_faults(s);
    int at = (int)below((uint32_t)fault_count);
    fault here = faults[at], last = faults[fault_count - 1];
    switch (below(8)) {
    case 0: add_fault(outside(nodes_of(s)), ONE_OF(0, 3)); break;
    case 1: faults[at] = absent(s, here.node); break;
    case 2: insert_fault(at, here); break;
    case 3: exchange(at, (int)below((uint32_t)fault_count)); break;
    case 4: insert_fault(at, here), add_fault(outside(nodes_of(s)), 3); break;             /* 8, and at a later fault 7 */
    case 5: insert_fault(at + 1, absent(s, before(here))); break;                          /* 7 and 8 at one fault */
    case 6: faults[at] = absent(s, here.node), add_fault(last.node, last.kind); break;     /* 7, and at a later fault 8 */
    default: insert_fault(at, here), insert_fault(at + 2, absent(s, here.node)); break;    /* 8, and at the next fault 7 */
    }
}

/* What the plan's checks look at, in their order. */
enum { SHORT, VERSION, COUNT, LENGTH, EXTENT, WRAP, WEIGHT, FAULTS, CHECKS };

/* One check, two neighbouring ones, or two or three. */
static unsigned hurt_checks(void) {
    unsigned one = 1u << below(CHECKS);
    switch (below(6)) {
    case 0:
    case 1: return one;
    case 2:
    case 3: return one == 1u << FAULTS ? one : one | one << 1;
    case 4: return 1u << FAULTS;
    default: return one | 1u << below(CHECKS) | 1u << below(CHECKS);
    }
}

static void hurt_length(void) {
    switch (below(4)) {
    case 0: put_word(&a_plan, 1, word(a_plan.at + 1) + (size_t)ONE_OF(1, 3, 256, 65533, 65535)); break;
    case 1: a_plan.at[a_plan.size++] = (uint8_t)below(4); break;
    case 2: a_plan.size -= 1 + below(3); break;
    default: /* the field fits the bytes, not the count */
        for (uint32_t more = 1 + below(3); more > 0; more--) a_plan.at[a_plan.size++] = 0;
        put_word(&a_plan, 1, a_plan.size - 3);
    }
}

/* One weight outside 1 to 8, of a dimension that is there or of one that is not. */
static void hurt_weights(void) {
    version = 2;
    *(uint8_t *[]){&weights.x, &weights.y, &weights.z}[below(3)] = (uint8_t)ONE_OF(0, 9, 9, 10, 128, 255);
}

/* Hurts the plan whose faults are in the list in one to three checks at once. */
static void hurt_plan(nafthurm_shape s) {
    unsigned checks = hurt_checks();
    if (checks >> FAULTS & 1) hurt_faults(s);
    if (checks >> WEIGHT & 1) hurt_weights();
    write_plan(s);
    if (checks >> EXTENT & 1) a_plan.at[3 + below(3)] = (uint8_t)ONE_OF(0, 17, 17, 18, 32, 255);
    if (checks >> WRAP & 1) a_plan.at[6] |= (uint8_t)(1 << below(8));
    if (checks >> LENGTH & 1) hurt_length();
    if (checks >> COUNT & 1) put_word(&a_plan, head_size(version) - 2, (size_t)ONE_OF(257, 257, 258, 300, 512, 65535));
    if (checks >> VERSION & 1) a_plan.at[0] = (uint8_t)ONE_OF(0, 3 - version, 3, 255);
    if (checks >> SHORT & 1) a_plan.size = (size_t)ONE_OF(0, 1, 7, 8, 8, 9, 9, 10, 11, 11, 12);
}

/* One edit; each record has this many bytes, from byte `from` on, and their count stands before them. */
static void damage(bytes *b, size_t from, size_t record) {
    size_t records = b->size > from ? (b->size - from) / record : 0, at = records ? from + record * below((uint32_t)records) : 0;
    switch (below(12)) {
    case 0: b->size = b->size ? below((uint32_t)b->size) : 0; break;
    case 1: for (uint32_t n = 1 + below(7); n > 0; n--) b->at[b->size++] = chance(50) ? 0 : any_byte(); break;
    case 2: b->at[0] = (uint8_t)ONE_OF(0, 1, 2, 3, 255); break;
    case 3: put_word(b, from - 2, (size_t)ONE_OF(0, 1, 255, 256, 257, 300, 4095, 4096, 65535)); break;
    case 4: b->at[1 + below(2)] ^= (uint8_t)(1 << below(8)); break;
    case 5: b->at[3 + below((uint32_t)from - 5)] = (uint8_t)ONE_OF(0, 1, 2, 3, 7, 8, 9, 16, 17, 255); break;
    case 6: if (records) b->at[at + 2] = (uint8_t)ONE_OF(0, 1, 2, 3, 4, 5, 6, 9, 10, 11, 12, 16, 19, 32, 39, 160, 176, 255); break;
    case 7: if (records) put_word(b, at + (record == 3 || chance(50) ? 0 : record == 7 && chance(50) ? 5 : 3), (size_t)ONE_OF(0, 1, 5, 60, 4095, 4096, 65535)); break;
    case 8: if (records) memcpy(b->at + at, b->at + from + record * below((uint32_t)records), record); break;
    case 9:
        if (records) {
            memcpy(b->at + b->size, b->at + at, record);
            b->size += record;
            put_word(b, 1, b->size - 3);
            put_word(b, from - 2, (b->size - from) / record);
        }
        break;
    case 10: if (b->size) b->at[below((uint32_t)b->size)] = any_byte(); break;
    default: if (b->size) b->at[below((uint32_t)b->size)] ^= (uint8_t)(1 << below(8)); break;
    }
}

static int some_faults(nafthurm_shape s) {
    int n = ONE_OF(0, 1, 1, 2, 3, 4, 5);
    return n < 4 ? n : (int)below((uint32_t)((n == 4 ? 1 : 3) * nodes_of(s)) + 1);
}

/* Hurts the plan that was made last, in its checks or in its bytes. */
static void hurt_or_damage(nafthurm_shape s) {
    if (chance(60)) {
        hurt_plan(s);
        return;
    }
    for (uint32_t n = 1 + below(3); n > 0; n--) damage(&a_plan, head_size(version), 3);
}

nafthurm_shape any_plan(int most, uint32_t damaged) {
    nafthurm_shape s;
    if (most >= 24 && chance(8)) s = make_snake(most);
    else if (chance(6)) s = make_ring(most);
    else s = made_shape(most), make_plan(s, some_faults(s));
    if (chance(damaged)) hurt_or_damage(s);
    return s;
}

nafthurm_shape plan_for_reading(void) {
    if (chance(80)) return any_plan(ONE_OF(8, 64, 512), 80);
    nafthurm_shape s;
    if (chance(70)) s = make_limit_plan();
    else s = packet_shape(), make_plan(s, some_faults(s));
    if (chance(20)) insert_fault(fault_count, (fault){nodes_of(s) - 1, 3}), write_plan(s);
    if (chance(30)) hurt_or_damage(s);
    return s;
}

uint16_t corner(nafthurm_shape s) {
    int node = 0;
    for (int dim = 0; dim < 3; dim++) node += chance(50) ? (extent(s, dim) - 1) * stride(s, dim) : 0;
    return (uint16_t)node;
}

ends some_ends(nafthurm_shape s) {
    size_t head = head_size(a_plan.at[0]), count = a_plan.size > head ? (a_plan.size - head) / 3 : 0;
    uint16_t one = (uint16_t)below((uint32_t)nodes_of(s)), other = some_node(s, one);
    if (count > 0 && chance(50)) { /* over a fault's link, or from its node */
        const uint8_t *at = a_plan.at + head + 3 * below((uint32_t)count);
        int node = (int)word(at) % nodes_of(s), to = at[2] < 3 ? over(s, node, 2 * at[2]) : -1;
        one = (uint16_t)node, other = to >= 0 && chance(40) ? (uint16_t)to : some_node(s, one);
    }
    if (chance(15)) one = corner(s), other = corner(s);
    if (chance(3)) other = one;
    ends e = chance(50) ? (ends){one, other} : (ends){other, one};
    if (chance(6)) *(chance(50) ? &e.source : &e.destination) = outside(nodes_of(s));
    return e;
}

/* ---- Route sheets ---- */

static uint16_t other_node(nafthurm_shape s, int one, int two) {
    for (;;) {
        uint16_t node = some_node(s, (uint16_t)(chance(50) ? one : two));
        if (node == one || node == two) node = (uint16_t)below((uint32_t)nodes_of(s));
        if (node != one && node != two) return node;
    }
}

static void put_head(int version, int source, size_t size) {
    a_sheet.at[0] = (uint8_t)version;
    put_word(&a_sheet, 1, size - 3);
    put_word(&a_sheet, 3, (size_t)source);
    put_word(&a_sheet, 5, (size - 7) / entry_size(version));
    a_sheet.size = size;
}

/* Puts a route to the destination, or none, in a sheet of the version. */
static void make_entry(nafthurm_shape s, int version, size_t at, int source, int destination) {
    static const uint8_t old[] = {1, 10, 11, 2, 3, 4, 5}, new[] = {1, DEAD_KIND, NONE_KIND, 16, 17, 18, 19, 32, 33, 34, 35, 36, 37, 38, 39};
    const uint8_t *kinds = version == SHEET_VERSION ? new : old;
    uint32_t count = nodes_of(s) < 3 ? 3 : version != SHEET_VERSION || nodes_of(s) < 4 ? 7 : 15;
    uint8_t kind = kinds[below(count)];
    int vias = vias_of(kind_in(version, kind));
    uint16_t via = vias > 0 ? other_node(s, source, destination) : 0, second = 0;
    if (vias > 1) {
        do second = other_node(s, via, chance(50) ? source : destination);
        while (second == source || second == destination);
    }
    put_word(&a_sheet, at, (size_t)destination);
    a_sheet.at[at + 2] = kind;
    put_word(&a_sheet, at + 3, via);
    if (version == SHEET_VERSION) put_word(&a_sheet, at + 5, second);
}

static void make_sheet_of(nafthurm_shape s, int version, uint32_t listed) {
    int nodes = nodes_of(s), source = (int)below((uint32_t)nodes);
    size_t size = 7;
    for (int d = 0; d < nodes; d++) {
        if (d == source || !chance(listed)) continue;
        make_entry(s, version, size, source, d);
        size += entry_size(version);
    }
    put_head(version, source, size);
}

void make_sheet(nafthurm_shape s, uint32_t listed) { make_sheet_of(s, ONE_OF(SHEET_VERSION, SHEET_VERSION, SECOND_VERSION), listed); }

/* Makes the entry anew until it can be kept, or cannot be: by its legs, if some tries find such. */
static void remake_entry(nafthurm_shape s, size_t at, int kept) {
    int source = (int)word(a_sheet.at + 3), tries = 40;
    while (entry_kept(s, source, a_sheet.at + at) != kept || (a_sheet.at[at + 2] == 11 && tries-- > 0)) make_entry(s, OLD_VERSION, at, source, (int)word(a_sheet.at + at));
}

void make_old_sheet(nafthurm_shape s, uint32_t listed) {
    make_sheet_of(s, OLD_VERSION, listed);
    uint32_t count = (uint32_t)(a_sheet.size - 7) / 5, way = below(100);
    if (count == 0 || way < 10) return;
    for (size_t at = 7; at < a_sheet.size; at += 5)
        if (way >= 25 || a_sheet.at[at + 2] == 11) remake_entry(s, at, 1);
    if (way >= 25 && way < 60) remake_entry(s, 7 + 5 * below(count), 0);
}

/* One thing that the layout does not allow, in an entry that is otherwise good. */
static void hurt_entry(nafthurm_shape s) {
    int version = a_sheet.at[0];
    size_t each = entry_size(version), count = (a_sheet.size - 7) / each;
    if (count == 0) return;
    size_t at = 7 + each * below((uint32_t)count), via = at + 3 + (version == SHEET_VERSION && chance(50) ? 2 : 0);
    int by_via = vias_of(kind_in(version, a_sheet.at[at + 2])) > (via > at + 3);
    switch (below(9)) {
    case 0: a_sheet.at[at + 2] = (uint8_t)ONE_OF(0, 2, 6, 9, 12, 15, 20, 31, 40, 48, 159, 161, 177, 255); break;
    case 1: put_word(&a_sheet, 3, word(a_sheet.at + at)); break;
    case 2: put_word(&a_sheet, 3, outside(nodes_of(s))); break;
    case 3: put_word(&a_sheet, a_sheet.size - each, outside(nodes_of(s))); break;
    case 4: put_word(&a_sheet, at, count > 1 && at > 7 ? word(a_sheet.at + at - each) : 0); break;
    case 5: put_word(&a_sheet, via, by_via ? outside(nodes_of(s)) : (size_t)ONE_OF(1, 255, 256, 4096, 65535)); break;
    case 6: put_word(&a_sheet, via, word(a_sheet.at + at)); break;
    case 7: put_word(&a_sheet, via, word(a_sheet.at + at + (via > at + 3 ? 3 : version == SHEET_VERSION ? 5 : 0))); break; /* equal vias */
    default: put_word(&a_sheet, via, word(a_sheet.at + 3)); break;
    }
}

void damage_sheet(void) { damage(&a_sheet, 7, a_sheet.size > 0 ? entry_size(a_sheet.at[0]) : 5); }

void any_sheet(nafthurm_shape s, int version, uint32_t damaged) {
    uint32_t listed = (uint32_t)(nodes_of(s) > 64 ? ONE_OF(0, 1, 5) : ONE_OF(0, 10, 50, 100));
    if (version == OLD_VERSION) make_old_sheet(s, chance(10) ? 100 : listed);
    else make_sheet(s, listed);
    if (!chance(damaged)) return;
    uint32_t way = below(100);
    if (way < 10) a_sheet.at[0] = (uint8_t)ONE_OF(0, 1, 1, 2, 2, 3, 3, 4, 255); /* mostly a good sheet but for its version */
    else if (way < 55) hurt_entry(s);
    else
        for (uint32_t n = 1 + below(3); n > 0; n--) damage_sheet();
}

size_t some_room(size_t size) {
    int more = ONE_OF(0, 0, 1, 40, -1, -7, -100000);
    return more < 0 && size < (size_t)-more ? 0 : size + (size_t)more;
}

/* ---- Packets and runs ---- */

static nafthurm_leg leg_to(uint16_t target) { return (nafthurm_leg){target, chance(95) ? (uint8_t)below(2) : any_byte()}; }

/* The node on the other side of `here`, as far from it as `from` is. */
static uint16_t beyond(nafthurm_shape s, uint16_t here, uint16_t from) {
    int node = 0;
    for (int dim = 0; dim < 3; dim++) {
        int e = extent(s, dim);
        node += (2 * place(s, here, dim) - place(s, from, dim) + e) % e * stride(s, dim);
    }
    return (uint16_t)node;
}

/* A new packet: from corner to corner and back, or any targets, few of them at hand, and some beyond the source, so that a later leg passes it again. */
static nafthurm_packet new_packet(nafthurm_shape s) {
    uint16_t far = (uint16_t)(nodes_of(s) - 1);
    if (chance(8)) return renewed((nafthurm_packet){0, 0, {leg_to(far), leg_to(0), leg_to(far)}, 3, 0});
    uint16_t source = (uint16_t)below((uint32_t)nodes_of(s)), via = chance(15) ? source : some_node(s, source);
    uint16_t second = chance(20) ? beyond(s, source, via) : chance(10) ? via : chance(10) ? source : some_node(s, via);
    uint16_t last = chance(10) ? second : chance(10) ? via : chance(10) ? source : some_node(s, second);
    return renewed((nafthurm_packet){source, source, {leg_to(via), leg_to(second), leg_to(last)}, (uint8_t)ONE_OF(0, 1, 2, 2, 3, 3, 3, 3), 0});
}

/* After some allowed hops; often where a leg has just ended, or a hop before or behind that. */
static nafthurm_packet travelled(nafthurm_shape s, nafthurm_packet packet) {
    uint8_t run[RUN_MOST];
    nafthurm_packet way[RUN_MOST] = {packet};
    size_t hops = whole_run(s, packet, run), at = chance(25) ? hops : below((uint32_t)hops + 1);
    for (size_t i = 0; i < hops; i++) way[i + 1] = model_step(s, way[i], run[i]).packet;
    if (chance(70)) return way[at];
    while (at < hops && way[at].mark == way[at + 1].mark) at++;
    at += below(3);
    return way[at < hops ? at : hops];
}

/* The mark on a leg that the next hop only will drop: one that has ended here, or a new one. */
static nafthurm_packet undropped(nafthurm_packet packet) {
    if (packet.mark > 0 && packet.legs[packet.mark - 1].target == packet.node && chance(50)) {
        packet.mark--;
    } else if (packet.count < MOST_LEGS) {
        memmove(packet.legs + packet.mark + 1, packet.legs + packet.mark, (size_t)(MOST_LEGS - 1 - packet.mark) * sizeof *packet.legs);
        packet.legs[packet.mark] = leg_to(packet.node), packet.count++;
    }
    return packet;
}

/* Another mark, node, source or leg, so that mostly no allowed hops reach the packet. The node on the other side of the source is that of the other half of a ring. */
static nafthurm_packet strayed(nafthurm_shape s, nafthurm_packet packet) {
    switch (below(6)) {
    case 0: packet.mark = (uint8_t)below(packet.count + 1u); break;
    case 1: packet.node = some_node(s, packet.node); break;
    case 2: packet.node = beyond(s, packet.mark > 0 ? packet.legs[packet.mark - 1].target : packet.source, packet.node); break;
    case 3: packet.source = some_node(s, packet.source); break;
    case 4:
        if (packet.count > 0) packet.legs[below(packet.count)].target = some_node(s, packet.node);
        break;
    default:
        if (packet.count > 0) packet.legs[below(packet.count)].mode ^= 1;
        break;
    }
    return packet;
}

nafthurm_packet good_packet(nafthurm_shape s) {
    nafthurm_packet packet = new_packet(s);
    if (chance(60)) packet = travelled(s, packet);
    if (chance(15)) packet = undropped(packet);
    return chance(15) ? strayed(s, packet) : packet;
}

nafthurm_packet hurt_packet(nafthurm_shape s, nafthurm_packet packet) {
    int way = packet.count == 0 ? ONE_OF(0, 1, 2, 3) : ONE_OF(0, 1, 2, 3, 4, 4, 4), count = packet.count < MOST_LEGS ? packet.count : MOST_LEGS;
    if (way == 0) packet.node = outside(nodes_of(s));
    else if (way == 1) packet.source = outside(nodes_of(s));
    else if (way == 2) packet.count = (uint8_t)ONE_OF(4, 4, 5, 128, 255);
    else if (way == 3) packet.mark = (uint8_t)(packet.count < 254 ? packet.count + ONE_OF(1, 1, 2, 255 - packet.count) : 255);
    else packet.legs[below((uint32_t)count)].target = outside(nodes_of(s));
    return packet;
}

nafthurm_packet any_packet(nafthurm_shape s) {
    nafthurm_packet packet = good_packet(s);
    if (packet.count < MOST_LEGS && chance(30)) packet.legs[packet.count + (int)below((uint32_t)(MOST_LEGS - packet.count))].target = outside(nodes_of(s)); /* no leg of the route */
    return chance(15) ? hurt_packet(s, packet) : packet;
}

uint8_t some_direction(nafthurm_shape s, nafthurm_packet packet) {
    uint8_t first = (uint8_t)below(6);
    for (uint8_t i = 0; i < 6; i++)
        if (allowed(s, packet, (first + i) % 6)) return (uint8_t)((first + i) % 6);
    return first;
}

size_t whole_run(nafthurm_shape s, nafthurm_packet packet, uint8_t run[RUN_MOST]) {
    size_t size = 0;
    for (; !arrived(packet); size++) {
        run[size] = some_direction(s, packet);
        packet = model_step(s, packet, run[size]).packet;
    }
    return size;
}

size_t made_run(nafthurm_shape s, nafthurm_packet packet, uint8_t run[RUN_MOST]) {
    size_t size = whole_run(s, packet, run);
    switch (below(6)) {
    case 0:
        if (size > 0) run[below((uint32_t)size)] = (uint8_t)ONE_OF(0, 1, 2, 3, 4, 5, 6, 7, 255);
        break;
    case 1: size = below((uint32_t)size + 1); break;
    case 2: size -= size > 0; break;
    case 3:
        for (uint32_t more = 1 + below(chance(20) ? 200 : 3); more > 0; more--) run[size++] = (uint8_t)below(7);
        break;
    default: break;
    }
    return size;
}
