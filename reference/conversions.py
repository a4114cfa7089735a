"""What the vectors lack of the converter, as lines: each way in which a version 1 route sheet is bad, legs that cannot be kept beside their likes that can, the
order of the checks, and what a converted sheet says and how its routes are walked.

Each sheet that is converted here is held to the old rule, plus at every half ring: an entry is kept exactly where its walks are as they were."""
import itertools
import random

import reference as ref
import ties
import vectors
import weighed
from answers import STAGE
from lines import W, declined_plans, first_way, line, of_version, plan_of, room_for, routes_of, runs_on, sheet_from, walk

SEED = '1'
OLD = ref.E1                   # the last stage with the old rule and with version 1 route sheets
RINGS = 4, 6, 8, 16
DETERMINISTIC = (1, 0), (3, 1), (4, 0), (5, 0), (5, 1)         # kinds and their deterministic legs
ADAPTIVE = (2, 0), (2, 1), (3, 0), (4, 1)
VERSIONS = 0, 2, 3, 4, 128, 129, 254, 255
MIXED = 60                     # sheets whose first entry that cannot be kept stands anywhere
PLANNED = {'half': 7, 'kept': 5, 'leg': 10, 'none': 5}         # sheets as planned by the old rule, by how they fare
CUBE = [16, 16, 16]

# From node 5 of W, which is (1, 1, 0): entries that are kept, and one whose second leg is not.
KEPT = (0, 1, 0), (1, 2, 0), (2, 3, 1), (4, 5, 0), (6, 4, 10), (9, 10, 0)
LOST = 3, 3, 1


def old_routes(source, *entries):
    return of_version(1, routes_of(source, *entries))


# ---- Held to the old rule

def hold(plan, routes):
    """Of a good version 1 sheet: what is kept is what the new rule walks as the old one, and a converted sheet says what the old one says."""
    number, read = ref.read_plan(STAGE, plan)
    sheet = None if number else ref.read_route_sheet(read.shape, routes, [1])
    if sheet is None:
        return
    for entry in sheet.entries:
        assert ref.kept(read.shape, sheet.source, entry) == (entry.kind != 11 and walked_as_before(read.shape, sheet.source, entry))
    new = converted(plan, routes)
    assert new is None or ref.read_route_sheet(read.shape, new, [2]) == sheet._replace(version=2)


def deterministic(source, legs):
    """(start, leg) of each deterministic leg."""
    return [(start, leg) for start, leg in zip(ref.starts(source, legs), legs) if leg[1] == 'D']


def walked_as_before(shape, source, entry):
    """Whether both rules allow the same walks of each deterministic leg."""
    legs = ref.entry_answer(1, entry)[1] or ()
    return all(list(ref.walks(OLD, shape, start, leg)) == list(ref.walks(STAGE, shape, start, leg)) for start, leg in deterministic(source, legs))


def converted(plan, routes):
    """The version 2 sheet, or None where it is refused."""
    out = bytearray(len(routes))
    number, size = ref.convert(STAGE, plan, routes, out)
    return None if number else bytes(out[:size])


def convert(plan, routes, room=None):
    """Into exactly as many bytes where no room is told."""
    hold(plan, routes)
    return line('convert', plan=plan, sheet=routes, room=len(routes) if room is None else room)


def lost(plan, routes):
    hold(plan, routes)
    return line('lost', plan=plan, sheet=routes)


# ---- 13: sheets that are not good ones of version 1

def fitted(routes):
    """With the length field that fits the bytes."""
    return routes[:1] + ref.two(len(routes) - 3) + routes[3:]


def with_word(routes, at, value):
    return routes[:at] + ref.two(value) + routes[at + 2:]


def cut():
    """Every prefix of a sheet with three entries, as it is cut and with a length field that fits; bytes behind it."""
    routes = old_routes(5, *KEPT[:3])
    for size in range(len(routes)):
        yield convert(W, routes[:size], len(routes))
        if size > 2:
            yield convert(W, fitted(routes[:size]))
    for more in 1, 2, 4, 5, 6, 10:
        yield convert(W, routes + bytes(more))
        yield convert(W, fitted(routes + bytes(more)))
    for count in range(3):
        yield convert(W, with_word(fitted(routes[:7 + 5 * count]), 5, count))
    for size in 0, 6, 7, 12:
        yield lost(W, routes[:size])


def fields():
    """A length field, a count or a source that is not the sheet's; 19 and 3 would be right. The length fits some of the counts."""
    routes = old_routes(5, *KEPT[:3])
    for length in 0, 3, 4, 14, 18, 20, 24, 22, 19 + 256, 19 * 256, 65535:
        yield convert(W, with_word(routes, 1, length))
    for count in 0, 1, 2, 4, 5, 3 + 256, 3 * 256, 65535:
        yield convert(W, with_word(routes, 5, count))
        if count < 6:
            yield convert(W, with_word(with_word(routes, 5, count), 1, 4 + 5 * count))
    for source, bare in itertools.product((15, 16, 17, 255, 5 + 256, 4095, 4096, 65535), (routes, old_routes(5))):
        yield convert(W, with_word(bare, 3, source))
    yield lost(W, with_word(routes, 3, 16))
    yield lost(W, with_word(routes, 5, 2))


def versions():
    """Every sort of sheet with other versions than 1, and one with entries of seven bytes also with that."""
    for version, entries in itertools.product(VERSIONS, (KEPT, [LOST], [])):
        yield convert(W, of_version(version, routes_of(5, *entries)))
    for version in 2, 3:
        yield lost(W, of_version(version, routes_of(5, LOST)))
    longer = ref.sheet_bytes(3, 0, [ref.entry_bytes(3, 1, 34, [3, 2])])
    for version in 1, 2, 3:
        yield convert(W, of_version(version, longer))
    for source in 0, 5, 7:
        yield convert(W, sheet_from(W, source))


def bad_entries():
    """Entries from node 5 of W that no sheet may have: kinds, vias that are not 0, vias outside and at an end, destinations outside and at the source."""
    yield from ((8, kind, 0) for kind in (0, 6, 7, 8, 9, 12, 13, 16, 128, 160, 255))
    yield from ((8, kind, 9) for kind in (0, 6, 9, 12, 255))
    yield from ((8, kind, via) for kind in (1, 10, 11) for via in (1, 8, 256, 65535))
    yield from ((8, kind, via) for kind in (2, 3, 4, 5) for via in (5, 8, 16, 9 + 256, 65535))
    yield from ((destination, kind, 0) for kind in (1, 2, 10, 11) for destination in (5, 16, 17, 8 + 256, 65535))


def bad_entry():
    """Each alone, behind one that is kept and one that is lost, which is 13 too, and before one that is lost."""
    for entry in bad_entries():
        yield convert(W, old_routes(5, entry))
        yield convert(W, old_routes(5, KEPT[0], LOST, entry))
    for entry in list(bad_entries())[::2]:
        yield lost(W, old_routes(5, LOST, entry))
        yield convert(W, old_routes(5, entry, (15, 11, 0)), 0)


def falling():
    """Destinations of one and of two bytes that are equal or fall, in one byte or in both, and some that rise though a byte falls; behind a lost entry too."""
    plan = plan_of([16, 16, 2], 3)
    for one, other in (7, 7), (8, 7), (300, 300), (300, 299), (256, 255), (300, 45), (261, 5), (257, 256), (511, 0), (255, 256), (44, 300), (300, 301):
        yield convert(plan, old_routes(2, (1, 10, 0), (one, 10, 0), (other, 1, 0)))
        yield convert(plan, old_routes(1, (0, 11, 0), (one, 10, 0), (other, 1, 0)))


def alike():
    """Nodes that share a byte with the source or the destination, and are neither: such a sheet is good."""
    for entry in (258, 1, 0), (7, 2, 258), (7, 3, 263), (300, 4, 44), (263, 5, 7):
        yield convert(plan_of([16, 16, 2], 3), old_routes(2, entry))


# ---- 17, and what is kept

def entry_of(kind, leg, start, target, other):
    """(source, entry) of that kind whose leg, from 0, goes from start to target; the other leg ends or begins at the third node."""
    if kind == 1:
        return start, (target, kind, 0)
    return (start, (other, kind, target)) if leg == 0 else (other, (target, kind, start))


def plan_on(shape):
    return plan_of(shape.extents, shape.wrap)


def with_leg(shape, sort, start, target, other):
    """A conversion of one entry; the sort is its kind and which leg is meant."""
    source, entry = entry_of(*sort, start, target, other)
    return convert(plan_on(shape), old_routes(source, entry))


def beside(rng, shape, node, dim):
    """One place on or back round the dimension."""
    return ties.moved(shape, node, dim, rng.choice([1, -1]))


def half_rings():
    """Each deterministic leg of each kind over half a ring, from an even place and from an odd one; along Y and Z the leg's start has a number of other parity.
    A second leg's source is no half ring from its target, so from there nothing would be lost."""
    rng = random.Random('half/%s' % SEED)
    for ring, dim, sort in itertools.product(RINGS, range(3), DETERMINISTIC):
        for place in ties.places(rng, ring):
            shape, start = ties.on_ring(rng, dim, ring, place)
            yield with_leg(shape, sort, start, ties.half_away(shape, start, dim), beside(rng, shape, start, dim))


def round_about():
    """Destinations half a ring from an odd source, by vias that are not: from the source the second leg would be lost, and so would a first leg to there."""
    rng = random.Random('about/%s' % SEED)
    for ring, dim, kind in itertools.product(RINGS, range(3), (3, 4, 5)):
        shape, source = ties.on_ring(rng, dim, ring, ties.places(rng, ring)[1])
        yield convert(plan_on(shape), old_routes(source, (ties.half_away(shape, source, dim), kind, beside(rng, shape, source, dim))))


def every_place():
    """Half of a ring of 16 from every place."""
    rng = random.Random('place/%s' % SEED)
    for dim, place in itertools.product(range(3), range(16)):
        shape, source = ties.on_ring(rng, dim, 16, place)
        call = lost if (place // 2 + dim) % 2 else convert
        yield call(plan_on(shape), old_routes(source, (ties.half_away(shape, source, dim), 1, 0)))


def some_leg(rng, dim, ring, place, by):
    """A deterministic leg, of any kind, from that place to the one so many places on."""
    shape, start = ties.on_ring(rng, dim, ring, place)
    return with_leg(shape, rng.choice(DETERMINISTIC), start, ties.moved(shape, start, dim, by), beside(rng, shape, start, (dim + 1) % 3))


def other_rings():
    """The other rings that have a half: from an even and an odd place."""
    rng = random.Random('other/%s' % SEED)
    for ring, dim in itertools.product((10, 12, 14), range(3)):
        for place in ties.places(rng, ring):
            yield some_leg(rng, dim, ring, place, ring // 2)


def near_half():
    """From odd places one hop less and one more than half."""
    rng = random.Random('near/%s' % SEED)
    for ring, dim, more, _ in itertools.product(RINGS, range(3), (-1, 1), range(2)):
        yield some_leg(rng, dim, ring, ties.places(rng, ring)[1], ring // 2 + more)


def odd_rings():
    """From odd places the most hops of rings that have no half."""
    rng = random.Random('odd/%s' % SEED)
    for ring, dim, more in itertools.product((3, 5, 7, 9, 15), range(3), (0, 1)):
        yield some_leg(rng, dim, ring, 2 * rng.randrange(ring // 2) + 1, ring // 2 + more)


def adaptive():
    """Adaptive legs over half a ring from odd places, beside deterministic ones that are kept."""
    rng = random.Random('adaptive/%s' % SEED)
    for ring, dim, sort in itertools.product((4, 6, 16), range(3), ADAPTIVE):
        shape, start = ties.on_ring(rng, dim, ring, ties.places(rng, ring)[1])
        yield with_leg(shape, sort, start, ties.half_away(shape, start, dim), beside(rng, shape, start, dim))


def open_dimensions():
    """Half of an open extent from odd places, where the other dimensions are rings; and half of those, which is lost."""
    rng = random.Random('open/%s' % SEED)
    for extent, dim, sort in itertools.product((2, 4, 6, 16), range(3), DETERMINISTIC):
        shape = ref.Shape([extent if d == dim else 4 for d in range(3)], 7 ^ 1 << dim)
        start = ties.of_parities(rng, shape, (1, 1, 1))
        ring = (dim + rng.choice([1, 2])) % 3
        yield with_leg(shape, sort, start, ties.half_away(shape, start, dim), beside(rng, shape, start, ring))
        if sort == (1, 0):
            yield with_leg(shape, sort, start, ties.half_away(shape, start, dim, ring), start)


def several():
    """Half a ring along every choice of dimensions, from even and odd places in every choice, with a hop or none along the others."""
    rng = random.Random('several/%s' % SEED)
    for parities, halves in itertools.product(itertools.product(range(2), repeat=3), list(itertools.product(range(2), repeat=3))[1:]):
        shape = ref.Shape(rng.sample([4, 6, 8], 3), 7)
        start = ties.of_parities(rng, shape, parities)
        target = start
        for dim in range(3):
            target = ties.moved(shape, target, dim, shape.extents[dim] // 2 if halves[dim] else rng.choice([0, 1, -1]))
        yield with_leg(shape, rng.choice(DETERMINISTIC), start, target, beside(rng, shape, start, halves.index(1)))


def refused_destinations():
    """Kinds 10 and 11: of live and of dead destinations, where the new rule finds a route and where it does not; alone, and before and behind kept entries."""
    ring, dead = plan_of([4, 1, 1], 1, (0, 0)), plan_of([4, 1, 1], 1, (0, 0), (2, 3))
    for plan, kind in itertools.product((ring, dead, plan_of([4, 1, 1], 0, (0, 0))), (10, 11)):
        for entries in [(1, kind, 0)], [(2, kind, 0)], [(1, 1, 0), (2, kind, 0), (3, 1, 0)]:
            yield convert(plan, old_routes(0, *entries))
    for kind in 10, 11:
        for entries in [*KEPT, (15, kind, 0)], [(0, kind, 0), *KEPT[1:]], [(d, kind, 0) for d in range(16) if d != 5], [(0, 10, 0), (1, kind, 0), (2, 10, 0)]:
            yield convert(W, old_routes(5, *entries))
            yield lost(W, old_routes(5, *entries))


# ---- Sheets of many entries

def some_entry(rng, shape, source, destination, keep):
    """An entry that is kept, or one that is not."""
    while True:
        kind = rng.choice([1, 2, 3, 4, 5, 10] if keep else [1, 3, 4, 5] * 8 + [11])
        vias = [vectors.some_node(rng, shape, source)][:ref.vias_of_kind(1, kind)]
        if not {source, destination} & set(vias) and ref.kept(shape, source, ref.Entry(destination, kind, vias, 0, 0)) == keep:
            return destination, kind, *vias, *[0][len(vias):]


def sheet_with(rng, shape, source, destinations, at):
    """A sheet whose first entry that cannot be kept is the one at that place; behind it there may be others."""
    return old_routes(source, *[some_entry(rng, shape, source, destination, i < at or i > at and rng.random() < 0.6)
                                for i, destination in enumerate(destinations)])


def mixed():
    """Sheets of up to 14 entries on machines with even rings: the first that cannot be kept stands at any place, or nowhere."""
    rng = random.Random('mixed/%s' % SEED)
    for i in range(MIXED):
        shape = ref.Shape(*rng.choice([([4, 4, 1], 3), ([4, 1, 6], 5), ([3, 4, 4], 7), ([8, 2, 4], 1), ([5, 6, 2], 2), ([16, 3, 16], 5)]))
        source = rng.randrange(shape.nodes)
        count = rng.choice([1, 2, 3, 5, 9, 14])
        routes = sheet_with(rng, shape, source, other_nodes(rng, shape, source, count), rng.randint(0, count))
        yield lost(plan_on(shape), routes)
        if i % 2:
            yield convert(plan_on(shape), routes, rng.choice([0, len(routes), len(routes) + 3]))


def other_nodes(rng, shape, source, count):
    return sorted(rng.sample([node for node in range(shape.nodes) if node != source], count))


def long_sheets():
    """300 entries: the first that cannot be kept is the last, or the first whose place or destination needs a second byte; and none."""
    rng = random.Random('long/%s' % SEED)
    shape = ref.Shape([16, 16, 2], 3)
    for at in 255, 256, 299:
        yield lost(plan_on(shape), sheet_with(rng, shape, 17, other_nodes(rng, shape, 17, 300), at))
    yield convert(plan_on(shape), sheet_with(rng, shape, 17, other_nodes(rng, shape, 17, 300), 300))


def full_sheet(at):
    """All 4,095 entries of the largest machine."""
    rng, shape = random.Random('full/%s' % SEED), ref.shape_of(CUBE, 7)
    return sheet_with(rng, shape, 2457, [node for node in range(shape.nodes) if node != 2457], at)


def full_sheets():
    """The largest sheet, kept, and with its last entry lost."""
    yield convert(plan_of(CUBE, 7), full_sheet(4095))
    yield lost(plan_of(CUBE, 7), full_sheet(4094))


# ---- The order of the checks

def after_the_plan():
    """Each check of the plan comes before 13, 17 and 12: a bad sheet, one that is lost, one that is kept, and one of version 2."""
    bad, gone, kept = (old_routes(5, *entries) for entries in ([LOST, (8, 0, 0)], [LOST], KEPT[:2]))
    for plan in *declined_plans(), *weighed.declined_plans():
        for routes, room in (bad, 0), (gone, 0), (kept, len(kept) + 1), (of_version(2, kept), 0):
            yield convert(plan, routes, room)
        yield lost(plan, gone)


def rooms():
    """Output of no bytes, of too few, of just enough and of more, for sheets that are kept, with no entry and with some, lost, and bad."""
    kept = [old_routes(5), old_routes(5, KEPT[0]), old_routes(5, *KEPT)]
    gone = [old_routes(5, LOST), old_routes(5, *KEPT[:2], LOST, *KEPT[3:]), old_routes(5, *KEPT, (15, 11, 0))]
    bad = [old_routes(5, (5, 1, 0)), old_routes(5, LOST, (8, 6, 0)), old_routes(5, *KEPT)[:-1], of_version(2, old_routes(5, *KEPT)), b'']
    for routes in kept + gone + bad:
        for room in sorted({0, 1, 6, 7, max(0, len(routes) - 1), len(routes), len(routes) + 1, len(routes) + 20}):
            yield convert(W, routes, room)


def other_plans():
    """The shape alone counts: weights, dead links, and a source, a via and destinations that are dead change nothing. The smallest machines."""
    around = [(1, 1), (4, 0), (5, 0), (5, 1)]
    for faults, weights in itertools.product(([], [(5, 3)], [(0, 3), (1, 3), (10, 3)], around), (None, [1, 1, 1], [8, 1, 3])):
        plan = plan_of([4, 4, 1], 3, *faults, weights=weights)
        for entries in KEPT, [*KEPT[:2], LOST], [KEPT[0], (8, 1, 16)]:
            yield convert(plan, old_routes(5, *entries))
        yield lost(plan, old_routes(5, *KEPT[:2], LOST))
    for count, weights in (256, None), (256, [2, 4, 8]):
        plan = plan_of(CUBE, 7, *[(node, 0) for node in range(count)], weights=weights)
        yield convert(plan, old_routes(0, (8, 1, 0), (4095, 3, 2184)))
        yield lost(plan, old_routes(1, (0, 10, 0), (9, 1, 0)))
    yield convert(plan_of([1, 1, 1], 0), old_routes(0))
    yield convert(plan_of([2, 1, 1], 0, (0, 0)), old_routes(1, (0, 1, 0)))


# ---- What a converted sheet says, and its walks

def routes_in(plan, routes):
    """(destination, legs) of each entry of a version 1 sheet that has a route."""
    sheet = ref.read_route_sheet(plan.shape, routes, [1])
    return [(entry.destination, ref.entry_answer(1, entry)[1]) for entry in sheet.entries if entry.kind < 10]


def goes_half(shape, start, target):
    """Whether both directions of some dimension are useful."""
    useful = shape.useful(start, target)
    return any(direction ^ 1 in useful for direction in useful)


def fate(plan, source, routes):
    """How a planned version 1 sheet fares: kept, 'half' with a deterministic leg over half a ring and 'kept' with none; lost by a 'leg', or by destinations
    without a route alone, 'none'. None where it has no deterministic leg."""
    kinds = {entry.kind for entry in ref.read_route_sheet(plan.shape, routes, [1]).entries if not ref.kept(plan.shape, source, entry)}
    if kinds:
        return 'none' if kinds == {11} else 'leg'
    legs = [leg for _, route in routes_in(plan, routes) for leg in deterministic(source, route)]
    if any(goes_half(plan.shape, start, target) for start, (target, _) in legs):
        return 'half'
    return 'kept' if legs else None


def worked_machine():
    """W's sheets as the old rule planned them, of each source."""
    for source in range(16):
        routes = sheet_from(W, source, OLD)
        yield convert(W, routes)
        if source % 5 == 0:
            yield lost(W, routes)
            yield from said(W, source, routes)


def planned():
    """Sheets of small machines with few faults as the old rule planned them."""
    rng = random.Random('planned/%s' % SEED)
    left = {**PLANNED, None: 0}
    while any(left.values()):
        plan = ties.any_plan(rng, rng.choice([4, 4, 6]))
        read = ref.read_plan(STAGE, plan)[1]
        live = sorted(set(range(read.nodes)) - read.dead)
        if not live or len(plan) > 36:
            continue
        source = rng.choice(live)
        routes = sheet_from(plan, source, OLD)
        sort = fate(read, source, routes)
        if left[sort]:
            left[sort] -= 1
            yield convert(plan, routes)
            yield lost(plan, routes)
            if converted(plan, routes):
                yield from said(plan, source, routes)


def said(plan, source, routes):
    """Reading the converted sheet, which says what the old one said, and the old one, which is 13; and ways along the routes."""
    rng = random.Random('said/%s/%s' % (SEED, routes.hex()))
    read, new = ref.read_plan(STAGE, plan)[1], converted(plan, routes)
    for destination in range(read.nodes + 1):
        assert vectors.lookup_answer(OLD, plan, routes, destination, ref.LARGE) == vectors.lookup_answer(STAGE, plan, new, destination, ref.LARGE)
    for sheet in new, routes:
        yield line('back', plan=plan, sheet=sheet, room=room_for(sheet))
    for destination in sorted({source, read.nodes, *rng.sample(range(read.nodes), 3)}):
        yield line('lookup', plan=plan, sheet=new, destination=destination)
    yield line('lookup', plan=plan, sheet=routes, destination=rng.randrange(read.nodes))
    yield from ways_along(rng, plan, source, routes_in(read, routes))


def ways_along(rng, plan, source, routed):
    """Walks by the old rule along three of the routes, those with a deterministic leg first; runs along the sheet planned now, where it has the same route."""
    read = ref.read_plan(STAGE, plan)[1]
    routed = sorted(rng.sample(routed, len(routed)), key=lambda route: not deterministic(source, route[1]))
    for destination, legs in routed[:3]:
        yield walk_as_before(read.shape, source, legs)
        now = ref.pair_in(STAGE, read, source, destination)[1]
        if now and now.legs == legs:
            yield list(runs_on(plan, source, destination))[1]


def walk_as_before(shape, source, legs):
    """The old rule's way, which the rule in force has too."""
    packet = ref.new_packet(STAGE, source, legs)
    way = first_way(shape, ref.new_packet(OLD, source, legs), OLD)
    assert way == first_way(shape, packet)
    return walk(shape, packet, way)


def walked_halves():
    """What is said of entries over half a ring from even places, and the old rule's walks of them."""
    rng = random.Random('walked/%s' % SEED)
    for ring, dim, sort in itertools.product((4, 6, 16), range(3), DETERMINISTIC):
        shape, start = ties.on_ring(rng, dim, ring, ties.places(rng, ring)[0])
        source, entry = entry_of(*sort, start, ties.half_away(shape, start, dim), beside(rng, shape, start, dim))
        routes, read = old_routes(source, entry), ref.read_plan(STAGE, plan_on(shape))[1]
        hold(plan_on(shape), routes)
        yield line('lookup', plan=plan_on(shape), sheet=converted(plan_on(shape), routes), destination=entry[0])
        yield walk_as_before(shape, source, routes_in(read, routes)[0][1])


LACKING = (cut, fields, versions, bad_entry, falling, alike, half_rings, round_about, every_place, other_rings, near_half, odd_rings, adaptive,
           open_dimensions, several, refused_destinations, mixed, long_sheets, full_sheets, after_the_plan, rooms, other_plans, worked_machine, planned,
           walked_halves)
