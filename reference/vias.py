"""What the vectors lack of routes by two vias, as lines: packets of three legs, route sheets of version 3 and of version 2 written again, pairs of every kind,
and pairs that have a route only by two vias."""
import itertools
import random

import reference as ref
import ties
import vectors
from answers import STAGE
from lines import W, at_source, declined_plans, first_way, line, new_routes, of_version, plan_of, room_for, routes_of, runs_on, sheet_from, step, walk

SEED = '1'
BEFORE = ref.E4                # routes of up to two legs
CUBE = [16, 16, 16]

# Seeds of `a_pair` whose route has these modes; D and DD are rare.
PAIRS = {
    '-': (16, 48, 114, 129, 132, 134),
    'A': (1, 7, 10, 13, 14, 19),
    'D': (51, 5149, 14096, 15500),
    'AA': (4, 6, 8, 9, 11, 15),
    'AD': (74, 609, 807, 1353, 2392, 2752),
    'DA': (72, 1668, 1761, 1856, 2040, 2142),
    'DD': (6535, 42375, 48356, 52362),
    'AAA': (0, 2, 3, 12, 18, 23),
    'AAD': (60, 63, 152, 182, 258, 434),
    'ADA': (5, 43, 59, 124, 151, 170),
    'ADD': (69, 509, 696, 1137, 1295, 1562),
    'DAA': (52, 81, 265, 479, 494, 496),
    'DAD': (2083, 4217, 4327, 4404, 7644, 9133),
    'DDA': (161, 166, 239, 312, 414, 853),
    'DDD': (2914, 3456, 3500, 4407, 4423, 6249),
}

# Likewise, of pairs whose route by two vias is chosen by what the name says.
DECIDED = {
    'first via': (0, 18, 23, 33, 36, 38, 52, 68, 70, 71, 94, 103),
    'second via': (5, 35, 55, 77, 166, 167, 173, 176, 196, 218, 269, 282),
    'first via before second': (12, 59, 63, 81, 182, 184, 265, 334, 445, 496, 500, 530),
}

# By the length of a ring, seeds of `on_ring` whose route would be another with plus at every half ring.
TIES = {
    4: (124, 186, 227, 356, 476, 498),
    6: (20, 23, 25, 113, 141, 227),
    8: (124, 146, 169, 311, 416, 547),
    10: (104, 172, 245, 341, 357, 389),
    12: (3, 208, 272, 282, 515, 549),
    14: (86, 142, 145, 542, 564, 607),
    16: (48, 110, 150, 197, 203, 238),
}


def two_nodes(rng, plan):
    """The plan and two of its nodes that are not dead, if there are two."""
    read = ref.read_plan(STAGE, plan)[1]
    live = sorted(set(range(read.nodes)) - read.dead)
    return (plan, *rng.sample(live, 2)) if len(live) > 1 else (plan, 0, 0)


def a_pair(seed):
    """A narrow machine with many faults, and two of its nodes."""
    rng = random.Random('vias/%s/%d' % (SEED, seed))
    return two_nodes(rng, ties.any_plan(rng, rng.choice([4, 6, 8])))


def on_ring(ring, seed):
    """Likewise, with a ring of this length."""
    rng = random.Random('vias/%s/%d/%d' % (SEED, ring, seed))
    return two_nodes(rng, ties.any_plan(rng, ring))


def modes_of(seed):
    """The modes of the pair's route; '-' where there is none."""
    plan, source, destination = a_pair(seed)
    number, route = ref.plan_pair(STAGE, plan, source, destination)
    return '-' if number else ''.join(mode for _, mode in route.legs)


# ---- Pairs

def every_kind():
    """Pairs of every kind, their sheets and listings, and ways along their routes."""
    for modes, seeds in PAIRS.items():
        for i, seed in enumerate(seeds):
            assert modes_of(seed) == modes
            plan, source, destination = a_pair(seed)
            yield line('pair', plan=plan, source=source, destination=destination)
            yield from runs_on(plan, source, destination)
            if i < 2:
                yield line('sheet', plan=plan, source=source, room=len(sheet_from(plan, source)))
                yield line('listing', input=ref.two(source) + plan)


def as_early(plan, source, destination):
    """The vias of the clear choices as short as the first, with as many deterministic legs; the route's own first."""
    read = ref.read_plan(STAGE, plan)[1]
    clear = ref.choices(STAGE, read.shape, source, destination, lambda start, leg: ref.clear(STAGE, read, start, leg))
    keys = sorted(ref.order(read, source, legs) for legs in clear)
    return [key[3] for key in keys if key[:2] == keys[0][:2]]


def decided_by(seed):
    """What chooses the pair's route among choices as short, with as many deterministic legs. None where its route has not two vias, or nothing has to choose."""
    if len(modes_of(seed)) != 3:
        return None
    first, *others = as_early(*a_pair(seed))
    if any(vias[1] < first[1] for vias in others):
        return 'first via before second'
    if any(vias[0] == first[0] and vias != first for vias in others):
        return 'second via'
    return 'first via' if any(vias != first for vias in others) else None


def decided():
    """Pairs whose first via, or second, is the lowest of several; with some first vias the second could be lower."""
    for sort, seeds in DECIDED.items():
        for seed in seeds:
            assert decided_by(seed) == sort
            plan, source, destination = a_pair(seed)
            yield line('pair', plan=plan, source=source, destination=destination)
            yield line('sheetrun', plan=plan, source=source, destination=destination, calls='-')


def with_plus(plan, source, destination):
    """The pair's route with plus at every half ring."""
    rule = ref.deterministic
    ref.deterministic = lambda stage, *ends: rule(ref.E1, *ends)
    route = ref.pair_in(STAGE, ref.read_plan(STAGE, plan)[1], source, destination)[1]
    ref.deterministic = rule
    return route


def by_ties():
    """Pairs whose route of up to three legs goes by the rule of half rings, of every even length."""
    for ring, seeds in TIES.items():
        for seed in seeds:
            plan, source, destination = on_ring(ring, seed)
            assert with_plus(plan, source, destination) != ref.plan_pair(STAGE, plan, source, destination)[1]
            yield line('pair', plan=plan, source=source, destination=destination)
            yield next(runs_on(plan, source, destination))


def only_by_two():
    """Rings with a dead link, and rows joined at one end: pairs that have a route only by two vias, and pairs that have none. Sheets of every source."""
    for ring, dim in itertools.product((4, 6, 8, 16), range(3)):
        plan = plan_of([ring if d == dim else 1 for d in range(3)], 1 << dim, (0, dim))
        for source in range(0, ring, 1 if ring < 8 else 5):
            yield line('sheet', plan=plan, source=source, room=len(sheet_from(plan, source)))
        yield from runs_on(plan, 0, 1)
    for rows in 3, 4, 5:
        shape = ref.Shape([4, rows, 1], 0)
        faults = [(shape.number(x, y, 0), 1) for y in range(rows - 1) for x in range(4) if x != (3, 0)[y % 2]]
        plan = plan_of(shape.extents, 0, *sorted(faults))
        yield line('listing', input=ref.two(0) + plan)
        for destination in range(4, shape.nodes, 3):
            yield from runs_on(plan, 0, destination)


# ---- Packets

def three_legs():
    """Whole walks along three legs of every choice of modes, cut short, with a byte more and with a wrong one; a step in each direction at each leg's start."""
    rng = random.Random('legs/%s' % SEED)
    for modes, extents in itertools.product(itertools.product('AD', repeat=3), ([4, 6, 3], [16, 16, 16])):
        shape = ref.Shape(extents, vectors.random_wrap(rng, extents, 0.7))
        source = rng.randrange(shape.nodes)
        legs, here = [], source
        for mode in modes:
            here = vectors.some_node(rng, shape, here)
            legs.append((here, mode))
        packet = ref.new_packet(STAGE, source, legs)
        way = first_way(shape, packet)
        yield walk(shape, packet, way)
        yield walk(shape, packet, way + b'\0')
        yield walk(shape, packet, way[:len(way) // 2])
        if way:
            at = rng.randrange(len(way))
            yield walk(shape, packet, way[:at] + bytes([6]) + way[at:])
        for leg in range(3):
            start = packet._replace(node=source if leg == 0 else legs[leg - 1][0], mark=leg)
            for direction in range(7):
                yield step(shape, start, direction)


def longest(modes):
    """The largest mesh, a packet on it whose three legs go from corner to corner, and its way of 135 hops."""
    shape, packet = ref.Shape(CUBE, 0), at_source(0, *zip((4095, 0, 4095), modes))
    return shape, packet, first_way(shape, packet)


def long_walks():
    """The longest way whole, up to its legs' ends, and without its last hop."""
    for modes in 'AAA', 'DDD', 'ADA':
        shape, packet, way = longest(modes)
        for hops in 45, 90, 134, 135:
            yield walk(shape, packet, way[:hops])


def drops():
    """Three legs whose targets are the present node, one another's, or the node of the next hop: dropped together, one after the other, or waiting."""
    shape = ref.Shape([4, 4, 1], 3)
    for targets in itertools.product((5, 6), repeat=3):
        packet = at_source(5, *zip(targets, 'ADA'))
        for direction in 0, 1:
            yield step(shape, packet, direction)
        for run in b'', b'\0', b'\0\1', b'\0\1\0', b'\0\1\0\1':
            yield walk(shape, packet, run)


def counts():
    """No leg up to five, and more; a node outside in the place of each target, and of the present node."""
    shape = ref.Shape([4, 4, 1], 3)
    for count in 0, 1, 2, 3, 4, 5, 255, 256:
        packet = at_source(0, *[((3, 2)[i % 2], 'A') for i in range(count)])
        yield step(shape, packet, 1)
        yield walk(shape, packet, b'\1\1')
    for count in 3, 4:
        yield step(shape, at_source(3, *[(3, 'A')] * count), 1)              # 14 before any drop
    for place, node in itertools.product(range(3), (15, 16, 4095, 65535)):
        packet = at_source(0, *[(node if i == place else i + 1, 'A') for i in range(3)])
        yield step(shape, packet, 0)
        yield walk(shape, packet, b'\0')
    yield step(shape, at_source(0, (1, 'A'), (2, 'A'), (3, 'A'))._replace(node=16), 0)


# ---- Route sheets of version 3

GOOD = ((0, 1), (1, 16, 2), (2, 17, 3), (3, 18, 15), (4, 19, 0), (6, 32, 0, 1), (7, 33, 1, 0), (8, 34, 4, 15), (9, 35, 15, 4), (10, 36, 2, 3), (11, 37, 3, 2), (12, 38, 1, 2),
        (13, 39, 2, 1), (14, 160), (15, 176))


def calls_on(routes, destination, plan=W):
    yield line('lookup', plan=plan, sheet=routes, destination=destination)
    yield line('back', plan=plan, sheet=routes, room=len(routes))


def kinds():
    """Each byte as kind, with two vias, with one and with none; and each kind that there is, looked up."""
    for kind, vias in itertools.product(range(256), ((6, 7), (6, 0), (0, 0))):
        yield line('lookup', plan=W, sheet=new_routes(5, (8, kind, *vias)), destination=8)
    for destination in range(17):
        yield from calls_on(new_routes(5, *GOOD), destination)


def bad_vias():
    """Vias at an end, equal, outside, and absent ones that are not 0, in either place; node 0 as a via."""
    for kind, vias in ((16, (5, 0)), (16, (8, 0)), (16, (16, 0)), (16, (65535, 0)), (16, (6, 7)), (19, (6, 1)), (19, (6, 256)), (1, (1, 0)), (1, (0, 1)), (160, (1, 0)), (160, (0, 256)),
                       (176, (256, 0)), (176, (0, 1)), (32, (6, 6)), (39, (6, 6)), (32, (0, 0)), (32, (5, 6)), (32, (6, 5)), (32, (8, 6)), (32, (6, 8)), (32, (16, 6)), (32, (6, 16)),
                       (32, (6, 4095)), (32, (65535, 6)), (32, (0, 6)), (32, (6, 0)), (32, (15, 6)), (32, (6, 15)), (16, (0, 0)), (16, (15, 0)), (36, (6, 262)), (36, (262, 6))):
        yield from calls_on(new_routes(5, (8, kind, *vias)), 8)
        yield from calls_on(new_routes(5, (4, 1), (8, kind, *vias), (9, 176)), 4)
    for routes in new_routes(0, (8, 32, 0, 6)), new_routes(0, (8, 16, 0)), new_routes(5, (0, 32, 6, 0)), new_routes(5, (0, 1)), new_routes(5, (5, 1)), new_routes(5, (16, 1)), new_routes(16, (5, 1)):
        yield from calls_on(routes, 8)
    for entries in ((8, 1), (8, 1)), ((9, 1), (8, 1)), ((8, 32, 6, 7), (8, 32, 6, 7)):
        yield from calls_on(new_routes(5, *entries), 8)


def layouts():
    """Sheets of version 3 cut short, longer, with entries of five bytes, and with counts and lengths that are others; sheets of version 2 with entries of seven."""
    routes = new_routes(5, *GOOD[4:7])
    for size in range(len(routes)):
        yield line('back', plan=W, sheet=routes[:size], room=len(routes))
    for more in 1, 2, 5, 7:
        yield from calls_on(routes + bytes(more), 4)
        yield from calls_on(fitted(routes + bytes(more)), 4)
    for count in 0, 1, 2, 4, 259, 768:
        yield from calls_on(routes[:5] + ref.two(count) + routes[7:], 4)
    for version, other in itertools.product((2, 3), (new_routes, routes_of)):
        sheet = other(5, (8, 1, 0), (9, 2 if other is routes_of else 16, 6))
        for destination in 8, 9:
            yield from calls_on(of_version(version, sheet), destination)
    five = ref.sheet_bytes(3, 5, [ref.entry_bytes(2, 4 + i, 1, [0]) for i in range(7)])       # 35 bytes, as five entries of seven have
    yield from calls_on(five, 4)
    yield from calls_on(five[:5] + ref.two(5) + five[7:], 4)


def fitted(routes):
    return routes[:1] + ref.two(len(routes) - 3) + routes[3:]


# ---- Sheets of version 2, and the order of the checks

OLD_GOOD = (0, 1, 0), (1, 2, 0), (2, 3, 1), (3, 4, 15), (4, 5, 0), (14, 10, 0), (15, 11, 0)


def written_again():
    """Version 2 with every kind into rooms of every sort; each byte as its kind; planned sheets of it, which have other routes than the sheets planned now."""
    routes = routes_of(5, *OLD_GOOD)
    for room in 0, 7, len(routes) - 1, len(routes), len(routes) + 1, room_for(routes) - 1, room_for(routes), room_for(routes) + 1, room_for(routes) + 20:
        yield line('back', plan=W, sheet=routes, room=room)
    for destination in range(17):
        yield line('lookup', plan=W, sheet=routes, destination=destination)
    for kind, via in itertools.product((*range(21), 32, 34, 39, 128, 160, 176, 255), (0, 6)):
        yield line('back', plan=W, sheet=routes_of(5, (8, kind, via)), room=14)
    for source in range(16):
        routes = sheet_from(W, source, BEFORE)
        yield line('back', plan=W, sheet=routes, room=room_for(routes))
    for seed in PAIRS['AAA'] + PAIRS['DDD']:
        plan, source, destination = a_pair(seed)
        routes = sheet_from(plan, source, BEFORE)
        yield line('back', plan=plan, sheet=routes, room=room_for(routes))
        yield line('lookup', plan=plan, sheet=routes, destination=destination)


def checks():
    """Each check of the plan before 13, 9 and 12; 13 before 9 and 12, of both versions."""
    good, bad = new_routes(5, *GOOD), new_routes(5, (8, 0))
    for plan in declined_plans():
        for routes in good, bad, routes_of(5, *OLD_GOOD):
            yield line('lookup', plan=plan, sheet=routes, destination=65535)
            yield line('back', plan=plan, sheet=routes, room=0)
    for routes in good, bad, routes_of(5, *OLD_GOOD), routes_of(5, (8, 0, 0)):
        for destination in 15, 16, 65535:
            yield line('lookup', plan=W, sheet=routes, destination=destination)
        for room in 0, len(routes) - 1, room_for(routes) - 1, room_for(routes):
            yield line('back', plan=W, sheet=routes, room=room)


def full():
    """All 4,095 entries, of both versions, into just enough room, and version 2 into the room that it takes itself; the last entry, and with it bad."""
    cube, shape = plan_of(CUBE, 7), ref.shape_of(CUBE, 7)
    for version in 2, 3:
        routes = vectors.random_route_sheet(random.Random('full/%s' % SEED), STAGE, shape, version, 4096)
        yield line('back', plan=cube, sheet=routes, room=28672)
        yield line('lookup', plan=cube, sheet=routes, destination=4095)
        if version == 2:
            yield line('back', plan=cube, sheet=routes, room=20482)
        yield line('lookup', plan=cube, sheet=routes[:-2] + b'\xff\xff', destination=1)


LACKING = (every_kind, decided, by_ties, only_by_two, three_legs, long_walks, drops, counts, kinds, bad_vias, layouts, written_again, checks, full)
