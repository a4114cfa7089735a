"""What the vectors lack of ties at half a ring, as lines: deterministic legs from every place of a ring, plans where the rule of ties decides the route, and
route sheets of every version."""
import itertools
import random

import reference as ref
import vectors
import weighed
from answers import STAGE
from lines import W, at_source, declined_plans, first_way, line, of_version, plan_of, room_for, routes_of, runs_on, sheet_from, step, walk

SEED = '1'
RINGS = 4, 6, 16
SORTS = 'found', 'lost', 'length', 'kind', 'via'
DECIDED = {4: 3, 6: 2, 8: 2}   # pairs of each sort on machines with such a ring
BESIDE = [2, 1], [2, 2], [3, 1], [4, 1]                # the other extents of such a machine
VERSIONS = 0, 1, 2, 3, 255     # of a route sheet
RULE = ref.E4                  # the rule of ties, with routes of up to two legs


# ---- Packets on rings

def on_ring(rng, dim, ring, place):
    """A shape with a ring along the dimension, and a node at that place of it. Along Y and Z an even place has an odd node and an odd place an even one;
    along X, where the ring is even, that cannot be."""
    extents = [ring if d == dim else rng.randint(2, 5) for d in range(3)]
    shape = ref.Shape(extents, 1 << dim | vectors.random_wrap(rng, extents, 0.5))
    return shape, rng.choice([node for node in range(shape.nodes) if shape.coords(node)[dim] == place and (dim == 0 or (node + place) % 2)])


def places(rng, ring):
    """An even one and an odd one."""
    return [2 * rng.randrange(ring // 2), 2 * rng.randrange(ring // 2) + 1]


def of_parities(rng, shape, parities):
    """A node whose coordinates are even (0) and odd (1) as told."""
    return shape.number(*[2 * rng.randrange(extent // 2) + odd for extent, odd in zip(shape.extents, parities)])


def moved(shape, node, dim, by):
    """The node so many places on round the dimension."""
    at = list(shape.coords(node))
    at[dim] = (at[dim] + by) % shape.extents[dim]
    return shape.number(*at)


def half_away(shape, node, *dims):
    for dim in dims:
        node = moved(shape, node, dim, shape.extents[dim] // 2)
    return node


def one_leg(shape, node, mode, *dims):
    """A packet with half a ring before it along these dimensions."""
    return at_source(node, (half_away(shape, node, *dims), mode))


def turned(way, at):
    """The way, from that hop on to the other side."""
    return way[:at] + bytes(direction ^ 1 for direction in way[at:])


# ---- Steps and walks

def every_place():
    """Half a ring from every place along each dimension: the whole walk, and steps in every direction, on the largest ring along one dimension in turn and
    along the others to both sides."""
    rng = random.Random('place/%s' % SEED)
    for ring, dim in itertools.product(RINGS, range(3)):
        for place in range(ring):
            shape, node = on_ring(rng, dim, ring, place)
            packet = one_leg(shape, node, 'D', dim)
            for direction in range(7) if ring < 16 or place % 3 == dim else (2 * dim, 2 * dim + 1):
                yield step(shape, packet, direction)
            yield walk(shape, packet, first_way(shape, packet))


def other_rings():
    """From an even and an odd place of the other rings that have a half: the whole walk, and a step to the wrong side."""
    rng = random.Random('other/%s' % SEED)
    for ring, dim in itertools.product((8, 10, 12, 14), range(3)):
        for place in places(rng, ring):
            shape, node = on_ring(rng, dim, ring, place)
            packet = one_leg(shape, node, 'D', dim)
            way = first_way(shape, packet)
            yield walk(shape, packet, way)
            yield step(shape, packet, way[0] ^ 1)


def turning_back():
    """Walks that set out to the wrong side, or turn after some hops: a travel goes on as it began, at even and at odd places."""
    rng = random.Random('back/%s' % SEED)
    for ring, dim in itertools.product(RINGS, range(3)):
        for place in places(rng, ring):
            shape, node = on_ring(rng, dim, ring, place)
            packet = one_leg(shape, node, 'D', dim)
            for at in sorted({0, 1, ring // 4, ring // 2 - 1}):
                yield walk(shape, packet, turned(first_way(shape, packet), at))


def below_half():
    """One hop less than half of 4 and 6, and the most of 5, which has no half: to the near side alone, from every place."""
    rng = random.Random('below/%s' % SEED)
    for ring, place in ((ring, place) for ring in (4, 5, 6) for place in range(ring)):
        dim = rng.randrange(3)
        shape, node = on_ring(rng, dim, ring, place)
        for far in (ring - 1) // 2, -((ring - 1) // 2):
            for direction in 2 * dim, 2 * dim + 1:
                yield step(shape, at_source(node, (moved(shape, node, dim, far), 'D')), direction)


def several():
    """Half a ring along two and three dimensions, and along one with a hop along each of the others: whole walks, and walks that turn where the last dimension
    begins."""
    rng = random.Random('several/%s' % SEED)
    for extents, parities in itertools.product(([4, 6, 8], [6, 16, 4]), itertools.product(range(2), repeat=3)):
        shape = ref.Shape(extents, 7)
        node = of_parities(rng, shape, parities)
        for dims in rng.choice([(0, 1), (0, 2), (1, 2)]), (0, 1, 2):
            packet = one_leg(shape, node, 'D', *dims)
            way = first_way(shape, packet)
            yield walk(shape, packet, way)
            yield walk(shape, packet, turned(way, sum(extents[dim] // 2 for dim in dims[:-1])))
        half, *others = rng.sample(range(3), 3)
        target = half_away(shape, node, half)
        for dim in others:
            target = moved(shape, target, dim, rng.choice([1, -1]))
        packet = at_source(node, (target, 'D'))
        yield walk(shape, packet, first_way(shape, packet))


def vias_before(rng, shape, dim, node):
    """Where a second leg begins: at a place of other parity, by a short and by a long first leg, the long one itself half a ring where that is odd; at the same
    place of another row; and at the node itself, so that the first leg is dropped."""
    ring, other = shape.extents[dim], (dim + 1) % 3
    yield moved(shape, node, dim, rng.choice([1, -1]))
    if ring > 4:
        yield moved(shape, node, dim, ring // 2 - 1 + ring // 2 % 2)
    yield moved(shape, node, other, -1 if shape.coords(node)[other] else 1)
    yield node


def begins_anew():
    """Second legs of half a ring: whole walks, and walks that turn where the second leg begins."""
    rng = random.Random('anew/%s' % SEED)
    for ring, dim in itertools.product(RINGS, range(3)):
        for place in places(rng, ring):
            shape, node = on_ring(rng, dim, ring, place)
            for via in vias_before(rng, shape, dim, node):
                packet = at_source(node, (via, rng.choice('AD')), (half_away(shape, via, dim), 'D'))
                way = first_way(shape, packet)
                yield walk(shape, packet, way)
                yield walk(shape, packet, turned(way, len(way) - ring // 2))


def both_ways():
    """Adaptive legs of half a ring: to either side along one dimension, and in every direction along three."""
    rng = random.Random('both/%s' % SEED)
    for ring, dim in itertools.product(RINGS, range(3)):
        for place in places(rng, ring):
            shape, node = on_ring(rng, dim, ring, place)
            for direction in 2 * dim, 2 * dim + 1:
                yield walk(shape, one_leg(shape, node, 'A', dim), [direction] * (ring // 2))
    for parities in (0, 0, 0), (1, 1, 1), (0, 1, 0), (1, 0, 1):
        shape = ref.Shape([4, 6, 8], 7)
        packet = one_leg(shape, of_parities(rng, shape, parities), 'A', 0, 1, 2)
        for direction in range(6):
            yield step(shape, packet, direction)


# ---- Plans where the rule decides the route

def broken_rings():
    """Every even ring with one dead link, the first or the closing one: listings from one of its ends, or from both."""
    for ring, dim, first in itertools.product(range(4, 17, 2), range(3), (True, False)):
        plan = plan_of([ring if d == dim else 1 for d in range(3)], 1 << dim, (0 if first else ring - 1, dim))
        for source in ((0, 1) if first else (ring - 1, 0))[:2 if ring in RINGS else 1]:
            yield line('listing', input=ref.two(source) + plan)


def worked_machine():
    """W's sheet of each source."""
    for source in range(16):
        yield line('sheet', plan=W, source=source, room=len(sheet_from(W, source)))


def any_plan(rng, ring):
    """A narrow machine whose even rings are closed, with many faults, of either plan version."""
    extents = [ring] + rng.choice(BESIDE)
    rng.shuffle(extents)
    shape = ref.Shape(extents, sum(1 << dim for dim in range(3) if extents[dim] in (4, ring)) | vectors.random_wrap(rng, extents, 0.3))
    faults = [(rng.randrange(shape.nodes), rng.choice([0, 1, 2, 0, 1, 2, 0, 1, 2, 3])) for _ in range(rng.randint(shape.nodes // 3, shape.nodes))]
    faults = {(node, kind) for node, kind in faults if ref.fault_exists(shape, 2, node, kind, False)}
    return plan_of(extents, shape.wrap, *sorted(faults), weights=rng.choice([None, weighed.any_weights(rng)]))


def some_pairs(rng, plan):
    """A few pairs, without those whose direct adaptive leg is clear."""
    live = sorted(set(range(plan.nodes)) - plan.dead)
    pairs = [rng.sample(live, 2) for _ in range(6)] if len(live) > 1 else []
    return [(source, destination) for source, destination in pairs if not ref.clear(STAGE, plan, source, (destination, 'A'))]


def modes_of(route):
    return [mode for _, mode in route.legs]


def sort_of(plus, now):
    """How the rule decides a pair: from its route with plus at every half ring, and its route now. None stands for no route."""
    if not plus or not now:
        return 'found' if now else 'lost' if plus else None
    if plus.length != now.length:
        return 'length'
    if modes_of(plus) != modes_of(now):
        return 'kind'
    return 'via' if plus.legs != now.legs else None


def decided():
    """Pairs that have a route of up to two legs where with plus at every half ring they would have none, and the reverse; and pairs with such a route of
    another length, kind or via."""
    rng = random.Random('decided/%s' % SEED)
    for ring, count in DECIDED.items():
        left = {**dict.fromkeys(SORTS, count), None: 0}
        while any(left.values()):
            plan = any_plan(rng, ring)
            before, now = (ref.read_plan(stage, plan)[1] for stage in (ref.E1, RULE))
            for source, destination in some_pairs(rng, now):
                sort = sort_of(ref.pair_in(ref.E1, before, source, destination)[1], ref.pair_in(RULE, now, source, destination)[1])
                if left[sort]:
                    left[sort] -= 1
                    yield from calls_on(plan, source, destination)
                    break


def calls_on(plan, source, destination):
    yield line('pair', plan=plan, source=source, destination=destination)
    yield line('sheet', plan=plan, source=source, room=len(sheet_from(plan, source)))
    yield line('listing', input=ref.two(source) + plan)
    yield from runs_on(plan, source, destination)


def round_only(extents, dim, place, side):
    """A plan in which the one way from a node at that place of the ring to its neighbour, in plus for side 0, is round the ring: the source's links are dead
    but the one to the other side, the destination's but the one onward."""
    shape = ref.Shape(extents, sum(1 << d for d in range(3) if extents[d] > 2))
    at = [extent // 3 for extent in extents]
    at[dim] = place
    source = shape.number(*at)
    destination = shape.neighbour(source, 2 * dim + side)
    faults = set()
    for node, left in (source, 2 * dim + 1 - side), (destination, 2 * dim + side):
        for direction in range(6):
            there = shape.neighbour(node, direction)
            if direction != left and there is not None:
                faults.add((there if direction % 2 else node, direction // 2))
    return plan_of(extents, shape.wrap, *sorted(faults)), source, destination


def round_rings():
    """Ways round a ring, from an even and an odd place and to either side: pairs and runs on the largest machine, sheets of smaller ones."""
    for dim, place, side in itertools.product(range(3), (4, 7), range(2)):
        plan, source, destination = round_only([16, 16, 16], dim, place, side)
        yield line('pair', plan=plan, source=source, destination=destination)
        yield next(runs_on(plan, source, destination))
        plan, source, _ = round_only([8 if d == dim else d + 2 for d in range(3)], dim, place, side)
        yield line('sheet', plan=plan, source=source, room=len(sheet_from(plan, source)))


# ---- Route sheets of other versions

def versions():
    """Sheets that are right but for their version: a planned one, one with an entry of each kind, and one without entries. One has entries of seven bytes."""
    every_kind = routes_of(5, (0, 1, 0), (1, 2, 0), (2, 3, 1), (3, 4, 15), (4, 5, 0), (14, 10, 0), (15, 11, 0))
    for routes, version in itertools.product((sheet_from(W, 0, RULE), every_kind, routes_of(15)), VERSIONS):
        for destination in 0, 1, 15:
            yield line('lookup', plan=W, sheet=of_version(version, routes), destination=destination)
        yield line('back', plan=W, sheet=of_version(version, routes), room=room_for(routes))
    longer = ref.sheet_bytes(3, 0, [ref.entry_bytes(3, 1, 34, [3, 2])])
    for version in VERSIONS:
        yield line('lookup', plan=W, sheet=of_version(version, longer), destination=1)
        yield line('back', plan=W, sheet=of_version(version, longer), room=len(longer))


def old_version():
    """A version 1 sheet that is right in all else: each check of the plan comes before 13, and 13 before 9 and 12."""
    routes = sheet_from(W, 0, RULE)
    old = of_version(1, routes)
    for plan in *declined_plans(), *weighed.declined_plans():
        yield line('lookup', plan=plan, sheet=old, destination=1)
        yield line('back', plan=plan, sheet=old, room=room_for(old))
    for sheet, destination in itertools.product((old, routes), (15, 16, 65535)):
        yield line('lookup', plan=W, sheet=sheet, destination=destination)
    for sheet, room in itertools.product((old, routes), (0, 1, len(old), room_for(old) - 1, room_for(old) + 1)):
        yield line('back', plan=W, sheet=sheet, room=room)


LACKING = (every_place, other_rings, turning_back, below_half, several, begins_anew, both_ways, broken_rings, worked_machine, decided, round_rings, versions,
           old_version)
