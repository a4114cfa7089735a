"""What the vectors lack of plan version 2, as lines: edges of weights and of sizes, sheets written back, routes that go by weight, and long ways."""
import itertools
import random

import reference as ref
import vectors
from answers import STAGE
from lines import first_way, line, plan_of, plan_write, runs_on, sheet_from

SEED = '1'
EDGES = 0, 1, 8, 9, 255        # of a weight
OTHER, TIED = 40, 20           # pairs whose route is another than by hops, or as heavy as one of other hops
FAR = ([15, 4, 15], [8, 7, 8]), ([10, 11, 9], [8, 8, 8]), ([9, 14, 8], [8, 7, 8]), ([16, 16, 16], [8, 8, 8])      # lengths of 511, 512, 513 and 840


# ---- Reading and writing

def edges():
    """Each weight at its edges: of a dimension that the machine has, and of one that it has not."""
    for dim, weight in itertools.product(range(3), EDGES):
        weights = [weight if d == dim else d + 2 for d in range(3)]
        for extents in [4, 3, 5], [1 if d == dim else 4 for d in range(3)]:
            plan = plan_of(extents, 0, weights=weights)
            yield line('plan', plan=plan)
            yield line('weights', plan=plan)
            yield line('planback', plan=plan, room=12)
            yield plan_write(2, extents, 0, weights, [], 12)
            yield line('pair', plan=plan, source=0, destination=extents[0] * extents[1] * extents[2] - 1)


def together():
    """16 in a sheet that the checks 5, 6, 7 and 8 would decline too, in every choice of these five."""
    for extent, wrap, weight, absent, falling in itertools.product([False, True], repeat=5):
        faults = [(2, 2)] * absent + [(3, 1), (3, 0)] * falling
        extents, wrap, weights = [17 if extent else 4, 4, 1], 7 if wrap else 3, [3, 8, 9 if weight else 1]
        yield line('plan', plan=plan_of(extents, wrap, *faults, weights=weights))
        yield plan_write(2, extents, wrap, weights, faults, 40)


def sizes():
    """Sheets of 8 to 13 bytes of all versions, as they are cut and with a length field that fits. One has the bytes of W in version 1, and is 16 in version 2."""
    for weights in [1, 1, 3], [0, 1, 0]:
        whole = plan_of([4, 4, 1], 3, weights=weights) + b'\0'
        for version, size in itertools.product((0, 1, 2, 3, 255), range(8, 14)):
            cut = bytes([version]) + whole[1:size]
            for sheet in sorted({cut, cut[:1] + ref.two(size - 3) + cut[3:]}):
                yield line('plan', plan=sheet)


def rooms():
    """Sheets written back, and written from their values, into exactly enough bytes and into others, those of a version 1 sheet among them."""
    for count, weights in (0, [1, 1, 1]), (1, [1, 1, 8]), (2, [4, 5, 6]), (256, [8, 1, 7]):
        faults = [(n, 0) for n in range(count)]
        plan = plan_of([16, 16, 16], 7, *faults, weights=weights)
        for room in len(plan) - 3, len(plan) - 1, len(plan), len(plan) + 1:
            yield line('planback', plan=plan, room=room)
            yield plan_write(2, [16, 16, 16], 7, weights, faults, room)


def values():
    """Values of every version: 2 before 3, 3 before 16; weights of version 1 are not judged."""
    for version, count, weights in itertools.product((0, 1, 2, 3, 255), (1, 257), ([1, 1, 1], [0, 9, 255])):
        yield plan_write(version, [16, 16, 16], 0, weights, [(n, 1) for n in range(count)], 16)


def declined_plans():
    """A sheet declined by each of the checks 1 to 8 but 2, and by 16; most would be declined by a later check too."""
    good = plan_of([4, 4, 1], 3, (0, 0), weights=[1, 1, 3])
    yield good[:11]
    yield good[:10] + ref.two(257) + good[12:]
    yield good + b'\0'
    yield plan_of([17, 4, 1], 2, weights=[1, 1, 9])
    yield plan_of([2, 4, 1], 1, weights=[1, 1, 9])
    yield plan_of([4, 4, 1], 3, (16, 3), weights=[1, 1, 9])
    yield plan_of([4, 4, 1], 3, (16, 3), weights=[1, 1, 8])
    yield plan_of([4, 4, 1], 3, (3, 1), (3, 0), weights=[1, 1, 8])


# ---- Every call

def every_call():
    """W and a torus under several weights, by each call that takes a plan."""
    for weights in [1, 1, 1], [3, 1, 1], [1, 2, 1], [1, 8, 5], [8, 8, 8]:
        yield from calls_on(plan_of([4, 4, 1], 3, (0, 0), weights=weights), 0, range(16))
    for weights in [1, 1, 3], [8, 1, 2]:
        yield from calls_on(plan_of([3, 3, 3], 7, (0, 0), (0, 2), (4, 3), (9, 1), (13, 0), weights=weights), 0, (1, 2, 4, 9, 10, 13, 18, 26))


def calls_on(plan, source, destinations):
    routes = sheet_from(plan, source)
    yield line('plan', plan=plan)
    yield line('planback', plan=plan, room=len(plan))
    yield line('weights', plan=plan)
    yield line('masks', plan=plan)
    yield line('dead', plan=plan, node=source, direction=0)
    yield line('listing', input=ref.two(source) + plan)
    for room in len(routes) - 1, len(routes), len(routes) + 2:
        yield line('sheet', plan=plan, source=source, room=room)
        yield line('back', plan=plan, sheet=routes, room=room)
    for destination in destinations:
        yield line('pair', plan=plan, source=source, destination=destination)
    for destination in destinations[1:4]:
        yield line('lookup', plan=plan, sheet=routes, destination=destination)
        yield from runs_on(plan, source, destination)


# ---- Routes that go by weight

def any_weights(rng):
    return rng.choice([[1, 1, rng.randint(2, 8)], [rng.randint(1, 8) for _ in range(3)], [rng.choice([1, 2, 4, 8]) for _ in range(3)]])


def weighed_plan(rng):
    """A small plan with faults, where two dimensions weigh differently, and the same with weights of 1, in version 1."""
    while True:
        extents, wrap = vectors.random_shape(rng, 18)
        faults, weights = vectors.random_faults(rng, ref.Shape(extents, wrap), 2), any_weights(rng)
        if 2 < len(faults) < 12 and len({weight for weight, extent in zip(weights, extents) if extent > 1}) > 1:
            return plan_of(extents, wrap, *faults, weights=weights), plan_of(extents, wrap, *faults)


def decided(plan, hops, source, destination):
    """How weights decide the pair's route: 'other' than by hops, 'tied' with a clear choice of as much weight and other hops, or None."""
    number, route = ref.pair_in(STAGE, plan, source, destination)
    if number:
        return None
    if route.legs != ref.pair_in(STAGE, hops, source, destination)[1].legs:
        return 'other'
    clear = ref.choices(STAGE, plan.shape, source, destination, lambda start, leg: ref.clear(STAGE, plan, start, leg))
    tied = {ref.length_of(hops, source, legs) for legs in clear if ref.length_of(plan, source, legs) == route.length}
    return 'tied' if len(tied) > 1 else None


def hard_pairs(rng, plan):
    """A few pairs whose direct adaptive leg is not clear."""
    pairs = itertools.permutations(sorted(set(range(plan.nodes)) - plan.dead), 2)
    hard = [pair for pair in pairs if not ref.clear(STAGE, plan, pair[0], (pair[1], 'A'))]
    return rng.sample(hard, min(3, len(hard)))


def by_weight():
    """Pairs whose route weights decide, those whose route is another than by hops also without weights."""
    rng = random.Random('weight/%s' % SEED)
    left = {'other': OTHER, 'tied': TIED, None: 0}
    while any(left.values()):
        weighed, plain = weighed_plan(rng)
        plan, hops = (ref.read_plan(STAGE, sheet)[1] for sheet in (weighed, plain))
        for source, destination in hard_pairs(rng, plan):
            sort = decided(plan, hops, source, destination)
            if not left[sort]:
                continue
            left[sort] -= 1
            yield line('pair', plan=weighed, source=source, destination=destination)
            if sort == 'other':
                yield line('pair', plan=plain, source=source, destination=destination)
                yield from runs_on(weighed, source, destination)


# ---- Long ways

def direct_lengths():
    """Direct routes of 255, 256, 257, 352 and 360 from node 0 of the largest mesh."""
    for weights, destination in ([8, 8, 1], 4095), ([8, 8, 8], 767), ([5, 8, 8], 3829), ([8, 8, 8], 4094), ([8, 8, 8], 4095):
        yield line('pair', plan=plan_of([16, 16, 16], 0, weights=weights), source=0, destination=destination)


def longer_choices():
    """Pairs over a dead link with short routes, where other clear choices are longer than 256, or than 512: kept in too few bits these would come first."""
    for extents, dim in ([16, 4, 1], 1), ([16, 1, 4], 2), ([1, 16, 4], 2), ([16, 16, 16], 1), ([16, 16, 16], 2):
        plan, step = plan_of(extents, 0, (0, dim), weights=[8, 8, 8]), (1, extents[0], extents[0] * extents[1])[dim]
        yield line('pair', plan=plan, source=0, destination=step)
        yield line('pair', plan=plan, source=step, destination=0)


def far_vias(extents):
    """Two corridors along edges of a mesh, each left and entered at its ends alone: from node 0 in X, Y and Z to the last node, and from the corner beside that,
    in Y, in X, Y and Z to the end of the first plane's last row. So the one route from the first to that is by these two corners."""
    shape, last = ref.Shape(extents, 0), [extent - 1 for extent in extents]
    corners = [[(0, 0, 0), (last[0], 0, 0), (last[0], last[1], 0), tuple(last)], [(last[0], 0, last[2]), (0, 0, last[2]), (0, last[1], last[2]), (0, last[1], 0)]]
    faults = set()
    for number, places in enumerate(corners):
        nodes = [node for start, end in zip(places, places[1:]) for node in between(shape, start, end)] + [shape.number(*places[-1])]
        inner = nodes[:-1] if number == 0 else nodes[1:]       # the other end is open
        for node in inner:
            for direction in range(6):
                there = shape.neighbour(node, direction)
                if there is not None and not is_next(nodes, node, there):
                    faults.add((node if direction % 2 == 0 else there, direction // 2))
    return sorted(faults)


def between(shape, start, end):
    """The nodes from one corner up to the next, without that."""
    node, to = shape.number(*start), shape.number(*end)
    while node != to:
        yield node
        node = shape.neighbour(node, shape.useful(node, to)[0])


def is_next(nodes, one, other):
    return other in nodes and abs(nodes.index(one) - nodes.index(other)) == 1


def long_ways():
    """Routes by two far corners, and their walks. The other way there is no route."""
    for extents, weights in FAR:
        plan, end = plan_of(extents, 0, *far_vias(extents), weights=weights), extents[0] * (extents[1] - 1)
        yield line('pair', plan=plan, source=0, destination=end)
        yield line('pair', plan=plan, source=end, destination=0)
        route = ref.plan_pair(STAGE, plan, 0, end)[1]
        way = first_way(ref.Shape(extents, 0), ref.new_packet(STAGE, 0, route.legs))
        yield line('run', plan=plan, source=0, destination=end, calls='w%s,w%s,s00' % (way[:40].hex(), way[40:].hex()))


def snake(dims, weights):
    """Three rows of 16, along the first dimension and beside each other in the second, each joined to the next at one end."""
    along, across = dims
    extents = [16 if dim == along else 3 if dim == across else 1 for dim in range(3)]
    shape = ref.Shape(extents, 0)

    def at(place, row):
        return shape.number(*[place if dim == along else row if dim == across else 0 for dim in range(3)])
    faults = [(at(place, row), across) for row in range(2) for place in range(16) if place != (15, 0)[row]]
    return plan_of(extents, 0, *sorted(faults), weights=weights), at


def snakes():
    """Listings and sheets of ways along rows of every pair of dimensions, with lengths of up to three digits."""
    for dims in itertools.permutations(range(3), 2):
        for weights in [8, 8, 8], [1, 2, 8], [8, 1, 1]:
            plan, at = snake(dims, weights)
            yield line('listing', input=ref.two(at(0, 0)) + plan)
            yield line('sheet', plan=plan, source=at(15, 2), room=len(sheet_from(plan, at(15, 2))))
            yield line('pair', plan=plan, source=at(0, 0), destination=at(0, 2))


def large():
    """Sheets and listings of more than 64 destinations."""
    for plan, source in ((plan_of([16, 8, 1], 3, (5, 0), (40, 3), (100, 1), weights=[1, 8, 1]), 8), (plan_of([5, 5, 5], 7, (0, 0), (1, 3), (62, 2), weights=[1, 1, 3]), 62),
                               (plan_of([6, 4, 8], 7, (0, 0), (9, 1), (100, 3), (180, 2), weights=[2, 3, 5]), 0), (plan_of([16, 1, 8], 0, (20, 2), (66, 0), (100, 3), weights=[8, 1, 8]), 0)):
        yield line('sheet', plan=plan, source=source, room=len(sheet_from(plan, source)))
    yield line('listing', input=ref.two(0) + plan_of([16, 5, 4], 0, (0, 0), (200, 3), weights=[8, 8, 8]))
    yield line('listing', input=ref.two(99) + plan_of([8, 6, 5], 7, (99, 2), (100, 0), (120, 3), weights=[1, 4, 8]))


LACKING = (edges, together, sizes, rooms, values, every_call, by_weight, direct_lengths, longer_choices, long_ways, snakes, large)
