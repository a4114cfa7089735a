"""What the vectors lack of taking a hop back, as lines: packets on every walk of a route and off it, half rings to both sides, empty legs and equal targets,
routes that pass their source again, marks of every sort, the order of the checks, and lists of calls on planned routes."""
import itertools
import random

import reference as ref
import ties
import vectors
import vias
from answers import STAGE
from lines import W, at_source, first_way, line, plan_of, step, take_back, walk

SEED = '1'
MOST = 1500                    # packets that the adaptive legs of a long route reach
OPEN, CLOSED = 0, 7            # the wrap byte
BEYOND = 6, 7, 8, 128, 255     # bytes that are no direction

# Small machines, each with a source and a route: extents, wrap, source, legs.
SMALL = (
    ([4, 1, 1], 1, 0, ((2, 'A'),)),
    ([4, 1, 1], 1, 1, ((3, 'D'),)),
    ([1, 4, 1], 2, 0, ((1, 'A'), (3, 'D'))),           # from 1 minus, past the source
    ([1, 1, 3], 0, 1, ((0, 'D'), (2, 'A'))),
    ([2, 2, 1], 0, 0, ((3, 'A'), (0, 'D'))),
    ([1, 2, 2], 0, 3, ((0, 'D'), (0, 'A'), (3, 'A'))),
    ([3, 1, 1], 1, 2, ((2, 'A'), (0, 'D'), (1, 'A'))),
)


# ---- Hops, ways and packets

def hops_of(shape, packet, way):
    """The hops of a way: (packet before, direction, packet after)."""
    for direction in way:
        after = ref.hop(shape, packet, direction)
        yield packet, direction, after
        packet = after


def any_way(rng, shape, packet):
    """Allowed directions, chosen at random, until the packet has arrived."""
    way = []
    while ref.directions(STAGE, shape, packet):
        way.append(rng.choice(ref.directions(STAGE, shape, packet)))
        packet = ref.hop(shape, packet, way[-1])
    return way


def undone(shape, before, direction, after):
    """The hop taken back, which gives the packet before it."""
    assert ref.take_back(STAGE, shape.extents, shape.wrap, after, direction) == (0, before)
    return take_back(shape, after, direction)


def in_each(shape, packet, directions=range(6)):
    for direction in directions:
        yield take_back(shape, packet, direction)


def every_call(shape, packet, direction):
    """Taken back, and the step and the walk in that direction."""
    yield take_back(shape, packet, direction)
    yield step(shape, packet, direction)
    yield walk(shape, packet, [direction])


def on_leg(packet, leg, node):
    """The packet at that node, with its mark on the leg, or just past it at the leg's target."""
    return packet._replace(node=node, mark=leg + (node == packet.legs[leg][0]))


def along(dim, extent, others=1):
    return [extent if d == dim else others for d in range(3)]


# ---- Half rings

def half_rings():
    """Half a ring as a route's one leg, from an even place and from an odd one: at the other places of the ring, on the walk's side of it and on the other."""
    rng = random.Random('half/%s' % SEED)
    for ring, dim, mode in itertools.product(ties.RINGS, range(3), 'AD'):
        for place in ties.places(rng, ring):
            shape, source = ties.on_ring(rng, dim, ring, place)
            packet = ties.one_leg(shape, source, mode, dim)
            for by in range(1, ring) if ring < 16 else (1, 2, 7, 8, 9, 14, 15):
                yield from in_each(shape, on_leg(packet, 0, ties.moved(shape, source, dim, by)), (2 * dim, 2 * dim + 1))


def later_halves():
    """Half a ring as the second leg and as the third, which begins at a place of other parity than the route."""
    rng = random.Random('later/%s' % SEED)
    for ring, dim, mode, leg in itertools.product((4, 16), range(3), 'AD', (1, 2)):
        shape, source = ties.on_ring(rng, dim, ring, rng.choice(ties.places(rng, ring)))
        start = ties.moved(shape, source, dim, rng.choice([1, -1]))
        before = [(ties.moved(shape, source, dim, 2), 'A'), (start, rng.choice('AD'))][2 - leg:]
        packet = at_source(source, *before, (ties.half_away(shape, start, dim), mode))
        for by in sorted({1, ring // 2 - 1, ring // 2, ring // 2 + 1, ring - 1}):
            yield from in_each(shape, on_leg(packet, leg, ties.moved(shape, start, dim, by)), (2 * dim, 2 * dim + 1))


def several_halves():
    """Half a ring along each dimension: all six directions at the target, and each hop of a deterministic walk, also to the other side of its ring."""
    rng = random.Random('several/%s' % SEED)
    shape = ref.Shape([4, 4, 6], CLOSED)
    for parities in itertools.product(range(2), repeat=3):
        source = ties.of_parities(rng, shape, parities)
        for mode in 'AD':
            packet = ties.one_leg(shape, source, mode, 0, 1, 2)
            yield from in_each(shape, on_leg(packet, 0, packet.legs[0][0]))
        for before, direction, after in hops_of(shape, packet, first_way(shape, packet)):
            yield undone(shape, before, direction, after)
            yield take_back(shape, on_leg(before, 0, shape.neighbour(before.node, direction ^ 1)), direction ^ 1)


# ---- On a leg's walks and off them

def whole_ways():
    """Three legs of every choice of modes: each hop of a way by its own direction, by the opposite one and by one along another dimension; of long ways the
    hops round the legs' ends."""
    rng = random.Random('ways/%s' % SEED)
    for modes, extents in itertools.product(itertools.product('AD', repeat=3), ([4, 6, 3], [16, 16, 16])):
        shape = ref.Shape(extents, vectors.random_wrap(rng, extents, 0.7))
        source, *targets = rng.sample(range(shape.nodes), 4)
        packet = ref.new_packet(STAGE, source, vectors.quick_legs(shape, source, zip(targets, modes), MOST))
        for before, direction, after in hops_of(shape, packet, any_way(rng, shape, packet)):
            if shape.nodes < 100 or before.mark != after.mark or before.node in (source, *targets):
                yield undone(shape, before, direction, after)
                yield take_back(shape, after, direction ^ 1)
                yield take_back(shape, after, (direction + rng.choice([2, 4])) % 6)


def long_ways():
    """The first hop and the last of each leg of the longest ways."""
    for modes in 'DDD', 'ADD', 'DAD':
        shape, packet, way = vias.longest(modes)
        for i, hop in enumerate(hops_of(shape, packet, way)):
            if i % 45 in (0, 44):
                yield undone(shape, *hop)


def several_walks():
    """Nodes that an adaptive leg comes to by one, two and three directions, its ends, and nodes beside its walks: each of the six directions."""
    for wrap, first in itertools.product((OPEN, CLOSED), ((), ((31, 'D'),))):
        shape = ref.Shape([5, 5, 5], wrap)
        start = shape.number(1, 1, 1)
        packet = at_source(0 if first else start, *first, (shape.number(3, 3, 3), 'A'))
        for at in (2, 2, 2), (2, 1, 1), (1, 3, 2), (3, 2, 3), (3, 3, 3), (1, 1, 1), (4, 2, 2), (2, 2, 0):
            yield from in_each(shape, on_leg(packet, len(first), shape.number(*at)))


def off_the_walk():
    """From each node each hop that lowers the distance, whether or not the leg's walks come by: of a route's first leg, and of its second."""
    ends = ([3, 3, 3], 0, (0, 1, 2), (2, 2, 0)), ([3, 4, 2], 3, (0, 1, 0), (2, 3, 1))
    for (extents, wrap, start, target), leg, mode in itertools.product(ends, range(2), 'AD'):
        shape = ref.Shape(extents, wrap)
        start, target = shape.number(*start), shape.number(*target)
        packet = at_source(shape.nodes - 1, (start, 'A'), (target, mode)) if leg else at_source(start, (target, mode))
        for node in range(shape.nodes):
            for direction in shape.useful(node, target):
                yield take_back(shape, on_leg(packet, leg, shape.neighbour(node, direction)), direction)


def every_packet():
    """Every node and every mark of small machines: taken back in every direction, and steps along the dimensions of more than one place."""
    for extents, wrap, source, legs in SMALL:
        shape = ref.Shape(extents, wrap)
        for node, mark in itertools.product(range(shape.nodes), range(len(legs) + 1)):
            packet = ref.MarkedPacket(source, node, legs, mark)
            yield from in_each(shape, packet, range(7))
            for direction in range(6):
                if extents[direction // 2] > 1:
                    yield step(shape, packet, direction)


def open_ends():
    """Both ends of open and of closed rows along each dimension: the hops that lead there, and those that would come from beyond; and no hop along an extent
    of 1."""
    for dim, (extent, wrap), mode in itertools.product(range(3), ((2, OPEN), (16, OPEN), (3, CLOSED), (16, CLOSED)), 'AD'):
        shape = ref.Shape(along(dim, extent), wrap & 1 << dim)
        last = extent - 1
        for source, target in (0, last), (last, 0):
            packet = at_source(source, (target, mode))
            for node in source, target:
                yield from in_each(shape, on_leg(packet, 0, node), (2 * dim, 2 * dim + 1))
    for dim in range(3):
        shape = ref.Shape(along(dim, 1, 2), OPEN)
        yield from in_each(shape, at_source(0, (3, 'A'))._replace(node=1))


# ---- Empty legs, and routes that pass their source again

def empty_legs():
    """Up to three legs over three nodes, in every order: empty legs in front, in the middle and at the end, two and three equal targets, and ways back to the
    source. The new packet; each hop; at the end every mark."""
    shape = ref.Shape([4, 4, 1], 3)
    for count in 1, 2, 3:
        for i, targets in enumerate(itertools.product((5, 6, 9), repeat=count)):
            packet = ref.new_packet(STAGE, 5, zip(targets, ('ADA', 'DAD', 'AAA', 'DDD')[i % 4]))
            direction, after = 0, packet
            yield take_back(shape, packet, direction)
            for before, direction, after in hops_of(shape, packet, first_way(shape, packet)):
                yield undone(shape, before, direction, after)
            for mark in range(count + 1):
                if mark != after.mark:
                    yield take_back(shape, after._replace(mark=mark), direction)


def past_the_source():
    """A second leg that passes the source, along each dimension: each hop, and at the source every mark and both directions."""
    rng = random.Random('source/%s' % SEED)
    for dim, modes in itertools.product(range(3), itertools.product('AD', repeat=2)):
        extents = along(dim, 7, rng.randint(1, 3))
        shape = ref.Shape(extents, rng.choice([OPEN, 1 << dim]))
        source = ties.moved(shape, 0, dim, 2)
        packet = at_source(source, *zip((ties.moved(shape, source, dim, -1), ties.moved(shape, source, dim, 2)), modes))
        for before, direction, after in hops_of(shape, packet, first_way(shape, packet)):
            yield undone(shape, before, direction, after)
        for mark in range(3):
            yield from in_each(shape, packet._replace(mark=mark), range(2 * dim + (mark == 1), 2 * dim + 2))


def source_again():
    """Routes of up to three legs on larger machines: the hops to the source and from it."""
    for i in range(40):
        rng = random.Random('again/%s/%d' % (SEED, i))
        shape = ref.Shape(*vectors.packet_shape(rng))
        source = rng.randrange(shape.nodes)
        legs = vectors.over_source(rng, STAGE, shape, source)
        packet = ref.new_packet(STAGE, source, vectors.quick_legs(shape, source, legs, 300))
        for before, direction, after in hops_of(shape, packet, any_way(rng, shape, packet)):
            if source in (before.node, after.node):
                yield undone(shape, before, direction, after)


# ---- Marks, directions and checks

def unmoved():
    """New packets: of no leg to three, of a node to itself, and behind empty legs. Every direction."""
    shape = ref.Shape([4, 4, 4], CLOSED)
    for targets in (), (21,), (22,), (21, 22), (22, 21), (22, 23, 21), (21, 21, 22), (21, 21, 21):
        yield from in_each(shape, ref.new_packet(STAGE, 21, zip(targets, 'ADA')), (*range(6), *BEYOND))


def directions():
    """One hop in each direction, and bytes above 5 that are that direction in their lowest bits, or by a remainder."""
    shape = ref.Shape([5, 5, 5], CLOSED)
    for direction, mode in itertools.product(range(6), 'AD'):
        packet = at_source(62, (shape.neighbour(shape.neighbour(62, direction), direction), mode))
        after = ref.hop(shape, packet, direction)
        yield undone(shape, packet, direction, after)
        yield from in_each(shape, after, sorted({direction + more for more in (6, 8, 12, 16, 128, 248)}.union(BEYOND)))


def marks():
    """No leg to five, along a row: at the last two legs' ends every mark up to two past the last leg, and 255."""
    shape = ref.Shape([16, 1, 1], 0)
    for count in range(6):
        packet = at_source(2, *[(3 + i, 'AD'[i % 2]) for i in range(count)])
        for node, mark in itertools.product((1 + count, 2 + count), (*range(count + 3), 255)):
            yield from every_call(shape, packet._replace(node=node, mark=mark), 0)


def outside():
    """The last node and numbers that are no node, in the place of the source, of the present node and of each target, travelled or not."""
    shape = ref.Shape([4, 4, 1], 3)
    for place, node in itertools.product(range(5), (15, 16, 255, 256, 4095, 4096, 65535)):
        source, here, *targets = [node if i == place else good for i, good in enumerate((0, 2, 1, 3, 2))]
        packet = ref.MarkedPacket(source, here, tuple(zip(targets, 'ADA')), 3)
        yield from every_call(shape, packet, 1)
        for mark in range(3):
            yield take_back(shape, packet._replace(mark=mark), 1)


def checks():
    """5 and 6 before 14, and 14 before 18: packets that can be taken back, that are 18, and that are 14 by each thing."""
    legs = (1, 'A'), (3, 'D'), (3, 'A')
    good = ref.MarkedPacket(0, 1, legs, 1)
    others = {'mark': 0}, {'mark': 4}, {'source': 27}, {'node': 27}, {'legs': legs[:2] + ((27, 'A'),)}, {'legs': legs + legs[:1]}
    shapes = (([4, 3, 2], 0), ([3, 3, 3], 7), ([0, 3, 3], 0), ([3, 17, 3], 0), ([3, 3, 255], 0), ([4, 3, 2], 4), ([3, 3, 3], 8), ([3, 3, 3], 128), ([1, 3, 3], 1),
              ([17, 2, 3], 2), ([3, 3, 0], 255))
    for (extents, wrap), other in itertools.product(shapes, ({}, *others)):
        yield from in_each(ref.Shape(extents, wrap), good._replace(**other), (0, 255))


# ---- Lists of calls on planned routes

def steps(way):
    return ['s%02x' % direction for direction in way]


def backs(way):
    return ['b%02x' % direction for direction in way]


def runs_back(plan, source, destination):
    """Lists of calls on the pair's new packet."""
    shape, route = ref.read_plan(STAGE, plan)[1].shape, ref.plan_pair(STAGE, plan, source, destination)[1]
    new = ref.new_packet(STAGE, source, route.legs)
    way = first_way(shape, new)
    for calls in to_the_source(way), hop_by_hop(way), declined(way), by_others(shape, new, way):
        yield line('runback', plan=plan, source=source, destination=destination, calls=','.join(calls) or '-')


def to_the_source(way):
    """The whole way, all of it taken back, one hop more, and the way once more."""
    return ['w' + way.hex(), *backs(way[::-1]), *backs(way[:1] or b'\0'), *steps(way), 's00']


def hop_by_hop(way):
    """Each hop taken back and made again; at the end two hops together."""
    return [call for direction in way for call in (*steps([direction]), *backs([direction]), *steps([direction]))] + backs(way[:-3:-1]) + ['w' + way[-2:].hex()]


def declined(way):
    """Before each hop one that was not made, and at the end each direction that there is not."""
    return [call for before, direction in zip(b'\6' + way, way) for call in (*backs([before ^ 1]), *steps([direction]))] + backs(BEYOND)


def by_others(shape, packet, way):
    """After each hop, where another walk ends at the same packet, the last hop of that one taken back; at the end the rest of a way."""
    calls = []
    for direction in way:
        if direction not in ref.directions(STAGE, shape, packet):
            break
        packet = ref.hop(shape, packet, direction)
        calls += steps([direction])
        others = [d for d in range(6) if d != direction and not ref.take_back(STAGE, shape.extents, shape.wrap, packet, d)[0]]
        for other in others[-1:]:
            packet = ref.take_back(STAGE, shape.extents, shape.wrap, packet, other)[1]
            calls += backs([other])
    return calls + ['w' + first_way(shape, packet).hex()]


def planned():
    """Routes of every kind; pairs that have none; W's routes from 0, that to itself among them; direct routes of many walks."""
    for seeds in vias.PAIRS.values():
        for seed in seeds[:3]:
            plan, source, destination = vias.a_pair(seed)
            if ref.plan_pair(STAGE, plan, source, destination)[0]:
                yield line('runback', plan=plan, source=source, destination=destination, calls='b00')
            else:
                yield from runs_back(plan, source, destination)
    for destination in range(16):
        yield from runs_back(W, 0, destination)
    for extents, wrap, source, destination in ([4, 4, 4], CLOSED, 0, 42), ([5, 4, 3], OPEN, 59, 0), ([3, 5, 6], 4, 7, 68), ([16, 16, 16], CLOSED, 4095, 819):
        yield from runs_back(plan_of(extents, wrap), source, destination)


def planned_large():
    """Routes round rings of 16 on the largest machine."""
    for dim, place, side in (0, 4, 0), (1, 7, 1), (2, 7, 0):
        yield from runs_back(*ties.round_only([16, 16, 16], dim, place, side))


LACKING = (half_rings, later_halves, several_halves, whole_ways, long_ways, several_walks, off_the_walk, every_packet, open_ends, empty_legs, past_the_source,
           source_again, unmoved, directions, marks, outside, checks, planned, planned_large)
