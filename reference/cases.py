#!/usr/bin/env python3
"""cases.py [--check] [--long FOLDER]: the stored test cases of the program conform, answered by the reference planner.

Writes crates/conform/stdin and crates/conform/stdout. What each readable line answers is computed here; conform is not asked.
--check        write nothing, and fail where the stored files are not what would be written
--long FOLDER  also write long.in and long.out there: lines about as long as conform's line buffer, too long for the stored files
"""
import argparse
import multiprocessing
import os
import random
import sys

sys.dont_write_bytecode = True
import answers
import backs
import conversions
import reference as ref
import ties
import vectors
import vias
import weighed
from answers import STAGE
from lines import W, declined_plans, line, of_version, plan_of, plan_write, routes_of, sheet_from

SEED = '1'
VECTORS = {'step': 400, 'walk': 400, 'plan': 500, 'planback': 300, 'pair': 500, 'sheet': 200, 'lookup': 350, 'back': 200, 'convert': 150, 'run': 300,
           'sheetrun': 250, 'listing': 150, 'takeback': 500, 'runback': 250}
PLANS = 80                     # plan sheets for dead, masks, weights and planwrite
LARGE = 36                     # machines of more nodes than the vectors plan on
LINE_BYTES = 131072            # conform's line buffer


# ---- What the documents say: (line, answer)

W_ROUTES = bytes.fromhex('03003c00000008 00012000030002 00021000030000 00051000040000 00061000030000 00091000040000 000a1000030000 000d10000c0000 000e1000030000')
W_SECOND = bytes.fromhex('02002c00000008 0001030003 0002020003 0005020004 0006020003 0009020004 000a020003 000d02000c 000e020003')
W_OLD = bytes.fromhex('01002c00000008 0001030004 0002020003 0005020004 0006020003 0009020004 000a020003 000d02000c 000e020003')
W_LISTING = ('0 0 - - 0 / 1 32 3 2 3 / 2 16 3 - 2 / 3 0 - - 1 / 4 0 - - 1 / 5 16 4 - 2 / 6 16 3 - 3 / 7 0 - - 2 / 8 0 - - 2 / 9 16 4 - 3 / 10 16 3 - 4 / '
             '11 0 - - 3 / 12 0 - - 1 / 13 16 12 - 2 / 14 16 3 - 3 / 15 0 - - 2')


def worked():
    """The documents' worked lines, in their own words."""
    yield from worked_pairs()
    yield from worked_rows()
    yield from worked_conversions()
    yield from worked_backs()
    yield line('listing', input=ref.two(0) + W), 'text=' + vectors.listing_text('0 16 1\n' + W_LISTING.replace(' / ', '\n') + '\n')
    for room, answer in ((63, 'number=0 size=63 out=' + W_ROUTES.hex()), (62, 'number=12 size=0 out=' + 62 * 'ee'),
                         (66, 'number=0 size=63 out=' + W_ROUTES.hex() + 'eeeeee'), (0, 'number=12 size=0 out=-')):
        yield line('sheet', plan=W, source=0, room=room), answer
        yield line('back', plan=W, sheet=W_ROUTES, room=room), answer
    for destination, answer in ((1, 'part=7:14 number=0 source=0 legs=3:A,2:A,1:A'), (14, 'part=56:63 number=0 source=0 legs=3:A,14:A'),
                                (3, 'part=0:0 number=0 source=0 legs=3:A'), (0, 'part=0:0 number=0 source=0 legs=0:A'), (16, 'part=0:0 number=9')):
        yield line('lookup', plan=W, sheet=W_ROUTES, destination=destination), answer
    yield from worked_second()


def worked_second():
    """W's sheet of version 2, of routes of up to two legs: read, and written again as version 3 with the same routes."""
    again = W_ROUTES.hex().replace('00012000030002', '00011200030000')
    for room, answer in ((63, 'number=0 size=63 out=' + again), (62, 'number=12 size=0 out=' + 62 * 'ee'), (47, 'number=12 size=0 out=' + 47 * 'ee'),
                         (64, 'number=0 size=63 out=' + again + 'ee')):
        yield line('back', plan=W, sheet=W_SECOND, room=room), answer
    for destination, answer in ((1, 'part=7:12 number=0 source=0 legs=3:A,1:D'), (14, 'part=42:47 number=0 source=0 legs=3:A,14:A'), (3, 'part=0:0 number=0 source=0 legs=3:A')):
        yield line('lookup', plan=W, sheet=W_SECOND, destination=destination), answer


def worked_pairs():
    def of(plan, source, destination, answer):
        return line('pair', plan=plan, source=source, destination=destination), answer

    def direct(node, length):
        return 'number=0 legs=%d:A length=%d' % (node, length)
    yield of(plan_of([4, 1, 1], 1, (0, 0)), 0, 1, 'number=0 legs=3:A,2:A,1:A length=3')
    yield of(plan_of([5, 1, 1], 1, (0, 0)), 0, 1, 'number=0 legs=3:A,1:A length=4')
    yield of(plan_of([2, 1, 1], 0, (0, 0)), 0, 1, 'number=11')
    yield of(plan_of([1, 1, 1], 0, (0, 3)), 0, 0, 'number=10')
    yield of(plan_of([16, 1, 1], 0), 0, 15, direct(15, 15))
    yield of(plan_of([17, 1, 1], 0), 0, 15, 'number=5')
    yield of(plan_of([3, 1, 1], 1), 0, 2, direct(2, 1))
    yield of(plan_of([2, 1, 1], 1), 0, 1, 'number=6')
    cube = [(n, k) for n in range(100) for k in range(3)]
    for source, destination in (4095, 4094), (2184, 2184):
        for count in 255, 256:
            yield of(plan_of([16, 16, 16], 7, *cube[:count]), source, destination, direct(destination, source - destination))
        yield of(plan_of([16, 16, 16], 7, *cube[:257]), source, destination, 'number=3')
    yield of(W, 15, 0, direct(0, 2))
    yield of(W, 0, 16, 'number=9')
    yield of(W, 16, 0, 'number=9')


def worked_rows():
    """The routes from W's node 0, one by one."""
    for row in W_LISTING.split(' / '):
        node, kind, *vias, length = row.split()
        assert kind in ('0', '16', '32')                       # all legs adaptive
        targets = [via for via in vias if via != '-'] + [node]
        yield line('pair', plan=W, source=0, destination=node), 'number=0 legs=%s length=%s' % (','.join(target + ':A' for target in targets), length)


def worked_conversions():
    """Document 01's sheet of W, of version 1, and that of its ring of 4, where 0 to 1 had no clear choice."""
    new = '02' + W_OLD.hex()[2:]
    for room, answer in (47, 'number=0 size=47 out=' + new), (46, 'number=12 size=0 out=' + 46 * 'ee'), (48, 'number=0 size=47 out=' + new + 'ee'):
        yield line('convert', plan=W, sheet=W_OLD, room=room), answer
    for sheet in W_ROUTES, W_SECOND:
        yield line('convert', plan=W, sheet=sheet, room=63), 'number=13 size=0 out=' + 63 * 'ee'
    yield line('lost', plan=W, sheet=W_OLD), 'number=0 entry=0'
    yield line('lookup', plan=W, sheet=W_OLD, destination=1), 'part=0:0 number=13'
    yield line('lookup', plan=W, sheet=bytes.fromhex(new), destination=1), 'part=7:12 number=0 source=0 legs=4:A,1:D'
    ring, routes = plan_of([4, 1, 1], 1, (0, 0)), of_version(1, routes_of(0, (1, 11, 0), (2, 2, 3)))
    yield line('convert', plan=ring, sheet=routes, room=17), 'number=17 size=0 out=' + 17 * 'ee'
    yield line('lost', plan=ring, sheet=routes), 'number=17 entry=0'


def worked_backs():
    """Hops taken back on W's route from 0 to 1, which goes minus by 3 and 2; past a packet's source; on half a ring from an even and an odd place."""
    def of(shape, legs, *cases):
        for packet, direction, number, before in cases:
            before = '%s;%s' % (before or packet, legs)
            yield line('takeback', **shape, packet='%s;%s' % (packet, legs), direction=direction), 'number=%d packet=%s' % (number, before)

    square, ring, row = ({'extents': extents, 'wrap': wrap} for extents, wrap in (('4,4,1', 3), ('4,1,1', 1), ('5,1,1', 0)))
    yield from of(square, '3:A,2:A,1:A', ('0;3;1', 1, 0, '0;0;0'), ('0;2;2', 1, 0, '0;3;1'), ('0;1;3', 1, 0, '0;2;2'), ('0;0;0', 1, 18, None), ('0;3;0', 1, 18, None),
                  ('0;3;1', 0, 18, None), ('0;3;1', 6, 18, None), ('0;3;1', 255, 18, None), ('0;1;2', 1, 18, None), ('0;1;4', 1, 14, None), ('16;3;1', 1, 14, None))
    yield from of(square, '3:A,3:D,2:A', ('0;3;2', 1, 0, '0;0;0'), ('0;3;1', 1, 18, None), ('0;2;3', 1, 0, '0;3;2'))
    yield from of(square, '0:A,1:A', ('0;1;2', 0, 0, '0;0;1'), ('0;0;1', 0, 18, None))
    yield from of(row, '1:A,4:A', ('2;2;1', 0, 0, '2;1;1'), ('2;3;1', 0, 0, '2;2;1'), ('2;2;0', 0, 18, None), ('2;1;1', 1, 0, '2;2;0'))
    yield from of(ring, '2:D', ('0;1;0', 0, 0, '0;0;0'), ('0;2;1', 0, 0, '0;1;0'), ('0;3;0', 1, 18, None), ('0;2;1', 1, 18, None))
    yield from of(ring, '3:D', ('1;0;0', 1, 0, '1;1;0'), ('1;3;1', 1, 0, '1;0;0'), ('1;2;0', 0, 18, None), ('1;3;1', 0, 18, None))
    yield from of(ring, '2:A', ('0;1;0', 0, 0, '0;0;0'), ('0;3;0', 1, 0, '0;0;0'), ('0;2;1', 0, 0, '0;1;0'), ('0;2;1', 1, 0, '0;3;0'))
    for destination, calls, answer in ((1, 's01,b01,w010101,b01,b01,b01,b01', 'legs=3:A,2:A,1:A answers=0,0,3+arrived,0,0,0,18 packet=0;0;0;3:A,2:A,1:A'),
                                       (0, 'b00', 'legs=0:A answers=18 packet=0;0;1;0:A'), (16, 'b00', 'number=9')):
        yield line('runback', plan=W, source=0, destination=destination, calls=calls), answer


# ---- What the vectors lack: lines, answered by the reference

def many_legs():
    """More legs than a packet can hold, where the shape is refused too and where it is not."""
    for legs in '2:A,3:D,4:A,5:A', '1:A,3:D,1:A,65535:D', '1:A,1:A,1:A,1:A':
        for extents, wrap in ('3,3,3', 0), ('3,3,3', 8), ('0,3,3', 0):
            for mark in 0, 4, 5:
                packet = '1;1;%d;%s' % (mark, legs)
                yield line('step', extents=extents, wrap=wrap, packet=packet, direction=0)
                yield line('walk', extents=extents, wrap=wrap, packet=packet, run='00')
                yield line('takeback', extents=extents, wrap=wrap, packet=packet, direction=0)


def plan_cases():
    """What is dead, the weights, and sheets written from a plan's value."""
    for i in range(PLANS):
        rng = random.Random('plan/%s/%d' % (SEED, i))
        sheet = vectors.plan_for_reading(rng, STAGE)
        number, plan = ref.read_plan(STAGE, sheet)
        lost = [] if number else sorted(plan.lost)
        node, direction = rng.choice(lost + [(vectors.a_node(rng, vectors.nodes_in(sheet)), rng.randint(0, 6))] * (1 + len(lost)))
        yield line('dead', plan=sheet, node=node, direction=direction)
        if len(sheet) < 100 and vectors.small_enough(sheet, 256):
            yield line('masks', plan=sheet)
        yield line('weights', plan=sheet)
        if not number:
            yield value_written(rng, plan)
    for count in 255, 256, 257, 300:
        yield plan_write(1, [16, 16, 16], 7, [1, 1, 1], [(n, 0) for n in range(count)], 9 + 3 * 256)
    yield plan_write(1, [17, 1, 1], 0, [1, 1, 1], [], 9)
    yield plan_write(1, [2, 1, 1], 1, [1, 1, 1], [], 9)


def links():
    """The link that leaves the last place of each dimension, open, wrapped and of extent 1: at the first fault and behind one that exists."""
    for dim in range(3):
        for extents, wrap in ([4, 4, 4], 0), ([4, 4, 4], 1 << dim), ([4, 4, 4], 7 ^ 1 << dim), ([1 if d == dim else 3 for d in range(3)], 0):
            last = extents[0] * extents[1] * extents[2] - 1
            yield line('plan', plan=plan_of(extents, wrap, (last, dim)))
            yield line('plan', plan=plan_of(extents, wrap, (0, 3), (last, dim)))
            yield line('planback', plan=plan_of(extents, wrap, (last, dim)), room=12)


def value_written(rng, plan):
    """A plan's value, sometimes with faults out of order or one that does not exist."""
    faults = list(plan.faults)
    if rng.random() < 0.3:
        rng.shuffle(faults)
    if rng.random() < 0.2:
        faults.append((rng.randint(0, 70), rng.randint(0, 5)))
    room = max(0, (9 if plan.version == 1 else 12) + 3 * len(faults) + rng.choice([0, 0, 2, -1]))
    return plan_write(plan.version, plan.shape.extents, plan.shape.wrap, plan.weights, faults, room)


def refusals():
    """Each call that takes a plan, declined by each check of it, where a later check would decline too; and runs that are refused."""
    for plan in *declined_plans(), *weighed.declined_plans():
        for source, destination in (65535, 0), (0, 65535):
            yield line('pair', plan=plan, source=source, destination=destination)
            yield line('run', plan=plan, source=source, destination=destination, calls='s00')
            yield line('sheetrun', plan=plan, source=source, destination=destination, calls='s00')
        yield line('sheet', plan=plan, source=65535, room=0)
        yield line('listing', input=ref.two(65535) + plan)
        yield line('lookup', plan=plan, sheet=W_ROUTES[:-1], destination=65535)
        yield line('back', plan=plan, sheet=W_ROUTES[:-1], room=0)
    for plan, source, destination in ((W, 0, 16), (W, 16, 0), (plan_of([2, 1, 1], 0, (0, 0)), 0, 1), (plan_of([4, 1, 1], 1, (1, 3)), 0, 1)):
        yield line('run', plan=plan, source=source, destination=destination, calls='s00,w')
    for size in 0, 1, 2, 10:
        yield line('listing', input=(ref.two(0) + W)[:size])


def alike():
    """Destinations that share a byte with one that is listed."""
    plan, routes = plan_of([16, 16, 2], 3), routes_of(2, (5, 1, 0), (300, 2, 301), (511, 11, 0))
    for destination in 5, 261, 256, 300, 44, 301, 511, 255:
        yield line('lookup', plan=plan, sheet=routes, destination=destination)


def just_outside():
    """Route sheets whose source, destination or via is the first number that is no node, and sheets and listings from there."""
    for routes in routes_of(16, (5, 1, 0)), routes_of(0, (16, 1, 0)), routes_of(0, (5, 2, 16)):
        yield line('lookup', plan=W, sheet=routes, destination=5)
        yield line('back', plan=W, sheet=routes, room=14)
    for plan in W, plan_of([4, 4, 1], 3, (15, 3)):
        yield line('sheet', plan=plan, source=16, room=7)
        yield line('sheetrun', plan=plan, source=16, destination=0, calls='-')
        yield line('listing', input=ref.two(16) + plan)


def large_machine(rng, weights):
    """A plan of 1,152 to 4,096 nodes and two of its nodes, with faults on a way between the two, and sometimes as many elsewhere as can be."""
    extents = rng.choice([[16, 16, 16], [16, 16, 9], [16, 15, 16], [8, 16, 9], [15, 16, 8]])
    rng.shuffle(extents)
    shape = ref.Shape(extents, vectors.random_wrap(rng, extents, 0.6))
    source, destination = ends_apart(rng, shape)
    faults = set(any_faults(rng, shape, 256) if rng.random() < 0.3 else [])
    for _ in range(rng.choice([2, 2, 3, 4])):
        faults |= faults_between(rng, shape, source, destination)
    faults = sorted(faults - {(source, 3), (destination, 3)})[:256]
    return plan_of(extents, shape.wrap, *faults, weights=weights), shape, source, destination


def ends_apart(rng, shape):
    """Two nodes so far from each other that their route is seldom direct, and so near that the reference is quick."""
    while True:
        source = rng.randrange(shape.nodes)
        destination = vectors.some_node(rng, shape, source)
        if 5 < shape.hops(source, destination) < 22:
            return source, destination


def any_faults(rng, shape, count):
    faults = [(rng.randrange(shape.nodes), rng.choice([0, 0, 1, 1, 2, 2, 3])) for _ in range(count)]
    return [(node, kind) for node, kind in faults if ref.fault_exists(shape, 1, node, kind, False)]


def faults_between(rng, shape, source, destination):
    faults, node = set(), source
    while node != destination:
        direction = rng.choice(shape.useful(node, destination))
        there = shape.neighbour(node, direction)
        if rng.random() < 0.2:
            faults.add((node if direction % 2 == 0 else there, direction // 2))
        if rng.random() < 0.05:
            faults.add((there, 3))
        node = there
    return faults


def large_pairs():
    """Pairs and runs on machines of more than 1,024 nodes."""
    for i in range(LARGE):
        rng = random.Random('large/%s/%d' % (SEED, i))
        plan, shape, source, destination = large_machine(rng, vectors.random_weights(rng) if i % 2 else None)
        yield line('pair', plan=plan, source=source, destination=destination)
        number, route = ref.plan_pair(STAGE, plan, source, destination)
        run = b'' if number else vectors.whole_run(rng, STAGE, shape, ref.new_packet(STAGE, source, route.legs))
        yield line('run', plan=plan, source=source, destination=destination, calls='w%s,w,s00' % run.hex())


def large_sheets():
    """Sheets and a listing of more than 48 destinations."""
    for plan, source in ((plan_of([16, 8, 1], 3, (5, 0), (40, 3), (100, 1)), 8), (plan_of([16, 1, 8], 0, (20, 2), (66, 0), (100, 3)), 0),
                         (plan_of([5, 5, 5], 7, (0, 0), (1, 3), (62, 2)), 62), (plan_of([2, 16, 4], 6, (31, 1), (64, 0), (70, 3)), 33),
                         (plan_of([8, 8, 8], 7, (0, 0), (9, 1), (100, 3)), 0), (plan_of([16, 16, 2], 3, (0, 0), (17, 1), (300, 3)), 1),
                         (plan_of([7, 9, 8], 2, (0, 0), (17, 1), (300, 3)), 1), (plan_of([16, 16, 1], 3, *[(n, 0) for n in range(0, 256, 5)]), 1)):
        yield line('sheet', plan=plan, source=source, room=len(sheet_from(plan, source)))
    yield line('listing', input=ref.two(1000) + plan_of([16, 9, 8], 0, (999, 0)))


LACKING = ((many_legs, links, plan_cases, refusals, alike, just_outside, large_pairs, large_sheets) + weighed.LACKING + ties.LACKING + conversions.LACKING + vias.LACKING
           + backs.LACKING)


# ---- Lines that no call can be made of

def unreadable():
    shape, packet, way, run = 'extents=3,3,3 wrap=0', 'packet=0;0;0;7:A', 'direction=0', 'run=00'
    yield ''
    yield ' '
    yield 'step'
    yield 'walk'
    yield 'takeback'
    yield 'takeBack %s %s %s' % (shape, packet, way)
    yield 'jump %s %s %s' % (shape, packet, way)
    yield 'Step %s %s %s' % (shape, packet, way)
    yield 'steps %s %s %s' % (shape, packet, way)
    yield ' step %s %s %s' % (shape, packet, way)
    yield '%s %s %s' % (shape, packet, way)
    for lacking in ('wrap=0 %s %s' % (packet, way), 'extents=3,3,3 %s %s' % (packet, way), '%s %s' % (shape, way),
                    '%s %s' % (shape, packet), '%s %s %s' % (shape, packet, run)):
        yield 'step ' + lacking
        yield 'takeback ' + lacking
    yield 'walk %s %s %s' % (shape, packet, way)
    for extents in ('', '3', '3,3', '3,3,3,3', '3,3,3,', ',3,3', '3,,3', '3,3,256', '3;3;3', 'a,3,3', '-1,3,3'):
        yield 'step extents=%s wrap=0 %s %s' % (extents, packet, way)
    for wrap in ('', '256', 'x', '1x', '+1', '-1', '7,', '18446744073709551616', '1' * 60):
        yield 'step extents=3,3,3 wrap=%s %s %s' % (wrap, packet, way)
    for text in bad_packets():
        yield 'step %s packet=%s %s' % (shape, text, way)
        yield 'walk %s packet=%s %s' % (shape, text, run)
        yield 'takeback %s packet=%s %s' % (shape, text, way)
    for direction in ('', '256', '-1', '0x1', '00a'):
        yield 'step %s %s direction=%s' % (shape, packet, direction)
        yield 'takeback %s %s direction=%s' % (shape, packet, direction)
    for bad in ('', '0', '000', '0g', 'g0', '0G', '0A', '--', '-00', '00-', '0 0'):
        yield 'walk %s %s run=%s' % (shape, packet, bad)


def bad_packets():
    yield from ('', '0', ';', ';;;', '0;7:A', '0;0;7:A', '0;0;0', '0;0;0,7:A', '0,0,0;7:A', '0;0;0;0;7:A', ';0;0;7:A', '0;;0;7:A', '0;0;;7:A')
    for bad in '65536', '-1', 'x', '0:A':
        yield bad + ';0;0;7:A'
        yield '0;%s;0;7:A' % bad
        yield '0;0;%s;7:A' % bad
    yield '0;0;256;7:A'
    for legs in ('7', '7:', '7:B', '7:a', '7:AA', ':A', '7:A,', ',7:A', '7:A,,3:D', '7:A;3:D', '65536:A', '7:A,3:D,5:A,9:x', '7:A,3:D,5:A,65536:D'):
        yield '0;0;0;' + legs


def unreadable_plans():
    good = 'plan=' + W.hex()
    for operation in 'plan', 'masks', 'weights':
        yield operation
        yield operation + ' plan='
        yield operation + ' plan=0'
        yield operation + ' plan=0x'
    for rest in '', 'room=', 'room=1025', 'room=-1', 'room=x':
        yield 'planback %s %s' % (good, rest)
    yield 'planback room=12'
    for faults in '', '0', '0:', ':0', '0:0,', ',0:0', '0:0,,1:0', '0:256', '65536:0', '0:0;1:0':
        yield 'planwrite version=2 extents=4,4,1 wrap=3 weights=1,1,1 faults=%s room=20' % faults
    value = {'version': '2', 'extents': '4,4,1', 'wrap': '3', 'weights': '1,1,1', 'faults': '-', 'room': '20'}
    for field in value:
        yield 'planwrite ' + answers.text({key: text for key, text in value.items() if key != field})
    for field, bad in (('version', ''), ('version', '256'), ('version', '1,2'), ('extents', '4,4'), ('weights', ''), ('weights', '1,1'), ('weights', '1,1,256'), ('weights', '1,1,1,1')):
        yield 'planwrite ' + answers.text({**value, field: bad})
    yield 'dead %s node=0' % good
    yield 'dead %s direction=0' % good
    yield 'dead %s node=65536 direction=0' % good
    yield 'dead %s node=0 direction=256' % good
    yield 'dead node=0 direction=0'


def unreadable_planning():
    plan, routes = 'plan=' + W.hex(), 'sheet=' + W_ROUTES.hex()
    ends = 'source=0 destination=1'
    for operation in 'pair', 'sheet', 'run', 'runback', 'sheetrun', 'lookup', 'back', 'convert', 'lost':
        yield operation
        yield '%s %s' % (operation, plan)
        yield '%s plan=0 %s %s room=50 calls=-' % (operation, ends, routes)
    for bad in 'source=0', 'destination=1', 'source=65536 destination=0', 'source=0 destination=', 'source=-1 destination=0':
        for operation in 'pair', 'run', 'runback', 'sheetrun':
            yield '%s %s %s calls=-' % (operation, plan, bad)
    for bad in 'source=0', 'source=0 room=', 'source=0 room=28737', 'source=x room=50', 'room=50':
        yield 'sheet %s %s' % (plan, bad)
    for bad in '', 'destination=x', 'destination=65536':
        yield 'lookup %s %s %s' % (plan, routes, bad)
    yield 'lookup %s sheet=0 destination=1' % plan
    for operation in 'back', 'convert':
        for bad in '', 'room=', 'room=28737', 'room=4x':
            yield '%s %s %s %s' % (operation, plan, routes, bad)
    for operation in 'back', 'convert', 'lost':
        yield '%s %s sheet= room=50' % (operation, plan)
    for operation in 'convert', 'lost':
        yield '%s %s room=50' % (operation, routes)
    for calls in '', 's', 's0', 's0000', 's0g', 'w0', 'x00', '00', ',', 's02,', ',s02', 's02,,s00', 's02;s00', 'S02', 's02,w00,x', 'w' + 257 * '00':
        for operation in 'run', 'runback', 'sheetrun':
            yield '%s %s %s calls=%s' % (operation, plan, ends, calls)
    for calls in 'b', 'b0', 'b001', 'b0101', 'b0g', 'b-', 'B01', '-b01', 'b01,', ',b01', 's01,,b01', 's01;b01', 's01b01', 's01,b01,b', 'w01,b':
        yield 'runback %s %s calls=%s' % (plan, ends, calls)
    for operation in 'run', 'runback':
        yield '%s %s %s' % (operation, plan, ends)
    for bad in '', 'input=', 'input=0', 'input=' + 1027 * '00':
        yield 'listing ' + bad


def long():
    """(line, answer): a line fits the buffer together with its newline."""
    def padded(size):
        start = 'walk extents=4,4,4 wrap=7 packet=0;0;0;63:A run='
        return start + '0' * (size - len(start))
    yield answered(padded(LINE_BYTES - 2))
    for size in LINE_BYTES - 1, LINE_BYTES, LINE_BYTES + 1, 3 * LINE_BYTES:
        yield padded(size), 'unreadable'
        yield answered('step extents=3,3,3 wrap=7 packet=0;0;0;13:A direction=4')
    yield padded(2 * LINE_BYTES), 'unreadable'
    cube = plan_of([16, 16, 16], 7)
    for version in 2, 3:
        full = vectors.random_route_sheet(random.Random(SEED), STAGE, ref.Shape([16, 16, 16], 7), version, 4096)
        for room in 28671, 28672, 28736:
            yield answered(line('back', plan=cube, sheet=full, room=room))
        for destination in 0, ref.word(full, 3), 2048, 4095, 4096:
            yield answered(line('lookup', plan=cube, sheet=full, destination=destination))
    for at, room in (4095, 20481), (4095, 28736), (4094, 0), (4094, 20482), (0, 20482):
        yield answered(line('convert', plan=cube, sheet=conversions.full_sheet(at), room=room))
    for operation in 'convert', 'lost':
        yield answered(line(operation, plan=cube, sheet=bytes(28736), **{'room': 0} if operation == 'convert' else {}))
        yield line(operation, plan=cube, sheet=bytes(28737), room=0), 'unreadable'


# ---- The files

def answered(case):
    return case, answers.answer(case)


def vectors_of(operation):
    return [(line(name, **given), answers.text(wanted)) for name, given, wanted in vectors.make(STAGE, SEED, VECTORS[operation], operation)]


def lacked_by(group):
    return [answered(case) for case in LACKING[group]()]


def cases():
    """(line, answer): the line may go on behind what is given. The reference's part is shared among the processors."""
    with multiprocessing.Pool() as pool:
        lacked = pool.map_async(lacked_by, range(len(LACKING)), chunksize=1)
        made = pool.map_async(vectors_of, VECTORS, chunksize=1)
        for part in made.get():
            yield from part
        yield from worked()
        for part in lacked.get():
            yield from part
    for bad in unreadable, unreadable_plans, unreadable_planning:
        for case in bad():
            yield case, 'unreadable'
    yield from loose()
    yield answered('plan plan=-')


def loose():
    """Lines with their answer behind them, with fields in another order, and with a field that no operation has."""
    case, answer = answered('step extents=3,3,3 wrap=7 packet=0;0;0;13:A direction=4')
    yield case + ' => number=99 packet=', answer
    yield 'jump a=b => c=d', 'unreadable'
    yield 'step direction=4 packet=0;0;0;13:A wrap=7 note=none extents=3,3,3', answer


def texts(lines):
    """What is read, the last line without a newline, and what must be written."""
    lines = list(lines)
    given = '\n'.join(line for line, _ in lines)
    wanted = ''.join('%s => %s\n' % (line.split(' => ')[0][:LINE_BYTES], answer) for line, answer in lines)
    return given, wanted


def write(path, text):
    with open(path, 'w') as f:
        f.write(text)


def main():
    parser = argparse.ArgumentParser(description=__doc__, formatter_class=argparse.RawDescriptionHelpFormatter)
    parser.add_argument('--check', action='store_true')
    parser.add_argument('--long')
    options = parser.parse_args()
    crate = os.path.join(os.path.dirname(os.path.abspath(__file__)), '..', 'crates', 'conform')
    for name, text in zip(('stdin', 'stdout'), texts(cases())):
        path = os.path.join(crate, name)
        if not options.check:
            write(path, text)
        elif open(path).read() != text:
            sys.exit('cases.py: crates/conform/%s is not what the reference says' % name)
    if options.long:
        for name, text in zip(('long.in', 'long.out'), texts(long())):
            write(os.path.join(options.long, name), text)


if __name__ == '__main__':
    main()
