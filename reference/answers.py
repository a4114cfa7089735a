"""The reference planner's answers to lines `op k=v ..`: the operations of vectors.py, and those that only the program conform has:

  planwrite version= extents= wrap= weights= faults= room= => number= size= out=
            a plan sheet written from the plan's value; weights of version 1 are neither judged nor written
  weights   plan= => weights=                        0,0,0 where a check declines the sheet
  dead      plan= node= direction= => node= link=    1 for dead
  masks     plan= => masks=                          a byte a node, with a bit for each direction whose link is dead
  lost      plan= sheet= => number= entry=           the converter's number with room enough; with 17 the first entry that cannot be kept,
                                                     counted from 0, else 0
"""
import functools

import reference as ref
import vectors

STAGE = ref.E6                 # the last change request that has landed
SHEET_BYTES = 28672            # the largest route sheet

ref.LITERAL_NODES = 12         # larger plans are searched by length, with the same answer, since that is quicker

plan_pair = functools.lru_cache(maxsize=None)(ref.plan_pair)


def planned_once(stage, sheet, source, destination, limits=ref.LARGE):
    """A pair of a plan, which several lines ask for, is planned once."""
    return plan_pair(stage, bytes(sheet), source, destination, limits)


ref.plan_pair = planned_once


def raw(text):
    return bytes.fromhex(text.replace('-', ''))


def numbers_in(text):
    return [int(number) for number in text.split(',')]


def legs_in(text):
    pairs = [leg.split(':') for leg in text.split(',') if leg]
    return tuple((int(target), mode) for target, mode in pairs)


def packet_in(text):
    source, node, mark, legs = text.split(';')
    return ref.MarkedPacket(int(source), int(node), legs_in(legs), int(mark))


def calls_in(text):
    """('step', direction), ('walk', bytes) or ('back', direction)."""
    names = {'s': 'step', 'w': 'walk', 'b': 'back'}
    calls = [] if text == '-' else text.split(',')
    return [(names[call[0]], bytes.fromhex(call[1:]) if call[0] == 'w' else int(call[1:], 16)) for call in calls]


# ---- The stepper

def step(extents, wrap, packet, direction):
    number, after = ref.step(STAGE, numbers_in(extents), int(wrap), packet_in(packet), int(direction))
    return {'number': number, 'packet': vectors.packet_text(after)}


def walk(extents, wrap, packet, run):
    walked = ref.walk(STAGE, numbers_in(extents), int(wrap), packet_in(packet), raw(run))
    return {'number': walked.number, 'packet': vectors.packet_text(walked.packet), 'hops': walked.hops, 'ending': walked.ending}


def takeback(extents, wrap, packet, direction):
    number, before = ref.take_back(STAGE, numbers_in(extents), int(wrap), packet_in(packet), int(direction))
    return {'number': number, 'packet': vectors.packet_text(before)}


def run_fields(shape, source, legs, calls):
    """The calls on the new packet of a route; where no hop is taken back, what it does is held to document 01's own account of a run."""
    packet, answers = ref.new_packet(STAGE, source, legs), []
    for name, offered in calls:
        if name == 'walk':
            walked = ref.walk(STAGE, shape.extents, shape.wrap, packet, offered)
            packet = walked.packet
            answers.append('%d+%s' % (walked.hops, walked.ending))
        else:
            call = ref.step if name == 'step' else ref.take_back
            number, packet = call(STAGE, shape.extents, shape.wrap, packet, offered)
            answers.append('%d' % number)
    assert any(name == 'back' for name, _ in calls) or ref.run_of(STAGE, shape, source, legs, calls).place == packet.node
    return {'legs': vectors.legs_text(legs), 'answers': ','.join(answers) or '-', 'packet': vectors.packet_text(packet)}


# ---- Plan sheets

def plan(plan):
    return vectors.read_answer(STAGE, raw(plan), ref.LARGE)


def planback(plan, room):
    return vectors.planback_answer(STAGE, raw(plan), int(room), ref.LARGE)


def planwrite(version, extents, wrap, weights, faults, room):
    """A value that no check accepts is refused with the number of the sheet that it would be."""
    pairs = [tuple(map(int, fault.split(':'))) for fault in faults.split(',') if fault != '-']
    sheet = vectors.plan_bytes(int(version), numbers_in(extents), int(wrap), numbers_in(weights), pairs)
    return vectors.planback_answer(STAGE, sheet, int(room), ref.LARGE)


def weights(plan):
    number, read = ref.read_plan(STAGE, raw(plan))
    return {'weights': numbers_text((0, 0, 0) if number else read.weights)}


def dead(plan, node, direction):
    number, read = ref.read_plan(STAGE, raw(plan))
    return {'node': int(not number and int(node) in read.dead), 'link': int(not number and (int(node), int(direction)) in read.lost)}


def masks(plan):
    number, read = ref.read_plan(STAGE, raw(plan))
    nodes = 0 if number else read.nodes
    return {'masks': vectors.hex_text(sum(1 << d for d in range(6) if (node, d) in read.lost) for node in range(nodes))}


# ---- Planning and route sheets

def pair(plan, source, destination):
    return vectors.pair_answer(STAGE, raw(plan), int(source), int(destination), ref.LARGE)


def sheet(plan, source, room):
    return vectors.sheet_answer(STAGE, raw(plan), int(source), int(room), ref.LARGE)


def listing(input):
    return {'text': vectors.listing_text(ref.listing(STAGE, raw(input)))}


def lookup(plan, sheet, destination):
    return vectors.lookup_answer(STAGE, raw(plan), raw(sheet), int(destination), ref.LARGE)


def back(plan, sheet, room):
    return vectors.back_answer(STAGE, raw(plan), raw(sheet), int(room), ref.LARGE)


def convert(plan, sheet, room):
    return vectors.back_answer(STAGE, raw(plan), raw(sheet), int(room), ref.LARGE, ref.convert)


def lost(plan, sheet):
    number, _ = ref.convert(STAGE, raw(plan), raw(sheet), bytearray(len(raw(sheet))))
    return {'number': number, 'entry': first_lost(ref.read_plan(STAGE, raw(plan))[1].shape, raw(sheet)) if number == 17 else 0}


def first_lost(shape, sheet):
    """The first entry that cannot be kept, of a version 1 sheet that has one."""
    read = ref.read_route_sheet(shape, sheet, [1])
    return next(i for i, entry in enumerate(read.entries) if not ref.kept(shape, read.source, entry))


def run(plan, source, destination, calls):
    number, route = ref.plan_pair(STAGE, raw(plan), int(source), int(destination))
    if number:
        return {'number': number}
    return run_fields(ref.read_plan(STAGE, raw(plan))[1].shape, int(source), route.legs, calls_in(calls))


def sheetrun(plan, source, destination, calls):
    out = bytearray(SHEET_BYTES)
    number, size = ref.write_sheet(STAGE, raw(plan), int(source), out)
    if number:
        return {'number': number}
    routes = bytes(out[:size])
    number, _, legs = ref.lookup_route(STAGE, raw(plan), routes, int(destination))
    if number:
        return {'number': number}
    start, end = ref.lookup_entry(STAGE, raw(plan), routes, int(destination))
    shape = ref.read_plan(STAGE, raw(plan))[1].shape
    return {'number': 0, 'size': size, 'entry': vectors.hex_text(routes[start:end]), **run_fields(shape, int(source), legs, calls_in(calls))}


OPERATIONS = {call.__name__: call for call in (step, walk, takeback, plan, planback, planwrite, weights, dead, masks, pair, sheet, listing, lookup, back,
                                               convert, lost, run, sheetrun)}
OPERATIONS['runback'] = run    # some of its calls are 'back'


def numbers_text(numbers):
    return ','.join(map(str, numbers))


def text(fields):
    return ' '.join('%s=%s' % item for item in fields.items())


def answer(line):
    """The answer as text."""
    operation, *fields = line.split(' ')
    return text(OPERATIONS[operation](**dict(field.split('=') for field in fields)))
