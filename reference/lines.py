"""Cases as lines, the sheets and packets that they hand over, and whole ways."""
import answers
import reference as ref
import vectors
from answers import STAGE

W = bytes.fromhex('010009040401030001000000')          # document 01's machine


def line(operation, **fields):
    """Bytes as hexadecimal digits."""
    return '%s %s' % (operation, answers.text({key: vectors.hex_text(value) if isinstance(value, bytes) else value for key, value in fields.items()}))


def at_source(node, *legs, mark=0):
    """A packet that stands at its source; the mark may be on a leg that is empty."""
    return ref.MarkedPacket(node, node, legs, mark)


def on_packet(operation, shape, packet, **fields):
    return line(operation, extents=answers.numbers_text(shape.extents), wrap=shape.wrap, packet=vectors.packet_text(packet), **fields)


def step(shape, packet, direction):
    return on_packet('step', shape, packet, direction=direction)


def take_back(shape, packet, direction):
    return on_packet('takeback', shape, packet, direction=direction)


def walk(shape, packet, way):
    return on_packet('walk', shape, packet, run=bytes(way))


def plan_of(extents, wrap, *faults, weights=None):
    """A plan sheet: of version 2 where it has weights."""
    return vectors.plan_bytes(2 if weights else 1, extents, wrap, weights, faults)


def routes_of(source, *entries):
    """A route sheet of version 2; an entry is (destination, kind, via)."""
    return ref.sheet_bytes(2, source, [ref.entry_bytes(2, destination, kind, [via]) for destination, kind, via in entries])


def new_routes(source, *entries):
    """A route sheet of version 3; an entry is (destination, kind, first via, second via), vias that are not told 0."""
    return ref.sheet_bytes(3, source, [ref.entry_bytes(3, destination, kind, vias) for destination, kind, *vias in entries])


def room_for(routes):
    """The bytes that a good sheet of either version takes in version 3."""
    return 7 + 7 * ref.word(routes, 5)


def of_version(version, routes):
    """The route sheet with another version byte."""
    return bytes([version]) + routes[1:]


def plan_write(version, extents, wrap, weights, faults, room):
    return line('planwrite', version=version, extents=answers.numbers_text(extents), wrap=wrap, weights=answers.numbers_text(weights),
                faults=vectors.faults_text(faults), room=room)


def declined_plans():
    """A version 1 plan sheet declined by each of the checks 1 to 8."""
    yield W[:8]
    yield b'\3' + W[1:]
    yield W[:7] + ref.two(257) + W[9:]
    yield W + b'\0'
    yield plan_of([17, 4, 1], 2)
    yield plan_of([2, 4, 1], 1)
    yield plan_of([4, 4, 1], 3, (16, 3))
    yield plan_of([4, 4, 1], 3, (3, 1), (3, 0))


def sheet_from(plan, source, stage=STAGE):
    """The route sheet that planning writes."""
    return ref.planned_sheet(stage, ref.read_plan(stage, plan)[1], source)


def first_way(shape, packet, stage=STAGE):
    """The lowest direction allowed at each place, until the packet has arrived."""
    way = []
    while ref.directions(stage, shape, packet):
        way.append(ref.directions(stage, shape, packet)[0])
        packet = ref.hop(shape, packet, way[-1])
    return bytes(way)


def runs_on(plan, source, destination):
    """The whole way and a step more, along the pair's route and along what the sheet says."""
    number, route = ref.plan_pair(STAGE, plan, source, destination)
    way = b'' if number else first_way(ref.read_plan(STAGE, plan)[1].shape, ref.new_packet(STAGE, source, route.legs))
    for operation in 'run', 'sheetrun':
        yield line(operation, plan=plan, source=source, destination=destination, calls='w%s,s00' % way.hex())
