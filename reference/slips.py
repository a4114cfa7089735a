#!/usr/bin/env python3
"""slips.py [WORDS]: how much the stored test cases notice. One slip at a time is put into reference.py, or into what answers.py adds to it, and the stored
cases are answered anew.

Prints for each slip how many cases were answered before one was answered otherwise. Exit 1 where none is. Some minutes; with WORDS only the slips
whose names have them.
"""
import os
import random
import signal
import sys
import types

sys.dont_write_bytecode = True
HERE = os.path.dirname(os.path.abspath(__file__))
STORED = os.path.join(HERE, '..', 'crates', 'conform', 'stdout')
SLOW = 'sheet', 'listing', 'sheetrun'
TRIED_FIRST = {'packets': 'step', 'taking back': 'takeback', 'conversions': 'convert', 'lost': 'lost', 'sheets': 'sheet', 'listing': 'listing', 'writing back': 'back',
               'entries': 'back'}                      # by what a slip's name begins with
SECONDS = 60                   # of the processor: a case that takes more, since a search does not end, is noticed

SHAPE_CHECK = '    number = check_shape(extents, wrap)\n    return number or check_packet(stage, shape_of(extents, wrap), packet)'
NAMED = '    named = [packet.node] + [target for target, _ in packet.legs]'
NEW = '    while mark < len(legs) and legs[mark][0] == source:'
MARK = '        if packet.mark > len(packet.legs):'
SOURCE_NAMED = '        named.append(packet.source)\n'
OUTSIDE = '    return 14 if any(node >= shape.nodes for node in named) else 0'
DROP = '        while packet.mark < len(packet.legs) and packet.legs[packet.mark][0] == packet.node:\n            packet = packet._replace(mark=packet.mark + 1)'
HOPPED = '        packet = hop(shape, packet, run[hops])\n        hops += 1'
ARRIVED = "        if front(drop(packet)) is None:\n            return Walked(0, packet, hops, 'arrived')\n"
HALF = '            if len(useful) == 2:                       # exactly half a ring\n'
NEARLY = 'shape.wrapped(dim) and 2 * shape.hops_in(dim, here[dim], there[dim]) >= shape.extents[dim] - '
TIE = '                if stage >= E2 and here[dim] % 2 == 1:\n'
ADAPTIVE = "    if mode == 'A':\n        return shape.useful(node, target)"
PLANNED = 'allowed(stage, plan.shape, node, leg):'
OTHER_SIDE = "[d ^ (leg[1] == 'D' and d ^ 1 in plan.shape.useful(node, leg[0]) and %s) for d in allowed(stage, plan.shape, node, leg)]:"
PLACE = 'plan.shape.coords(node)[d // 2]'
STEPPED = 'allowed(stage, shape, packet.node, leg)'
LENGTH = '    if length != len(sheet) - 3 or length != head + 3 * count:'
FAULT = ('        if not fault_exists(shape, version, node, kind, rack):\n            return 7, None\n'
         '        if faults and not (node, kind) > faults[-1]:\n            return 8, None\n')
RISES = '        if faults and not (node, kind) > faults[-1]:'
FAULTS = '    faults = []\n    for i in range(count):'
LINK = '    return shape.neighbour(node, 2 * dim) is not None'
ENDS = '    if source >= plan.nodes or destination >= plan.nodes:\n        return 9, None\n'
DEAD = '    if source in plan.dead or destination in plan.dead:\n        return 10, None\n'
SOURCE = '    if source >= plan.nodes:\n        return 9, 0\n    if source in plan.dead:\n        return 10, 0\n'
WEIGHTS = '    if any(not 1 <= w <= 8 for w in weights):\n        return 16, None\n'
OF_VERSION = '    weights = (1, 1, 1) if version == 1 else tuple(sheet[7:10])\n'
SHAPE = '    extents, wrap = tuple(sheet[3:6]), sheet[6]\n    number = check_shape(extents, wrap, rack)\n    if number:\n        return number, None\n'
WEIGHED = 'self.weights[dim] * self.shape.hops_in'
ORDER = "    return (length_of(plan, source, legs), modes.count('D'), len(vias), vias, modes)"
TRIED = '        for found in modes:\n'
ENTRY = '    return two(destination) + bytes([kind])'
WRITTEN = '    return 3 if stage >= E5'
WRITES = '    """The route sheet that planning from a source writes."""\n    version = written_version(stage)'
REWRITES = '        return 13, 0\n    version = written_version(stage)'
READ = '[2, 3] if stage >= E5'
VERSION = '    if len(sheet) < 7 or sheet[0] not in versions:\n        return None\n    version = sheet[0]\n'
LOOKS_UP = '    """(number, sheet read, entry or None): 1 to 8, 13, then 9."""\n'
WRITES_BACK = '    """(number, bytes written): 1 to 8, 13, 12."""\n'
LAYOUT = '    if length != len(sheet) - 3 or length != 4 + size * count:'
ABSENT = '        if any(absent):\n'
LISTED = '        if destination >= shape.nodes or any(v >= shape.nodes for v in vias):'
VIAS = '        if source in vias or destination in vias'
FOUND = '    if read is None:\n        return 13, None, None\n    if destination >= plan.nodes:\n        return 9, None, None\n'
KIND = "sum(1 << i for i, mode in enumerate(modes) if mode == 'D')"
MODES = "'D' if kind % 16 >> i & 1 else 'A'"
NO_KIND = '    if vias > 2 or bits >= 2 ** (vias + 1) or kind == 0:'
LEGS = 'def most_legs(stage):\n    return 3 if'
TAKES_BACK = '    assert stage >= E6\n'
SEARCHES = '    new = new_packet(stage, packet.source, packet.legs)\n'
REACHES = 'directions(stage, shape, earlier):'
MEETS = 'later == packet and d == direction'
REFUSES = '        return 18, packet\n'
GRANTS = '    return 0, before[0]'
BEGINS = 'start, (target, mode), there = begins[at], legs[at]'
BACK = 'shape.neighbour(node, direction ^ 1)'
USEFUL = 'direction not in shape.useful(there, target)'
NEARER = 'shape.hops(there, target) != shape.hops(node, target) + 1'
FINISHED = 'mark < len(legs) and legs[mark][0] == node'
LATER = 'p[dim + 1:] != a[dim + 1:]'
EARLIER = 'p[:dim] != t[:dim]'
TURN = 'turn = shape.number(*t[:dim], *a[dim:])'
SIDE = 'direction not in allowed(stage, shape, turn, (target, mode))'
CONVERTS = '    """(number, bytes written): 1 to 8, 13, 17, 12.  Version 1 in, version 2 out."""\n'
CONVERTED = '    read = read_route_sheet(plan.shape, sheet, [1])\n    if read is None:\n        return 13, 0\n'
JUDGED = '    if not all(kept(plan.shape, read.source, entry) for entry in read.entries):\n        return 17, 0\n'
PUT = '    return put(bytes([2]) + bytes(sheet[1:]), out)'
KEPT = '    number, legs = entry_answer(1, entry)\n    if number == 11:\n        return False\n    if number == 10:\n        return True\n'
FROM = ("    return not any(mode == 'D' and odd_half_ring(shape, start, target)\n"
        '                   for start, (target, mode) in zip(starts(source, legs), legs))')
ODD_HALF = '    return any(shape.wrapped(dim) and 2 * abs(a[dim] - b[dim]) == shape.extents[dim]\n               and a[dim] % 2 == 1 for dim in range(3))'
LOST = '    return next(i for i, entry in enumerate(read.entries) if not ref.kept(shape, read.source, entry))'
LOST_NUMBER = ' if number == 17 else 0}'


def read_first(text):
    """The converter with its sheet changed before it is read and as it was when it is written."""
    return CONVERTED.replace('sheet, [1]', text + ', [1]')


# Taking back worked out from the ends of the legs, without a search: the same answers.
BY_LEGS = """
    legs, mark, node = packet.legs, packet.mark, packet.node
    begins = [packet.source] + [target for target, _ in legs]
    if direction > 5:
        return 18, packet
    if mark < len(legs) and legs[mark][0] == node:
        return 18, packet
    if node == begins[mark]:
        travelled = [leg for leg in range(mark) if begins[leg] != begins[leg + 1]]
        if not travelled:
            return 18, packet
        at = travelled[-1]
    elif mark == len(legs):
        return 18, packet
    else:
        at = mark
    start, (target, mode), there = begins[at], legs[at], shape.neighbour(node, direction ^ 1)
    if there is None or direction not in shape.useful(there, target):
        return 18, packet
    dim = direction // 2
    a, p, t = shape.coords(start), shape.coords(there), shape.coords(target)
    turn = shape.number(*t[:dim], *a[dim:])
    if mode == 'A' and shape.hops(start, there) + shape.hops(there, target) != shape.hops(start, target):
        return 18, packet
    if mode == 'D' and p[:dim] != t[:dim]:
        return 18, packet
    if mode == 'D' and p[dim + 1:] != a[dim + 1:]:
        return 18, packet
    if mode == 'D' and shape.hops_in(dim, a[dim], p[dim]) + shape.hops_in(dim, p[dim], t[dim]) != shape.hops_in(dim, a[dim], t[dim]):
        return 18, packet
    if mode == 'D' and direction not in allowed(stage, shape, turn, (target, mode)):
        return 18, packet
    return 0, packet._replace(node=there, mark=at)
"""


def by_legs(old, new):
    """Taking back worked out from the legs, with a slip in it."""
    assert old in BY_LEGS, old
    return BY_LEGS.replace(old, new) + SEARCHES


# What is wrong, the text of reference.py or answers.py, and what stands there instead.
SLIPS = [
    ('packets: a walk is cut at 12 hops', HOPPED, HOPPED + "\n        if hops == 12:\n            return Walked(0, packet, hops, 'used-up')"),
    ('packets: a walk is cut at 45 hops', HOPPED, HOPPED + "\n        if hops == 45:\n            return Walked(0, packet, hops, 'used-up')"),
    ('packets: extents above 6 are 5', SHAPE_CHECK, '    if max(extents) > 6:\n        return 5\n' + SHAPE_CHECK),
    ('packets: extents above 15 are 5', SHAPE_CHECK, '    if max(extents) > 15:\n        return 5\n' + SHAPE_CHECK),
    ('packets: the wrap is not checked', SHAPE_CHECK, SHAPE_CHECK.replace('number or', '(0 if number == 6 else number) or')),
    ('packets: 14 before 5 and 6', SHAPE_CHECK, '    return check_packet(stage, Shape(extents, wrap), packet) or check_shape(extents, wrap)'),
    ('packets: the legs left alone are counted', 'len(packet.legs) > most_legs', 'len(packet.legs) - packet.mark > most_legs'),
    ('packets: legs are counted after drops', 'len(packet.legs) > most_legs', 'len(packet.legs) - drop(packet).mark > most_legs'),
    ('packets: four legs are accepted', LEGS, LEGS.replace('3', '4')),
    ('packets: three legs are 14', LEGS, LEGS.replace('3', '2')),
    ('packets: of three legs the middle target is not checked', NAMED, NAMED.replace('packet.legs]', '(packet.legs[:1] + packet.legs[2:] if len(packet.legs) == 3 else packet.legs)]')),
    ('packets: two legs alone are dropped', DROP, DROP.replace('while ', 'for _ in range(2):\n            if ').replace('    packet =', '        packet =')),
    ('packets: a walk is cut at 90 hops', HOPPED, HOPPED + "\n        if hops == 90:\n            return Walked(0, packet, hops, 'used-up')"),
    ('packets: the front target alone is checked', NAMED, NAMED.replace('packet.legs]', 'packet.legs[:1]]')),
    ('packets: the last target is not checked', NAMED, NAMED.replace('packet.legs]', 'packet.legs[:-1]]')),
    ('packets: the present node is not checked', NAMED, NAMED.replace('[packet.node] + ', '')),
    ('packets: a node just outside is accepted', OUTSIDE, OUTSIDE.replace('>=', '>')),
    ('packets: nodes below 4,096 are accepted', OUTSIDE, OUTSIDE.replace('shape.nodes', '4096')),
    ('packets: one leg alone is dropped', DROP, DROP.replace('while', 'if')),
    ('packets: later legs are dropped too', DROP, '        packet = packet._replace(mark=max([packet.mark] + [i + 1 for i, leg in enumerate(packet.legs) if leg[0] == packet.node]))'),
    ('packets: travelled legs are travelled again', DROP, DROP + '\n        packet = packet._replace(mark=next((i for i, leg in enumerate(packet.legs) if leg[0] != packet.node), packet.mark))'),
    ('packets: a refused step stores drops', '        return 15, packet\n', '        return 15, drop(packet)\n'),
    ('packets: a walk of no hops stores drops', '    hops = 0\n    while True:', '    hops = 0\n    packet = drop(packet)\n    while True:'),
    ('packets: a hop drops late', '    return drop(packet._replace(node=', '    return (packet._replace(node='),
    ('packets: bytes past the arrival are judged', ARRIVED, ARRIVED.replace(' is None:', ' is None and hops == len(run):')),
    ('packets: used up before arrived', ARRIVED, "        if hops == len(run):\n            return Walked(0, packet, hops, 'used-up')\n" + ARRIVED),
    ('packets: a new packet has its mark on leg one', NEW, '    while False:'),
    ('packets: a new packet passes one empty leg alone', NEW, NEW.replace('while', 'if')),
    ('packets: a new packet passes legs to its source anywhere', NEW, '    mark = max([i + 1 for i, leg in enumerate(legs) if leg[0] == source], default=0)\n    while False:'),
    ('packets: a new packet to itself has its mark on its leg', NEW, NEW.replace('while', 'while len(legs) > 1 and')),
    ('packets: a mark one too far is accepted', MARK, MARK.replace('legs):', 'legs) + 1:')),
    ('packets: a mark of 255 is accepted', MARK, MARK.replace('if ', 'if packet.mark < 255 and ')),
    ('packets: the mark is not checked', MARK, '        if False:'),
    ('packets: a mark past the last leg is 14', MARK, MARK.replace('>', '>=')),
    ('packets: a mark past the last leg is 14 but at its target', MARK, MARK.replace('>', '>= (packet.node == packet.legs[-1][0] if packet.legs else 1) +')),
    ('packets: a mark is judged by three legs', MARK, MARK.replace('len(packet.legs)', '3')),
    ('packets: the source is not checked', SOURCE_NAMED, '        pass\n'),
    ('packets: the source just outside is accepted', SOURCE_NAMED, SOURCE_NAMED.replace('packet.source', 'max(0, packet.source - 1)')),
    ('packets: the source is checked in one byte', SOURCE_NAMED, SOURCE_NAMED.replace('packet.source', 'packet.source % 256')),
    ('packets: travelled targets are not checked', NAMED, NAMED.replace('packet.legs]', 'packet.legs[packet.mark:]]')),
    ('packets: travelled targets alone are checked', NAMED, NAMED.replace('packet.legs]', 'packet.legs[:packet.mark]]')),
    ('packets: the leg just travelled alone is checked', NAMED, NAMED.replace('packet.legs]', 'packet.legs[max(0, packet.mark - 1):]]')),
    ('taking back: drops before the packet is judged', MEETS, MEETS.replace('== packet', '== drop(packet)')),
    ('taking back: a refusal stores drops', REFUSES, REFUSES.replace('packet', 'drop(packet)')),
    ('taking back: a mark one too far is past the last leg', TAKES_BACK, TAKES_BACK + '    packet = packet._replace(mark=min(packet.mark, len(packet.legs)))\n'),
    ('taking back: 18 before 14', TAKES_BACK, TAKES_BACK + '    if not check_shape(extents, wrap) and direction > 5:\n        return 18, packet\n'),
    ('taking back: 18 before 5', TAKES_BACK, TAKES_BACK + '    if direction > 5:\n        return 18, packet\n'),
    ('taking back: a direction above 5 is 15', SEARCHES, '    if direction > 5:\n        return 15, packet\n' + SEARCHES),
    ('taking back: 6 is 0', SEARCHES, '    direction %= 6\n' + SEARCHES),
    ('taking back: a direction\'s lowest three bits', SEARCHES, '    direction %= 8\n' + SEARCHES),
    ('taking back: a direction\'s lowest seven bits', SEARCHES, '    direction %= 128\n' + SEARCHES),
    ('taking back: the opposite direction', SEARCHES, '    direction ^= 1\n' + SEARCHES),
    ('taking back: no hop taken back is 15', REFUSES, REFUSES.replace('18', '15')),
    ('taking back: an arrived packet is 18', SEARCHES, '    if packet.mark == len(packet.legs):\n        return 18, packet\n' + SEARCHES),
    ('taking back: an arrived packet is 15', SEARCHES, '    if packet.mark == len(packet.legs):\n        return 15, packet\n' + SEARCHES),
    ('taking back: a packet at its source is 18', SEARCHES, '    if packet.node == packet.source:\n        return 18, packet\n' + SEARCHES),
    ('taking back: the source is not reached', GRANTS, '    return (18, packet) if before[0].node == packet.source else (0, before[0])'),
    ('taking back: the new packet alone is not reached', GRANTS, '    return (18, packet) if before[0] == new else (0, before[0])'),
    ('taking back: a new packet stays as it is', REFUSES, '        return (0 if packet == new else 18), packet\n'),
    ('taking back: from the first leg on, also where it is empty', SEARCHES, SEARCHES + '    new = new._replace(mark=0)\n'),
    ('taking back: from the packet that is lent', SEARCHES, '    new = packet._replace(node=packet.source, mark=0)\n'),
    ('taking back: as adaptive', REACHES, "([] if front(earlier) is None else shape.useful(earlier.node, front(earlier)[0])):"),
    ('taking back: by the rule of plus', REACHES, REACHES.replace('stage', 'E1')),
    ('taking back: any packet that steps here', SEARCHES, '    for mark in range(packet.mark + 1):\n        there = shape.neighbour(packet.node, direction ^ 1) if direction < 6 else None\n'
     '        earlier = packet._replace(node=there, mark=mark)\n'
     '        if there is not None and drop(earlier) == earlier and step(stage, extents, wrap, earlier, direction) == (0, packet):\n            return 0, earlier\n    return 18, packet\n' + SEARCHES),
    ('taking back: the source is forgotten', GRANTS, GRANTS + '._replace(source=before[0].node)'),
    ('taking back: travelled legs are forgotten', GRANTS, GRANTS + '._replace(legs=packet.legs[before[0].mark:], mark=0)'),
    ('taking back: later legs are forgotten', GRANTS, GRANTS + '._replace(legs=packet.legs[:before[0].mark + 1])'),
    ('taking back: the leg\'s mode becomes adaptive', GRANTS, GRANTS + "._replace(legs=tuple((leg[0], 'A') if i == before[0].mark else leg for i, leg in enumerate(packet.legs)))"),
    ('taking back: the mark stays', SEARCHES, by_legs('mark=at', 'mark=mark')),
    ('taking back: the mark goes one leg back', SEARCHES, by_legs('mark=at', 'mark=max(0, mark - 1)')),
    ('taking back: the mark goes back over one leg alone', SEARCHES, by_legs('travelled[-1]', 'mark - 1')),
    ('taking back: the mark goes back over two legs alone', SEARCHES, by_legs('mark=at', 'mark=max(at, mark - 2)')),
    ('taking back: the first leg that is not empty', SEARCHES, by_legs('travelled[-1]', 'travelled[0]')),
    ('taking back: empty legs are taken for travelled', SEARCHES, by_legs('if begins[leg] != begins[leg + 1]', '')),
    ('taking back: the leg of the mark alone', SEARCHES, by_legs('    if node == begins[mark]:\n', '    if node == begins[mark] and (mark < len(legs) or mark > 1):\n        return 18, packet\n    if node == begins[mark]:\n')),
    ('taking back: just past a leg is 18 before the last', SEARCHES, by_legs('if not travelled', 'if not travelled or mark < len(legs)')),
    ('taking back: a finished leg is under way', SEARCHES, by_legs(FINISHED, 'False')),
    ('taking back: a finished leg is 18 in front alone', SEARCHES, by_legs(FINISHED, FINISHED + ' and mark == 0')),
    ('taking back: a finished last leg alone is 18', SEARCHES, by_legs(FINISHED, FINISHED + ' and mark == len(legs) - 1')),
    ('taking back: a later leg to the present node is 18', SEARCHES, by_legs('legs[mark][0] == node', 'node in [target for target, _ in legs[mark:]]')),
    ('taking back: the mark past the last leg is the last leg\'s', SEARCHES, by_legs('    elif mark == len(legs):\n', '    elif mark == len(legs) > 0:\n        at = mark - 1\n    elif mark == len(legs):\n')),
    ('taking back: the mark past the last leg at any node', SEARCHES, by_legs('if node == begins[mark]', 'if node == begins[mark] or mark == len(legs)')),
    ('taking back: a leg begins at the source', SEARCHES, by_legs(BEGINS, BEGINS.replace('begins[at]', 'packet.source'))),
    ('taking back: the third leg begins at the first target', SEARCHES, by_legs(BEGINS, BEGINS.replace('begins[at]', 'begins[min(at, 1)]'))),
    ('taking back: a leg begins where the one before it does', SEARCHES, by_legs(BEGINS, BEGINS.replace('begins[at]', 'begins[max(0, at - 1)]'))),
    ('taking back: a leg begins where the mark\'s does', SEARCHES, by_legs(BEGINS, BEGINS.replace('begins[at]', 'begins[mark]'))),
    ('taking back: by the mode of the mark\'s leg', SEARCHES, by_legs(BEGINS, BEGINS.replace('legs[at]', '(legs[at][0], legs[min(mark, len(legs) - 1)][1])'))),
    ('taking back: by the mode of the first leg', SEARCHES, by_legs(BEGINS, BEGINS.replace('legs[at]', '(legs[at][0], legs[0][1])'))),
    ('taking back: the hop need not be useful', SEARCHES, by_legs(USEFUL, 'False')),
    ('taking back: the hop that brings it here', SEARCHES, by_legs(BACK, BACK.replace(' ^ 1', ''))),
    ('taking back: an adaptive leg passes everywhere', SEARCHES, by_legs("    if mode == 'A' and ", '    if False and ')),
    ('taking back: an adaptive leg goes one hop round', SEARCHES, by_legs('!= shape.hops(start, target)', '> shape.hops(start, target) + 1')),
    ('taking back: a deterministic leg goes by the distance alone', SEARCHES, by_legs("mode == 'A' and", 'True and').replace("if mode == 'D'", 'if False')),
    ('taking back: an adaptive leg goes as a deterministic one', SEARCHES, by_legs("mode == 'D' and", 'True and')),
    ('taking back: earlier dimensions need not be travelled', SEARCHES, by_legs(EARLIER, 'False')),
    ('taking back: X need not be travelled before Z', SEARCHES, by_legs(EARLIER, EARLIER + ' and (dim < 2 or p[1] != t[1])')),
    ('taking back: Y need not be travelled before Z', SEARCHES, by_legs(EARLIER, EARLIER + ' and p[0] != t[0]')),
    ('taking back: later dimensions may be travelled', SEARCHES, by_legs(LATER, 'False')),
    ('taking back: Z may be travelled before X', SEARCHES, by_legs(LATER, LATER + ' and (dim > 0 or p[1] != a[1])')),
    ('taking back: Y may be travelled before X', SEARCHES, by_legs(LATER, LATER + ' and p[2] != a[2]')),
    ('taking back: later dimensions are travelled', SEARCHES, by_legs(LATER, LATER.replace('a', 't'))),
    ('taking back: a deterministic leg comes from anywhere in its row', SEARCHES, by_legs('shape.hops_in(dim, a[dim], p[dim]) + shape.hops_in(dim, p[dim], t[dim]) != shape.hops_in(dim, a[dim], t[dim])', 'False')),
    ('taking back: the other side of half a ring', SEARCHES, by_legs(SIDE, 'False')),
    ('taking back: the other side along X', SEARCHES, by_legs(SIDE, SIDE + ' and dim > 0')),
    ('taking back: the other side along Y', SEARCHES, by_legs(SIDE, SIDE + ' and dim != 1')),
    ('taking back: the other side along Z', SEARCHES, by_legs(SIDE, SIDE + ' and dim < 2')),
    ('taking back: the other side from odd places', SEARCHES, by_legs(SIDE, SIDE + ' and a[dim] % 2 == 0')),
    ('taking back: the other side from even places', SEARCHES, by_legs(SIDE, SIDE + ' and a[dim] % 2 == 1')),
    ('taking back: the other side of rings of 4', SEARCHES, by_legs(SIDE, SIDE + ' and shape.extents[dim] > 4')),
    ('taking back: the other side of rings of 16', SEARCHES, by_legs(SIDE, SIDE + ' and shape.extents[dim] < 16')),
    ('taking back: half a ring by the place before the hop', SEARCHES, by_legs(SIDE, SIDE.replace('turn', 'there'))),
    ('taking back: half a ring by the present place', SEARCHES, by_legs(TURN, 'turn = shape.number(*p[:dim], *shape.coords(node)[dim:])')),
    ('taking back: half a ring by the source\'s place', SEARCHES, by_legs(TURN, TURN.replace('a[dim:]', 'shape.coords(packet.source)[dim:]'))),
    ('taking back: half a ring by the leg\'s first hop', SEARCHES, by_legs(TURN, 'turn = start')),
    ('taking back: half a ring by plus', SEARCHES, by_legs(SIDE, SIDE.replace('stage', 'E1'))),
    ('taking back: open rows are closed', SEARCHES, by_legs(BACK, BACK.replace('shape', 'Shape(extents, 7)')).replace(USEFUL, NEARER)),
    ('taking back: rows of 2 are closed', SEARCHES, by_legs(BACK, BACK.replace('shape', 'Shape(extents, wrap | sum(1 << d for d in range(3) if extents[d] == 2))')).replace(USEFUL, NEARER)),
    ('taking back: rings do not close', SEARCHES, by_legs(BACK, BACK.replace('shape', 'Shape(extents, 0)'))),
    ('taking back: the mark\'s leg begins, in one byte', SEARCHES, by_legs('node == begins[mark]', 'node % 256 == begins[mark] % 256')),
    ('taking back: a leg is empty, in one byte', SEARCHES, by_legs('begins[leg] != begins[leg + 1]', 'begins[leg] % 256 != begins[leg + 1] % 256')),
    ('taking back: a leg is finished, in one byte', SEARCHES, by_legs('legs[mark][0] == node', 'legs[mark][0] % 256 == node % 256')),
    ('taking back: the node before in one byte', SEARCHES, by_legs('node=there', 'node=there % 256')),
    ('taking back: one hop more', SEARCHES, by_legs('node=there', 'node=shape.neighbour(there, direction ^ 1) if shape.neighbour(there, direction ^ 1) is not None else there')),
    ('legs: Z before Y before X', '    for dim in range(3):\n        if here[dim] != there[dim]:', '    for dim in (2, 1, 0):\n        if here[dim] != there[dim]:'),
    ('legs: deterministic as adaptive', "    if mode == 'A':\n        return", '    if True:\n        return'),
    ('legs: adaptive as deterministic', "    if mode == 'A':\n        return", '    if False:\n        return'),
    ('legs: adaptive ones judged by the deterministic walk', PLANNED, PLANNED.replace('leg)', "(leg[0], 'D'))")),
    ('legs: 200 nodes alone are looked at', '    while todo:', '    while todo and len(seen) < 200:'),
    ('legs: wrapped 3 counted as open', '        if self.wrapped(dim):\n            return min', '        if self.wrapped(dim) and self.extents[dim] > 3:\n            return min'),
    ('legs: rings of 16 close one place early', '            at[dim] %= extent', '            at[dim] = (at[dim] - (extent == 16 and at[dim] < 0)) % extent'),
    ('legs: the wrap bits of Y and Z exchanged', 'self.wrap >> dim & 1 == 1', 'self.wrap >> (dim and 3 - dim) & 1 == 1'),
    ('ties: minus from an even place, plus from an odd one', TIE, TIE.replace('== 1', '== 0')),
    ('ties: always plus', TIE, '                if False:\n'),
    ('ties: always minus', TIE, '                if True:\n'),
    ('ties: by the target\'s coordinate', TIE, TIE.replace('here', 'there')),
    ('ties: by the node number', TIE, TIE.replace('here[dim]', 'node')),
    ('ties: by the target\'s number', TIE, TIE.replace('here[dim]', 'target')),
    ('ties: by the coordinates\' sum', TIE, TIE.replace('here[dim]', 'sum(here)')),
    ('ties: by X', TIE, TIE.replace('here[dim]', 'here[0]')),
    ('ties: by Y', TIE, TIE.replace('here[dim]', 'here[1]')),
    ('ties: by Z', TIE, TIE.replace('here[dim]', 'here[2]')),
    ('ties: by the next dimension', TIE, TIE.replace('here[dim]', 'here[(dim + 1) % 3]')),
    ('ties: by the second bit', TIE, TIE.replace('here[dim] %', 'here[dim] // 2 %')),
    ('ties: by the half of the ring', TIE, TIE.replace('here[dim] % 2 == 1', 'here[dim] > there[dim]')),
    ('ties: places from 8 on are even', TIE, TIE.replace('% 2 == 1', 'in (1, 3, 5, 7)')),
    ('ties: the last place is even', TIE, TIE.replace('== 1', '== 1 and here[dim] < shape.extents[dim] - 1')),
    ('ties: X alone', TIE, TIE.replace('== 1', '== 1 and dim == 0')),
    ('ties: Z goes plus', TIE, TIE.replace('== 1', '== 1 and dim < 2')),
    ('ties: Y goes plus', TIE, TIE.replace('== 1', '== 1 and dim != 1')),
    ('ties: Y and Z go minus', TIE, TIE.replace('here[dim] % 2 == 1', '(dim or here[0] % 2 == 1)')),
    ('ties: rings of 4 go plus', TIE, TIE.replace('== 1', '== 1 and shape.extents[dim] != 4')),
    ('ties: rings of 6 go plus', TIE, TIE.replace('== 1', '== 1 and shape.extents[dim] != 6')),
    ('ties: rings of 10 go plus', TIE, TIE.replace('== 1', '== 1 and shape.extents[dim] != 10')),
    ('ties: rings of 16 go plus', TIE, TIE.replace('== 1', '== 1 and shape.extents[dim] < 16')),
    ('ties: decided anew below half', HALF, HALF.replace('len(useful) == 2', NEARLY + '2')),
    ('ties: odd rings have a half', HALF, HALF.replace('len(useful) == 2', NEARLY + '1')),
    ('ties: adaptive legs go plus too', ADAPTIVE, ADAPTIVE.replace('return', 'ways =') + '\n        return [d for d in ways if d % 2 == 0 or d - 1 not in ways]'),
    ('ties: adaptive legs go by the place too', ADAPTIVE, ADAPTIVE.replace('return', 'ways =') +
     '\n        return [d for d in ways if d ^ 1 not in ways or (d + shape.coords(node)[d // 2]) % 2 == 0]'),
    ('ties: planning has plus, packets the rule', PLANNED, PLANNED.replace('stage', 'E1')),
    ('ties: planning goes by the node number', PLANNED, OTHER_SIDE % '(node + {0}) % 2 == 1'.format(PLACE)),
    ('ties: planning goes by the target\'s coordinate', PLANNED, OTHER_SIDE % '({0} + {1}) % 2 == 1'.format(PLACE, PLACE.replace('node', 'leg[0]'))),
    ('ties: planning has the rule along X alone', PLANNED, OTHER_SIDE % '{0} % 2 == 1 and d > 1'.format(PLACE)),
    ('ties: planning has plus along Z', PLANNED, OTHER_SIDE % '{0} % 2 == 1 and d > 3'.format(PLACE)),
    ('ties: planning has plus on rings of 10', PLANNED, OTHER_SIDE % '{0} % 2 == 1 and plan.shape.extents[d // 2] == 10'.format(PLACE)),
    ('ties: planning has plus on rings of 16', PLANNED, OTHER_SIDE % '{0} % 2 == 1 and plan.shape.extents[d // 2] == 16'.format(PLACE)),
    ('ties: packets have plus, planning the rule', STEPPED, STEPPED.replace('stage', 'E1')),
    ('ties: a packet\'s middle leg of three has plus', STEPPED, STEPPED.replace('stage', '(stage if drop(packet).mark != 1 else E1)')),
    ('ties: a packet\'s last leg has plus', STEPPED, STEPPED.replace('stage', '(stage if len(packet.legs) - drop(packet).mark > 1 else E1)')),
    ('ties: a packet\'s first leg of two has plus', STEPPED, STEPPED.replace('stage', '(stage if len(packet.legs) - drop(packet).mark < 2 else E1)')),
    ('plans: 8 bytes are enough', '    if len(sheet) < 9:', '    if len(sheet) < 8:'),
    ('plans: 2 before 1', '    if len(sheet) < 9:\n', '    if sheet and sheet[0] != 1:\n        return 2, None\n    if len(sheet) < 9:\n'),
    ('plans: version 0 is accepted', '    if version not in known:', '    if version and version not in known:'),
    ('plans: version 3 is accepted', '    known = [1] +', '    known = [1, 3] +'),
    ('plans: version 2 is not accepted', '    known = [1] + ([2]', '    known = [1] + ([]'),
    ('plans: 3 after 4', '        return 3, None\n', '        return 3 if word(sheet, 1) == len(sheet) - 3 == head + 3 * count else 4, None\n'),
    ('plans: 257 faults are accepted', '    if count > 256:', '    if count > 257:'),
    ('plans: 256 faults are 3', '    if count > 256:', '    if count > 255:'),
    ('plans: a trailing byte is accepted', LENGTH, '    if length > len(sheet) - 3 or length != head + 3 * count:'),
    ('plans: the length field is not checked', LENGTH, '    if len(sheet) - 3 != head + 3 * count:'),
    ('plans: the length field in one byte', LENGTH, '    if length % 256 != (len(sheet) - 3) % 256 or len(sheet) - 3 != head + 3 * count:'),
    ('plans: the count may be too small', LENGTH, '    if length != len(sheet) - 3 or length < head + 3 * count:'),
    ('plans: extent 17 is accepted', '1 <= e <= 16', '1 <= e <= 17'),
    ('plans: the extent of Z is not checked', 'for e in extents):\n        return 5', 'for e in extents[:2]) or not extents[2]:\n        return 5'),
    ('plans: 6 before 5', '    if any(not 1 <= e', '    if wrap >= 8 or any(wrap >> dim & 1 and extents[dim] < 3 for dim in range(3)):\n        return 6\n    if any(not 1 <= e'),
    ('plans: wrapped 3 is 6', 'extents[dim] < 3 for', 'extents[dim] < 4 for'),
    ('plans: wrapped 2 is accepted', 'extents[dim] < 3 for', 'extents[dim] < 2 for'),
    ('plans: spare bits are accepted', '    if wrap >= 8:', '    if wrap >= 256:'),
    ('plans: the last spare bit is accepted', '    if wrap >= 8:', '    if wrap & 127 >= 8:'),
    ('plans: 8 before 7 at one fault', FAULT, ''.join(FAULT.splitlines(True)[2:] + FAULT.splitlines(True)[:2])),
    ('plans: 7 of all faults before 8', FAULTS, '    if not all(fault_exists(shape, version, word(sheet, at), sheet[at + 2], rack) for at in range(3 + head, len(sheet), 3)):\n'
     '        return 7, None\n' + FAULTS),
    ('plans: 8 of all faults before 7', FAULTS, '    if any(sheet[at:at + 3] <= sheet[at - 3:at] for at in range(6 + head, len(sheet), 3)):\n        return 8, None\n' + FAULTS),
    ('plans: an equal fault is accepted', RISES, RISES.replace('> faults', '>= faults')),
    ('plans: faults rise by node alone', RISES, '        if faults and not node >= faults[-1][0]:'),
    ('plans: the first two faults are not compared', RISES, RISES.replace('if faults', 'if len(faults) > 1')),
    ('plans: a fault just outside is accepted', '    if node >= shape.nodes:\n        return False', '    if node > shape.nodes:\n        return False'),
    ('plans: kind 4 is accepted', 'rack else 3):', 'rack else 4):'),
    ('plans: the open end has a link', LINK, '    return shape.extents[dim] > 1'),
    ('plans: the closing link is none', LINK, '    return shape.coords(node)[dim] < shape.extents[dim] - 1'),
    ('plans: extent 1 has a link', LINK, LINK + ' or shape.extents[dim] == 1'),
    ('plans: a fault\'s node in one byte', 'node, kind = word(sheet, at), sheet[at + 2]\n        if not', 'node, kind = sheet[at + 1], sheet[at + 2]\n        if not'),
    ('plans: links to a dead node are sound', '                    lose(there, direction ^ 1)', '                    pass'),
    ('plans: links of a dead node are sound', '                    lose(node, direction)\n                    lose(there, direction ^ 1)', '                    pass'),
    ('plans: a dead link is sound the other way', '                lose(there, plus + 1)', '                pass'),
    ('weights: 11 bytes are enough', 'len(sheet) < 12:', 'len(sheet) < 11:'),
    ('weights: 12 bytes are too few', 'len(sheet) < 12:', 'len(sheet) < 13:'),
    ('weights: 12 bytes are asked of version 1', '    if version in (2, 3) and version in known', '    if version in known'),
    ('weights: 12 bytes are asked of unknown versions', '    if version in (2, 3) and version in known', '    if version != 1'),
    ('weights: the count where version 1 has it', '    count = word(sheet, 1 + head)', '    count = word(sheet, 7)'),
    ('weights: the length field of version 1', LENGTH, LENGTH.replace('head', '6')),
    ('weights: 0 is accepted', WEIGHTS, WEIGHTS.replace('1 <=', '0 <=')),
    ('weights: 9 is accepted', WEIGHTS, WEIGHTS.replace('8', '9')),
    ('weights: 8 is 16', WEIGHTS, WEIGHTS.replace('8', '7')),
    ('weights: 255 is accepted', WEIGHTS, WEIGHTS.replace('8 for', '8 and w < 255 for')),
    ('weights: that of Z is not checked', WEIGHTS, WEIGHTS.replace('in weights', 'in weights[:2]')),
    ('weights: those of absent dimensions are not checked', WEIGHTS, WEIGHTS.replace('w in weights', 'w, e in zip(weights, extents) if e > 1')),
    ('weights: 16 before 6', SHAPE, SHAPE.replace('    if number:', OF_VERSION + WEIGHTS.replace('    if any', '    if number != 5 and any') + '    if number:')),
    ('weights: 16 before 5', SHAPE, OF_VERSION.replace('version == 1', 'version == 1 or len(sheet) < 12') + WEIGHTS + SHAPE),
    ('weights: 16 after 7', WEIGHTS, WEIGHTS.replace('16,', '16 if all(fault_exists(shape_of(extents, wrap), version, word(sheet, at), sheet[at + 2], rack) '
                                                            'for at in range(3 + head, len(sheet), 3)) else 7,')),
    ('weights: 16 after 8', WEIGHTS, WEIGHTS.replace('16,', '8 if any(sheet[at:at + 3] <= sheet[at - 3:at] for at in range(6 + head, len(sheet), 3)) else 16,')),
    ('weights: read one byte late', OF_VERSION, OF_VERSION.replace('7:10', '8:11')),
    ('weights: X and Z exchanged', OF_VERSION, OF_VERSION.replace('7:10]', '7:10][::-1]')),
    ('weights: Y and Z exchanged', OF_VERSION, OF_VERSION.replace('tuple(sheet[7:10])', '(sheet[7], sheet[9], sheet[8])')),
    ('weights: those of version 1 are read too', OF_VERSION, '    weights = tuple(sheet[7:10])\n'),
    ('weights: the distance by hops', WEIGHED, 'self.shape.hops_in'),
    ('weights: the order by hops', ORDER, ORDER.replace('length_of(plan, source, legs)', 'sum(plan.shape.hops(start, leg[0]) for start, leg in zip(starts(source, legs), legs))')),
    ('weights: Z alone counts', WEIGHED, '(self.weights[dim] if dim == 2 else 1) * self.shape.hops_in'),
    ('weights: the length in one byte', '    return 0, Route(source, legs, length_of(plan, source, legs))', '    return 0, Route(source, legs, length_of(plan, source, legs) % 256)'),
    ('weights: the order by one byte', ORDER, ORDER.replace('legs),', 'legs) % 256,')),
    ('weights: a length of at most 511', '    return 0, Route(source, legs, length_of(plan, source, legs))', '    return 0, Route(source, legs, length_of(plan, source, legs) % 512)'),
    ('weights: distances above 255 are 255', '        return self._distance[m, n]', '        return min(255, self._distance[m, n])'),
    ('listing: lengths of two digits', 'str(route.length)', 'str(route.length % 100)'),
    ('pairs: a node just outside is accepted', ENDS, ENDS.replace('>=', '>') + '    if plan.nodes in (source, destination):\n        return 11, None\n'),
    ('pairs: 9 from 4,096 on', ENDS, ENDS.replace('plan.nodes', '4096') + '    if max(source, destination) >= plan.nodes:\n        return 11, None\n'),
    ('pairs: 10 before 9', ENDS + DEAD, DEAD + ENDS),
    ('pairs: a dead source is not refused', DEAD, DEAD.replace('source in plan.dead or ', '')),
    ('pairs: a dead destination is not refused', DEAD, DEAD.replace(' or destination in plan.dead', '')),
    ('pairs: a dead node reaches itself', DEAD, DEAD.replace('    if source in plan.dead or destination in plan.dead:', '    if source != destination and {source, destination} & plan.dead:')),
    ('pairs: fewer vias before fewer deterministic legs', ORDER, ORDER.replace("modes.count('D'), len(vias)", "len(vias), modes.count('D')")),
    ('pairs: fewer deterministic legs before length', ORDER, "    return (modes.count('D'), length_of(plan, source, legs), len(vias), vias, modes)"),
    ('pairs: the first via before length', ORDER, "    return (len(vias), vias, length_of(plan, source, legs), modes.count('D'), modes)"),
    ('pairs: the highest via', ORDER, ORDER.replace(' vias, modes)', ' tuple(-v for v in vias), modes)')),
    ('pairs: vias compared in one byte', ORDER, ORDER.replace(' vias, modes)', ' tuple(v % 256 for v in vias), modes)')),
    ('pairs: two deterministic legs as good as one', ORDER, ORDER.replace("modes.count('D')", "'D' in modes")),
    ('pairs: no two deterministic legs of two', TRIED, TRIED.replace('modes:', "[m for m in modes if m != ('D', 'D')]:")),
    ('pairs: no direct deterministic leg', TRIED, TRIED.replace('modes:', "[m for m in modes if m != ('D',)]:")),
    ('pairs: no three deterministic legs', TRIED, TRIED.replace('modes:', "[m for m in modes if m != ('D', 'D', 'D')]:")),
    ('pairs: the middle leg of three is adaptive', TRIED, TRIED.replace('modes:', "[m for m in modes if len(m) < 3 or m[1] == 'A']:")),
    ('pairs: the last leg of three is adaptive', TRIED, TRIED.replace('modes:', "[m for m in modes if len(m) < 3 or m[2] == 'A']:")),
    ('pairs: the first leg of three is adaptive', TRIED, TRIED.replace('modes:', "[m for m in modes if len(m) < 3 or m[0] == 'A']:")),
    ('pairs: no two vias', '    return 2 if stage >= E5 else 1', '    return 1'),
    ('pairs: the second via before the first', ORDER, ORDER.replace(' vias, modes)', ' vias[::-1], modes)')),
    ('pairs: the highest second via', ORDER, ORDER.replace(' vias, modes)', ' vias[:1], tuple(-v for v in vias[1:]), modes)')),
    ('pairs: the highest first via', ORDER, ORDER.replace(' vias, modes)', ' tuple(-v for v in vias[:1]), vias[1:], modes)')),
    ('pairs: modes before vias', ORDER, ORDER.replace(' vias, modes)', ' modes, vias)')),
    ('pairs: more vias before fewer', ORDER, ORDER.replace('len(vias)', '-len(vias)')),
    ('pairs: three deterministic legs as good as two', ORDER, ORDER.replace("modes.count('D')", "min(2, modes.count('D'))")),
    ('pairs: the third leg\'s mode is not counted', ORDER, ORDER.replace("modes.count('D')", "modes[:2].count('D')")),
    ('pairs: the third leg\'s length is not counted', ORDER, ORDER.replace('length_of(plan, source, legs)', 'length_of(plan, source, legs[:2])')),
    ('pairs: a length of at most 720', '    return 0, Route(source, legs, length_of(plan, source, legs))', '    return 0, Route(source, legs, min(720, length_of(plan, source, legs)))'),
    ('pairs: two vias only where one finds none', '            return best is None or length < best[0] or length == best[0] and best[1] > 0', '            return best is None'),
    ('pairs: two vias only where they are shorter', '            return best is None or length < best[0] or length == best[0] and best[1] > 0', '            return best is None or length < best[0]'),
    ('sheets: a source just outside is 10', SOURCE, SOURCE.replace('>=', '>').replace('if source in plan.dead', 'if source == plan.nodes or source in plan.dead')),
    ('sheets: a dead source is written', SOURCE, SOURCE.replace('source in plan.dead', 'False')),
    ('sheets: 12 before 10', SOURCE, SOURCE.replace('return 10, 0', 'return (12 if len(out) < 7 else 10), 0')),
    ('sheets: one byte more is asked for', '    if len(out) < len(sheet):', '    if len(out) <= len(sheet):'),
    ('sheets: 12 writes', '        return 12, 0\n', '        out[:] = sheet[:len(out)]\n        return 12, 0\n'),
    ('sheets: a byte past the sheet is written', '    out[:len(sheet)] = sheet', "    out[:len(sheet) + 1] = (sheet + b'\\0')[:len(out)]"),
    ('sheets: direct deterministic is not listed', '        elif kind_of(version, route.legs) != 0:', '        elif kind_of(version, route.legs) > 1:'),
    ('sheets: 11 is not listed', '        if number:\n            entries.append', '        if number == 10:\n            entries.append'),
    ('sheets: 10 is not listed', '        if number:\n            entries.append', '        if number == 11:\n            entries.append'),
    ('sheets: destinations in one byte', ENTRY, ENTRY.replace('two(destination)', 'two(destination % 256)')),
    ('sheets: vias in one byte', 'two(v) for v in vias[:size]', 'two(v % 256) for v in vias[:size]'),
    ('sheets: the source in one byte', '    follows = two(source)', '    follows = two(source % 256)'),
    ('listing: destinations of three digits', '[str(destination), str(kind)]', '[str(destination % 1000), str(kind)]'),
    ('listing: a source just outside is 10', '    if not number and source >= plan.nodes:\n        number = 9\n', '    if not number and source >= plan.nodes:\n        number = 9 + (source == plan.nodes)\n'),
    ('listing: fewer than two bytes are 9', "        return 'refused 1\\n'", "        return 'refused 9\\n'"),
    ('versions: 2 is written', WRITTEN, '    return 2 if stage >= E5'),
    ('versions: 4 is written', WRITTEN, '    return 4 if stage >= E5'),
    ('versions: planning writes 2', WRITES, WRITES.replace('written_version(stage)', '2')),
    ('versions: writing back writes 2', REWRITES, REWRITES.replace('written_version(stage)', '2')),
    ('versions: version 2 comes back as it is', REWRITES, REWRITES.replace('written_version(stage)', 'read.version')),
    ('versions: 2 is not read', READ, '[3] if stage >= E5'),
    ('versions: 3 is not read', READ, '[2] if stage >= E5'),
    ('versions: 1 is read too', READ, '[1, 2, 3] if stage >= E5'),
    ('versions: 0 is read too', READ, '[0, 2, 3] if stage >= E5'),
    ('versions: 255 is read too', READ, '[2, 3, 255] if stage >= E5'),
    ('versions: 3 is read as 2', VERSION, VERSION.replace('versions', '(2, 3)').replace('version = sheet[0]', 'version = 2')),
    ('versions: 2 is read as 3', VERSION, VERSION.replace('versions', '(2, 3)').replace('version = sheet[0]', 'version = 3')),
    ('versions: 1 is 13 before the plan is checked', LOOKS_UP, LOOKS_UP + "    if sheet[:1] == b'\\1':\n        return 13, None, None\n"),
    ('versions: 1 is 13 before the plan, writing back', WRITES_BACK, WRITES_BACK + "    if sheet[:1] == b'\\1':\n        return 13, 0\n"),
    ('versions: 9 before 13 for version 1', FOUND, FOUND.replace('return 13,', "return 9 if sheet[:1] == b'\\1' and destination >= plan.nodes else 13,")),
    ('versions: 12 before 13 for version 1', REWRITES, REWRITES.replace('return 13,', "return 12 if sheet[:1] == b'\\1' and len(out) < len(sheet) else 13,")),
    ('lookups: 7 bytes are too few', '    if len(sheet) < 7 or', '    if len(sheet) < 8 or'),
    ('lookups: any version', ' or sheet[0] not in versions:', ':'),
    ('lookups: the length field is not checked', LAYOUT, '    if len(sheet) - 3 != 4 + size * count:'),
    ('lookups: the count may be too small', LAYOUT, LAYOUT.replace('length != 4', 'length < 4')),
    ('lookups: a source just outside is accepted', '    if source >= shape.nodes:', '    if source > shape.nodes:'),
    ('lookups: kind 0 is accepted', '{1: 0, 2: 1,', '{0: 0, 1: 0, 2: 1,'),
    ('lookups: kind 6 is accepted', '{1: 0, 2: 1,', '{6: 1, 1: 0, 2: 1,'),
    ('lookups: kind 12 is accepted', '10: 0, 11: 0}', '10: 0, 11: 0, 12: 0}'),
    ('lookups: kind 1 may have a via', ABSENT, ABSENT.replace('absent)', 'absent) and kind != 1')),
    ('lookups: kinds 10 and 11 may have a via', ABSENT, ABSENT.replace('absent)', 'absent) and kind < 10')),
    ('lookups: an absent via judged by one byte', ABSENT, '        if any(via % 256 for via in absent):\n'),
    ('lookups: a destination outside is accepted', LISTED, LISTED.replace('destination >= shape.nodes or ', '')),
    ('lookups: a via outside is accepted', LISTED, LISTED.replace(' or any(v >= shape.nodes for v in vias)', '')),
    ('lookups: a via just outside is accepted', LISTED, LISTED.replace('v >= shape', 'v > shape')),
    ('lookups: the source may be listed', '        if destination == source: ', '        if False: '),
    ('lookups: an equal destination is accepted', 'destination <= entries[-1]', 'destination < entries[-1]'),
    ('lookups: a falling destination is accepted', 'destination <= entries[-1]', 'destination == entries[-1]'),
    ('lookups: the via may be the source', VIAS, '        if destination in vias'),
    ('lookups: the via may be the destination', VIAS, '        if source in vias'),
    ('lookups: a via compared with the ends in one byte', VIAS, VIAS.replace('source in vias', 'any(v % 256 in (source % 256, destination % 256) for v in vias)')),
    ('lookups: a destination compared with the source in one byte', '        if destination == source: ', '        if destination % 256 == source % 256: '),
    ('lookups: 9 before 13', FOUND, ''.join(FOUND.splitlines(True)[2:] + FOUND.splitlines(True)[:2])),
    ('lookups: a destination just outside is direct', FOUND, FOUND.replace('>=', '>')),
    ('lookups: eight entries alone are searched', 'for entry in read.entries:\n        if entry.destination', 'for entry in read.entries[:8]:\n        if entry.destination'),
    ('lookups: destinations compared in one byte', 'if entry.destination == destination:', 'if entry.destination % 256 == destination % 256:'),
    ('lookups: kinds 3 and 4 exchanged', 'if number == kind)', 'if number == {3: 4, 4: 3}.get(kind, kind))'),
    ('lookups: 10 for a dead destination is 11', '        return entry.kind, None', '        return 11, None'),
    ('kinds: leg one highest, written', KIND, KIND.replace('1 << i', '1 << len(legs) - 1 - i')),
    ('kinds: leg one highest, read', MODES, MODES.replace('>> i &', '>> kind // 16 - i &')),
    ('kinds: 10 and 11 are written', '16 * number      #', 'number      #'),
    ('kinds: a dead destination is 176', '16 * number      #', '176      #'),
    ('kinds: 160 and 176 are numbers', '        return entry.kind // 16, None', '        return entry.kind, None'),
    ('kinds: no clear choice is told as 10', '        return entry.kind // 16, None', '        return 10, None'),
    ('kinds: 0 is accepted', NO_KIND, NO_KIND.replace(' or kind == 0', '')),
    ('kinds: 48 and more are accepted', NO_KIND, NO_KIND.replace('vias > 2', 'vias > 3')),
    ('kinds: 20 is accepted', NO_KIND, NO_KIND.replace('>= 2 **', '> 2 **')),
    ('kinds: any bits are accepted', NO_KIND, NO_KIND.replace('bits >= 2 ** (vias + 1) or ', '')),
    ('kinds: 2 is accepted', NO_KIND, NO_KIND.replace('bits >= 2 ** (vias + 1) or ', 'kind != 2 and bits >= 2 ** (vias + 1) or ')),
    ('kinds: 10 and 11 are accepted', '    if kind in (160, 176):\n        return 0', '    if kind in (10, 11, 160, 176):\n        return 0'),
    ('kinds: 176 is not accepted', '    if kind in (160, 176):\n        return 0', '    if kind == 160:\n        return 0'),
    ('kinds: 161 is accepted', '    if kind in (160, 176):\n        return 0', '    if kind in (160, 161, 176):\n        return 0'),
    ('vias: two equal ones are accepted', ' or len(set(vias)) < len(vias)', ''),
    ('vias: the second is not checked', LISTED, LISTED.replace('in vias)', 'in vias[:1])')),
    ('vias: the second may be the source', VIAS, VIAS.replace('source in vias', 'source in vias[:1]')),
    ('vias: the second may be the destination', VIAS, VIAS.replace('destination in vias', 'destination in vias[:1]')),
    ('vias: equal in one byte', ' or len(set(vias)) < len(vias)', ' or len({v % 256 for v in vias}) < len(vias)'),
    ('vias: the absent second one is not judged', ABSENT, '        if any(absent[:2 - vias_used] if vias_used != 1 else []):\n'),
    ('vias: the absent second one is judged where both are absent alone', ABSENT, '        if any(absent) and not (len(absent) == 1 and version == 3):\n'),
    ('vias: the first absent one alone is judged', ABSENT, '        if any(absent[:1]):\n'),
    ('vias: the second is written in one byte', 'two(v) for v in vias[:size]', 'two(v if i == 0 else v % 256) for i, v in enumerate(vias[:size])'),
    ('vias: exchanged where they are written', '    vias = tuple(vias) + (0, 0)\n', '    vias = tuple(vias)[::-1] + (0, 0)\n'),
    ('vias: exchanged where they are read', '    targets = list(entry.vias) + [entry.destination]', '    targets = list(entry.vias)[::-1] + [entry.destination]'),
    ('entries: five bytes are given of version 3', 'entries.append(Entry(destination, kind, vias, at, at + size))', 'entries.append(Entry(destination, kind, vias, at, at + 5))'),
    ('entries: seven bytes are given of version 2', 'entries.append(Entry(destination, kind, vias, at, at + size))', 'entries.append(Entry(destination, kind, vias, at, at + 7))'),
    ('entries: 12 by the size read', '    return put(sheet_bytes(version, read.source, entries), out)', '    return (0, len(out)) if len(out) == len(sheet) and read.version == 2 else put(sheet_bytes(version, read.source, entries), out)'),
    ('entries: a listed 11 is planned anew', '        number, legs = entry_answer(read.version, entry)\n        kind', '        number, legs = entry_answer(read.version, entry)\n        if number == 11 and pair_in(stage, plan, read.source, entry.destination)[1]:\n            continue\n        kind'),
    ('listing: one via field', "fields = vias + ['-'] * (most_vias(stage) - len(vias))", "fields = (vias + ['-'])[:1]"),
    ('listing: an absent second via is 0', "fields = vias + ['-'] * (most_vias(stage) - len(vias))", "fields = (vias or ['-']) + ['0'] * (2 - max(1, len(vias)))"),
    ('listing: vias exchanged', "fields = vias + ['-'] * (most_vias(stage) - len(vias))", "fields = vias[::-1] + ['-'] * (most_vias(stage) - len(vias))"),
    ('listing: 10 and 11 for 160 and 176', 'kind = refusal_kind(version, number) if number else kind_of(version, route.legs)\n        length', 'kind = number if number else kind_of(version, route.legs)\n        length'),
    ('writing back: 12 before 13', '        return 13, 0\n    version', '        return (12 if len(out) < len(sheet) else 13), 0\n    version'),
    ('conversions: from even places', ODD_HALF, ODD_HALF.replace('== 1', '== 0')),
    ('conversions: from every place', ODD_HALF, ODD_HALF.replace('% 2 == 1', '>= 0')),
    ('conversions: from no place', ODD_HALF, '    return False'),
    ('conversions: by the node number', ODD_HALF, ODD_HALF.replace('a[dim] % 2', 'start % 2')),
    ('conversions: by the target\'s coordinate', ODD_HALF, ODD_HALF.replace('a[dim] % 2', 'b[dim] % 2')),
    ('conversions: by the target\'s number', ODD_HALF, ODD_HALF.replace('a[dim] % 2', 'target % 2')),
    ('conversions: by the coordinates\' sum', ODD_HALF, ODD_HALF.replace('a[dim] % 2', 'sum(a) % 2')),
    ('conversions: by X', ODD_HALF, ODD_HALF.replace('a[dim] % 2', 'a[0] % 2')),
    ('conversions: by the second bit', ODD_HALF, ODD_HALF.replace('a[dim] % 2', 'a[dim] // 2 % 2')),
    ('conversions: places from 8 on are even', ODD_HALF, ODD_HALF.replace('% 2 == 1', 'in (1, 3, 5, 7)')),
    ('conversions: the last place is even', ODD_HALF, ODD_HALF.replace('== 1 for', '== 1 and a[dim] < shape.extents[dim] - 1 for')),
    ('conversions: X alone', ODD_HALF, ODD_HALF.replace('range(3)', 'range(1)')),
    ('conversions: Y alone', ODD_HALF, ODD_HALF.replace('range(3)', '(1,)')),
    ('conversions: Z is not judged', ODD_HALF, ODD_HALF.replace('range(3)', 'range(2)')),
    ('conversions: Y is not judged', ODD_HALF, ODD_HALF.replace('range(3)', '(0, 2)')),
    ('conversions: the first dimension travelled alone', ODD_HALF, ODD_HALF.replace('range(3)', '[d for d in range(3) if a[d] != b[d]][:1]')),
    ('conversions: the last dimension travelled alone', ODD_HALF, ODD_HALF.replace('range(3)', '[d for d in range(3) if a[d] != b[d]][-1:]')),
    ('conversions: all dimensions travelled', ODD_HALF, ODD_HALF.replace('any(', 'all(').replace('range(3)', 'range(3) if a[dim] != b[dim]')),
    ('conversions: half of an open dimension too', ODD_HALF, ODD_HALF.replace('shape.wrapped(dim) and ', '')),
    ('conversions: the wrap of X for all', ODD_HALF, ODD_HALF.replace('wrapped(dim)', 'wrapped(0)')),
    ('conversions: the wrap of the next dimension', ODD_HALF, ODD_HALF.replace('wrapped(dim)', 'wrapped((dim + 1) % 3)')),
    ('conversions: half and more', ODD_HALF, ODD_HALF.replace('== shape', '>= shape')),
    ('conversions: half and less', ODD_HALF, ODD_HALF.replace('2 * abs', '0 < 2 * abs').replace('== shape', '<= shape')),
    ('conversions: rings with no half, one less', ODD_HALF, ODD_HALF.replace('== shape.extents[dim]', '== shape.extents[dim] // 2 * 2')),
    ('conversions: rings with no half, one more', ODD_HALF, ODD_HALF.replace('== shape.extents[dim]', '== (shape.extents[dim] + 1) // 2 * 2')),
    ('conversions: half of the extent of X', ODD_HALF, ODD_HALF.replace('shape.extents[dim]', 'shape.extents[0]')),
    ('conversions: the target behind the start alone', ODD_HALF, ODD_HALF.replace('abs(a[dim] - b[dim])', '(a[dim] - b[dim])')),
    ('conversions: the target before the start alone', ODD_HALF, ODD_HALF.replace('abs(a[dim] - b[dim])', '(b[dim] - a[dim])')),
    ('conversions: rings of 4 are kept', ODD_HALF, ODD_HALF.replace('== 1 for', '== 1 and shape.extents[dim] != 4 for')),
    ('conversions: rings of 6 are kept', ODD_HALF, ODD_HALF.replace('== 1 for', '== 1 and shape.extents[dim] != 6 for')),
    ('conversions: rings of 8 are kept', ODD_HALF, ODD_HALF.replace('== 1 for', '== 1 and shape.extents[dim] != 8 for')),
    ('conversions: rings of 10, 12 and 14 are kept', ODD_HALF, ODD_HALF.replace('== 1 for', '== 1 and shape.extents[dim] not in (10, 12, 14) for')),
    ('conversions: rings of 16 are kept', ODD_HALF, ODD_HALF.replace('== 1 for', '== 1 and shape.extents[dim] != 16 for')),
    ('conversions: leg two from the source', FROM, FROM.replace('starts(source, legs)', '[source, source]')),
    ('conversions: both legs from the source to the destination', FROM, FROM.replace('start, target)', 'source, legs[-1][0])')),
    ('conversions: leg one to the destination', FROM, FROM.replace('start, target)', 'start, legs[-1][0])')),
    ('conversions: leg one alone', FROM, FROM.replace('zip(starts(source, legs), legs)', 'list(zip(starts(source, legs), legs))[:1]')),
    ('conversions: the last leg alone', FROM, FROM.replace('zip(starts(source, legs), legs)', 'list(zip(starts(source, legs), legs))[-1:]')),
    ('conversions: adaptive legs too', FROM, FROM.replace("mode == 'D' and ", '')),
    ('conversions: adaptive legs alone', FROM, FROM.replace("'D'", "'A'")),
    ('conversions: kinds 3 and 4 exchanged', FROM, FROM.replace(' legs))', ' [(leg[0], other[1]) for leg, other in zip(legs, legs[::-1])]))')),
    ('conversions: kind 1 is kept', KEPT, KEPT.replace('number == 10', 'entry.kind in (1, 10)')),
    ('conversions: kind 3 is kept', KEPT, KEPT.replace('number == 10', 'entry.kind in (3, 10)')),
    ('conversions: kind 4 is kept', KEPT, KEPT.replace('number == 10', 'entry.kind in (4, 10)')),
    ('conversions: kind 5 is kept', KEPT, KEPT.replace('number == 10', 'entry.kind in (5, 10)')),
    ('conversions: kind 5 by one leg is kept', FROM, FROM.replace('any(', '(all if entry.kind == 5 else any)(')),
    ('conversions: kind 11 is kept', KEPT, KEPT.replace('return False', 'return True')),
    ('conversions: kind 10 is lost', KEPT, KEPT.replace('return True', 'return False')),
    ('conversions: kind 11 is kept where there is still no route', JUDGED, JUDGED.replace('entry) for', 'entry) or entry.kind == 11 and '
     'pair_in(stage, plan, read.source, entry.destination)[0] for')),
    ('conversions: kind 11 is kept at a dead destination', JUDGED, JUDGED.replace('entry) for', 'entry) or entry.kind == 11 and entry.destination in plan.dead for')),
    ('conversions: kind 10 is lost where it is not dead', JUDGED, JUDGED.replace('entry) for', 'entry) and (entry.kind != 10 or entry.destination in plan.dead) for')),
    ('conversions: a dead source is lost', JUDGED, JUDGED.replace('not all', 'read.source in plan.dead or not all')),
    ('conversions: a dead via is lost', JUDGED, JUDGED.replace('not all', 'any(plan.dead & set(entry.vias) for entry in read.entries) or not all')),
    ('conversions: legs that are not clear are lost', JUDGED, JUDGED.replace('entry) for', 'entry) and (entry.kind > 9 or all(clear(stage, plan, start, leg) for start, leg in '
     'zip(starts(read.source, entry_answer(1, entry)[1]), entry_answer(1, entry)[1]))) for')),
    ('conversions: the first entry alone', JUDGED, JUDGED.replace('read.entries)', 'read.entries[:1])')),
    ('conversions: the last entry alone', JUDGED, JUDGED.replace('read.entries)', 'read.entries[-1:])')),
    ('conversions: the last entry is not judged', JUDGED, JUDGED.replace('read.entries)', 'read.entries[:-1])')),
    ('conversions: 255 entries alone', JUDGED, JUDGED.replace('read.entries)', 'read.entries[:255])')),
    ('conversions: 4,094 entries alone', JUDGED, JUDGED.replace('read.entries)', 'read.entries[:4094])')),
    ('conversions: lost only where all entries are', JUDGED, JUDGED.replace('not all(', 'read.entries and not any(')),
    ('conversions: lost entries are left out', JUDGED + PUT, '    good = [entry for entry in read.entries if kept(plan.shape, read.source, entry)]\n'
     '    return put(sheet_bytes(2, read.source, [sheet[entry.start:entry.end] for entry in good]), out)'),
    ('conversions: entries from the first lost one on are left out', JUDGED, '    good = [kept(plan.shape, read.source, entry) for entry in read.entries]\n'
     '    if not all(good):\n        return put(sheet_bytes(2, read.source, [sheet[entry.start:entry.end] for entry in read.entries[:good.index(False)]]), out)\n'),
    ('conversions: no entries are 17', JUDGED, JUDGED.replace('not all', 'not read.entries or not all')),
    ('conversions: no entries are 13', CONVERTED, CONVERTED.replace('read is None', 'read is None or not read.entries')),
    ('conversions: 17 is 13', JUDGED, JUDGED.replace('17', '13')),
    ('conversions: 12 before 17', JUDGED, JUDGED.replace('return 17', 'return 12 if len(out) < len(sheet) else 17')),
    ('conversions: 12 before 13', CONVERTED, CONVERTED.replace('return 13', 'return 12 if len(out) < len(sheet) else 13')),
    ('conversions: 17 before 13', CONVERTED, CONVERTED.replace('        return', '        for end in range(12, len(sheet) + 1, 5):\n'
     "            part = read_route_sheet(plan.shape, b'\\1' + two(end - 3) + sheet[3:5] + two((end - 7) // 5) + sheet[7:end], [1])\n"
     '            if part and not all(kept(plan.shape, part.source, entry) for entry in part.entries):\n                return 17, 0\n        return')),
    ('conversions: 13 before the plan is checked', CONVERTS, CONVERTS + "    if sheet[:1] != b'\\1' or len(sheet) < 7:\n        return 13, 0\n"),
    ('conversions: 12 before the plan is checked', CONVERTS, CONVERTS + '    if len(out) < len(sheet):\n        return 12, 0\n'),
    ('conversions: a refusal writes', JUDGED, JUDGED.replace('        return', '        out[:1] = bytes([2])[:len(out)]\n        return')),
    ('conversions: 13 writes', CONVERTED, CONVERTED.replace('        return', '        out[:1] = bytes([2])[:len(out)]\n        return')),
    ('conversions: 12 writes the version', PUT, '    out[:1] = bytes([2])[:len(out)]\n' + PUT),
    ('conversions: version 1 is written', PUT, PUT.replace('[2]', '[1]')),
    ('conversions: version 3 is written', PUT, PUT.replace('[2]', '[3]')),
    ('conversions: one byte more is asked for', PUT, '    if len(out) == len(sheet):\n        return 12, 0\n' + PUT),
    ('conversions: 256 bytes alone are written', PUT, PUT.replace('sheet[1:])', 'sheet[1:256]) + bytes(out[256:len(sheet)])')),
    ('conversions: the largest sheet is 13', CONVERTED, CONVERTED.replace('read is None', 'read is None or len(read.entries) == 4095')),
    ('conversions: kinds 3 and 4 are written exchanged', PUT, '    sheet = bytearray(sheet)\n    for entry in read.entries:\n'
     '        sheet[entry.start + 2] = {3: 4, 4: 3}.get(entry.kind, entry.kind)\n' + PUT),
    ('conversions: planned anew', JUDGED + PUT, '    return put(planned_sheet(stage, plan, read.source), out)'),
    ('conversions: version 2 is read too', CONVERTED, CONVERTED.replace('[1]', '[1, 2]')),
    ('conversions: version 2 alone is read', CONVERTED, CONVERTED.replace('[1]', '[2]')),
    ('conversions: version 3 is read too', CONVERTED, read_first("(b'\\1' if sheet[:1] == b'\\3' else sheet[:1]) + sheet[1:]")),
    ('conversions: version 0 is read too', CONVERTED, read_first("(b'\\1' if sheet[:1] == b'\\0' else sheet[:1]) + sheet[1:]")),
    ('conversions: any version is read', CONVERTED, read_first("b'\\1' + sheet[1:]")),
    ('conversions: the version\'s lowest bits', CONVERTED, read_first('bytes([sheet[0] & 127]) + sheet[1:] if sheet else sheet')),
    ('conversions: bytes behind the sheet', CONVERTED, read_first('sheet[:3 + word(sheet, 1)] if len(sheet) > 6 else sheet')),
    ('conversions: the length field is not checked', CONVERTED, read_first('sheet[:1] + two(len(sheet) - 3) + sheet[3:] if len(sheet) > 6 else sheet')),
    ('conversions: the count is not checked', CONVERTED, read_first('sheet[:5] + two((len(sheet) - 7) // 5) + sheet[7:] if len(sheet) > 6 else sheet')),
    ('conversions: the source in one byte', CONVERTED, read_first("sheet[:3] + b'\\0' + sheet[4:]")),
    ('conversions: 17 of kind 11 before 13', CONVERTED, CONVERTED.replace('return 13', "return 17 if sheet[:1] == b'\\1' and 11 in sheet[9::5] else 13")),
    ('lost: the last one', LOST, LOST.replace('next(i', 'max(i')),
    ('lost: counted from 1', LOST, LOST.replace('next(i', 'next(i + 1')),
    ('lost: the destination', LOST, LOST.replace('next(i', 'next(entry.destination')),
    ('lost: where it begins', LOST, LOST.replace('next(i', 'next(entry.start')),
    ('lost: in one byte', LOST, LOST.replace('next(i', 'next(i % 256')),
    ('lost: the first deterministic one', LOST, LOST.replace('if not ref.kept(shape, read.source, entry)', 'if entry.kind in (1, 3, 4, 5, 11)')),
    ('lost: the first of kind 11', LOST, LOST.replace('if not ref.kept(shape, read.source, entry)', 'if entry.kind == 11 or not any(e.kind == 11 for e in read.entries)')),
    ('lost: how many are kept', LOST, LOST.replace('next(i for i, entry in enumerate(read.entries) if not', 'sum(1 for entry in read.entries if')),
    ('lost: 17 is told as 13', LOST_NUMBER, " if number == 17 else 0} if number != 17 else {'number': 13, 'entry': 0}"),
    ('lost: the number of entries where none is', LOST_NUMBER, ' if number == 17 else 0 if number else (len(raw(sheet)) - 7) // 5}'),
]


def source(name):
    with open(os.path.join(HERE, name + '.py')) as f:
        return f.read()


def module(name, text):
    """The module of that text, which the next ones import under the name."""
    made = types.ModuleType(name)
    exec(compile(text, name, 'exec'), made.__dict__)
    sys.modules[name] = made
    return made


def answers_with(old, new):
    """answers.py, with the slip in the first of the modules that has the text."""
    texts = {name: source(name) for name in ('reference', 'vectors', 'answers')}
    slipped = next(name for name in texts if old in texts[name])
    texts[slipped] = texts[slipped].replace(old, new, 1)
    return [module(name, text) for name, text in texts.items()][-1]


def stored():
    """(case, answer), the quick ones first."""
    with open(STORED) as f:
        lines = [line.rstrip('\n').rsplit(' => ', 1) for line in f]
    lines = [(case, answer) for case, answer in lines if answer != 'unreadable' and ' note=' not in case]
    random.Random(1).shuffle(lines)
    return sorted(lines, key=lambda line: (line[0].split(' ')[0] in SLOW, len(line[0]) > 400))


def in_turn(name, lines):
    """The cases, those of the operation that the slip is in first."""
    operation = TRIED_FIRST.get(name.split(':')[0])
    return sorted(lines, key=lambda line: line[0].split(' ')[0] != operation) if operation else lines


def noticed(answers, lines):
    """How many cases were answered until one was answered otherwise; 0 where none was."""
    for i, (case, wanted) in enumerate(lines, 1):
        signal.setitimer(signal.ITIMER_VIRTUAL, SECONDS)
        try:
            if answers.answer(case) != wanted:
                return i
        except Exception:
            return i
    return 0


def too_long(*_):
    raise TimeoutError


def main():
    lines, missed = stored(), 0
    signal.signal(signal.SIGVTALRM, too_long)
    assert not noticed(answers_with(SEARCHES, BY_LEGS + SEARCHES), [line for line in lines if line[0].split(' ')[0] == 'takeback'])        # it is no slip
    words = ' '.join(sys.argv[1:])
    for name, old, new in SLIPS:
        if words in name:
            found = noticed(answers_with(old, new), in_turn(name, lines))
            missed += not found
            print('%-52s %s' % (name, found or 'NOT NOTICED'), flush=True)
    sys.exit(1 if missed else 0)


main()
