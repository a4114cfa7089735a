#!/usr/bin/env python3
"""large.py SHADOWS [--seed N] [--count N]: vectors of machines that are too large for reference.py, answered by SHADOWS, which is shadows.rs built.

For each of N plans of 65 to 4,096 nodes the sheets of a few sources, and for a destination of each the pair, a run along the sheet, and rarely the
source's listing: lines as vectors.py writes them.
"""
import argparse
import random
import subprocess
import sys
import tempfile

sys.dont_write_bytecode = True
import answers
import reference as ref
import vectors
from answers import STAGE
from lines import plan_of

SOURCES = 4
VERSION = ref.written_version(STAGE)


def large_plan(rng):
    """Few faults, as many as can be, or those round one node; of either plan version."""
    while True:
        extents = rng.choice([[16, 16, 16], [rng.randint(1, 16) for _ in range(3)], [rng.choice([4, 8, 12, 16]) for _ in range(3)]])
        shape = ref.Shape(extents, vectors.random_wrap(rng, extents, rng.choice([0, 0.5, 1, 1])))
        if shape.nodes > 64:
            break
    near = rng.randrange(shape.nodes)
    faults = set()
    for _ in range(rng.choice([1, 3, 10, 40, 256, 400])):
        node = vectors.some_node(rng, shape, near) if rng.random() < 0.3 else rng.randrange(shape.nodes)
        kind = rng.choice([0, 0, 1, 1, 2, 2, 3])
        if ref.fault_exists(shape, 1, node, kind, False):
            faults.add((node, kind))
    faults = sorted(rng.sample(sorted(faults), min(256, len(faults))))
    return plan_of(extents, shape.wrap, *faults, weights=[rng.randint(1, 8) for _ in range(3)] if rng.random() < 0.6 else None)


def all_sheets(shadows, plan):
    """The sheet of each source that is not dead."""
    with tempfile.NamedTemporaryFile() as out:
        subprocess.run([shadows, 'all', '--stage', ref.STAGES[STAGE], '--out', out.name], input=plan, stdout=subprocess.DEVNULL, check=True)
        data = out.read()
    sheets, at = {}, 0
    while at < len(data):
        end = at + 3 + ref.word(data, at + 1)
        sheets[ref.word(data, at + 3)] = data[at:end]
        at = end
    return sheets


def listing(plan, sheet):
    """The listing's text, from the sheet."""
    source, lines = ref.word(sheet, 3), ['%d %d %d' % (ref.word(sheet, 3), plan.nodes, len(plan.faults))]
    entries = {entry.destination: entry for entry in ref.read_route_sheet(plan.shape, sheet, [VERSION]).entries}
    for destination in range(plan.nodes):
        entry = entries.get(destination)
        number, legs = ref.entry_answer(VERSION, entry) if entry else (0, ((destination, 'A'),))
        vias = [] if number else [target for target, _ in legs[:-1]]
        fields = vias + ['-'] * (ref.most_vias(STAGE) - len(vias))
        lines.append(' '.join(map(str, [destination, entry.kind if entry else 0, *fields, '-' if number else ref.length_of(plan, source, legs)])))
    return ''.join(line + '\n' for line in lines)


def of_sheet(rng, given, plan, sheet):
    """The vectors of one sheet: (operation, given, wanted)."""
    source = ref.word(sheet, 3)
    listed = [ref.word(sheet, at) for at in range(7, len(sheet), 7)]
    destination = rng.choice(listed) if listed and rng.random() < 0.8 else rng.randrange(plan.nodes)
    yield 'sheet', {'plan': given.hex(), 'source': source, 'room': len(sheet)}, {'number': 0, 'size': len(sheet), 'out': sheet.hex()}
    number, _, legs = ref.lookup_route(STAGE, given, sheet, destination)
    ends = {'plan': given.hex(), 'source': source, 'destination': destination}
    if number:
        yield 'pair', ends, {'number': number}
        yield 'sheetrun', dict(ends, calls='-'), {'number': number}
        return
    yield 'pair', ends, {'number': 0, 'legs': vectors.legs_text(legs), 'length': ref.length_of(plan, source, legs)}
    calls = 'w%s,s00' % vectors.whole_run(rng, STAGE, plan.shape, ref.new_packet(STAGE, source, legs)).hex()
    start, end = ref.lookup_entry(STAGE, given, sheet, destination)
    yield 'sheetrun', dict(ends, calls=calls), {'number': 0, 'size': len(sheet), 'entry': vectors.hex_text(sheet[start:end]),
                                                **answers.run_fields(plan.shape, source, legs, answers.calls_in(calls))}
    if rng.random() < 0.1:
        yield 'listing', {'input': (ref.two(source) + given).hex()}, {'text': vectors.listing_text(listing(plan, sheet))}


def main():
    parser = argparse.ArgumentParser(description=__doc__, formatter_class=argparse.RawDescriptionHelpFormatter)
    parser.add_argument('shadows')
    parser.add_argument('--seed', default='1')
    parser.add_argument('--count', type=int, default=10, help='plans')
    options = parser.parse_args()
    for i in range(options.count):
        rng = random.Random('large/%s/%d' % (options.seed, i))
        given = large_plan(rng)
        plan = ref.read_plan(STAGE, given)[1]
        sheets = all_sheets(options.shadows, given)
        for source in rng.sample(sorted(sheets), min(SOURCES, len(sheets))):
            for vector in of_sheet(rng, given, plan, sheets[source]):
                print(vectors.line(*vector))


if __name__ == '__main__':
    main()
