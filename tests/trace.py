#!/usr/bin/env python3
"""Holds every load and store of the compiled archive against docs/TIMING.md.

    tests/trace.py [--archive FILE] [--tables N] [--seed N] [--stop N]

The proofs speak of what a call answers and leaves, not of what it reads. Here
valgrind's lackey writes a line for each load and each store while trace.c, linked
with the archive, makes calls over random tables of either kind, damaged words,
packets, tally records and lists. Of each call is seen (loads.py):

- A lookup by values, by packet or with tallies loads four words of the front, the
  number and action of the rule that decides, and two words of each cell that it
  counts: its end, and its next or down. These are 6 + 2 x reads words, counted as
  often as they are loaded; a load of 8 bytes is one of two words. It writes none.
- Over damaged words it loads the cells of the walk, which stops after c cells of one
  field, and of the front no other words than these.
- A lookup that is refused with 7, 11 or 14 touches no word of the store.
- Of a packet it loads the bytes that TIMING names. Of a tally record it loads the keys
  once, up to the one that is held, and writes the one place that counts.
- A lookup over an image, by values, by packet or with tallies, loads two words of the front, the
  one that names the kind twice, two of the rule's row, and of each block that it counts the eight
  ends and one link: 5 + 9 x blocks words. So it touches a line of 64 bytes for each block and at
  most three more. Over damaged words it loads the blocks of the walk, at most 8 in a field, and no
  others. It writes none.
- A list of edits that is refused writes no word at all, and goes over the cells once, for the
  check. One that is done writes no word of a cell more often than a single edit does. The edits
  are never written; none behind the last is touched, and none is read where they are none or more
  than 32.
- A freeze writes every word of its image and none behind them; refused, it touches none. So
  does a carrying with its new store, and it writes no word of the old one.
- A header or a record of a capture writes the bytes that it says and none behind them, and
  loads none of its output; a record loads the bytes of its data and no others. Refused, it
  touches neither.
- A scan loads words of every record of its list, no more than the list has, and touches
  nothing else that could be lent.
- Dead and worst go over the cells once for the check. Then dead goes at most once through the
  tree, and worst once.
- The worst of an image goes over its words once for the image check. Then it looks at the rows
  alone, and at no block again.
- Check, read, rule_at, dead, worst, cells, image_words, image_check and image_worst write nothing;
  nor does a start or an edit that is refused.
- No call touches a word behind its store or in front of it, nor any memory but what
  it was lent, its stack, and for loads the program's constants.

The archive is that for the machine's own processor. The last line counts calls.
"""

import argparse
import random
import sys
import tempfile
import time
from collections import Counter

from calls import ARCHIVE, Program, Script, cannot
from image import BLOCK, DOWN, KEYS, image
from laid import BEGIN, CELL, KIND, kind_of, laid, link_of
from lists import puts, takes
from loads import (CAPTURE_ADD, CAPTURE_BEGIN, CARRY, CELLS, CHECK, CLEAR, DEAD, DELETE, DIFFERENCE,
                   EDIT_LIST, FREEZE, IMAGE_CHECK, IMAGE_LOOKUP, IMAGE_PACKET, IMAGE_TALLY,
                   IMAGE_WORDS, IMAGE_WORST, INSERT, LOOKUP, LOOKUP_PACKET, LOOKUP_TALLY, PREFIX,
                   READ, RULE_AT, SCAN, START, START_WITH, WORST, Fault, Touched, see)
from reference import (DEFAULT, KINDS, LARGE, LEAST_CELLS, PLACES, SMALL, TOPS, Rule, count_cells,
                       default_rule, words_needed)
from tables import World, packet_of, random_packet, values_above, values_near

# each call's name, and the answers that a run has to see
CALLS = {
    START: ('start', {0, 8}), START_WITH: ('start_with', {0, 8}), CARRY: ('carry', {0, 6, 8, 9}),
    INSERT: ('insert', {0, 1, 2, 3, 5, 6, 9}), DELETE: ('delete', {0, 1, 4, 9}),
    EDIT_LIST: ('edit_list', {0, 1, 2, 3, 4, 5, 6, 9, 15}),
    CHECK: ('check', {0, 9}), READ: ('read', {0, 1, 4, 9}), RULE_AT: ('rule_at', {0, 4, 9}),
    DEAD: ('dead', {0, 1, 4, 9}), WORST: ('worst', {0, 9}), CELLS: ('cells', {0, 9}),
    LOOKUP: ('lookup', {0, 9, 11}), LOOKUP_PACKET: ('lookup_packet', {0, 7, 9, 14}),
    LOOKUP_TALLY: ('lookup_packet_tally', {0, 7, 9, 13, 14}), SCAN: ('scan', {0, 11}),
    PREFIX: ('prefix', {0, 10}), CLEAR: ('tallies_clear', set()),
    DIFFERENCE: ('tally_difference', set()), IMAGE_WORDS: ('image_words', {0, 9}),
    FREEZE: ('freeze', {0, 8, 9}), IMAGE_CHECK: ('image_check', {0, 9}),
    IMAGE_LOOKUP: ('image_lookup', {0, 9, 11}),
    IMAGE_PACKET: ('image_lookup_packet', {0, 7, 9, 14}),
    IMAGE_TALLY: ('image_lookup_packet_tally', {0, 7, 9, 13, 14}),
    IMAGE_WORST: ('image_worst', {0, 9}),
    CAPTURE_BEGIN: ('capture_begin', {0, 8}), CAPTURE_ADD: ('capture_add', {0, 8, 12})}
BEHIND = 0xA5A5A5A5
FULL = (0,) * 6, TOPS


# ---- stores

def tables(program, rng, count):
    """Random tables, those that are full, and those that have no room: c, the rules with the
    default, the words, and whether all calls are made, which in a large store go over many words
    each: else those that go over all of its words are left out."""
    script = Script()
    made = [(SMALL, 60, [Rule(n, n, *FULL) for n in range(64)], True), (SMALL, LEAST_CELLS, [], True),
            (LARGE, LEAST_CELLS, [], True), (LARGE, 60, [Rule(n, n, *FULL) for n in range(512)], False)]
    for i in range(count):
        c = 1920 if i % 6 == 5 else rng.choice((LEAST_CELLS, 20, 40, 60, 120, 300))
        world = World(rng)
        numbers = rng.sample(range(65535), rng.randint(0, 40 if c == 1920 else 10))
        made.append((LARGE if i % 5 == 0 else SMALL, c, [world.rule(number) for number in numbers],
                     i % 5 > 0 or i == 10))
    for kind, c, rules, _ in made:
        size = words_needed(c, kind)
        script.fill([0] * size if kind == LARGE else laid(c, [default_rule(7)], kind))
        if kind == LARGE:
            script.call(START_WITH, c, 7)
        else:
            script.call(CHECK)
        for rule in rules:
            script.insert(rule)
        script.get(size)
    given, at = program.run(script), 0
    for kind, c, rules, whole in made:
        size = words_needed(c, kind)
        held = [rule for rule, answer in zip(rules, given[at + 1:]) if answer == 0]
        at += 1 + len(rules)
        yield c, held + [default_rule(7)], list(given[at:at + size]), whole
        at += size


def damaged(rng, c, words):
    """The words with some changed, most of them links; now and then they name another kind."""
    words, kind = list(words), kind_of(words)
    if rng.random() < 0.1:
        words[KIND] = rng.choice((0, 1, 4, 5, rng.getrandbits(32)))
    for _ in range(rng.choice((1, 2, 5, 20))):
        place = kind.front + CELL * rng.randrange(c) + rng.randrange(3)
        words[rng.choice((place, place, place, link_of(kind, BEGIN), 1))] = rng.choice((
            0, 1, c - 1, c, rng.randrange(c), rng.randrange(c), rng.choice(words),
            rng.getrandbits(32)))
    return words


def maze(rng, c, words, end):
    """The front of these words, and a ring of all c cells in an order that is drawn. All
    their ends are 0 but that of the last, and all lead down to the first one. So a
    field's value of 0 reads one cell, one up to `end` reads c cells, and one above it
    goes round."""
    kind = kind_of(words)
    front = kind.front
    words = words[:front] + [0] * (CELL * c)
    ring = rng.sample(range(c), c)
    for cell, following in zip(ring, ring[1:] + ring[:1]):
        words[front + CELL * cell:front + CELL * cell + 3] = 0, following, ring[0]
    words[link_of(kind, BEGIN)], words[front + CELL * ring[-1]] = ring[0], end
    return words


# ---- the calls that are made

def some_record(rng, rules):
    """A tally record: held and unused places, and now and then no unused one."""
    keys = [rng.choice((4294967295, 65536, rng.randrange(65536), rng.choice(rules).number))
            for _ in range(PLACES)]
    if rng.random() < 0.3:
        keys = [rng.randrange(65536) for _ in keys]
    return (*keys, *(rng.getrandbits(32) for _ in range(2 * PLACES)))


def lookups(script, rng, rules, count, image=False):
    """Lookups over the words of a store, or of an image."""
    op = IMAGE_LOOKUP if image else LOOKUP
    for _ in range(count):
        values = values_near(rng, rules)
        script.call(op, *values)
        script.packet(packet_of(values), image=image)
        script.packet(random_packet(rng, rules), image=image)
        script.packet(random_packet(rng, rules), some_record(rng, rules), image)
    # cut short: to the first 20 bytes, and anywhere behind them
    script.packet(packet_of(values)[:20], image=image)
    script.packet(packet_of(values, behind=bytes(20))[:rng.randint(20, 43)], image=image)
    script.packet(packet_of(values)[:rng.randint(20, 23)], some_record(rng, rules), image)
    script.call(op, *values_above(rng, values))


def readers(script, rng, rules):
    script.call(CHECK)
    script.call(CELLS)
    script.call(WORST)
    for number in (rng.choice(rules).number, rng.randrange(65535), 65536):
        script.call(READ, number)
        script.call(DEAD, number)
    script.call(DEAD, rng.choice((DEFAULT, rng.choice(rules).number)))
    for place in (0, 1, len(rules), 65):
        script.call(RULE_AT, place)


def refused_edits(script, rng, rules):
    """Edits that are refused over any words."""
    rule = rules[0]
    script.insert(Rule(65535, 1, *FULL))
    script.insert(Rule(rule.number, 1, *FULL))
    script.insert(Rule(7, 1, (1, 0, 0, 0, 0, 0), (0, *TOPS[1:])))
    script.insert(Rule(7, 1, (0, 0, 0, 0, 1, 0), TOPS))
    script.call(DELETE, 65535)
    if all(rule.number != 8 for rule in rules):
        script.call(DELETE, 8)
    for c in (LEAST_CELLS - 1, 65537, 1 << 31,
              max((script.len - LARGE.front) // CELL + 1, LEAST_CELLS)):
        script.call(START, c)
        script.call(START_WITH, c, 3)


def taken_edits(script, rng, c, rules, words):
    """Edits that are mostly taken, each over the same words."""
    world = World(rng)
    taken = {rule.number for rule in rules}
    for number in rng.sample(sorted(set(range(200)) - taken), 3):
        script.fill(words)
        script.insert(world.rule(number))
    script.fill(words)
    script.call(DELETE, rng.choice(rules).number)
    for op, more in ((START, ()), (START_WITH, (5,))):
        script.fill([rng.getrandbits(32) for _ in range(words_needed(c) + rng.randrange(9))])
        script.call(op, rng.randint(LEAST_CELLS, c), *more)


def some_edits(rng, rules):
    """Edits each of which is done where it stands: rules go, others with full ranges come, and these
    go again."""
    own = [rule.number for rule in rules if rule.number != DEFAULT]
    out = rng.sample(own, min(len(own), rng.choice((0, 1, 4))))
    spare = [number for number in range(40000, 40100) if number not in own]
    come = spare[:min(rng.choice((1, 3, 12)), max(len(out), 64 - len(own)))]
    return ([takes(number, rng) for number in out] + [puts(Rule(n, 7, *FULL)) for n in come]
            + [takes(number, rng) for number in come[::2]])


def one_list(script, words, length, edits):
    """A list over these words, behind a check of them."""
    script.fill(words, length)
    script.call(CHECK)
    script.edit_list(edits)


def bad_lengths(script, words, length, edit):
    for count in (0, 33, 200):
        one_list(script, words, length, [edit] * count)


def lists(script, rng, rules, words):
    """Lists that are done, mostly, and such as are refused at some place, each over the same words.
    A single edit that is done goes before them: a list writes no cell more often."""
    spare = next(n for n in range(50000, 65535) if all(rule.number != n for rule in rules))
    more = puts(Rule(spare, 1, *FULL))
    script.fill(words)
    if len(rules) > kind_of(words).rules:
        script.call(DELETE, rules[0].number)
    else:
        script.insert(Rule(spare, 1, *FULL))
    wrong = [puts(Rule(65535, 1, *FULL)), takes(65535), takes(spare),
             puts(Rule(spare, 1, (1, 0, 0, 0, 0, 0), (0, *TOPS[1:]))),
             puts(Rule(spare, 1, (0, 0, 0, 0, 1, 0), TOPS)), puts(Rule(rules[0].number, 1, *FULL)),
             puts(Rule(spare, 1, (1, 1, 1, 1, 1, 0), TOPS[:5] + (0,))), more]
    good = some_edits(rng, rules)
    for edits in ([more], [*good, puts(World(rng).rule(spare))],
                  *(good[:rng.randint(0, len(good))] + [edit] + good for edit in wrong)):
        one_list(script, words, len(words), edits[:32])
    bad_lengths(script, words, len(words), more)


def carries(script, rules):
    """Into too few words, into too few cells, and into enough: with and without words behind."""
    needed = count_cells(rules, 65536)
    for c in (LEAST_CELLS - 1, needed - 1, needed, needed + 20, 65537):
        room = words_needed(min(c, 4000))
        for length in (room - 1, room) if c > needed else (room,):
            script.carry(length, c)
    script.carry(0, needed)
    script.carry(room + 9, needed + 3)


def over_table(script, rng, c, rules, words, whole):
    words = words + [BEHIND] * rng.choice((0, 1, 8, 40))
    script.fill(words)
    lookups(script, rng, rules, 6)
    for _ in range(3):
        script.scan(rng.sample(rules, rng.randint(0, len(rules))), values_near(rng, rules))
    script.scan(rules, values_above(rng, values_near(rng, rules)))
    if c > 300:
        return
    if not whole:
        script.fill(words)
        script.insert(Rule(65000, 1, *FULL))
        script.fill(words)
        script.carry(words_needed(c), c)
        return
    readers(script, rng, rules)
    freezes(script, len(image(tuple(rules), kind_of(words))))
    carries(script, rules)
    refused_edits(script, rng, rules)
    taken_edits(script, rng, c, rules, words)
    lists(script, rng, rules, words)


def over_damage(script, rng, c, rules, words, whole):
    """Words that are no store: damaged, or too few."""
    script.fill(damaged(rng, c, words) + [BEHIND] * rng.choice((0, 3)))
    lookups(script, rng, rules, 4)
    if c > 300 or not whole:
        return
    kind, bad = kind_of(words), list(words)
    bad[rng.choice((link_of(kind, BEGIN), KIND))] ^= 1
    for length in (len(words), rng.choice((len(words) - 1, kind.front, 1, 0))):
        script.fill(bad, length)
        readers(script, rng, rules)
        freezes(script, len(image(tuple(rules), kind)))
        carries(script, rules)
        refused_edits(script, rng, rules)
        lookups(script, rng, rules, 1)
        one_list(script, bad, length, some_edits(rng, rules) or [takes(7)])
    bad_lengths(script, bad, length, takes(7))


def over_maze(script, rng, c, rules, words, whole):
    """In each field one cell, all c, or a ring of them."""
    script.fill(maze(rng, c, words, 17) + [BEHIND] * 8)
    for values in ((1,) * 6, (0, 1, 0, 1, 1, 0), (1, 1, 18, 1, 1, 1), (18,) * 5 + (0,),
                   (1, 1, 1, 1, 18, 1)):
        script.call(LOOKUP, *values)
    script.packet(packet_of((1, 1, 17, 1, 1)))
    script.packet(packet_of((1, 1, 17, 1, 18)))
    script.packet(packet_of((1, 1, 17, 1, 1), offset=1))
    # the last field goes round as well, where no end is above 0
    script.fill(maze(rng, c, words, 0) + [BEHIND] * 8)
    script.call(LOOKUP, 0, 0, 0, 0, 0, 1)
    script.packet(packet_of((0, 0, 0, 0, 0)))


def freezes(script, total):
    """Into too few words, into as many as the image takes, and into more."""
    script.call(IMAGE_WORDS)
    for room in (0, total // 2, total - 1, total, total + 9):
        script.freeze(room, total)


def over_image(script, rng, c, rules, words, whole):
    """The image of a table, the same damaged, and cut."""
    kind = kind_of(words)
    front, words = kind.front, list(image(tuple(rules), kind))
    script.fill(words + [BEHIND] * rng.choice((0, 1, 16)))
    lookups(script, rng, rules, 6, image=True)
    if c <= 300 and whole:
        for length in (len(words), len(words) - 1, front, 0):
            script.fill(words, length)
            script.call(IMAGE_CHECK)
            script.call(IMAGE_WORST)
    blocks = (len(words) - front) // BLOCK
    for _ in range(3):
        bad = list(words)
        for _ in range(rng.choice((1, 5, 40, 200))):
            place = front + BLOCK * rng.randrange(blocks) + KEYS + rng.randrange(4)
            bad[place] = rng.choice((0, 0, DOWN)) + rng.choice((
                0, rng.randrange(blocks), blocks, place // BLOCK - front // BLOCK))
            bad[place - KEYS] = rng.choice((0, 1, bad[place - KEYS], rng.getrandbits(32)))
        bad[1] = rng.choice((bad[1], 0, 65, 513))
        if rng.random() < 0.1:
            bad[KIND] = rng.choice((0, 1, 4, 5, rng.getrandbits(32)))
        script.fill(bad, rng.choice((len(bad),) * 4 + (len(bad) - 1, front, front - 1, 2)))
        lookups(script, rng, rules, 3, image=True)
        if c <= 300 and whole:
            script.call(IMAGE_CHECK)
            script.call(IMAGE_WORST)


def over_rings(script, rng, words):
    """Blocks that lead round: in each field 8 of them and no more, and 8 that lead down."""
    front = words[:kind_of(words).front]
    for step in (1, 2, 7, 8, 9):
        blocks = [[0xFFFFFFFF] * KEYS + [b + 1 if (b + 1) % step else DOWN + b + 1] * KEYS
                  for b in range(6 * step)]
        blocks[-1][KEYS:] = [DOWN] * KEYS
        script.fill(front + sum(blocks, []) + [BEHIND] * 8)
        lookups(script, rng, [default_rule(7)], 2, image=True)
        # the same from the last block back to the first one of its field
        blocks[-1][KEYS:] = [6 * step - step] * KEYS
        script.fill(front + sum(blocks, []) + [BEHIND] * 8)
        lookups(script, rng, [default_rule(7)], 1, image=True)
    # in one field all ends are below the value
    for field in range(6):
        blocks = [[0 if b == field else 0xFFFFFFFF] * KEYS + [DOWN + b + 1] * KEYS
                  for b in range(6)]
        script.fill(front + sum(blocks, []))
        script.call(IMAGE_LOOKUP, *(1,) * 6)
        script.packet(packet_of((1, 1, 1, 1, 1)), image=True)


def captures(script, rng):
    """Headers and records into as many bytes as they take, into fewer, and into more."""
    for length in (0, 1, 23, 24, 25, 100):
        script.capture_begin(length, rng.randrange(16))
    for size in (0, 1, 2, 3, 7, 8, 15, 16, 17, 31, 32, 33, 63, 64, 65, 100, 255, 1500, 16383, 16384,
                 16385, 20000):
        data = rng.randbytes(size)
        for length in (0, 15, size, size + 15, size + 16, size + 17, size + 500):
            script.capture_add(length, rng.randrange(16),
                               [rng.choice((0, 2 ** 32 - 1, rng.getrandbits(32))) for _ in range(3)],
                               data, rng.randrange(16))


def all_calls(program, rng, count):
    script = Script()
    made = list(tables(program, rng, count))
    for table in made:
        over_table(script, rng, *table)
        over_damage(script, rng, *table)
        over_image(script, rng, *table)
    for kind in KINDS:
        over_rings(script, rng, list(image((default_rule(7),), kind)))
    for table in made[:4]:
        over_maze(script, rng, *table)
    for numbers in ((0x0a000000, 24), (0x0a000001, 24), (0, 33)):
        script.call(PREFIX, *numbers)
    captures(script, rng)
    script.call(CLEAR)
    script.call(DIFFERENCE, 5, 3)
    return script


# ---- the run

def spell(call):
    numbers = call.packet.hex() if call.packet else ', '.join(map(str, call.numbers))
    return '%s(%s) over %d words, c = %s' % (CALLS[call.op][0], numbers[:160], call.len,
                                             call.words[0] if call.words else 'none')


def hold(program, script, stop):
    """Holds the trace of a script to the rules; counts calls."""
    seen, passed, failed = {op: Counter() for op in CALLS}, 0, 0
    for call, numbers, result in program.trace(script):
        seen[call.op][result[0] if len(result) else 0] += 1
        try:
            see(call, Touched(numbers, program.frame, program.image), result)
            passed += 1
        except Fault as fault:
            failed += 1
            if failed <= stop:
                print('FAILED: %s gave %s: %s' % (spell(call), list(result[:4]), fault))
    for op, (name, want) in CALLS.items():
        answers = ', '.join('%d: %d' % pair for pair in sorted(seen[op].items()))
        print('%-26s %6d calls, by answer %s' % (name, sum(seen[op].values()), answers))
        if want - set(seen[op]):
            failed += 1
            print('FAILED: no %s was answered %s' % (name, sorted(want - set(seen[op]))))
    return passed, failed


def main():
    parser = argparse.ArgumentParser(description=__doc__,
                                     formatter_class=argparse.RawDescriptionHelpFormatter)
    parser.add_argument('--archive', default=ARCHIVE)
    parser.add_argument('--tables', type=int, default=24)
    parser.add_argument('--seed', type=int, default=None)
    parser.add_argument('--stop', type=int, default=12, help='tell of that many failures')
    options = parser.parse_args()
    why = cannot()
    if why:
        print('FAILED: %s\n0 passed, 1 failed' % why)
        return 1
    seed = random.SystemRandom().randrange(10 ** 9) if options.seed is None else options.seed
    print('seed %d' % seed, flush=True)
    began = time.monotonic()
    with tempfile.TemporaryDirectory(prefix='trace-') as folder:
        program = Program(options.archive, folder)
        script = all_calls(program, random.Random(seed), options.tables)
        passed, failed = hold(program, script, options.stop)
    print('%.0f s' % (time.monotonic() - began))
    print('%d passed, %d failed' % (passed, failed))
    return 1 if failed or not passed else 0


if __name__ == '__main__':
    sys.exit(main())
