#!/usr/bin/env python3
"""Hands the stored files of tests/stored to the library: stores of at most 64 rules and their
images, as version 4.2 left them.

    tests/stored.py --driver CMD.. [--seed N] [--only NAME]

--driver is the command that runs driver.c linked with the archive. Of each store is seen, against
its table in words and the reference:

- the reference lays the same words, of the store and of the image;
- the check passes; cells, every rule by number and by place, lives, the worst packet, lookups by
  values at and around all ends and at random, by packets, and with tallies;
- image_words, and a freeze that gives the stored image word for word; that image's check, worst
  packet and lookups;
- edits: up to 64 rules, of which the 65th gets 5; all rules deleted and inserted again, which
  leaves the stored words;
- carrying, into several sizes: the words of a store that was started and filled, the same answer,
  rule, action and reads for every packet, the same cells, and the same image but for the front;
  each refusal, and their order; 9 over the store damaged anywhere. The driver sees to it that no
  word of the old store changes, and none behind the new one.

The last line counts what was tried.
"""

import argparse
import random
import sys
import time
from array import array
from pathlib import Path

from carry import built, carried, room_for, same_image
from drive import NO_DIFFERENCE, Disagreement, Driver, Talk
from frozen import ask, freeze
from image import image, image_check
from independent import command_line
from laid import account_in, laid
from limits import spare_number
from lists import listed, puts, takes
from reference import (DEFAULT, MOST_CELLS, SMALL, TOPS, Account, Rule, Tally, words_needed)
from store import HOWS, Store, expect
from tables import World, random_packet, values_near
from tallies import CLEAR

FOLDER = Path(__file__).resolve().parent / 'stored'
FULL = (0,) * 6, TOPS


def words_in(path):
    words = array('I', path.read_bytes())
    if sys.byteorder == 'big':
        words.byteswap()
    return words.tolist()


class Kept:
    """A stored store, its image, and the account of its table."""

    def __init__(self, name):
        self.name = name
        self.words, self.image = (words_in(FOLDER / (name + end)) for end in ('.store', '.image'))
        first, *lines = (FOLDER / (name + '.table')).read_text().splitlines()
        _, c, _, action = first.split()
        self.account = Account(SMALL, int(c), int(action))
        for line in lines:
            number, action, *spans = line.split()
            spans = [tuple(map(int, span.split('-'))) for span in spans]
            low, high = zip(*spans)
            self.account.rules[int(number)] = Rule(int(number), int(action), low, high)
        table = self.account.table()
        self.rules = [table[-1]] + table[:-1]

    def lend(self, talk, rng):
        """The words where a driver has them, with or without words behind."""
        store = Store(talk, len(self.words) + rng.choice((0, 1, 40)), rng.choice(HOWS),
                      rng.getrandbits(32))
        talk.set(store.id, 0, self.words)
        talk.holds(store.id, len(self.words))
        store.account = Account(SMALL, self.account.c, self.account.default.action)
        store.account.rules = dict(self.account.rules)
        return store

    def same(self, store):
        right = store.talk.make(len(self.words))
        store.talk.set(right, 0, self.words)
        store.talk.same(store.id, right, len(self.words), NO_DIFFERENCE)
        store.talk.stores -= 1


def edges(rng, table, most=300):
    """Values at the ends of each rule and next to them, each field in turn."""
    values = []
    for rule in table:
        values += [rule.low, rule.high]
        for field, top in enumerate(TOPS):
            for base, value in ((rule.low, rule.low[field] - 1), (rule.high, rule.high[field] + 1)):
                if 0 <= value <= top:
                    values.append(base[:field] + (value,) + base[field + 1:])
    return rng.sample(values, min(len(values), most))


# ---- what is tried of each ----

def by_reference(kept, talk, rng):
    account = kept.account
    expect(len(kept.words) == words_needed(account.c, SMALL), 'the file has other words')
    expect(laid(account.c, kept.rules, SMALL) == kept.words, 'the reference lays other words')
    expect(image(tuple(account.table()), SMALL) == tuple(kept.image), 'the reference lays other blocks')
    expect(image_check(kept.image) == 0, 'the reference refuses the image')
    found = account_in(kept.words)
    expect(found and found.rules == account.rules and found.default == account.default,
           'the reference reads another table')


def read(kept, talk, rng):
    store = kept.lend(talk, rng)
    account = store.account
    talk.check(store.id, 0)
    talk.cells(store.id, account.cells())
    for number in [*account.rules, DEFAULT, 65536, spare_number(store)]:
        store.read(number)
        store.dead(number)
    for place in [*range(len(account.rules) + 2), 64, 65, 66, 512, 513]:
        store.rule_at(place)
    store.worst()
    table, record = account.table(), CLEAR
    for values in edges(rng, table) + [values_near(rng, table) for _ in range(100)]:
        store.lookup(values)
    for _ in range(80):
        packet = random_packet(rng, table)
        store.packet(packet)
        tally = Tally(record)
        answer = tally.lookup(account.lookup_packet(packet), packet)
        talk.tally(store.id, packet, record, answer + tally.words())
        record = tally.words()
    kept.same(store)
    talk.flush()


def frozen(kept, talk, rng):
    store = kept.lend(talk, rng)
    n = len(kept.image)
    talk.image_words(store.id, (0, n))
    area, words = freeze(store, rng)
    stored = talk.make(n, rng.choice(HOWS))
    talk.set(stored, 0, kept.image)
    talk.same(area, stored, n)
    ask(store, rng, stored, words, 60)
    for values in edges(rng, store.account.table()):
        talk.image_lookup(stored, values, store.account.image_lookup(values))
    talk.image_worst(stored, store.account.image_worst())
    short = talk.make(n - 1, rng.choice(HOWS), rng.getrandbits(32))
    talk.freeze(store.id, short, n, 8)
    kept.same(store)
    talk.flush()


def edited(kept, talk, rng):
    """Rules of full ranges, which take no cell, up to the limit; then all rules go, in any order,
    and come again. The same by lists, which go through the limit and back."""
    store = kept.lend(talk, rng)
    own = list(kept.account.rules.values())
    while len(store.account.rules) < 64:
        expect(store.insert(Rule(spare_number(store), 5, *FULL)) == 0, 'a rule is refused')
    for rule, answer in ((Rule(spare_number(store), 5, *FULL), 5),
                         (Rule(next(iter(store.account.rules)), 5, *FULL), 3),
                         (Rule(65535, 5, *FULL), 1), (Rule(1, 5, FULL[1], FULL[0]), 2)):
        expect(store.insert(rule) == answer, 'the reference and request P9')
    store.audit(rng, 20, 64)
    for number in rng.sample(list(store.account.rules), 64):
        store.delete(number)
        if rng.random() < 0.1:
            store.audit(rng, 4, 4)
    store.audit(rng)
    empty = talk.make(len(kept.words))
    talk.set(empty, 0, laid(kept.account.c, [kept.account.default], SMALL))
    talk.same(store.id, empty, len(kept.words))
    for rule in rng.sample(own, len(own)):
        expect(store.insert(rule) == 0, 'a rule is refused')
    kept.same(store)
    go, come = [takes(rule.number, rng) for rule in own], [puts(rule) for rule in own]
    for first in range(0, len(own), 16):
        part = slice(first, first + 16)
        listed(store, come[part] + go[part], (3, 1))
        listed(store, go[part] + rng.sample(come[part], len(come[part])), (0, 0))
        kept.same(store)
    full = [puts(Rule(n, 5, *FULL)) for n in range(65000, 65064 - len(own))]
    for first in range(0, len(full), 32):
        listed(store, full[first:first + 32], (0, 0))
    listed(store, [puts(Rule(65100, 5, *FULL))], (5, 1))
    for first in range(0, len(full), 32):
        listed(store, [takes(edit.number) for edit in full[first:first + 32]], (0, 0))
    kept.same(store)
    world = World(rng)
    for _ in range(10):
        store.insert(world.rule())
        store.insert(world.bad_rule(list(store.account.rules)))
        if store.account.rules:
            store.delete(rng.choice(list(store.account.rules)))
        store.audit(rng, 4, 4)
    # a start makes a large store of the words, where they are enough for one
    for c in (6, kept.account.c, 65536):
        store.start(c)
    talk.flush()


def moved(kept, talk, rng):
    store = kept.lend(talk, rng)
    needed = store.account.cells()[1]
    for c in {needed, needed + 1, max(needed, 1024), 4096, MOST_CELLS}:
        into = carried(store, rng, c, 30)
        for values in edges(rng, store.account.table(), 100):
            expect(into.account.lookup(values) == store.account.lookup(values),
                   'the reference and request P9')
            store.lookup(values)
            into.lookup(values)
        if c <= 4096:
            into.audit(rng, 20, 64)
            same_image(store, into, rng)
            # past the old limit
            while len(into.account.rules) < 66:
                expect(into.insert(Rule(spare_number(into), 5, *FULL)) == 0, 'a rule is refused')
            into.audit(rng, 4, 8)
        talk.flush()
        talk.stores -= 1
    kept.same(store)
    # the new store is as good as one that never was small
    into = room_for(talk, rng, needed + 60)
    again = built(talk, rng, store.account, needed + 60)
    into.carry(store, needed + 60)
    for rule in [Rule(spare_number(store), 1, *FULL), Rule(spare_number(store), 2, *FULL)]:
        into.insert(rule)
        again.insert(rule)
    talk.same(into.id, again.id, words_needed(needed + 60))
    talk.flush()


def refused(kept, talk, rng):
    """Damaged in one bit: 9, whatever the rest, but where the words are another store. Then 8,
    then 6."""
    store = kept.lend(talk, rng)
    account, n = kept.account, len(kept.words)
    needed = account.cells()[1]
    good = words_needed(needed)
    for c, length, want in (
            (needed, good, 0), (needed, good - 1, 8), (needed - 1, good, 8 if needed == 6 else 6),
            (needed - 1, good - 9, 8), (5, good, 8), (5, 0, 8), (65537, words_needed(65537), 8),
            (65536, words_needed(65536) - 1, 8), (2 ** 32 - 1, good, 8), (needed, 1024 + 8 * needed, 8),
            (needed, 0, 8), (2 ** 31 + needed, good, 8)):
        into = Store(talk, length, rng.choice(HOWS), rng.getrandbits(32))
        for lent in (0, 2, 3, 1023, 1024, n - 1):
            talk.lend(store.id, lent)
            talk.carry(store.id, into.id, c, 9)
        talk.lend(store.id, store.length)
        expect(into.carry(store, c) == want, 'the reference and request P9')
        talk.stores -= 1
    talk.flush()
    into = Store(talk, good, rng.choice(HOWS), rng.getrandbits(32))
    places = {0, 1, 2, 3, 46, 47, 48, 61, 62, 1021, 1022, 1023, 1024, n - 7, n - 1,
              *rng.sample(range(n), min(n, 60)), *rng.sample(range(1024), 40)}
    passed = 0
    for position in sorted(places):
        changed = list(kept.words)
        changed[position] ^= 1 << rng.randrange(32)
        talk.set(store.id, position, [changed[position]])
        found = account_in(changed)
        passed += found is not None
        talk.check(store.id, 9 if found is None else 0)
        talk.carry(store.id, into.id, needed, Account().carry(found, good, needed))
        if found is None:
            for c in (5, needed - 1, 65537):
                talk.carry(store.id, into.id, c, 9)
        talk.set(store.id, position, [kept.words[position]])
    expect(passed < len(places) / 2, 'the reference lets damage pass')
    kept.same(store)
    # an image is carried by no call
    area = talk.make(len(kept.image))
    talk.set(area, 0, kept.image)
    talk.carry(area, into.id, needed, 9)
    talk.flush()


PARTS = by_reference, read, frozen, edited, moved, refused


def main():
    parser = argparse.ArgumentParser(description=__doc__,
                                     formatter_class=argparse.RawDescriptionHelpFormatter)
    parser.add_argument('--driver', nargs='+', required=True, metavar='CMD')
    parser.add_argument('--seed', type=int, default=None)
    parser.add_argument('--only', metavar='NAME')
    options = parser.parse_args()
    seed = random.SystemRandom().randrange(10 ** 9) if options.seed is None else options.seed
    print('seed %d' % seed, flush=True)
    driver = Driver(command_line(options.driver), 120)
    began, passed, failed = time.monotonic(), 0, 0
    for path in sorted(FOLDER.glob('*.store')):
        if options.only not in (None, path.stem):
            continue
        kept = Kept(path.stem)
        for part in PARTS:
            rng = random.Random('%d %s %s' % (seed, path.stem, part.__name__))
            try:
                part(kept, Talk(driver), rng)
                passed += 1
            except Disagreement as found:
                failed += 1
                print('FAILED %s, %s: run again with --seed %d --only %s\n  %s' % (
                    path.stem, part.__name__, seed, path.stem, str(found)[:3000].replace('\n', '\n  ')))
    driver.end()
    print('%d calls in %.1f s' % (driver.calls, time.monotonic() - began))
    print('%d passed, %d failed' % (passed, failed))
    return 1 if failed or not passed else 0


if __name__ == '__main__':
    sys.exit(main())
