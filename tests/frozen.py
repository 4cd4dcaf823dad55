"""Cases about the frozen table: request P8."""

import itertools

import drive
from dead import NONE, WORD, corners, loaded, spanned
from edits import wander
from image import BLOCK, DOWN, KEYS, UNUSED, image, image_check, image_walk, image_walk_packet
from laid import (FREE, HEAD, KIND, MARK, ROW, kind_of, laid, link_of, places_of, row_of,
                  table_in)
from portless import rule_of
from reference import (BENCH_RULES, DEFAULT, KINDS, LARGE, MOST_CELLS, PLACES, SMALL, TOPS, Tally,
                       count_cells, deepest_record, default_rule, levels,
                       winner_and_blocks, words_needed)
from store import HOWS, expect, fresh
from tables import World, packet_of, random_packet, values_above, values_near
from tallies import CLEAR, some_record
from worst import around, lesser

REFUSED = (9, 0, 0, 0)
NO_WORST = (9, 0) + NONE


# ---- what is asked of one image ----

def words_of(account):
    return image(tuple(account.table()), account.kind)


def same_words(talk, area, words):
    """The first words of an area are these."""
    right = talk.make(len(words))
    talk.set(right, 0, words)
    talk.same(area, right, len(words))
    talk.stores -= 1


def freeze(store, rng, spare=0, how=None):
    """Freezes a store into words full of rubbish, as many as the image takes and some more, and
    compares them. Gives where they stand and what they are."""
    talk, words = store.talk, words_of(store.account)
    expect(store.account.image_words() == (0, len(words)), 'the reference counts other blocks')
    talk.image_words(store.id, (0, len(words)))
    area = talk.make(len(words) + spare, rng.choice(HOWS) if how is None else how,
                     rng.getrandbits(32))
    talk.freeze(store.id, area, len(words), 0)
    same_words(talk, area, words)
    talk.note('images')
    return area, words


def look(store, area, words, values):
    """A lookup over an image: the rule and the action of the store's lookup, and the blocks that
    the request's sentence counts."""
    want = store.account.image_lookup(values)
    expect(want[:3] == store.account.lookup(values)[:3], 'the reference finds another rule')
    if want[0] == 0:
        expect(want == image_walk(words, values), 'the reference walks otherwise')
        expect(6 <= want[3] <= 6 * levels(2 * len(store.account.rules) + 1)
               <= (18 if store.kind == SMALL else 24), 'the reference leaves the bounds')
    store.talk.image_lookup(area, values, want)
    return want[3]


def count(talk, area, packet, record, found):
    """Queues a lookup that counts; gives the record that it must leave."""
    tally = Tally(record)
    answer = tally.lookup(found, packet)
    talk.image_tally(area, packet, record, answer + tally.words())
    return tally.words()


def by_trying(rules):
    """The greatest count of blocks of all corners, and the first one that reads it. None where
    there are too many."""
    records = corners(rules)
    if records is None:
        return None
    greatest, first = 0, None
    for record in records:
        blocks = winner_and_blocks(rules, record)[1]
        if blocks > greatest:
            greatest, first = blocks, record
    return greatest, first


def deepest(store, rng, area, words, others=8):
    """The worst packet of an image, by the reference and by the library. The lookup of the record
    reads so many blocks, lesser ones read fewer, and no record reads more."""
    talk, account = store.talk, store.account
    want = account.image_worst()
    blocks, record = want[1], want[2:]
    table = account.table()
    talk.image_worst(area, want)
    expect(look(store, area, words, record) == blocks, 'the reference shows other blocks')
    below = list(lesser(rng, record, table))
    for values in rng.sample(below, min(len(below), others)):
        expect(look(store, area, words, values) < blocks, 'the reference shows no least record')
    for values in itertools.chain(around(record), (values_near(rng, table) for _ in range(others))):
        expect(look(store, area, words, values) <= blocks, 'the reference shows no greatest count')
    # field 6 has at most two ends and takes one block; field 3 has at most 256, and takes three
    expect(6 <= blocks <= (16 if store.kind == SMALL else 20), 'the reference leaves the bounds')
    tried = by_trying(table)
    if tried is not None:
        expect(tried == (blocks, record), 'the reference gives %s and trying %s for %s' % (
            want, tried, table))
        talk.note('worst packets of images by trying every record too')
    talk.note('worst packets of images')
    if blocks > 6:
        talk.note('worst packets of images above 6 blocks')
    return want


def ask(store, rng, area, words, lookups=20):
    """Everything that can be asked of an image."""
    talk, account = store.talk, store.account
    table = account.table()
    talk.image_check(area, 0)
    deepest(store, rng, area, words, 4)
    record = some_record(rng, [rule.number for rule in table])
    for _ in range(lookups):
        values = values_near(rng, table)
        look(store, area, words, values)
        if rng.random() < 0.2:
            look(store, area, words, values_above(rng, values))
        packet = random_packet(rng, table)
        found = account.image_lookup_packet(packet)
        talk.image_packet(area, packet, found)
        record = count(talk, area, packet, record, found)
    talk.image_check(area, 0)
    talk.check(area, 9)
    talk.worst(area, NO_WORST)
    talk.image_words(area, (9, 0))


# ---- fixed cases ----

def frozen_examples(talk, rng):
    """Images worked out by hand, their numbers written out here."""
    for kind in KINDS:
        # the default alone: a block for each field, and in each the top alone
        front, head = kind.front, HEAD[kind]
        store = loaded(talk, rng, [], 6, kind=kind)
        area, words = freeze(store, rng)
        by_hand = [0] * front
        by_hand[KIND] = MARK[kind]
        by_hand[head:head + 14] = (DEFAULT, 0, 0, WORD, 0, WORD, 0, 255, 0, 65535, 0, 65535, 0, 1)
        for field, top in enumerate(TOPS):
            by_hand += [top] + [UNUSED] * 7 + [DOWN + field + 1 if field < 5 else DOWN] + [0] * 7
        expect(words == tuple(by_hand) and len(words) == front + 96, 'the reference and the page')
        for values in (NONE, TOPS):
            talk.image_lookup(area, values, (0, DEFAULT, 0, 6))
        ask(store, rng, area, words)
        # document 01's bench table. One chain of field 1; below its lowest and its highest end
        # five chains each, of the default; below the two others one of field 2, one of field 3,
        # three of field 4, five of field 5 and five of field 6
        store = loaded(talk, rng, BENCH_RULES, 54, kind=kind)
        area, words = freeze(store, rng)
        expect(len(words) == front + 16 * (1 + 2 * 5 + 2 * 15), 'the reference and the page')
        root = words[front:front + BLOCK]
        expect(root == (167772159, 167772287, 167772415) + (WORD,) * 5 + (
            DOWN + 1, DOWN + 6, DOWN + 21, DOWN + 36) + (0,) * 4, 'the reference and the page')
        talk.image_lookup(area, (167772165, 3232235785, 17, 5004, 40000, 0), (0, 10, 2, 6))
        talk.image_lookup(area, (167772165, 3232235785, 17, 5004, 40000, 1), (0, 20, 3, 6))
        talk.image_lookup(area, (167772416, 0, 17, 5004, 40000, 0), (0, DEFAULT, 0, 6))
        ask(store, rng, area, words)
        talk.flush()
        talk.stores = 0
    # m ends in one field, in so many blocks on so many levels, and one block for each other chain
    for m, blocks, deep in ((2, 1, 1), (7, 1, 1), (8, 1, 1), (9, 3, 2), (16, 3, 2), (17, 4, 2),
                            (63, 9, 2), (64, 9, 2), (65, 12, 3), (72, 12, 3), (73, 13, 3),
                            (128, 19, 3), (129, 21, 3)):
        for field, kind in zip(rng.sample(range(5), 2), KINDS):
            store = loaded(talk, rng, of_ends(m, field), 1920, kind=kind)
            area, words = freeze(store, rng)
            total = field + blocks + m * (5 - field)
            expect(len(words) == kind.front + 16 * total, 'the reference and the page: %d ends' % m)
            for end in range(min(2 * m, TOPS[field])):
                values = tuple(end if f == field else 0 for f in range(6))
                expect(look(store, area, words, values) == 5 + deep, 'the reference and the page')
            look(store, area, words, TOPS)
            ask(store, rng, area, words, 4)
            talk.flush()
            talk.stores = 0


def of_ends(m, field, most=64):
    """At most so many rules with m distinct ends in one field, the default's top among them."""
    # a host next to the one before it has one end of its own, and one apart from it two
    apart = max(m - 1 - most, 0)
    values = [2 * i + 1 for i in range(apart)] + [2 * apart + i for i in range(min(m - 1, most) - apart)]
    spans = [(value, value) for value in values]
    return [spanned(i, field, low, high) for i, (low, high) in enumerate(spans)]


def frozen_four_levels(talk, rng):
    """Chains of 512 ends and more, which only large stores hold: three levels up to 8^3 ends, and
    four above, up to the 1,025 of a full table."""
    for m, blocks, deep, field in ((512, 73, 3, 4), (513, 65 + 9 + 2 + 1, 4, 0),
                                   (521, 66 + 9 + 2 + 1, 4, 3), (1025, 129 + 17 + 3 + 1, 4, 1)):
        store = fresh(talk, rng, 6200, 5, LARGE)
        store.lay(LARGE, 6200, 5, of_ends(m, field, 512))
        area, words = freeze(store, rng)
        total = field + blocks + m * (5 - field)
        expect(len(words) == 8192 + 16 * total, 'the reference and the page: %d ends' % m)
        for end in {0, 1, 2, m, *rng.sample(range(2 * m), 30)}:
            values = tuple(end if f == field else 0 for f in range(6))
            expect(look(store, area, words, values) == 5 + deep, 'the reference and the page')
        look(store, area, words, TOPS)
        want = (0, 5 + deep) + NONE
        expect(store.account.image_worst() == want, 'the reference and the page')
        talk.image_worst(area, want)
        talk.image_check(area, 0)
        # one bit of a block: all of them are seen
        for position in rng.sample(range(8192, len(words)), 20):
            talk.set(area, position, [words[position] ^ 1 << rng.randrange(32)])
            talk.image_check(area, 9)
            talk.set(area, position, [words[position]])
        talk.flush()
        talk.stores = 0
    # four levels in two fields of one lookup, as far as 65,536 cells go: many hosts, and below one
    # of them many sources, each a rule; the other fields of one block
    rules = [rule_of(i, i, (2 * i + 1,) * 2) for i in range(1, 257)]
    rules += [rule_of(1000 + i, i, (1, 1), (2 * i + 1,) * 2) for i in range(256)]
    store = fresh(talk, rng, 20000, 5, LARGE)
    store.lay(LARGE, 20000, 5, rules)
    area, words = freeze(store, rng)
    want = (0, 4 + 4 + 4, 1, 0, 0, 0, 0, 0)
    expect(store.account.image_worst() == want, 'the reference and the page')
    talk.image_worst(area, want)
    reads = {look(store, area, words, (destination, source, 0, 0, 0, 0))
             for destination in (0, 1, 2, 3, 513, 1000) for source in (0, 1, 2, 511, 600, WORD)}
    expect(reads == {9, 12}, 'the reference and the page: %s' % reads)
    talk.flush()


def frozen_deep(talk, rng):
    """Three levels in two fields of one lookup: 64 nested destinations, each with a source of
    its own."""
    rules = [rule_of(i, i, (1 + i, WORD - 1 - i), (3 * i + 1, 3 * i + 1)) for i in range(64)]
    store = loaded(talk, rng, rules, MOST_CELLS, kind=rng.choice(KINDS))
    area, words = freeze(store, rng)
    reads = {look(store, area, words, (destination, source, 0, 0, 0, 0))
             for destination in (0, 1, 20, 31, 32, 33, 64, 1000, WORD - 32, WORD)
             for source in (0, 1, 2, 95, 189, 190, 191, WORD)}
    expect(max(reads) == 10, 'the reference and the page: %s' % reads)
    ask(store, rng, area, words, 10)
    talk.flush()


def frozen_worst(talk, rng):
    """The worst packets of images, worked out by hand, their numbers written out here."""
    def asked(rules, blocks, *record, c=4000):
        store = loaded(talk, rng, rules, c)
        area, words = freeze(store, rng)
        want = (0, blocks) + record
        expect(store.account.image_worst() == want, 'the reference and the page: %s of %s' % (
            store.account.image_worst(), rules))
        talk.image_worst(area, want)
        deepest(store, rng, area, words)
        talk.flush()
        talk.stores = 0

    def ports(destination, number, count):
        """So many rules for one destination and TCP, each with a port apart from the others:
        two ends for each and the top."""
        return [rule_of(number + i, i, (destination,) * 2, protocol=(6, 6),
                        destination_port=(100 * i + 100,) * 2, portless=(0, 0))
                for i in range(count)]

    # nothing that tells values apart: the first record of all
    asked([], 6, *NONE, c=6)
    asked(BENCH_RULES, 6, *NONE)
    asked([rule_of(n, 1) for n in (3, 4, 65534)], 6, *NONE)
    # up to 8 ends of a field in one block, 9 to 64 on two levels, above 64 on three; all values
    # read as many, the ends of a field being those of all rules that hold the values before
    for m, blocks in ((8, 6), (9, 7), (64, 7), (65, 8), (129, 8)):
        for field in rng.sample(range(5), 2):
            asked(of_ends(m, field), blocks, *NONE, c=1920)
    # the ports of one destination: the rest reads 6
    asked(ports(10, 0, 3), 6, *NONE)
    asked(ports(10, 0, 4), 7, 10, 0, 6, 0, 0, 0)
    asked(ports(10, 0, 32), 8, 10, 0, 6, 0, 0, 0)
    # of records that tie the least: of two destinations the lower, whatever its number
    for first, second in ((10, 20), (20, 10)):
        asked(ports(first, 0, 4) + ports(second, 40, 4), 7, 10, 0, 6, 0, 0, 0)
    # one level more at the higher one, and no tie
    asked(ports(10, 0, 4) + ports(20, 40, 32), 8, 20, 0, 6, 0, 0, 0)
    # at the top of fields, and nowhere else
    top = [rule_of(i, i, (WORD, WORD), (WORD, WORD), (255, 255), (7 * i, 7 * i), portless=(0, 0))
           for i in range(5)]
    asked(top, 7, WORD, WORD, 255, 0, 0, 0)
    # several fields at once, below one value of each
    both = [rule_of(i, i, (50, 50), (3 * i + 1,) * 2) for i in range(4)]
    both += [rule_of(10 + i, i, (50, 50), (4, 4), (5 * i + 1,) * 2) for i in range(4)]
    asked(both, 8, 50, 4, 0, 0, 0, 0)
    # a full table: each rule with two ends of its own in field 1, and in field 2 those of all
    # rules that hold the destination
    asked([rule_of(i, i, (1 + i, WORD - 1 - i), (3 * i + 1,) * 2) for i in range(64)], 10,
          *(32, 0, 0, 0, 0, 0), c=MOST_CELLS)


def frozen_lengths(talk, rng):
    """The slice that a freeze is lent: exact, short by any number, longer; and 9 before 8."""
    for kind, rules in itertools.product(KINDS, ([], BENCH_RULES, of_ends(65, 0))):
        store = loaded(talk, rng, rules, 500, kind=kind)
        front, words = kind.front, words_of(store.account)
        n = len(words)
        for how in HOWS[1:]:
            area = talk.make(n + 40, how, rng.getrandbits(32))
            for length in (0, 1, 2, 3, 47, 1023, 1024, front - 2, front - 1, front, front + 1,
                           front + 15, front + 16, n - 17, n - 16, n - 15, n - 2, n - 1):
                talk.lend(area, length)
                talk.freeze(store.id, area, n, 8)
                # a slice short by nothing is refused before any word is looked at
                talk.lend(store.id, words_needed(500, kind) - 1)
                talk.freeze(store.id, area, n, 9)
                talk.image_words(store.id, (9, 0))
                talk.lend(store.id, store.length)
            for length in (n, n + 1, n + 15, n + 16, n + 40):
                talk.set(area, 0, [rng.getrandbits(32) for _ in range(n + 40)])
                talk.lend(area, length)
                talk.freeze(store.id, area, n, 0)
                same_words(talk, area, words)
                talk.image_check(area, 0 if length == n else 9)
                talk.image_worst(area, store.account.image_worst() if length == n else NO_WORST)
                talk.image_lookup(area, NONE, store.account.image_lookup(NONE))
            talk.lend(area, n)
            talk.image_check(area, 0)
            talk.stores -= 1
        # walled at the very end, and nothing behind
        for short in (0, 1):
            area = talk.make(n - short, drive.END_AT_WALL, rng.getrandbits(32))
            talk.freeze(store.id, area, n, 8 if short else 0)
            talk.stores -= 1
        talk.flush()
        talk.stores = 0


def frozen_refusals(talk, rng):
    """9 over every store that fails the check, whatever the slice, and no word written."""
    for kind in KINDS:
        refusals_of(talk, rng, kind)


def refusals_of(talk, rng, kind):
    rules = [rule_of(0, 1, (5, 9)), rule_of(300, 2, (6, 8), (1, WORD)), rule_of(65534, 3, (1, 2))]
    store = loaded(talk, rng, rules, 200, kind=kind)
    n, front = words_needed(200, kind), kind.front
    talk.get(store.id, 0, n)
    words = list(talk.flush()[-1])
    used = words[link_of(kind, FREE)]
    area, total = talk.make(front + 2000, fill=rng.getrandbits(32)), len(words_of(store.account))
    places = [*range(48), *places_of(kind), *range(front, front + 16),
              *range(front + 8 * (used - 2), front + 8 * (used + 2)), *range(n - 8, n)]
    for position in places:
        talk.set(store.id, position, [words[position] ^ 1 << rng.randrange(32)])
        for length in (0, front + 2000):
            talk.lend(area, length)
            talk.freeze(store.id, area, total, 9)
        talk.image_words(store.id, (9, 0))
        talk.set(store.id, position, [words[position]])
    talk.freeze(store.id, area, total, 0)
    # an image is no store, and a store is no image
    talk.copy(area, store.id, min(n, total))
    talk.check(store.id, 9)
    talk.freeze(store.id, area, total, 9)
    talk.image_words(store.id, (9, 0))
    talk.set(store.id, 0, words)
    talk.image_check(store.id, 9)
    talk.image_worst(store.id, NO_WORST)
    talk.check(store.id, 0)
    talk.flush()


def frozen_pokes(talk, rng):
    """Every word of small images, chains of two and three levels among them, with other numbers:
    the image check sees all but what makes another image, as another action."""
    for kind, rules in ((SMALL, []), (LARGE, []), (SMALL, BENCH_RULES), (LARGE, BENCH_RULES),
                        (SMALL, [rule_of(5, 5, (3, 9), portless=(1, 1)), rule_of(9, 1)]),
                        (SMALL, of_ends(9, 4)), (SMALL, of_ends(65, 4)), (LARGE, of_ends(65, 4))):
        front, head = kind.front, HEAD[kind]
        words = image(tuple(list(rules) + [default_rule(1)]), kind)
        area = talk.make(len(words) + 16)
        talk.set(area, 0, words)
        talk.lend(area, len(words))
        passed = set()
        # of many rows some words: each makes another table
        rows = range(49, front)
        if len(rules) >= 8:
            rows = rng.sample(rows, 60)
        elif kind == LARGE:
            rows = {*rng.sample(rows, 30), *range(head - 2, head + 46), *range(front - 4, front)}
        behind = range(front, len(words))
        if kind == LARGE:
            behind = rng.sample(behind, min(len(behind), 80))
        for position in (*range(49), *rows, *behind):
            old = words[position]
            for new in {old ^ 1, old ^ 1 << rng.randrange(32), rng.choice((0, WORD, DOWN, old + 1))}:
                changed = list(words)
                changed[position] = new = new % 2 ** 32
                talk.set(area, position, [new])
                if over_check(talk, area, changed) == 0 and new != old:
                    passed.add(position)
            talk.set(area, position, [old])
        # numbers and actions; an end of a rule alone where a lesser one holds what comes or goes
        parts = range(2) if len(rules) < 3 else range(14)
        expect(passed <= {row_of(kind, row) + part for row in range(len(rules) + 1) for part in parts},
               'the reference lets words pass: %s' % passed)
        expect(head + 1 in passed or len(rules) >= 8, 'the reference sees an action')
        talk.image_check(area, 0)
        # cut and lengthened
        for length in [0, 1, 2, 3, 1023, front - 1, front, front + 16,
                       *range(len(words) - 17, len(words) + 17)]:
            if length != len(words):
                talk.lend(area, length)
                talk.image_check(area, 9)
                talk.image_worst(area, NO_WORST)
        talk.flush()
        talk.stores = 0


def frozen_most(talk, rng):
    """The image of a table whose tree takes 65,536 cells passes, and that of one with a cell
    more does not: no store holds it. Nor does an image that is longer by far."""
    def nested(n, at, number, fields):
        spans = [[(at + i, at + 200 - i), (1000 + i, 1200 - i), (10 + i, 200 - i)][:fields]
                 for i in range(n)]
        return [rule_of(number + i, i, *span) for i, span in enumerate(spans)]

    rules = nested(22, 1000, 100, 3) + nested(7, 9000, 300, 3) + nested(9, 15000, 400, 2)
    # a host takes 12 cells, and 13 where it is told by field 6
    rules += [rule_of(500 + i, i, (20000 + 2 * i,) * 2, portless=(0, int(i >= 10)))
              for i in range(19)]
    most = rules + [default_rule(3)]
    expect(count_cells(most, 2 * MOST_CELLS) == MOST_CELLS, 'the reference and the page')
    more = most[:-2] + [most[-2]._replace(high=most[-2].high[:5] + (0,)), most[-1]]
    expect(count_cells(more, 2 * MOST_CELLS) == MOST_CELLS + 1, 'the reference and the page')
    far = nested(26, 1000, 100, 3) + [default_rule(3)]
    for kind, table, want in ((SMALL, most, 0), (LARGE, most, 0), (SMALL, more, 9), (LARGE, more, 9),
                              (SMALL, far, 9)):
        words = image(tuple(table), kind)
        area = talk.make(len(words), drive.END_AT_WALL)
        talk.set(area, 0, words)
        expect(over_check(talk, area, words) == want, 'the reference and the page')
        # a lookup takes either: it does not run the check
        for values in [(1100, 1100, 100, 0, 0, 0)] + [values_near(rng, table) for _ in range(10)]:
            talk.image_lookup(area, values, image_walk(words, values))
        if want == 0:
            store = fresh(talk, rng, MOST_CELLS, 3, kind)
            store.account.rules = {rule.number: rule for rule in rules}
            talk.set(store.id, 0, laid(MOST_CELLS, [table[-1]] + sorted(rules), kind))
            talk.check(store.id, 0)
            talk.image_words(store.id, (0, len(words)))
            frozen = talk.make(len(words), drive.END_AT_WALL)
            talk.lend(frozen, len(words) - 1)
            talk.freeze(store.id, frozen, len(words), 8)
            talk.lend(frozen, len(words))
            talk.freeze(store.id, frozen, len(words), 0)
            talk.same(frozen, area, len(words))
        talk.flush()
        talk.stores = 0


def frozen_orders(talk, rng):
    """11, and 7, 14, 9, 13: in these orders, over images and over words that are none."""
    for kind in KINDS:
        orders_of(talk, rng, kind)
        talk.stores = 0


def orders_of(talk, rng, kind):
    store = loaded(talk, rng, [rule_of(7, 9)], 6, kind=kind)
    front, n = kind.front, kind.front + 96
    area, words = freeze(store, rng, how=drive.END_AT_WALL)
    udp = packet_of((1, 2, 17, 3, 4))
    full = (0,) * (3 * PLACES)
    for length in [0, 1, 2, 3, 1023, 1024, front - 2, front - 1, *range(front, n + 1)]:
        talk.lend(area, length)
        want = (0, 7, 9, 6) if length == n else REFUSED
        talk.image_lookup(area, (1, 2, 17, 3, 4, 0), want)
        for values in ((1, 2, 256, 3, 4, 0), (1, 2, 3, 65536, 4, 0), (1, 2, 3, 4, 65536, 0),
                       (1, 2, 3, 4, 5, 2), (0, 0) + (WORD,) * 4):
            talk.image_lookup(area, values, (11, 0, 0, 0))
        talk.image_packet(area, udp, want)
        talk.image_packet(area, udp[:19], (7, 0, 0, 0))
        talk.image_packet(area, udp[:20], (14, 0, 0, 0))
        talk.image_tally(area, udp, full, ((13, 0, 0, 0) if length == n else REFUSED) + full)
        talk.image_tally(area, udp[:19], full, (7, 0, 0, 0) + full)
        talk.image_tally(area, udp[:20], full, (14, 0, 0, 0) + full)
        count(talk, area, udp, CLEAR, want)
    talk.flush()
    # word 2 is looked at, word 0 is not
    talk.lend(area, n)
    for position, wrong, want in ((2, 1, REFUSED), (2, WORD, REFUSED), (2, 2, REFUSED), (2, 3, REFUSED),
                                  (2, 5, REFUSED), (2, 8, REFUSED), (2, 2 ** 31 + 4, REFUSED),
                                  (2, 4 - MARK[kind], REFUSED), (0, 6, (0, 7, 9, 6)),
                                  (0, WORD, (0, 7, 9, 6)), (1, 0, REFUSED), (1, 65, (0, 7, 9, 6)),
                                  (1, 513, (0, 7, 9, 6)),
                                  (1, WORD, (0, 7, 9, 6)), (3, 1, (0, 7, 9, 6))):
        talk.set(area, position, [wrong])
        talk.image_lookup(area, NONE, want)
        talk.image_lookup(area, (1, 2, 256, 3, 4, 0), (11, 0, 0, 0))
        talk.image_packet(area, udp, want)
        talk.image_check(area, 9)
        talk.set(area, position, [words[position]])
    # where a row begins: the last field's link, at and behind the last rule's row, and between
    link, last = front + 5 * BLOCK + KEYS, ROW * kind.rules
    # 15 times the second last number of rules is 14 where it is cut to 32 bits
    for n_rules in (0, 1, 2, 63, 64, 65, 511, 512, 513, 286331154, WORD):
        for row in [0, 1, 14, 15, 16, 30, 945, 959, 960, 961, 974, 975, 990, last - 15, last - 1,
                    last, last + 1, last + 14, last + 15, last + 30, 2 ** 31 - 1,
                    *(2 ** bit for bit in range(10, 31)), *(15 * 2 ** bit for bit in range(7, 27))]:
            changed = list(words)
            changed[1], changed[link] = n_rules, DOWN + row
            talk.set(area, 1, [n_rules])
            talk.set(area, link, [DOWN + row])
            want = image_walk(changed, NONE)
            expect(want[0] == (9 if row % 15 or row > last or row > 15 * n_rules else 0),
                   'the reference and the page')
            talk.image_lookup(area, NONE, want)
    talk.flush()


def frozen_cycles(talk, rng):
    """Links that lead round: 8 blocks of one field are read, and no ninth; a link down after the
    eighth is taken, in each field, so that 48 blocks are read."""
    for kind in KINDS:
        cycles_of(talk, kind)
        talk.stores = 0


def cycles_of(talk, kind):
    area = talk.make(kind.front + BLOCK * 60, drive.END_AT_WALL)
    front = [0, 0, MARK[kind]] + [0] * (HEAD[kind] - 3) + [77, 78]
    front += [0] * (kind.front - len(front))
    ends = [WORD] * KEYS

    def walks(links, want):
        words = front + [word for link in links for word in ends + [link] * KEYS]
        expect(image_walk(words, NONE) == want, 'the reference and the page: %s' % (want,))
        talk.set(area, 0, words)
        talk.lend(area, len(words))
        for values in (NONE, TOPS):
            talk.image_lookup(area, values, want)
        talk.image_packet(area, packet_of((1, 2, 17, 3, 4)), want)
        talk.image_check(area, 9)

    for step in range(1, 10):
        # `step` blocks of each field, the last with a link down
        links = [b + 1 if (b + 1) % step else DOWN + b + 1 for b in range(6 * step)]
        links[-1] = DOWN
        walks(links, (0, 77, 78, 6 * step) if step <= 8 else REFUSED)
        for field in range(6):
            # one field of so many blocks, the others of one
            links = []
            for f in range(6):
                run = step if f == field else 1
                links += [len(links) + 1 + i for i in range(run - 1)]
                links.append(DOWN + (len(links) + 1 if f < 5 else 0))
            walks(links, (0, 77, 78, 5 + step) if step <= 8 else REFUSED)
    walks([0], REFUSED)
    walks([1, 0], REFUSED)
    walks([DOWN] * 6, (0, 77, 78, 6))
    walks([DOWN + 1, DOWN], (0, 77, 78, 6))
    walks([DOWN + 1, DOWN + 2, DOWN + 1], REFUSED)
    walks([DOWN + 1, 1], REFUSED)
    walks([1], REFUSED)
    walks([], REFUSED)
    # all eight ends below the value, also where the word behind the links would lead on
    words = front + [DOWN] * (3 * BLOCK)
    talk.set(area, 0, words)
    for blocks in (3, 2, 1):
        talk.lend(area, kind.front + BLOCK * blocks)
        for destination, want in ((DOWN, (0, 77, 78, 6)), (DOWN + 1, REFUSED), (WORD, REFUSED)):
            talk.image_lookup(area, (destination, 0, 0, 0, 0, 0), want)
            talk.image_lookup(area, (0, destination, 0, 0, 0, 0), want)
    for link in (2 ** 28 - 64, 2 ** 28, 2 ** 28 - 65, 2 ** 31 - 1, 2 ** 31 - 64, DOWN + 2 ** 28,
                 DOWN + 2 ** 31 - 64, WORD):
        walks([link], REFUSED)
    talk.flush()


# ---- random cases ----

def frozen_worlds(talk, rng):
    """Random tables, frozen after some edits: into words of any length that is enough."""
    world = World(rng, rng.choice((None, None, ['types'], ['line'], ['line', 'again'], ['wide'],
                                   ['corners', 'again'])))
    world.numbers = range(65535)
    store = fresh(talk, rng, rng.choice((60, 300, 1920, 6000)), rng.choice((None, world.action())))
    for _ in range(3):
        for _ in range(rng.choice((1, 5, 20, 70))):
            store.insert(world.rule())
        for number in rng.sample(list(store.account.rules), len(store.account.rules) // 5):
            store.delete(number)
        area, words = freeze(store, rng)
        ask(store, rng, area, words)
        some_damage(talk, rng, area, words)
        longer, _ = freeze(store, rng, rng.choice((1, 16, 100)))
        talk.image_check(longer, 9)
        look(store, longer, words, values_near(rng, store.account.table()))
        short = talk.make(len(words), rng.choice(HOWS), rng.getrandbits(32))
        talk.lend(short, rng.choice((len(words) - 1, len(words) - 16, store.kind.front, 0,
                                     rng.randrange(len(words)))))
        talk.freeze(store.id, short, len(words), 8)
        talk.check(store.id, 0)
        talk.flush()
        talk.stores -= 3


def worst_of(words):
    """What the call says of the words of an image that passes: by the table that they hold."""
    blocks, record = deepest_record(table_in(tuple(words[:kind_of(words).front])))
    return (0, blocks) + record


def over_check(talk, area, words):
    """The image check over any words, and the worst packet: 9 with zeros exactly where the check
    says 9. Gives what the check says."""
    want = image_check(words)
    talk.image_check(area, want)
    talk.image_worst(area, worst_of(words) if want == 0 else NO_WORST)
    return want


def some_damage(talk, rng, area, words, count=12):
    """Words of an image here and there, and its length: 9, or another image."""
    front, head = kind_of(words).front, HEAD[kind_of(words)]
    for _ in range(count):
        position = rng.choice((rng.randrange(len(words)), rng.randrange(front, len(words)),
                               rng.randrange(head, head + 600), rng.randrange(60)))
        changed = list(words)
        changed[position] ^= 1 << rng.randrange(32)
        talk.set(area, position, [changed[position]])
        over_check(talk, area, changed)
        talk.set(area, position, [words[position]])
    for shorter in (1, 16, rng.randrange(1, len(words))):
        talk.lend(area, len(words) - shorter)
        talk.image_check(area, 9)
        talk.image_worst(area, NO_WORST)
    talk.lend(area, len(words))
    talk.image_check(area, 0)


def frozen_alike(talk, rng):
    """The same rules by several histories, in stores of several sizes: the same image."""
    world = World(rng)
    action = world.action()
    plan = fresh(talk, rng, rng.choice((60, 300, 1500)), action)
    for _ in range(rng.choice((2, 6, 20))):
        plan.insert(world.rule())
    rules = plan.account.rules
    area, words = freeze(plan, rng)
    needed = count_cells(plan.account.table(), 65536)
    for c in (needed, needed + rng.randint(1, 200)):
        store = fresh(talk, rng, c, action, plan.kind)
        wander(store, world, rng, rules)
        expect(store.account.rules == rules, 'the plan went wrong')
        talk.same(freeze(store, rng)[0], area, len(words))
    talk.flush()


def frozen_hostile(talk, rng):
    """Words that are nearly an image, damaged: the image check, and the walk of the manual."""
    world = World(rng)
    store = fresh(talk, rng, rng.choice((60, 300, 1500)), rng.choice((None, 77)))
    for _ in range(rng.choice((0, 3, 12, 40))):
        store.insert(world.rule())
    table = store.account.table()
    good = words_of(store.account)
    area = talk.make(len(good) + 40, rng.choice(HOWS))
    for _ in range(25):
        words = damaged(rng, good)
        lent = len(words)
        if rng.random() < 0.15:
            front = store.kind.front
            lent = rng.choice((lent - 1, lent - 16, rng.randrange(lent + 1), 1023, front - 1, front,
                               front + 16, 0))
        over_any(talk, rng, area, words[:lent], table)
        talk.note('images damaged')
    talk.flush()


def damaged(rng, words):
    """A copy of an image's words with some changed: links to other blocks, to themselves, with
    and without their mark; ends out of order; the front; blocks swapped; a column rewritten."""
    words, kind = list(words), kind_of(words)
    front, head = kind.front, HEAD[kind]
    blocks = (len(words) - front) // BLOCK
    used = [i for i in range(front, len(words)) if words[i] not in (0, UNUSED)]
    links = [i for i in used if (i - front) % BLOCK >= KEYS]
    how = rng.randrange(10)
    if how < 4:
        for position in rng.sample(links, min(len(links), rng.choice((1, 1, 2, 5, 40)))):
            other = rng.choice((rng.randrange(blocks), (position - front) // BLOCK, blocks,
                                blocks - 1, rng.choice(words), 15 * rng.randrange(kind.rules + 2),
                                rng.getrandbits(31), words[rng.choice(links)]))
            words[position] = (other ^ rng.choice((0, DOWN))) % 2 ** 32
    elif how < 6:
        for position in rng.sample(used, min(len(used), rng.choice((1, 2, 10)))):
            words[position] = rng.choice((0, WORD, words[position] ^ 1 << rng.randrange(32),
                                          words[position] + 1, rng.getrandbits(32))) % 2 ** 32
    elif how == 6:
        position = rng.choice((0, 1, 1, KIND, KIND, 3, rng.randrange(head), rng.randrange(head, front)))
        words[position] = rng.choice((0, 1, 2, 4, 64, 65, 512, 513, WORD, rng.getrandbits(32)))
    elif how == 7:
        for _ in range(rng.choice((1, 3))):
            a, b = (front + BLOCK * rng.randrange(blocks) for _ in range(2))
            words[a:a + BLOCK], words[b:b + BLOCK] = words[b:b + BLOCK], words[a:a + BLOCK]
    elif how == 8:
        supply = rng.choice((lambda b: b, lambda b: (b + 1) % blocks, lambda b: DOWN + b,
                             lambda b: DOWN + (b + 1) % blocks, lambda b: rng.randrange(blocks),
                             lambda b: rng.choice((0, DOWN)) + rng.randrange(blocks)))
        for b, place in itertools.product(range(blocks), range(KEYS)):
            if rng.random() < 0.5:
                words[front + BLOCK * b + KEYS + place] = supply(b)
    else:
        words += [rng.choice((0, WORD, rng.getrandbits(32))) for _ in range(rng.choice((1, 16, 17)))]
    return words


def over_any(talk, rng, area, words, table):
    """Each call over any words, in an area that has room for them."""
    talk.set(area, 0, words)
    talk.lend(area, len(words))
    over_check(talk, area, words)
    for _ in range(6):
        values = values_near(rng, table)
        talk.image_lookup(area, values, image_walk(words, values))
    talk.image_lookup(area, values_above(rng, values), (11, 0, 0, 0))
    packet = random_packet(rng, table)
    found = image_walk_packet(words, packet)
    talk.image_packet(area, packet, found)
    count(talk, area, packet, some_record(rng, [rule.number for rule in table]), found)


def frozen_mazes(talk, rng):
    """Words that never were an image, over which a lookup finds its way, goes round, or gets
    lost late."""
    table = [World(rng).rule() for _ in range(5)]
    for _ in range(20):
        blocks, kind = rng.choice((0, 1, 2, 6, 8, 20, 50)), rng.choice(KINDS)
        words = [rng.choice((0, 0, 1, rng.getrandbits(32))) for _ in range(kind.front)]
        words[1] = rng.choice((0, 1, 3, 64, 65, 512, 513, WORD))
        words[KIND] = rng.choice((MARK[kind],) * 9 + (1,))
        onward = rng.choice((0.05, 0.2, 0.5, 0.85))
        for b in range(blocks):
            words += [rng.choice((0, 1, 255, 65535, WORD, WORD, WORD, rng.choice(
                rng.choice(table).high))) for _ in range(KEYS)]
            for _ in range(KEYS):
                if rng.random() < onward:
                    link = rng.choice((b, (b + 1) % blocks, rng.randrange(blocks)))
                else:
                    link = DOWN + rng.choice((rng.randrange(blocks),) * 3 + (
                        15 * rng.randrange(kind.rules + 2), 0, 15, rng.getrandbits(31), blocks))
                words.append(link)
        words += [WORD] * rng.choice((0, 0, 1, 15))
        area = talk.make(len(words), drive.END_AT_WALL)
        over_any(talk, rng, area, words, table)
        expect(image_check(words) == 9, 'a maze passes the check')
        talk.note('mazes of blocks')
        talk.flush()
        talk.stores -= 1
