"""Fixed cases: document 01's bench table, limits, and orders of refusal."""

import drive
from image import image_walk
from laid import HEAD, MARK, ROW, laid
from packets import BENCH_LOOKUPS, address, bench_values
from reference import (BENCH_RULES, DEFAULT, KINDS, LARGE, MOST_CELLS, PORTLESS, PORTS, SMALL, TOPS,
                       Account, Edit, Rule, words_needed)
from store import HOWS, Store, expect, fresh
from tables import CHOICES, World, packet_of, values_near
from walk import walk

# Low ends and high ends: full; narrow in every field that can be; crossed in field 1; and by
# the port rule refused.
FULL = ((0,) * 6, TOPS)
NARROW = ((1, 1, 1, 1, 1, 0), TOPS[:5] + (0,))
CROSSED = ((1, 0, 0, 0, 0, 0), (0,) + TOPS[1:])
PORTS_OF_ALL = ((0, 0, 0, 1, 0, 0), TOPS)

# The words of images without their front: of the bench table, which has 41 chains, and of the
# default alone.
BENCH_BLOCKS, LEAST_BLOCKS = 16 * 41, 16 * 6
# What word 2 may say that names no kind.
NO_KIND = (1, 2, 3, 5, 6, 7, 8, 12, 20, 36, 260, 65540, 2 ** 18, 2 ** 31, 2 ** 31 + 4, 2 ** 32 - 4,
           2 ** 32 - 1)


def bench_table(talk, rng):
    """Document 01's bench table, its numbers written out here and not taken
    from the reference, which is tested by them too."""
    ten, twenty = BENCH_RULES
    for kind, c, order in ((LARGE, 1024, (ten, twenty)), (LARGE, 1024, (twenty, ten)),
                           (SMALL, 1920, (ten, twenty)), (SMALL, 1920, (twenty, ten)),
                           (LARGE, 54, (ten, twenty)), (LARGE, 54, (twenty, ten)),
                           (SMALL, 54, (ten, twenty)), (SMALL, 54, (twenty, ten)),
                           (LARGE, 65536, (ten, twenty)), (SMALL, 65536, (ten, twenty))):
        store = Store(talk, words_needed(c, kind))
        image_words = kind.front + BENCH_BLOCKS
        if kind == LARGE:
            talk.start(store.id, c, 0)
        else:
            store.lay(kind, c)
        talk.cells(store.id, (0, 6))
        for rule in order:
            talk.insert(store.id, rule, 0)
            if rule is order[0]:
                talk.cells(store.id, (0, 33 if rule is ten else 18))
        talk.cells(store.id, (0, 54))
        talk.image_words(store.id, (0, image_words))
        image = talk.make(image_words)
        talk.freeze(store.id, image, image_words, 0)
        talk.image_check(image, 0)
        talk.image_worst(image, (0, 6) + (0,) * 6)
        for row in BENCH_LOOKUPS:
            talk.lookup(store.id, bench_values(row), row[3])
            talk.packet(store.id, packet_of(bench_values(row)), row[3])
            # no chain has more than 8 ends: a block in each field
            talk.image_lookup(image, bench_values(row), row[3][:3] + (6,))
            talk.image_packet(image, packet_of(bench_values(row)), row[3][:3] + (6,))
        talk.worst(store.id, (0, 11, address('10.0.0.128'), 0, 17, 5000, 0, 1))
        # the first row's packet as a later fragment and as ICMP, and its values without ports
        first = bench_values(BENCH_LOOKUPS[0])
        talk.packet(store.id, packet_of(first, offset=1), (0, 20, 3, 8))
        talk.packet(store.id, packet_of(first[:2] + (1,) + first[3:]), (0, 20, 3, 7))
        talk.lookup(store.id, first[:5] + (1,), (0, 20, 3, 10))
        talk.delete(store.id, 20, 0)
        talk.cells(store.id, (0, 33))
        talk.insert(store.id, twenty, 0)
        talk.delete(store.id, 10, 0)
        talk.cells(store.id, (0, 18))
        talk.delete(store.id, 20, 0)
        talk.cells(store.id, (0, 6))
        talk.flush()
    for order in ((ten, twenty), (twenty, ten)):
        store = Store(talk, words_needed(53))
        talk.start(store.id, 53, 0)
        talk.insert(store.id, order[0], 0)
        talk.insert(store.id, order[1], 6)
        talk.check(store.id, 0)
        talk.cells(store.id, (0, 33 if order[0] is ten else 18))
    talk.prefix(address('10.0.0.0'), 24, (0, 167772160, 167772415))
    talk.prefix(address('10.0.0.1'), 24, (10, 0, 0))
    talk.prefix(0, 0, (0, 0, 4294967295))
    talk.flush()
    account = Account(c=54)
    account.insert(*ten), account.insert(*twenty)
    for row in BENCH_LOOKUPS:
        expect(account.lookup(bench_values(row)) == row[3], 'the reference and document 01')
    expect(account.cells() == (0, 54), 'the reference and document 01')


def starts(talk, rng):
    """Sizes at and beyond the limits, and slices one word short."""
    for c in (6, 7, 100, 65535, 65536):
        for spare in (-1, 0, 1, 300):
            for how in HOWS[1:]:
                store = Store(talk, words_needed(c) + spare, how, rng.getrandbits(32))
                for action in (7, None, 2 ** 32 - 1, 0):
                    store.start(c, action)
                    if spare >= 0:
                        store.audit(rng)
                talk.flush()
                talk.stores = 0
    store = Store(talk, words_needed(65537) + 10)
    for c in (0, 1, 4, 5, 6, 7, 65535, 65536, 65537, 65542, 65536 + 65536, 2 ** 29, 2 ** 29 + 6,
              2 ** 31, 2 ** 31 + 6, 2 ** 32 - 1, 2 ** 32 - 128, 2 ** 32 - 127, 2 ** 32 - 122,
              2 ** 32 - 1024, 2 ** 32 - 1023, 2 ** 32 - 1018, 2 ** 29 - 1024, 2 ** 29 - 1018):
        for action in (None, 5):
            if store.start(c, action) == 0:
                store.audit(rng)
    talk.flush()


def any_words_before(talk, rng):
    """A start over any words, used ones too, leaves the same words."""
    for c in (6, 7, 40, 300, 4096):
        n = words_needed(c)
        first = Store(talk, n, fill=rng.getrandbits(32))
        first.start(c)
        second = Store(talk, n + 5, fill=rng.getrandbits(32))
        second.start(c, 0)
        talk.same(first.id, second.id, n)
        world = World(rng)
        for _ in range(10):
            second.insert(world.rule())
        second.start(c)
        talk.same(first.id, second.id, n)
        talk.set(second.id, 0, [0] * n)
        second.start(c)
        talk.same(first.id, second.id, n)
        second.start(c, 2)
        second.audit(rng)
        talk.flush()


def every_length(talk, rng):
    """Every length of slice from 0 to just over what a store of 6 cells takes, over the words of
    a good store; of a large one those around each of its parts, and others at random."""
    for kind in KINDS:
        n = words_needed(6, kind)
        lengths = range(n + 9)
        if kind == LARGE:
            lengths = sorted({*range(60), *range(490, 515), *range(1020, 1080), *range(8170, n + 9),
                              *rng.sample(range(n), 200)})
        lengths_of(talk, kind, n, lengths)


def lengths_of(talk, kind, n, lengths):
    store = Store(talk, n + 8)
    store.lay(kind, 6)
    store.insert(Rule(7, 9, *FULL))
    readable, values = packet_of((1, 2, 17, 4, 5)), (1, 2, 17, 4, 5, 0)
    short, started = Store(talk, n + 8), words_needed(6)
    least = kind.front + LEAST_BLOCKS
    image = talk.make(least + 1)
    carried = talk.make(started + 1)
    for length in lengths:
        talk.lend(store.id, length)
        talk.lend(short.id, length)
        talk.start(short.id, 5, 8)
        talk.start(short.id, 6, 0 if length >= started else 8)
        talk.start_with(short.id, 7, 3, 0 if length >= started + 8 else 8)
        good = length >= n
        talk.check(store.id, 0 if good else 9)
        talk.cells(store.id, (0, 6) if good else (9, 0))
        talk.read(store.id, DEFAULT, store.account.read(DEFAULT) if good else (9,) + (0,) * 14)
        talk.rule_at(store.id, 1, store.account.rule_at(1) if good else (9,) + (0,) * 14)
        for number, life in ((7, (0,) * 8), (DEFAULT, (0, 1) + (0,) * 6), (8, (4,) + (0,) * 7),
                             (65536, (1,) + (0,) * 7)):
            talk.dead(store.id, number, life if good else (9,) + (0,) * 7)
        talk.worst(store.id, (0, 6) + (0,) * 6 if good else (9,) + (0,) * 7)
        talk.image_words(store.id, (0, least) if good else (9, 0))
        talk.image_worst(store.id, (9,) + (0,) * 7)
        for room in (0, least - 1, least):
            talk.lend(image, room)
            talk.freeze(store.id, image, least, 9 if not good else 0 if room == least else 8)
        for room in (0, started - 1, started):
            talk.lend(carried, room)
            talk.carry(store.id, carried, 6, 9 if not good else 0 if room == started else 8)
        talk.lookup(store.id, values, (0, 7, 9, 6) if good else (9, 0, 0, 0))
        talk.lookup(store.id, (1, 2, 256, 4, 5, 0), (11, 0, 0, 0))
        talk.packet(store.id, readable, (0, 7, 9, 6) if good else (9, 0, 0, 0))
        talk.packet(store.id, readable[:23], (14, 0, 0, 0))
        talk.packet(store.id, readable[:19], (7, 0, 0, 0))
        talk.delete(store.id, 65535, 1 if good else 9)
        talk.insert(store.id, Rule(7, 9, *FULL), 3 if good else 9)
        again = [Edit(1, 7, 0, *FULL), Edit(0, 7, 9, *FULL), Edit(0, 8, 9, *FULL), Edit(1, 8, 0, *FULL)]
        talk.edit_list(store.id, again, (0, 0) if good else (9, 1))
        talk.edit_list(store.id, again[1:], (3, 1) if good else (9, 1))
        talk.edit_list(store.id, [], (15, 0))
    talk.flush()
    # The same with nothing readable behind the slice.
    for length in [*range(12), *range(kind.front - 14, n + 1), 100, 500]:
        walled = talk.make(length, drive.END_AT_WALL)
        talk.copy(store.id, walled, length)
        good = length >= n
        talk.check(walled, 0 if good else 9)
        talk.cells(walled, (0, 6) if good else (9, 0))
        talk.dead(walled, 7, (0,) * 8 if good else (9,) + (0,) * 7)
        talk.worst(walled, (0, 6) + (0,) * 6 if good else (9,) + (0,) * 7)
        talk.carry(walled, carried, 6, 0 if good else 9)
        talk.lookup(walled, values, (0, 7, 9, 6) if good else (9, 0, 0, 0))
        talk.packet(walled, readable, (0, 7, 9, 6) if good else (9, 0, 0, 0))
        talk.packet(walled, readable[:23], (14, 0, 0, 0))
        talk.packet(walled, readable[:19], (7, 0, 0, 0))
        talk.delete(walled, 8, 4 if good else 9)
        talk.edit_list(walled, again, (0, 0) if good else (9, 1))
        talk.start(walled, 5, 8)
        talk.start(walled, 6, 0 if length >= started else 8)
        talk.flush()
        talk.stores -= 1
    # and with nothing readable behind the words that a table is carried into
    talk.lend(store.id, n)
    for length in (0, 1, 1023, 1024, 1072, 8191, 8192, started - 8, started - 1, started, started + 1):
        walled = talk.make(length, drive.END_AT_WALL)
        talk.carry(store.id, walled, 6, 0 if length >= started else 8)
        talk.flush()
        talk.stores -= 1
    talk.stores = 0


def sizes_of_a_walk(talk, rng):
    """Words over which every walk would come to the default's row: a lookup takes
    those that name a kind and a c within its limits, and no others."""
    for kind in KINDS:
        for c, want in ((5, (9, 0, 0, 0)), (6, (0, DEFAULT, 7, 6)), (65536, (0, DEFAULT, 7, 6)),
                        (65537, (9, 0, 0, 0))):
            store = Store(talk, words_needed(c, kind), drive.END_AT_WALL)
            front = [c, 0, MARK[kind]] + [0] * (HEAD[kind] - 3) + [DEFAULT, 7]
            front += [0] * (kind.front - len(front))
            talk.set(store.id, 0, front + [2 ** 32 - 1, c, 0, 0, 0, 0, 0, 0] * c)
            for values in ((0,) * 6, TOPS):
                talk.lookup(store.id, values, want)
            talk.packet(store.id, packet_of((1, 2, 17, 3, 4)), want)
            talk.check(store.id, 9)
            talk.worst(store.id, (9,) + (0,) * 7)
            talk.flush()
            talk.stores = 0


def rows_of_a_walk(talk, rng):
    """Where a walk comes to: at and behind the last rule's row, the last row, and between rows."""
    for kind in KINDS:
        last = ROW * kind.rules
        store = Store(talk, words_needed(6, kind), drive.END_AT_WALL)
        words = [6, 0, MARK[kind]] + [0] * (HEAD[kind] - 3)
        for row in range(kind.rules + 1):
            words += [1000 + row, row] + [0] * (ROW - 2)
        words += [6, 0]
        for cell in range(6):
            words += [2 ** 32 - 1, 6, cell + 1, 0, 0, 0, 0, 0]
        talk.set(store.id, 0, words)
        # 15 times the second last number of rules is 14 where it is cut to 32 bits
        for n_rules in (0, 1, 2, 63, 64, 65, 511, 512, 513, 286331154, 2 ** 32 - 1):
            for row in [0, 1, 14, 15, 16, 30, 945, 959, 960, 961, 974, 975, 990, last - 15, last - 1,
                        last, last + 1, last + 14, last + 15, last + 30, 2 ** 32 - 1,
                        *(2 ** bit for bit in range(10, 32)), *(15 * 2 ** bit for bit in range(7, 28))]:
                words[1], words[-6] = n_rules, row
                talk.set(store.id, 1, [n_rules])
                talk.set(store.id, len(words) - 6, [row])
                want = walk(words, (0,) * 6)
                expect(want == ((9, 0, 0, 0) if row % 15 or row > last or row > 15 * n_rules
                                else (0, 1000 + row // 15, row // 15, 6)), 'the reference and the page')
                for values in ((0,) * 6, TOPS):
                    talk.lookup(store.id, values, want)
                talk.packet(store.id, packet_of((1, 2, 17, 3, 4)), want)
        talk.flush()
        talk.stores = 0


def kinds(talk, rng):
    """Words that are right but for word 2: another kind, whose front has another length, or
    none. Every call gives 9, and a lookup too where the walk would be the same."""
    world = World(rng, ['types'])
    values, packet = (1, 2, 17, 4, 5, 0), packet_of((1, 2, 17, 4, 5))
    for kind in KINDS:
        for c, rules in ((6, []), (6, [Rule(7, 9, *FULL)]), (2000, [world.rule(n) for n in range(5)])):
            rules = [Account(action=3).default] + rules
            size = words_needed(c, kind)
            store = talk.make(size + 8000, drive.END_AT_WALL)
            # as large as a store of the other kind, so that the length does not tell them apart
            words = laid(c, rules, kind) + [0] * 8000
            talk.set(store, 0, words)
            talk.holds(store, size)
            other = talk.make(words_needed(2000))
            image = talk.make(9000)
            talk.check(store, 0)
            for mark in (*NO_KIND, *(MARK[k] for k in KINDS if k != kind)):
                words[2] = mark
                talk.set(store, 2, [mark])
                talk.check(store, 9)
                talk.cells(store, (9, 0))
                talk.read(store, DEFAULT, (9,) + (0,) * 14)
                talk.rule_at(store, 1, (9,) + (0,) * 14)
                talk.dead(store, DEFAULT, (9,) + (0,) * 7)
                talk.worst(store, (9,) + (0,) * 7)
                talk.image_words(store, (9, 0))
                talk.freeze(store, image, 0, 9)
                talk.carry(store, other, 2000, 9)
                talk.insert(store, Rule(8, 9, *FULL), 9)
                talk.delete(store, 65535, 9)
                talk.edit_list(store, [Edit(0, 8, 9, *FULL)], (9, 1))
                found = walk(words, values)
                expect(mark not in NO_KIND or found[0] == 9, 'the reference and request P9')
                talk.lookup(store, values, found)
                talk.packet(store, packet, found)
                talk.image_lookup(store, values, image_walk(words, values))
                talk.image_check(store, 9)
                talk.lookup(store, (1, 2, 256, 4, 5, 0), (11, 0, 0, 0))
                talk.packet(store, packet[:20], (14, 0, 0, 0))
            talk.set(store, 2, [MARK[kind]])
            talk.check(store, 0)
            talk.flush()
            talk.stores = 0


def full_tables(talk, rng):
    """64 rules and the 65th in a small store, 512 and the 513th in a large one, also where the
    cells are used up; and the 65th in a large one is taken."""
    for kind, c in ((SMALL, 6), (SMALL, 7), (SMALL, 1000), (LARGE, 6), (LARGE, 1000)):
        store = fresh(talk, rng, c, kind=kind)
        numbers = rng.sample(range(65535), kind.rules)
        store.load([Rule(number, number, *FULL) for number in numbers])
        store.audit(rng, reads=20)
        spare = next(n for n in range(65535) if n not in store.account.rules)
        wanted = ((Rule(spare, 1, *FULL), 5), (Rule(spare, 1, *NARROW), 5),
                  (Rule(numbers[5], 1, *FULL), 3), (Rule(65535, 1, *FULL), 1),
                  (Rule(spare, 1, *CROSSED), 2), (Rule(spare, 1, *PORTS_OF_ALL), 2))
        for rule, answer in wanted:
            expect(store.insert(rule) == answer, 'the reference and request P9')
        store.audit(rng, reads=20)
        store.delete(numbers[9])
        expect(store.insert(Rule(spare, 1, *NARROW)) == (6 if c < 20 else 0), 'the reference and request P9')
        expect(store.insert(Rule(spare, 2, *FULL)) == (0 if c < 20 else 3), 'the reference and request P9')
        store.audit(rng, reads=20)
        for number in numbers if kind == SMALL else numbers[:40]:
            store.delete(number)
        store.delete(spare)
        store.audit(rng, reads=20)
        talk.flush()
        talk.stores = 0
    # 64 nested and 64 separate ranges in one field, and in field 6 the three that there are; by
    # one more than a small store takes.
    for field in range(6):
        store = fresh(talk, rng, 1920, kind=KINDS[field % 2])
        for i in range(65):
            low, high = map(list, FULL)
            low[field], high[field] = (i, TOPS[field] - i) if i % 2 else (3 * i, 3 * i + 1)
            if field == PORTLESS:
                low[field], high[field] = CHOICES[i % 3]
            elif field in PORTS:
                high[PORTLESS] = 0
            answer = store.insert(Rule(i, i, tuple(low), tuple(high)))
            expect(answer == (5 if i == store.kind.rules else 0), 'the reference and request P9')
            if i % 4 == 0 or i > 60:
                store.audit(rng, 12, 4)
        talk.flush()
        talk.stores = 0


def narrow_rules(rng, count):
    """So many rules, each for a host of its own, half of them with a UDP port or a network."""
    rules = []
    for i, number in enumerate(rng.sample(range(65535), count)):
        low, high = map(list, FULL)
        low[0] = high[0] = address('10.0.0.1') + 2 * i
        if i % 4 == 1:
            low[2] = high[2] = 17
            low[3] = high[3] = 5000 + i
            high[PORTLESS] = 0
        if i % 4 == 2:
            low[1], high[1] = address('192.168.0.0') + 256 * i, address('192.168.0.255') + 256 * i
        rules.append(Rule(number, i, tuple(low), tuple(high)))
    return rules


def five_hundred_twelve(talk, rng):
    """Full tables of 512 narrow rules, in as many cells as they take and in 65,536: the 512th is
    taken and the 513th gets 5, whatever the cells; with a cell less the last gets 6."""
    *rules, more = narrow_rules(rng, 513)
    plan = Account(c=MOST_CELLS)
    plan.rules = {rule.number: rule for rule in rules}
    needed, table = plan.cells()[1], plan.table()
    for c in (needed, MOST_CELLS):
        store = fresh(talk, rng, c, 9, LARGE)
        first = 0
        if c == MOST_CELLS:
            first = 500
            store.lay(LARGE, c, 9, rules[:first])
        store.load(rng.sample(rules[first:], 512 - first))
        expect(store.insert(more) == 5, 'the reference and request P9')
        expect(store.insert(more._replace(number=rules[0].number)) == 3, 'the reference and request P9')
        store.audit(rng, 60, 12)
        for rule in rng.sample(rules, 25):
            store.lookup(rule.low)
            store.dead(rule.number)
        for place in (64, 65, 66, 511, 512, 513):
            store.rule_at(place)
        store.delete(rules[3].number)
        store.insert(more)
        store.audit(rng, 10, 4)
        talk.flush()
        talk.stores = 0
    store = fresh(talk, rng, needed - 1, 9, LARGE)
    store.lay(LARGE, needed - 1, 9, rules[:-1])
    expect(store.insert(rules[-1]) == 6, 'the reference counts wrongly')
    expect(store.insert(rules[-1]._replace(low=FULL[0], high=FULL[1])) == 0, 'the reference counts wrongly')
    expect(store.insert(rules[-1]._replace(number=spare_number(store))) == 5,
           'the reference and request P9')
    for _ in range(30):
        store.lookup(values_near(rng, table))
    store.audit(rng, 10, 4)
    talk.flush()


def spare_number(store):
    return next(n for n in range(65535) if n not in store.account.rules)


def order_of_refusals(talk, rng):
    """Every pair of things wrong with an insert, a delete or a read."""
    store = fresh(talk, rng, 18)
    good = BENCH_RULES[1]
    store.insert(good)
    store.insert(BENCH_RULES[0])                                            # 6
    store.insert(Rule(65535, 0, BENCH_RULES[0].low, BENCH_RULES[0].high))   # 1 before 6
    store.insert(Rule(65535, 0, *CROSSED))                                  # 1 before 2
    store.insert(Rule(20, 0, *CROSSED))                                     # 2 before 3
    store.insert(Rule(65535, 0, *PORTS_OF_ALL))                             # the same
    store.insert(Rule(20, 0, *PORTS_OF_ALL))
    store.insert(Rule(30, 0, *PORTS_OF_ALL))                                # 2 before 6
    store.insert(Rule(20, 0, BENCH_RULES[0].low, BENCH_RULES[0].high))      # 3 before 6
    for field in range(6):
        for low, high in ((1, 0), (TOPS[field], TOPS[field] - 1), (0, TOPS[field] + 1),
                          (TOPS[field] + 1, TOPS[field] + 1), (TOPS[field] + 1, TOPS[field])):
            if high <= 2 ** 32 - 1 and low <= 2 ** 32 - 1:
                lows, highs = map(list, FULL)
                lows[field], highs[field] = low, high
                store.insert(Rule(30, 0, tuple(lows), tuple(highs)))
    for number in (65534, 65535, 65536, 2 ** 32 - 1, 65536 + 20, 19, 21):
        store.delete(number)
        store.read(number)
        store.dead(number)
    store.insert(Rule(65534, 4, good.low, good.high))
    store.insert(Rule(0, 5, good.low, good.high))
    for _ in range(20):
        store.audit(rng)
    for number in (65534, 65534, 0, 20, 20):
        store.delete(number)
        store.audit(rng)
    for field, top in enumerate(TOPS):
        for value in (top, top + 1, 2 ** 32 - 1, top + 65536):
            if value < 2 ** 32:
                values = [3] * 5 + [0]
                values[field] = value
                store.lookup(values)
    store.insert(good)
    talk.scan(store.id, 0, 300, (1, 20) + (0,) * 64)
    talk.scan(store.id, 65500, 65600, (1, 65535) + (0,) * 64)
    talk.flush()


def seven_before_nine(talk, rng):
    """Packets and values over words that are no store at all: 7, then 14, then 9."""
    other = talk.make(words_needed(6) - 1)
    for length in (0, 1, 1071, 1072, 2000, 8191, 8240, 9000):
        for words in (0, 1, 4, 6, 2 ** 32 - 1):
            store = talk.make(length, drive.END_AT_WALL)
            talk.set(store, 0, [words] * length)
            talk.packet(store, b'', (7, 0, 0, 0))
            talk.packet(store, packet_of((1, 2, 6, 3, 4))[:19], (7, 0, 0, 0))
            talk.packet(store, packet_of((1, 2, 6, 3, 4))[:20], (14, 0, 0, 0))
            talk.packet(store, packet_of((1, 2, 6, 3, 4))[:23], (14, 0, 0, 0))
            talk.packet(store, packet_of((1, 2, 6, 3, 4)), (9, 0, 0, 0))
            # both 7 and 14 stand in the way: version, header length, no room for ports
            talk.packet(store, packet_of((1, 2, 6, 3, 4), first=0x65)[:23], (7, 0, 0, 0))
            talk.packet(store, packet_of((1, 2, 6, 3, 4), first=0x44)[:23], (7, 0, 0, 0))
            talk.packet(store, packet_of((1, 2, 6, 3, 4), total=23)[:22], (7, 0, 0, 0))
            talk.packet(store, packet_of((1, 2, 1, 3, 4))[:20], (14, 0, 0, 0))
            talk.packet(store, packet_of((1, 2, 1, 3, 4), total=20)[:20], (9, 0, 0, 0))
            talk.packet(store, packet_of((1, 2, 1, 3, 4), total=20)[:19], (7, 0, 0, 0))
            talk.lookup(store, (1, 2, 256, 3, 4, 0), (11, 0, 0, 0))
            talk.lookup(store, (1, 2, 255, 65536, 4, 0), (11, 0, 0, 0))
            talk.lookup(store, (1, 2, 255, 3, 65536, 1), (11, 0, 0, 0))
            talk.lookup(store, (1, 2, 255, 3, 65535, 2), (11, 0, 0, 0))
            talk.lookup(store, (1, 2, 255, 3, 65535, 1), (9, 0, 0, 0))
            talk.image_packet(store, packet_of((1, 2, 6, 3, 4))[:19], (7, 0, 0, 0))
            talk.image_packet(store, packet_of((1, 2, 6, 3, 4))[:20], (14, 0, 0, 0))
            talk.image_packet(store, packet_of((1, 2, 6, 3, 4)), (9, 0, 0, 0))
            talk.image_lookup(store, (1, 2, 256, 3, 4, 0), (11, 0, 0, 0))
            talk.image_lookup(store, (1, 2, 255, 3, 4, 2), (11, 0, 0, 0))
            talk.image_lookup(store, (1, 2, 255, 3, 65535, 1), (9, 0, 0, 0))
            talk.image_check(store, 9)
            talk.image_words(store, (9, 0))
            for c in (5, 6):
                talk.carry(store, other, c, 9)
            talk.check(store, 9)
            talk.cells(store, (9, 0))
            talk.worst(store, (9,) + (0,) * 7)
            for number in (0, 65535, 65536):
                talk.dead(store, number, (9,) + (0,) * 7)
                talk.read(store, number, (9,) + (0,) * 14)
                talk.rule_at(store, number, (9,) + (0,) * 14)
                talk.delete(store, number, 9)
                talk.insert(store, Rule(number, 1, (9,) * 6, (0,) * 6), 9)
                talk.insert(store, Rule(number, 1, *PORTS_OF_ALL), 9)
                for remove in (0, 1):
                    talk.edit_list(store, [Edit(remove, number, 1, *PORTS_OF_ALL)], (9, 1))
            talk.edit_list(store, [], (15, 0))
            talk.start(store, 5, 8)
    talk.flush()


