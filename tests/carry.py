"""Cases about carrying a table into a new store: request P9."""

import drive
from edits import one_edit
from frozen import freeze
from hostile import damaged
from laid import KIND, MARK, account_in, laid
from limits import FULL, narrow_rules, spare_number
from packets import BENCH_LOOKUPS, bench_values
from reference import (BENCH_RULES, KINDS, LARGE, LEAST_CELLS, MOST_CELLS, SMALL, Rule, count_cells,
                       words_needed)
from store import HOWS, Store, expect, fresh
from tables import World, packet_of, random_packet, values_near


# ---- what is asked of one carrying ----

def room_for(talk, rng, c, spare=None):
    """Words full of rubbish for a large store of c cells, with or without words behind it."""
    spare = rng.choice((0, 0, 1, 8, 100)) if spare is None else spare
    return Store(talk, words_needed(c) + spare, rng.choice(HOWS), rng.getrandbits(32))


def built(talk, rng, account, c):
    """A store started with the same default action, and the same rules inserted in any order. Of
    many rules in many cells it is laid by the reference."""
    store = room_for(talk, rng, c)
    if len(account.rules) * c > 2 ** 23:
        store.lay(LARGE, c, account.default.action, account.rules.values())
        return store
    store.start(c, account.default.action)
    store.load(rng.sample(list(account.rules.values()), len(account.rules)))
    return store


def carried(store, rng, c, probes=12):
    """Carries a store's table into c cells, which are enough: the words are those of a store that
    was started and filled, and every packet gets the same answer and reads. Gives the new store;
    the driver sees to it that no word of the old one changes, and none behind the new one."""
    talk, account = store.talk, store.account
    into = room_for(talk, rng, c)
    expect(into.carry(store, c) == 0, 'the reference refuses a table that fits')
    expect(into.kind == LARGE and into.account.c == c, 'the reference carries into another store')
    again = built(talk, rng, account, c)
    talk.same(into.id, again.id, words_needed(c))
    talk.stores -= 1
    talk.check(into.id, 0)
    talk.check(store.id, 0)
    table = account.table()
    for _ in range(probes):
        values = values_near(rng, table)
        expect(into.account.lookup(values) == account.lookup(values), 'the reference and request P9')
        store.lookup(values)
        into.lookup(values)
        packet = random_packet(rng, table)
        store.packet(packet)
        into.packet(packet)
    talk.cells(into.id, account.cells())
    talk.worst(into.id, account.worst())
    talk.note('tables carried')
    return into


def same_image(store, into, rng):
    """The image of a table that was carried is that of the old store but for the front."""
    old, words = freeze(store, rng)
    new, others = freeze(into, rng)
    expect(words[store.kind.front:] == others[into.kind.front:], 'the reference lays other blocks')
    store.talk.stores -= 2


# ---- fixed cases ----

def carry_bench(talk, rng):
    """Document 01's bench table, carried, its numbers written out here."""
    for kind, c in ((SMALL, 54), (SMALL, 1920), (LARGE, 54), (LARGE, 1024)):
        store = fresh(talk, rng, c, kind=kind)
        for rule in BENCH_RULES:
            store.insert(rule)
        for into_c in (54, 55, 1024, MOST_CELLS):
            into = room_for(talk, rng, into_c)
            talk.carry(store.id, into.id, into_c, 0)
            for area in (store.id, into.id):
                talk.check(area, 0)
                talk.cells(area, (0, 54))
                for row in BENCH_LOOKUPS:
                    talk.lookup(area, bench_values(row), row[3])
                    talk.packet(area, packet_of(bench_values(row)), row[3])
                for place, rule in enumerate(BENCH_RULES, 1):
                    read = (0, rule.number, rule.action) + rule.low + rule.high
                    talk.read(area, rule.number, read)
                    talk.rule_at(area, place, read)
            started = Store(talk, words_needed(into_c))
            talk.start(started.id, into_c, 0)
            for rule in BENCH_RULES[::-1]:
                talk.insert(started.id, rule, 0)
            talk.same(into.id, started.id, words_needed(into_c))
            talk.stores -= 2
        into = room_for(talk, rng, 53)
        talk.carry(store.id, into.id, 53, 6)
        talk.flush()
        talk.stores = 0


def carry_refusals(talk, rng):
    """9 for the old store, then 8 as for a start, then 6, in every combination; a refusal writes
    no word, wherever the new words lie."""
    for kind in KINDS:
        store = fresh(talk, rng, 60, 5, kind)
        for rule in BENCH_RULES:
            store.insert(rule)
        n = words_needed(60, kind)
        words = laid(60, [store.account.default, *BENCH_RULES], kind)
        bad = Store(talk, store.length)
        for c, fits in ((0, 8), (1, 8), (5, 8), (6, 6), (53, 6), (54, 0), (65536, 0), (65537, 8),
                        (2 ** 29, 8), (2 ** 31 + 54, 8), (2 ** 32 - 1024 + 54, 8), (2 ** 32 - 1, 8),
                        (2 ** 29 - 1024 + 54, 8), (65536 + 54, 8)):
            room = words_needed(c) if c <= 65537 else 9000
            for length in {0, 1, 1024, 1024 + 8 * min(c, 1000), 8191, 8192, room - 1, room, room + 5}:
                into = Store(talk, length, rng.choice(HOWS), rng.getrandbits(32))
                want = fits if length >= room or fits == 8 else 8
                expect(into.account.carry(store.account, length, c) == want,
                       'the reference and request P9')
                # the old store is bad: 9, whatever the rest
                for position in (0, 1, KIND, 3, n - 1, kind.front - 1):
                    talk.copy(store.id, bad.id, n)
                    talk.set(bad.id, position, [words[position] ^ 1 << rng.randrange(32)])
                    talk.carry(bad.id, into.id, c, 9)
                talk.lend(store.id, n - 1)
                talk.carry(store.id, into.id, c, 9)
                talk.lend(store.id, 0)
                talk.carry(store.id, into.id, c, 9)
                talk.lend(store.id, store.length)
                talk.carry(store.id, into.id, c, want)
                talk.stores -= 1
            talk.flush()
        talk.stores = 0


def carry_full(talk, rng):
    """Full tables: 64 rules of a small store, after which the 65th is taken; and 512 of a large
    one, into as many cells as they take, one less, and 65,536."""
    rules = narrow_rules(rng, 64)
    store = fresh(talk, rng, 2000, 7, SMALL)
    store.load(rules)
    expect(store.insert(Rule(spare_number(store), 1, *FULL)) == 5, 'the reference and request P9')
    needed = store.account.cells()[1]
    into = carried(store, rng, needed + 100, 40)
    same_image(store, into, rng)
    for answer in (0, 0, 0):
        expect(into.insert(Rule(spare_number(into), 1, *FULL)) == answer,
               'the reference and request P9')
    into.audit(rng)
    expect(store.insert(Rule(spare_number(into), 1, *FULL)) == 5, 'the reference and request P9')
    store.audit(rng)
    expect(room_for(talk, rng, needed - 1).carry(store, needed - 1) == 6, 'the reference counts wrongly')
    talk.flush()
    talk.stores = 0
    store = fresh(talk, rng, 12000, 7, LARGE)
    store.lay(LARGE, 12000, 7, narrow_rules(rng, 512))
    needed = store.account.cells()[1]
    expect(room_for(talk, rng, needed - 1).carry(store, needed - 1) == 6, 'the reference counts wrongly')
    for c in (needed, MOST_CELLS):
        into = carried(store, rng, c, 25)
        expect(into.insert(Rule(spare_number(into), 1, *FULL)) == 5, 'the reference and request P9')
        expect(into.delete(next(iter(into.account.rules))) == 0, 'the plan went wrong')
        expect(into.insert(Rule(spare_number(into), 1, *FULL)) == 0, 'the plan went wrong')
        talk.cells(into.id, into.account.cells())
        talk.check(into.id, 0)
        talk.flush()
        talk.stores -= 1
    talk.stores = 0
    # tens of thousands of cells in use
    tall = fresh(talk, rng, MOST_CELLS, 1, SMALL)
    tall.lay(SMALL, MOST_CELLS, 1, [
        Rule(i, i, (1 + i, 1 + i, 0, 0, 0, 0), (100 + i, 100 + i) + FULL[1][2:]) for i in range(60)])
    carried(tall, rng, tall.account.cells()[1], 5)
    talk.flush()


def carry_limits(talk, rng):
    """Words nothing of which can be read behind or in front, for the old store and the new."""
    for kind in KINDS:
        for c in (6, 7, 300):
            for how in HOWS[1:]:
                store = Store(talk, words_needed(c, kind), how)
                store.lay(kind, c, 3)
                if c == 300:
                    for rule in BENCH_RULES:
                        store.insert(rule)
                for into_c in (6, 7, 54, 300):
                    for into_how in (drive.END_AT_WALL, drive.FRONT_AT_WALL):
                        into = Store(talk, words_needed(into_c), into_how, rng.getrandbits(32))
                        if into.carry(store, into_c) == 0:
                            into.audit(rng)
                        talk.stores -= 1
        talk.flush()
        talk.stores = 0


# ---- random cases ----

def carry_worlds(talk, rng):
    """Random tables of either kind, carried after some edits, into several sizes; both stores are
    edited on, and what is carried is carried again."""
    world = World(rng)
    world.numbers = range(65535)
    store = fresh(talk, rng, rng.choice((40, 300, 1500)), rng.choice((None, world.action())))
    for _ in range(2):
        for _ in range(rng.choice((1, 5, 20, 70))):
            one_edit(store, world, rng)
        needed = count_cells(store.account.table(), MOST_CELLS)
        for c in {needed, needed + 1, needed + rng.randint(0, 300), store.account.c}:
            into = carried(store, rng, c, 4)
            if rng.random() < 0.3:
                into.audit(rng)
            if rng.random() < 0.2:
                same_image(store, into, rng)
            talk.stores -= 1
        for c in (needed - 1, rng.randint(0, needed - 1), LEAST_CELLS - 1, MOST_CELLS + 1):
            into = room_for(talk, rng, max(c, 6))
            expect(into.carry(store, c) in (6, 8), 'the reference takes a table that does not fit')
            talk.stores -= 1
        # twice is as good as once
        first = carried(store, rng, needed + rng.randint(0, 40), 2)
        second = carried(first, rng, needed + rng.randint(0, 40), 2)
        for _ in range(4):
            one_edit(second, world, rng)
            second.audit(rng)
        talk.check(first.id, 0)
        talk.flush()
        talk.stores -= 2


def carry_hostile(talk, rng):
    """Words of a good store, damaged, and words that are none, carried: 9 exactly where they fail
    the check, and else the table that they hold."""
    world = World(rng)
    kind = rng.choice(KINDS)
    c = rng.choice((LEAST_CELLS, 18, 54, 100, 300))
    rules = []
    for number in sorted(rng.sample(range(65535), rng.randint(0, 8))):
        more = rules + [world.rule(number)]
        if laid(c, [fresh_default(1)] + more, kind):
            rules = more
    good = laid(c, [fresh_default(1)] + rules, kind)
    old = Store(talk, len(good) + 40, rng.choice(HOWS))
    for _ in range(30):
        words = damaged(rng, good, c, kind)
        if rng.random() < 0.1:
            words = [rng.choice((0, 1, c, 4, rng.getrandbits(32))) for _ in good]
            words[0], words[KIND] = c, MARK[kind]
        lent = len(words) + rng.choice((0, 0, 0, 40))
        if rng.random() < 0.15:
            lent = rng.choice((len(words) - 1, rng.randrange(len(words)), kind.front, 3, 2, 0))
        talk.set(old.id, 0, words)
        talk.lend(old.id, lent)
        account = account_in((words + [0] * 40)[:lent])
        into_c = rng.choice((c, c, c - 1, c + 50, 5, 6, 65537))
        length = max(words_needed(min(into_c, 1000)) + rng.choice((0, 0, 0, -1, 30)), 0)
        into = Store(talk, length, rng.choice(HOWS), rng.getrandbits(32))
        want = into.account.carry(account, length, into_c)
        talk.carry(old.id, into.id, into_c, want)
        talk.note('damaged stores carried' if account is None else 'stores carried that pass still')
        if want == 0:
            into.audit(rng)
        talk.stores -= 1
    talk.flush()


def fresh_default(action):
    return Rule(65535, action, *FULL)
