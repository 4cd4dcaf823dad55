"""Cases about lists of edits, of which all are done or none: request P10."""

import copy

import drive
from hostile import damaged
from laid import KIND, MARK, account_in, laid, places_of
from limits import CROSSED, FULL, NARROW, PORTS_OF_ALL, narrow_rules, spare_number
from packets import BENCH_LOOKUPS, bench_values
from reference import (BENCH_RULES, KINDS, LARGE, LEAST_CELLS, MOST_CELLS, MOST_EDITS, PORTLESS,
                       PORTS, SMALL, TOPS, Edit, Rule, default_rule, list_answer, words_needed)
from store import HOWS, Store, expect, fresh
from tables import CHOICES, World, packet_of

TEN, TWENTY = BENCH_RULES   # 33 cells and 18, together 54
REMOVES = (1, 2, 3, 255, 256, 65535, 65536, 2 ** 31, 2 ** 32 - 1)
NOT_THERE = 30              # a number that no table here has


# ---- edits, and what is asked of one list ----

def puts(rule):
    return Edit(0, *rule)


def takes(number, rng=None):
    """A delete. What else stands in it is zeros or anything: it goes by number."""
    if rng is None:
        return Edit(1, number, 0, (0,) * 6, (0,) * 6)
    rest = [rng.choice((0, 1, 65535, 2 ** 32 - 1, rng.getrandbits(32))) for _ in range(13)]
    return Edit(rng.choice(REMOVES), number, rest[0], tuple(rest[1:7]), tuple(rest[7:]))


def coming_and_going(count, number=40000):
    """So many edits that are done wherever the table has room for a rule: one with full ranges,
    which takes no cell, comes and goes."""
    return [takes(number) if i % 2 else puts(Rule(number, i, *FULL)) for i in range(count)]


def twin(store):
    """Another store with the same words, those behind the store among them."""
    other = Store(store.talk, store.length)
    store.talk.copy(store.id, other.id, store.length)
    other.account = copy.copy(store.account)
    other.account.rules = dict(store.account.rules)
    return other


def listed(store, edits, want=None):
    """Gives a list to a store, and its edits singly to a twin of it. All done, both have the same
    words, also behind the store. Refused, the edits before the place are done singly and the one
    there gets the same number; of the list every word is as before."""
    talk = store.talk
    before, singly = twin(store), twin(store)
    answer, place = store.edit_list(edits)
    expect(want in (None, (answer, place)), 'the reference gives %s, and request P10 says %s' % (
        (answer, place), want))
    for i, edit in enumerate(edits[:place or len(edits)] if answer != 15 else (), 1):
        alone = answer if i == place else 0
        if edit.remove:
            talk.delete(singly.id, edit.number, alone)
        else:
            talk.insert(singly.id, Rule(*edit[1:]), alone)
    talk.same(store.id, before.id if answer else singly.id, store.length)
    if answer:
        expect(store.account.rules == before.account.rules, 'the reference and request P10')
    talk.stores -= 2
    talk.note('lists refused' if answer else
              'lists of up to 16 edits done' if len(edits) <= 16 else 'longer lists done')
    return answer, place


def of_rules(talk, rng, kind, c, rules):
    store = fresh(talk, rng, c, 5, kind)
    store.lay(kind, c, 5, rules)
    return store


# ---- fixed cases ----

def list_swap(talk, rng):
    """Document 01's bench table, its two rules with each other's number, its figures written out
    here: where both hold a packet it is now the other one that decides."""
    swap = [takes(10), takes(20), puts(TWENTY._replace(number=10)), puts(TEN._replace(number=20))]
    renumbered = {10: 20, 20: 10, 65535: 65535}
    for kind, c in ((SMALL, 54), (SMALL, 1920), (LARGE, 54), (LARGE, 1024), (LARGE, MOST_CELLS)):
        store = fresh(talk, rng, c, kind=kind)
        for rule in BENCH_RULES:
            store.insert(rule)
        listed(store, swap[2:], (3, 1))
        listed(store, [swap[0], *swap[2:]], (3, 3))
        listed(store, swap[:1] + swap[3:], (3, 2))
        listed(store, swap, (0, 0))
        talk.check(store.id, 0)
        talk.cells(store.id, (0, 54))
        for row in BENCH_LOOKUPS:
            number, action, reads = row[3][1:]
            want = (0, renumbered[number], action, reads)
            if row[0] == '10.0.0.5' and row[2] == 5004:
                want = (0, 10, 3, reads)
            talk.lookup(store.id, bench_values(row), want)
            talk.packet(store.id, packet_of(bench_values(row)), want)
        talk.read(store.id, 10, (0, 10, 3) + TWENTY.low + TWENTY.high)
        talk.read(store.id, 20, (0, 20, 2) + TEN.low + TEN.high)
        # and back: the words of the table as it was
        listed(store, [takes(20), takes(10), puts(TWENTY), puts(TEN)], (0, 0))
        plain = fresh(talk, rng, c, kind=kind)
        for rule in BENCH_RULES[::-1]:
            plain.insert(rule)
        talk.same(store.id, plain.id, words_needed(c, kind))
        talk.flush()
        talk.stores = 0


def list_room(talk, rng):
    """A list that fits only because it deletes first, and the same edits the other way round: 6,
    or in a full table 5, at the place of the insert."""
    for kind in KINDS:
        store = of_rules(talk, rng, kind, 33, [TEN])
        for count in range(0, 31, 6):
            before = coming_and_going(count)
            listed(store, before + [puts(TWENTY), takes(10)], (6, count + 1))
            listed(store, before + [takes(10), puts(TWENTY)], (0, 0))
            listed(store, before + [puts(TEN), takes(20)], (6, count + 1))
            listed(store, before + [takes(20), puts(TEN)], (0, 0))
        # what is in the way comes with the list itself
        listed(store, [takes(10), puts(TWENTY), puts(TEN)], (6, 3))
        listed(store, [takes(10), puts(TWENTY), takes(20), puts(TEN)], (0, 0))
        # one cell decides
        for c, want in ((53, (6, 2)), (54, (0, 0))):
            exact = of_rules(talk, rng, kind, c, [])
            for order in (BENCH_RULES, BENCH_RULES[::-1]):
                listed(exact, [puts(rule) for rule in order], want)
                if want[0] == 0:
                    listed(exact, [takes(10), takes(20)], (0, 0))
        full = of_rules(talk, rng, kind, 40, [Rule(n, n, *FULL) for n in range(kind.rules)])
        new = puts(Rule(5000, 1, *FULL))
        listed(full, [new, takes(7)], (5, 1))
        listed(full, [takes(7), new], (0, 0))
        listed(full, [takes(5000), puts(Rule(7, 7, *FULL)), new, takes(8)], (5, 3))
        listed(full, [takes(5000), takes(8), puts(Rule(7, 7, *FULL)), new], (0, 0))
        full.audit(rng, reads=10)
        talk.flush()
        talk.stores = 0


def list_own(talk, rng):
    """Rules that the list itself brought: deleted by it, and their numbers taken again."""
    for kind in KINDS:
        store = of_rules(talk, rng, kind, 200, [TEN])
        words = twin(store)
        listed(store, [puts(TWENTY), takes(20)], (0, 0))
        talk.same(store.id, words.id, store.length)
        listed(store, [puts(TWENTY), puts(TWENTY)], (3, 2))
        listed(store, [puts(TWENTY), puts(Rule(20, 9, *FULL))], (3, 2))
        listed(store, [puts(TWENTY), takes(20), takes(20)], (4, 3))
        listed(store, [takes(10), takes(10)], (4, 2))
        listed(store, [takes(10), puts(TEN), puts(TEN)], (3, 3))
        listed(store, [takes(10), puts(TEN)], (0, 0))
        talk.same(store.id, words.id, store.length)
        # insert, delete, insert again: the last one stands
        listed(store, [puts(Rule(20, 9, *FULL)), takes(20), puts(TWENTY)], (0, 0))
        store.read(20)
        listed(store, [takes(20), puts(Rule(20, 8, *FULL)), takes(20), puts(Rule(20, 9, *NARROW)),
                       takes(20), puts(TWENTY._replace(action=77))], (0, 0))
        talk.read(store.id, 20, (0, 20, 77) + TWENTY.low + TWENTY.high)
        # the same number in every edit, and every number but one
        listed(store, [takes(20)] + coming_and_going(31, 20), (0, 0))
        listed(store, coming_and_going(32, 0), (0, 0))
        listed(store, coming_and_going(32, 65534), (0, 0))
        listed(store, [puts(Rule(n, n, *FULL)) for n in range(65534, 65502, -1)], (0, 0))
        listed(store, [takes(n) for n in rng.sample(range(65503, 65535), 32)], (0, 0))
        store.audit(rng)
        talk.flush()
        talk.stores = 0


def list_lengths(talk, rng):
    """No edits, 32 and more, and so many that they are not there: 15 with place 0 first of all,
    whatever else is wrong."""
    bad = [puts(Rule(65535, 1, *CROSSED)), takes(65535), takes(NOT_THERE), puts(TEN)]
    for kind in KINDS:
        store = of_rules(talk, rng, kind, 60, [TEN])
        broken = twin(store)
        talk.set(broken.id, KIND, [MARK[kind] ^ 1])
        empty = Store(talk, 0, drive.END_AT_WALL)
        for count in (0, 33, 34, 63, 64, 65, 96, 100, 256, 288, 1000, 2184):
            for edits in (coming_and_going(count), [rng.choice(bad) for _ in range(count)]):
                listed(store, edits, (15, 0))
                for other in (broken, empty):
                    talk.edit_list(other.id, edits, (15, 0))
        for count in (1, 2, 31, 32):
            edits = coming_and_going(count)
            listed(store, edits, (0, 0))
            if count % 2:
                listed(store, [takes(40000)], (0, 0))
            for other in (broken, empty):
                talk.edit_list(other.id, edits, (9, 1))
                talk.edit_list(other.id, [rng.choice(bad) for _ in range(count)], (9, 1))
        talk.flush()
        for count in (33, 34, 65536 + 32, 2 ** 32, 2 ** 32 + 1, 2 ** 32 + 32, 2 ** 33 + 32):
            for other in (store, broken, empty):
                talk.list_far(other.id, count, (15, 0))
        talk.flush()
        talk.stores = 0


def refused_edits(rng):
    """(number, edit) for each number that an edit is refused with where rule 10 alone stands in 33
    cells, in every way that leads to it."""
    for number in (65535, 65536, 65536 + 10, 131071, 2 ** 31, 2 ** 32 - 1):
        yield 1, takes(number, rng)
        yield 1, puts(Rule(number, 1, *rng.choice((FULL, CROSSED, PORTS_OF_ALL, TWENTY[2:]))))
    for number in (NOT_THERE, 10):
        yield 2, puts(Rule(number, 1, *CROSSED))
        yield 2, puts(Rule(number, 1, *PORTS_OF_ALL))
    for field in range(6):
        low, high = map(list, FULL)
        low[field], high[field] = rng.choice(((1, 0), (TOPS[field], TOPS[field] - 1)))
        yield 2, puts(Rule(NOT_THERE, 1, tuple(low), tuple(high)))
    for field in range(2, 6):
        high = list(TOPS)
        high[field] += 1
        yield 2, puts(Rule(NOT_THERE, 1, FULL[0], tuple(high)))
    for port in PORTS:
        for span in ((1, 65535), (0, 65534), (0, 0), (80, 80)):
            low, high = map(list, FULL)
            low[port], high[port] = span
            low[PORTLESS], high[PORTLESS] = rng.choice(CHOICES[1:])
            yield 2, puts(Rule(NOT_THERE, 1, tuple(low), tuple(high)))
    yield 3, puts(Rule(10, 1, *FULL))
    yield 3, puts(Rule(10, 1, *TWENTY[2:]))
    for number in (NOT_THERE, 0, 9, 11, 65534):
        yield 4, takes(number, rng)
    yield 6, puts(TWENTY)
    yield 6, puts(Rule(NOT_THERE, 1, *TWENTY[2:]))


def list_refusals(talk, rng):
    """Each number at each place; what stands behind it in the list plays no part, nor what is wrong
    with that."""
    for kind in KINDS:
        store = of_rules(talk, rng, kind, 33, [TEN])
        wrong = list(refused_edits(rng))
        for place in range(1, MOST_EDITS + 1):
            before = coming_and_going(place - 1)
            for answer, edit in wrong:
                behind = [rng.choice((takes(10), puts(Rule(50, 1, *FULL)), rng.choice(wrong)[1]))
                          for _ in range(rng.choice((0, 0, 1, MOST_EDITS - place)))]
                got = store.edit_list((before + [edit] + behind)[:MOST_EDITS])
                expect(got == (answer, place), 'the reference gives %s at %d, not %d' % (
                    got, place, answer))
            listed(store, before + [rng.choice(wrong)[1]])
        # of two that are refused the first, whichever it is
        for answer, edit in wrong:
            expect(store.edit_list([edit, rng.choice(wrong)[1]]) == (answer, 1),
                   'the reference and request P10')
        store.audit(rng)
        talk.flush()
        talk.stores = 0
        for place in range(1, MOST_EDITS + 1):
            # a full table, or one that the list fills first
            missing = (place - 1) % 2
            full = of_rules(talk, rng, kind, 6, [Rule(n, n, *FULL) for n in range(kind.rules - missing)])
            before = coming_and_going(place - 1) if missing else [
                takes(0) if i % 2 == 0 else puts(Rule(0, i, *FULL)) for i in range(place - 1)]
            for number in (1000, 65534):
                listed(full, before + [puts(Rule(number, 1, *rng.choice((FULL, NARROW))))], (5, place))
            expect(full.edit_list(before + [puts(Rule(1, 1, *FULL))]) == (3, place),
                   'the reference and request P10')
            talk.flush()
            talk.stores = 0


def list_removes(talk, rng):
    """What says that an edit deletes: any number but 0. It goes by number alone, and what else
    stands there may be anything."""
    for kind in KINDS:
        store = of_rules(talk, rng, kind, 60, [TEN, TWENTY])
        for remove in REMOVES:
            for number, want in ((10, (0, 0)), (NOT_THERE, (4, 1)), (65534, (4, 1)), (65535, (1, 1)),
                                 (65546, (1, 1)), (2 ** 32 - 1, (1, 1))):
                for rest in ((0, FULL[0], FULL[0]), (1, *CROSSED), TWENTY[1:],
                             (2 ** 32 - 1, *[(2 ** 32 - 1,) * 6] * 2)):
                    edit = Edit(remove, number, *rest)
                    listed(store, [edit], want)
                    listed(store, [puts(TEN) if want[0] == 0 else puts(Rule(8, 1, *FULL)), edit,
                                   puts(TEN)], (0, 0) if want[0] == 0 else (want[0], 2))
            talk.flush()
        talk.stores = 0


def list_full(talk, rng):
    """Full tables of narrow rules: up to the limit and one more, through the limit and back, one
    group for another, and 64 rules out."""
    for kind, c in ((SMALL, 2000), (LARGE, 12000)):
        most = kind.rules
        rules = narrow_rules(rng, most + 20)
        store = of_rules(talk, rng, kind, c, rules[:most - 12])
        words = twin(store)
        come = [puts(rule) for rule in rules[most - 12:]]
        go = [takes(edit.number, rng) for edit in come]
        listed(store, come[:13], (5, 13))
        listed(store, come[:12] + [takes(rules[0].number)] + come[12:14], (5, 15))
        listed(store, come[:12] + go[:12], (0, 0))
        talk.same(store.id, words.id, store.length)
        listed(store, come[:12] + go[:1] + come[12:13] + go[12:13] + go[1:12], (0, 0))
        talk.same(store.id, words.id, store.length)
        listed(store, rng.sample(come[:12], 12), (0, 0))
        for more in (rules[-1], Rule(spare_number(store), 1, *FULL)):
            listed(store, [puts(more)], (5, 1))
        store.audit(rng, 20, 10)
        # one group out and another in, as many as fit a list
        out = [takes(rule.number, rng) for rule in rng.sample(rules[:most - 12], 16)]
        listed(store, come[12:28] + out, (5, 1))
        listed(store, out + come[12:28], (0, 0))
        store.audit(rng, 20, 10)
        talk.check(store.id, 0)
        talk.flush()
        numbers = rng.sample(list(store.account.rules), 64)
        for half in (numbers[:32], numbers[32:]):
            listed(store, [takes(number, rng) for number in half], (0, 0))
        store.audit(rng, 10, 4)
        talk.flush()
        talk.stores = 0


def list_crowded(talk, rng):
    """Rules that overlap in every field: 9 of them take 64,799 cells, and a list is refused at the
    10th, in time."""
    rules = []
    for i in range(12):
        low = (100 + i, 100 + i, 1 + i, 100 + i, 100 + i, 0)
        high = (10000 + i, 10000 + i, 100 + i, 10000 + i, 10000 + i, 0)
        rules.append(Rule(i, i, low, high))
    for kind in KINDS:
        store = of_rules(talk, rng, kind, MOST_CELLS, [])
        listed(store, [puts(rule) for rule in rules], (6, 10))
        listed(store, [puts(rule) for rule in rules[:9]], (0, 0))
        talk.cells(store.id, (0, 64799))
        listed(store, [takes(4), takes(5), puts(rules[11]), puts(rules[10]), takes(0), puts(rules[4])],
               (0, 0))
        talk.cells(store.id, (0, 64799))
        talk.check(store.id, 0)
        listed(store, [puts(rules[0])], (6, 1))
        listed(store, [takes(number) for number in list(store.account.rules)], (0, 0))
        talk.cells(store.id, (0, 6))
        talk.flush()
        talk.stores = 0


def list_walls(talk, rng):
    """Words in front of which or behind which nothing can be read, just enough, and too few."""
    for kind in KINDS:
        for c in (6, 7, 54, 300):
            for how in HOWS[1:]:
                n = words_needed(c, kind)
                store = Store(talk, n, how)
                store.lay(kind, c, 3)
                listed(store, coming_and_going(31))
                for edits in ([puts(TEN), puts(TWENTY)], [puts(TWENTY), puts(TEN)],
                              [puts(Rule(5, 5, *NARROW)), puts(TEN)], [takes(10), puts(TEN)]):
                    listed(store, edits)
                store.audit(rng)
                for length in (n - 1, kind.front, kind.front - 1, 3, 2, 1, 0):
                    short = Store(talk, length, how)
                    talk.copy(store.id, short.id, length)
                    for count, want in ((0, (15, 0)), (1, (9, 1)), (32, (9, 1)), (33, (15, 0))):
                        talk.edit_list(short.id, coming_and_going(count), want)
                    talk.stores -= 1
                talk.flush()
                talk.stores = 0


def list_damage(talk, rng):
    """A word of every part of a store changed: 9 at place 1 where it fails the check, whatever the
    edits, and 15 before it. Where it still passes, the list is done in the table that it holds."""
    for kind in KINDS:
        c = 80
        rules = [TEN, TWENTY, Rule(30, 7, *FULL)]
        words = laid(c, [default_rule(5), *rules], kind)
        store = of_rules(talk, rng, kind, c, rules)
        good = store.account
        for position in (0, 1, KIND, 3, *places_of(kind), len(words) - 7, len(words) - 1):
            for _ in range(3):
                changed = list(words)
                changed[position] ^= 1 << rng.randrange(32)
                talk.set(store.id, 0, changed)
                store.account = account_in(changed)
                for edits in ([], [takes(10)], [puts(Rule(65535, 1, *CROSSED))], [takes(65535)],
                              [takes(20), puts(TWENTY), takes(NOT_THERE)], coming_and_going(32),
                              coming_and_going(33)):
                    want = store.edit_list(edits)
                    expect(want == (15, 0) if not 1 <= len(edits) <= 32 else
                           store.account is not None or want == (9, 1), 'the reference and request P10')
                if store.account is not None:
                    store.audit(rng)
                    talk.note('lists in damaged stores that pass still')
        talk.set(store.id, 0, words)
        store.account = good
        listed(store, [takes(10), takes(20), takes(30)], (0, 0))
        talk.flush()
        talk.stores = 0


# ---- random cases ----

def some_edit(account, world, rng, bad):
    """An edit, mostly one that this account takes."""
    numbers = list(account.rules)
    if rng.random() < bad:
        kind = rng.random()
        if kind < 0.6:
            return puts(world.bad_rule(numbers))
        return takes(rng.choice((rng.randrange(65535), 65535, 65536, 2 ** 32 - 1)), rng)
    if numbers and rng.random() < rng.choice((0.3, 0.6)):
        return takes(rng.choice(numbers), rng)
    return puts(world.rule())


def some_list(account, world, rng):
    """A list of any length. Without bad edits those that are refused are drawn again some times, so
    that long ones are done too."""
    plan = copy.copy(account)
    plan.rules = dict(account.rules)
    count = rng.choice((1, 2, 3, 4, 6, 10, 16, 24, 31, 32, 32, rng.randint(1, 32)))
    if rng.random() < 0.03:
        count = rng.choice((0, 33, 34, 40, 64, 100))
    bad = rng.choice((0, 0, 0, 0.02, 0.2))
    edits = []
    for _ in range(count):
        for _ in range(6):
            edit = some_edit(plan, world, rng, bad)
            if plan.edit(edit) == 0 or bad > 0.1:
                break
        edits.append(edit)
    if rng.random() < 0.2:
        rng.shuffle(edits)
    return edits


def list_worlds(talk, rng):
    """Random lists over random tables, of either kind, in cells that are plenty or few."""
    world = World(rng)
    world.numbers = rng.choice((range(12), range(60), range(65535)))
    store = fresh(talk, rng, rng.choice((LEAST_CELLS, 20, 40, 60, 100, 300, 300, 1500)),
                  rng.choice((None, world.action())))
    for _ in range(rng.choice((3, 6, 12))):
        listed(store, some_list(store.account, world, rng))
        if rng.random() < 0.5:
            store.audit(rng, reads=10)
    store.audit(rng)
    # the words of a store that only ever held what it holds now
    right = talk.make(store.length)
    account = store.account
    talk.set(right, 0, laid(account.c, [account.default, *sorted(account.rules.values())], account.kind))
    talk.same(store.id, right, words_needed(account.c, account.kind))
    talk.flush()


def list_groups(talk, rng):
    """A group of a large table swapped for another: in just the cells that the table takes after
    it, in one less, and with the inserts first, where it may not fit."""
    world = World(rng, rng.choice((['line'], ['types'], ['types', 'again'], ['line', 'again'])))
    kind = rng.choice(KINDS)
    count = rng.randint(1, 40 if kind == SMALL else 120)
    numbers = rng.sample(range(65535), count + 16)
    rules = [world.rule(number) for number in numbers]
    while True:
        plan = fresh(talk, rng, MOST_CELLS, 5, kind).account
        talk.stores -= 1
        plan.rules = {rule.number: rule for rule in rules[:count]}
        out = rng.sample(rules[:count], rng.randint(0, min(count, 16)))
        come = rules[count:count + rng.randint(1, 16)]
        before = plan.cells()[1]
        for rule in out:
            del plan.rules[rule.number]
        plan.rules.update((rule.number, rule) for rule in come)
        after = plan.cells()[1]
        if max(before, after) <= 6000:
            break
        if count < 2:
            return
        count //= 2
    swap = [takes(rule.number, rng) for rule in out] + [puts(rule) for rule in come]
    for c in sorted({max(before, after), max(before, after - 1), max(before, after) + 30}):
        store = of_rules(talk, rng, kind, c, rules[:count])
        other = twin(store)
        want = listed(store, swap)
        expect(want[0] in ((0, 5) if c >= after else (5, 6)), 'the reference counts wrongly')
        listed(other, swap[len(out):] + swap[:len(out)])
        store.audit(rng, 8, 4)
        other.audit(rng, 4, 2)
        talk.stores -= 1
        talk.flush()
        talk.stores = 0


def list_hostile(talk, rng):
    """Words of a good store, damaged, and words that are none: a list is done exactly where they
    pass the check, in the table that they hold."""
    world = World(rng)
    kind = rng.choice(KINDS)
    c = rng.choice((LEAST_CELLS, 18, 54, 100, 300))
    rules = []
    for number in sorted(rng.sample(range(65535), rng.randint(0, 8))):
        more = rules + [world.rule(number)]
        if laid(c, [default_rule(1)] + more, kind):
            rules = more
    good = laid(c, [default_rule(1)] + rules, kind)
    store = of_rules(talk, rng, kind, c, rules)
    room = store.length
    for _ in range(30):
        words = damaged(rng, good, c, kind)
        if rng.random() < 0.1:
            words = [rng.choice((0, 1, c, 4, rng.getrandbits(32))) for _ in good]
            words[0], words[KIND] = c, MARK[kind]
        lent = room
        if rng.random() < 0.15:
            lent = rng.choice((len(words) - 1, rng.randrange(len(words)), kind.front, 3, 2, 0))
        talk.set(store.id, 0, words)
        talk.lend(store.id, lent)
        # words behind the store play no part, and a length that is too short tells at once
        account = account_in(words[:lent])
        edits = some_list(account or store.account, world, rng)
        talk.edit_list(store.id, edits, list_answer(account, edits))
        talk.note('lists in damaged stores' if account is None else
                  'lists in damaged stores that pass still')
        if account is not None:
            store.account = account
            store.audit(rng)
    talk.flush()
