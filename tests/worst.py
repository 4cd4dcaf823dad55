"""Cases about the worst packet of a table."""

import itertools

from dead import NONE, WORD, Grid, corners, loaded, spanned
from edits import wander
from laid import FREE, link_of, places_of, row_of
from portless import rule_of
from reference import (BENCH_RULES, KINDS, PORTLESS, PORTS, TOPS, Rule, count_cells, default_rule,
                       winner_and_reads, words_needed, worst_record)
from store import expect, fresh
from tables import World, values_near

REFUSED = (9, 0) + NONE


def most(reads, *record):
    return (0, reads) + record


def only(field, value):
    """The record with a value in one field and zeros in the others."""
    return tuple(value if f == field else 0 for f in range(len(TOPS)))


def without_ports(field, value):
    """The same with 1 in field 6."""
    return only(field, value)[:PORTLESS] + (1,)


# ---- the worst record in another way ----

def by_trying(rules):
    """The greatest count of reads of all corners, and the first one that takes it. None where
    there are too many."""
    records = corners(rules)
    if records is None:
        return None
    greatest, first = 0, None
    for record in records:
        reads = winner_and_reads(rules, record)[1]
        if reads > greatest:
            greatest, first = reads, record
    return greatest, first


# ---- what is asked of one table ----

def lesser(rng, record, table):
    """Records below this one: the same up to some field, lower there by one or by more, and
    behind it anything, this record's own values and those near the ends of rules among it."""
    for field in range(len(TOPS)):
        if record[field] == 0:
            continue
        starts = [low for rule in table for low in (rule.low[field], rule.high[field] + 1)
                  if low < record[field]]
        for value in {record[field] - 1, rng.randrange(record[field]), max(starts, default=0)}:
            for behind in (record, NONE, TOPS, values_near(rng, table)):
                yield record[:field] + (value,) + tuple(behind[field + 1:])


def around(record):
    """Records that differ from this one in one field, by one."""
    for field, top in enumerate(TOPS):
        for value in (record[field] - 1, record[field] + 1):
            if 0 <= value <= top:
                yield record[:field] + (value,) + record[field + 1:]


def worst(store, rng, others=12):
    """What is said of a table, by the reference and by the library. The record takes the reads,
    lesser ones take fewer, and no record takes more."""
    talk, account = store.talk, store.account
    want = store.worst()
    reads, record = want[1], want[2:]
    table = account.table()
    expect(account.lookup(record)[::3] == (0, reads), 'the reference shows a record of other reads')
    store.lookup(record)
    below = list(lesser(rng, record, table))
    for values in rng.sample(below, min(len(below), others)):
        expect(account.lookup(values)[3] < reads, 'the reference shows no least record')
        store.lookup(values)
    for values in itertools.chain(around(record), (values_near(rng, table) for _ in range(others))):
        expect(account.lookup(values)[3] <= reads, 'the reference shows no greatest count')
        store.lookup(values)
    n = len(account.rules)
    expect(len(TOPS) <= reads <= 7 * n + 6, 'the reference leaves the bounds')
    talk.note('worst packets')
    if reads == 6 * n + 6 and n:
        talk.note('worst packets at 6 n + 6')
    tried = by_trying(table)
    if tried is not None:
        expect(tried == (reads, record), 'the reference gives %s and trying %s for %s' % (
            want, tried, table))
        talk.note('worst packets by trying every record too')
    return want


def asked(talk, rng, rules, want, c=600):
    """The worst packet of a table, written out, in any order of loading. Gives the store."""
    store = loaded(talk, rng, rules, c)
    expect(store.account.worst() == want, 'the reference and the page: %s of %s' % (
        store.account.worst(), rules))
    talk.worst(store.id, want)
    worst(store, rng)
    talk.flush()
    return store


# ---- fixed cases ----

def worst_examples(talk, rng):
    """Tables whose sums are easily worked out by hand, their answers written out here."""
    alone = most(6, *NONE)
    asked(talk, rng, [], alone, 6)
    asked(talk, rng, [rule_of(0, 1)], alone, 6)
    asked(talk, rng, [rule_of(n, 1) for n in (3, 4, 65534)], alone, 6)
    # document 01's bench table, also with its numbers swapped: they play no part
    ten, twenty = BENCH_RULES
    bench = most(11, 167772288, 0, 17, 5000, 0, 1)
    store = asked(talk, rng, [ten, twenty], bench, 54)
    asked(talk, rng, [ten._replace(number=20), twenty._replace(number=10)], bench, 54)
    # after each edit it is that of the rules that are left
    only_ten = most(10, 167772160, 0, 17, 5000, 0, 1)
    for call, argument, want in (
            (store.delete, 20, only_ten), (store.delete, 20, only_ten),
            (store.insert, twenty, bench), (store.insert, twenty, bench),
            (store.insert, ten._replace(number=30, high=TOPS), bench),
            (store.insert, ten._replace(number=30), bench), (store.delete, 10, bench),
            (store.delete, 30, most(8, *only(0, 167772288))), (store.delete, 20, alone)):
        call(argument)
        expect(worst(store, rng) == want, 'the reference and the page')
    talk.flush()
    # one rule that is narrow in every field: 6 n + 6
    one = Rule(7, 7, (10, 20, 30, 40, 50, 0), (15, 26, 37, 48, 59, 0))
    asked(talk, rng, [one], most(12, 10, 20, 30, 40, 50, 1))
    # in one field alone: both ends are below the value behind the range. Where that is a port,
    # the rule asks for packets with ports, and the end 0 of field 6 does as well as the high end
    for field in range(5):
        behind = without_ports(field, 10) if field in PORTS else only(field, 21)
        asked(talk, rng, [spanned(1, field, 10, 20)], most(8, *behind))
        asked(talk, rng, [spanned(1, field, 10, 20), spanned(2, field, 10, 20)], most(8, *behind))
    for span in ((0, 0), (1, 1)):
        asked(talk, rng, [rule_of(1, 1, portless=span)], most(7, *only(PORTLESS, 1)))
    # overlapping, touching, and one inside the other: distinct ends count once
    asked(talk, rng, [rule_of(1, 1, (10, 20)), rule_of(2, 2, (15, 30))], most(10, *only(0, 31)))
    asked(talk, rng, [rule_of(1, 1, (10, 20)), rule_of(2, 2, (21, 30))], most(9, *only(0, 31)))
    asked(talk, rng, [rule_of(1, 1, (10, 30)), rule_of(2, 2, (15, 20))], most(10, *only(0, 31)))
    asked(talk, rng, [rule_of(1, 1, (10, 30)), rule_of(2, 2, (10, 20))], most(9, *only(0, 31)))
    asked(talk, rng, [rule_of(1, 1, source=(10, 20)), rule_of(2, 2, source=(15, 30))],
          most(10, *only(1, 31)))
    # the ends of a rule count in a field only where it holds the values before
    asked(talk, rng, [rule_of(1, 1, (10, 20), (5, 5))], most(9, 10, 6, 0, 0, 0, 0))
    asked(talk, rng, [rule_of(1, 1, (10, 20), (5, 5)), rule_of(2, 2, (12, 12), (9, 9))],
          most(12, 12, 10, 0, 0, 0, 0))
    asked(talk, rng, [rule_of(1, 1, (10, 20), (5, 5)), rule_of(2, 2, (22, 22), (9, 9))],
          most(11, 22, 10, 0, 0, 0, 0))
    # nested rules that reach 6 n + 6, as the lookups of most_reads do
    for n in (1, 2, 4, 6):
        rules = [rule_of(i, i, *[(1 + i, 200)] * 4, (1 + 2 * i, 100 + 2 * i), (0, 0))
                 for i in range(n)]
        asked(talk, rng, rules, most(6 * n + 6, n, n, n, n, 97 + 2 * n if n > 1 else 1, 1), 20000)


def worst_ties(talk, rng):
    """Several records take the most reads: the least is shown."""
    # field 1 at 0 with two ends of field 2 below, or at 20 with two ends of its own
    asked(talk, rng, [rule_of(1, 1, (0, 9), (1, 1)), rule_of(2, 2, (10, 19))],
          most(8, 0, 2, 0, 0, 0, 0))
    # with one end more in field 1 there is no tie
    asked(talk, rng, [rule_of(1, 1, (0, 9), (1, 1)), rule_of(2, 2, (11, 19))],
          most(9, *only(0, 20)))
    # an end in one field or in the next: the earlier field stays at 0
    for field in range(4):
        high = [9 if f in (field, field + 1) else top for f, top in enumerate(TOPS)]
        if field + 1 in PORTS:
            high[PORTLESS] = 0
        at = only(PORTLESS, 1) if field + 1 in PORTS else only(field + 1, 10)
        asked(talk, rng, [Rule(1, 1, NONE, tuple(high))], most(7, *at))
    # each of five hosts: the further on in field 1, the fewer sources are told apart there
    hosts = [rule_of(10 * n + j, n, (10 * n, 10 * n), (3 * j, 3 * j + 1))
             for n in range(1, 6) for j in range(1, 7 - n)]
    asked(talk, rng, hosts, most(17, 10, 17, 0, 0, 0, 0))
    asked(talk, rng, hosts[1:], most(17, 20, 14, 0, 0, 0, 0))
    # each of five steps, in which one rule less holds the destination
    steps = [rule_of(n, n, (0, 10 * n - 1), (n, 60)) for n in range(1, 6)]
    asked(talk, rng, steps, most(12, 0, 61, 0, 0, 0, 0))
    # in the last field: the mark of a packet without ports, where it is as good as a port's end
    asked(talk, rng, [rule_of(1, 1, destination_port=(0, 9), portless=(0, 0))],
          most(7, *only(PORTLESS, 1)))
    asked(talk, rng, [rule_of(1, 1, source_port=(1, 9), portless=(0, 0))],
          most(8, 0, 0, 0, 0, 1, 1))


def worst_tops(talk, rng):
    """Values at the very top of a field, and nowhere else."""
    for field in range(5):
        top = TOPS[field]
        ports = field in PORTS
        # up to one below the top: the record is at the top. With ports field 6 does as well
        asked(talk, rng, [spanned(1, field, 0, top - 1)],
              most(7, *only(PORTLESS, 1)) if ports else most(7, *only(field, top)))
        # the top alone
        asked(talk, rng, [spanned(1, field, top, top)],
              most(8, *without_ports(field, top)) if ports else most(7, *only(field, top)))
        # the one below the top alone: both its ends are below the top
        asked(talk, rng, [spanned(1, field, top - 1, top - 1)],
              most(8, *(without_ports(field, top - 1) if ports else only(field, top))))
    asked(talk, rng, [rule_of(1, 1, (0, WORD - 1)), rule_of(2, 2, source=(0, WORD - 1))],
          most(8, WORD, WORD, 0, 0, 0, 0))
    asked(talk, rng, [rule_of(1, 1, (WORD, WORD), (WORD, WORD))], most(8, WORD, WORD, 0, 0, 0, 0))
    # all fields at their tops at once; and with no rule that holds all ports and asks 0 to 0
    last = [spanned(field, field, 0, TOPS[field] - 1) for field in range(5)]
    asked(talk, rng, last + [rule_of(5, 5, portless=(0, 0))], most(12, *TOPS))
    asked(talk, rng, last, most(11, WORD, WORD, 255, 0, 65535, 1))


def worst_sixty_four(talk, rng):
    """Full tables, each in some field with room for them: separate ranges, hosts, neighbours,
    nested ones, equal ones."""
    numbers = sorted(rng.sample(range(65535), 64))

    def table(low, high, reads, value):
        field = rng.randrange(3)
        top = TOPS[field]
        rules = [spanned(0, field, low(i, top), high(i, top))._replace(number=numbers[i])
                 for i in range(64)]
        asked(talk, rng, rules, most(reads, *only(field, value(top))), 1920)

    # 2 n + 1 in the field, and one in each other
    table(lambda i, top: 3 * i + 1, lambda i, top: 3 * i + 2, 134, lambda top: 192)
    table(lambda i, top: 3 * i, lambda i, top: 3 * i + 1, 133, lambda top: 191)
    table(lambda i, top: 2 * i + 1, lambda i, top: 2 * i + 1, 134, lambda top: 128)
    table(lambda i, top: i + 1, lambda i, top: i + 1, 71, lambda top: 65)
    table(lambda i, top: i + 1, lambda i, top: top - i - 1, 134, lambda top: top)
    table(lambda i, top: 0, lambda i, top: i, 70, lambda top: 64)
    table(lambda i, top: top - i, lambda i, top: top, 70, lambda top: top)
    table(lambda i, top: i, lambda i, top: top, 69, lambda top: 63)
    table(lambda i, top: 9, lambda i, top: 9, 8, lambda top: 10)
    # hosts, each with sources of its own and a protocol: the last has the most ends below it
    hosts = [rule_of(number, 1, (7 * i + 3, 7 * i + 3), (i, i + 9), (6, 6))
             for i, number in enumerate(numbers)]
    asked(talk, rng, hosts, most(136, 444, 63, 7, 0, 0, 0), 4000)
    # each rule that goes takes its ends with it
    store = asked(talk, rng, [rule_of(number, 1, (2 * i + 1, 2 * i + 1))
                              for i, number in enumerate(numbers)], most(134, *only(0, 128)), 1920)
    for gone, number in enumerate(numbers):
        store.delete(number)
        left = 63 - gone
        want = most(6 + 2 * left, *only(0, 128 if left else 0))
        expect(store.account.worst() == want, 'the reference and the page')
        talk.worst(store.id, want)
    talk.flush()


def worst_damage(talk, rng):
    """9 over every store that fails the check, with zeros, and no word changed."""
    for kind in KINDS:
        damage_of(talk, rng, kind)


def damage_of(talk, rng, kind):
    rules = [rule_of(0, 1, (5, 9)), rule_of(300, 2, (6, 8), (1, WORD)), rule_of(65534, 3, (1, 2))]
    store = loaded(talk, rng, rules, kind=kind)
    n, row, front = words_needed(600, kind), row_of(kind, 1), kind.front
    want = most(12, 10, 0, 0, 0, 0, 0)
    expect(worst(store, rng) == want, 'the reference and the page')
    talk.get(store.id, 0, n)
    words = list(talk.flush()[-1])
    used = words[link_of(kind, FREE)]
    # one word wrong, of every part of a store: the head, rows used and not, links, each word of
    # cells of the tree and of free ones
    places = [*range(48), *places_of(kind), *range(front, front + 16),
              *range(front + 8 * (used - 2), front + 8 * (used + 2)), *range(n - 8, n)]
    for position in places:
        for wrong in (words[position] ^ 1, words[position] ^ 1 << rng.randrange(32)):
            talk.set(store.id, position, [wrong])
            talk.worst(store.id, REFUSED)
        talk.set(store.id, position, [words[position]])
    # words too few, all of them right
    for length in (0, 1, 2, 3, front - 1, front, front + 48, n - 1):
        talk.lend(store.id, length)
        talk.worst(store.id, REFUSED)
    talk.lend(store.id, n)
    talk.worst(store.id, want)
    # an action and a number that leave another store: the same answer
    talk.set(store.id, row, [7, 77])
    talk.worst(store.id, want)
    talk.set(store.id, row, words[row:row + 2])
    talk.same(store.id, loaded(talk, rng, rules, kind=kind).id, n)
    # more words than the store takes, whatever they hold
    longer = talk.make(n + 40, fill=rng.getrandbits(32))
    talk.copy(store.id, longer, n)
    talk.worst(longer, want)
    talk.flush()


# ---- random cases ----

def worst_tables(talk, rng):
    """Rules over a few values of each field, so that their ends meet, after inserts and
    deletes: the worst packet after each of some."""
    grid = Grid(rng)
    store = fresh(talk, rng, rng.choice((100, 400, 1500)), rng.choice((None, 3)))
    for _ in range(rng.choice((1, 2, 4, 8, 14, 25))):
        store.insert(grid.rule(rng.choice((rng.randrange(40), rng.randrange(65535)))))
        if rng.random() < 0.2 and store.account.rules:
            store.delete(rng.choice(list(store.account.rules)))
        if rng.random() < 0.3:
            worst(store, rng, 4)
    worst(store, rng)
    # a rule with the ranges of one that is there changes nothing
    if store.account.rules:
        before = store.account.worst()
        rule = rng.choice(list(store.account.rules.values()))
        store.insert(rule._replace(number=rng.randrange(65535), action=rng.randrange(9)))
        expect(worst(store, rng, 4) == before, 'a rule of equal ranges changes the worst packet')
    talk.check(store.id, 0)
    talk.flush()


def worst_worlds(talk, rng):
    """Tables of every style of rules, larger ones too."""
    world = World(rng, rng.choice((None, ['types'], ['again', 'model'], ['line', 'again'], ['wide'],
                                   ['corners', 'again'], ['line'])))
    world.numbers = range(65535)
    store = fresh(talk, rng, rng.choice((60, 300, 1920, 6000)))
    for _ in range(rng.choice((5, 20, 70))):
        store.insert(world.rule())
    if rng.random() < 0.3:
        store.insert(Rule(rng.choice((0, 30000, 65534)), 5, *default_rule(0)[2:]))
    worst(store, rng, 24)
    for number in rng.sample(list(store.account.rules), min(len(store.account.rules), 4)):
        before = store.account.worst()[1]
        store.delete(number)
        after = worst(store, rng, 6)[1]
        expect(after <= before, 'fewer rules read more')
    talk.flush()


def worst_alike(talk, rng):
    """The same ranges, by several histories, in stores of several sizes, and under other
    numbers and actions: the same worst packet."""
    world = World(rng)
    plan = fresh(talk, rng, rng.choice((60, 300, 1500)))
    for _ in range(rng.choice((2, 6, 20))):
        plan.insert(world.rule())
    rules, want = plan.account.rules, worst(plan, rng)
    needed = count_cells(plan.account.table(), 65536)
    for c in (needed, needed + rng.randint(0, 200)):
        store = fresh(talk, rng, c, world.action())
        wander(store, world, rng, rules)
        expect(store.account.rules == rules, 'the plan went wrong')
        expect(store.worst() == want, 'another history shows another worst packet')
    store = fresh(talk, rng, needed)
    for number, rule in zip(rng.sample(range(65535), len(rules)), rules.values()):
        store.insert(rule._replace(number=number, action=world.action()))
    expect(worst_record(store.account.table()) == (want[1], want[2:]),
           'other numbers show another worst packet')
    talk.worst(store.id, want)
    talk.flush()
