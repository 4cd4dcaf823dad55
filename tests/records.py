"""Cases about the scan through a list of records: alone, and beside a store."""

from edits import SIZES, one_edit
from packets import BENCH_LOOKUPS, bench_values
from reference import BENCH_RULES, TOPS, Rule, scan
from store import expect, fresh
from tables import World, values_above, values_near

WORD = 2 ** 32 - 1


def any_record(world, rng):
    """A record as a table could have it, or one that no table has: any
    number, ends that are crossed or above their tops."""
    rule = world.rule()
    number, low, high = rule.number, list(rule.low), list(rule.high)
    if rng.random() < 0.3:
        number = rng.choice((0, 65534, 65535, 65536, 2 ** 31, WORD, WORD - 1, rng.getrandbits(32)))
    if rng.random() < 0.3:
        field = rng.randrange(len(TOPS))
        low[field], high[field] = rng.choice((
            (high[field], low[field]), (low[field] + 1 if low[field] < WORD else WORD, low[field]),
            (WORD, 0), (1, 0), (0, WORD), (rng.getrandbits(32), rng.getrandbits(32))))
    return Rule(number, rule.action, tuple(low), tuple(high))


def asked(talk, records, action, values):
    want = scan(records, action, values)
    talk.records(records, action, values, want)
    if not records:
        talk.note('scans of no record')
    elif sum(record.number == want[1] and record.action != want[2] for record in records):
        talk.note('scans that a number twice in the list tells apart')
    elif want[1] > 65534 and any(record.number == want[1] for record in records):
        talk.note('scans that name a number above 65,534')


def lists(talk, rng):
    """Random lists: numbers that come again, crossed ends, any numbers, none."""
    world = World(rng)
    world.numbers = rng.choice((world.numbers, range(3), (7,), (65534, 65535, 65536)))
    for _ in range(20):
        records = [any_record(world, rng) for _ in range(rng.choice((0, 1, 2, 5, 20, 64, 200, 512)))]
        for _ in range(12):
            values = (values_near(rng, straight(records)) if records
                      else tuple(rng.randint(0, top) for top in TOPS))
            if rng.random() < 0.1:
                values = values_above(rng, values)
            asked(talk, records, world.action(), values)
        talk.flush()


def straight(records):
    """The same with crossed ends laid right, to aim values at."""
    return [Rule(r.number, r.action, tuple(map(min, r.low, r.high)), tuple(map(max, r.low, r.high)))
            for r in records]


def beside(talk, rng):
    """The rules of a store, in any order and some of them twice: the scan says
    what the store's lookup says, for values within their tops and above."""
    world = World(rng)
    store = fresh(talk, rng, rng.choice(SIZES), rng.choice((None, world.action())))
    for _ in range(rng.choice((3, 15, 40))):
        one_edit(store, world, rng)
        table = list(store.account.rules.values())
        table += rng.choices(table, k=rng.randrange(3)) if table else []
        rng.shuffle(table)
        for _ in range(6):
            values = values_near(rng, store.account.table())
            if rng.random() < 0.1:
                values = values_above(rng, values)
            store.lookup(values)
            talk.records(table, store.account.default.action, values,
                         store.account.lookup(values)[:3])
            talk.note('scans beside a store')
    talk.flush()


def bench_list(talk, rng):
    """The bench table's rows, by its two rules in either order."""
    for row in BENCH_LOOKUPS:
        for records in (BENCH_RULES, BENCH_RULES[::-1]):
            expect(scan(records, 0, bench_values(row)) == row[3][:3], 'the reference is wrong')
            talk.records(records, 0, bench_values(row), row[3][:3])
    talk.flush()


def corners(talk, rng):
    """No record; one that holds all; the same number twice, in either order;
    each field in turn just held, just not, and crossed."""
    here = (167772165, 3232235785, 17, 5004, 40000, 1)
    talk.records((), 9, here, (0, 65535, 9))
    for number in (0, 65534, 65535, 65536, WORD):
        full = Rule(number, 5, (0,) * 6, (WORD,) * 6)
        talk.records((full,), 9, here, (0, number, 5))
        talk.records((full, full._replace(action=6)), 9, here, (0, number, 5))
        talk.records((full._replace(action=6), full), 9, here, (0, number, 6))
    full = Rule(1, 5, (0,) * 6, (WORD,) * 6)
    for field, value in enumerate(here):
        def with_ends(low, high, field=field):
            return full._replace(low=full.low[:field] + (low,) + full.low[field + 1:],
                                 high=full.high[:field] + (high,) + full.high[field + 1:])
        for low, high, holds in ((value, value, 1), (value + 1, WORD, 0), (0, value - 1, 0),
                                 (value, value - 1, 0), (value + 1, value, 0), (WORD, 0, 0)):
            talk.records((with_ends(low, high),), 9, here, (0, 1, 5) if holds else (0, 65535, 9))
    for field, top in enumerate(TOPS):
        for value in {top, min(top + 1, WORD), WORD}:
            values = here[:field] + (value,) + here[field + 1:]
            talk.records((full,), 9, values, (0, 1, 5) if value <= top else (11, 0, 0))
    talk.flush()
