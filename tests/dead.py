"""Cases about rules that never win: request P6."""

import itertools
from math import prod

from portless import rule_of
from laid import places_of, row_of
from reference import (BENCH_RULES, DEFAULT, KINDS, PORTLESS, PORTS, TOPS, Rule, default_rule,
                       least_record, scan, words_needed)
from store import expect, fresh
from tables import CHOICES, World, narrow, values_near

WORD = 2 ** 32 - 1
NONE = (0,) * 6
DEAD = (0, 1) + NONE
MOST_BOXES, MOST_RECORDS = 1500, 3000


def live(*record):
    return (0, 0) + record


def refused(answer):
    return (answer, 0) + NONE


# ---- the least record in two more ways ----

def without(box, rule):
    """Boxes that have no record in common and hold together what this one holds and the rule
    does not."""
    if any(rule.high[f] < low or high < rule.low[f] for f, (low, high) in enumerate(box)):
        return [box]
    pieces = []
    for f, (low, high) in enumerate(box):
        if low < rule.low[f]:
            pieces.append(box[:f] + ((low, rule.low[f] - 1),) + box[f + 1:])
        if rule.high[f] < high:
            pieces.append(box[:f] + ((rule.high[f] + 1, high),) + box[f + 1:])
        box = box[:f] + ((max(low, rule.low[f]), min(high, rule.high[f])),) + box[f + 1:]
    return pieces


def by_cutting(rules, number):
    """What the rules of lesser number leave of the rule's ranges, cut into boxes: the least of
    all their low corners, None where nothing is left. The second number is how many there are;
    above MOST_BOXES the rest is not cut."""
    mine = next(rule for rule in rules if rule.number == number)
    boxes = [tuple(zip(mine.low, mine.high))]
    for rule in rules:
        if rule.number < number and len(boxes) <= MOST_BOXES:
            boxes = [piece for box in boxes for piece in without(box, rule)]
    return min((tuple(low for low, _ in box) for box in boxes), default=None), len(boxes)


def corners(rules):
    """All records, in rising order, whose values are each 0, where some rule begins, or one
    above where some rule ends. None where these are more than MOST_RECORDS."""
    tried = [sorted({value for rule in rules for value in (0, rule.low[f], rule.high[f] + 1)
                     if value <= top}) for f, top in enumerate(TOPS)]
    if prod(map(len, tried)) > MOST_RECORDS:
        return None
    return itertools.product(*tried)


def by_trying(rules):
    """Every rule that some corner makes the winner, with the first such corner, by a scan. None
    where there are too many."""
    records = corners(rules)
    if records is None:
        return None
    others, firsts = [rule for rule in rules if rule.number != DEFAULT], {}
    for record in records:
        firsts.setdefault(scan(others, 0, record)[1], record)
    return firsts


# ---- what is asked of one rule ----

def lesser(rng, record, rule):
    """Records below this one: the same up to some field, lower there by one or by more, and
    behind it anything, most of it within the rule's ranges."""
    for field in range(len(TOPS)):
        if record[field] == 0:
            continue
        for value in {record[field] - 1, rng.randrange(record[field]),
                      min(rule.low[field], record[field] - 1)}:
            for behind in (record, rule.low, rule.high, TOPS,
                           [rng.randint(low, high) for low, high in zip(rule.low, rule.high)]):
                yield record[:field] + (value,) + tuple(behind[field + 1:])


def life(store, rng, number):
    """What is said of a rule, by the reference and by the library. The record of a live rule
    names it, lesser ones do not, and those of a dead rule's own ranges do not either."""
    talk, account = store.talk, store.account
    want = store.dead(number)
    if want[0]:
        return want
    table = account.table()
    rule = next(rule for rule in table if rule.number == number)
    if want[1]:
        expect(want == DEAD, 'the reference gives values of a dead rule')
        asked = [rule.low, rule.high] + [
            tuple(rng.randint(low, high) for low, high in zip(rule.low, rule.high))
            for _ in range(4)] + [values_near(rng, table) for _ in range(4)]
    else:
        expect(account.lookup(want[2:])[:3] == (0, number, rule.action),
               'the reference shows a record of another rule')
        store.lookup(want[2:])
        asked = list(lesser(rng, want[2:], rule))
        asked = rng.sample(asked, min(len(asked), 12))
    for values in asked:
        expect(account.lookup(values)[1] != number, 'the reference shows no least record')
        store.lookup(values)
    talk.note('dead rules' if want[1] else 'live rules')
    return want


def lives(store, rng):
    """The same for every rule and the default."""
    return {rule.number: life(store, rng, rule.number) for rule in store.account.table()}


def loaded(talk, rng, rules, c=600, action=None, kind=None):
    store = fresh(talk, rng, c, action, kind)
    for rule in rng.sample(rules, len(rules)):
        expect(store.insert(rule) == 0, 'a table of a fixed case is not taken')
    return store


def asked(talk, rng, rules, wanted, c=600):
    """The lives of some rules, written out, in any order of loading. Gives the store."""
    store = loaded(talk, rng, rules, c)
    for number, want in wanted.items():
        expect(store.account.dead(number) == want, 'the reference and request P6: rule %d is %s' % (
            number, store.account.dead(number)))
        talk.dead(store.id, number, want)
    lives(store, rng)
    talk.flush()
    return store


def spanned(number, field, low, high, **more):
    """A rule that is narrow in one field; where that is a port, it asks for packets with ports."""
    names = 'destination source protocol destination_port source_port portless'.split()
    if field in PORTS and 'portless' not in more:
        more['portless'] = (0, 0)
    return rule_of(number, 100 + number, **{names[field]: (low, high), **more})


# ---- fixed cases ----

def dead_examples(talk, rng):
    """What hides a rule and what does not, in each field, its answers written out here."""
    asked(talk, rng, [], {DEFAULT: live(*NONE), 0: refused(4), 65534: refused(4)}, 6)
    asked(talk, rng, [rule_of(0, 1)], {0: live(*NONE), DEFAULT: DEAD}, 6)
    asked(talk, rng, [rule_of(65534, 1)], {65534: live(*NONE), DEFAULT: DEAD, 0: refused(4)}, 6)
    # behind two others that only together hold all of it; and once one of them is gone
    pair = [rule_of(10, 1, (0, 99)), rule_of(20, 2, (100, 199)), rule_of(30, 3, (50, 149))]
    store = asked(talk, rng, pair, {10: live(*NONE), 20: live(100, 0, 0, 0, 0, 0), 30: DEAD,
                                    DEFAULT: live(200, 0, 0, 0, 0, 0)})
    store.delete(10)
    expect(life(store, rng, 30) == live(50, 0, 0, 0, 0, 0), 'the reference and request P6')
    store.insert(pair[0])
    expect(life(store, rng, 30) == DEAD, 'the reference and request P6')
    store.delete(20)
    expect(life(store, rng, 30) == live(100, 0, 0, 0, 0, 0), 'the reference and request P6')
    # with a gap of one value between the two
    asked(talk, rng, [rule_of(10, 1, (0, 99)), rule_of(20, 2, (101, 199)), pair[2]],
          {30: live(100, 0, 0, 0, 0, 0), DEFAULT: live(200, 0, 0, 0, 0, 0)})
    # two that cover it in different fields, all but one corner; and with that corner's rule
    corner = [rule_of(1, 1, (0, 9)), rule_of(2, 2, source=(0, 9)), rule_of(4, 4, (5, 10), (5, 10))]
    asked(talk, rng, corner, {4: live(10, 10, 0, 0, 0, 0), DEFAULT: live(10, 11, 0, 0, 0, 0)})
    asked(talk, rng, corner + [rule_of(3, 3, (10, 10), (10, 10))], {
        3: live(10, 10, 0, 0, 0, 0), 4: DEAD})
    # the same in every field: halves, equal ranges, and one value more at either side
    for field, top in enumerate(TOPS):
        def at(value, portless=0):
            record = [0] * 6
            record[PORTLESS], record[field] = portless, value
            return live(*record)

        half = top // 2
        ports = {'portless': (0, 0)} if field in PORTS else {}
        halves = [spanned(1, field, 0, half), spanned(2, field, half + 1, top)]
        asked(talk, rng, halves + [rule_of(3, 3, **ports)], {
            1: at(0), 2: at(half + 1), 3: DEAD, DEFAULT: at(0, 1) if ports else DEAD})
        same = [spanned(number, field, half, top) for number in (7, 8, 9)]
        store = asked(talk, rng, same, {7: at(half), 8: DEAD, 9: DEAD,
                                        DEFAULT: at(0) if half else DEAD})
        store.delete(7)
        expect(store.dead(8) == at(half) and store.dead(9) == DEAD, 'the reference and request P6')
        store.delete(9)
        expect(store.dead(8) == at(half), 'the reference and request P6')
        store.delete(8)
        talk.flush()
        if field == PORTLESS:
            continue
        asked(talk, rng, [spanned(1, field, 10, 20), spanned(2, field, 10, 21)],
              {1: at(10), 2: at(21)})
        asked(talk, rng, [spanned(1, field, 10, 20), spanned(2, field, 9, 20)],
              {1: at(10), 2: at(9)})
        asked(talk, rng, [spanned(1, field, 10, 20), spanned(2, field, 10, 20),
                          spanned(3, field, 11, 20), spanned(4, field, 10, 19)],
              {1: at(10), 2: DEAD, 3: DEAD, 4: DEAD, DEFAULT: at(0)})
        # at the very top of the field, and nowhere else
        asked(talk, rng, [spanned(1, field, 0, top - 1), rule_of(2, 2, **ports)],
              {1: at(0), 2: at(top), DEFAULT: at(0, 1) if ports else DEAD})
        asked(talk, rng, [spanned(1, field, 0, top - 1)],
              {DEFAULT: at(0, 1) if ports else at(top)})
    talk.flush()


def dead_ports(talk, rng):
    """Port ranges and choices in field 6, with records that no header gives among them."""
    with_ports, none, both = CHOICES
    asked(talk, rng, [rule_of(1, 1, portless=with_ports), rule_of(2, 2, portless=none),
                      rule_of(3, 3, portless=both)],
          {1: live(*NONE), 2: live(0, 0, 0, 0, 0, 1), 3: DEAD, DEFAULT: DEAD})
    # ICMP with ports is a record like any other
    icmp = rule_of(2, 2, protocol=(1, 1))
    asked(talk, rng, [rule_of(1, 1, protocol=(1, 1), portless=none), icmp],
          {1: live(0, 0, 1, 0, 0, 1), 2: live(0, 0, 1, 0, 0, 0), DEFAULT: live(*NONE)})
    asked(talk, rng, [rule_of(1, 1, protocol=(1, 1), portless=with_ports), icmp],
          {1: live(0, 0, 1, 0, 0, 0), 2: live(0, 0, 1, 0, 0, 1), DEFAULT: live(*NONE)})
    # a later fragment of TCP with port 65,535, and with no other
    tcp = [rule_of(1, 1, protocol=(6, 6), portless=with_ports),
           rule_of(2, 2, protocol=(6, 6), destination_port=(65535, 65535), portless=with_ports),
           rule_of(3, 3, protocol=(6, 6))]
    asked(talk, rng, tcp, {1: live(0, 0, 6, 0, 0, 0), 2: DEAD, 3: live(0, 0, 6, 0, 0, 1)})
    # ports that are left in the middle, at the top, and in both ports at once
    ports = [rule_of(1, 1, destination_port=(0, 1023), portless=with_ports),
             rule_of(2, 2, destination_port=(1025, 65535), portless=with_ports),
             rule_of(3, 3, portless=none),
             rule_of(4, 4, source_port=(0, 65534), portless=with_ports), rule_of(5, 5)]
    asked(talk, rng, ports, {
        1: live(*NONE), 2: live(0, 0, 0, 1025, 0, 0), 3: live(0, 0, 0, 0, 0, 1),
        4: live(0, 0, 0, 1024, 0, 0), 5: live(0, 0, 0, 1024, 65535, 0), DEFAULT: DEAD})
    asked(talk, rng, ports[:2] + ports[3:], {5: live(0, 0, 0, 0, 0, 1), DEFAULT: DEAD})
    # all fields at their tops at once
    last = [spanned(field, field, 0, TOPS[field] - 1) for field in range(5)]
    ported, portless = live(WORD, WORD, 255, 65535, 65535, 0), live(WORD, WORD, 255, 0, 0, 1)
    asked(talk, rng, last + [rule_of(5, 5, portless=none), rule_of(6, 6)],
          {5: portless, 6: ported, DEFAULT: DEAD})
    asked(talk, rng, last + [rule_of(5, 5, portless=with_ports), rule_of(6, 6)],
          {5: ported, 6: portless, DEFAULT: DEAD})
    asked(talk, rng, last + [rule_of(5, 5, portless=none)], {DEFAULT: ported})
    # document 01's bench table, and the same with its numbers swapped
    ten, twenty = BENCH_RULES
    asked(talk, rng, [ten, twenty], {10: live(167772160, 0, 17, 5000, 0, 0),
                                     20: live(167772160, 0, 0, 0, 0, 0), DEFAULT: live(*NONE)}, 54)
    asked(talk, rng, [ten._replace(number=20), twenty._replace(number=10)], {
        10: live(167772160, 0, 0, 0, 0, 0), 20: live(167772288, 0, 17, 5000, 0, 0)}, 54)
    asked(talk, rng, [twenty._replace(number=9), ten._replace(high=twenty.high[:1] + ten.high[1:])],
          {9: live(167772160, 0, 0, 0, 0, 0), 10: DEAD, DEFAULT: live(*NONE)}, 54)


def dead_sixty_four(talk, rng):
    """Full tables, each in some field but the last: all rules live, all but one dead, and
    every second one."""
    numbers = sorted(rng.sample(range(65535), 64))

    def table(low, high, wanted, rest):
        """Rules from low to high of their place. `wanted` gives where a live one begins to
        win, and None for a dead one; the default begins at `rest`. Where some rule holds port
        0 it begins at port 0 too, at packets without ports, which no rule holds then."""
        field = rng.randrange(5)
        top = TOPS[field]

        def at(value):
            return DEAD if value is None else live(*(value if f == field else 0 for f in range(6)))

        rules = [spanned(0, field, low(i, top), high(i, top))._replace(number=numbers[i])
                 for i in range(64)]
        want = {number: at(wanted(i, top)) for i, number in enumerate(numbers)}
        taken = field in PORTS and rules[0].low[field] == 0
        want[DEFAULT] = live(0, 0, 0, 0, 0, 1) if taken else at(rest)
        asked(talk, rng, rules, want, 1920)

    table(lambda i, top: 3 * i, lambda i, top: 3 * i + 1, lambda i, top: 3 * i, 2)
    table(lambda i, top: 0, lambda i, top: i, lambda i, top: i, 64)
    table(lambda i, top: 0, lambda i, top: 63 - i, lambda i, top: None if i else 0, 64)
    table(lambda i, top: i - i % 2, lambda i, top: i - i % 2 + 1,
          lambda i, top: None if i % 2 else i, 64)
    table(lambda i, top: top - i, lambda i, top: top, lambda i, top: top - i, 0)
    store = asked(talk, rng, [rule_of(number, 1) for number in numbers], {
        **{number: DEAD for number in numbers[1:]}, numbers[0]: live(*NONE), DEFAULT: DEAD}, 6)
    # each comes to life as those before it go
    for gone, number in enumerate(numbers[:-1]):
        store.delete(number)
        for place in {gone + 1, 63, rng.randint(gone + 1, 63)}:
            expect(store.dead(numbers[place]) == (DEAD if place > gone + 1 else live(*NONE)),
                   'the reference and request P6')
    store.delete(numbers[-1])
    expect(store.dead(DEFAULT) == live(*NONE), 'the reference and request P6')
    talk.flush()


def dead_refusals(talk, rng):
    """9, then 1, then 4; 65,535 is never 1 and never 4."""
    rules = [rule_of(0, 1, (5, 9)), rule_of(300, 2, (6, 8)), rule_of(65534, 3, (1, 2))]
    high = (65536, 65537, 65536 + 300, 131071, 2 ** 31, WORD)
    missing = (1, 299, 301, 65533)
    for kind in KINDS:
        refusals_of(talk, rng, rules, high, missing, kind)


def refusals_of(talk, rng, rules, high, missing, kind):
    store = loaded(talk, rng, rules, kind=kind)
    n, row = words_needed(600, kind), row_of(kind, 1)
    want = {0: live(5, 0, 0, 0, 0, 0), 300: DEAD, 65534: live(1, 0, 0, 0, 0, 0),
            DEFAULT: live(*NONE), **{number: refused(1) for number in high},
            **{number: refused(4) for number in missing}}
    for number, said in want.items():
        expect(store.account.dead(number) == said, 'the reference and request P6')
        talk.dead(store.id, number, said)
        expect(said[0] == store.account.read(number)[0], 'refused as a read is')
    talk.get(store.id, 0, n)
    words = list(talk.flush()[-1])
    # one word wrong, of every part of a store; and words too few, all of them right
    for position in (0, 1, 2, *places_of(kind), n - 8, n - 1):
        talk.set(store.id, position, [words[position] ^ 1])
        for number in want:
            talk.dead(store.id, number, refused(9))
        talk.set(store.id, position, [words[position]])
    for length in (0, 1, 2, 3, kind.front - 1, kind.front, kind.front + 48, n - 1):
        talk.lend(store.id, length)
        for number in want:
            talk.dead(store.id, number, refused(9))
    talk.lend(store.id, n)
    # an action and a number that leave another store: the rule is asked for under its new number
    talk.set(store.id, row, [7, 77])
    talk.dead(store.id, 7, live(5, 0, 0, 0, 0, 0))
    talk.dead(store.id, 0, refused(4))
    talk.set(store.id, row, words[row:row + 2])
    for number, said in want.items():
        talk.dead(store.id, number, said)
    # no word is changed: the words of another store with the same table
    talk.same(store.id, loaded(talk, rng, rules, kind=kind).id, n)
    store.delete(300)
    talk.dead(store.id, 300, refused(4))
    talk.flush()


# ---- random cases ----

class Grid:
    """Rules over a few values of each field, so that they hide each other."""

    def __init__(self, rng):
        self.rng = rng
        self.values = []
        for top in TOPS:
            middle = rng.randint(0, top)
            some = [0, top, middle, max(middle - 1, 0), min(middle + 1, top), 1, top - 1]
            self.values.append(sorted(set(rng.sample(some, rng.choice((2, 3, 4))) + [0, top])))
        self.full = rng.choice((0.4, 0.6, 0.75))
        # fields in which every rule is full: fewer of them are in the way of being hidden
        self.idle = set(rng.sample(range(6), rng.choice((0, 2, 3, 4))))

    def rule(self, number):
        rng, spans = self.rng, []
        for field, values in enumerate(self.values):
            if field in self.idle or rng.random() < self.full:
                spans.append((0, TOPS[field]))
                continue
            low, high = sorted(rng.choices(values, k=2))
            # often as the elementary ranges of the grid: from one value to just before the next
            if rng.random() < 0.4 and low < high:
                high -= 1
            spans.append((low, high))
        if narrow(spans):
            spans[PORTLESS] = (0, 0)
        return Rule(number, rng.randrange(4), tuple(low for low, _ in spans),
                    tuple(high for _, high in spans))

    def parts(self, rule):
        """Rules of lesser numbers that hold this one together, where there are such: now and
        then with a gap, or with more than is needed."""
        rng = self.rng
        field = rng.choice([f for f in range(6) if rule.low[f] < rule.high[f]] or [0])
        low, high = rule.low[field], rule.high[field]
        cut = rng.choice([value for value in self.values[field] if low < value <= high] or [high])
        spans = [(low, max(cut - 1 - (rng.random() < 0.2), low)), (cut, high)]
        numbers = rng.sample(range(rule.number), min(rule.number, 2))
        for number, (low, high) in zip(numbers, spans):
            lows, highs = list(rule.low), list(rule.high)
            lows[field], highs[field] = low, high
            if field in PORTS:
                lows[PORTLESS] = highs[PORTLESS] = 0
            elif rng.random() < 0.3:
                lows[0], highs[0] = 0, TOPS[0]
            yield Rule(number, rng.randrange(4), tuple(lows), tuple(highs))


def alone(rules, number):
    """Whether one rule of lesser number holds all that this one holds."""
    mine = next(rule for rule in rules if rule.number == number)
    return any(rule.number < number and all(
        a <= b and c <= d for a, b, c, d in zip(rule.low, mine.low, mine.high, rule.high))
        for rule in rules)


def three_ways(talk, table, numbers):
    """The reference against the two ways of this page, as far as they go, for some rules."""
    firsts = by_trying(table)
    for number in numbers:
        record = least_record(table, number)
        cut, boxes = by_cutting(table, number)
        if boxes <= MOST_BOXES:
            expect(record == cut, 'the reference gives %s and cutting %s for rule %d of %s' % (
                record, cut, number, table))
            talk.note('lives by cutting too')
        if firsts is not None:
            tried = firsts.get(number)
            expect(record == tried, 'the reference gives %s and trying %s for rule %d of %s' % (
                record, tried, number, table))
            talk.note('lives by trying every record too')


def hidden(talk, rng):
    """Tables of rules that hide each other, after inserts and deletes: the lives of all, in
    three ways. Then the dead ones go, one after the other, and every answer stays."""
    grid = Grid(rng)
    store = fresh(talk, rng, rng.choice((100, 400, 1500)), rng.choice((None, 3)))
    for _ in range(rng.choice((2, 4, 8, 14, 25))):
        store.insert(grid.rule(rng.choice((rng.randrange(40), rng.randrange(65535)))))
        if rng.random() < 0.25 and store.account.rules:
            for part in grid.parts(rng.choice(list(store.account.rules.values()))):
                store.insert(part)
        if rng.random() < 0.15 and store.account.rules:
            store.delete(rng.choice(list(store.account.rules)))
    said = lives(store, rng)
    table = store.account.table()
    three_ways(talk, table, list(said))
    for rule in table:
        if said[rule.number] == DEAD and not alone(table, rule.number):
            talk.note('dead rules that no one rule hides')
    probes = [values_near(rng, table) for _ in range(20)] + [
        want[2:] for want in said.values() if want[:2] == (0, 0)]
    before = [store.account.lookup(values)[:3] for values in probes]
    dead = [number for number, want in said.items() if want == DEAD and number != DEFAULT]
    for number in rng.sample(dead, len(dead)):
        expect(store.delete(number) == 0, 'a dead rule is there')
        del said[number]
        for other in rng.sample(list(said), min(len(said), 3)):
            expect(store.dead(other) == said[other], 'a dead rule that goes changes no life')
        for values, want in zip(probes, before):
            expect(store.account.lookup(values)[:3] == want,
                   'a dead rule that goes changes no answer')
            store.lookup(values)
        talk.note('dead rules deleted')
    for number, want in said.items():
        expect(store.dead(number) == want, 'a dead rule that goes changes no life')
    talk.check(store.id, 0)
    talk.flush()


def hidden_worlds(talk, rng):
    """Tables of every style of rules, larger ones too: the lives of all."""
    world = World(rng, rng.choice((None, ['types'], ['again', 'model'], ['line', 'again'], ['wide'],
                                   ['corners', 'again'])))
    world.numbers = range(65535)
    c = rng.choice((60, 300, 1920, 6000))
    store = fresh(talk, rng, c)
    for _ in range(rng.choice((5, 20, 70))):
        store.insert(world.rule())
    if rng.random() < 0.3:
        store.insert(Rule(rng.choice((0, 30000, 65534)), 5, *default_rule(0)[2:]))
    lives(store, rng)
    table = store.account.table()
    three_ways(talk, table, [rule.number for rule in rng.sample(table, min(len(table), 8))])
    # live ones go too, and what they hid may come to life
    for number in rng.sample(list(store.account.rules), min(len(store.account.rules), 4)):
        store.delete(number)
        for other in rng.sample(store.account.table(), min(len(store.account.rules) + 1, 4)):
            life(store, rng, other.number)
    talk.flush()
