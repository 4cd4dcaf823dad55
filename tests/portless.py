"""Cases about packets without ports: field 6, and the port rule."""

from laid import FREE, laid, link_of, row_of
from packets import address
from reference import (DEFAULT, KINDS, PORTLESS, PORTS, Rule, default_rule, range_fault,
                       read_header, scan, winner_and_reads, words_needed)
from store import HOWS, Store, expect, fresh
from tables import CHOICES, World, packet_of, random_packet, values_near
from walk import walk, walk_packet

WORD = 2 ** 32 - 1
ANY_PORT = (0, 65535)
# A port range that is narrow at its low end alone, by one or by all, or at its high end alone,
# or at both.
NARROW_PORTS = ((1, 65535), (65535, 65535), (0, 65534), (0, 0), (0, 1023), (1, 65534), (5000, 5009))
READ_9 = (9,) + (0,) * 14


def rule_of(number, action, destination=(0, WORD), source=(0, WORD), protocol=(0, 255),
            destination_port=ANY_PORT, source_port=ANY_PORT, portless=(0, 1)):
    spans = (destination, source, protocol, destination_port, source_port, portless)
    return Rule(number, action, tuple(low for low, _ in spans), tuple(high for _, high in spans))


# ---- fixed cases ----

def port_rule(talk, rng):
    """The edges of 2 by the port rule, its answers written out here: either
    port, at its low end, its high end and both, with all that can be asked in
    field 6, and what can't."""
    store = fresh(talk, rng, 300)
    asks = [(portless, 0 if portless == (0, 0) else 2)
            for portless in CHOICES + ((1, 0), (0, 2), (2, 2), (1, 2), (0, WORD), (WORD, WORD))]
    number = 0
    for narrow in NARROW_PORTS:
        for ports in ((narrow, ANY_PORT), (ANY_PORT, narrow), (narrow, narrow)):
            for portless, answer in asks:
                rule = rule_of(7, number, destination_port=ports[0], source_port=ports[1],
                               portless=portless)
                number += 1
                expect(store.insert(rule) == answer, 'the reference and request P4')
                if answer == 0:
                    store.audit(rng, 4)
                    store.delete(7)
    for portless in CHOICES + ((1, 0), (0, 2), (2, 2), (1, 2), (0, WORD)):
        answer = 0 if portless in CHOICES else 2
        expect(store.insert(rule_of(7, 1, portless=portless)) == answer,
               'the reference and request P4')
        if answer == 0:
            store.audit(rng, 4)
            store.delete(7)
    # all other fields are free to be narrow beside a full choice
    for portless in CHOICES:
        expect(store.insert(rule_of(7, 1, (5, 9), (6, 6), (6, 17), portless=portless)) == 0,
               'the reference and request P4')
        store.audit(rng)
        store.delete(7)
    talk.flush()


def request_example(talk, rng):
    """Request P4's own example. A rule for destination ports 0 to 1023 holds
    neither ICMP nor the later fragments of a firmware transfer; a rule that
    asks 0 to 1 holds them."""
    low_ports = rule_of(10, 2, destination_port=(0, 1023), portless=(0, 0))
    here, there = address('10.0.0.5'), address('192.168.1.9')
    tftp = packet_of((here, there, 17, 69, 40000), flags=1, behind=bytes(24))
    later = packet_of((here, there, 17, 69, 40000), offset=3, behind=bytes(20))
    icmp = packet_of((here, there, 1, 0, 0))
    zero = packet_of((here, there, 17, 0, 0))
    high = packet_of((here, there, 6, 1024, 40000))
    alone = (0, DEFAULT, 1)
    tenth = (0, 10, 2)

    def ask(store, rules, wanted):
        for packet, want in zip((tftp, later, icmp, zero, high), wanted):
            values = read_header(packet)[1]
            expect(store.account.lookup(values)[:3] == want, 'the reference and request P4')
            store.packet(packet)
            store.lookup(values)
            talk.records(rules, 1, values, want)

    store = fresh(talk, rng, 60, 1)
    expect(store.insert(low_ports) == 0, 'the reference and request P4')
    ask(store, [low_ports], (tenth, alone, alone, tenth, alone))
    expect(store.insert(low_ports._replace(number=11, high=low_ports.high[:5] + (1,))) == 2,
           'the reference and request P4')
    for portless, wanted in (((0, 1), (tenth,) * 5), ((1, 1), (alone, tenth, tenth, alone, alone)),
                             ((0, 0), (tenth, alone, alone, tenth, tenth))):
        store = fresh(talk, rng, 60, 1)
        rule = rule_of(10, 2, portless=portless)
        expect(store.insert(rule) == 0, 'the reference and request P4')
        ask(store, [rule], wanted)
    # both: a rule with the ports, and one for what has none
    store = fresh(talk, rng, 60, 1)
    rules = [low_ports, rule_of(20, 3, portless=(1, 1))]
    for rule in rules:
        expect(store.insert(rule) == 0, 'the reference and request P4')
    twentieth = (0, 20, 3)
    ask(store, rules, (tenth, twentieth, twentieth, tenth, alone))
    talk.flush()


def who_has_ports(talk, rng):
    """Every protocol, as a whole packet, a first fragment and later ones: which
    have ports, and values that are looked up as they are."""
    store = fresh(talk, rng, 100)
    store.insert(rule_of(1, 11, portless=(0, 0)))
    store.insert(rule_of(2, 12, portless=(1, 1)))
    for protocol in range(256):
        for flags, offset in ((0, 0), (1, 0), (2, 0), (7, 0), (0, 1), (1, 1), (1, 8191), (0, 4096),
                              (0, 256)):
            has_ports = protocol in (6, 17) and offset == 0
            want = (0, 1, 11, 6) if has_ports else (0, 2, 12, 7)
            packet = packet_of((1, 2, protocol, 3, 4), flags=flags, offset=offset)
            talk.packet(store.id, packet, want)
            store.packet(packet)
    for protocol in (0, 1, 6, 17, 255):
        for ports in ((0, 0), (3, 4), (65535, 0)):
            for portless, want in ((0, (0, 1, 11, 6)), (1, (0, 2, 12, 7)), (2, (11, 0, 0, 0)),
                                   (3, (11, 0, 0, 0)), (256, (11, 0, 0, 0)), (65536, (11, 0, 0, 0)),
                                   (2 ** 31, (11, 0, 0, 0)), (2 ** 31 + 1, (11, 0, 0, 0)),
                                   (WORD, (11, 0, 0, 0))):
                values = (1, 2, protocol) + ports + (portless,)
                talk.lookup(store.id, values, want)
                talk.records([rule_of(2, 12, portless=(1, 1)), rule_of(1, 11, portless=(0, 0))], 5,
                             values, want[:3])
    talk.flush()


def most_reads(talk, rng):
    """Each rule adds one end below the value in each of four fields and two in the
    fifth: 6 n + 6 reads. In field 6 all of them have the one end 0."""
    for n in (1, 2, 4, 8):
        store = fresh(talk, rng, 65536)
        for i in range(n):
            wide = [(1 + i, 200)] * 4
            rule = rule_of(i, i, *wide, (1 + 2 * i, 100 + 2 * i), (0, 0))
            expect(store.insert(rule) == 0, 'the reference and request P4')
        for source_port, portless, reads in ((300, 0, 6 * n + 6), (300, 1, 6 * n + 6),
                                             (99, 0, 5 * n + 6), (99, 1, 5 * n + 7)):
            values = (200, 200, 200, 200, source_port, portless)
            expect(store.account.lookup(values)[3] == reads, 'the reference and request P4')
            store.lookup(values)
        talk.cells(store.id, store.account.cells())
        talk.flush()


def broken_rows(rng, rules):
    """The rules, some of which break the port rule and are right else."""
    rules = list(rules)
    for place in rng.sample(range(1, len(rules)), rng.choice((1, 1, 1, len(rules) - 1))):
        rule = rules[place]
        low, high = list(rule.low), list(rule.high)
        for port in rng.choice(((3,), (4,), PORTS)):
            low[port], high[port] = rng.choice(NARROW_PORTS)
        low[PORTLESS], high[PORTLESS] = rng.choice(CHOICES[1:])
        rules[place] = rule._replace(low=tuple(low), high=tuple(high))
    return rules


def port_rule_damage(talk, rng):
    """Words that are those of a store in all but the port rule: the check, the
    edits and what runs it give 9, while a lookup walks as over any words and
    finds what the rules say."""
    for _ in range(20):
        world = World(rng)
        numbers = sorted(rng.sample(range(65535), rng.randint(1, 6)))
        good = [default_rule(rng.getrandbits(32))] + [world.rule(number) for number in numbers]
        bad = broken_rows(rng, good)
        if laid(5000, good) is None or laid(5000, bad) is None:
            continue
        kind = rng.choice(KINDS)
        free = link_of(kind, FREE)
        for rules, check in ((good, 0), (bad, 9)):
            c = laid(5000, rules, kind)[free] + rng.choice((0, 0, 1, 9))
            words = laid(c, rules, kind) + [rng.getrandbits(32)] * rng.choice((0, 0, 3))
            store = talk.make(len(words), rng.choice(HOWS))
            talk.set(store, 0, words)
            talk.check(store, check)
            talk.cells(store, (0, words[free]) if check == 0 else (9, 0))
            for place, rule in enumerate(rules):
                read = (0, rule.number, rule.action) + rule.low + rule.high
                talk.read(store, rule.number, READ_9 if check else read)
                if place:
                    talk.rule_at(store, place, READ_9 if check else read)
            for _ in range(8):
                values = values_near(rng, rules)
                found, reads = winner_and_reads(rules, values)
                expect(walk(words, values) == (0, found.number, found.action, reads),
                       'the walk and the layout')
                talk.lookup(store, values, (0, found.number, found.action, reads))
                talk.records(rules[1:], rules[0].action, values, (0, found.number, found.action))
                packet = random_packet(rng, rules)
                talk.packet(store, packet, walk_packet(words, packet))
            if check:
                talk.note('stores that break the port rule alone')
                talk.insert(store, world.rule(), 9)
                talk.insert(store, world.bad_rule(numbers), 9)
                talk.delete(store, rng.choice(numbers), 9)
                talk.delete(store, 65535, 9)
            else:
                # one end of field 6 changed in a row, which passes where the tree does not show it
                place = rng.randint(1, len(numbers))
                row, default = row_of(kind, place), row_of(kind, 0)
                position = row + 2 + 2 * PORTLESS + rng.randrange(2)
                changed = list(words)
                changed[position] = rng.choice((2, WORD, 1 - words[position]))
                rule = Rule(*changed[row:row + 2], tuple(changed[row + 2:row + 14:2]),
                            tuple(changed[row + 3:row + 14:2]))
                others = laid(c, rules[:place] + [rule] + rules[place + 1:], kind)
                talk.set(store, position, [changed[position]])
                talk.check(store, 9 if range_fault(rule.low, rule.high)
                           or others != changed[:words_needed(c, kind)] else 0)
                talk.set(store, position, [words[position]])
                # the default's row, which asks 0 to 1, and the word of a row behind its ends
                for position in (default + 2 + 2 * PORTLESS, default + 3 + 2 * PORTLESS, default + 14,
                                 row + 14):
                    talk.set(store, position, [rng.choice((1 - words[position], 2, WORD))])
                    talk.check(store, 9)
                    talk.set(store, position, [words[position]])
                talk.check(store, 0)
            talk.flush()
            talk.stores -= 1


# ---- random cases ----

def port_tables(talk, rng):
    """Random tables of narrow and full ports with every choice in field 6: all
    words by the layout, and every packet by store and scan."""
    world = World(rng, rng.choice((['types'], ['corners'], ['line', 'types'], ['model'])))
    world.field = rng.choice((3, 4, 5))
    c = rng.choice((60, 200, 900))
    store = fresh(talk, rng, c, rng.choice((None, 7)))
    for step in range(rng.choice((5, 15, 30))):
        rule = world.rule(rng.choice((step, 100 - step, rng.randrange(65535))))
        kind = rng.randrange(3)
        if kind == 0:
            port = rng.choice(PORTS)
            span = rng.choice(NARROW_PORTS)
            rule = rule._replace(low=rule.low[:port] + span[:1] + rule.low[port + 1:],
                                 high=rule.high[:port] + span[1:] + rule.high[port + 1:])
        elif kind == 1:
            rule = rule._replace(low=rule.low[:3] + (0, 0) + rule.low[5:],
                                 high=rule.high[:3] + (65535, 65535) + rule.high[5:])
        portless = rng.choice(CHOICES)
        rule = rule._replace(low=rule.low[:5] + portless[:1], high=rule.high[:5] + portless[1:])
        store.insert(rule)
        if rng.random() < 0.2 and store.account.rules:
            store.delete(rng.choice(list(store.account.rules)))
    store.audit(rng)
    account = store.account
    rules = [account.default] + account.table()[:-1]
    words, size = laid(c, rules, store.kind), words_needed(c, store.kind)
    expect(words is not None and len(words) == size, 'the layout takes other cells')
    beside = Store(talk, size)
    talk.set(beside.id, 0, words)
    talk.same(store.id, beside.id, size)
    table = account.table()
    shuffled = rng.sample(table[:-1], len(table) - 1)
    for _ in range(40):
        packet = random_packet(rng, table)
        store.packet(packet)
        for values in (values_near(rng, table), read_header(packet)[1]):
            if values:
                for portless in (values[PORTLESS], 1 - values[PORTLESS]):
                    asked = values[:5] + (portless,)
                    store.lookup(asked)
                    talk.records(shuffled, account.default.action, asked, account.lookup(asked)[:3])
    # a scan takes any record, also one that no store takes
    records = broken_rows(rng, table[-1:] + table[:-1])[1:] if len(table) > 1 else []
    for _ in range(10):
        values = values_near(rng, records + table[-1:])
        talk.records(records, 3, values, scan(records, 3, values))
    talk.note('tables with field 6, word by word')
    talk.flush()
