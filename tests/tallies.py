"""Cases about tallies: lookups that count for the rule that decides."""

from laid import FREE, link_of, row_of
from reference import DEFAULT, NO_PLACE, PLACES, TOPS, Rule, Tally, words_needed
from store import HOWS, Store, expect, fresh
from tables import World, packet_of, random_packet
from walk import walk_packet

FULL = ((0,) * 6, TOPS)
CLEAR = (4294967295,) * PLACES + (0,) * (2 * PLACES)


def some_key(rng, numbers):
    return rng.choice((rng.choice(numbers), rng.choice(numbers), DEFAULT, 65536, 4294967295, 0,
                       rng.randrange(65536), rng.getrandbits(32)))


def some_count(rng):
    return rng.choice((0, 1, 4294967295, 4294967294, 4294967296 - rng.randrange(1, 70000),
                       rng.getrandbits(32)))


def some_record(rng, numbers):
    """Any words: held and unused places, numbers held twice, full records."""
    kind = rng.randrange(5)
    if kind == 0:
        return CLEAR
    if kind == 1:
        return tuple(rng.getrandbits(32) for _ in range(3 * PLACES))
    if kind == 2:
        keys = [rng.randrange(65536) for _ in range(PLACES)]
    else:
        keys = [some_key(rng, numbers) for _ in range(PLACES)]
    if kind == 3 and rng.random() < 0.5:
        keys = [key % 65536 for key in keys]
    return tuple(keys) + tuple(some_count(rng) for _ in range(2 * PLACES))


def ask(store, packet, record, found):
    """Queues a lookup that counts; gives the record that it must leave."""
    tally = Tally(record)
    answer = tally.lookup(found, packet)
    store.talk.tally(store.id, packet, record, answer + tally.words())
    return tally.words()


# ---- a fixed case ----

def tally_edges(talk, rng):
    """The edges of request P1, with the 513 places of request P9, its numbers written out here."""
    store = Store(talk, words_needed(40))
    store.start(40, 7)
    packet = packet_of((1, 2, 17, 3, 4), behind=bytes(11)) + b'past the total length'
    done = (0, DEFAULT, 7, 6)

    def record(changes):
        words = list(CLEAR)
        for place, numbers in changes.items():
            for part, number in enumerate(numbers):
                words[PLACES * part + place] = number
        return tuple(words)

    def goes(before, after, answer=done, sent=packet):
        talk.tally(store.id, sent, record(before), answer + record(after))

    goes({}, {0: (DEFAULT, 1, 35)})
    goes({0: (DEFAULT, 1, 35)}, {0: (DEFAULT, 2, 70)})
    goes({0: (65536, 9, 9)}, {0: (DEFAULT, 1, 35)})
    goes({0: (65534, 9, 9)}, {0: (65534, 9, 9), 1: (DEFAULT, 1, 35)})
    for last in (64, 65, 511, 512):
        goes({last: (DEFAULT, 5, 5)}, {last: (DEFAULT, 6, 40)})
    goes({3: (DEFAULT, 1, 1), 9: (DEFAULT, 1, 1)}, {3: (DEFAULT, 2, 36), 9: (DEFAULT, 1, 1)})
    goes({3: (DEFAULT, 4294967295, 4294967261)}, {3: (DEFAULT, 0, 0)})
    goes({3: (DEFAULT, 4294967294, 4294967260)}, {3: (DEFAULT, 4294967295, 4294967295)})
    others = {place: (place, 1, 1) for place in range(513)}
    goes(others, others, (NO_PLACE, 0, 0, 0))
    for last in (64, 65, 512):
        goes({**others, last: (4294967295, 8, 8)}, {**others, last: (DEFAULT, 1, 35)})
        goes({**others, last: (DEFAULT, 8, 8)}, {**others, last: (DEFAULT, 9, 43)})
    # the other refusals come first, and add nothing
    for before in (others, {}, {3: (DEFAULT, 1, 1)}):
        goes(before, before, (7, 0, 0, 0), packet[:19])
        goes(before, before, (7, 0, 0, 0), b'\x60' + packet[1:34])
        goes(before, before, (14, 0, 0, 0), packet[:20])
        goes(before, before, (14, 0, 0, 0), packet[:34])
    talk.flush()
    talk.lend(store.id, words_needed(40) - 1)
    for before in (others, {}, {3: (DEFAULT, 1, 1)}):
        goes(before, before, (7, 0, 0, 0), packet[:19])
        goes(before, before, (14, 0, 0, 0), packet[:34])
        goes(before, before, (9, 0, 0, 0))
    talk.lend(store.id, words_needed(40))
    # a rule for each place, and the default last; a number more has none
    wide = Store(talk, words_needed(4000))
    wide.start(4000)
    wide.load([Rule(1000 + number, number, (number,) + FULL[0][1:], (number,) + FULL[1][1:])
               for number in range(512)])
    words = CLEAR
    for number in range(512):
        sent = packet_of((number, 5, 6, 7, 8))
        words = ask(wide, sent, words, wide.account.lookup_packet(sent))
        expect(words[number] == 1000 + number, 'the reference and request P1')
    sent = packet_of((512, 5, 6, 7, 8))
    words = ask(wide, sent, words, wide.account.lookup_packet(sent))
    expect(words[512] == DEFAULT, 'the reference and request P1')
    expect(wide.delete(1000) == 0 and wide.insert(Rule(7, 7, *FULL)) == 0, 'the plan went wrong')
    expect(Tally(words).lookup(wide.account.lookup_packet(sent), sent)[0] == NO_PLACE,
           'the reference and request P9')
    ask(wide, sent, words, wide.account.lookup_packet(sent))
    talk.clear(words, CLEAR)
    talk.clear(CLEAR, CLEAR)
    for earlier, later, want in ((0, 0, 0), (0, 1, 1), (1, 0, 4294967295), (4294967295, 0, 1),
                                 (5, 4, 4294967295), (4294967295, 4294967294, 4294967295)):
        talk.difference(earlier, later, want)
    talk.flush()


# ---- random cases ----

def world_store(talk, rng):
    world = World(rng)
    store = fresh(talk, rng, rng.choice((40, 300, 1920)), rng.choice((None, 5)))
    for _ in range(rng.randint(0, 20)):
        store.insert(world.rule())
    table = store.account.table()
    return store, table, [rule.number for rule in table]


def tallies(talk, rng):
    """Random packets over a random table, one record after another."""
    store, table, numbers = world_store(talk, rng)
    for _ in range(6):
        record = some_record(rng, numbers)
        for _ in range(30):
            packet = random_packet(rng, table)
            record = ask(store, packet, record, store.account.lookup_packet(packet))
            if rng.random() < 0.1:
                tally = Tally(record)
                tally.drop(rng.choice(numbers), rng.choice((65536, 4294967295)))
                record = tally.words()
    talk.clear(record, CLEAR)
    talk.flush()


def differences(talk, rng):
    """A reader's differences against whole numbers that never wrap."""
    store, table, numbers = world_store(talk, rng)
    record = some_record(rng, numbers)
    number = rng.choice(numbers)
    first = Tally(record).find(number)
    packets = total = 0
    for _ in range(60):
        packet = random_packet(rng, table)
        found = store.account.lookup_packet(packet)
        after = ask(store, packet, record, found)
        if after != record and found[1] == number:
            packets, total = packets + 1, total + packet[2] * 256 + packet[3]
        record = after
    last = Tally(record).find(number)
    if first:
        talk.difference(first[1], last[1], packets)
        talk.difference(first[2], last[2], total)
        talk.note('tallies read twice')
    for _ in range(20):
        earlier, later = some_count(rng), some_count(rng)
        talk.difference(earlier, later, (later - earlier) % 2 ** 32)
    talk.flush()


def hostile_tallies(talk, rng):
    """Any words for a store, and any words for a record."""
    good, table, numbers = world_store(talk, rng)
    talk.get(good.id, 0, good.length)
    words = list(talk.flush()[-1])
    for _ in range(20):
        changed = list(words)
        for _ in range(rng.choice((1, 1, 2, 40))):
            place = rng.choice((rng.randrange(60), row_of(good.kind, rng.randrange(65)),
                                rng.randrange(link_of(good.kind, FREE), len(words))))
            changed[place] = rng.choice((0, 1, 65535, 65536, 70000, 4294967295, rng.getrandbits(32),
                                         rng.choice(words)))
        store = Store(talk, len(changed), rng.choice(HOWS))
        talk.set(store.id, 0, changed)
        record = some_record(rng, numbers + [changed[row_of(good.kind, p)] for p in range(5)])
        for _ in range(12):
            packet = random_packet(rng, table)
            found = walk_packet(changed, packet)
            record = ask(store, packet, record, found)
            if found[0] == 0 and found[1] > DEFAULT:
                talk.note('numbers above 65,535 counted')
        talk.stores -= 1
        talk.flush()
