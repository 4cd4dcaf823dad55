"""Cases about packets that are cut short: request P5, 14 behind 7 and before 9."""

from laid import BEGIN, link_of
from reference import DEFAULT, NO_PLACE, PLACES, Tally, words_needed
from store import Store, expect, fresh
from tables import World, packet_of, random_packet
from tallies import CLEAR, ask, some_record
from walk import walk_packet

VALUES = (0x0A000005, 0xC0A80109, 17, 5004, 40000)
BAD, CUT, LOST = (7, 0, 0, 0), (14, 0, 0, 0), (9, 0, 0, 0)
# No place of it is unused, and none is the default's.
TAKEN = tuple(range(PLACES)) + (5,) * (2 * PLACES)


def pair(talk):
    """A store of the default alone, with action 1, and the same words one short."""
    good, short = Store(talk, words_needed(6)), Store(talk, words_needed(6))
    good.start(6, 1)
    short.start(6, 1)
    talk.lend(short.id, words_needed(6) - 1)
    return good, short


def asked(talk, good, short, packet, want):
    """By packet and with tallies, over the store and over the one that fails. `want` is 7 or
    14, which come before 9 and 13 and count nothing, or none where the values are looked up."""
    found = (0, DEFAULT, 1, 6)
    expect(good.account.lookup_packet(packet) == (want or found), 'the reference and request P5')
    talk.packet(good.id, packet, want or found)
    talk.packet(short.id, packet, want or LOST)
    talk.tally(good.id, packet, TAKEN, (want or (NO_PLACE, 0, 0, 0)) + TAKEN)
    talk.tally(short.id, packet, CLEAR, (want or LOST) + CLEAR)
    if want:
        talk.tally(good.id, packet, CLEAR, want + CLEAR)
    else:
        tally = Tally(CLEAR)
        tally.places[0] = [DEFAULT, 1, packet[2] * 256 + packet[3]]
        talk.tally(good.id, packet, CLEAR, found + tally.words())


# ---- fixed cases ----

def cut_examples(talk, rng):
    """The request's own packets and their neighbours, with the answers written out here."""
    good, short = pair(talk)
    udp = packet_of(VALUES, behind=bytes((0, 8, 0, 0)))
    expect(len(udp) == 28, 'the packet of request P5 has 28 bytes')
    for size in range(20):
        asked(talk, good, short, udp[:size], BAD)
        asked(talk, good, short, rng.randbytes(size), BAD)
    for size in range(20, 28):
        asked(talk, good, short, udp[:size], CUT)
        # both: the version is not 4, and the slice is short
        asked(talk, good, short, b'\x65' + udp[1:size], BAD)
    asked(talk, good, short, udp, None)
    asked(talk, good, short, udp + b'past', None)
    for total in (20, 21, 22, 23):
        for size in range(18, 29):
            asked(talk, good, short, packet_of(VALUES, total=total, behind=bytes(4))[:size], BAD)
    talk.flush()


def cut_grid(talk, rng):
    """Slices of every length, from none to two bytes more than the total length, of packets
    with each combination of version, header length, total length, protocol and offset. The
    five conditions of 7 stand here once more, each as what was put into the packet."""
    good, short = pair(talk)
    for version in (4, 6):
        for words in (4, 5, 6):
            for body in (-1, 0, 3, 4, 13):
                for protocol in (1, 6, 17):
                    for offset in (0, 1):
                        total = 4 * words + body
                        packet = packet_of(
                            VALUES[:2] + (protocol,) + VALUES[3:], words, rng.randrange(8), offset,
                            total, rng.randbytes(4 * words - 20 if words > 5 else 0),
                            rng.randbytes(20), 16 * version + words, rng.randbytes(12))
                        bad = version == 6 or words == 4 or body < 0 or (
                            protocol != 1 and offset == 0 and body < 4)
                        for size in range(total + 3):
                            want = BAD if bad or size < 20 else CUT if size < total else None
                            asked(talk, good, short, packet[:size], want)
                talk.flush()
    # both bytes of the total length count, and none of it is left out
    for total in (256, 257, 511, 512, 32768, 65280, 65535):
        packet = packet_of(VALUES, total=total, behind=bytes(65535))
        for size in {20, 21, 24, 255, 256, 257, max(total - 256, 20), total - 1, total, total + 1}:
            asked(talk, good, short, packet[:size], CUT if size < total else None)
        talk.flush()


# ---- random cases ----

def cuts(talk, rng):
    """Random packets over a random table, and over words of it that are damaged, each cut at
    several places; tallies go on counting what is not refused."""
    world = World(rng)
    store = fresh(talk, rng, rng.choice((40, 300)))
    for _ in range(rng.randint(1, 15)):
        store.insert(world.rule())
    table = store.account.table()
    record = some_record(rng, [rule.number for rule in table])
    talk.get(store.id, 0, store.length)
    words = list(talk.flush()[-1])
    cell = store.kind.front + 8 * rng.randrange(store.account.c) + rng.randrange(3)
    place = rng.choice((0, 1, 2, link_of(store.kind, BEGIN), cell))
    words[place] = rng.choice((0, 1, 5, 2 ** 32 - 1, rng.getrandbits(32)))
    other = Store(talk, store.length)
    talk.set(other.id, 0, words)
    for _ in range(40):
        packet = random_packet(rng, table)
        for size in {19, 20, 21, 23, 24, 40, len(packet) - 1, len(packet),
                     rng.randint(0, len(packet))}:
            piece = packet[:max(size, 0)]
            found = store.account.lookup_packet(piece)
            store.packet(piece)
            talk.packet(other.id, piece, walk_packet(words, piece))
            talk.note('packets by their first bytes')
            if found[0] == 14:
                talk.note('packets cut short')
        record = ask(store, piece, record, found)
        talk.flush()
