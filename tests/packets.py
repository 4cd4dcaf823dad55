"""Cases about packets, prefixes and captures."""

import subprocess

from drive import Disagreement
from reference import BENCH_RULES, Rule, bench_output, capture_records, default_rule, prefix
from store import expect, fresh
from tables import World, packet_of, random_packet

BENCH_LOOKUPS = (
    ('10.0.0.5', 17, 5004, (0, 10, 2, 9)),
    ('10.0.0.5', 6, 80, (0, 20, 3, 7)),
    ('10.0.0.5', 17, 5010, (0, 20, 3, 10)),
    ('10.0.0.200', 6, 80, (0, 65535, 0, 8)),
    ('10.0.0.200', 17, 5010, (0, 65535, 0, 11)),
    ('10.0.1.0', 6, 80, (0, 65535, 0, 9)),
    ('9.255.255.255', 6, 80, (0, 65535, 0, 6)),
)


def address(text):
    a, b, c, d = map(int, text.split('.'))
    return ((a * 256 + b) * 256 + c) * 256 + d


def bench_values(row):
    return (address(row[0]), address('192.168.1.9'), row[1], row[2], 40000, 0)


# ---- fixed cases ----

def header_grid(talk, rng):
    """Each condition of 7, and that of 14, just holding and just not, with
    options and fragments."""
    here = (address('10.11.12.13'), address('192.168.1.9'), 17, 0x1389, 0x9C41, 0)
    for protocol in (0, 1, 5, 6, 7, 16, 17, 18, 255):
        store = fresh(talk, rng, 1000)
        with_ports = here[:2] + (protocol,) + here[3:]
        # these ports; the ports 0, which only a packet with ports can have; all packets
        # with ports; all without
        for i, values in enumerate((with_ports, with_ports[:3] + (0, 0, 0))):
            store.insert(Rule(i, 100 + i, values, values))
            store.insert(Rule(10 + i, 200 + i, values[:3] + (0, 0, i),
                              values[:3] + (65535, 65535, i)))
        for words in range(16):
            options = rng.randbytes(max(4 * words - 20, 0))
            for offset, flags in ((0, 0), (0, 1), (0, 2), (0, 7), (1, 0), (256, 1), (8191, 7)):
                for body in (-1, 0, 1, 2, 3, 4, 5, 20):
                    total = max(4 * words + body, 0)
                    packet = packet_of(with_ports, words, flags, offset, total, options,
                                       rng.randbytes(20), junk=rng.randbytes(12))
                    for size in {total - 1, total, total + 1, len(packet), 4 * words}:
                        store.packet(packet[:max(size, 0)])
        talk.flush()
        for first in range(256):
            store.packet(packet_of(with_ports, first & 15, first=first))
        packet = packet_of(with_ports)
        for size in range(len(packet) + 1):
            store.packet(packet[:size])
        long = packet_of(with_ports, total=65535, behind=bytes(65535))
        for size in (19, 20, 23, 24, 255, 256, 1500, 32767, 32768, 65534, 65535, 65536):
            store.packet(long[:size])
        talk.flush()


def every_prefix(talk, rng):
    for length in list(range(40)) + [63, 64, 255, 256, 256 + 24, 2 ** 31, 2 ** 32 - 8, 2 ** 32 - 1]:
        block = 2 ** (32 - length) if length <= 32 else 1
        for start in (0, block, 2 * block, 2 ** 32 - block, rng.getrandbits(32) // block * block):
            for where in (start, start - 1, start + 1, start + block // 2, start ^ 2 ** 31):
                talk.prefix(where % 2 ** 32, length, prefix(where % 2 ** 32, length))
    talk.flush()


EXAMPLE_OUTPUT = '''packet answer rule action reads
1 0 10 2 9
2 7 0 0 0
3 0 65535 0 8
end 3 0
'''


# The same packets, each cut to 24 bytes.
CUT_OUTPUT = '''packet answer rule action reads
1 14 0 0 0
2 7 0 0 0
3 14 0 0 0
end 3 0
'''


def capture_of(packets, order='big', version=(2, 4), link=101, magic=0xA1B2C3D4, snap=65535):
    """A capture of the packets; of a packet longer than `snap` it has the first bytes."""
    head = b''.join(n.to_bytes(size, order) for n, size in (
        (magic, 4), (version[0], 2), (version[1], 2), (0, 4), (0, 4), (snap, 4), (link, 4)))
    return head + b''.join(
        b''.join(n.to_bytes(4, order) for n in (1, 2, min(len(p), snap), len(p))) + p[:snap]
        for p in packets)


def example_packets():
    first, fourth = bench_values(BENCH_LOOKUPS[0]), bench_values(BENCH_LOOKUPS[3])
    udp = packet_of(first, behind=(8).to_bytes(2, 'big') + bytes(2))
    return [udp, udp[:19], packet_of(fourth, behind=bytes(16))]


def captures(talk, rng):
    """The reference's reader by document 01's example and by hand."""
    packets = example_packets()
    for order in ('big', 'little'):
        whole = capture_of(packets, order)
        expect(bench_output(whole) == EXAMPLE_OUTPUT, 'the example of document 01')
        for size in range(24):
            expect(bench_output(whole[:size]) == 'refused 12\n', 'a capture cut inside its header')
        expect(bench_output(whole[:24]).endswith('\nend 0 0\n'), 'an empty capture')
        expect(capture_records(whole[:-1]) == (packets[:2], 1), 'a record cut short')
        expect(capture_records(whole[:24 + 15]) == ([], 1), 'a record header cut short')
        cut = capture_of(packets, order, snap=24)
        expect(capture_records(cut) == ([packet[:24] for packet in packets], 0),
               'a capture with a snapshot length')
        expect(bench_output(cut) == CUT_OUTPUT, 'the numbers of request P5')
        for size, ending in ((16384, 1), (16385, 2), (2 ** 32 - 1, 2)):
            cut = whole + b''.join(n.to_bytes(4, order) for n in (0, 0, size, 0))
            expect(capture_records(cut) == (packets, ending), 'a long record')
        for bad in (dict(version=(2, 3)), dict(version=(4, 2)), dict(link=1),
                    dict(link=101 + 2 ** 28), dict(link=101 + 2 ** 16), dict(magic=0xA1B23C4D),
                    dict(magic=0xA1B2C3D5)):
            expect(bench_output(capture_of([], order, **bad)) == 'refused 12\n', 'a bad header')


# ---- random cases ----

def headers(talk, rng):
    """Random packets over random tables."""
    c = rng.choice((40, 300, 1920))
    world = World(rng)
    store = fresh(talk, rng, c)
    for _ in range(rng.randint(1, 20)):
        store.insert(world.rule())
    table = store.account.table()
    for _ in range(250):
        store.packet(random_packet(rng, table))
    talk.flush()


def prefixes(talk, rng):
    for _ in range(300):
        length = rng.choice((rng.randint(0, 32), rng.randint(0, 40), rng.getrandbits(32)))
        block = 2 ** (32 - min(length, 32))
        where = rng.getrandbits(32) // block * block
        where += rng.choice((0, 0, 0, 1, block // 2, block - 1))
        talk.prefix(where, length, prefix(where, length))
    talk.flush()


# ---- the bench program ----

def random_capture(rng):
    rules = list(BENCH_RULES) + [default_rule(0)]
    order = rng.choice(('big', 'little'))
    packets = [random_packet(rng, rules) for _ in range(rng.choice((0, 1, 3, 10, 60)))]
    if rng.random() < 0.2:
        long = bytes(rng.choice((16383, 16384, 16385, 20000)))
        packets.insert(rng.randint(0, len(packets)), long)
    snap = rng.choice((65535, 65535, 65535, 19, 20, 24, 27, 40, rng.randrange(100)))
    capture = bytearray(capture_of(packets, order, snap=snap))
    kind = rng.randrange(8)
    if kind == 0:
        capture[rng.randrange(24)] ^= 1 << rng.randrange(8)
    if kind == 1:
        del capture[rng.randrange(len(capture) + 1):]
    if kind == 2:
        capture += rng.randbytes(rng.randrange(40))
    if kind == 3 and len(capture) > 40:
        capture[24:40] = rng.randbytes(16)
    return bytes(capture)


class BenchProgram:
    """Runs the bench program over document 01's example and random captures."""

    __name__ = 'bench_program'

    def __init__(self, command, patience):
        self.command, self.patience = command, patience

    def __call__(self, talk, rng):
        order = rng.choice(('big', 'little'))
        for capture in [capture_of(example_packets(), order),
                        capture_of(example_packets(), order, snap=24)] + [
                            random_capture(rng) for _ in range(4)]:
            try:
                done = subprocess.run(self.command, input=capture, capture_output=True,
                                      timeout=self.patience)
            except subprocess.TimeoutExpired:
                raise Disagreement('the bench program hangs on ' + capture.hex()) from None
            want = bench_output(capture).encode()
            expect(done.stdout == want, 'the bench program gave %r, and %r was expected, for %s' % (
                done.stdout[-300:], want[-300:], capture[:2000].hex()))
