"""Cases about writing captures: request P12."""

from drive import NO_DIFFERENCE
from packets import example_packets
from reference import (bench_output, capture_add, capture_begin, capture_records, numbered_records,
                       written_capture)
from store import expect
from tables import World, random_packet

MOST = 16384
EDGES = (0, 1, 2 ** 31 - 1, 2 ** 31, 2 ** 32 - 1)
SIZES = (0, 1, 2, 3, 15, 16, 17, 255, 256, 257, 1500, MOST - 1, MOST)
ABOVE = (MOST + 1, MOST + 2, 2 * MOST, 2 * MOST + 1, 65535, 65536, 65537, 65536 + MOST, 131072)
BEHIND = (0, 1, 7, 256)  # guard bytes behind the output; with 0 it ends at the wall

# The header of every capture, and a record, written out by hand.
HEADER = bytes.fromhex('d4c3b2a1 0200 0400 00000000 00000000 00400000 65000000')
RECORD = bytes.fromhex('44332211 88776655 1c000000 ccbbaa99'
                       '4500001c 00000000 00110000 c0a80109 0a000005 9c40138c 00080000')


# ---- one call ----

def begin(talk, rng, length):
    want = capture_begin(length)
    talk.capture_begin(length, want, rng.choice(BEHIND), rng.getrandbits(32))
    return want


def add(talk, rng, length, numbers, data):
    want = capture_add(length, *numbers, data)
    talk.capture_add(length, numbers, data, want, rng.choice(BEHIND), rng.getrandbits(32))
    return want


def some_numbers(rng):
    return tuple(rng.choice((*EDGES, rng.getrandbits(32), rng.getrandbits(32))) for _ in range(3))


# ---- fixed cases ----

def written_by_hand(talk, rng):
    """Bytes that stand here, in order: nothing of them is worked out."""
    udp = RECORD[16:]
    for behind in BEHIND:
        talk.capture_begin(24, (0, HEADER), behind)
        talk.capture_begin(23, (8, b''), behind)
        talk.capture_begin(1000, (0, HEADER), behind)
        talk.capture_add(44, (0x11223344, 0x55667788, 0x99AABBCC), udp, (0, RECORD), behind)
        talk.capture_add(43, (0x11223344, 0x55667788, 0x99AABBCC), udp, (8, b''), behind)
        talk.capture_add(1000, (0x11223344, 0x55667788, 0x99AABBCC), udp, (0, RECORD), behind)
        talk.capture_add(16, (0, 0, 0), b'', (0, bytes(16)), behind)
        talk.capture_add(17, (1, 2, 3), b'\xff', (0, bytes.fromhex(
            '01000000 02000000 01000000 03000000 ff')), behind)
        talk.capture_add(16, (2 ** 32 - 1,) * 3, b'', (0, bytes.fromhex(
            'ffffffff ffffffff 00000000 ffffffff')), behind)
        longest = bytes(i * 7 % 251 for i in range(MOST))
        talk.capture_add(MOST + 16, (1, 2, MOST), longest, (0, bytes.fromhex(
            '01000000 02000000 00400000 00400000') + longest), behind)
        talk.capture_add(40000, (1, 2, 3), longest + b'x', (12, b''), behind)
        talk.capture_add(0, (1, 2, 3), longest + b'x', (12, b''), behind)
        talk.capture_add(MOST + 15, (1, 2, 3), longest, (8, b''), behind)
    talk.flush()
    # the writer of the reference, by the same bytes, and what its readers find in them
    expect(capture_begin(24) == (0, HEADER), "the reference's header")
    expect(capture_add(44, 0x11223344, 0x55667788, 0x99AABBCC, udp) == (0, RECORD),
           "the reference's record")
    expect(capture_records(HEADER + RECORD) == ([udp], 0), "the reference's reader")
    expect(numbered_records(HEADER + RECORD)
           == ([(0x11223344, 0x55667788, 0x99AABBCC, udp)], 0), 'the numbers of a record')
    expect(udp == example_packets()[0], 'the packet of document 01')
    expect(bench_output(HEADER + RECORD).endswith('\n1 0 10 2 9\nend 1 0\n'), 'its line')


def written_lengths(talk, rng):
    """Data and output of every length at an edge: 12 before 8, and neither writes a byte."""
    for length in (*range(60), 255, 256, 4096, 40000):
        begin(talk, rng, length)
    for size in SIZES + ABOVE:
        data = rng.randbytes(size)
        for length in sorted({0, 1, 15, 16, 17, size, size + 15, size + 16, size + 17, size + 100,
                              16 + size % 65536, MOST + 15, MOST + 16, 39000, 40000}):
            if length <= 40000:
                add(talk, rng, length, some_numbers(rng), data)
        talk.flush()


def written_numbers(talk, rng):
    """Every combination of numbers at an edge, and each bit of each of them alone."""
    data = rng.randbytes(20)
    for a in EDGES:
        for b in EDGES:
            for c in EDGES:
                add(talk, rng, 36, (a, b, c), data)
    for place in range(3):
        for bit in range(32):
            add(talk, rng, 40, tuple((1 << bit) * (i == place) for i in range(3)), data)
    # the captured length is that of the data, whatever the original one is
    for size in range(300):
        add(talk, rng, size + 16, (0, 0, rng.choice((0, size, 2 ** 32 - 1))), bytes(size))
    talk.flush()


def written_far(talk, rng):
    """Lengths that 32 bits do not hold are taken for what they are."""
    for more in (0, 1, 16, 24, MOST, 65536):
        for size in (0, 5, MOST, MOST + 1):
            talk.capture_far(more, size)
            (got,) = talk.flush()
            if got == (NO_DIFFERENCE,) * 6:
                talk.note('lengths above 2^32 not tried')
                return
            record = (12, 0) if size > MOST else (0, 16 + size)
            expect(got == (0, 24) + record + (12, 0), 'lengths of 2^32 + %d: %s' % (more, got))


# ---- random cases ----

def written_files(talk, rng):
    """Whole files, call after call: they are read back as exactly these records, in this order,
    ended at an edge."""
    rules = World(rng)
    table = [rules.rule(n) for n in range(5)]
    for _ in range(4):
        records, file = [], begin(talk, rng, 24 + rng.choice((0, 1, 500)))[1]
        for _ in range(rng.choice((0, 1, 2, 20))):
            data = rng.choice((random_packet(rng, table), rng.randbytes(rng.choice(
                (0, 1, 20, rng.randrange(2000), MOST - 1, MOST, MOST + 1)))))
            numbers = some_numbers(rng)
            length = 16 + len(data) + rng.choice((-1, 0, 0, 0, 1, 300))
            answer, written = add(talk, rng, length, numbers, data)
            file += written
            if answer == 0:
                records.append(numbers + (data,))
        expect(numbered_records(file) == (records, 0), 'the records of a file')
        expect(capture_records(file) == ([record[3] for record in records], 0), 'its packets')
        expect(file == written_capture(records), 'a file is not the sum of its calls')
        talk.note('captures written')
    talk.flush()
