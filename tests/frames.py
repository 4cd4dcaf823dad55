"""Captures of every layout and link type that the command reamstork reads.

Written from the layouts' own descriptions: pcap, pcapng, Ethernet with tags, Linux cooked.
"""

import struct

from packets import address
from tables import packet_of

IPV4 = 0x0800
TAGS = (0x8100, 0x88A8, 0x9100)
# types of other protocols, and numbers that are lengths and no types
OTHERS = (0x0806, 0x86DD, 0x8847, 0x0000, 46, 0x0801, 0xFFFF)


# ---- layouts, of records (seconds, millionths, original length, data) ----

def pcap(records, link, order='<', nano=False, snap=262144):
    magic, scale = (0xA1B23C4D, 1000) if nano else (0xA1B2C3D4, 1)
    out = struct.pack(order + 'IHHiIII', magic, 2, 4, 0, 0, snap, link)
    for seconds, millionths, original, data in records:
        out += struct.pack(order + 'IIII', seconds, millionths * scale, len(data), original) + data
    return out


def pcapng(records, link, order='<', nano=False, snap=262144):
    def block(kind, body):
        body += bytes(-len(body) % 4)
        size = len(body) + 12
        return struct.pack(order + 'II', kind, size) + body + struct.pack(order + 'I', size)

    resolution = struct.pack(order + 'HHB3xHH', 9, 1, 9, 0, 0) if nano else b''
    out = block(0x0A0D0D0A, struct.pack(order + 'IHHq', 0x1A2B3C4D, 1, 0, -1))
    out += block(1, struct.pack(order + 'HHI', link, 0, snap) + resolution)
    for seconds, millionths, original, data in records:
        when = (seconds * 10 ** 6 + millionths) * (1000 if nano else 1)
        head = struct.pack(order + 'IIIII', 0, when >> 32, when & 0xFFFFFFFF, len(data), original)
        out += block(6, head + data) + block(0x0BAD, b'a block that nobody knows')
    return out


LAYOUTS = [(layout, order, nano)
           for layout in (pcap, pcapng) for order in '<>' for nano in (False, True)]


# ---- link headers: where the type stands, and how long they are without tags ----

def tagged(rng, kind, count):
    """A type behind so many tags, each of which has its own type in front."""
    tags = b''.join(struct.pack('>HH', rng.choice(TAGS), rng.randrange(65536))
                    for _ in range(count))
    return tags + struct.pack('>H', kind)


def ethernet(rng, kind, count):
    return rng.randbytes(12) + tagged(rng, kind, count)


def cooked(rng, kind, count):
    return struct.pack('>HHHQ', rng.randrange(5), 1, 6, rng.getrandbits(64)) + tagged(
        rng, kind, count)


def cooked_2(rng, kind, count):
    types = tagged(rng, kind, count)
    return types[:2] + struct.pack('>HIHBBQ', 0, 2, 1, 0, 6, rng.getrandbits(64)) + types[2:]


RAW = (101, 228)
HEADERS = {1: (ethernet, 12, 14), 113: (cooked, 14, 16), 276: (cooked_2, 0, 20)}
LINKS = (*RAW, *HEADERS)


def frames(rng, packets, link):
    """Records that hold the packets: some with tags, some of another protocol, some cut."""
    records = []
    for packet in packets:
        whole = packet
        if link not in RAW:
            kind = rng.choice(OTHERS) if rng.random() < 0.15 else IPV4
            whole = HEADERS[link][0](rng, kind, rng.choice((0, 0, 0, 1, 1, 2, 3))) + packet
        size = rng.randint(0, len(whole)) if rng.random() < 0.15 else len(whole)
        records.append((rng.getrandbits(32), rng.randrange(10 ** 6), len(whole), whole[:size]))
    return records


def behind(data, link):
    """The bytes of a record behind its link header; None where that names another protocol than
    IPv4, or is cut."""
    if link in RAW:
        return data
    _, at, size = HEADERS[link]
    while len(data) >= size:
        kind = int.from_bytes(data[at:at + 2], 'big')
        if kind not in TAGS:
            return data[size:] if kind == IPV4 else None
        at, size = size + 2, size + 4
    return None


# ---- the capture of the first example ----

def yard():
    """Frames of a yard on Ethernet, one second of them: with ports and without, to drives and past
    them, with a tag, of another protocol, and the last one cut."""
    crane, drive, other = address('192.168.1.9'), address('10.0.0.12'), address('10.0.0.200')
    ends = b'\x02\0\0\0\0\x02\x02\0\0\0\0\x01'
    plain, tag = ends + b'\x08\0', ends + b'\x81\0\0\x07\x08\0'
    some = [
        plain + packet_of((drive, crane, 17, 5000, 40000), behind=bytes(24)),
        plain + packet_of((drive, crane, 17, 5004, 40000), behind=bytes(1400), flags=1),
        plain + packet_of((drive, crane, 17, 0, 0), offset=178, behind=bytes(600)),
        plain + packet_of((drive, crane, 1, 0, 8), behind=bytes(60)),
        b'\xff' * 6 + ends[6:] + b'\x08\x06' + bytes(46),
        tag + packet_of((drive, crane, 6, 443, 50100), behind=bytes(16)),
        tag + packet_of((other, crane, 6, 443, 50101), behind=bytes(16)),
        plain + packet_of((other, address('192.168.7.7'), 17, 5004, 40000), behind=bytes(24)),
        plain + packet_of((drive, crane, 17, 53, 40001), behind=bytes(40)),
        plain + packet_of((drive, crane, 17, 5009, 40000), behind=bytes(24)),
    ]
    records = [(1700000000, 100000 * i, len(data), data) for i, data in enumerate(some)]
    records[-1] = (*records[-1][:3], some[-1][:40])
    return pcap(records, 1, snap=2048)
