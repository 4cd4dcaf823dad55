#!/usr/bin/env python3
"""Stored captures, and what the bench program writes for each.

    tests/bench_cases.py --bench CMD.. [--write]

tests/captures/NAME.pcap is a capture and NAME.txt what must be written. The
captures are made below; --write makes the files anew, the .txt as `cases` has
it. Without it the stored files must be those made here, and the bench program
must write the stored text. The reference has to say the same. The last line
counts.
"""

import argparse
import os
import subprocess
import sys

from independent import command_line
from packets import EXAMPLE_OUTPUT, address, capture_of, example_packets
from reference import bench_output
from tables import packet_of

FOLDER = os.path.join(os.path.dirname(os.path.abspath(__file__)), 'captures')
HEAD = 'packet answer rule action reads\n'
ROWS = ('1 0 10 2 9\n', '2 7 0 0 0\n', '3 0 65535 0 8\n')
REFUSED = 'refused 12\n'


def listed(count, ending):
    return HEAD + ''.join(ROWS[:count]) + 'end %d %d\n' % (count, ending)


def header_of(captured, order, original=None):
    """A record header: seconds, parts of a second, captured and original length."""
    return b''.join(n.to_bytes(4, order)
                    for n in (1, 2, captured, captured if original is None else original))


def without_ports():
    """ICMP, a later fragment and the first one of UDP to port 5004, and a later
    fragment to a host that rule 20 leaves out."""
    def to(destination, protocol, **more):
        return packet_of((address(destination), address('192.168.1.9'), protocol, 5004, 40000),
                         behind=bytes(4), **more)
    return [to('10.0.0.5', 1), to('10.0.0.5', 17, offset=1), to('10.0.0.5', 17, flags=1),
            to('10.0.0.200', 17, offset=1)]


def cut_short(order):
    """Packets that are cut short, that are not readable, and that are whole. The first two are
    those of request P5."""
    udp = example_packets()[0]
    here = (address('10.0.0.5'), address('192.168.1.9'))
    records = [
        (udp[:24], 28), (udp[:19], 19), (b'\x65' + udp[1:24], 28),
        (packet_of(here + (17, 5004, 40000), total=22)[:22], 22),
        (udp, 28), (udp[:20], 28), (udp[:27], 28),
        # 7 and 14 at once: no room for ports by the total length, and the slice is short
        (packet_of(here + (17, 5004, 40000), total=23)[:22], 23),
        # ICMP, a later fragment, and a header with options of which 20 bytes are there
        (packet_of(here + (1, 2048, 0), behind=bytes(36))[:24], 60),
        (packet_of(here + (17, 5004, 40000), offset=1, behind=bytes(36))[:24], 60),
        (packet_of(here + (6, 80, 40000), words=15)[:20], 64),
        # the total length alone counts, not the packet's length as the record has it
        (packet_of(here + (6, 80, 40000)), 60), (udp + b'past', 32)]
    return capture_of([], order) + b''.join(
        header_of(len(packet), order, original) + packet for packet, original in records)


CUT_SHORT = HEAD + '''1 14 0 0 0
2 7 0 0 0
3 7 0 0 0
4 7 0 0 0
5 0 10 2 9
6 14 0 0 0
7 14 0 0 0
8 7 0 0 0
9 14 0 0 0
10 14 0 0 0
11 14 0 0 0
12 0 20 3 7
13 0 10 2 9
end 13 0
'''


def cases():
    """(name, capture, what must be written)"""
    packets = example_packets()
    udp = packets[0]
    yield 'refused_no_byte', b'', REFUSED
    for order in ('big', 'little'):
        def case(name, capture, text, order=order):
            return '%s_%s' % (name, order), capture, text
        whole = capture_of(packets, order)
        empty = capture_of([], order)
        first = capture_of(packets[:1], order)

        # by the port rule rule 10 holds packets with ports alone, rule 20 all
        yield case('without_ports', capture_of(without_ports(), order),
                   HEAD + '1 0 20 3 7\n2 0 20 3 8\n3 0 10 2 9\n4 0 65535 0 9\nend 4 0\n')

        # 14 beside 7 and 0
        yield case('cut_short', cut_short(order), CUT_SHORT)

        # how the list ends
        yield case('edge', whole, EXAMPLE_OUTPUT)
        yield case('empty_list', empty, listed(0, 0))
        yield case('record_of_no_bytes', capture_of([b'', udp], order),
                   HEAD + '1 7 0 0 0\n2 0 10 2 9\nend 2 0\n')
        yield case('header_cut_at_1', first + header_of(len(udp), order)[:1], listed(1, 1))
        yield case('header_cut_at_15', first + header_of(len(udp), order)[:15], listed(1, 1))
        yield case('header_cut_first', empty + header_of(len(udp), order)[:15], listed(0, 1))
        yield case('no_data', first + header_of(len(udp), order), listed(1, 1))
        yield case('data_cut', whole[:-1], listed(2, 1))
        yield case('data_cut_first', first[:-1], listed(0, 1))
        yield case('too_long', first + header_of(16385, order) + udp, listed(1, 2))
        yield case('too_long_and_whole', first + header_of(16385, order) + bytes(16385), listed(1, 2))
        yield case('too_long_by_far', empty + header_of(2 ** 32 - 1, order), listed(0, 2))
        yield case('longest', first + header_of(16384, order) + udp + bytes(16384 - len(udp)),
                   HEAD + ROWS[0] + '2 0 10 2 9\nend 2 0\n')
        yield case('longest_cut', first + header_of(16384, order) + bytes(16383), listed(1, 1))
        yield case('original_length', first[:-len(udp) - 16]
                   + header_of(len(udp), order, 2 ** 32 - 1) + udp, listed(1, 0))

        # refused with 12
        yield case('refused_23_bytes', empty[:23], REFUSED)
        yield case('refused_magic', capture_of(packets, order, magic=0xA1B2C3D5), REFUSED)
        yield case('refused_nanoseconds', capture_of(packets, order, magic=0xA1B23C4D), REFUSED)
        yield case('refused_newer_layout', capture_of(packets, order, magic=0x0A0D0D0A), REFUSED)
        yield case('refused_major_version', capture_of(packets, order, version=(3, 4)), REFUSED)
        yield case('refused_minor_version', capture_of(packets, order, version=(2, 3)), REFUSED)
        yield case('refused_version_swapped', capture_of(packets, order, version=(4, 2)), REFUSED)
        yield case('refused_link_type', capture_of(packets, order, link=1), REFUSED)
        yield case('refused_link_type_17th_bit', capture_of(packets, order, link=101 + 2 ** 16), REFUSED)
        yield case('refused_link_type_top_bit', capture_of(packets, order, link=101 + 2 ** 31), REFUSED)


def stored(name):
    with open(os.path.join(FOLDER, name), 'rb') as file:
        return file.read()


def write(name, content):
    with open(os.path.join(FOLDER, name), 'wb') as file:
        file.write(content)


def verdict(name, capture, text, bench):
    """What is wrong with a case, or None."""
    try:
        if stored(name + '.pcap') != capture or stored(name + '.txt').decode() != text:
            return 'the stored files are not those made here'
    except OSError as why:
        return str(why)
    if bench_output(capture) != text:
        return 'the reference says %r' % bench_output(capture)
    ran = subprocess.run(bench, input=capture, capture_output=True, timeout=120)
    if ran.returncode or ran.stdout.decode(errors='replace') != text:
        return 'status %d, it wrote %r' % (ran.returncode, ran.stdout)
    return None


def main():
    parser = argparse.ArgumentParser(description='Stored captures for the bench program.')
    parser.add_argument('--bench', nargs='+', metavar='CMD')
    parser.add_argument('--write', action='store_true')
    options = parser.parse_args()
    if options.write:
        os.makedirs(FOLDER, exist_ok=True)
        for name, capture, text in cases():
            write(name + '.pcap', capture)
            write(name + '.txt', text.encode())
        return 0
    if not options.bench:
        parser.error('--bench or --write')
    bench = command_line(options.bench)
    passed = failed = 0
    names = set()
    for name, capture, text in cases():
        names |= {name + '.pcap', name + '.txt'}
        wrong = verdict(name, capture, text, bench)
        if wrong:
            failed += 1
            print('FAILED %s: %s' % (name, wrong))
        else:
            passed += 1
    for name in sorted(set(os.listdir(FOLDER)) - names):
        failed += 1
        print('FAILED %s: no case is made for this file' % name)
    print('%d passed, %d failed' % (passed, failed))
    return 1 if failed or not passed else 0


if __name__ == '__main__':
    sys.exit(main())
