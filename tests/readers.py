#!/usr/bin/env python3
"""Captures written by the library, read by programs that are not ours.

    tests/readers.py --driver CMD.. [--bench CMD..] [--install] [--seed N]

Whole files are written by calls of the library, header and records one after another.
tcpdump, tshark, scapy and the reference must find exactly these records in them, in
their order: bytes, times and lengths. With --bench the bench program must list them.
Tools that are missing are installed with --install; one that is not there is skipped
and counted. --driver is the command that runs driver.c linked with the archive.
"""

import argparse
import os
import random
import re
import subprocess
import sys
import tempfile
from array import array

from captures import Missing, install, python_with_scapy, run, tool
from drive import Driver, Talk
from independent import command_line
from packets import example_packets
from reference import (BENCH_RULES, bench_output, default_rule, numbered_records, written_capture)
from tables import random_packet

MOST = 16384
# What these tools take for a time: they have signed numbers, and fractions below a second.
SECONDS, FRACTIONS = 2 ** 31, 1000000

# Runs under an interpreter that has scapy: prints for each record the numbers and bytes as
# RawPcapReader has them, and then the same bytes as rdpcap has them.
SCAPY = r'''
import sys
from scapy.all import rdpcap
from scapy.utils import RawPcapReader
raw = [(meta.sec, meta.usec, meta.wirelen, meta.caplen, data)
       for data, meta in RawPcapReader(sys.argv[1])]
whole = list(rdpcap(sys.argv[1]))
if len(raw) != len(whole):
    sys.exit('rdpcap has %d packets, not %d' % (len(whole), len(raw)))
for (seconds, fraction, original, captured, data), packet in zip(raw, whole):
    print(seconds, fraction, original, captured, data.hex() or '-', packet.original.hex() or '-')
'''


def ordinary(record):
    """Whether all tools take the numbers of a record for what they are."""
    seconds, fraction, original, data = record
    return seconds < SECONDS and fraction < FRACTIONS and len(data) <= original < SECONDS


class Readers:
    """Each reader gives the records of a capture, or raises Missing."""

    def __init__(self, options, folder):
        self.options, self.path = options, os.path.join(folder, 'written.pcap')
        self.passed, self.failed, self.skipped = 0, 0, {}

    def verdict(self, truth, what):
        if truth:
            self.passed += 1
        else:
            self.failed += 1
            if self.failed <= 20:
                print('FAILED %s (--seed %d)' % (what, self.options.seed), flush=True)

    def see(self, capture, records, what):
        """A capture that has exactly these records, by every reader."""
        self.verdict(numbered_records(capture) == (records, 0), 'the records of ' + what)
        if self.options.bench:
            self.verdict(run(self.options.bench, input=capture).decode() == bench_output(capture),
                         'the bench program over ' + what)
        with open(self.path, 'wb') as file:
            file.write(capture)
        for reader in (self.passed_on, self.tcpdump, self.tshark, self.scapy):
            # what tcpdump prints of other numbers is no list any more
            prints = reader != self.tcpdump or all(map(ordinary, records))
            if prints and reader.__name__ not in self.skipped:
                self.read(reader, records, what)

    def read(self, reader, records, what):
        name = '%s over %s' % (reader.__name__, what)
        try:
            try:
                wrong = reader(records)
            except Missing:
                if not self.options.install:
                    raise
                install()
                self.options.install = False
                wrong = reader(records)
        except Missing as missing:
            self.skipped[reader.__name__] = str(missing)
            print('skipped %s: %s is not there' % (reader.__name__, missing))
        except subprocess.SubprocessError as why:
            said = getattr(why, 'stderr', b'') or b''
            self.verdict(False, '%s: %s %s' % (name, why, said[-500:]))
        else:
            self.verdict(not wrong, '%s: %s' % (name, wrong))

    # -- the readers: what is wrong, or nothing

    def passed_on(self, records):
        """What tcpdump reads and writes again, every number of it."""
        out = run([tool('tcpdump'), '-r', self.path, '-w', '-'])
        return differ(numbered_records(out)[0], records)

    def tcpdump(self, records):
        """Times and bytes as tcpdump prints them; of a record with no bytes a line alone."""
        out = run([tool('tcpdump'), '-nn', '-tt', '-xx', '-r', self.path]).decode(errors='replace')
        found = []
        for line in out.split('\n'):
            head = re.match(r'(\d+)\.(\d+) |\[Invalid header: caplen==0', line)
            data = re.match(r'\t0x[0-9a-f]+:  ([0-9a-f ]+)$', line)
            if head:
                found.append([head[1] and int(head[1]), head[2] and int(head[2]), b''])
            elif data and found:
                found[-1][2] += bytes.fromhex(data[1].replace(' ', ''))
        wanted = [[*record[:2], record[3]] for record in records]
        for ours, theirs, record in zip(wanted, found, records):
            if not record[3]:
                theirs[:] = ours
        return differ(found, wanted)

    def tshark(self, records):
        """Times and lengths as tshark names them, and the bytes of each frame as it writes them
        again: what it prints of a frame ends with the packet in it."""
        tshark = tool('tshark')
        names = ('frame.time_epoch', 'frame.cap_len', 'frame.len')
        out = run([tshark, '-n', '-r', self.path, '-T', 'fields', '-E', 'separator=|']
                  + [part for name in names for part in ('-e', name)]).decode()
        again = run([tshark, '-n', '-r', self.path, '-F', 'pcap', '-w', '-'])
        lines, frames = out.split('\n')[:-1], numbered_records(again)[0]
        if len(lines) != len(frames):
            return '%d lines for %d frames' % (len(lines), len(frames))
        found = []
        for line, frame in zip(lines, frames):
            time, captured, original = line.split('|')
            seconds, _, parts = time.partition('.')
            found.append((int(seconds), int(parts) // 1000, int(original), frame[3])
                         if len(frame[3]) == int(captured) else line)
        return differ([record if not ordinary(record) and theirs[3] == record[3] else theirs
                       for theirs, record in zip(found, records)] + found[len(records):], records)

    def scapy(self, records):
        """Numbers and bytes by scapy, by both of its readers."""
        out = run([python_with_scapy(), '-c', SCAPY, self.path]).decode()
        found = []
        for line in out.splitlines():
            *numbers, first, second = line.split()
            seconds, fraction, original, captured = map(int, numbers)
            data = bytes.fromhex(first.strip('-'))
            found.append((seconds, fraction, original, data)
                         if first == second and captured == len(data) else line)
        return differ(found, records)


def differ(found, wanted):
    """Where two lists differ first, in a line, or nothing."""
    for place, (a, b) in enumerate(zip(found, wanted)):
        if a != b:
            return 'record %d is %.300s, not %.300s' % (place, a, b)
    return len(found) != len(wanted) and '%d records, not %d' % (len(found), len(wanted))


# ---- the files

def some_records(rng, count, any_numbers):
    """Packets, and bytes that are none, with numbers as a clock has them, or any."""
    rules = list(BENCH_RULES) + [default_rule(0)]
    records = []
    for _ in range(count):
        data = rng.choice((random_packet(rng, rules), random_packet(rng, rules),
                           rng.randbytes(rng.choice((1, 2, 19, 20, 60, 1500, MOST - 1, MOST)))))
        data = data or b'\0'
        original = len(data) + rng.choice((0, 0, 1, 5000))
        numbers = rng.choice((0, 1, SECONDS - 1, rng.randrange(SECONDS))), rng.choice(
            (0, FRACTIONS - 1, rng.randrange(FRACTIONS))), original
        if any_numbers:
            numbers = tuple(rng.choice((0, 2 ** 32 - 1, rng.getrandbits(32))) for _ in range(3))
        records.append(numbers + (data,))
    return records


def files(rng):
    """(what, records)"""
    yield 'an empty capture', []
    yield 'the packets of document 01', [(1, 2, len(p), p) for p in example_packets()]
    yield 'a record of no bytes', [(1, 2, 0, b''), (3, 4, 28, example_packets()[0])]
    for size in (1, MOST - 1, MOST):
        yield 'a record of %d bytes' % size, [(5, 6, size, rng.randbytes(size))]
    for count in (1, 10, 100, 400):
        yield '%d records' % count, some_records(rng, count, False)
    yield 'records with any numbers', some_records(rng, 100, True)


def by_the_library(driver, rng, records):
    """The bytes that the calls write, one after another."""
    talk = Talk(driver)
    talk.capture_begin(24 + rng.choice((0, 1, 100)), fill=rng.getrandbits(32))
    for *numbers, data in records:
        talk.capture_add(16 + len(data) + rng.choice((0, 1, 100)), numbers, data,
                         fill=rng.getrandbits(32))
    file = b''
    for answer, size, *words in talk.flush():
        file += array('I', words).tobytes()[:size] if answer == 0 else b'refused'
    return file


def parser_of(what):
    parser = argparse.ArgumentParser(description=what)
    parser.add_argument('--bench', nargs='+', metavar='CMD')
    parser.add_argument('--install', action='store_true')
    parser.add_argument('--seed', type=int, default=None)
    return parser


def seeded(options):
    options.bench = options.bench and command_line(options.bench)
    if options.seed is None:
        options.seed = random.SystemRandom().randrange(10 ** 9)
    print('seed %d' % options.seed, flush=True)
    return random.Random(options.seed)


def closing(readers):
    print('%d skipped' % len(readers.skipped))
    print('%d passed, %d failed' % (readers.passed, readers.failed))
    return 1 if readers.failed or not readers.passed else 0


def main():
    parser = parser_of('Captures written by the library, read by others.')
    parser.add_argument('--driver', nargs='+', required=True, metavar='CMD')
    options = parser.parse_args()
    rng = seeded(options)
    driver = Driver(command_line(options.driver), 120)
    with tempfile.TemporaryDirectory() as folder:
        readers = Readers(options, folder)
        for what, records in files(rng):
            file = by_the_library(driver, rng, records)
            readers.verdict(file == written_capture(records), 'the bytes of ' + what)
            readers.see(file, records, what)
    driver.end()
    return closing(readers)


if __name__ == '__main__':
    sys.exit(main())
