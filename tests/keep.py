#!/usr/bin/env python3
"""The program keep, which writes the capture of the records of one action.

    tests/keep.py --keep CMD.. [--bench CMD..] [--install] [--seed N] [--count N]

Stored captures and random ones, in both byte orders, whole, cut, damaged and refused, go
through keep for several actions. What it writes must be what the reference says: the records
whose lookup in the bench table gave that action, with their numbers and bytes, in their
order, and no packet that is refused. A capture that is not accepted, or that does not end
behind a whole record, must be named on standard error, and no other. Some of what is written
is read by programs that are not ours, as in readers.py. Tools that are missing are installed
with --install. The last line counts.
"""

import os
import subprocess
import sys
import tempfile
import time

from bench_cases import FOLDER, stored
from independent import command_line
from packets import capture_of, example_packets
from readers import Readers, closing, parser_of, seeded, some_records
from reference import (BENCH_RULES, bench_account, default_rule, kept, numbered_records,
                       written_capture)
from tables import random_packet

ACTIONS = (0, 2, 3)         # the default's, rule 10's and rule 20's
NO_ACTIONS = (1, 4, 10, 20, 65535, 256, 258, 2 ** 31, 2 ** 32 - 1)
ORDERS = ('big', 'little')
WRONG = ([], ['2', '3'], [''], ['x'], ['-1'], ['2x'], [' 2'], ['+2'], ['0x2'], ['2.0'],
         ['4294967296'], ['18446744073709551618'], ['9' * 40], ['0' * 5000 + '2'])


def in_order(records, order, head=None):
    """A capture of these records in a byte order, not as the library writes one: with other
    numbers behind the version too."""
    def numbers(*values):
        return b''.join(n.to_bytes(4, order) for n in values)
    head = head or capture_of([], order)
    return head + b''.join(numbers(seconds, fraction, len(data), original) + data
                           for seconds, fraction, original, data in records)


def random_capture(rng):
    """Whole in most cases, else cut, with bytes behind, or with a header that is damaged."""
    order = rng.choice(ORDERS)
    records = some_records(rng, rng.choice((0, 1, 3, 10, 60)), rng.random() < 0.7)
    rules = list(BENCH_RULES) + [default_rule(0)]
    records += [(rng.getrandbits(32), 0, rng.randrange(99), random_packet(rng, rules))
                for _ in range(rng.choice((0, 5, 20)))]
    rng.shuffle(records)
    head = bytearray(capture_of([], order))
    head[8:20] = rng.choice((bytes(12), rng.randbytes(12)))
    capture = bytearray(in_order(records, order, bytes(head)))
    kind = rng.randrange(10)
    if kind == 0:
        capture[rng.randrange(24)] ^= 1 << rng.randrange(8)
    if kind == 1:
        del capture[rng.randrange(len(capture) + 1):]
    if kind == 2:
        capture += rng.randbytes(rng.randrange(40))
    if kind == 3:
        size = rng.choice((16385, 20000, 2 ** 32 - 1))
        capture += b''.join(n.to_bytes(4, order) for n in (1, 2, size, size))
        capture += bytes(rng.choice((0, 10, 16385)))
    return bytes(capture)


def of_action(records, action):
    """The records whose packets get this action."""
    account = bench_account()
    return [record for record in records if account.lookup_packet(record[3])[::2] == (0, action)]


def records_of_each(rng, count):
    """So many records, of each action at least one."""
    while True:
        records = some_records(rng, count, False)
        if all(of_action(records, action) for action in ACTIONS):
            return records


class Keep:
    def __init__(self, options, readers):
        self.command, self.readers, self.verdict = options.keep, readers, readers.verdict

    def run(self, words, capture, pieces=None):
        """Status, what it writes, and what it says; the input comes at once, or in pieces."""
        if pieces is None:
            done = subprocess.run(self.command + words, input=capture, capture_output=True,
                                  timeout=120)
            return done.returncode, done.stdout, done.stderr
        with tempfile.TemporaryFile() as said:
            p = subprocess.Popen(self.command + words, stdin=subprocess.PIPE,
                                 stdout=subprocess.PIPE, stderr=said, bufsize=0)
            for at in range(0, len(capture), pieces):
                p.stdin.write(capture[at:at + pieces])
                time.sleep(0.002)
            out = p.communicate(timeout=120)[0]
            said.seek(0)
            return p.returncode, out, said.read()

    def see(self, capture, action, what, pieces=None):
        """Gives what is written."""
        what = '%s, action %d' % (what, action)
        want, read = kept(capture, action), numbered_records(capture)
        status, out, said = self.run([str(action)], capture, pieces)
        self.verdict(out == (want or b''), '%s: it wrote %d bytes, not %d' % (
            what, len(out), len(want or b'')))
        whole = read is not None and read[1] == 0
        self.verdict(bool(said) == (not whole), '%s: it said %r' % (what, said[:200]))
        self.verdict(status >= 0, '%s: it ended by signal %d' % (what, -status))
        return out

    def by_hand(self):
        """The packets of document 01 with numbers of their own: action 2, refused with 7, and
        action 0; the bytes are written out here."""
        udp, short, tcp = example_packets()
        records = [(0x01020304, 0x05060708, 28, udp), (1, 2, 3, short), (0xFFFFFFFF, 0, 0, tcp)]
        header = bytes.fromhex('d4c3b2a1 02000400 00000000 00000000 00400000 65000000')
        for order in ORDERS:
            capture = in_order(records, order)
            for action, bytes_behind in (
                    (2, bytes.fromhex('04030201 08070605 1c000000 1c000000') + udp),
                    (0, bytes.fromhex('ffffffff 00000000 28000000 00000000') + tcp),
                    (3, b''), (7, b'')):
                out = self.see(capture, action, 'document 01, ' + order)
                self.verdict(out == header + bytes_behind, 'document 01, action %d' % action)

    def stored(self):
        for name in sorted(os.listdir(FOLDER)):
            if name.endswith('.pcap'):
                for action in ACTIONS + NO_ACTIONS[:1]:
                    self.see(stored(name), action, name)

    def random(self, rng, count):
        """Kept again by the same action, what was kept stays as it is; by another, nothing does."""
        for place in range(count):
            capture = random_capture(rng)
            what = 'random capture %d' % place
            for action in ACTIONS + (rng.choice(NO_ACTIONS),):
                out = self.see(capture, action, what)
                if place % 10 == 0 and out:
                    self.verdict(self.see(out, action, what + ', kept') == out, what + ', twice')
                    other = rng.choice([a for a in ACTIONS if a != action])
                    self.verdict(self.see(out, other, what + ', kept') == out[:24], what + ', none')

    def tools(self, rng):
        """What is written for an input in either order, by other readers."""
        for order in ORDERS:
            records = records_of_each(rng, 300)
            for action in ACTIONS:
                out = self.see(in_order(records, order), action, '300 records, ' + order)
                mine = of_action(records, action)
                self.readers.see(out, mine, 'what keep wrote, action %d, %s' % (action, order))
            out = self.see(in_order(records, order), 1, '300 records, ' + order)
            self.readers.see(out, [], 'what keep wrote for no packet')

    def long(self, rng):
        """Many records, and input that comes in pieces."""
        records = some_records(rng, 3000, True)
        for order, action in zip(ORDERS, (2, 3)):
            self.see(in_order(records, order), action, '3000 records')
        few = written_capture(some_records(rng, 10, True))
        for pieces in (1, 7, 4096):
            self.see(few[:max(40, 400 * pieces)], 0, 'pieces of %d bytes' % pieces, pieces)

    def arguments(self):
        """Numbers at an edge are taken; what is no number is refused, and nothing is written."""
        capture = in_order([(1, 2, len(p), p) for p in example_packets()], 'big')
        for action in NO_ACTIONS:
            self.see(capture, action, 'a number at an edge')
        for word in ('02', '0' * 100 + '2'):
            self.verdict(self.run([word], capture)[1] == kept(capture, 2), 'zeros in front')
        for words in WRONG:
            status, out, said = self.run(words, capture)
            self.verdict(not out and said and status >= 0, 'the arguments %r: it wrote %d bytes, '
                         'and said %r' % (words, len(out), said[:100]))


def main():
    parser = parser_of('The program that keeps the packets of one action.')
    parser.add_argument('--keep', nargs='+', required=True, metavar='CMD')
    parser.add_argument('--count', type=int, default=400, help='that many random captures')
    options = parser.parse_args()
    options.keep = command_line(options.keep)
    rng = seeded(options)
    with tempfile.TemporaryDirectory() as folder:
        readers = Readers(options, folder)
        keep = Keep(options, readers)
        keep.by_hand()
        keep.arguments()
        keep.stored()
        keep.random(rng, options.count)
        keep.long(rng)
        keep.tools(rng)
    return closing(readers)


if __name__ == '__main__':
    sys.exit(main())
