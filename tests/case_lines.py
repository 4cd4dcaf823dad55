#!/usr/bin/env python3
"""The cases of the program `cases`, crates/cases/stdin, without the library.

    tests/case_lines.py [--write]

Four parts of that file repeat one thing many times: 512 rules, three rules
deleted in every order, the same packets over several tables, and port ranges
with each range of field 6. They are written here, between the lines '# written by
tests/case_lines.py' and '# as far as here'; --write puts them into the file.
Without it, they must stand there as they are written, and the reference must
answer every case of the file as the file says. The last line counts cases.
"""

import argparse
import itertools
import os
import re
import sys

from reference import Account, BAD_STORE, LARGE, LEAST_CELLS, read_header

ROOT = os.path.join(os.path.dirname(os.path.abspath(__file__)), '..')
PATH = os.path.join(ROOT, 'crates', 'cases', 'stdin')
BEGIN, END = '# written by tests/case_lines.py', '# as far as here'
WRONG = re.compile(r'^# Wrong on purpose')

FULL = '0.0.0.0-255.255.255.255 0.0.0.0-255.255.255.255 0-255 0-65535 0-65535 0-1'
RULES = {
    10: '10 2 10.0.0.0-10.0.0.255 0.0.0.0-255.255.255.255 17-17 5000-5009 0-65535 0-0',
    20: '20 3 10.0.0.0-10.0.0.127 0.0.0.0-255.255.255.255 0-255 0-65535 0-65535 0-1',
    30: '30 4 10.0.0.0-10.0.0.127 0.0.0.0-255.255.255.255 6-17 80-5009 0-65535 0-0',
}
# what is asked in the fields before the ports
ANY = '0.0.0.0-255.255.255.255 0.0.0.0-255.255.255.255 0-255'
# packets from 192.168.1.9 to 10.0.0.5: bytes, protocol, destination and source port, portless
PACKETS = (
    ('4500001c0000200040110000c0a801090a0000059c40004500080000', 17, 69, 40000, 0),
    ('4500001c0000200340110000c0a801090a0000059c40004500080000', 17, 0, 0, 1),
    ('4500001c00001fff40110000c0a801090a0000059c40004500080000', 17, 0, 0, 1),
    ('4500001c0000000040010000c0a801090a0000050800000000000000', 1, 0, 0, 1),
    ('4500001c00000000402f0000c0a801090a0000050000000000000000', 47, 0, 0, 1),
    ('4500001c0000000040840000c0a801090a0000050000005000000000', 132, 0, 0, 1),
    ('450000280000000040060000c0a801090a0000059c40005000000000000000000000000000000000',
     6, 80, 40000, 0),
    ('450000280000000140060000c0a801090a0000059c40005000000000000000000000000000000000',
     6, 0, 0, 1),
    ('4500001c0000000040110000c0a801090a0000050000000000080000', 17, 0, 0, 0),
    ('450000280000000040060000c0a801090a0000059c40040000000000000000000000000000000000',
     6, 1024, 40000, 0),
)
# what rule 10 asks of ports and in field 6, and rule 20 where there is one; the cells that they
# take; and what a lookup gives for a destination port up to 1023, for another, and without ports
TABLES = (
    (('0-1023 0-65535 0-0',), 10, '10 2 6', '65535 1 7', '65535 1 7'),
    (('0-65535 0-65535 0-1',), 6, '10 2 6', '10 2 6', '10 2 6'),
    (('0-65535 0-65535 1-1',), 7, '65535 1 6', '65535 1 6', '10 2 7'),
    (('0-65535 0-65535 0-0',), 7, '10 2 6', '10 2 6', '65535 1 7'),
    (('0-1023 0-65535 0-0', '0-65535 0-65535 1-1'), 11, '10 2 6', '65535 1 7', '20 3 7'),
)
# destination and source ports that are not both full, and the cells of a rule with them
NARROW = (('1-65535 0-65535', 10), ('0-65534 0-65535', 10), ('0-65535 1-65535', 9),
          ('0-65535 0-65534', 9), ('0-0 0-0', 12), ('65535-65535 0-65535', 10),
          ('0-1023 1024-65535', 12))
# the cells that rules take, beside the default
CELLS = {(): 6, (10,): 33, (20,): 18, (30,): 33, (10, 20): 54, (10, 30): 69, (20, 30): 33, (10, 20, 30): 69}


# ---- the repeated lines -------------------------------------------------

def many_rules():
    return ['insert %d 5 %s = 0' % (number, FULL) for number in range(LARGE.rules)]


def store_of(rules, fill):
    return (['room 8832 %d = 8832' % fill, 'start 80 1 = 0']
            + ['insert %s = 0' % RULES[rule] for rule in rules])


def deletes():
    lines = []
    for order in itertools.permutations(RULES):
        lines += ['# rules %d, %d and %d go, in this order' % order]
        lines += store_of(RULES, 0) + ['cells = 0 %d' % CELLS[tuple(RULES)]]
        for gone in range(1, 4):
            left = order[gone:]
            lines += ['delete %d = 0' % order[gone - 1],
                      'cells = 0 %d' % CELLS[tuple(sorted(left))], 'check = 0', 'swap']
            lines += store_of(left, 7) + ['same = 1', 'swap']
    return lines


def packets():
    """What the header gives of each packet, and the packets over several tables."""
    lines = ['header x%s = 0 10.0.0.5 192.168.1.9 %d %d %d %d' % packet for packet in PACKETS]
    for rules, cells, low, high, without in TABLES:
        lines += ['# destination port, source port and field 6: ' + ', and '.join(rules)]
        lines += ['room 8624 0 = 8624', 'start 54 1 = 0']
        lines += ['insert %s %s %s = 0' % (rule, ANY, asked)
                  for rule, asked in zip(('10 2', '20 3'), rules)] + ['cells = 0 %d' % cells]
        for packet, _, port, _, portless in PACKETS:
            found = without if portless else low if port < 1024 else high
            lines += ['packet x%s = 0 %s' % (packet, found)]
    return lines


def narrow_ports():
    """Refused with all but 0 to 0 in field 6, which leaves the store as it is, and with that
    taken and deleted again."""
    lines = ['insert 7 5 %s %s %s = 2' % (ANY, ports, portless)
             for ports, _ in NARROW for portless in ('0-1', '1-1', '1-0', '0-2')]
    lines += ['same = 1']
    for ports, cells in NARROW:
        lines += ['insert 7 5 %s %s 0-0 = 0' % (ANY, ports), 'cells = 0 %d' % cells, 'delete 7 = 0']
    return lines + ['same = 1', 'check = 0']


PARTS = (many_rules, deletes, packets, narrow_ports)


def written(text):
    """The text with the repeated lines as they are written here."""
    parts = iter([part() for part in PARTS])
    return re.sub('(?ms)^%s\n.*?^%s\n' % (BEGIN, END),
                  lambda _: '\n'.join([BEGIN] + next(parts) + [END]) + '\n', text)


# ---- the cases by the reference -----------------------------------------

def value(word):
    total = 0
    for part in word.split('.'):
        total = 256 * total + int(part)
    return total


def numbers(text):
    return tuple(value(word) for word in re.split('[ -]+', text.strip()) if word)


def padded(answer):
    return tuple(answer) + (0,) * (16 - len(answer))


class Store:
    """A store in hand or aside: its words are the fill until a start is taken."""

    def __init__(self, length=0, fill=0):
        self.length, self.fill, self.account = length, fill, None

    def words(self):
        if self.account is None:
            return self.length, self.fill
        return self.length, self.account.c, tuple(self.account.table())


class Cases:
    def __init__(self):
        self.here, self.aside = Store(), Store()

    def call(self, name, given, packet):
        return getattr(self, name)(*((packet,) if name in ('packet', 'header') else given))

    def room(self, length, fill):
        self.here = Store(length, fill)
        return (length,)

    def swap(self):
        self.here, self.aside = self.aside, self.here
        return ()

    def same(self):
        return (int(self.here.words() == self.aside.words()),)

    def start(self, c, action):
        account = Account()
        answer = account.start(self.here.length, c, action)
        if not answer:
            self.here.account = account
        return (answer,)

    def insert(self, number, action, *ends):
        account = self.here.account
        return (account.insert(number, action, ends[::2], ends[1::2]) if account else BAD_STORE,)

    def delete(self, number):
        return (self.here.account.delete(number) if self.here.account else BAD_STORE,)

    def read(self, number):
        if not self.here.account:
            return (BAD_STORE,) + (0,) * 14
        got = self.here.account.read(number)
        return got[:3] + tuple(end for pair in zip(got[3:9], got[9:]) for end in pair)

    def cells(self):
        return self.here.account.cells() if self.here.account else (BAD_STORE, 0)

    def check(self):
        return (0 if self.here.account else BAD_STORE,)

    def lookup(self, *values):
        found = (self.here.account or self.any_account()).lookup(values)
        return found if self.here.account or found[0] else (BAD_STORE, 0, 0, 0)

    def any_account(self):
        account = Account()
        account.start(2 ** 20, LEAST_CELLS)
        return account

    def packet(self, packet):
        answer, values = read_header(packet)
        return (answer, 0, 0, 0) if answer else self.lookup(*values)

    def header(self, packet):
        answer, values = read_header(packet)
        return (answer,) + (values or (0,) * 6)


def by_reference(text):
    """How many cases the reference answers as the text says, and how many not."""
    cases, passed, failed, wrong = Cases(), 0, 0, False
    for place, line in enumerate(text.split('\n'), 1):
        if not line or line.startswith('#'):
            wrong = bool(WRONG.match(line)) or (wrong and line.startswith('#'))
            continue
        left, _, right = line.partition('=')
        name, _, given = left.partition(' ')
        hexa = re.match(r'x([0-9a-f]*)', given)
        packet = bytes.fromhex(hexa[1]) if hexa else b''
        try:
            words = numbers(given[hexa.end():] if hexa else given)
            got = cases.call(name, words, packet)
            agrees = padded(got) == padded(numbers(right)) and max(words, default=0) < 2 ** 32
        except (AttributeError, TypeError, ValueError) as why:
            got, agrees = why, False
        if agrees != wrong:
            passed += 1
        else:
            failed += 1
            print('FAILED line %d: %s; the reference says %s' % (place, line, got))
    return passed, failed


def main():
    parser = argparse.ArgumentParser(description='The cases of crates/cases/stdin by the reference.')
    parser.add_argument('--write', action='store_true')
    options = parser.parse_args()
    with open(PATH) as file:
        text = file.read()
    if options.write:
        with open(PATH, 'w') as file:
            file.write(written(text))
        return 0
    passed, failed = by_reference(text)
    if text.count(BEGIN) == len(PARTS) and written(text) == text:
        passed += 1
    else:
        failed += 1
        print('FAILED crates/cases/stdin: its repeated lines are not up to date, run tests/case_lines.py --write')
    print('%d passed, %d failed' % (passed, failed))
    return 1 if failed or not passed else 0


if __name__ == '__main__':
    sys.exit(main())
