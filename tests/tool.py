#!/usr/bin/env python3
"""The command reamstork, beside the reference.

    tests/tool.py [--install] [--seed N] [--tables N] [--part NAME] [--include DIR --archive FILE]
    tests/tool.py --yard        writes examples/yard.pcap

Compiles the command, with the address and undefined-behaviour sanitizers where the compiler
has them, and runs it: random tables as text, to stores, and back; bad lines and refused rules;
damaged stores; sheets and dead rules; captures of every layout and link type, whole, cut and
damaged, by our own hand and by text2pcap, editcap, tshark, tcpdump and scapy; files that no command
takes; what is installed; and the examples of the pages. What must come out is said by
reference.py and laid.py, in the words of spelled.py. Tools that are missing are installed with
--install; a part without its tool is skipped and counted. --part runs one part alone; --include
and --archive name another header and archive than those of the repository.
"""

import argparse
import os
import platform
import pty
import random
import re
import resource
import shutil
import signal
import struct
import subprocess
import sys
import tempfile
import threading
import time
import xml.etree.ElementTree as ElementTree
from pathlib import Path

from captures import SCAPY, Missing, install, python_with_scapy, run, tool
from frames import HEADERS, LAYOUTS, LINKS, behind, frames, pcap, pcapng, yard
from laid import account_in, laid
from packets import address
from reference import (BENCH_RULES, DEFAULT, LARGE, MOST_CELLS, TOPS, Account, Rule,
                       capture_records)
from spelled import (CHOICES, Speller, shown, shown_decisions, shown_lives, shown_sheet)
from tables import World, packet_of, random_packet, values_near

ROOT = Path(__file__).resolve().parent.parent
SANITIZED = ['-g', '-fsanitize=address,undefined', '-fno-sanitize-recover=all']
CAUGHT = 99  # the exit status of a program that a sanitizer stopped
PLAIN = 'target/tool/reamstork'

# costs in nanoseconds as they are written, and in picoseconds
COSTS = (('0', 0), ('3.25', 3250), ('1', 1000), ('1000000000', 10 ** 12), ('0.007', 7),
         ('12.500', 12500), ('0.1', 100))

RULE = '1 1 any any any any any'
ADDRESS = 'wanted any, an address, address/length or low-high'
PORT = 'wanted any, a port or low-high'
PROTOCOL = 'wanted any, tcp, udp, icmp, a number or low-high'
COLUMNS = r'wanted number action destination source protocol dport sport \[ports\]'
DEFAULT_LINE = ':1: wanted default and a number up to 4294967295'
NO_NUMBERS = ('x', '-1', '+1', '0x1', '1.', '01', '1_000', '1,000', '4294967296', '9' * 40)
NO_ADDRESSES = (
    '10', '10.0.0', '10.0.0.0.0', '10.0.0.256', '10.0.0.00', '010.0.0.0', '10.0.0.', '.10.0.0',
    '10..0.0', '10.0.0.0/', '/24', '10.0.0.0/x', '10.0.0.0/024', '10.0.0.0/-1', '10.0.0.0/24/24',
    '10.0.0.0-', '-10.0.0.0', '10.0.0.0-10.0.0', '10.0.0.0-any', '10.0.0.0-24', 'any/0', 'ANY', '*',
    '::1', '10.0.0.0-10.0.0.1-10.0.0.2', '10.0.0.0/8-10.0.0.1', '999999999999.0.0.0',
    'host.example', '1' * 5000)
# lines that cannot be read, and what is said of them behind the name of the file
BAD_LINES = [
    ('', ':1: no line .default ACTION. up to the end'),
    ('# only\n\n', ':2: no line .*'),
    (RULE + '\n', ':1: no line .*'),
    ('default', DEFAULT_LINE), ('default x', DEFAULT_LINE), ('default -1', DEFAULT_LINE),
    ('default 4294967296', DEFAULT_LINE), ('default 00', DEFAULT_LINE),
    ('default 1 2', DEFAULT_LINE),
    ('Default 1', ':1: too few columns: ' + COLUMNS),
    ('default 0\ndefault 0', ':2: a second default, beside that in line 1'),
    ('default 0\n1', ':2: too few columns: ' + COLUMNS),
    ('default 0\n1 1 any any any any', ':2: too few columns: ' + COLUMNS),
    ('default 0\n' + RULE + ' any any', ':2: too many columns: ' + COLUMNS),
    ('default 0\n' + RULE + ' any' * 999, ':2: too many columns: ' + COLUMNS),
    ('default 0\n' + RULE + ' all', ":2: ports 'all': wanted with, without or any"),
    ('default 0\n' + RULE + ' With', ":2: ports 'With': wanted with, without or any"),
]
# bytes that are no text, behind the first 12, by which a table is told from a store
BAD_BYTES = ((RULE + '\0', 0, 24), ('#  \0', 0, 4), ('1 1 grúa any any any any', 195, 7),
             (RULE + '\x1b[0m', 27, 24), ('#  \x07', 7, 4), (RULE + '\r#', 13, 24),
             ('  \x7f', 127, 3), ('  \x0c' + RULE, 12, 3))


def bad_lines():
    yield from BAD_LINES
    for number in NO_NUMBERS:
        yield ('default 0\n%s 1 any any any any any' % number,
               ":2: number '.*': wanted a number up to 65534")
        yield ('default 0\n1 %s any any any any any' % number,
               ":2: action '.*': wanted a number up to 4294967295")
        yield ('default 0\n1 1 any any %s any any' % number, ":2: protocol '.*': " + PROTOCOL)
        for text in (number, number + '-5', '5-' + number):
            yield 'default 0\n1 1 any any any %s any' % text, ":2: dport '.*': " + PORT
            yield 'default 0\n1 1 any any any any %s' % text, ":2: sport '.*': " + PORT
    for text in NO_ADDRESSES:
        yield 'default 0\n\n1 1 %s any any any any' % text, ":3: destination '.*': " + ADDRESS
        yield 'default 0\n\n1 1 any %s any any any' % text, ":3: source '.*': " + ADDRESS
    for text in ('TCP', 'tcp-udp', 'sctp', '6-', '-6', '6-udp', '6--7'):
        yield 'default 0\n1 1 any any %s any any' % text, ":2: protocol '.*': " + PROTOCOL
    for text, byte, column in BAD_BYTES:
        yield 'default 0\n' + text, ':2: byte %d at column %d is no plain text' % (byte, column)


def answers(include):
    """The texts of the answers, from the table in the header."""
    table = (ROOT / include / 'reamstork.h').read_text().split(' * ANSWERS\n')[1]
    return {int(n): text for n, text in re.findall(
        r'^#define REAMSTORK_[A-Z_]*  *(\d+)  */\* (.*) \*/$', table, re.M)}


def bytes_of(words):
    return struct.pack('<%dI' % len(words), *words)


def words_of(data):
    return struct.unpack('<%dI' % (len(data) // 4), data[:len(data) // 4 * 4])


def some_account(rng, most, bound=3000):
    """A random table in a large store of just as many cells as it takes."""
    world = World(rng)
    account = Account(LARGE, MOST_CELLS, world.action())
    for number in rng.sample(range(65535), rng.randint(0, most)):
        rule = world.rule(rng.choice((number, number % 100)))
        if rule.number not in account.rules and account.cells_with(rule, bound) <= bound:
            account.rules[rule.number] = rule
    account.c = account.cells()[1]
    return account


def store_of(account, c=None):
    """The bytes of a store file."""
    rules = [account.default, *account.table()[:-1]]
    return bytes_of(laid(c or account.c, rules, account.kind))


def said_of(name, account, c=None):
    """What load and check say of a store."""
    return '%s: %s store, %d rules, %d cells in use of %d\n' % (
        name, account.kind.name, len(account.rules), account.cells()[1], c or account.c)


def hear(terminal, said):
    """All that is said on a terminal."""
    try:
        while True:
            said.append(os.read(terminal, 65536))
    except OSError:  # the other side is closed and all is read
        pass


def small_files():
    """For a program that is to run out of room: no file above 4,096 bytes."""
    signal.signal(signal.SIGXFSZ, signal.SIG_IGN)
    resource.setrlimit(resource.RLIMIT_FSIZE, (4096, 4096))


def whole(packets):
    """Records of raw IP."""
    return [(1, 2, len(packet), packet) for packet in packets]


class Test:
    def __init__(self, options, folder):
        self.options, self.folder = options, Path(folder)
        self.rng = random.Random(options.seed)
        self.passed = self.failed = self.skipped = self.runs = 0
        self.answers = answers(options.include or 'include')
        self.command = None
        # memory that a command holds when it stops is given back by its end
        self.environment = dict(os.environ, LC_ALL='C',
                                ASAN_OPTIONS='detect_leaks=0:exitcode=%d' % CAUGHT,
                                UBSAN_OPTIONS='print_stacktrace=1:exitcode=%d' % CAUGHT)

    def verdict(self, truth, what, *more):
        self.passed += bool(truth)
        self.failed += not truth
        if not truth:
            print('FAILED %s (--seed %d)' % (what, self.options.seed))
            for text in more:
                print('    %s' % repr(text)[:600])

    def same(self, got, want, what):
        self.verdict(got == want, what, got, want)

    def put(self, name, data):
        (self.folder / name).write_bytes(data)

    def held(self, name):
        return (self.folder / name).read_bytes()

    def nothing(self, *names):
        for name in names:
            self.verdict(not (self.folder / name).exists(), 'nothing is written: ' + name)

    def run(self, *words, **more):
        """(status, standard output, standard error); a status that is none of ours fails."""
        self.runs += 1
        p = subprocess.run([self.command, *map(str, words)], capture_output=True, timeout=120,
                           env=self.environment, cwd=self.folder, **more)
        out, err = (text.decode(errors='replace') for text in (p.stdout, p.stderr))
        if p.returncode not in (0, 1, 2):
            self.verdict(False, 'the status of %s' % ' '.join(map(str, words)), p.returncode, err)
        return p.returncode, out, err

    def done(self, want, what, *words):
        self.same(self.run(*words), (0, want, ''), what)

    def refused(self, answer, before, what, *words):
        """Ends with 1; standard error is what stands before, the number and the text."""
        want = '%s%d, %s\n' % (before, answer, self.answers[answer])
        self.same(self.run(*words), (1, '', want), what)

    def bad(self, want, what, *words, out=''):
        """Ends with 2 and a line that fits the pattern on standard error."""
        got = self.run(*words)
        self.verdict(got[:2] == (2, out) and re.fullmatch(want + '\n', got[2]), what, got, want)

    # -- compiling --

    def compile(self):
        options, arm = self.options, platform.machine() == 'aarch64'
        archive = options.archive or 'target/%s/libreamstork.a' % (
            'aarch64' if arm else 'staticlib')
        if arm and not options.archive and not (ROOT / archive).exists():
            run(['scripts/archive-for', 'aarch64', archive], cwd=ROOT)
        more = ['-I' + options.include] if options.include else []
        program = 'target/tests/tool'
        if not options.archive:
            self.build(archive, PLAIN, more)
        try:
            self.build(archive, program, more + SANITIZED)
        except subprocess.CalledProcessError:
            print('no sanitizers: the command is tried without')
            self.build(archive, program, more)
        self.command = str(ROOT / program)
        got = self.run('--help')
        self.verdict(got[0] == 0, 'the command runs', got)

    def build(self, archive, program, flags):
        run(['scripts/tool', archive, program, *flags], cwd=ROOT)

    # -- tables --

    def load(self, account, c=None):
        """Loads a text of the account's table, by rules in any order: t.table, t.store."""
        rules = account.table()[:-1]
        self.rng.shuffle(rules)
        self.put('t.table', Speller(self.rng).table(account.default.action, rules)[0])
        more = ['--cells', c] if c else []
        self.done(said_of('t.store', account, c), 'load', 'load', 't.table', 't.store', *more)
        self.verdict(self.held('t.store') == store_of(account, c), 'the words of a load',
                     self.held('t.table'))

    def texts(self):
        """Text, store, text, over random tables: the same words each time."""
        rng = self.rng
        for _ in range(self.options.tables):
            account = some_account(rng, rng.choice((0, 1, 3, 8, 14)))
            c = account.c + rng.choice((0, 1, 500)) if rng.random() < 0.5 else None
            self.load(account, c)
            account.c = c or account.c
            self.done(shown(account), 'show', 'show', 't.store')
            self.done(said_of('t.store', account), 'check', 'check', 't.store')
            self.put('again.table', shown(account).encode())
            self.run('load', 'again.table', 'again.store', '--cells', account.c)
            self.verdict(self.held('again.store') == self.held('t.store'),
                         'the words of a table that was shown')

    def refusals(self):
        """Rules that the library refuses, each with its number, its text and its line."""
        rng = self.rng
        for _ in range(self.options.tables):
            world, rules = World(rng), some_account(rng, 6, 600).table()[:-1]
            rules += [world.bad_rule([rule.number for rule in rules])
                      for _ in range(rng.randint(0, 2))]
            rules = [rule for rule in rules if (rule.low[5], rule.high[5]) in CHOICES]
            rng.shuffle(rules)
            text, places = Speller(rng).table(0, rules)
            self.put('bad.table', text)
            account = Account(LARGE, rng.choice((MOST_CELLS, rng.randint(6, 300))))
            words = ['load', 'bad.table', 'never.store', '--cells', account.c]
            for rule, place in zip(rules, places):
                answer = account.insert(*rule)
                if answer:
                    self.refused(answer, 'bad.table:%d: rule %d refused: ' % (place, rule.number),
                                 'a rule that is refused', *words)
                    self.nothing('never.store')
                    break
            else:
                self.done(said_of('never.store', account), 'rules that are taken', *words)
                (self.folder / 'never.store').unlink()
        for word in ('10.0.0.1/24', '10.0.0.0/33', '0.0.0.0/4294967295'):
            for column, both in (('destination', (word, 'any')), ('source', ('any', word))):
                self.put('bad.table', b'default 0\n1 1 %s %s any any any\n' % tuple(
                    part.encode() for part in both))
                self.refused(10, "bad.table:2: %s '%s' refused: " % (column, word), 'a prefix',
                             'load', 'bad.table', 'never.store')
        self.put('bad.table', b'default 0\n')
        for c in (0, 5, 65537, 4294967295):
            self.refused(8, 'bad.table: a store of %d cells refused: ' % c, 'c',
                         'load', 'bad.table', 'never.store', '--cells', c)
        self.nothing('never.store')

    def full(self):
        """A full table, and one with a rule more."""
        account = Account(LARGE, MOST_CELLS)
        for i in range(513):
            low = (address('10.0.0.1') + 2 * i,) + (0,) * 5
            account.rules[i] = Rule(i, 1, low, low[:1] + TOPS[1:])
        text, places = Speller(self.rng).table(0, account.table()[:-1])
        self.put('full.table', text)
        self.refused(5, 'full.table:%d: rule 512 refused: ' % places[512], 'a rule too many',
                     'load', 'full.table', 'never.store')
        del account.rules[512]
        account.c = account.cells()[1]
        self.load(account)
        self.done(shown(account), 'show of a full table', 'show', 't.store')

    def lines(self):
        """Lines that cannot be read: file, line and what, status 2, nothing written."""
        for text, want in bad_lines():
            self.put('bad.table', text.encode())
            words = self.rng.choice((['load', 'bad.table', 'never.store'], ['sheet', 'bad.table']))
            self.bad(r'bad\.table' + want, 'a bad line: %r' % text[:60], *words)
        self.put('bad.table', b'default 0\n1 1 any \xff any any any\n')
        self.bad(r'bad\.table:2: byte 255 at column 9 is no plain text', 'a byte',
                 'dead', 'bad.table')
        self.nothing('never.store')
        # a bad line is found before a refused rule, and an earlier store stays
        self.put('old.store', b'old')
        self.put('bad.table', b'default 0\n1 1 any any any 70000 any\n2\n')
        self.bad(r'bad\.table:3: too few columns: ' + COLUMNS, 'a bad line first',
                 'load', 'bad.table', 'old.store')
        self.put('bad.table', b'default 0\n1 1 any any any 70000 any\n')
        self.refused(2, 'bad.table:2: rule 1 refused: ', 'a port above its top',
                     'load', 'bad.table', 'old.store')
        self.same(self.held('old.store'), b'old', 'an earlier store stays')

    def scrambled(self):
        """Tables with wrong bytes: whatever comes out, the command ends as it should, and what is
        loaded is shown as what it is."""
        rng = self.rng
        for _ in range(self.options.tables):
            account = some_account(rng, 5, 600)
            data = bytearray(Speller(rng).table(account.default.action, account.table()[:-1])[0])
            for _ in range(rng.choice((1, 1, 2, 5))):
                place = rng.randrange(len(data))
                data[place:place + rng.choice((0, 1, 1, 9))] = rng.choice(
                    (b'', b'\n', b' ', b'-', b'/', b'9', b'any', b'#', rng.randbytes(1)))
            self.put('bad.table', bytes(data))
            status, out, err = self.run('load', 'bad.table', 's.store')
            if status:
                self.verdict(out == '' and re.fullmatch(r'bad\.table:\d+: [ -~]*\n', err),
                             'a scrambled table', bytes(data), err)
                continue
            account = account_in(words_of(self.held('s.store')))
            self.verdict(account and err == '' and out == said_of('s.store', account),
                         'a scrambled table that is taken', bytes(data), out, err)
            self.done(shown(account), 'show of a scrambled table', 'show', 's.store')

    # -- files --

    def prepare(self):
        """i.table, i.store and i.pcap, which are sound."""
        self.put('i.table', b'default 0\n10 2 10.0.0.0/24 any udp 5000-5009 any\n')
        self.put('i.pcap', pcap([], 101))
        self.run('load', 'i.table', 'i.store')

    def files(self):
        """Files that no command takes."""
        self.prepare()
        (self.folder / 'folder').mkdir()
        self.put('hole', b'')
        os.truncate(self.folder / 'hole', 10 ** 12)
        self.put('closed', b'')
        os.chmod(self.folder / 'closed', 0)
        for words in (['load', 'FILE', 'never.store'], ['show', 'FILE'], ['check', 'FILE'],
                      ['sheet', 'FILE'], ['dead', 'FILE'], ['decide', 'FILE', 'i.pcap'],
                      ['decide', 'i.store', 'FILE']):
            def tried(name, want):
                self.bad(want, 'the file %s: %s' % (name, words[0]),
                         *(name if word == 'FILE' else word for word in words))

            tried('missing', 'missing: No such file or directory')
            tried('i.store/x', 'i.store/x: Not a directory')
            tried('folder', 'folder: a folder, not a .*')
            if words[-1] != 'FILE' or words[0] != 'decide':
                tried('hole', r'hole: 1000000000000 bytes, and a .* has at most \d+')
                tried('/dev/zero', '/dev/zero: too long for a .*')
            if os.getuid():
                tried('closed', 'closed: Permission denied')
        self.put('long.table', b'default 0\n' + b'#' * 4194304)
        self.bad('long.table: 4194314 bytes, and a table has at most 4194304', 'a long table',
                 'load', 'long.table', 'never.store')
        self.put('long.table', b'default 0\n' + b'#' * (4194304 - 10))
        self.same(self.run('load', 'long.table', 't.store')[0], 0, 'the longest table')
        self.put('long.store', bytes_of([6, 0, 4]) + bytes(2129920 - 11))
        for command in ('check', 'sheet'):
            self.bad('long.store: 2129921 bytes, and a store has at most 2129920', 'a long store',
                     command, 'long.store')
        self.nothing('never.store')

    def writes(self):
        """Where a file cannot be written, and where it is written."""
        self.prepare()
        self.bad('missing/x.store: No such file or directory', 'no folder to write to',
                 'load', 'i.table', 'missing/x.store')
        self.bad('/: Is a directory', 'a folder to write to', 'load', 'i.table', '/')
        if os.path.exists('/dev/full'):
            self.bad('/dev/full: not written: No space left on device', 'a full device',
                     'load', 'i.table', '/dev/full')
            with open('/dev/full', 'wb') as full:
                p = subprocess.run([self.command, 'show', 'i.store'], stdout=full,
                                   stderr=subprocess.PIPE, env=self.environment, cwd=self.folder)
            self.same((p.returncode, p.stderr), (
                2, b'reamstork: standard output: No space left on device\n'), 'a full device')
        # a file that has no room: the earlier one stays, and nothing half written
        self.put('old.store', b'old')
        got = self.run('load', 'i.table', 'old.store', preexec_fn=small_files)
        self.same(got, (2, '', 'old.store: not written: File too large\n'), 'no room')
        self.same(self.held('old.store'), b'old', 'an earlier store stays')
        # a file that is read is not written over
        (self.folder / 'same').symlink_to('i.table')
        for words in (['load', 'i.table', 'i.table'], ['load', 'i.table', 'same'],
                      ['decide', 'i.table', 'i.pcap', '--plot', 'same'],
                      ['decide', 'i.table', 'i.pcap', '--plot', 'i.pcap']):
            before = self.held(words[-1])
            self.bad('%s: the file that is read, and not written over' % words[-1],
                     'a file that is read: %s' % words, *words)
            self.same(self.held(words[-1]), before, 'a file that is read')
        # a table through a pipe, and a store behind a link
        got = self.run('load', '/dev/stdin', 'pipe.store', input=self.held('i.table'))
        self.same((got[0], self.held('pipe.store')), (0, self.held('i.store')), 'a pipe')
        (self.folder / 'link').symlink_to('pipe.store')
        self.put('o.table', b'default 7\n')
        self.same(self.run('load', 'o.table', 'link')[0], 0, 'a store behind a link')
        self.verdict((self.folder / 'link').is_symlink() and self.held('pipe.store')
                     == bytes_of(laid(6, [Rule(DEFAULT, 7, (0,) * 6, TOPS)])), 'the link stays')
        self.no_halves()

    def halves(self):
        return [path.name for path in self.folder.iterdir() if path.name.endswith('.new')]

    def no_halves(self):
        self.same(self.halves(), [], 'nothing half written is left')

    def uses(self):
        """Bad use."""
        self.prepare()
        for words in ([], ['nothing'], ['-h'], ['load'], ['load', 'i.table'],
                      ['load', 'i.table', 'x', 'y'], ['load', 'i.table', 'x', '--cells'],
                      ['load', 'i.table', 'x', '--cell', '9'],
                      ['load', 'i.table', 'x', '--cells', '9', '--cells', '9'],
                      ['load', 'i.table', 'x', '--plot', '9'], ['show', '--cells', '9', 'i.store'],
                      ['check'], ['sheet', 'i.store', 'i.store'], ['decide', 'i.store']):
            got = self.run(*words)
            self.verdict(got[:2] == (2, '') and got[2].startswith('usage: reamstork '),
                         'bad use: %s' % words, got)
        for c in ('', 'x', '-6', '6.0', '06', '4294967296'):
            self.bad('reamstork: --cells .*: wanted a number of cells, 6 to 65536', 'cells',
                     'load', 'i.table', 'x', '--cells', c)
        self.bad('reamstork: --read and --fixed go together', 'one cost',
                 'sheet', 'i.store', '--read', '1')
        for cost in ('', 'x', '-1', '1e3', '.5', '1.', '1.2345', 'inf', 'nan', '0x1', '1000000001',
                     '1.2.3', '1.x', '1 '):
            self.bad('reamstork: --fixed .*: wanted nanoseconds, as 12 or 3.25, up to 1000000000',
                     'a cost', 'sheet', 'i.store', '--read', '1', '--fixed', cost)
        self.put('--x', self.held('i.store'))
        self.same(self.run('check', '--', '--x')[0], 0, 'a name that begins with a dash')
        self.nothing('x')

    # -- stores --

    def kept(self):
        """Stores of an earlier version, and images."""
        for path in sorted((ROOT / 'tests/stored').glob('*.store')):
            account = account_in(words_of(path.read_bytes()))
            self.put('kept.store', path.read_bytes())
            self.done(shown(account), 'show of ' + path.name, 'show', 'kept.store')
            self.done(said_of('kept.store', account), 'check of ' + path.name,
                      'check', 'kept.store')
            self.sheet(account, 'kept.store')
            self.put('kept.table', shown(account).encode())
            self.run('load', 'kept.table', 'large.store', '--cells', account.c)
            large = Account(LARGE, account.c, account.default.action)
            large.rules = account.rules
            self.verdict(self.held('large.store') == store_of(large), 'small to large')
            self.put('image', path.with_suffix('.image').read_bytes())
            for command in ('check', 'sheet'):
                self.refused(9, 'image: an image and no store: ', 'an image', command, 'image')

    def damage(self):
        """Damaged stores are said to be such, and nothing else is."""
        rng = self.rng
        account = some_account(rng, 5, 300)
        sound = [store_of(account), store_of(account, account.c + 20)]
        sound += [path.read_bytes() for path in sorted((ROOT / 'tests/stored').glob('*.store'))[:4]]
        for _ in range(150):
            data = bytearray(rng.choice(sound))
            for _ in range(rng.choice((0, 1, 1, 1, 2, 9))):
                place = rng.randrange(rng.choice((12, len(data), len(data))))
                data[place] = rng.choice((0, 1, 255, data[place] ^ 1 << rng.randrange(8)))
            if rng.random() < 0.3:
                del data[rng.randrange(len(data)):]
            elif rng.random() < 0.2:
                data += rng.randbytes(rng.choice((1, 2, 3, 4, 8, 4000)))
            self.hurt(bytes(data))
        for data in (b'\0', b'\xff' * 4000, bytes(100000), bytes_of([65536, 0, 4]),
                     bytes_of([4294967295, 4294967295, 4]), bytes_of([6, 512, 0]) + bytes(5000)):
            self.put('hurt', data)
            for command in ('check', 'show', 'sheet', 'dead'):
                self.refused(9, 'hurt: damaged store: ', 'a damaged store', command, 'hurt')
        for count in range(1, 9):
            self.put('hurt', sound[0] + bytes(count))
            if count % 4:
                total = len(sound[0]) + count
                self.bad('hurt: damaged store: %d bytes are no whole words' % total,
                         'no whole words', 'check', 'hurt')
            else:
                self.done(said_of('hurt', account), 'words behind a store', 'check', 'hurt')
        for data in (b'', b'text', b'default 0\n'):
            self.put('hurt', data)
            for command in ('check', 'show'):
                self.refused(9, 'hurt: damaged store: ', 'no store', command, 'hurt')

    def hurt(self, data):
        """One command over bytes that may be a store."""
        self.put('hurt', data)
        self.put('i.pcap', pcap([], 101))
        command = self.rng.choice(('check', 'show', 'sheet', 'dead', 'decide'))
        got = self.run(command, 'hurt', *(['i.pcap'] if command == 'decide' else []))
        account = account_in(words_of(data))
        # with no byte among the first 12 that no text has, a file is a table
        if command not in ('check', 'show') and all(
                byte in b'\t\n\r' or 32 <= byte < 127 or 127 < byte < 0xF5 for byte in data[:12]):
            self.same(got[:2], (2, ''), 'bytes of text: ' + command)
        elif account is None:
            self.same(got, (1, '', 'hurt: damaged store: 9, %s\n' % self.answers[9]),
                      'a damaged store: ' + command)
        elif len(data) % 4:
            want = 'hurt: damaged store: %d bytes are no whole words\n' % len(data)
            self.same(got, (2, '', want), 'no whole words: ' + command)
        else:
            self.verdict(got[0] == 0 and got[2] == '', 'another store: ' + command, got)

    # -- sheets --

    def sheet(self, account, name):
        costs = self.rng.sample(COSTS, 2)
        if self.rng.random() < 0.5:
            self.done(shown_sheet(account), 'sheet', 'sheet', name)
        else:
            self.done(shown_sheet(account, costs[0][1], costs[1][1]), 'sheet with times',
                      'sheet', name, '--read', costs[0][0], '--fixed', costs[1][0])
        self.done(shown_lives(account), 'dead', 'dead', name)

    def sheets(self):
        for _ in range(self.options.tables // 2):
            account = some_account(self.rng, 10, 1500)
            self.load(account)
            self.sheet(account, 't.table')
            self.sheet(account, 't.store')

    # -- captures --

    def table(self, most=8):
        """A random table: c.table."""
        account = some_account(self.rng, most, 1000)
        self.put('c.table', Speller(self.rng).table(account.default.action,
                                                    account.table()[:-1])[0])
        return account

    def some(self, account, count):
        return [random_packet(self.rng, account.table()) for _ in range(count)]

    def decide(self, account, data, packets, what, ending=0):
        """A capture whose records hold these packets, None where there is no IPv4."""
        self.put('c.pcap', data)
        status, out, err = self.run('decide', 'c.table', 'c.pcap')
        want = shown_decisions(account, [packet or b'' for packet in packets],
                               sum(packet is None for packet in packets), ending)
        self.same((status, out), (2 * ending, want), what)
        self.verdict((err == '') == (ending == 0), what + ': standard error', err)

    def keep(self, account, records, link, what):
        """The records of c.pcap whose lookup gave an action."""
        found = []
        for seconds, millionths, original, data in records:
            packet = behind(data, link)
            answer, _, action, _ = account.lookup_packet(packet or b'')
            if not answer:
                found.append((action, (seconds, millionths,
                                       original - len(data) + len(packet), packet)))
        wanted = self.rng.choice([action for action, _ in found] + [12345])
        kept = [record for action, record in found if action == wanted]
        self.done('k.pcap: %d of %d records kept\n' % (len(kept), len(records)), 'keep, ' + what,
                  'keep', 'c.table', wanted, 'c.pcap', 'k.pcap')
        self.verdict(self.held('k.pcap') == pcap(kept, 101, snap=16384), 'what is kept, ' + what)

    def layouts(self):
        """Every layout with every link type; other link types are named and refused."""
        for link in LINKS:
            for layout, order, nano in LAYOUTS:
                account = self.table()
                records = frames(self.rng, self.some(account, 60), link)
                what = '%s, order %s, %s, link type %d' % (
                    layout.__name__, order, 'billionths' if nano else 'millionths', link)
                self.decide(account, layout(records, link, order, nano),
                            [behind(record[3], link) for record in records], what)
                self.keep(account, records, link, what)
        for link, name in ((0, 'NULL'), (105, 'IEEE802_11'), (9, 'PPP'), (12345, 'without a name')):
            for layout, order, nano in LAYOUTS[::2]:
                self.put('c.pcap', layout([(1, 2, 3, b'abc')], link, order, nano))
                self.bad(r'c.pcap: link type %s \(\d+\) is not taken: '
                         'wanted raw IP, Ethernet or Linux cooked' % name,
                         'link type %d' % link, 'decide', 'c.table', 'c.pcap')

    def keeping(self):
        """Packets too long for a record, what keep refuses, and a capture that is cut."""
        self.put('c.table', b'default 3\n')
        long = packet_of((1, 2, 17, 3, 4), behind=bytes(30000))
        self.put('c.pcap', pcap(whole([long]), 101))
        self.done('k.pcap: 1 of 1 records kept, 1 of them cut to 16384 bytes\n', 'a long packet',
                  'keep', 'c.table', 3, 'c.pcap', 'k.pcap')
        self.same(self.held('k.pcap'), pcap([(1, 2, len(long), long[:16384])], 101, snap=16384),
                  'a long packet, kept')
        for action in ('', 'x', '-1', '4294967296', '01'):
            self.bad('reamstork: action .*: wanted a number up to 4294967295', 'an action',
                     'keep', 'c.table', '--', action, 'c.pcap', 'never.pcap')
        for out in ('c.table', 'c.pcap'):
            self.bad(out + ': the file that is read, and not written over', 'a file that is read',
                     'keep', 'c.table', 3, 'c.pcap', out)
        self.bad('missing: No such file or directory', 'no capture',
                 'keep', 'c.table', 3, 'missing', 'never.pcap')
        packet = packet_of((1, 2, 17, 3, 4))
        self.put('c.pcap', pcapng([(2 ** 33, 2, 24, packet)], 101))
        self.bad('c.pcap: the time of record 1 has no place in a capture', 'a late time',
                 'keep', 'c.table', 3, 'c.pcap', 'never.pcap')
        self.nothing('never.pcap')
        self.no_halves()
        self.interrupted()
        self.put('c.pcap', pcap(whole([packet] * 3), 101)[:-1])
        self.bad('c.pcap: behind record 2: .*', 'a capture that is cut', 'keep', 'c.table', 3,
                 'c.pcap', 'k.pcap', out='k.pcap: 2 of 2 records kept\n')
        self.same(self.held('k.pcap'), pcap(whole([packet] * 2), 101, snap=16384), 'what was whole')

    def interrupted(self):
        """A signal in the middle leaves nothing half written."""
        p = subprocess.Popen([self.command, 'keep', 'c.table', '3', '/dev/stdin', 'never.pcap'],
                             stdin=subprocess.PIPE, env=self.environment, cwd=self.folder)
        with p.stdin:
            p.stdin.write(pcap([], 101))
            p.stdin.flush()
            until = time.monotonic() + 30
            while not self.halves() and time.monotonic() < until:
                time.sleep(0.01)
            self.verdict(self.halves(), 'a file that is being written')
            time.sleep(0.1)
            p.send_signal(signal.SIGINT)
            self.same(p.wait(timeout=30), 128 + signal.SIGINT, 'a signal')
        self.no_halves()
        self.nothing('never.pcap')

    def cuts(self):
        """A capture cut at each length, and those that the bench program is tried with."""
        account = self.table(3)
        packets = [packet_of(values_near(self.rng, account.table())) for _ in range(3)]
        data = pcap(whole(packets), 101, self.rng.choice('<>'), snap=16384)
        for size in range(len(data)):
            if size < 24:
                self.put('c.pcap', data[:size])
                self.bad('c.pcap: no capture: .*', 'a header cut at %d' % size,
                         'decide', 'c.table', 'c.pcap')
            else:
                read, ending = capture_records(data[:size])
                self.decide(account, data[:size], read, 'a capture cut at %d' % size, ending)
        for path in sorted((ROOT / 'tests/captures').glob('*.pcap')):
            data = path.read_bytes()
            read, ending = capture_records(data) or (None, 2)
            # others, as with nanoseconds or long records, may be taken here
            if ending < 2:
                self.decide(account, data, read, path.name, ending)

    def damaged(self):
        """Captures with wrong bytes: whatever comes out, the command ends as it should."""
        rng, account = self.rng, self.table(3)
        for _ in range(200):
            link = rng.choice(LINKS)
            layout, order, nano = rng.choice(LAYOUTS)
            data = bytearray(layout(frames(rng, self.some(account, 4), link), link, order, nano))
            for _ in range(rng.choice((1, 2, 8))):
                place = rng.randrange(rng.choice((len(data), min(len(data), 80))))
                data[place] = rng.choice((0, 255, 127, 128, data[place] ^ 1 << rng.randrange(8)))
            if rng.random() < 0.3:
                del data[rng.randrange(len(data)):]
            self.put('c.pcap', bytes(data))
            status, out, err = self.run('decide', 'c.table', 'c.pcap')
            self.verdict((status, err == '') in ((0, True), (2, False))
                         and ('\nend ' in out or not out), 'a damaged capture', status, out, err)
            if rng.random() < 0.3:
                got = self.run('keep', 'c.table', account.default.action, 'c.pcap', 'k.pcap')
                self.verdict(got[0] in (0, 2), 'a damaged capture, kept', got)

    def foreign(self):
        """Captures by text2pcap, editcap, tshark and tcpdump, of each layout that they write."""
        text2pcap, editcap, tcpdump = tool('text2pcap'), tool('editcap'), tool('tcpdump')
        tshark = tool('tshark')
        account = self.table()
        first, second = str(self.folder / 'first.pcap'), str(self.folder / 'second.pcap')
        for layout in ('pcap', 'nsecpcap', 'pcapng'):
            packets = [packet for packet in self.some(account, 200) if packet]
            dump = '\n'.join('000000 ' + packet.hex(' ') for packet in packets) + '\n'
            run([text2pcap, '-q', '-F', layout, '-l', '101', '-', second], input=dump.encode())
            self.decide(account, self.held('second.pcap'), packets, 'text2pcap, ' + layout)
            for link in HEADERS:
                records = frames(self.rng, packets, link)
                lent = [behind(record[3], link) for record in records]
                self.put('first.pcap', pcap(records, link))
                run([editcap, '-F', layout, first, second])
                self.decide(account, self.held('second.pcap'), lent,
                            'editcap, %s, link type %d' % (layout, link))
                run([tshark, '-r', first, '-F', layout, '-w', second])
                self.decide(account, self.held('second.pcap'), lent,
                            'tshark, %s, link type %d' % (layout, link))
                run([tcpdump, '-r', first, '-w', second])
                self.decide(account, self.held('second.pcap'), lent, 'tcpdump, link type %d' % link)

    def scapy(self):
        """Captures by scapy: in both orders, cut, with tags, and cooked."""
        python, account = python_with_scapy(), self.table()
        path = str(self.folder / 'scapy.pcap')
        for order, snap in (('<', 65535), ('>', 65535), ('<', 24)):
            out = run([python, '-c', SCAPY, path, order, str(self.rng.getrandbits(32)), '300',
                       str(snap)])
            packets = [bytes.fromhex(line.split()[0]) for line in out.decode().splitlines()]
            self.decide(account, self.held('scapy.pcap'), packets,
                        'scapy, order %s, snapshot length %d' % (order, snap))
        for link in (1, 113):
            out = run([python, '-c', SCAPY_LINKS, path, str(link)])
            packets = [bytes.fromhex(line) for line in out.decode().splitlines()]
            self.decide(account, self.held('scapy.pcap'), packets, 'scapy, link type %d' % link)

    def plots(self):
        """The drawing has a bar for each count of reads, and the worst of the table."""
        for _ in range(12):
            account = self.table(12)
            packets = self.some(account, 80)
            self.put('c.pcap', pcap(whole(packets), 101))
            want = shown_decisions(account, packets, 0)
            self.done(want, 'decide with a plot', 'decide', 'c.table', 'c.pcap', '--plot', 'p.svg')
            count = {}
            for answer, _, _, reads in map(account.lookup_packet, packets):
                if not answer:
                    count[reads] = count.get(reads, 0) + 1
            drawn = ElementTree.parse(self.folder / 'p.svg').getroot()
            texts = [part.text for part in drawn.iter() if part.text]
            bars = [re.fullmatch(r'(\d+) reads: (\d+) packets', text) for text in texts]
            self.same({int(bar[1]): int(bar[2]) for bar in bars if bar}, count, 'the bars')
            for text in ('worst of the table: %d reads' % account.worst()[1], 'reads', 'packets'):
                self.verdict(text in texts, 'the plot says: ' + text, texts)
        self.bad('missing/p.svg: No such file or directory', 'no folder for a plot',
                 'decide', 'c.table', 'c.pcap', '--plot', 'missing/p.svg', out=want)

    def many(self):
        """More than 2^32 bytes, through a pipe, and how far it is, on a terminal."""
        self.put('c.table', b'default 1\n')
        packet = packet_of((1, 2, 17, 3, 4), behind=bytes(65535 - 24))
        empty, count, each = pcap([], 101), 66000, 50
        part = pcap(whole([packet] * each), 101)[len(empty):]
        command = self.command if self.options.archive else str(ROOT / PLAIN)
        ours, theirs = pty.openpty()
        said = []
        hearing = threading.Thread(target=hear, args=(ours, said))
        hearing.start()
        with open(self.folder / 'many.txt', 'wb') as out:
            p = subprocess.Popen([command, 'decide', 'c.table', '/dev/stdin'], cwd=self.folder,
                                 stdin=subprocess.PIPE, stdout=out, stderr=theirs,
                                 env=self.environment)
            os.close(theirs)
            with p.stdin:
                p.stdin.write(empty)
                for i in range(count // each):
                    p.stdin.write(part)
                    if i == 100:
                        time.sleep(1)
            status = p.wait(timeout=120)
        hearing.join()
        os.close(ours)
        said = b''.join(said)
        self.same((status, self.held('many.txt').decode().splitlines()[-5:]), (0, [
            'end %d 0' % count, 'rule packets bytes', '65535 %d %d' % (count, count * 65535),
            'refused 0, of these without IPv4 0',
            'greatest reads 6 by packet 1, worst of the table 6']), 'more than 2^32 bytes')
        self.verdict(re.search(rb'/dev/stdin: \d+ packets', said) and said.endswith(b'\r\x1b[K'),
                     'how far it is', said)

    # -- the rest --

    def installed(self):
        """The manual has every command and the version; what is installed goes again."""
        manual = (ROOT / 'tool/reamstork.1').read_text()
        plain = re.sub(r'\\f[A-Z]|\\(?=-)', '', manual)
        for line in self.run('--help')[1].splitlines()[:-1]:
            line = line.removeprefix('usage:').strip()
            self.verdict(line in plain, 'the manual has: ' + line)
        version = re.search('#define REAMSTORK_VERSION  *"(.*)"',
                            (ROOT / 'include/reamstork.h').read_text())[1]
        self.verdict('"Reamstork %s"' % version in manual, "the manual's version")
        # where libpcap is missing the package is named
        (self.folder / 'bin').mkdir()
        self.put('bin/cc', b'#!/bin/sh\nexit 1\n')
        os.chmod(self.folder / 'bin/cc', 0o755)
        path = '%s:%s' % (self.folder / 'bin', os.environ['PATH'])
        p = subprocess.run(['scripts/tool', 'none.a', 'none'], cwd=ROOT, capture_output=True,
                           env=dict(os.environ, PATH=path))
        self.verdict(p.returncode == 2 and b'libpcap-dev' in p.stderr, 'no libpcap', p.stderr)
        if self.options.archive:
            return
        self.done('reamstork %s\n' % version, 'the version', '--version')
        place = self.folder / 'a place'
        environment = {name: value for name, value in os.environ.items() if name not in (
            'MAKEFLAGS', 'MFLAGS', 'MAKELEVEL', 'PREFIX', 'DESTDIR', 'BINDIR', 'MANDIR', 'DOCDIR')}
        for target, there in (('install', True), ('uninstall', False)):
            run(['make', '-s', target, 'DESTDIR=%s' % place, 'PREFIX=/opt/reamstork',
                 'MACHINE=' + platform.machine()], cwd=ROOT, env=environment)
            for name in ('bin/reamstork', 'share/man/man1/reamstork.1',
                         'share/doc/reamstork/yard.table', 'share/doc/reamstork/yard.pcap'):
                self.same((place / 'opt/reamstork' / name).is_file(), there,
                          '%s after %s' % (name, target))
        self.same([path for path in place.rglob('*') if path.is_file()], [], 'nothing is left')

    def pages(self):
        """The examples of the pages print what stands there."""
        self.verdict((ROOT / 'examples/yard.pcap').read_bytes() == yard(), 'examples/yard.pcap')
        table = (ROOT / 'examples/yard.table').read_text()
        self.verdict('```\n%s```' % table in (ROOT / 'README.md').read_text(), "README's table")
        # the guide's table has the rules of the bench program
        guide = (ROOT / 'docs/GUIDE.md').read_text()
        table = re.search('^```\n(default .*?)^```', guide, re.M | re.S)
        account = Account(LARGE, 54)
        account.rules = {rule.number: rule for rule in BENCH_RULES}
        self.put('guide.table', table[1].encode())
        self.done(said_of('guide.store', account), "the guide's table",
                  'load', 'guide.table', 'guide.store')
        self.verdict(self.held('guide.store') == store_of(account), "the guide's table")
        for page in ('README.md', 'docs/GUIDE.md'):
            blocks = re.findall(r'^```\n(\$ (?:target/tool/)?reamstork .*?)^```',
                                (ROOT / page).read_text(), re.M | re.S)
            self.verdict(blocks, page + ' has examples')
            folder = self.folder / page.replace('/', '-')
            shutil.copytree(ROOT / 'examples', folder / 'examples')
            for line, want in re.findall(r'^\$ (.*)\n((?:(?!\$ ).*\n)*)', ''.join(blocks), re.M):
                line = re.sub('^(target/tool/)?reamstork', self.command, line)
                p = subprocess.run(line, shell=True, cwd=folder, capture_output=True, text=True,
                                   env=self.environment)
                self.same(p.stdout + p.stderr, want, '%s: %s' % (page, line))

    def all(self):
        for part in (self.compile, self.texts, self.refusals, self.full, self.lines, self.scrambled,
                     self.files, self.writes, self.uses, self.kept, self.damage, self.sheets,
                     self.layouts, self.keeping, self.cuts, self.damaged, self.foreign, self.scapy,
                     self.plots, self.many, self.installed, self.pages):
            if self.options.part in (None, part.__name__) or part == self.compile:
                if not self.part(part):
                    break
        print('%d runs of the command, %d parts skipped' % (self.runs, self.skipped))
        print('%d passed, %d failed' % (self.passed, self.failed))
        return 1 if self.failed or not self.passed else 0

    def part(self, part):
        """Runs a part, with its tools installed where they are missing; False where it makes no
        sense to go on."""
        began, before = time.monotonic(), self.passed
        try:
            try:
                part()
            except Missing:
                if not self.options.install:
                    raise
                install()
                self.options.install = False
                part()
        except Missing as name:
            self.skipped += 1
            print('skipped %s: %s is not there' % (part.__name__, name))
        except subprocess.SubprocessError as why:
            self.verdict(False, '%s: %s' % (part.__name__, why), getattr(why, 'stderr', None))
            return part != self.compile
        print('%s: %d passed, %.1f s' % (
            part.__name__, self.passed - before, time.monotonic() - began), flush=True)
        return True


# Runs under an interpreter that has scapy: packets on Ethernet with tags, or in cooked records.
SCAPY_LINKS = r'''
import sys
from scapy.all import ICMP, IP, TCP, UDP, CookedLinux, Dot1AD, Dot1Q, Ether, Raw, raw, wrpcap
path, link = sys.argv[1], int(sys.argv[2])
heads = [CookedLinux()] if link == 113 else [
    Ether(), Ether() / Dot1Q(vlan=7), Ether() / Dot1AD(vlan=7) / Dot1Q(vlan=8)]
packets = [IP(src='192.168.1.%d' % i, dst='10.0.0.%d' % (2 * i)) / part / Raw(bytes(20))
           for i in range(40) for part in (UDP(sport=1, dport=5000 + i), TCP(dport=80), ICMP())]
wrpcap(path, [heads[i % len(heads)] / p for i, p in enumerate(packets)], linktype=link)
for p in packets:
    print(raw(p).hex())
'''


def main():
    parser = argparse.ArgumentParser(description='The command reamstork, beside the reference.')
    parser.add_argument('--install', action='store_true')
    parser.add_argument('--seed', type=int, default=1)
    parser.add_argument('--tables', type=int, default=100)
    parser.add_argument('--part')
    parser.add_argument('--include')
    parser.add_argument('--archive')
    parser.add_argument('--yard', action='store_true')
    options = parser.parse_args()
    if options.yard:
        (ROOT / 'examples/yard.pcap').write_bytes(yard())
        return 0
    if options.install:
        subprocess.run([ROOT / 'tests/tools', 'tool'])
    with tempfile.TemporaryDirectory() as folder:
        return Test(options, folder).all()


if __name__ == '__main__':
    sys.exit(main())
