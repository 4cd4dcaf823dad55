"""Scripts of calls of the library, and trace.c, which makes them: as it is, or under
valgrind for a trace of its loads and stores or a count of instructions."""

import os
import platform
import re
import shutil
import subprocess
import sys
import tempfile
from array import array
from pathlib import Path

from loads import (BASE, CAPTURE_ADD, CAPTURE_BEGIN, CARRY, CELLS, CHECK, CLEAR, DEAD, DELETE,
                   DIFFERENCE, EDIT_LIST, FILL, FREEZE, GET, IMAGE_CHECK, IMAGE_LOOKUP,
                   IMAGE_PACKET, IMAGE_TALLY, IMAGE_WORDS, IMAGE_WORST, INSERT, LOOKUP,
                   LOOKUP_PACKET, LOOKUP_TALLY, PREFIX, READ, RULE_AT, SCAN, START, START_WITH,
                   WORST, Call)
from reference import PLACES

ROOT = Path(__file__).resolve().parent.parent
# valgrind runs programs of its own machine alone: the archive is that for this one
ARM = platform.machine() == 'aarch64'
ARCHIVE = ROOT / ('target/aarch64' if ARM else 'target/staticlib') / 'libreamstork.a'
# the words that each call gives
GIVEN = {START: 1, START_WITH: 1, CARRY: 1, INSERT: 1, DELETE: 1, CHECK: 1, READ: 15,
         RULE_AT: 15, DEAD: 8, WORST: 8, CELLS: 2, LOOKUP: 4,
         LOOKUP_PACKET: 4, LOOKUP_TALLY: 4 + 3 * PLACES, SCAN: 3, PREFIX: 3, CLEAR: 0,
         DIFFERENCE: 1, IMAGE_WORDS: 2, FREEZE: 1, IMAGE_CHECK: 1, IMAGE_LOOKUP: 4,
         IMAGE_PACKET: 4, IMAGE_TALLY: 4 + 3 * PLACES, IMAGE_WORST: 8, CAPTURE_BEGIN: 2,
         CAPTURE_ADD: 2, EDIT_LIST: 2}
# what stands before the loads and stores of each call in what touched.c writes
BEGINS = 2 ** 64 - 1
# else valgrind leaves out a load whose value is not used, and on Arm no atomic store succeeds
EVERY = ('--vex-iropt-level=0', *['--sim-hints=fallback-llsc'] * ARM)
# the C library copies by instructions that a trace has one line for, not one for each byte
WIDE = ':'.join('glibc.cpu.x86_rep_%s_threshold=1000000000' % x for x in ('movsb', 'stosb'))


def cannot():
    """What is missing to run valgrind on the archive, in a line, or nothing."""
    if not shutil.which('valgrind'):
        return "missing: install Debian's package valgrind"
    if not ARCHIVE.exists():
        return 'missing: %s, which make lib%s builds' % (ARCHIVE.relative_to(ROOT),
                                                         ' MACHINE=aarch64' if ARM else '')
    return ''


class Script:
    """Commands for trace.c, and the calls among them."""

    def __init__(self):
        self.input, self.calls, self.given = array('I'), [], 0
        self.words, self.len = [], 0

    def fill(self, words, length=None):
        """The words of the store from here on, and how many are lent."""
        self.words, self.len = words, len(words) if length is None else length
        self.input.extend([FILL, self.len, len(words), *words])

    def get(self, n):
        self.input.extend([GET, n])
        self.given += n

    def call(self, op, *numbers, lent=(), packet=b'', tallies=(), count=0):
        self.input.extend([op, *numbers, *lent])
        self.calls.append(Call(op, numbers, self.words, self.len, packet, tallies, count))
        self.given += GIVEN[op]

    def packet(self, packet, tallies=(), image=False):
        padded = array('I', packet + bytes(-len(packet) % 4))
        ops = (IMAGE_PACKET, IMAGE_TALLY) if image else (LOOKUP_PACKET, LOOKUP_TALLY)
        self.call(ops[bool(tallies)], packet=packet, tallies=tallies,
                  lent=[*tallies, len(packet), *padded])

    def freeze(self, room, total):
        """Into that many words; `total` is what the image takes, and the call is not told it."""
        self.input.extend([FREEZE, room])
        self.calls.append(Call(FREEZE, (room, total), self.words, self.len, b'', (), 0))
        self.given += GIVEN[FREEZE]

    def carry(self, room, c):
        """Into that many words."""
        self.input.extend([CARRY, room, c])
        self.calls.append(Call(CARRY, (room, c), self.words, self.len, b'', (), 0))
        self.given += GIVEN[CARRY]

    def capture_begin(self, length, shift):
        """Into that many bytes, as many bytes behind an address that is aligned."""
        self.call(CAPTURE_BEGIN, length, shift)

    def capture_add(self, length, shift, numbers, data, data_shift):
        """The last of the call's numbers is where the data begins."""
        padded = array('I', bytes(data_shift) + data + bytes(-(data_shift + len(data)) % 4))
        self.call(CAPTURE_ADD, length, shift, *numbers, len(data), data_shift, lent=padded,
                  packet=data)

    def scan(self, rules, values):
        records = [x for rule in rules for x in (rule.number, rule.action, *rule.low, *rule.high)]
        self.call(SCAN, 7, *values, len(rules), lent=records, count=len(rules))

    def insert(self, rule):
        self.call(INSERT, rule.number, rule.action, lent=(*rule.low, *rule.high))

    def edit_list(self, edits):
        words = [x for edit in edits for x in (*edit[:3], *edit.low, *edit.high)]
        self.call(EDIT_LIST, len(edits), lent=words, count=len(edits))

    def bytes(self):
        return array('I', [len(self.input), self.given]).tobytes() + self.input.tobytes()


def accesses(file):
    """The loads and stores of each call, as loads.py has them, from what touched.c writes."""
    calls = []
    while chunk := file.read(1 << 23):
        numbers, at = array('Q', chunk), 0
        for _ in range(numbers.count(BEGINS)):
            mark = numbers.index(BEGINS, at)
            if calls:
                calls[-1].extend(numbers[at:mark])
            calls.append(array('Q'))
            at = mark + 1
        if calls:
            calls[-1].extend(numbers[at:])
    return calls


class Program:
    """trace.c, linked with an archive."""

    def __init__(self, archive, folder):
        self.path, self.touched = Path(folder) / 'trace', Path(folder) / 'touched'
        compiler = ['cc', '-std=c11', '-O2', '-Wall', '-Wextra']
        subprocess.run([*compiler, '-static', '-no-pie', '-I', ROOT / 'include',
                        ROOT / 'tests/trace.c', archive, '-o', self.path], check=True)
        subprocess.run([*compiler, ROOT / 'tests/touched.c', '-o', self.touched], check=True)

    def run(self, script):
        """What the commands give, without a trace."""
        done = subprocess.run([self.path], input=script.bytes(), stdout=subprocess.PIPE, check=True)
        return array('I', done.stdout[24:])

    def valgrind(self, script, *options, **more):
        """Valgrind on the program, and the file of what the program gives."""
        with tempfile.TemporaryFile() as commands:
            commands.write(script.bytes())
            commands.seek(0)
            results = tempfile.TemporaryFile()
            p = subprocess.Popen(['valgrind', *options, self.path], stdin=commands, stdout=results,
                                 env={**os.environ, 'GLIBC_TUNABLES': WIDE}, **more)
        return p, results

    def trace(self, script):
        """Each call with what it touches and what it gives."""
        lines, end = os.pipe()
        p, results = self.valgrind(script, '--tool=lackey', '--trace-mem=yes', *EVERY,
                                   '--log-fd=%d' % end, pass_fds=[end])
        os.close(end)
        reader = subprocess.Popen([self.touched, '%08x' % BASE], stdin=lines, stdout=subprocess.PIPE)
        os.close(lines)
        with results, reader.stdout as file:
            touched = accesses(file)
            if p.wait() or reader.wait() or len(touched) != len(script.calls):
                sys.exit('trace.c fails under valgrind: status %d' % p.returncode)
            results.seek(0)
            self.frame, *self.image = array('Q', results.read(24))
            given, at = array('I', results.read()), 0
        for call, numbers in zip(script.calls, touched):
            yield call, numbers, given[at:at + GIVEN[call.op]]
            at += GIVEN[call.op]

    def count(self, script, function):
        """The instructions inside a function, over the whole script, and the last word
        that the script gives."""
        p, results = self.valgrind(script, '--tool=callgrind', '--callgrind-out-file=/dev/null',
                                   '--toggle-collect=' + function, stderr=subprocess.PIPE)
        with results:
            said = p.communicate()[1].decode()
            found = re.search(r'Collected : *(\d+)', said)
            if p.returncode or not found:
                sys.exit('trace.c fails under valgrind: status %d\n%s' % (p.returncode, said))
            results.seek(24)
            return int(found[1]), array('I', results.read())
