"""Talks to the driver (driver.c): queues calls with the results that are
expected, sends them in batches, and compares what comes back.

A call queued with `want` must give exactly those numbers. A call queued
without it is a question: its numbers come back from `flush`.
"""

import os
import select
import struct
import subprocess
from array import array
from collections import Counter

from reference import PLACES

RESET, MAKE, LEND, SET, GET, DIGEST, SAME, COPY, HOLDS = range(9)
(START, START_WITH, INSERT, DELETE, CHECK, READ, CELLS, LOOKUP, PACKET, PREFIX, SCAN,
 RULE_AT, DEAD, WORST, CARRY, EDIT_LIST) = range(16, 32)
TALLY, CLEAR, DIFFERENCE, RECORDS, LIST_FAR = range(32, 37)
(IMAGE_WORDS, FREEZE, IMAGE_CHECK, IMAGE_LOOKUP, IMAGE_PACKET, IMAGE_TALLY,
 IMAGE_WORST) = range(40, 47)
CAPTURE_BEGIN, CAPTURE_ADD, CAPTURE_FAR = range(48, 51)
RECORD = 3 * PLACES
NAMES = {RESET: 'reset', MAKE: 'make', LEND: 'lend', SET: 'set', GET: 'get', DIGEST: 'digest',
         SAME: 'same', COPY: 'copy', HOLDS: 'holds', CARRY: 'carry', START: 'start',
         START_WITH: 'start_with', INSERT: 'insert',
         DELETE: 'delete', CHECK: 'check', READ: 'read', CELLS: 'cells', LOOKUP: 'lookup',
         PACKET: 'lookup_packet', PREFIX: 'prefix', SCAN: 'scan', RULE_AT: 'rule_at',
         DEAD: 'dead', WORST: 'worst', TALLY: 'lookup_packet_tally',
         CLEAR: 'tallies_clear', DIFFERENCE: 'tally_difference', RECORDS: 'scan of records',
         EDIT_LIST: 'edit_list', LIST_FAR: 'edit_list of edits that are not there',
         IMAGE_WORDS: 'image_words', FREEZE: 'freeze', IMAGE_CHECK: 'image_check',
         IMAGE_LOOKUP: 'image_lookup', IMAGE_PACKET: 'image_lookup_packet',
         IMAGE_TALLY: 'image_lookup_packet_tally', IMAGE_WORST: 'image_worst',
         CAPTURE_BEGIN: 'capture_begin', CAPTURE_ADD: 'capture_add',
         CAPTURE_FAR: 'capture_begin and capture_add above 2^32 bytes'}
SIZES = {RESET: 0, MAKE: 0, LEND: 0, SET: 0, DIGEST: 2, SAME: 1, COPY: 0, HOLDS: 0, CARRY: 1,
         START: 1, START_WITH: 1, INSERT: 1, DELETE: 1, CHECK: 1, READ: 15, CELLS: 2, LOOKUP: 4,
         PACKET: 4, PREFIX: 3, SCAN: 66, RULE_AT: 15, DEAD: 8, WORST: 8, TALLY: 4 + RECORD,
         CLEAR: RECORD, DIFFERENCE: 1, RECORDS: 3, EDIT_LIST: 2, LIST_FAR: 2, IMAGE_WORDS: 2,
         FREEZE: 1, IMAGE_CHECK: 1,
         IMAGE_LOOKUP: 4, IMAGE_PACKET: 4, IMAGE_TALLY: 4 + RECORD, IMAGE_WORST: 8, CAPTURE_FAR: 6}
EDITS = (MAKE, LEND, SET, COPY, HOLDS, CARRY, START, START_WITH, INSERT, DELETE, EDIT_LIST, FREEZE)
INTO_ANOTHER = (COPY, FREEZE, CARRY)  # these write the second of two stores
GUARDED, END_AT_WALL, FRONT_AT_WALL = range(3)
NO_DIFFERENCE = 0xFFFFFFFF

FAULTS = {1: 'a guard word in front of the store was written',
          2: 'a guard word behind the store was written',
          3: 'a call that may not write changed a word',
          4: 'a refused edit changed a word',
          5: 'an accepted edit changed a word behind its store',
          6: 'the bytes of a packet were changed',
          7: 'the ends of a rule were changed',
          8: 'a guard word in front of a tally record was written',
          9: 'the records of a list were changed',
          10: 'a byte outside the lent output was written',
          11: 'a refused call wrote a byte of the output',
          12: 'a byte behind those that were written was changed',
          13: 'the data of a record was changed',
          14: 'more bytes were written than were lent',
          15: 'the edits of a list were changed'}

HEAD = struct.Struct('<7I')
PACKERS = {n: struct.Struct('<%dI' % n) for n in [*range(1, 68), RECORD, 4 + RECORD]}


class Disagreement(Exception):
    """The library and the reference disagree, or a promise was broken."""


class Driver:
    """The driver's process, started again after a crash."""

    def __init__(self, command, patience):
        self.command, self.patience = command, patience
        self.process = None
        self.calls = 0

    def begin(self):
        self.process = subprocess.Popen(self.command, stdin=subprocess.PIPE,
                                        stdout=subprocess.PIPE, bufsize=0)

    def end(self):
        if self.process is None:
            return None
        process, self.process = self.process, None
        process.kill()
        process.stdin.close()
        process.stdout.close()
        return process.wait()

    def died(self, why):
        process = self.process
        try:
            status = process.wait(5)
        except subprocess.TimeoutExpired:
            status = None
        self.end()
        raise Disagreement('%s (exit status %s)' % (why, status))

    def take(self, size):
        out, pipe = bytearray(), self.process.stdout.fileno()
        while len(out) < size:
            if not select.select([pipe], [], [], self.patience)[0]:
                self.end()
                raise Disagreement('gave no answer within %g seconds' % self.patience)
            piece = os.read(pipe, min(size - len(out), 1 << 20))
            if not piece:
                self.died('ended the driver')
            out += piece
        return bytes(out)

    def send(self, batch):
        if self.process is None:
            self.begin()
        try:
            view = memoryview(struct.pack('<I', len(batch) // 4) + batch)
            while view:
                view = view[self.process.stdin.write(view):]
        except BrokenPipeError:
            self.died('ended the driver')
        head = HEAD.unpack(self.take(HEAD.size))
        self.calls += head[1]
        return head, self.take(4 * head[0])


class Talk:
    """The calls of one case."""

    MOST = 1 << 20

    def __init__(self, driver):
        self.driver = driver
        self.answers, self.notes = Counter(), Counter()
        self.batch, self.queue, self.log = bytearray(), [], []
        self.queue_command(RESET, ())
        self.stores = 0

    def queue_command(self, op, numbers, want=None, size=None, tail=b''):
        size = SIZES[op] if size is None else size
        if isinstance(want, int):
            want = (want,)
        numbers = (op,) + tuple(numbers)
        self.batch += PACKERS[len(numbers)].pack(*numbers)
        self.batch += tail
        self.queue.append((op, numbers[1:], tail, size, want))

    def note(self, what):
        self.notes[what] += 1

    # -- stores --

    def make(self, total, how=GUARDED, fill=1):
        store = self.stores
        self.stores += 1
        self.queue_command(MAKE, (store, total, how, fill or 1))
        return store

    def lend(self, store, length):
        self.queue_command(LEND, (store, length))

    def set(self, store, position, words):
        self.queue_command(SET, (store, position, len(words)), tail=array('I', words).tobytes())

    def get(self, store, position, n):
        self.queue_command(GET, (store, position, n), size=n)

    def same(self, a, b, n, want=NO_DIFFERENCE):
        self.queue_command(SAME, (a, b, n), want)

    def copy(self, a, b, n):
        self.queue_command(COPY, (a, b, n))

    def holds(self, store, n):
        """Tells the driver how many words a store takes that no start made: edits may change
        none behind them."""
        self.queue_command(HOLDS, (store, n))

    # -- calls: `want` is what must come back, None asks --

    def start(self, store, c, want=None):
        self.queue_command(START, (store, c), want)

    def start_with(self, store, c, action, want=None):
        self.queue_command(START_WITH, (store, c, action), want)

    def carry(self, store, other, c, want=None):
        """Carries the table of a store into the words of another."""
        self.queue_command(CARRY, (store, other, c), want)

    def insert(self, store, rule, want=None):
        self.queue_command(INSERT, (store, rule.number, rule.action) + rule.low + rule.high, want)

    def delete(self, store, number, want=None):
        self.queue_command(DELETE, (store, number), want)

    def edit_list(self, store, edits, want=None):
        """`want` is the answer and the place."""
        words = array('I')
        for edit in edits:
            words.extend((edit.remove, edit.number, edit.action) + edit.low + edit.high)
        self.queue_command(EDIT_LIST, (store, len(edits)), want, tail=words.tobytes())

    def list_far(self, store, count, want=None):
        """A list of so many edits, none of which can be read."""
        self.queue_command(LIST_FAR, (store, count % 2 ** 32, count // 2 ** 32), want)

    def check(self, store, want=None):
        self.queue_command(CHECK, (store,), want)

    def read(self, store, number, want=None):
        self.queue_command(READ, (store, number), want)

    def rule_at(self, store, place, want=None):
        self.queue_command(RULE_AT, (store, place), want)

    def dead(self, store, number, want=None):
        self.queue_command(DEAD, (store, number), want)

    def worst(self, store, want=None):
        self.queue_command(WORST, (store,), want)

    def cells(self, store, want=None):
        self.queue_command(CELLS, (store,), want)

    def lookup(self, store, values, want=None):
        self.queue_command(LOOKUP, (store,) + tuple(values), want)

    def packet(self, store, packet, want=None):
        self.queue_command(PACKET, (store, len(packet)), want,
                           tail=packet + bytes(-len(packet) % 4))

    def tally(self, store, packet, record, want=None):
        """A record is its 513 keys, 513 packets and 513 bytes; `want` is the four
        numbers of the answer and then the record that is left."""
        self.queue_command(TALLY, (store, len(packet)), want,
                           tail=array('I', record).tobytes() + packet + bytes(-len(packet) % 4))

    def image_words(self, store, want=None):
        self.queue_command(IMAGE_WORDS, (store,), want)

    def freeze(self, store, image, total, want=None):
        """An image stands in words like a store's. `total` is how many of them it takes where
        it is taken: those behind may not change."""
        self.queue_command(FREEZE, (store, image, total), want)

    def image_check(self, image, want=None):
        self.queue_command(IMAGE_CHECK, (image,), want)

    def image_worst(self, image, want=None):
        self.queue_command(IMAGE_WORST, (image,), want)

    def image_lookup(self, image, values, want=None):
        self.queue_command(IMAGE_LOOKUP, (image,) + tuple(values), want)

    def image_packet(self, image, packet, want=None):
        self.queue_command(IMAGE_PACKET, (image, len(packet)), want,
                           tail=packet + bytes(-len(packet) % 4))

    def image_tally(self, image, packet, record, want=None):
        self.queue_command(IMAGE_TALLY, (image, len(packet)), want,
                           tail=array('I', record).tobytes() + packet + bytes(-len(packet) % 4))

    def clear(self, record, want=None):
        self.queue_command(CLEAR, (), want, tail=array('I', record).tobytes())

    def difference(self, earlier, later, want=None):
        self.queue_command(DIFFERENCE, (earlier, later), want)

    def prefix(self, address, length, want=None):
        self.queue_command(PREFIX, (address, length), want)

    def scan(self, store, first, last, want=None):
        self.queue_command(SCAN, (store, first, last), want)

    def records(self, records, action, values, want=None):
        words = array('I')
        for record in records:
            words.extend((record.number, record.action) + record.low + record.high)
        self.queue_command(RECORDS, (action,) + tuple(values) + (len(records),), want,
                           tail=words.tobytes())

    def capture_begin(self, length, want=None, behind=0, fill=1):
        """Into so many bytes, which end at the wall or have so many guard bytes behind them.
        `want` is the answer and the bytes that are written; a question gives all bytes."""
        size = length if want is None else len(want[1])
        self.queue_command(CAPTURE_BEGIN, (length, behind, fill or 1, size), shown(want),
                           size=2 + (size + 3) // 4)

    def capture_add(self, length, numbers, data, want=None, behind=0, fill=1):
        """`numbers` are the seconds, the fraction and the original length."""
        size = length if want is None else len(want[1])
        self.queue_command(CAPTURE_ADD, (length, behind, fill or 1, size) + tuple(numbers)
                           + (len(data),), shown(want), size=2 + (size + 3) // 4,
                           tail=data + bytes(-len(data) % 4))

    def capture_far(self, more, size):
        """A question: what is answered where the lengths are 2^32 bytes and so many more."""
        self.queue_command(CAPTURE_FAR, (more, size))

    # -- sending --

    def flush(self):
        """Sends what is queued, compares, and gives the answers to questions
        in order."""
        batch, queue = self.batch, self.queue
        self.batch, self.queue = bytearray(), []
        first = len(self.log)
        self.log.extend(queue)
        try:
            head, results = self.driver.send(bytes(batch))
        except Disagreement as found:
            self.find(str(found))
            raise
        fault = head[3] if head[2] else len(queue)
        answers, at = [], 0
        for place, (op, _, _, size, want) in enumerate(queue):
            if place == fault:
                self.tell(first + place, '%s: store %d, position %d' % (
                    FAULTS.get(head[4], head[4]), head[5], head[6]))
            if not size:
                continue
            got = PACKERS[size].unpack_from(results, at) if size in PACKERS else array(
                'I', results[at:at + 4 * size])
            if op in (CAPTURE_BEGIN, CAPTURE_ADD):
                got = tuple(got)
            at += 4 * size
            if (START <= op <= PREFIX or op in (RULE_AT, DEAD, WORST, CARRY, EDIT_LIST, TALLY,
                                                RECORDS) or op >= IMAGE_WORDS):
                self.answers[got[0]] += 1
            if want is None:
                answers.append(got)
            elif got != want:
                self.tell(first + place, 'gave %s, and %s was expected' % (got, want))
        if head[2]:
            raise Disagreement(FAULTS.get(head[4], head[4]))
        return answers

    def find(self, what):
        """After a crash or a hang: makes the calls again one at a time."""
        for place, (op, numbers, tail, _, _) in enumerate(self.log):
            try:
                self.driver.send(PACKERS[1 + len(numbers)].pack(op, *numbers) + tail)
            except Disagreement:
                self.tell(place, what)

    def tell(self, place, what):
        """Raises a disagreement with the edits that led to it."""
        op, numbers, tail, _, _ = self.log[place]
        store = numbers[0] if numbers else None
        before = [entry for entry in self.log[:place] if entry[0] in EDITS
                  and entry[1][1 if entry[0] in INTO_ANOTHER else 0] == store]
        lines = ['%s %s' % (spell(op, numbers, tail), what), 'the store came about by:']
        if len(before) > 200:
            lines.append('  .. %d more' % (len(before) - 200))
        raise Disagreement('\n'.join(lines + ['  ' + spell(*entry[:3]) for entry in before[-200:]]))


def shown(want):
    """What the driver gives for a call that writes a capture: the answer, how many bytes are
    written, and these in words."""
    if want is None:
        return None
    answer, written = want
    return (answer, len(written), *array('I', written + bytes(-len(written) % 4)))


def spell(op, numbers, tail):
    text = '%s(%s)' % (NAMES[op], ', '.join(map(str, numbers)))
    if op == CAPTURE_ADD:
        return text + ' data ' + tail[:numbers[7]][:80].hex()
    if op == EDIT_LIST:
        words = array('I', tail)
        return text + ''.join('\n    edit %d: %s' % (place // 15 + 1, ' '.join(
            map(str, words[place:place + 15]))) for place in range(0, len(words), 15)[:33])
    if tail and op in (PACKET, IMAGE_PACKET):
        text += ' bytes ' + tail[:numbers[1]][:80].hex()
    elif op in (TALLY, IMAGE_TALLY):
        text += ' bytes %s record %s' % (tail[4 * RECORD:][:numbers[1]][:80].hex(),
                                         ' '.join(map(str, array('I', tail[:4 * RECORD]))))
    elif tail:
        text += ' words ' + ' '.join(map(str, array('I', tail)[:40]))
    return text
