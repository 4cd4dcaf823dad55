"""The reference account of Reamstork, written from documents 01 and 02 and the requests alone.

There is no tree and there are no cells in its answers: the winner and the
count of reads come straight from the rules, in the words of demands 2 and 3.
It shares no code with the library. Python's whole numbers have no width, so
nothing here can wrap round.
"""

from collections import namedtuple

TOPS = (4294967295, 4294967295, 255, 65535, 65535, 1)
PORTS, PORTLESS = (3, 4), 5
DEFAULT = 65535
LEAST_CELLS, MOST_CELLS = 6, 65536

# The two kinds of store: how many rules a table has at most besides the default, and how many
# words a store has besides 8 for each cell, an image besides 16 for each block. A start makes a
# large one; small ones stand in memory that keeps its words.
Kind = namedtuple('Kind', 'name rules front')
SMALL, LARGE = KINDS = Kind('small', 64, 1024), Kind('large', 512, 8192)
# A tally record has a place for each rule of a full table and one for the default.
PLACES = 513

DONE = 0
NUMBER_TOO_HIGH, BAD_RANGE, ALREADY_THERE, NOT_THERE, TABLE_FULL, NO_ROOM = 1, 2, 3, 4, 5, 6
NOT_READABLE, BAD_START, BAD_STORE, BAD_PREFIX, ABOVE_TOP = 7, 8, 9, 10, 11
NO_PLACE, CUT_SHORT, BAD_LIST = 13, 14, 15
TOO_SHORT, TOO_LONG = 8, 12  # of what writes a capture: its output, and a record

Rule = namedtuple('Rule', 'number action low high')

# An edit of a list: 0 for `remove` inserts the rule, any other number deletes by number.
Edit = namedtuple('Edit', 'remove number action low high')
MOST_EDITS = 32


def default_rule(action):
    return Rule(DEFAULT, action, (0,) * 6, TOPS)


def words_needed(c, kind=LARGE):
    return kind.front + 8 * c


# ---- what the rules say -------------------------------------------------

def ends(rule, field):
    """The high end and, if the low end is above 0, the low end less 1."""
    low, high = rule.low[field], rule.high[field]
    return (high, low - 1) if low > 0 else (high,)


def winner_and_reads(rules, values):
    """The rule of least number among those whose six ranges hold the values,
    and, summed over the fields, one plus the distinct ends below the value,
    over the rules that hold the earlier values."""
    reads = 0
    for field, value in enumerate(values):
        below = set()
        for rule in rules:
            for end in ends(rule, field):
                if end < value:
                    below.add(end)
        reads += 1 + len(below)
        rules = [rule for rule in rules if rule.low[field] <= value <= rule.high[field]]
    return min(rules, key=lambda rule: rule.number), reads


def count_cells(rules, bound):
    """The number of locations of the tree of the rules; some number above the
    bound when there are more than that."""
    seen = {}

    def under(held, field):
        if field == len(TOPS):
            return 0
        known = seen.get((held, field))
        if known is not None:
            return known
        total = 0
        for end in {end for i in held for end in ends(rules[i], field)}:
            # No end lies inside a location, so a rule covers the whole of it
            # when it holds its last value.
            covering = tuple(i for i in held if rules[i].low[field] <= end <= rules[i].high[field])
            total += 1 + under(covering, field + 1)
            if total > bound:
                break
        seen[held, field] = total
        return total

    return under(tuple(range(len(rules))), 0)


def least_record(rules, number):
    """The least record of values, compared field by field from field 1, that makes the rule
    with this number the winner among the rules; None where there is none.

    Records are tried in rising order. In each field a value is tried only if it is 0, or a
    rule begins there, or one has ended just before: from there to the next such value the
    same rules hold all values, so where the least of them is of no use none is. Rules with a
    greater number take no record from the one asked for and are left out."""
    rules = [rule for rule in rules if rule.number <= number]
    mine = next(place for place, rule in enumerate(rules) if rule.number == number)
    useless = set()

    def first(held, field):
        """The least values from this field on, over the rules that hold the values before."""
        if mine not in held or (held, field) in useless:
            return None
        if field == len(TOPS):
            return () if held == (mine,) else None
        tried = {0} | {rules[i].low[field] for i in held} | {rules[i].high[field] + 1 for i in held}
        for value in sorted(value for value in tried if value <= TOPS[field]):
            rest = first(tuple(i for i in held
                               if rules[i].low[field] <= value <= rules[i].high[field]), field + 1)
            if rest is not None:
                return (value,) + rest
        useless.add((held, field))
        return None

    return first(tuple(range(len(rules))), 0)


def worst_record(rules):
    """The greatest sum of reads of any record within the tops, and the least record, compared
    field by field from field 1, that has it.

    In each field a value is tried only if it is 0, or a rule begins there, or one has ended
    just before: from there to the next such value the same rules hold all values and the same
    ends are below them, so the least of them stands for all. What is behind a field depends on
    the rules that hold the values so far, and on nothing else."""
    seen = {}

    def worst(held, field):
        """The greatest sum from this field on over these rules, and the least values."""
        if field == len(TOPS):
            return 0, ()
        known = seen.get((held, field))
        if known is not None:
            return known
        tried = {0} | {rules[i].low[field] for i in held} | {rules[i].high[field] + 1 for i in held}
        distinct = {end for i in held for end in ends(rules[i], field)}
        best = 0, ()
        for value in sorted(value for value in tried if value <= TOPS[field]):
            holding = tuple(i for i in held if rules[i].low[field] <= value <= rules[i].high[field])
            reads, rest = worst(holding, field + 1)
            reads += 1 + sum(end < value for end in distinct)
            if reads > best[0]:
                best = reads, (value,) + rest
        seen[held, field] = best
        return best

    return worst(tuple(range(len(rules))), 0)


def levels(m):
    """The blocks of one field that a lookup over the image reads: the least L of at least 1
    with 8^L not below m."""
    least = 1
    while 8 ** least < m:
        least += 1
    return least


def winner_and_blocks(rules, values):
    """The winner as above, and the blocks read, summed over the fields: m is the number of
    distinct ends of the rules that hold the earlier values."""
    blocks = 0
    for field, value in enumerate(values):
        blocks += levels(len({end for rule in rules for end in ends(rule, field)}))
        rules = [rule for rule in rules if rule.low[field] <= value <= rule.high[field]]
    return min(rules, key=lambda rule: rule.number), blocks


def deepest_record(rules):
    """The greatest sum of blocks of any record within the tops, and the least record, compared
    field by field from field 1, that has it: as worst_record, with the same values tried."""
    seen = {}

    def deepest(held, field):
        """The greatest sum from this field on over these rules, and the least values."""
        if field == len(TOPS):
            return 0, ()
        if (held, field) not in seen:
            tried = {0} | {rules[i].low[field] for i in held} | {
                rules[i].high[field] + 1 for i in held}
            own = levels(len({end for i in held for end in ends(rules[i], field)}))
            best = 0, ()
            for value in sorted(value for value in tried if value <= TOPS[field]):
                blocks, rest = deepest(tuple(i for i in held if rules[i].low[field] <= value
                                             <= rules[i].high[field]), field + 1)
                if own + blocks > best[0]:
                    best = own + blocks, (value,) + rest
            seen[held, field] = best
        return seen[held, field]

    return deepest(tuple(range(len(rules))), 0)


def count_blocks(rules):
    """The blocks of an image: under each location m ends take ceil(m / 8) blocks, these as
    many links above them, and so on until one is left."""
    seen = {}

    def under(held, field):
        if field == len(TOPS):
            return 0
        if (held, field) not in seen:
            distinct = {end for i in held for end in ends(rules[i], field)}
            total, level = 0, len(distinct)
            while level > 1 or not total:
                level = -(-level // 8)
                total += level
            for end in distinct:
                total += under(tuple(i for i in held if rules[i].low[field] <= end
                                     <= rules[i].high[field]), field + 1)
            seen[held, field] = total
        return seen[held, field]

    return under(tuple(range(len(rules))), 0)


def range_fault(low, high):
    """What gets 2: a low end above its high end, a high end above the top, or a
    narrow port range with anything but 0 to 0 in field 6."""
    if any(l > h or h > top for l, h, top in zip(low, high, TOPS)):
        return True
    narrow = any((low[port], high[port]) != (0, 65535) for port in PORTS)
    return narrow and (low[PORTLESS], high[PORTLESS]) != (0, 0)


# ---- a store ------------------------------------------------------------

class Account:
    """What a store must hold and answer, for stores that pass the check."""

    def __init__(self, kind=LARGE, c=None, action=0):
        self.kind = kind
        self.c = c
        self.rules = {}
        self.default = default_rule(action)

    def start(self, length, c, action=0):
        """A start makes a large store, whatever the words held."""
        if not LEAST_CELLS <= c <= MOST_CELLS or length < words_needed(c):
            return BAD_START
        self.kind, self.c = LARGE, c
        self.rules, self.default = {}, default_rule(action)
        return DONE

    def carry(self, other, length, c):
        """Carries the table of another account, None where its words fail the check, to this
        one, which has so many words: the same rules in a large store of c cells."""
        if other is None:
            return BAD_STORE
        if not LEAST_CELLS <= c <= MOST_CELLS or length < words_needed(c):
            return BAD_START
        if count_cells(other.table(), c) > c:
            return NO_ROOM
        self.kind, self.c = LARGE, c
        self.rules, self.default = dict(other.rules), other.default
        return DONE

    def table(self):
        return [self.rules[number] for number in sorted(self.rules)] + [self.default]

    def cells_with(self, rule, bound=MOST_CELLS):
        return count_cells(self.table() + [rule], bound)

    def insert(self, number, action, low, high):
        if number > 65534:
            return NUMBER_TOO_HIGH
        if range_fault(low, high):
            return BAD_RANGE
        if number in self.rules:
            return ALREADY_THERE
        if len(self.rules) >= self.kind.rules:
            return TABLE_FULL
        rule = Rule(number, action, tuple(low), tuple(high))
        if self.cells_with(rule, self.c) > self.c:
            return NO_ROOM
        self.rules[number] = rule
        return DONE

    def delete(self, number):
        if number > 65534:
            return NUMBER_TOO_HIGH
        if number not in self.rules:
            return NOT_THERE
        del self.rules[number]
        return DONE

    def edit(self, edit):
        """An edit of a list, given singly."""
        return self.delete(edit.number) if edit.remove else self.insert(*edit[1:])

    def edit_list(self, edits):
        """(answer, place): all edits in order as if given singly, or nothing, exactly when one of
        them would have been refused there; then its number and its place, from 1 on."""
        before = dict(self.rules)
        for place, edit in enumerate(edits, 1):
            answer = self.edit(edit)
            if answer:
                self.rules = before
                return (answer, place)
        return (DONE, 0)

    def read(self, number):
        """(answer, number, action, six low ends, six high ends)"""
        if number == DEFAULT:
            rule = self.default
        elif number > 65534:
            return (NUMBER_TOO_HIGH,) + (0,) * 14
        elif number not in self.rules:
            return (NOT_THERE,) + (0,) * 14
        else:
            rule = self.rules[number]
        return (DONE, rule.number, rule.action) + rule.low + rule.high

    def rule_at(self, place):
        """The same for a place from 1 up, in the order of the numbers."""
        numbers = sorted(self.rules)
        if not 1 <= place <= len(numbers):
            return (NOT_THERE,) + (0,) * 14
        return self.read(numbers[place - 1])

    def dead(self, number):
        """(answer, dead, six values): refused as a read is; for a dead rule 1 and zeros, for a
        live one 0 and the least record that makes it the winner."""
        answer = self.read(number)[0]
        if answer:
            return (answer, 0) + (0,) * 6
        record = least_record(self.table(), number)
        return (DONE, 1) + (0,) * 6 if record is None else (DONE, 0) + record

    def worst(self):
        """(answer, reads, six values): the greatest count of reads, and the least record that
        takes it."""
        reads, record = worst_record(self.table())
        return (DONE, reads) + record

    def cells(self):
        return (DONE, count_cells(self.table(), MOST_CELLS))

    def lookup(self, values):
        """(answer, rule, action, reads)"""
        if any(value > top for value, top in zip(values, TOPS)):
            return (ABOVE_TOP, 0, 0, 0)
        rule, reads = winner_and_reads(self.table(), values)
        return (DONE, rule.number, rule.action, reads)

    def lookup_packet(self, packet):
        answer, values = read_header(packet)
        if answer:
            return (answer, 0, 0, 0)
        return self.lookup(values)

    def image_words(self):
        """(answer, words): the front of the store's kind and 16 for each block."""
        return (DONE, self.kind.front + 16 * count_blocks(self.table()))

    def image_worst(self):
        """(answer, blocks, six values): the greatest count of blocks, and the least record that
        reads it."""
        blocks, record = deepest_record(self.table())
        return (DONE, blocks) + record

    def image_lookup(self, values):
        """As a lookup, over the image of this store: the last number counts blocks."""
        if any(value > top for value, top in zip(values, TOPS)):
            return (ABOVE_TOP, 0, 0, 0)
        rule, blocks = winner_and_blocks(self.table(), values)
        return (DONE, rule.number, rule.action, blocks)

    def image_lookup_packet(self, packet):
        answer, values = read_header(packet)
        if answer:
            return (answer, 0, 0, 0)
        return self.image_lookup(values)


def list_answer(account, edits):
    """(answer, place) of a list of edits, and does them: first of all 15 with place 0 for an empty
    or longer list, then 9 at place 1 for a store that fails the check, which has no account."""
    if not 1 <= len(edits) <= MOST_EDITS:
        return (BAD_LIST, 0)
    if account is None:
        return (BAD_STORE, 1)
    return account.edit_list(edits)


# ---- tallies ------------------------------------------------------------

class Tally:
    """A tally record: 513 places, each a key, packets and bytes."""

    def __init__(self, words):
        self.places = [list(place) for place in zip(words[:PLACES], words[PLACES:2 * PLACES],
                                                    words[2 * PLACES:])]

    def words(self):
        return tuple(place[part] for part in range(3) for place in self.places)

    def find(self, number):
        """The first place keyed by the number. A key above 65,535 means
        unused, whatever it is."""
        for place in self.places:
            if place[0] == number and number <= DEFAULT:
                return place
        return None

    def lookup(self, found, packet):
        """`found` is what a lookup without tallies answers for the packet;
        gives what the lookup that counts answers."""
        if found[0]:
            return found
        place = self.find(found[1])
        if place is None:
            place = next((p for p in self.places if p[0] > DEFAULT), None)
            if place is None:
                return (NO_PLACE, 0, 0, 0)
            place[:] = [found[1], 0, 0]
        total = packet[2] * 256 + packet[3]
        place[1] = (place[1] + 1) % 2 ** 32
        place[2] = (place[2] + total) % 2 ** 32
        return found

    def drop(self, number, key):
        for place in self.places:
            if place[0] == number:
                place[0] = key


# ---- a list of records, with no store -----------------------------------

def scan(records, action, values):
    """(answer, rule, action): the holder of least number, of equal numbers the
    earlier one, and the default where there is none."""
    if any(value > top for value, top in zip(values, TOPS)):
        return (ABOVE_TOP, 0, 0)
    holders = [record for record in records
               if all(low <= value <= high
                      for low, value, high in zip(record.low, values, record.high))]
    if not holders:
        return (DONE, DEFAULT, action)
    least = min(record.number for record in holders)
    first = next(record for record in holders if record.number == least)
    return (DONE, first.number, first.action)


# ---- headers, prefixes, captures ----------------------------------------

def header_fault(packet):
    """What gets 7: one of five conditions. None of them asks how much of the
    packet is there, but for its first 20 bytes."""
    if len(packet) < 20:
        return True
    version, header = packet[0] >> 4, 4 * (packet[0] & 15)
    total = int.from_bytes(packet[2:4], 'big')
    if version != 4 or header < 20 or total < header:
        return True
    return has_ports(packet) and total - header < 4


def has_ports(packet):
    """Protocol 6 or 17, and fragment offset 0."""
    return packet[9] in (6, 17) and int.from_bytes(packet[6:8], 'big') & 0x1FFF == 0


def read_header(packet):
    """(answer, values): 7 or 14 and None, or 0 and the six values of an IPv4
    packet in the order of the fields."""
    if header_fault(packet):
        return NOT_READABLE, None
    if len(packet) < int.from_bytes(packet[2:4], 'big'):
        return CUT_SHORT, None
    source_port = destination_port = 0
    portless = 1
    if has_ports(packet):
        header = 4 * (packet[0] & 15)
        source_port = int.from_bytes(packet[header:header + 2], 'big')
        destination_port = int.from_bytes(packet[header + 2:header + 4], 'big')
        portless = 0
    return DONE, (int.from_bytes(packet[16:20], 'big'), int.from_bytes(packet[12:16], 'big'),
                  packet[9], destination_port, source_port, portless)


def prefix(address, length):
    """(answer, low, high)"""
    if length > 32 or address % 2 ** (32 - length):
        return (BAD_PREFIX, 0, 0)
    return (DONE, address, address + 2 ** (32 - length) - 1)


def capture_records(capture):
    """The packets of a capture and how it ended (0, 1 or 2), or None when it
    is not accepted."""
    if len(capture) < 24 or capture[:4] not in (b'\xa1\xb2\xc3\xd4', b'\xd4\xc3\xb2\xa1'):
        return None
    order = 'big' if capture[0] == 0xA1 else 'little'

    def number(position, size):
        return int.from_bytes(capture[position:position + size], order)

    if (number(4, 2), number(6, 2)) != (2, 4) or number(20, 4) != 101:
        return None
    packets, at = [], 24
    while at < len(capture):
        if len(capture) - at < 16:
            return packets, 1
        size = number(at + 8, 4)
        if size > 16384:
            return packets, 2
        if len(capture) - at - 16 < size:
            return packets, 1
        packets.append(capture[at + 16:at + 16 + size])
        at += 16 + size
    return packets, 0


def numbered_records(capture):
    """As capture_records, but with the numbers of each record: (seconds, fraction, original
    length, bytes)."""
    read = capture_records(capture)
    if read is None:
        return None
    order, at, records = 'big' if capture[0] == 0xA1 else 'little', 24, []
    for packet in read[0]:
        seconds, fraction, size, original = (
            int.from_bytes(capture[at + i:at + i + 4], order) for i in (0, 4, 8, 12))
        assert size == len(packet)
        records.append((seconds, fraction, original, packet))
        at += 16 + size
    return records, read[1]


def backwards(number, size):
    """A number in so many bytes, the least significant first."""
    return bytes(number // 256 ** i % 256 for i in range(size))


def capture_begin(length):
    """(answer, what is written): the header of a capture, into that many bytes. A1 B2 C3 D4 in
    reverse, version 2.4, two zero numbers, snapshot length 16,384, link type 101."""
    if length < 24:
        return (TOO_SHORT, b'')
    return (DONE, bytes((0xA1, 0xB2, 0xC3, 0xD4))[::-1] + backwards(2, 2) + backwards(4, 2)
            + backwards(0, 4) + backwards(0, 4) + backwards(16384, 4) + backwards(101, 4))


def capture_add(length, seconds, fraction, original, data):
    """(answer, what is written): a record, into that many bytes. 12 above 16,384 bytes, then 8."""
    if len(data) > 16384:
        return (TOO_LONG, b'')
    if length < 16 + len(data):
        return (TOO_SHORT, b'')
    return (DONE, b''.join(backwards(n, 4) for n in (seconds, fraction, len(data), original))
            + data)


def written_capture(records):
    """The capture of these records, each (seconds, fraction, original length, bytes)."""
    return capture_begin(24)[1] + b''.join(
        capture_add(16 + len(record[3]), *record)[1] for record in records)


BENCH_RULES = (
    Rule(10, 2, (167772160, 0, 17, 5000, 0, 0), (167772415, 4294967295, 17, 5009, 65535, 0)),
    Rule(20, 3, (167772160, 0, 0, 0, 0, 0), (167772287, 4294967295, 255, 65535, 65535, 1)),
)


def bench_account():
    account = Account()
    account.start(words_needed(1024), 1024)
    for rule in BENCH_RULES:
        account.insert(*rule)
    return account


def kept(capture, action):
    """What `keep` writes for a capture: one of the records, in their order, whose lookup gave
    this action. A packet that is refused has no action, not even 0. None for no capture."""
    read = numbered_records(capture)
    if read is None:
        return None
    account = bench_account()
    found = [account.lookup_packet(record[3]) for record in read[0]]
    return written_capture([record for record, (answer, _, its, _) in zip(read[0], found)
                            if answer == DONE and its == action])


def bench_output(capture):
    """What the bench program writes for a capture."""
    read = capture_records(capture)
    if read is None:
        return 'refused 12\n'
    packets, ending = read
    account = bench_account()
    lines = ['packet answer rule action reads']
    for place, packet in enumerate(packets, 1):
        lines.append('%d %d %d %d %d' % ((place,) + account.lookup_packet(packet)))
    lines.append('end %d %d' % (len(packets), ending))
    return '\n'.join(lines) + '\n'
