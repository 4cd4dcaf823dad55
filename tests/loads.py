"""What each call of the library may load and store, as docs/TIMING.md and the header
have it: the rules that trace.py holds a trace to."""

from collections import Counter, namedtuple

from image import BLOCK, DEEPEST, DOWN, KEYS
from laid import BEGIN, CELL, FREE, KIND, ROW, kind_of, link_of, row_of
from reference import LEAST_CELLS, MOST_CELLS, MOST_EDITS, PLACES, read_header, words_needed

FRONT_LOADS = (0, 1, KIND)     # what every lookup loads of the head; with them the word where a walk begins
RULE_LOADS = (0, 1)            # what it loads of that row: number and action
FIXED = len(FRONT_LOADS) + 1 + len(RULE_LOADS)
IMAGE_LOADS = (1, KIND)        # what every lookup over an image loads of its front, besides the row
LINE = 16                      # words of a line of 64 bytes
LINKS = 3                      # the words of a cell that a search takes: end, next and down
NEXT = 1                       # the one of them that leads on in a chain
RECORD = 14                    # words of a record of a list
EDIT = 15                      # words of an edit of a list
RULE_ENDS = 12                 # words of a rule's ends, low and high, that an insert is lent

# What a packet's header is read from; with ports the four bytes behind it too.
HEADER_BYTES = {0, 2, 3, 6, 7, 9, *range(12, 20)}

# The commands of trace.c, and where it puts what it lends.
(FILL, GET, START, START_WITH, INSERT, DELETE, CHECK, READ, RULE_AT, DEAD, WORST, CELLS, LOOKUP,
 LOOKUP_PACKET, LOOKUP_TALLY, SCAN, PREFIX, CLEAR, DIFFERENCE, IMAGE_WORDS, FREEZE, IMAGE_CHECK,
 IMAGE_LOOKUP, IMAGE_PACKET, IMAGE_TALLY, IMAGE_WORST, CARRY, CAPTURE_BEGIN,
 CAPTURE_ADD, EDIT_LIST) = range(30)
# the words of these are an image's
IMAGE_CALLS = (IMAGE_CHECK, IMAGE_LOOKUP, IMAGE_PACKET, IMAGE_TALLY, IMAGE_WORST)
BASE, SIZE = 0x300000000, 0x100000
ENDS, TALLIES, PACKET, RECORDS, STORE = 0x1000, 0x2000, 0x4000, 0x8000, 0x10000
IMAGE = 0x80000
STACK = 1 << 20

# A call: what it is asked, the words of the store before it and how many are lent, and what else
# is lent: a packet, a tally record's words, the number of records or edits.
Call = namedtuple('Call', 'op numbers words len packet tallies count')


class Fault(Exception):
    pass


def expect(truth, text, *more):
    if not truth:
        raise Fault(text % more if more else text)


def differences(got, want):
    return 'too much at %s, too little at %s' % (sorted(got - want)[:6], sorted(want - got)[:6])


class Touched:
    """The loads and stores of one call. An access is one number: the address, the
    bytes, and whether it stores. What is lent stands here by its place, as
    (place, bytes)."""

    def __init__(self, accesses, frame, image):
        self.loads, self.stores = [], []
        for access in accesses:
            address, size, stores = access >> 16, access >> 8 & 255, access & 255
            if BASE <= address < BASE + SIZE:
                (self.stores if stores else self.loads).append((address - BASE, size))
            elif not frame - STACK <= address < frame:
                expect(image[0] <= address < image[1] and not stores,
                       '%s at %#x, which is neither lent, nor its stack, nor a constant',
                       'a store' if stores else 'a load', address)

    def only(self, *lent):
        for place, size in self.loads + self.stores:
            expect(any(a <= place and place + size <= a + n for a, n in lent),
                   'it touches %s, which is not its to touch', name(place))

    def loaded(self, first, count, unit=4):
        return units(self.loads, first, count, unit)

    def stored(self, first, count, unit=4):
        return units(self.stores, first, count, unit)


def units(accesses, first, count, unit):
    """The words or bytes from a place on, each as often as it is touched."""
    return Counter(i for place, size in accesses if first <= place < first + count * unit
                   for i in range((place - first) // unit, (place - first + size - 1) // unit + 1))


def name(place):
    if place >= IMAGE:
        return 'word %d from the start of the image' % ((place - IMAGE) // 4)
    if place >= STORE:
        return 'word %d from the start of the store' % ((place - STORE) // 4)
    return 'byte %#x of what is lent' % place


# ---- a lookup

def kind_in(call):
    """The kind that the words name that a call is lent, None where they name none."""
    return kind_of(call.words[:min(call.len, KIND + 1)])


def room_in(call):
    words, kind = call.words, kind_in(call)
    return (kind is not None and LEAST_CELLS <= words[0] <= MOST_CELLS
            and call.len >= words_needed(words[0], kind))


def started(c, length):
    """The words that a start or a carrying makes, of so many: none where it is refused."""
    fits = LEAST_CELLS <= c <= MOST_CELLS and words_needed(c) <= length
    return words_needed(c) if fits else 0


def size_of(call):
    """The words of a call's store or image: behind them nothing may be touched."""
    if call.op in IMAGE_CALLS:
        return call.len
    if call.op in (START, START_WITH):
        return started(call.numbers[0], call.len)
    return words_needed(call.words[0], kind_in(call)) if room_in(call) else call.len


def walk(call, values):
    """The cells of each field that a walk over any words reads, each with 1 or 2 for
    its next or down, and the place that it comes to: none where it is lost."""
    if not room_in(call):
        return [], None
    words, fields, kind = call.words, [], kind_in(call)
    c, cell = words[0], words[link_of(kind, BEGIN)]
    for value in values:
        fields.append([])
        while True:
            if cell >= c or len(fields[-1]) == c:
                return fields, None
            at = kind.front + CELL * cell
            end, following, below = words[at:at + 3]
            fields[-1].append((cell, 2 if end >= value else 1))
            if end >= value:
                break
            cell = following
        cell = below
    place, rest = divmod(cell, ROW)
    return fields, place if not rest and place <= min(words[1], kind.rules) else None


def see_walk(call, values, touched, result):
    fields, place = walk(call, values)
    loaded = touched.loaded(STORE, call.len)
    kind = kind_in(call)
    if kind is None:
        expect(set(loaded) <= set(FRONT_LOADS), 'of words of no kind it loads %s', sorted(loaded))
        return
    cells = Counter(kind.front + CELL * cell + part for field in fields for cell, way in field
                    for part in (0, way))
    front = Counter((*FRONT_LOADS, link_of(kind, BEGIN)))
    if place is not None:
        front.update(row_of(kind, place) + part for part in RULE_LOADS)
        want = cells + front
        reads = sum(map(len, fields))
        expect(result[3] == reads or result[0], 'it counts %d reads, not %d', result[3], reads)
        expect(sum(loaded.values()) == FIXED + 2 * reads,
               'it loads %d words of the store, not %d + 2 x %d: %s', sum(loaded.values()), FIXED,
               reads, differences(loaded, want))
        expect(loaded == want, 'it loads other words than those of a lookup: %s',
               differences(loaded, want))
    else:
        in_cells = Counter({i: n for i, n in loaded.items() if i >= kind.front})
        if fields and len(fields[-1]) == call.words[0]:
            # it stops after c cells, and need not load where the last one leads
            unused = Counter([kind.front + CELL * fields[-1][-1][0] + 1])
            cells -= unused - (in_cells - (cells - unused))
        expect(in_cells == cells, 'it loads other cells than those of the walk: %s',
               differences(in_cells, cells))
        expect(not loaded - cells - front, 'it loads more of the front than a lookup: %s',
               differences(loaded - cells, front))


def image_walk(call, values):
    """The blocks of each field that a walk over any words reads, each with the place of the link
    that is taken, 8 for none, and the place that it comes to: none where it is lost."""
    words, fields, block, kind = call.words[:call.len], [], 0, kind_in(call)
    if kind is None or call.len < kind.front:
        return [], None
    for value in values:
        fields.append([])
        while True:
            at = kind.front + BLOCK * block
            if len(fields[-1]) == DEEPEST or at + BLOCK > call.len:
                return fields, None
            passed = sum(end < value for end in words[at:at + KEYS])
            fields[-1].append((block, passed))
            if passed == KEYS:
                return fields, None
            block = words[at + KEYS + passed]
            if block >= DOWN:
                break
        block -= DOWN
    place, rest = divmod(block, ROW)
    return fields, place if not rest and place <= min(words[1], kind.rules) else None


def see_image_walk(call, values, touched, result):
    """Each block that is counted is loaded once, its ends and the one link that is taken; of the
    front two words and two of the row. So where the image is aligned to lines, a line is touched
    for each block, and at most three of the front."""
    fields, place = image_walk(call, values)
    loaded = touched.loaded(STORE, call.len)
    blocks, kind = Counter(), kind_in(call)
    if kind is None:
        expect(set(loaded) <= set(IMAGE_LOADS), 'of words of no kind it loads %s', sorted(loaded))
        return
    for block, passed in (read for field in fields for read in field):
        at = kind.front + BLOCK * block
        blocks.update(range(at, at + KEYS))
        blocks.update([at + KEYS + passed] * (passed < KEYS))
    front = Counter(IMAGE_LOADS)
    reads = sum(map(len, fields))
    lines = {i // LINE for i in loaded}
    expect(len(lines) <= reads + 3, 'it touches %d lines for %d blocks', len(lines), reads)
    expect(all(len(field) <= DEEPEST for field in fields), 'the walk goes on in a field')
    if place is not None:
        front.update(row_of(kind, place) + part for part in RULE_LOADS)
        expect(result[3] == reads or result[0], 'it counts %d blocks, not %d', result[3], reads)
        expect(loaded == blocks + front, 'it loads other words than those of a lookup: %s',
               differences(loaded, blocks + front))
    else:
        in_blocks = Counter({i: n for i, n in loaded.items() if i >= kind.front})
        if fields and len(fields[-1]) == DEEPEST and fields[-1][-1][1] < KEYS:
            # it stops after 8 blocks, and need not load where the last one leads
            block, passed = fields[-1][-1]
            unused = Counter([kind.front + BLOCK * block + KEYS + passed])
            blocks -= unused - (in_blocks - (blocks - unused))
        expect(in_blocks == blocks, 'it loads other words of blocks than those of the walk: %s',
               differences(in_blocks, blocks))
        expect(not loaded - blocks - front, 'it loads more of the front than a lookup: %s',
               differences(loaded - blocks, front))


def see_lookup(call, touched, values, result, *lent):
    expect(not touched.stored(STORE, call.len), 'it writes words of the store')
    touched.only((STORE, 4 * size_of(call)), *lent)
    if result[0] in (7, 11, 14):
        expect(not touched.loaded(STORE, call.len), 'refused, it reads words of the store')
    else:
        (see_image_walk if call.op in IMAGE_CALLS else see_walk)(call, values, touched, result)


def see_packet(call, touched, result, *lent):
    packet = call.packet
    answer, values = read_header(packet)
    loaded = set(touched.loaded(PACKET, len(packet), 1))
    ports = set() if answer else {4 * (packet[0] & 15) + i for i in range(4)}
    expect(loaded <= HEADER_BYTES | ports, 'it loads other bytes of the packet: %s',
           differences(loaded, HEADER_BYTES | ports))
    expect(not touched.stored(PACKET, len(packet), 1), 'it writes the packet')
    expect(result[0] == answer or not answer and result[0] not in (7, 14),
           'it answers %d where the packet asks for %d', result[0], answer)
    see_lookup(call, touched, values, result, (PACKET, len(packet)), *lent)


def see_tally(call, touched, result):
    """The keys are gone over once, up to the one that is held; one place is written."""
    keys = call.tallies[:PLACES]
    values = read_header(call.packet)[1]
    way = image_walk if call.op == IMAGE_TALLY else walk
    row = None if values is None else way(call, values)[1]
    loads = stores = Counter()
    if row is not None:
        number = call.words[row_of(kind_in(call), row)]
        held = number <= 65535 and number in keys
        free = [i for i, key in enumerate(keys) if key > 65535]
        place = keys.index(number) if held else free[0] if free else None
        loads = Counter(range(place + 1 if held else PLACES))
        if place is not None:
            stores = Counter(place + PLACES * part for part in range(int(held), 3))
    keys = touched.loaded(TALLIES, PLACES)
    written = touched.stored(TALLIES, 3 * PLACES)
    expect(keys == loads, 'it loads other keys: %s', differences(keys, loads))
    expect(set(written) == set(stores), 'it writes other words of the tally record: %s',
           differences(written, stores))
    see_packet(call, touched, result, (TALLIES, 12 * PLACES))


# ---- the other calls

def see_scan(call, touched, result):
    touched.only((RECORDS, 4 * RECORD * call.count))
    expect(not touched.stores, 'it writes its list')
    loaded = touched.loaded(RECORDS, RECORD * call.count)
    expect({i // RECORD for i in loaded} == set(range(call.count)), 'it leaves records out')
    expect(sum(loaded.values()) <= RECORD * call.count, 'it loads more words than its list has')


def see_edit(call, touched, result):
    ends = [(ENDS, 4 * RULE_ENDS)] if call.op == INSERT else []
    touched.only((STORE, 4 * size_of(call)), *ends)
    expect(not touched.stored(ENDS, RULE_ENDS), 'it writes the ends that it was lent')
    stored = touched.stored(STORE, call.len)
    expect(bool(stored) == (result[0] == 0), 'with the answer %d it writes %d words of the store',
           result[0], len(stored))
    if call.op in (INSERT, DELETE) and result[0] == 0:
        checked['stores'] = max(checked.get('stores', 0), cell_stores(call, stored))


def cell_stores(call, stored):
    """The most stores into one word of a cell."""
    return max((n for word, n in stored.items() if word >= kind_in(call).front), default=0)


def see_list(call, touched, result):
    """Refused, it writes no word at all; the edits are never written, none behind the last is
    touched, and where there are none or too many, none is read. The check goes over the cells
    once, and comes alone before this call over the same words; what decides an edit looks at the
    rows alone. Done, it writes no word of a cell more often than a single edit does: the tree is
    dropped once and built once."""
    taken = result[0] == 0
    read = call.count if 1 <= call.count <= MOST_EDITS else 0
    touched.only((STORE, 4 * size_of(call)), (RECORDS, 4 * EDIT * read))
    expect(not touched.stored(RECORDS, EDIT * read), 'it writes its edits')
    expect((result[0] == 15) == (read == 0), 'it answers %d to %d edits', result[0], call.count)
    stored = touched.stored(STORE, call.len)
    expect(bool(stored) == taken, 'with the answer %d it writes %d words of the store', result[0],
           len(stored))
    expect(checked['words'] == list(call.words), 'the check was seen over other words')
    if taken:
        most = cell_stores(call, stored)
        expect(most <= checked['stores'], 'it writes a word of a cell %d times, a single edit %d',
               most, checked['stores'])
        return
    kind = kind_in(call)
    for word, times in touched.loaded(STORE, call.len).items():
        most = checked['loads'][word]
        expect(kind is None or word < kind.front or times <= most,
               'it loads word %d %d times, and %d are enough', word, times, most)


def see_reader(call, touched, result):
    touched.only((STORE, 4 * size_of(call)))
    expect(not touched.stores, 'it writes words of the store')


def see_freeze(call, touched, result):
    """Every word of the image is written and none behind it; with a refusal none is touched."""
    room, total = call.numbers
    taken = result[0] == 0
    touched.only((STORE, 4 * size_of(call)), (IMAGE, 4 * total * taken))
    expect(not touched.stored(STORE, call.len), 'it writes words of the store')
    expect(result[0] == (0 if room >= total else 8) or result[0] == 9,
           'it answers %d for a slice of %d words, and the total is %d', result[0], room, total)
    stored = touched.stored(IMAGE, room)
    expect(set(stored) == set(range(total * taken)), 'it writes other words of the image: %s',
           differences(set(stored), set(range(total * taken))))


def see_carry(call, touched, result):
    """Every word of the new store is written and none behind it; with a refusal none is touched.
    No word of the old one is written."""
    room, c = call.numbers
    taken = result[0] == 0
    total = started(c, room) * taken
    touched.only((STORE, 4 * size_of(call)), (IMAGE, 4 * total))
    expect(not touched.stored(STORE, call.len), 'it writes words of the old store')
    expect(result[0] != 0 or total, 'it takes %d cells in %d words', c, room)
    stored = touched.stored(IMAGE, room)
    expect(set(stored) == set(range(total)), 'it writes other words of the new store: %s',
           differences(set(stored), set(range(total))))


def see_written(call, touched, result):
    """Exactly the bytes that it says are written, each of them; of the output none is loaded, and
    of the data each byte is. With a refusal neither output nor data is touched. The header asks
    for no data."""
    length, out, *more = call.numbers
    data, size = more[-1] if more else 0, len(call.packet)
    if call.op == CAPTURE_BEGIN:
        answer, total = (0, 24) if length >= 24 else (8, 0)
    else:
        answer = 12 if size > 16384 else 8 if length < 16 + size else 0
        total = 0 if answer else 16 + size
    expect((result[0], result[1]) == (answer, total), 'it gives %s', list(result[:2]))
    read = size if call.op == CAPTURE_ADD and answer == 0 else 0
    out += IMAGE
    touched.only((out, total), (PACKET + data, read))
    stored = set(touched.stored(out, total, 1))
    expect(stored == set(range(total)), 'it writes other bytes of the output: %s',
           differences(stored, set(range(total))))
    expect(not touched.loaded(out, total, 1), 'it reads bytes of its output')
    expect(not touched.stored(PACKET + data, read, 1), 'it writes the data')
    loaded = set(touched.loaded(PACKET + data, read, 1))
    expect(loaded == set(range(read)), 'it reads other bytes of the data: %s',
           differences(loaded, set(range(read))))


# The words over which the check was seen last, and how often it loads each of them; and how often
# a single edit writes a word of a cell, at most. Both are the compiler's own choice.
checked = {}


def see_check(call, touched, result):
    see_reader(call, touched, result)
    checked.update(words=list(call.words), loads=touched.loaded(STORE, call.len))


def see_dead(call, touched, result):
    """The check goes over the cells once. Then, where no refusal is due, the tree is gone
    through, at most once: free cells are not in it. The check alone, over the same words, has
    come before."""
    see_reader(call, touched, result)
    expect(checked['words'] == list(call.words), 'the check was seen over other words')
    kind = kind_in(call)
    for word, times in touched.loaded(STORE, call.len).items():
        cell, part = divmod(word - kind.front, CELL) if kind else (-1, 0)
        if cell >= 0:
            tree = result[0] == 0 and part < LINKS and cell < call.words[link_of(kind, FREE)]
            most = checked['loads'][word] + tree
            expect(times <= most, 'it loads word %d of cell %d %d times, and %d are enough', part,
                   cell, times, most)


def see_worst(call, touched, result):
    """As dead, but the tree is gone through to its end: each of its cells is come by once more
    than the check does, and where its chain leads on is loaded."""
    see_dead(call, touched, result)
    if result[0] == 0:
        loaded, kind = touched.loaded(STORE, call.len), kind_in(call)
        for cell in range(call.words[link_of(kind, FREE)]):
            word = kind.front + CELL * cell + NEXT
            once = checked['loads'][word] + 1
            expect(loaded[word] == once, 'it loads the next of cell %d %d times, not %d', cell,
                   loaded[word], once)


def see_image_check(call, touched, result):
    see_reader(call, touched, result)
    checked.update(image=(list(call.words), call.len), image_loads=touched.loaded(STORE, call.len))


def see_image_worst(call, touched, result):
    """The image check goes over the words once. Then, where it passes, the rows are gone through:
    no block is looked at again, and of the front no word but the number of rules, the kind and
    the rows.
    The check alone, over the same words, has come before."""
    see_reader(call, touched, result)
    expect(checked['image'] == (list(call.words), call.len), 'the check was seen over other words')
    kind = kind_in(call)
    for word, times in touched.loaded(STORE, call.len).items():
        rows = result[0] == 0 and (word == 1 or row_of(kind, 0) <= word < row_of(kind, kind.rules + 1))
        # the kind is looked at for the check, and once more for the rows
        most = checked['image_loads'][word] + (word == KIND)
        expect(rows or times <= most, 'it loads word %d %d times, and %d are enough', word, times,
               most)


def see(call, touched, result):
    """Raises a Fault where a call does not touch what it should, or more."""
    if call.op in (LOOKUP, IMAGE_LOOKUP):
        see_lookup(call, touched, call.numbers, result)
    elif call.op == CLEAR:
        touched.only((TALLIES, 12 * PLACES))
    elif call.op in (PREFIX, DIFFERENCE):
        touched.only()
    else:
        {LOOKUP_PACKET: see_packet, LOOKUP_TALLY: see_tally, SCAN: see_scan, CHECK: see_check,
         READ: see_reader, RULE_AT: see_reader, DEAD: see_dead, WORST: see_worst,
         CELLS: see_reader, IMAGE_WORDS: see_reader, IMAGE_CHECK: see_image_check,
         IMAGE_WORST: see_image_worst, FREEZE: see_freeze, CARRY: see_carry, IMAGE_PACKET: see_packet,
         CAPTURE_BEGIN: see_written, CAPTURE_ADD: see_written, EDIT_LIST: see_list,
         IMAGE_TALLY: see_tally}.get(call.op, see_edit)(call, touched, result)
