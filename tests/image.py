"""All words of an image, its check, and the walk over any words: as docs/STORE.md and the manual
in reamstork.h tell them.

Request P8 leaves the layout to the project, so reference.py knows none. An image is built here
from the rules: no store and no cell is in it.
"""

from functools import lru_cache

from laid import ROW, front_of, kind_of, row_of, table_in
from reference import LARGE, MOST_CELLS, TOPS, count_cells, ends, read_header

BLOCK, KEYS = 16, 8               # words of a block, ends of a block
UNUSED = 2 ** 32 - 1              # an end that is not used
DOWN = 2 ** 31                    # the mark of a link down
DEEPEST = 8                       # blocks of one field
REFUSED = (9, 0, 0, 0)


@lru_cache(maxsize=64)
def image(table, kind=LARGE):
    """The words of the image of a table, a tuple of rules with the default among them, in a
    store of this kind."""
    *rules, default = sorted(table, key=lambda rule: rule.number)
    rows = [default] + rules
    words = front_of(kind, 0, rows) + [0, 0]
    blocks = []

    def chain(held, field):
        """Lays the ends of some rules, by their rows, and what is below them."""
        found = sorted({end for row in held for end in ends(rows[row], field)})
        # the levels from the lowest up, each as the ends that it has
        each = [found]
        sizes = [-(-len(found) // KEYS)]
        while sizes[-1] > 1:
            below = each[-1] + [UNUSED] * (KEYS * sizes[-1] - len(each[-1]))
            each.append(below[KEYS - 1::KEYS])
            sizes.append(-(-len(each[-1]) // KEYS))
        # where each level begins, the root's first
        begins, at = {}, len(blocks)
        for level in reversed(range(len(each))):
            begins[level] = at
            at += sizes[level]
        blocks.extend([UNUSED] * KEYS + [0] * KEYS for _ in range(sum(sizes)))
        for level, keys in enumerate(each):
            for place, end in enumerate(keys):
                if level:
                    link = begins[level - 1] + place
                else:
                    covering = [row for row in held
                                if rows[row].low[field] <= end <= rows[row].high[field]]
                    if field + 1 < len(TOPS):
                        link = DOWN + len(blocks)
                        chain(covering, field + 1)
                    else:
                        link = DOWN + ROW * min(covering, key=lambda row: rows[row].number)
                block = blocks[begins[level] + place // KEYS]
                block[place % KEYS], block[KEYS + place % KEYS] = end, link

    chain(range(len(rows)), 0)
    for block in blocks:
        words += block
    return tuple(words)


@lru_cache(maxsize=64)
def held_by_a_store(table):
    return count_cells(table, MOST_CELLS) <= MOST_CELLS


def image_check(words):
    """0 where the words, all of them, are the image of a table that some store holds; or 9."""
    kind = kind_of(words)
    if kind is None or len(words) < kind.front:
        return 9
    table = table_in(tuple(words[:kind.front]))
    if table is None or not held_by_a_store(table):
        return 9
    return 0 if tuple(words) == image(table, kind) else 9


def image_walk(words, values):
    """(answer, rule, action, blocks) for the words that a lookup is lent."""
    kind = kind_of(words)
    if kind is None or len(words) < kind.front:
        return REFUSED
    link, reads = 0, 0
    for value in values:
        for _ in range(DEEPEST):
            at = kind.front + BLOCK * link
            block = words[at:at + BLOCK]
            if len(block) < BLOCK:
                return REFUSED
            reads += 1
            place = sum(end < value for end in block[:KEYS])
            if place == KEYS:
                return REFUSED
            link = block[KEYS + place]
            if link >= DOWN:
                break
        else:
            return REFUSED
        link -= DOWN
    place, rest = divmod(link, ROW)
    if rest or place > words[1] or place > kind.rules:
        return REFUSED
    row = row_of(kind, place)
    return (0, words[row], words[row + 1], reads)


def image_walk_packet(words, packet):
    """The same for a packet, whose own refusals come first."""
    answer, values = read_header(packet)
    return (answer, 0, 0, 0) if answer else image_walk(words, values)
