"""The walk of a lookup over any words, as the manual in reamstork.h tells it.

Document 01 leaves the layout of a store to the project and has the answer of
a lookup over words that fail the check follow the walk written in docs/. So
this page is written from the manual, with the places of words from laid.py, which is
written from STORE.md; reference.py knows no layout.
"""

from laid import BEGIN, CELL, ROW, kind_of, link_of, row_of
from reference import read_header, words_needed

REFUSED = (9, 0, 0, 0)


def walk(words, values):
    """(answer, rule, action, reads) for the words that a lookup is lent."""
    kind = kind_of(words)
    if kind is None:
        return REFUSED
    if not 6 <= words[0] <= 65536 or len(words) < words_needed(words[0], kind):
        return REFUSED
    c, cell, reads = words[0], words[link_of(kind, BEGIN)], 0
    for value in values:
        for _ in range(c):
            if cell >= c:
                return REFUSED
            at = kind.front + CELL * cell
            end, following, below = words[at:at + 3]
            reads += 1
            if end >= value:
                break
            cell = following
        else:
            return REFUSED
        cell = below
    place, rest = divmod(cell, ROW)
    if rest or place > words[1] or place > kind.rules:
        return REFUSED
    row = row_of(kind, place)
    return (0, words[row], words[row + 1], reads)


def walk_packet(words, packet):
    """The same for a packet, whose own refusals come first."""
    answer, values = read_header(packet)
    return (answer, 0, 0, 0) if answer else walk(words, values)
