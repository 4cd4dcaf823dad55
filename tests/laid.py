"""All words of a store, as docs/STORE.md tells its layout.

Document 01 leaves the layout to the project, so reference.py knows none. This
page is written from STORE.md alone. It lays any rules, also such as no insert
takes, by rising number as they are given: so a test can have words in which
one thing alone is wrong, and all that follows from the rules is right.
"""

from functools import lru_cache

from reference import (DEFAULT, KINDS, LARGE, LEAST_CELLS, MOST_CELLS, SMALL, TOPS, Account, Rule,
                       ends, range_fault, words_needed)

KIND = 2                        # the word that names the kind
MARK = {SMALL: 0, LARGE: 4}     # what it says
HEAD = {SMALL: 47, LARGE: 495}  # words before the rows
ROW, CELL = 15, 8               # words of a row, words of a cell
FREE, BEGIN = -2, -1            # the two links, the last words of the front


def kind_of(words):
    """The kind that word 2 names; None where it names none, or is not there."""
    return next((kind for kind in KINDS if len(words) > KIND and words[KIND] == MARK[kind]), None)


def row_of(kind, place):
    """The word at which the row of a place begins, from 1 on; 0 is the default's."""
    return HEAD[kind] + ROW * place


def link_of(kind, link):
    """The word of one of the two links."""
    return kind.front + link


def places_of(kind):
    """Words of every part of a front of a store with three rules, and of its first cell: of the
    head, of the rows that are used and of those that are not, the links."""
    head, front = HEAD[kind], kind.front
    return [head - 1, head, head + 2, head + 3, head + 13, head + 14, head + 17, head + 23,
            head + 29, head + 32, head + 44, head + 59, head + 60, head + 74, head + 75,
            front - 24, front - 3, front - 2, front - 1, front, front + 1, front + 2, front + 3]


def front_of(kind, c, rules):
    """The words in front of the cells or blocks but the two links."""
    words = [c, len(rules) - 1, MARK[kind]] + [0] * (HEAD[kind] - 3)
    for rule in rules:
        row = [rule.number, rule.action]
        for span in zip(rule.low, rule.high):
            row += span
        words += row + [0] * (ROW - len(row))
    return words + [0] * (kind.front - 2 - len(words))


def laid(c, rules, kind=LARGE):
    """The words of a store of c cells. The rules are the default and then the
    others by rising number; None where they take more than c cells."""
    cells = []

    def run(held, field):
        """Lays the chain of some rules, by their rows, and all below it; gives
        the cell where its walk begins."""
        first = len(cells)
        found = sorted({end for row in held for end in ends(rules[row], field)}, reverse=True)
        if first + len(found) > c:
            raise OverflowError
        for place, end in enumerate(found):
            cells.append([end, first + place - 1 if place else c, 0])
        for place, end in enumerate(found):
            covering = [row for row in held
                        if rules[row].low[field] <= end <= rules[row].high[field]]
            if field + 1 < len(TOPS):
                cells[first + place][2] = run(covering, field + 1)
            else:
                cells[first + place][2] = ROW * min((row for row in covering if row), default=0)
        return first + len(found) - 1

    try:
        begin = run(list(range(len(rules))), 0)
    except OverflowError:
        return None
    words = front_of(kind, c, rules) + [len(cells), begin]
    for cell in cells:
        words += cell + [0] * (CELL - 3)
    for free in range(len(cells), c):
        words += [0, free + 1] + [0] * (CELL - 2)
    return words


@lru_cache(maxsize=64)
def table_in(words):
    """The table that the words of a front hold, None where it is none within the limits."""
    kind, n = kind_of(words), words[1]
    if kind is None or n > kind.rules:
        return None
    rules = []
    for row in range(n + 1):
        number, action, *spans, _ = words[row_of(kind, row):][:ROW]
        rules.append(Rule(number, action, tuple(spans[::2]), tuple(spans[1::2])))
    default, *others = rules
    numbers = [rule.number for rule in others]
    if default.number != DEFAULT or (default.low, default.high) != ((0,) * 6, TOPS):
        return None
    if numbers != sorted(set(numbers)) or any(number >= DEFAULT for number in numbers):
        return None
    if any(range_fault(rule.low, rule.high) for rule in others):
        return None
    return tuple(rules)


def account_in(words):
    """The account of the store that the words hold, None where they fail the check: the table in
    the front, if it is one, has to be laid in just these words."""
    kind = kind_of(words)
    if kind is None or not LEAST_CELLS <= words[0] <= MOST_CELLS:
        return None
    c, n = words[0], words_needed(words[0], kind)
    if len(words) < n:
        return None
    table = table_in(tuple(words[:kind.front]))
    if table is None or laid(c, table, kind) != list(words[:n]):
        return None
    account = Account(kind, c, table[0].action)
    account.rules = {rule.number: rule for rule in table[1:]}
    return account
