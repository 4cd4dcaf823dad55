"""A table as text: what the command reamstork prints, and all the ways to write one.

Written from the request and the command's manual alone; it shares no code with the command.
"""

from reference import LARGE, TOPS, prefix
from tables import narrow

NAMES = {1: 'icmp', 6: 'tcp', 17: 'udp'}
CHOICES = {(0, 0): 'with', (1, 1): 'without', (0, 1): 'any'}
COLUMNS = 'destination source protocol dport sport ports'


def dotted(number):
    return '.'.join(str(number >> shift & 255) for shift in (24, 16, 8, 0))


def length_of(low, high):
    """The length of the prefix that a range is, None where it is none."""
    return next((n for n in range(33) if prefix(low, n) == (0, low, high)), None)


# ---- what is printed ----

def shown_addresses(low, high):
    length = length_of(low, high)
    if length is None:
        return '%s-%s' % (dotted(low), dotted(high))
    return 'any' if length == 0 else dotted(low) + ('' if length == 32 else '/%d' % length)


def shown_range(field, low, high):
    if (low, high) == (0, TOPS[field]):
        return 'any'
    if low != high:
        return '%d-%d' % (low, high)
    return NAMES.get(low, str(low)) if field == 2 else str(low)


def shown_rule(rule):
    spans = list(zip(rule.low, rule.high))
    return ' '.join([str(rule.number), str(rule.action)]
                    + [shown_addresses(*span) for span in spans[:2]]
                    + [shown_range(field, *spans[field]) for field in (2, 3, 4)]
                    + [CHOICES[spans[5]]])


def shown(account):
    """What show prints of a store."""
    first = ('load with --cells %d for the same words' if account.kind == LARGE else
             'from a small store of %d cells: load makes a large one') % account.c
    rules = ''.join(shown_rule(rule) + '\n' for rule in account.table()[:-1])
    return '# %s\ndefault %d\n# number action %s\n%s' % (
        first, account.default.action, COLUMNS, rules)


def shown_values(values):
    return '%s %s %s %d %d %s' % (dotted(values[0]), dotted(values[1]),
                                  NAMES.get(values[2], values[2]), values[3], values[4],
                                  CHOICES[values[5], values[5]])


def shown_sheet(account, read=None, fixed=None):
    """What sheet prints; the costs are in picoseconds."""
    reads, blocks = account.worst(), account.image_worst()
    n, words = len(account.rules), account.image_words()[1]
    rows = [('rules', '%d of %d' % (n, account.kind.rules)),
            ('cells', '%d in use of %d' % (account.cells()[1], account.c)),
            ('least reads', '6 by ' + shown_values((0,) * 6)),
            ('greatest reads', '%d by %s' % (reads[1], shown_values(reads[2:]))),
            ('bounds of reads', '%d in a field, %d in all' % (2 * n + 1, 7 * n + 6)),
            ('image', '%d words, %d blocks' % (words, (words - account.kind.front) // 16)),
            ('greatest blocks', '%d by %s' % (blocks[1], shown_values(blocks[2:])))]
    if read is not None:
        for name, count in (('least time', 6), ('greatest time', reads[1]),
                            ('bound of times', 7 * n + 6)):
            time = '%d.%03d' % divmod(fixed + count * read, 1000)
            rows.append((name, time.rstrip('0').rstrip('.') + ' ns'))
    return '# values in the order: %s\n' % COLUMNS + ''.join('%-16s %s\n' % row for row in rows)


def shown_lives(account):
    """What dead prints."""
    out = 'rule %s\n' % COLUMNS
    for rule in account.table():
        life = account.dead(rule.number)
        out += '%d %s\n' % (rule.number, 'dead' if life[1] else shown_values(life[2:]))
    return out


def shown_decisions(account, packets, others, ending=0):
    """What decide prints of packets, some of which are others than IPv4: a line for each, and
    the sums."""
    lines, tally = ['packet answer rule action reads'], {}
    greatest = place = refused = 0
    for number, packet in enumerate(packets, 1):
        found = account.lookup_packet(packet)
        lines.append('%d %d %d %d %d' % ((number,) + found))
        if found[0]:
            refused += 1
            continue
        count = tally.setdefault(found[1], [0, 0])
        count[0] += 1
        count[1] += packet[2] * 256 + packet[3]
        if found[3] > greatest:
            greatest, place = found[3], number
    lines += ['end %d %d' % (len(packets), ending), 'rule packets bytes']
    lines += ['%d %d %d' % (rule.number, *tally.get(rule.number, (0, 0)))
              for rule in account.table()]
    lines.append('refused %d, of these without IPv4 %d' % (refused, others))
    worst = account.worst()[1]
    if place:
        lines.append('greatest reads %d by packet %d, worst of the table %d' % (
            greatest, place, worst))
    else:
        lines.append('no packet decided, worst of the table %d' % worst)
    return '\n'.join(lines) + '\n'


# ---- what may be written ----

class Speller:
    """Writes rules in any of the ways that a table may be written in."""

    def __init__(self, rng):
        self.rng = rng
        self.ending = rng.choice(('\n', '\n', '\r\n'))

    def span(self, field, low, high):
        some = ['%s-%s' % ((dotted(low), dotted(high)) if field < 2 else (low, high))]
        if (low, high) == (0, TOPS[field]):
            some += ['any'] * 3
        if field < 2 and length_of(low, high) is not None:
            some.append('%s/%d' % (dotted(low), length_of(low, high)))
        if low == high:
            some.append(dotted(low) if field < 2 else str(low))
            if field == 2 and low in NAMES:
                some.append(NAMES[low])
        return self.rng.choice(some)

    def rule(self, rule):
        spans = list(zip(rule.low, rule.high))
        words = [str(rule.number), str(rule.action)]
        words += [self.span(field, *spans[field]) for field in range(5)]
        if spans[5] != ((0, 0) if narrow(spans) else (0, 1)) or self.rng.random() < 0.5:
            words.append(CHOICES[spans[5]])
        return self.join(words)

    def join(self, words):
        rng = self.rng
        line = rng.choice(('', '', ' ', '\t'))
        for word in words[:-1]:
            line += word + rng.choice((' ', ' ', '\t', '   '))
        return line + words[-1] + rng.choice(('', '', ' ', '# 1 2 any', ' # a crane, grúa', '\t#'))

    def table(self, action, rules):
        """The bytes of a table with its rules in this order, and the line of each."""
        rng = self.rng
        lines = [self.rule(rule) for rule in rules]
        first = rng.choice((0, 0, rng.randint(0, len(rules))))
        lines.insert(first, self.join(['default', str(action)]))
        text, places = [], []
        for line in lines:
            while rng.random() < 0.2:
                text.append(rng.choice(('', '#', '# comment', '  ', '#' * 5000)))
            text.append(line)
            places.append(len(text))
        del places[first]
        ending = '' if self.ending == '\n' and rng.random() < 0.1 else self.ending
        return (self.ending.join(text) + ending).encode(), places
