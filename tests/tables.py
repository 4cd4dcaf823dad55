"""Random rules, values and packets for the tests.

Rule types and prefix lengths are those of source document 001, tables 5.1
and 5.2; the model with probabilities for each field is its section 4.2.4.
"""

from reference import PORTLESS, PORTS, TOPS, Rule, ends

# Table 5.2: prefix length, probability in percent.
PREFIX_LENGTHS = ((8, 5), (12, 1), (16, 25), (20, 6), (22, 1), (24, 45), (27, 1), (28, 15), (30, 1))

# Table 5.1: source, destination, protocol, source port, destination port.
RULE_TYPES = [row.split() for row in '''
ip      -       -    -      -
prefix  -       -    -      -
-       ip      -    -      -
-       prefix  -    -      -
client  ip      -    -      -
client  prefix  -    -      -
-       -       tcp  port   -
-       -       tcp  ports  -
-       -       tcp  -      port
-       -       tcp  -      ports
client  -       tcp  port   -
client  -       tcp  ports  -
client  -       tcp  -      port
client  -       tcp  -      ports
-       server  tcp  port   -
-       server  tcp  ports  -
-       server  tcp  -      port
-       server  tcp  -      ports
client  server  tcp  port   -
client  server  tcp  ports  -
client  server  tcp  -      port
client  server  tcp  -      ports
'''.strip().split('\n')]

STYLES = ('types', 'model', 'corners', 'wide', 'line', 'again')

# What a rule can ask in field 6: packets with ports, packets without, both.
CHOICES = ((0, 0), (1, 1), (0, 1))


def narrow(spans):
    """Whether some port range is not full."""
    return any(spans[port] != (0, TOPS[port]) for port in PORTS)


class World:
    """One case's supply of rules. Values come from small pools now and then,
    so that ends meet, touch and repeat."""

    def __init__(self, rng, styles=None):
        self.rng = rng
        self.styles = styles or rng.sample(STYLES, rng.choice((1, 1, 2, 3)))
        self.pools = [self.pool(top) for top in TOPS]
        self.client, self.server = self.value(1), self.value(0)
        self.wildcard = [rng.choice((0.2, 0.5, 0.8, 0.95)) for _ in TOPS]
        self.point = [rng.choice((0.1, 0.5, 0.9)) for _ in TOPS]
        self.field = rng.randrange(len(TOPS))
        self.made = []
        self.numbers = rng.choice((
            range(0, 12), range(0, 65535), range(100, 200), (0, 1, 2, 65532, 65533, 65534)))

    def pool(self, top):
        rng = self.rng
        middle = rng.randint(0, top)
        values = [0, 1, min(2, top), top, top - 1, middle, max(middle - 1, 0), min(middle + 1, top)]
        values += [rng.randint(0, top) for _ in range(4)]
        return rng.sample(values, rng.randint(2, len(values)))

    def value(self, field):
        rng = self.rng
        if rng.random() < 0.4:
            return rng.choice(self.pools[field])
        return rng.randint(0, TOPS[field])

    def span(self, field):
        a, b = self.value(field), self.value(field)
        return min(a, b), max(a, b)

    def network(self, field):
        lengths, weights = zip(*PREFIX_LENGTHS)
        block = 2 ** (32 - self.rng.choices(lengths, weights)[0])
        low = self.value(field) // block * block
        return low, low + block - 1

    def match(self, word, field):
        if word == '-':
            return 0, TOPS[field]
        if word == 'prefix':
            return self.network(field)
        if word == 'ports':
            return self.span(field)
        value = {'client': self.client, 'server': self.server, 'tcp': 6}.get(word)
        value = self.value(field) if value is None else value
        return value, value

    def model_match(self, field):
        if self.rng.random() < self.wildcard[field]:
            return 0, TOPS[field]
        if self.rng.random() < self.point[field]:
            value = self.value(field)
            return value, value
        return self.network(field) if field < 2 else self.span(field)

    def spans(self):
        """A range for each field, by the port rule."""
        spans = list(self.any_spans())
        if narrow(spans):
            spans[PORTLESS] = (0, 0)
        return spans

    def any_spans(self):
        rng = self.rng
        style = rng.choice(self.styles)
        if style == 'again' and self.made:
            return rng.choice(self.made)
        if style == 'types':
            source, destination, protocol, source_port, destination_port = rng.choice(RULE_TYPES)
            words = (destination, source, protocol, destination_port, source_port)
            return [self.match(word, field) for field, word in enumerate(words)] + [
                rng.choice(CHOICES + ((0, 1),) * 2)]
        if style == 'corners':
            pairs = [sorted(rng.choices(pool, k=2)) for pool in self.pools]
            return [(0, top) if rng.random() < 0.4 else tuple(pair)
                    for pair, top in zip(pairs, TOPS)]
        if style == 'wide':
            return [self.span(field) for field in range(len(TOPS))]
        if style == 'line':
            return [self.span(f) if f == self.field else (0, top) for f, top in enumerate(TOPS)]
        return [self.model_match(field) for field in range(len(TOPS))]

    def number(self):
        rng = self.rng
        return rng.choice(self.numbers) if rng.random() < 0.95 else rng.randrange(65535)

    def action(self):
        return self.rng.choice((0, 1, 2, 3, 65535, 4294967295, self.rng.getrandbits(32)))

    def rule(self, number=None):
        spans = self.spans()
        self.made.append(spans)
        return Rule(self.number() if number is None else number, self.action(),
                    tuple(low for low, _ in spans), tuple(high for _, high in spans))

    def bad_rule(self, numbers):
        """A rule with one or more things wrong: its number, its ends."""
        rng = self.rng
        rule = self.rule()
        number, low, high = rule.number, list(rule.low), list(rule.high)
        wrong = rng.choice(('number', 'ends', 'top', 'there', 'number ends', 'there ends',
                            'number there', 'ends top', 'ports', 'ports', 'number ports',
                            'there ports', 'ends ports'))
        if 'there' in wrong and numbers:
            number = rng.choice(numbers)
        if 'number' in wrong:
            number = rng.choice((65535, 65536, 65537, 131071, 2 ** 31, 2 ** 32 - 1, number + 65536))
        if 'ends' in wrong:
            field = rng.randrange(len(TOPS))
            low[field], high[field] = rng.choice((
                (high[field] + 1 if high[field] < TOPS[field] else high[field], high[field]),
                (1, 0), (TOPS[field], TOPS[field] - 1), (2 ** 32 - 1, 0)))
        if 'top' in wrong:
            field = rng.randrange(2, len(TOPS))
            high[field] = rng.choice((TOPS[field] + 1, 2 ** 32 - 1, TOPS[field] + 65536))
            if rng.random() < 0.3:
                low[field] = high[field]
        if 'ports' in wrong:
            # some port is narrow by as little as can be or by much, and field 6 asks too much
            for port in rng.choice(((3,), (4,), PORTS)):
                low[port], high[port] = rng.choice((
                    (1, 65535), (0, 65534), (0, 0), (65535, 65535), (0, 1023), self.span(port)))
            low[PORTLESS], high[PORTLESS] = rng.choice(CHOICES[1:])
        return Rule(number, rule.action, tuple(low), tuple(high))


def values_near(rng, rules):
    """Six values: at and around the ends of rules, inside one rule, or
    anywhere."""
    chosen = rng.choice(rules)
    aimed = rng.random() < 0.6
    values = []
    for field, top in enumerate(TOPS):
        rule = chosen if aimed else rng.choice(rules)
        low, high = rule.low[field], rule.high[field]
        kind = rng.randrange(10)
        if kind < 4:
            value = rng.choice((low, high))
        elif kind < 6:
            value = rng.randint(low, high)
        elif kind < 8:
            value = rng.choice((low - 1, high + 1, rng.choice(ends(rule, field)) + 1))
        elif kind < 9:
            value = rng.choice((0, top))
        else:
            value = rng.randint(0, top)
        values.append(min(max(value, 0), top))
    return tuple(values)


def values_above(rng, values):
    """The same with one value or more above its top."""
    values = list(values)
    for field in rng.sample((2, 3, 4, 5), rng.choice((1, 1, 2, 3, 4))):
        values[field] = rng.choice((TOPS[field] + 1, 2 ** 32 - 1, TOPS[field] + 1 + values[field]))
    return tuple(values)


def packet_of(values, words=5, flags=0, offset=0, total=None, options=None, behind=b'', first=None,
              junk=bytes(12)):
    """An IPv4 packet with these values, of which the sixth, portless, is what
    protocol and offset make it; `first` overrides its first byte."""
    destination, source, protocol, destination_port, source_port = values[:5]
    options = bytes(4 * max(words - 5, 0)) if options is None else options
    body = options + source_port.to_bytes(2, 'big') + destination_port.to_bytes(2, 'big') + behind
    total = 20 + len(body) if total is None else total
    return bytes(((64 + words if first is None else first), junk[0])) + total.to_bytes(2, 'big') + (
        junk[1:3] + (flags << 13 | offset).to_bytes(2, 'big') + bytes((junk[3], protocol)) +
        junk[4:6] + source.to_bytes(4, 'big') + destination.to_bytes(4, 'big') + body)


def random_packet(rng, rules):
    """Mostly readable packets, and all the ways to be nearly so."""
    kind = rng.randrange(12)
    if kind == 0:
        return rng.randbytes(rng.choice((0, 1, 19, 20, 21, 24, 28, 60, rng.randint(0, 100))))
    values = list(values_near(rng, rules))
    if rng.random() < 0.7:
        values[2] = rng.choice((6, 17))
    words = rng.choice((5, 5, 5, 6, 15, rng.randint(5, 15)))
    later = (1, 8191, 4096, 256, 255, rng.randrange(8192))
    packet = bytearray(packet_of(
        values, words, rng.randrange(8),
        rng.choice(later if values[PORTLESS] and rng.random() < 0.5 else (0,) * 10 + later),
        options=rng.randbytes(4 * words - 20), behind=rng.randbytes(rng.choice((0, 0, 4, 8, 100))),
        junk=rng.randbytes(12)))
    if kind == 1:
        packet[0] = rng.choice((packet[0] & 15 | rng.randrange(16) << 4, 64 | rng.randrange(16)))
    if kind in (2, 3):
        total = 4 * words + rng.choice((-1, 0, 1, 3, 4, 5, 8))
        packet[2:4] = total.to_bytes(2, 'big')
    if kind == 4:
        packet[2:4] = (len(packet) + rng.choice((-1, 0, 1, 256))).to_bytes(2, 'big')
    if kind == 5:
        return bytes(packet[:rng.randint(0, len(packet))])
    if kind == 6:
        packet += rng.randbytes(rng.choice((1, 2, 20, 1500)))
    if kind == 7:
        place = rng.randrange(min(len(packet), 24))
        packet[place] = rng.randrange(256)
    return bytes(packet)
