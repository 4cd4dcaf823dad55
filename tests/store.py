"""A store of the driver's beside the reference's account of it."""

import drive
from drive import Disagreement
from laid import laid
from reference import DEFAULT, KINDS, LARGE, Account, list_answer, words_needed
from tables import values_above, values_near

HOWS = (drive.GUARDED, drive.GUARDED, drive.END_AT_WALL, drive.FRONT_AT_WALL)


class Store:
    """A store of the driver's beside the reference's account of it. Each call
    is queued with what the account says must come back."""

    def __init__(self, talk, length, how=drive.GUARDED, fill=1):
        self.talk, self.length, self.account = talk, length, Account()
        self.id = talk.make(length, how, fill)

    @property
    def kind(self):
        return self.account.kind

    def lay(self, kind, c, action=0, rules=()):
        """A table in a store of either kind, laid by the reference: no call starts a small one,
        and hundreds of inserts into many cells take long."""
        self.account = Account(kind, c, action)
        self.account.rules = {rule.number: rule for rule in rules}
        self.talk.set(self.id, 0, laid(c, [self.account.default, *sorted(rules)], kind))
        self.talk.holds(self.id, words_needed(c, kind))

    def carry(self, other, c):
        """Carries another store's table into this one."""
        want = self.account.carry(other.account, self.length, c)
        self.talk.carry(other.id, self.id, c, want)
        return want

    def start(self, c, action=None):
        if action is None:
            want = self.account.start(self.length, c)
            self.talk.start(self.id, c, want)
        else:
            want = self.account.start(self.length, c, action)
            self.talk.start_with(self.id, c, action, want)
        return want

    def insert(self, rule):
        want = self.account.insert(*rule)
        self.talk.insert(self.id, rule, want)
        return want

    def delete(self, number):
        want = self.account.delete(number)
        self.talk.delete(self.id, number, want)
        return want

    def edit_list(self, edits):
        want = list_answer(self.account, edits)
        self.talk.edit_list(self.id, edits, want)
        return want

    def read(self, number):
        self.talk.read(self.id, number, self.account.read(number))

    def rule_at(self, place):
        self.talk.rule_at(self.id, place, self.account.rule_at(place))

    def dead(self, number):
        want = self.account.dead(number)
        self.talk.dead(self.id, number, want)
        return want

    def worst(self):
        want = self.account.worst()
        self.talk.worst(self.id, want)
        return want

    def lookup(self, values):
        self.talk.lookup(self.id, values, self.account.lookup(values))

    def packet(self, packet):
        self.talk.packet(self.id, packet, self.account.lookup_packet(packet))

    def load(self, rules):
        """Inserts many rules whose tree has room. Only the whole is counted: fewer rules take
        no more cells."""
        for rule in rules:
            self.account.rules[rule.number] = rule
            self.talk.insert(self.id, rule, 0)
        expect(self.account.cells()[1] <= self.account.c and len(self.account.rules) <= self.kind.rules,
               'a table has no room')

    def audit(self, rng, lookups=6, reads=64):
        """Everything that can be asked after an edit."""
        account, talk = self.account, self.talk
        talk.check(self.id, 0)
        talk.cells(self.id, account.cells())
        numbers = list(account.rules)
        for number in numbers if len(numbers) <= reads else rng.sample(numbers, reads):
            self.read(number)
        self.read(DEFAULT)
        self.read(rng.choice((65536, 2 ** 32 - 1, rng.randrange(65535), 65534, 0)))
        for place in {0, 1, len(numbers), len(numbers) + 1, rng.randint(1, self.kind.rules + 1),
                      rng.choice((65, 513, 2 ** 16, 2 ** 32 - 1, rng.getrandbits(32)))}:
            self.rule_at(place)
        self.dead(rng.choice(numbers + [DEFAULT]))
        self.dead(rng.choice((DEFAULT, 65534, 65536, 2 ** 32 - 1, rng.randrange(65535))))
        self.worst()
        talk.image_words(self.id, account.image_words())
        table = account.table()
        for _ in range(lookups):
            values = values_near(rng, table)
            self.lookup(values)
        self.lookup(values_above(rng, values) if rng.random() < 0.3 else values)


def fresh(talk, rng, c, action=None, kind=None):
    """A store of the default alone, of either kind where none is named, its words full of
    rubbish before, with or without words behind it."""
    kind = kind or rng.choice(KINDS)
    store = Store(talk, words_needed(c, kind) + rng.choice((0, 0, 1, 8, 100)), rng.choice(HOWS),
                  rng.getrandbits(32))
    if kind == LARGE:
        store.start(c, action)
    else:
        store.lay(kind, c, action or 0)
    return store


def expect(truth, text):
    if not truth:
        raise Disagreement(text)
