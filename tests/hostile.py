"""Random cases over words that are no store, or another one than before."""

from drive import Disagreement
from edits import one_edit
from laid import BEGIN, HEAD, KIND, MARK, ROW, account_in, kind_of, link_of
from reference import (DEFAULT, KINDS, LEAST_CELLS, SMALL, TOPS, Account, Edit, Rule, default_rule,
                       read_header, words_needed)
from store import HOWS, Store, expect, fresh
from tables import World, random_packet, values_above, values_near
from walk import walk


def other_value(rng, words, c, position, kind):
    old = words[position]
    column = kind.front + (position % 8) + 8 * rng.randrange(c)
    return rng.choice((
        0, 1, 2, old + 1, old - 1, old ^ 1 << rng.randrange(32), rng.choice(words), words[column],
        words[column], rng.randrange(c), rng.randrange(c), c - 1, c, c + 1, 4, 63, 64, 65, 255, 256,
        511, 512, 513, 65534, 65535, 65536, 2 ** 32 - 1, rng.getrandbits(32), position // 8,
        position)) % 2 ** 32


def some_position(rng, words, c, used, kind):
    front = kind.front
    part = rng.randrange(7)
    if part == 0:
        return rng.choice(used)
    if part == 1:
        return rng.randrange(front)
    if part == 2:
        return rng.choice([i for i in used if i < front])
    if part == 3:
        return front + 8 * rng.randrange(min(c, 40)) + rng.randrange(8)
    if part == 4:
        return front + 8 * rng.randrange(c) + rng.randrange(8)
    if part == 5:
        # the head and the first rows, and the links
        return rng.choice((rng.randrange(HEAD[kind] + 60), front - 1, front - 2))
    return rng.randrange(min(60, len(words)))


def damaged(rng, words, c, kind):
    """A copy of the words with a few changed, swapped, moved, or a whole
    column of the cells rewritten, so that links loop, cross or share."""
    words = list(words)
    used = [i for i, word in enumerate(words) if word]
    front, how = kind.front, rng.randrange(13)
    if how < 7:
        for _ in range(rng.choice((1, 1, 1, 1, 2, 3))):
            position = some_position(rng, words, c, used, kind)
            words[position] = other_value(rng, words, c, position, kind)
    elif how < 9:
        size = rng.choice((1, 1, 2, 3, 8, 8, 12, 14, 15, 16))
        a, b = (min(some_position(rng, words, c, used, kind), len(words) - size) for _ in range(2))
        if size == 8 and a >= front and b >= front:
            a, b = a // 8 * 8, b // 8 * 8
        piece = words[a:a + size]
        if how == 7:
            words[a:a + size] = words[b:b + size]
        words[b:b + size] = piece
    elif how < 11:
        for column in rng.sample(range(8), rng.choice((1, 1, 2))):
            rewrite = rng.choice((
                lambda k: k, lambda k: (k + 1) % c, lambda k: k - 1 if k else 0,
                lambda k, v=rng.randrange(c): v, lambda k: rng.randrange(c),
                lambda k, v=rng.choice((0, c, 2 ** 32 - 1)): v, lambda k: k ^ 1))
            for k in range(c):
                if how == 9 or rng.random() < 0.3:
                    words[front + 8 * k + column] = rewrite(k)
    elif how < 12:
        # the kind that it names: the other one, or none
        words[KIND] = rng.choice((0, 4, 4 - MARK[kind], 1, 2, 3, 5, 8, 1 << rng.randrange(32),
                                  rng.getrandbits(32)))
    else:
        position = rng.randrange(len(words))
        words[position:] = [rng.choice((0, 1, rng.randrange(c), rng.getrandbits(32)))
                            for _ in words[position:]]
    return words


def question(talk, rng, store, lent, table):
    """Queues one of each call over a store's words of which nothing is
    known. Gives how to judge what comes back."""
    asked = []
    talk.check(store)
    talk.cells(store)
    for number in (DEFAULT, rng.choice(table).number, 65536, 3):
        talk.read(store, number)
    for place in (1, rng.choice((rng.randint(0, 65), rng.randint(0, 513)))):
        talk.rule_at(store, place)
    for number in (DEFAULT, rng.choice(table).number, 65536):
        talk.dead(store, number)
    talk.worst(store)
    talk.image_words(store)
    # the words of a store, damaged or not, are no image
    talk.image_worst(store, (9,) + (0,) * 7)
    for _ in range(4):
        values = values_near(rng, table)
        asked += [(0, values)] * 2
        talk.lookup(store, values)
        talk.lookup(store, values)
    talk.lookup(store, values_above(rng, values), (11, 0, 0, 0))
    packet = random_packet(rng, table)
    for packet in (packet, packet[:rng.randint(0, len(packet))]):
        asked.append(read_header(packet))
        talk.packet(store, packet)
    return asked, lent


def judge(results, asked, lent):
    """Judges the answers to one question; says whether the check passed."""
    check, cells = results[0], results[1]
    reads, lives, worst, size = results[2:8], results[8:11], results[11], results[12]
    lookups = results[13:13 + len(asked)]
    expect(check in ((0,), (9,)), 'the check gave %s' % (check,))
    passed = check == (0,)
    if len(lent) < 60000:
        expect(passed == (account_in(lent) is not None),
               'the check gave %s, and the layout says otherwise' % (check,))
    if not passed:
        expect(cells == (9, 0), 'cells gave %s where the check gives 9' % (cells,))
        for read in reads:
            expect(read == (9,) + (0,) * 14,
                   'read or rule_at gave %s where the check gives 9' % (read,))
        for life in lives:
            expect(life == (9,) + (0,) * 7, 'dead gave %s where the check gives 9' % (life,))
        expect(worst == (9,) + (0,) * 7, 'worst gave %s where the check gives 9' % (worst,))
        expect(size == (9, 0), 'image_words gave %s where the check gives 9' % (size,))
    else:
        expect(size[0] == 0 and 6 <= (size[1] - kind_of(lent).front) / 16 <= cells[1],
               'image_words gave %s in a store that passes' % (size,))
        expect(lives[0][0] == 0 and lives[1][0] in (0, 4) and lives[2] == (1,) + (0,) * 7,
               'dead gave %s in a store that passes' % (lives,))
        expect(worst[0] == 0 and walk(lent, worst[2:])[::3] == worst[:2],
               'worst gave %s in a store that passes' % (worst,))
    most = len(TOPS) * max((len(lent) - SMALL.front) // 8, 0)
    for (answer, values), got in zip(asked, lookups):
        if answer:
            expect(got == (answer, 0, 0, 0), 'a packet that gets %d gave %s' % (answer, got))
            continue
        expect(got == (9, 0, 0, 0) or got[0] == 0 and len(TOPS) <= got[3] <= most,
               'a lookup of %s gave %s' % (values, got))
        expect(got[0] == 0 or not passed, 'a lookup gave 9 where the check gives 0')
        expect(not passed or got[3] <= worst[1], 'a lookup reads more than the worst')
        want = walk(lent, values)
        expect(got == want, 'a lookup of %s gave %s and the walk %s' % (values, got, want))
    return passed


def hostile_edits(talk, rng, store, world, table, want):
    """Edits over a store that fails the check, a list of them, a freeze of it and its carrying: 9,
    and no word changed."""
    talk.insert(store, world.rule(), want)
    talk.insert(store, world.bad_rule([rule.number for rule in table]), want)
    talk.delete(store, rng.choice(table).number, want)
    talk.delete(store, rng.choice((65535, 65536, rng.randrange(65535))), want)
    talk.edit_list(store, [Edit(rng.randrange(2), *world.rule())] * rng.randint(1, 32), (want, 1))
    talk.freeze(store, talk.make(rng.choice((0, 1120, 3000)), rng.choice(HOWS)), 0, want)
    talk.stores -= 1
    talk.carry(store, talk.make(rng.choice((0, 1120, 8240, 9000)), rng.choice(HOWS)),
               rng.choice((5, 6, 40, 65537)), want)
    talk.stores -= 1


def account_of(talk, rng, store, c, words):
    """The table that `read` gives, over every number that stands anywhere in
    the words; in a store of many cells, in its front and some others. A rule
    missed would show in the count of cells."""
    kind = kind_of(words)
    if len(words) > kind.front + 3000:
        words = words[:kind.front] + rng.sample(words, 300)
    candidates = sorted({word for word in words if word <= 65535} | {DEFAULT})
    for number in candidates:
        talk.read(store, number)
    account = Account(kind, c)
    for number, got in zip(candidates, talk.flush()):
        expect(got[0] in (0, 4), 'read of %d gave %s in a store that passes' % (number, got))
        if got[0] == 0:
            rule = Rule(got[1], got[2], got[3:9], got[9:15])
            expect(rule.number == number, 'read of %d gave rule %d' % (number, rule.number))
            if number == DEFAULT:
                account.default = rule
            else:
                account.rules[number] = rule
    expect(account.default == default_rule(account.default.action), 'the default is not full')
    expect(len(account.rules) <= kind.rules, 'more rules than the limit pass the check')
    return account


def hostile(talk, rng, c=None, rounds=40):
    """Words of a good store, damaged."""
    c = c or rng.choice((LEAST_CELLS, 7, 18, 24, 54, 54, 60, 100, 200))
    world = World(rng)
    good = fresh(talk, rng, c, rng.choice((None, 77)))
    for _ in range(rng.randint(0, 12)):
        good.insert(world.rule())
    kind, n, length = good.kind, words_needed(c, good.kind), good.length
    talk.get(good.id, 0, length)
    words = list(talk.flush()[-1])
    table = good.account.table()
    target = Store(talk, length, rng.choice(HOWS))
    talk.copy(good.id, target.id, n)
    plans = []
    for _ in range(rounds):
        changed = damaged(rng, words[:n], c, kind) + words[n:]
        lent = length
        if rng.random() < 0.1:
            lent = min(length, rng.choice((rng.randrange(length + 1), n - 1, 0, 1, 1023, 1024, 1071,
                                           8191, 8192, 8239)))
        plans.append((changed, lent))
    for changed, lent in plans:
        talk.set(target.id, 0, changed)
        talk.lend(target.id, lent)
        talk.note('stores damaged')
        asked = question(talk, rng, target.id, changed[:lent], table)
        results = talk.flush()
        try:
            passed = judge(results, *asked)
        except Disagreement as found:
            differences = [(i, a, b) for i, (a, b) in enumerate(zip(words, changed)) if a != b]
            raise Disagreement(
                '%s\nin a store of %d cells, %d words lent, that differs from a good one in '
                '(position, good, now) %s' % (found, c, lent, differences[:20])) from None
        if not passed:
            hostile_edits(talk, rng, target.id, world, table, 9)
            continue
        talk.note('passed the check still')
        target.account = account_of(talk, rng, target.id, c, changed)
        again = fresh(talk, rng, c, target.account.default.action, target.kind)
        for rule in target.account.rules.values():
            again.insert(rule)
        expect(again.account.rules == target.account.rules, 'a table that passes has no room')
        talk.same(target.id, again.id, n)
        # the table that passes can be carried, into as many cells as it takes and into fewer
        into = target.account.cells()[1] + rng.choice((-1, 0, 0, 50))
        carried = Store(talk, words_needed(into) + rng.choice((0, 9)), rng.choice(HOWS),
                        rng.getrandbits(32))
        if carried.carry(target, into) == 0:
            carried.audit(rng)
        talk.stores -= 1
        for _ in range(5):
            target.audit(rng)
            one_edit(target, world, rng)
        target.audit(rng)
        talk.flush()
        talk.stores -= 1
    talk.flush()


def hostile_large(talk, rng):
    """The same in large stores, where a loop is long."""
    hostile(talk, rng, rng.choice((2000, 5000, 65536)), 3)


def garbage(talk, rng):
    """Words that never were a store, with a good c among them now and then."""
    table = [World(rng).rule() for _ in range(5)]
    world = World(rng)
    for _ in range(15):
        c = rng.choice((LEAST_CELLS, 7, 40, 300))
        kind = rng.choice(KINDS)
        front, needed = kind.front, words_needed(c, kind)
        length = rng.choice((0, 1, 2, front - 24, front - 1, front, front + 1, front + 47,
                             front + 48, needed, needed + 3))
        supply = rng.choice((
            lambda: rng.getrandbits(32), lambda: 0, lambda: 2 ** 32 - 1, lambda: rng.randrange(c),
            lambda: rng.randrange(2 * c), lambda: rng.randrange(513), lambda: c,
            lambda: rng.choice((0, 1, 4, 64, 255, 65535, 2 ** 32 - 1)), lambda: rng.getrandbits(16)))
        words = [supply() for _ in range(length)]
        for position in range(min(length, rng.choice((0, 1, 2, 4)))):
            words[position] = rng.choice((c, c, 0, 1, 2, 4, 64))
        if length > KIND and rng.random() < 0.4:
            words[0], words[KIND] = c, MARK[kind]
        store = Store(talk, length, rng.choice(HOWS))
        talk.set(store.id, 0, words)
        asked = question(talk, rng, store.id, words, table)
        passed = judge(talk.flush(), *asked)
        if not passed:
            hostile_edits(talk, rng, store.id, world, table, 9)
        else:
            account_of(talk, rng, store.id, c, words)
        if store.start(c) == 0:
            store.audit(rng)
            store.insert(world.rule())
            store.audit(rng)
    talk.flush()


def mazes(talk, rng):
    """Words that are no store, but over which a lookup finds its way, loops,
    or gets lost late: the walk of the manual, step by step."""
    table = [World(rng).rule() for _ in range(5)]
    for _ in range(12):
        c = rng.choice((20, 100, 65536, 65537)) if rng.random() < 0.04 else (
            rng.choice((5, 5, 6, 6, 7, 8, 10, 30)))
        used, kind = min(c, 60), rng.choice(KINDS)
        front, last = kind.front, ROW * kind.rules
        words = [rng.getrandbits(32) for _ in range(words_needed(used, kind))]
        words += [0] * (words_needed(c, kind) - len(words) + rng.choice((0, 0, 0, 5)))
        if rng.random() < 0.1:
            words.pop()
        links = [rng.randrange(used)] * 20 + [c, c - 1, c + 1, 2 ** 32 - 1]
        words[0], words[1] = c, rng.choice((0, 3, 63, 64, 65, 100, 511, 512, 513, 2 ** 32 - 1))
        words[KIND] = MARK[kind] if rng.random() < 0.9 else rng.choice((0, 1, 4, 5, 2 ** 31 + 4))
        words[link_of(kind, BEGIN)] = rng.choice(links)
        for k in range(used):
            words[front + 8 * k:front + 3 + 8 * k] = (
                rng.choice((0, 1, 255, 65535, 2 ** 32 - 1, rng.choice(rng.choice(table).high))),
                rng.choice((k, k + 1, (k + 1) % used, rng.randrange(used), rng.choice(links))),
                rng.choice((k, (k + 1) % used, rng.randrange(used), rng.choice(links), 15, 30,
                            64, 65, 945, 960, 975, last - ROW, last, last + ROW)))
        store = talk.make(len(words), rng.choice(HOWS))
        talk.set(store, 0, words)
        for _ in range(3):
            asked = question(talk, rng, store, words, table)
            expect(not judge(talk.flush(), *asked), 'a maze passes the check')
        talk.note('mazes')
        talk.stores -= 1
