"""Random cases: edits, sizes that just fit, and histories."""

from laid import laid
from reference import KINDS, LARGE, LEAST_CELLS, SMALL, Account, count_cells, words_needed
from store import expect, fresh
from tables import World, values_near

SIZES = (6, 7, 8, 9, 10, 12, 15, 18, 20, 25, 30, 33, 40, 53, 54, 64, 100, 128, 200, 256, 300, 500,
         777, 1000, 1024, 1500, 1920)
MANY = (2048, 4096, 5000, 8192, 16384, 32767, 32768, 40000, 65535, 65536)


def one_edit(store, world, rng):
    """One edit, good or bad."""
    numbers = list(store.account.rules)
    kind = rng.random()
    if kind < 0.55:
        store.insert(world.rule())
    elif kind < 0.70:
        store.insert(world.bad_rule(numbers))
    elif kind < 0.92 and numbers:
        store.delete(rng.choice(numbers))
    else:
        store.delete(rng.choice((rng.randrange(65535), 65535, 65536, 2 ** 32 - 1)))


def edits(talk, rng, c=None, steps=None):
    """Random edits, with everything asked after each."""
    c = c or rng.choice(SIZES)
    world = World(rng)
    store = fresh(talk, rng, c, rng.choice((None, world.action())))
    for _ in range(steps or rng.choice((5, 20, 40, 80))):
        one_edit(store, world, rng)
        store.audit(rng, reads=64 if c < 500 else 6)
        if rng.random() < 0.01:
            store.start(rng.choice((c, LEAST_CELLS - 1, LEAST_CELLS, c + 1000)))
            store.audit(rng)
    talk.flush()


def large(talk, rng):
    """The same in large stores, with rules that take many cells."""
    c = rng.choice(MANY)
    world = World(rng, rng.choice((['wide'], ['corners'], ['model', 'types'], ['types'])))
    store = fresh(talk, rng, c)
    for step in range(rng.choice((8, 12, 30))):
        one_edit(store, world, rng)
        if step % 3 == 0:
            store.audit(rng, 20, 2)
    store.audit(rng, 40, 3)
    talk.flush()


def crowd(talk, rng):
    """Up to 64 rules and past that, which in a small store get 5, then down again."""
    c = rng.choice((LEAST_CELLS, 18, 100, 500, 1920, 6000))
    world = World(rng, rng.choice((['line'], ['line', 'again'], ['types'], ['types', 'again'])))
    world.numbers = range(65535)
    store = fresh(talk, rng, c, kind=rng.choice((SMALL, SMALL, LARGE)))
    for step in range(110):
        store.insert(world.rule())
        if len(store.account.rules) == store.kind.rules:
            store.insert(world.bad_rule(list(store.account.rules)))
        if step % 10 == 0:
            store.audit(rng)
    numbers = list(store.account.rules)
    rng.shuffle(numbers)
    for number in numbers:
        store.delete(number)
        if rng.random() < 0.15:
            store.audit(rng)
    talk.same(store.id, fresh(talk, rng, c, kind=store.kind).id, words_needed(c, store.kind))
    talk.flush()


def many(talk, rng):
    """Hundreds of rules in a large store, as many as its cells take: more than a small one holds.
    Then some go, and others come."""
    c = rng.choice((3000, 8000, 30000))
    world = World(rng, rng.choice((['line'], ['line', 'again'], ['types'], ['types', 'again'])))
    rules = [world.rule(number) for number in rng.sample(range(65535), 512)]
    plan = Account(c=c)
    for count in (rng.choice((512, 200, 200, 200)), 100, 65, 20, 5, 0):
        plan.rules = {rule.number: rule for rule in rules[:count]}
        if count_cells(plan.table(), c) <= c:
            break
    store = fresh(talk, rng, c, kind=LARGE)
    store.load(rules[:count])
    store.audit(rng, 20, 6)
    if count == 512:
        expect(store.insert(world.rule(next(n for n in range(65535) if n not in plan.rules))) == 5,
               'the reference and request P9')
        talk.note('full tables of 512 rules')
    for rule in rng.sample(rules[:count], min(count, 5)):
        store.delete(rule.number)
        store.insert(world.rule())
    store.audit(rng, 20, 6)
    right = talk.make(words_needed(c))
    table = store.account.table()
    talk.set(right, 0, laid(c, table[-1:] + table[:-1]))
    talk.same(store.id, right, words_needed(c))
    talk.flush()


def fit(talk, rng):
    """One insert at every shortage: with c from what the table before it
    takes, in steps, to one below what the table after it takes (6), and at
    exactly that (taken)."""
    world = World(rng)
    plan = Account(c=3000)
    for _ in range(rng.randint(0, 12)):
        plan.insert(*world.rule())
    rule = next((r for r in (world.rule(n) for n in range(300, 340))
                 if plan.cells_with(r) <= 5000), None)
    if rule is None:
        return
    before, after = plan.cells()[1], plan.cells_with(rule)
    sizes = {after, after - 1, before, before + 1, after + 1, rng.randint(before, after)}
    for c in sorted(size for size in sizes if before <= size):
        store = fresh(talk, rng, c)
        rules = list(plan.rules.values())
        rng.shuffle(rules)
        for earlier in rules:
            expect(store.insert(earlier) == 0, 'fewer rules take more cells')
        expect(store.insert(rule) == (0 if c >= after else 6), 'the reference counts wrongly')
        store.audit(rng)
        store.insert(rule)
        store.delete(rule.number)
        store.audit(rng)
    if before > LEAST_CELLS:
        store = fresh(talk, rng, before - 1)
        for earlier in plan.rules.values():
            store.insert(earlier)
        expect(len(store.account.rules) < len(plan.rules), 'the reference counts wrongly')
        store.audit(rng)
    talk.flush()


def histories(talk, rng):
    """The same rules by several histories, with refused and undone edits:
    the same answers, reads, cells, and words where c is the same."""
    world = World(rng)
    action = world.action()
    room = rng.choice((40, 300, 2000))
    plan = Account(c=room)
    for _ in range(rng.randint(0, 30)):
        plan.insert(*world.rule())
    target = plan.rules
    needed = count_cells(plan.table(), 65536)
    c = rng.choice((needed, needed + 1, needed + rng.randint(0, 50), room))
    kind = rng.choice(KINDS)
    stores = [fresh(talk, rng, c, action, kind) for _ in range(3)]
    stores.append(fresh(talk, rng, needed + rng.randint(0, 300), action))
    for store in stores:
        wander(store, world, rng, target)
        expect(store.account.rules == target, 'the plan went wrong')
    for store in stores[1:3]:
        talk.same(stores[0].id, store.id, words_needed(c, kind))
    probes = [values_near(rng, plan.table()) for _ in range(15)]
    for store in stores:
        store.audit(rng, 2)
        for values in probes:
            store.lookup(values)
    talk.flush()


def wander(store, world, rng, target):
    """Random edits that end with the target's rules."""
    account = store.account
    for _ in range(rng.choice((0, 5, 30))):
        wanted = [rule for number, rule in target.items() if number not in account.rules]
        if wanted and rng.random() < 0.4:
            store.insert(rng.choice(wanted))
        else:
            one_edit(store, world, rng)
    if rng.random() < 0.1:
        store.start(account.c, account.default.action)
    for number in [n for n in account.rules if account.rules[n] != target.get(n)]:
        store.delete(number)
    for rule in rng.sample(list(target.values()), len(target)):
        store.insert(rule)
