#!/usr/bin/env python3
"""Makes small wrong changes to the Rattle source and reports which of them the
prover refuses.

    tests/mutants.py [--crate NAME ..] [--most N] [--seed N] [--only ID ..]
                     [--list] [--cut N] [--whole]

A mutant is one small change to a crate's code (mutate.py says which): another
comparison, sign, constant, variable, callee or order of arguments, or a
statement left out. It is handed to rt as a must-fail edit, in a copy of the
repository (prover.py): rt tries it over what a check of its crate proved, and
where it is still proved there once more from nothing, against the contracts and
proofs as they stand. A mutant that is proved is a hole in a promise, or a
program that does the same.

--most is the number of mutants for each crate (0: all; default 8). They are
spread over its functions, with more from public calls; the seed chooses.
--only checks those that are named, --list names them and checks none. --cut is
the length at which an error is cut. With --whole `rt ci` tries them, else
`rt must-fail`, over what `rt check` kept (must_fail.py says more). A program, and
the libraries of the program `cases`, are left out unless they are named: what it
prints is held to a file, not to a contract.

Outcomes:
  fact          refused: the first error is that something does not hold
  shape         refused: the first error is that the proof no longer fits the
                code, which shows less
  limit         refused only by a limit of the prover, which shows less too
  not compiled  refused before the proof, which shows nothing; of the few that
                cannot be written as an edit the same is said
  not tried     the crate itself is not proved, or the check was cut off
  same          mutants-same.txt says why the program does the same; it is not tried
  survived      proved
The last line counts mutants: those refused by the prover and the same ones
passed, the survivors and those that were not tried failed.
"""

import argparse
import difflib
import sys
from collections import Counter
from hashlib import sha256

from mutate import Finder, Source, apply
from prover import BAD, LIMIT, LOST, PROVED, REFUSED, ROOT, SHAPE, Found, as_edit, crates, file_of, tried

OUTCOMES = ('fact', 'shape', 'limit', 'not compiled', 'not tried', 'same', 'survived')
NAMES = {REFUSED: 'fact', SHAPE: 'shape', LIMIT: 'limit', BAD: 'not compiled', LOST: 'not tried', PROVED: 'survived'}


# Libraries that only a program calls, and whose contracts say only that they are safe.
OF_A_PROGRAM = ('script', 'calls')


def difference(old, new):
    lines = difflib.unified_diff(old.splitlines(), new.splitlines(), n=1, lineterm='')
    return [x for x in lines if not x.startswith(('---', '+++', '@@'))]


def change_of(mutant, old, new):
    """A mutant's crate, function and change, as a text that stays the same when
    lines above it move."""
    lines = [x[0] + ' '.join(x[1:].split()) for x in difference(old, new) if x[0] in '-+']
    return '%s %s: %s' % (mutant.crate, mutant.function, ' '.join(lines))


def judged():
    """The mutants of which a person has said that they do the same, with the reason."""
    path, out = ROOT / 'tests/mutants-same.txt', {}
    for line in path.read_text().splitlines() if path.exists() else []:
        if line.strip() and not line.startswith('#'):
            change, _, why = line.partition(' ## ')
            out[change.strip()] = why.strip()
    return out


def choose(mutants, most, seed):
    """Some of the mutants: in turn from each function, two from a public call for
    one from any other, and from each function the kinds first that it has given
    least of."""
    if not most or most >= len(mutants):
        return mutants
    rank = {m.id: sha256(('%d %s' % (seed, m.id)).encode()).hexdigest() for m in mutants}
    left = {}
    for m in sorted(mutants, key=lambda m: rank[m.id]):
        left.setdefault((not m.open, m.function), []).append(m)
    chosen, kinds = [], Counter()
    order = sorted(left, key=lambda f: (f[0], rank[left[f][0].id]))
    while len(chosen) < most and any(left.values()):
        for f in order:
            for _ in range(1 if f[0] else 2):
                if left[f] and len(chosen) < most:
                    m = min(left[f], key=lambda m: (kinds[f, m.kind], kinds[m.kind], rank[m.id]))
                    left[f].remove(m)
                    kinds[f, m.kind] += 1
                    kinds[m.kind] += 1
                    chosen.append(m)
    return sorted(chosen, key=lambda m: m.line)


class Run:
    def __init__(self, options):
        self.options, self.same, self.known = options, judged(), crates()
        self.files = {c: file_of(c) for c in self.known}
        self.sources = {c: Source((ROOT / 'crates' / c / file).read_text())
                        for c, file in self.files.items()}

    def crates(self):
        libraries = [c for c in self.known
                     if self.files[c] == 'src/lib.rt' and c not in OF_A_PROGRAM]
        wanted = self.options.crate or libraries
        for c in wanted:
            if c not in self.known:
                sys.exit('no crate %s in crates.txt' % c)
        return wanted

    def plan(self):
        unknown, plan = set(self.options.only), {}
        for crate in self.crates():
            mutants = Finder(crate, self.files[crate], self.sources).all()
            unknown -= {m.id for m in mutants}
            if self.options.only:
                chosen = [m for m in mutants if m.id in self.options.only]
            else:
                chosen = choose(mutants, self.options.most, self.options.seed)
            if chosen:
                plan[crate] = chosen
        if unknown:
            sys.exit('no such mutant: %s' % ' '.join(sorted(unknown)))
        return plan

    def texts(self, m):
        """Its crate's code as it is and as it has it."""
        old = self.sources[m.crate].text
        return old, apply(old, m.edits)

    def label(self, m):
        return 'mutant_' + sha256(m.id.encode()).hexdigest()[:16]

    def add(self, edits, mutants):
        """Puts the mutants that are to be tried to the edits, {crate: {label: text}}. One of which a
        person has said that it does the same passes whether it is proved or refused, and is not tried."""
        for m in mutants:
            old, new = self.texts(m)
            edit = as_edit(m.file, old, new)
            if edit and change_of(m, old, new) not in self.same:
                edits.setdefault(m.crate, {})[self.label(m)] = edit

    def judged(self, m, found):
        """What a mutant came to, and what is said of it."""
        change = change_of(m, *self.texts(m))
        if change in self.same:
            return 'same', self.same[change]
        unwritten = Found(BAD, 'it cannot be written as an edit')
        what, said = found.get((m.crate, self.label(m)), unwritten)
        return NAMES[what], said

    def all(self, plan):
        edits = {}
        for mutants in plan.values():
            self.add(edits, mutants)
        found = tried(edits, self.options.whole) if edits else {}
        counts, survivors = {crate: Counter() for crate in plan}, []
        for crate, mutants in plan.items():
            for m in mutants:
                what, said = self.judged(m, found)
                counts[crate][what] += 1
                print('%-12s %s (%s, %s) %s' % (what, m.id, m.function, m.kind, said[:self.options.cut]), flush=True)
                survivors += [m] * (what == 'survived')
        return self.report(counts, survivors)

    def report(self, counts, survivors):
        total = Counter()
        head = ('crate', 'chosen') + OUTCOMES
        print('\n| ' + ' | '.join(head) + ' |\n|' + '---|' * len(head))
        for crate, of_crate in [*counts.items(), ('all', total)]:
            row = [sum(of_crate.values())] + [of_crate[o] for o in OUTCOMES]
            print('| ' + ' | '.join([crate, *map(str, row)]) + ' |')
            if of_crate is not total:
                total.update(of_crate)
        for m in survivors:
            public = ', A PUBLIC CALL' if m.open else ''
            old, new = self.texts(m)
            print('\nsurvived: %s, in %s%s' % (m.id, m.function, public))
            print('\n'.join('    ' + x for x in difference(old, new)))
            print('    in mutants-same.txt, if the program does the same: %s ## why' % change_of(m, old, new))
        passed = sum(total[what] for what in ('fact', 'shape', 'limit', 'same'))
        failed = total['survived'] + total['not tried']
        print('%d passed, %d failed' % (passed, failed))
        return 1 if failed or not passed else 0


def main():
    parser = argparse.ArgumentParser(description=__doc__,
                                     formatter_class=argparse.RawDescriptionHelpFormatter)
    parser.add_argument('--crate', nargs='+', default=[])
    parser.add_argument('--most', type=int, default=8)
    parser.add_argument('--seed', type=int, default=1)
    parser.add_argument('--cut', type=int, default=160)
    parser.add_argument('--list', action='store_true')
    parser.add_argument('--only', nargs='+', default=[])
    parser.add_argument('--whole', action='store_true')
    run = Run(parser.parse_args())
    plan = run.plan()
    if run.options.list:
        for mutants in plan.values():
            print('\n'.join('%s (%s, %s)' % (m.id, m.function, m.kind) for m in mutants))
        return 0
    return run.all(plan)


if __name__ == '__main__':
    sys.exit(main())
