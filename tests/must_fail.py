#!/usr/bin/env python3
"""Tries must-fail edits: small wrong changes that the prover has to refuse.

    tests/must_fail.py [--crate NAME ..] [--only CRATE/LABEL ..] [--all] [--mutants N] [--whole]
                       [--why] [--cut N]
    tests/must_fail.py --list | --listed | --move CRATE ..

An edit is a file LABEL.edit. Those in crates/CRATE/must-fail are tried by `rt ci`, and
those in tests/must-fail/CRATE here, by rt too: in a copy of the repository where they
stand in their crates (prover.py). rt tries each over what a check of its crate proved, so
that only what the edit touches is proved again, and one that is still proved there once
more from nothing. --all tries both, --mutants so many small wrong changes of each
library's code too, those that mutants.py chooses and judges, --why prints what was said
of those that passed too.

With --whole `rt ci` tries them: what the edits begin with is then proved from nothing, or
taken from an earlier `rt ci` on this machine over the same files. Without it `rt must-fail`
begins with what `rt check` kept: prove the crates first, or it proves what they stand on
one after the other. What an edit came to is kept on this machine until something changes
on which it stands.

The form is that of `rt must-fail`, one line for each part:
    # what must hold and the edit breaks, or what the edit does wrong
    # shape: why a refusal by the proof's shape is all that can be had   (optional)
    # limit: why the prover can only run into a limit                    (optional)
    file: src/lib.rt          a file below src/ or specs/, for the pairs that follow; or below proofs/,
                              where an answer's name has the literal that the edit changes
    old: text                 it stands in that file exactly once
    new: text                 what stands there instead
Each 'old:' goes by the file as the pairs before it left it. Any other line that is
not empty makes the edit a bad one.

Outcomes, of which the first four have passed and all others failed:
  refused       the first error is that something does not hold
  shape, meant  the first error is that the proof no longer fits the code, and the
                edit says why that is meant, or it is a mutant
  limit, meant  the prover ran into a limit of its own, and the edit says why that is
                all that can be had, or it is a mutant
  same          a mutant that is proved, of which mutants-same.txt says why
  shape, limit  the same, and the edit does not say so: it shows little
  NOT REFUSED   the crate with this edit is proved, by a check of the whole of it
  not compiled  a mutant that did not reach the prover: it shows nothing, and is not counted
  bad edit      it is not of the form above, or did not reach the prover, or the prover
                could not read it, as where an edit of a definition takes a statement's
                meaning that other definitions stand on
  not tried     the crate itself is not proved, or the check was cut off
Those that failed are named again at the end, and the last line counts edits.

--list writes all edits as a page, docs/EDITS.md (`make edits-list`), and --listed
sees that the page there is this one and that every edit can be applied. --move moves the
edits of crates from crates/CRATE/must-fail to tests/must-fail/CRATE, but for those that
tests/must-fail/kept.txt names, a line CRATE/LABEL for each; it writes the page anew.
"""

import argparse
import subprocess
import sys
from collections import Counter

from mutants import Run
from prover import BAD, LIMIT, PROVED, REFUSED, ROOT, SHAPE, Found, crates, tried

HERE = ROOT / 'tests/must-fail'
PAGE = ROOT / 'docs/EDITS.md'
PASSED = ('refused', 'shape, meant', 'limit, meant', 'same')
MEANT = {SHAPE: 'shape, meant', LIMIT: 'limit, meant'}


class Edit:
    """An edit file: its comment, and its changes as (file, old, new)."""

    def __init__(self, crate, path):
        self.crate, self.path, self.label = crate, path, path.stem
        self.name = '%s/%s' % (crate, path.stem)
        self.comment, self.meant, self.changes, self.fault = '', set(), [], ''
        file = old = ''
        for line in path.read_text().splitlines():
            if line.startswith(('# shape: ', '# limit: ')):
                self.meant.add(line[2:7])
            elif line.startswith('#'):
                self.comment = self.comment or line[1:].strip()
            elif line.startswith('file: '):
                file = line[6:]
            elif line.startswith('old: '):
                old = line[5:]
            elif line.startswith('new:'):
                self.changes.append((file, old, line[4:].removeprefix(' ')))
                old = ''
            elif line.strip():
                self.fault = 'a line of it is no part of an edit: %s' % line.strip()
        if not self.comment:
            self.fault = 'it has no comment line'
        if not self.changes:
            self.fault = "it has no 'old:' and 'new:' pair"
        self.fault = self.fault or self.misfit()

    def misfit(self):
        """Why it cannot be applied, or nothing."""
        texts = {}
        for file, old, new in self.changes:
            path = ROOT / 'crates' / self.crate / file
            if not file.startswith(('src/', 'specs/', 'proofs/')) or '..' in file or not path.is_file():
                return "'file: %s' names no file of the crate below src/, specs/ or proofs/" % file
            text = texts.get(file) or path.read_text()
            if not old or text.count(old) != 1:
                return ('this text stands in %s %d times, not once: %s'
                        % (file, text.count(old) if old else 0, old))
            texts[file] = text.replace(old, new)
        return ''

    def here(self):
        return HERE in self.path.parents

    def judged(self, found):
        """What is said of it."""
        what = MEANT[found.what] if found.what in self.meant else found.what
        return Found(what, found.said)


def edits_of(crate):
    folders = (ROOT / 'crates' / crate / 'must-fail', HERE / crate)
    found = [Edit(crate, path) for folder in folders for path in folder.glob('*.edit')]
    return sorted(found, key=lambda edit: edit.label)


def kept():
    """The names of the edits that stay in crates/."""
    path = HERE / 'kept.txt'
    lines = path.read_text().splitlines() if path.exists() else []
    return [line.strip() for line in lines if line.strip() and not line.startswith('#')]


# ---- trying them

def plan(options):
    """The edits that are asked for, {crate: edits}."""
    known = {crate: edits_of(crate) for crate in crates()}
    names = {edit.name for edits in known.values() for edit in edits}
    for name in set(options.only) - names | set(options.crate) - set(known):
        sys.exit('no such edit or crate: %s' % name)
    chosen = {}
    for crate in options.crate or known:
        edits = [edit for edit in known[crate] if edit.name in options.only or
                 not options.only and (options.all or edit.here())]
        if edits:
            chosen[crate] = edits
    return chosen


def try_all(options):
    chosen, mutants, run = plan(options), {}, None
    if options.mutants:
        run = Run(argparse.Namespace(crate=options.crate, most=options.mutants, only=[], seed=1))
        mutants = {mutant.id: mutant for found in run.plan().values() for mutant in found}
    words, known = {}, {}
    for crate, edits in chosen.items():
        for edit in edits:
            if edit.fault:
                known[edit.name] = Found(BAD, edit.fault)
            else:
                words.setdefault(crate, {})[edit.label] = edit.path.read_text()
    if run:
        run.add(words, mutants.values())
    found = tried(words, options.whole) if words else {}
    for crate, edits in chosen.items():
        for edit in edits:
            if edit.name not in known:
                known[edit.name] = edit.judged(found[crate, edit.label])
    for name, mutant in mutants.items():
        what, said = run.judged(mutant, found)
        known[name] = Found({'fact': REFUSED, 'survived': PROVED}.get(what, MEANT.get(what, what)), said)
    counts, each, wrong = Counter(), Counter(), []
    for name, (what, said) in known.items():
        counts[what] += 1
        each[name.split('/')[0]] += 1
        failed = what not in PASSED and not (name in mutants and what == 'not compiled')
        print('%-12s %s %s' % (what, name, said[:options.cut] if failed or options.why else ''), flush=True)
        if failed:
            wrong.append('FAILED %s: %s %s' % (name, what, said))
    for crate, number in each.items():
        print('%-12s %3d changes' % (crate, number))
    for what, number in sorted(counts.items()):
        print('%-12s %3d' % (what, number))
    for line in wrong:
        print(line)
    print('%d passed, %d failed' % (sum(counts[what] for what in PASSED), len(wrong)))
    return 1 if wrong else 0


# ---- the page of all edits

def page():
    lines = ['# The must-fail edits', '',
             'Each is a small wrong change to the code or to a definition, made in a copy, that the '
             'prover must refuse. Its line says what must hold and the edit breaks, or what the '
             'edit does wrong. Those that are marked ∗ stand in their crates, where `rt ci` tries '
             'them; all others are tried by `tests/must_fail.py`, which has rt try them in a copy.', '',
             'This page is written by `make edits-list`, from the first line of each edit.']
    total = 0
    for crate in crates():
        edits = edits_of(crate)
        total += len(edits)
        if edits:
            lines += ['', '## %s' % crate, '', '| edit | |', '|---|---|']
        lines += ['| `%s`%s | %s |' % (edit.label, '' if edit.here() else ' ∗',
                                      edit.comment.replace('|', '\\|')) for edit in edits]
    return '\n'.join(lines + ['', '%d edits.' % total, ''])


def problems():
    """What is wrong with the files, before any edit is tried."""
    names = Counter(edit.name for crate in crates() for edit in edits_of(crate))
    for name, times in names.items():
        if times > 1:
            yield '%s stands in crates/ and in tests/must-fail' % name
    for crate in crates():
        for edit in edits_of(crate):
            if edit.fault:
                yield 'FAILED %s: %s' % (edit.name, edit.fault)
    for folder in HERE.iterdir() if HERE.is_dir() else ():
        if folder.is_dir() and folder.name not in crates():
            yield 'tests/must-fail/%s is of no crate' % folder.name
    for name in kept():
        crate, _, label = name.partition('/')
        if not (ROOT / 'crates' / crate / 'must-fail' / (label + '.edit')).exists():
            yield 'tests/must-fail/kept.txt names %s, which is not in crates/' % name
    if not PAGE.exists() or PAGE.read_text() != page():
        yield 'docs/EDITS.md is not the list of the edits: make edits-list writes it'


def listed():
    found = list(problems())
    print('\n'.join(found + ['%d passed, %d failed' % (not found, len(found))]))
    return 1 if found else 0


def move(names):
    for crate in names:
        if crate not in crates():
            sys.exit('no crate %s in crates.txt' % crate)
        edits = [edit for edit in edits_of(crate) if not edit.here() and edit.name not in kept()]
        (HERE / crate).mkdir(parents=True, exist_ok=True)
        for edit in edits:
            subprocess.run(['git', 'mv', edit.path, HERE / crate], cwd=ROOT, check=True)
        left = [edit.label for edit in edits_of(crate) if not edit.here()]
        print('%s: %d moved, %d left: %s' % (crate, len(edits), len(left), ' '.join(left)))
    PAGE.write_text(page())
    return 0


def main():
    parser = argparse.ArgumentParser(description=__doc__,
                                     formatter_class=argparse.RawDescriptionHelpFormatter)
    parser.add_argument('--crate', nargs='+', default=[])
    parser.add_argument('--only', nargs='+', default=[])
    parser.add_argument('--all', action='store_true')
    parser.add_argument('--mutants', type=int, default=0)
    parser.add_argument('--whole', action='store_true')
    parser.add_argument('--why', action='store_true', help='print what was said of each refusal too')
    parser.add_argument('--cut', type=int, default=160)
    parser.add_argument('--list', action='store_true')
    parser.add_argument('--listed', action='store_true')
    parser.add_argument('--move', nargs='+', metavar='CRATE')
    options = parser.parse_args()
    if options.list:
        print(page(), end='')
        return 0
    if options.listed:
        return listed()
    if options.move:
        return move(options.move)
    return try_all(options)


if __name__ == '__main__':
    sys.exit(main())
