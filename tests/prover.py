"""Has the prover try changed crates: what mutants.py and must_fail.py share.

The kit tries must-fail edits by itself, those that stand in crates/NAME/must-fail: `rt ci` for
a whole repository, `rt must-fail` over what `rt check` kept. Each edit is tried over what a check
of the crate as it stands proved, and what is still proved there is tried again from nothing. So
the edits that stand elsewhere are put there in a copy of the repository, and rt is run in the copy,
with as many checks at once as there are processors and memory. Its lines say what each came to.

rt calls an edit bad where the prover cannot read the edited text, and takes for that, too, the line
in which the prover counts what it did not check since a law fell: as where an edit of a definition
makes a law false on which further laws of specs/ stand. Such an edit is looked at here once more, in
all that the prover says of it, by the same rule but for these lines.
"""

import os
import re
import shutil
import subprocess
import sys
import tempfile
from collections import namedtuple
from concurrent.futures import ThreadPoolExecutor
from pathlib import Path
from threading import Lock

ROOT = Path(__file__).resolve().parent.parent
# What an edit came to, and what was said of it.
Found = namedtuple('Found', 'what said')
REFUSED, SHAPE, LIMIT, PROVED, BAD, LOST = 'refused', 'shape', 'limit', 'NOT REFUSED', 'bad edit', 'not tried'

SAID = re.compile(r'rt: must-fail (\w+)/([\w.-]+)\.edit: (refused, as it must be|NOT REFUSED|BAD EDIT|NOT TRIED)'
                  r'(?: \((only because a proof file names|only by a limit)[^)]*\))?(?:: (.*))?')
KINDS = {'refused, as it must be': REFUSED, 'NOT REFUSED': PROVED, 'BAD EDIT': BAD, 'NOT TRIED': LOST}
# Errors that say that a proof has another shape than the code, rather than that something does not
# hold. Where it cannot be told, as where a rewrite finds nothing to rewrite, it counts as shape.
SHAPED = re.compile(r'has no (field )?`|can be named from here|is not in scope|parse error|'
                    r'too (many|few) arguments|this pattern needs a function|this λ.s body is|this λ has|'
                    r'this tuple has|`rw`: no ')
# The line that counts what was not checked, and what rt takes for a text that cannot be read.
COUNTED = re.compile(r'error: \d+ declarations? that depends? on `')
ERROR = re.compile(r'(?:\./)?(\S+?):\d+:\d+: error: (?:(`[^`]*`): )?(.*)')
UNREAD = re.compile(r'is not in scope|has no field|is no name|operand is missing|expected the end|cannot continue')
# What rt says that somebody who waits wants to see.
NEWS = re.compile(r'rt: (?!must-fail ).*(trying its must-fail edits|proved|FAILED|is the same|failed|disk|note:|waiting|'
                  r'tried (once more|from nothing)|refused|\berror\b)|\d+ passed, \d+ failed$|rt: FAILED')


def crates():
    """The crates of crates.txt in order, each with what it is over."""
    found = {}
    for line in (ROOT / 'crates.txt').read_text().splitlines():
        name, colon, deps = line.split('#')[0].partition(':')
        if colon:
            found[name.split()[0]] = deps.split()
    return found


def file_of(crate):
    """The root file of a crate's code."""
    main = (ROOT / 'crates' / crate / 'src/main.rt').exists()
    return 'src/main.rt' if main else 'src/lib.rt'


def below(names):
    """These crates and those that they stand on."""
    known = crates()
    return [crate for crate in known if any(crate == name or crate in known[name] for name in names)]


def copied(to, edits, only):
    """Copies the repository's crates, those alone that are asked for, with these must-fail edits and
    no others, {crate: {label: text}}."""
    lines = (ROOT / 'crates.txt').read_text().splitlines()
    kept = [line for line in lines if line.split('#')[0].partition(':')[0].split(' ')[0].strip() in only]
    (to / 'crates.txt').write_text('\n'.join(kept) + '\n')
    if (ROOT / 'HANDLES').exists():
        shutil.copy(ROOT / 'HANDLES', to)
    (to / '.git').mkdir()  # the top of a repository ends there
    for crate in only:
        here = to / 'crates' / crate
        shutil.copytree(ROOT / 'crates' / crate, here, symlinks=True,
                        ignore=lambda folder, names, top=str(ROOT / 'crates' / crate):
                        {'out', 'must-fail'} if folder == top else set())
        if edits.get(crate):
            (here / 'must-fail').mkdir()
        for label, text in edits.get(crate, {}).items():
            (here / 'must-fail' / (label + '.edit')).write_text(text)


def ran(words, folder, hear):
    """Runs a command of the kit there, gives each of its lines, and says how it ended."""
    p = subprocess.Popen(words, cwd=folder, stdin=subprocess.DEVNULL, stdout=subprocess.PIPE,
                         stderr=subprocess.STDOUT, text=True, errors='replace')
    for line in p.stdout:
        hear(line.rstrip('\n'))
    return p.wait()


def tried(edits, whole):
    """What each of the edits, {crate: {label: text}}, came to: {(crate, label): Found}. Where `whole`
    is asked for, `rt ci` tries them, which takes what an earlier `rt ci` on this machine proved of
    the same files, and proves the rest from nothing; else `rt must-fail`, over what `rt check` kept."""
    if not shutil.which('rt'):
        sys.exit("Rattle's kit is missing: install it so that the command 'rt' is on the PATH")
    found, words = {}, ['rt', 'ci'] if whole else ['rt', 'must-fail', *edits]
    last, lost, failed = [None], {}, []

    def hear(line):
        said = SAID.match(line)
        if said:
            crate, label, kind, only, more = said.groups()
            what = KINDS[kind]
            if what == REFUSED and only:
                what = LIMIT if only == 'only by a limit' else SHAPE
            elif what == REFUSED and SHAPED.search(more or ''):
                what = SHAPE
            last[0] = (crate, label)
            found[crate, label] = Found(what, (more or '').strip())
            return
        if last[0] and not line.startswith(('rt: ', '== ')) and found[last[0]].what in (BAD, LOST):
            # the first lines of what the check said
            here = found[last[0]]
            if ' error' in line and 'error' not in here.said:
                found[last[0]] = here._replace(said=(here.said + ' ' + line).strip())
            return
        last[0] = None
        gone = re.match(r'rt: (\w+) NOT PROVED', line)
        if gone:
            lost[gone[1]] = line
        if line.startswith('rt: ') and not re.search(r' is kept: | proved$|trying its must-fail', line):
            failed.append(line)
        if NEWS.match(line):
            print('  ' + line, flush=True)

    with tempfile.TemporaryDirectory(prefix='reamstork-edits-') as folder:
        top = Path(folder)
        copied(top, edits, below(edits))
        ran(words, top, hear)
        if any(what == LOST for what, _ in found.values()):
            # as where the machine's memory ran out: what was settled is kept
            ran(words, top, hear)
        found.update(once_more(top, {key: edits[key[0]][key[1]] for key, (what, said) in found.items()
                                     if what == BAD and COUNTED.search(said)}, whole))
    for crate, labels in edits.items():
        for label in labels:
            why = lost.get(crate) or (failed or ['rt said nothing of it'])[-1]
            found.setdefault((crate, label), Found(LOST, why))
    return {key: found[key] for key in found if key[1] in edits.get(key[0], {})}


# ---- edits that rt takes for unreadable

def once_more(top, edits, whole):
    """What the edits, {(crate, label): text}, come to by all that the prover says of them."""
    checks = {crate: (Over if whole else Kept)(top, crate) for crate, _ in edits}
    with ThreadPoolExecutor(os.cpu_count() if whole else 1) as pool:
        asked = {key: pool.submit(checks[key[0]].judge, text) for key, text in edits.items()}
        return {key: result.result() for key, result in asked.items()}


def judged(status, out, changed):
    """What a check with these changed files shows, by its exit status and all that it printed."""
    lines, first = out.split('\n'), None
    for line in lines:
        at = ERROR.match(line)
        if not at or COUNTED.search(line):
            continue
        if at[1] in changed or at[1].startswith(('src/', 'specs/')):
            if not at[2] or UNREAD.search(re.sub('`[^`]*`', '', at[3])):
                return Found(BAD, 'the prover cannot read the edited text: ' + line)
        if 'was not admitted' not in line:
            first = first or line
    if status == 0:
        return Found(PROVED, 'the crate is proved')
    if status != 1 or not first or not any(line.startswith('logic=not-proved') for line in lines):
        return Found(LOST, 'its check ended with status %s' % status)
    return Found(SHAPE if SHAPED.search(first) else REFUSED, first)


class Kept:
    """A crate of the copy, checked where it stands over what `rt check` kept."""

    def __init__(self, top, crate):
        self.top, self.crate, self.here, self.lock = top, crate, top / 'crates' / crate, Lock()

    def texts(self, edit):
        """The files that the edit changes, as it has them."""
        texts, file, old = {}, '', ''
        for line in edit.splitlines():
            if line.startswith('file: '):
                file = line[6:]
            elif line.startswith('old: '):
                old = line[5:]
            elif line.startswith('new:'):
                text = texts.get(file) or (ROOT / 'crates' / self.crate / file).read_text()
                texts[file] = text.replace(old, line[4:].removeprefix(' '))
        return texts

    def judge(self, edit):
        texts = self.texts(edit)
        return judged(*self.check(texts), texts)

    def check(self, texts):
        with self.lock:
            was = {file: (self.here / file).read_text() for file in texts}
            try:
                for file, text in texts.items():
                    (self.here / file).write_text(text)
                return run(['rt', 'check'], self.here)
            finally:
                for file, text in was.items():
                    (self.here / file).write_text(text)


class Over(Kept):
    """A crate of the copy, checked in a copy of its own over what a check of it as it stands kept, and
    over the libraries that `rt ci` has just proved there."""

    def check(self, texts):
        kept = self.here / 'out/once-more'
        with self.lock:
            if not kept.is_dir():
                status, out = run(self.words(kept), self.here)
                if status:
                    return None, out
        with tempfile.TemporaryDirectory(prefix='reamstork-edit-') as folder:
            copy = Path(folder)
            for part in ('src', 'specs', 'proofs'):
                if (self.here / part).is_dir():
                    shutil.copytree(self.here / part, copy / part)
            for file, text in texts.items():
                (copy / file).write_text(text)
            shutil.copytree(kept, copy / 'kept', copy_function=linked)
            return run(self.words(copy / 'kept'), copy)

    def words(self, kept):
        """The command by which rt checks an edit."""
        kit, known = Path(shutil.which('rt')).resolve().parent.parent, crates()
        words = [kit / 'bin/rattle', 'check', '--crate-name', self.crate, file_of(self.crate)]
        words += ['--extern', 'std=%s' % (kit / 'rlibs/std.rlib'), '-L', 'dependency=%s' % (kit / 'rlibs')]
        for name in known[self.crate]:
            at = self.top / 'crates' / name / 'out/rlib' if name in known else kit / 'rlibs'
            words += ['--extern', '%s=%s' % (name, at / (name + '.rlib')), '-L', 'dependency=%s' % at]
        words += ['--antt-project', kit / 'rattle/logic/antt-project.json', '--logic-built', kit / 'logic_built']
        words += ['--jobs', '1', '--incremental', kept]
        static = re.search(r'(?m)^%s +staticlib' % self.crate, (ROOT / 'crates.txt').read_text())
        return words + ['--crate-type', 'staticlib'] * bool(static)


def linked(one, other):
    """Gives a file that the prover kept another name: it replaces such a file, and changes none."""
    try:
        if one.endswith('.oantt'):
            return os.link(one, other)
    except OSError:
        pass
    return shutil.copy2(one, other)


def run(words, folder):
    p = subprocess.run(words, cwd=folder, stdin=subprocess.DEVNULL, stdout=subprocess.PIPE,
                       stderr=subprocess.STDOUT, text=True, errors='replace')
    return p.returncode, p.stdout


# ---- a changed file as an edit

def as_edit(file, old, new):
    """An edit that makes the text `new` of a file's text `old`, or nothing. An edit's texts are of one
    line each, and the old one stands once in the file. So where the changed lines are more than one, or
    stand elsewhere too, all from the nearest line above that stands once to the nearest below is
    written once more, changed and in one line, and what was there is put into a comment."""
    was, now = old.split('\n'), new.split('\n')
    first, last = 0, 0
    shorter = min(len(was), len(now))
    while first < shorter and was[first] == now[first]:
        first += 1
    while last < shorter - first and was[-1 - last] == now[-1 - last]:
        last += 1
    end, other = len(was) - last, len(now) - last
    once = lambda line: line.strip() and '/*' not in line and '*/' not in line and '//' not in line and old.count(line) == 1
    if end - first == other - first == 1 and once(was[first]):
        return written(file, [(was[first], now[first])])
    above, under = first - 1, end
    while above >= 0 and not once(was[above]):
        above -= 1
    while under < len(was) and not once(was[under]):
        under += 1
    between = [re.sub(r'//.*', '', line).strip() for line in now[above + 1:other + under - end]]
    if above < 0 or under == len(was) or '*/' in '\n'.join(was[above:under + 1]):
        return None
    return written(file, [(was[above], was[above] + ' ' + ' '.join(filter(None, between)) + ' /*'),
                          (was[under], '*/ ' + was[under])])


def written(file, pairs):
    lines = ['file: ' + file]
    for old, new in pairs:
        lines += ['old: ' + old, 'new: ' + new]
    return '\n'.join(lines) + '\n'
