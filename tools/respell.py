#!/usr/bin/env python3
"""Brings the names that this repository's definitions, fields, constructors and lemmas have to the spelling of Rattle's library: snake case, where they
had camel case or dashes.

usage: tools/respell.py [--list]       in the repository; --list prints each name with its new spelling, and writes nothing

Run once, after port.py. It reads the .antt files for the names, and writes .antt, .rt and .edit files. Types, modules, names of Rattle code and strings stay as they are.
Where two names would fall together, OTHERWISE below says what the lemma is called."""
import os, re, subprocess, sys

TOKEN = re.compile(r'"(?:[^"\\]|\\.)*"|[^\s(){}.;,@"«»\[\]\\`]+')
DEFINED = re.compile(r'^(?:abbrev |unfoldable )?(?:pub )?([^\s(){}.;,@"]+) :(?:\s|$)')
FIELD = re.compile(r'^\s+(?:let )?(?:abbrev |unfoldable )?(?:pub )?([^\s(){}.;,@"=]+) :(?:\s|$)')
ALIAS = re.compile(r' as ([^\s(){}.;,]+)')
RECORD = re.compile(r'^(?:abbrev )?(?:pub )?(?:record|data) ')
# Names that Rattle makes, which a proof by hand defines or cites.
MADE = re.compile(r'.*-spec$|^(invariant|decreases)-.*|^loop-.*|.*-requires(-\d+)?$|^returns.*|^overflow-.*|^(shared-)?slice-.*|^same[-_]length.*|^Need-.*')
def snake(name):
    out = re.sub(r'(?<=[a-z0-9])([A-Z])', lambda m: '_' + m.group(1).lower(), name)
    return out.replace('-', '_')


# old name: new name, where the plain respelling is taken already
LEMMAS = "chain-at end-at first-place rule-at later-fragment image-size total-below-header within-tops place-rule holds-packet rising-from rule-in rule-right added-at chain_by row_words under_at below_at insert-says delete-says least-from block-link tree-blocks ends-at low-at free-link walk-link default-in cells-in table-in down-at high-at front-there list-says rule-read reads-each high-in row_word"
OTHERWISE = {name: snake(name) + '_lem' for name in LEMMAS.split()} | {'rest-is': 'rest_is_read', 'sourcePort': 'source_port_of', 'destinationPort': 'destination_port_of'}
# Two names of one spelling that no file uses both, and neither is the other's lemma: a field or a local word beside a definition.
APART = {'no_record', 'record_of', 'rule_found', 'full_at', 'packets_at', 'all_right', 'key_at', 'bytes_at'}


def files(*ends):
    said = subprocess.run(['git', 'ls-files', '--cached', '--others', '--exclude-standard'], capture_output=True, text=True, check=True).stdout
    return [f for f in said.split('\n') if f.endswith(ends) and os.path.isfile(f)]


def to_turn(name):
    """A name in camel case that begins with a small letter, or with dashes between words."""
    if not re.match(r"^[a-z][A-Za-z0-9'₀-₉_-]*$", name):
        return False
    return bool(re.search(r'[a-z0-9][A-Z]', name) or re.search(r"[a-z0-9']-[a-z0-9]", name))


def collect():
    """The names that the repository's own files define: (to be turned, all)."""
    turn, every = {}, {}
    for f in files('.antt'):
        by_hand = '/proofs/' in f and f.endswith('Proof.antt')
        inside = False
        for n, line in enumerate(open(f, encoding='utf-8').read().split('\n'), 1):
            if line and not line[0].isspace():
                inside = bool(RECORD.match(line))
            found = [m.group(1) for m in [DEFINED.match(line)] if m]
            if line[:1].isspace() and (inside or not by_hand):
                found += [m.group(1) for m in [FIELD.match(line)] if m]
            if line.startswith(('use ', 'open ')):
                found += ALIAS.findall(line)
            for name in found:
                if by_hand and MADE.match(name):
                    continue
                every.setdefault(name, f'{f}:{n}')
                if to_turn(name):
                    turn.setdefault(name, f'{f}:{n}')
    for f in files('.rt'):
        for line in open(f, encoding='utf-8'):
            if line.startswith('ghost use '):
                for name in ALIAS.findall(line):
                    every.setdefault(name, f)
                    if to_turn(name):
                        turn.setdefault(name, f)
    return turn, every


def table():
    turn, every = collect()
    new = {name: OTHERWISE.get(name, snake(name)) for name in every if name in turn or name in OTHERWISE}
    together = {}
    for name in every:
        together.setdefault(new.get(name, name), []).append(name)
    clash = [(to, olds) for to, olds in together.items() if len(olds) > 1 and to not in APART]
    return new, clash, turn, every


USED = re.compile(r'^(?:ghost )?use ([\w.+]+)\.\{(.*)\}')


def elsewhere(text, own):
    """The names that a file brings in from what is not this repository's."""
    out = set()
    for line in text.split('\n'):
        m = USED.match(line)
        if m and not (m.group(1).split('.')[0] == 'Rattle' and m.group(1).split('.')[1] in own):
            out |= {name.strip().split(' as ')[0] for name in m.group(2).split(',')}
    return out


def respell(text, new, own):
    new = {name: to for name, to in new.items() if name not in elsewhere(text, own)}
    return TOKEN.sub(lambda m: new.get(m.group(0), m.group(0)) if m.group(0)[0] != '"' else m.group(0), text)


def main(argv):
    new, clash, turn, every = table()
    if argv == ['--list']:
        for name in sorted(new):
            print(name, new[name])
        for to, olds in clash:
            print('TOGETHER', to, [(o, turn.get(o) or every.get(o)) for o in olds])
        return 0
    if clash:
        for to, olds in clash:
            print('falls together:', to, olds, file=sys.stderr)
        return 2
    n, own = 0, set(os.listdir('crates'))
    for f in files('.antt', '.rt', '.edit'):
        text = open(f, encoding='utf-8').read()
        out = respell(text, new, own)
        if out != text:
            open(f, 'w', encoding='utf-8').write(out)
            n += 1
    print(f'{len(new)} names, {n} files')
    return 0


if __name__ == '__main__':
    sys.exit(main(sys.argv[1:]))
