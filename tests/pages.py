#!/usr/bin/env python3
"""Holds the pages to the repository: what they name has to be there.

    tests/pages.py

In README.md, CHANGELOG.md and docs/*.md, between backquotes:
- a path that begins with crates/, docs/, examples/, include/, plain/, scripts/, tests/ or
  tool/ is a file or a folder; * stands for any name, a word in capitals is left out;
- crate/label is a must-fail edit;
- `make word` is a target of the Makefile;
- a page X.md stands in docs/ or at the top;
and in docs/REQUIREMENTS.md every single name is a word of the source, the tests or
the header, and the requirements count from R1 with none left out. Every page of
docs/ stands in README's list. Every function that the header declares is named in
docs/PROMISES.md and docs/TIMING.md, and README says how many there are. The last line
counts what was looked at.
"""

import re
import sys
from pathlib import Path

ROOT = Path(__file__).resolve().parent.parent
PAGES = [ROOT / 'README.md', ROOT / 'CHANGELOG.md', *sorted((ROOT / 'docs').glob('*.md'))]
FOLDERS = 'crates|docs|examples|include|plain|scripts|tests|tool'
PATH = re.compile(r'(?:%s)/[\w./*-]*' % FOLDERS)
EDIT = re.compile(r'([a-z0-9]+)/([a-z0-9_]+)')
DECLARED = re.compile(r'^[a-z][a-z0-9_ ]*[ *](reamstork_[a-z_]*)\(.*\);$', re.M)
COUNTS = {14: 'fourteen', 15: 'fifteen', 16: 'sixteen', 17: 'seventeen', 18: 'eighteen',
          23: 'twenty-three', 24: 'twenty-four', 25: 'twenty-five', 27: 'twenty-seven',
          28: 'twenty-eight'}
NAME = re.compile(r"[A-Za-z][A-Za-z0-9_']*(?:-[A-Za-z0-9']+)*")


class Pages:
    def __init__(self):
        self.passed, self.failed = 0, 0
        self.targets = set(re.findall(r'^([a-z-]+):', (ROOT / 'Makefile').read_text(), re.M))
        self.crates = {path.name for path in (ROOT / 'crates').iterdir()}

    def see(self, truth, page, what):
        self.passed += bool(truth)
        self.failed += not truth
        if not truth:
            print('FAILED %s: %s' % (page.relative_to(ROOT), what))

    def quoted(self, page, text):
        edit = EDIT.fullmatch(text)
        if PATH.fullmatch(text) and not re.search('[A-Z]{3,}(?!.*\\.md)', text):
            self.see(any(ROOT.glob(text.rstrip('/'))), page, 'no such file: ' + text)
        elif edit and edit[1] in self.crates:
            self.see(any((ROOT / folder).is_file() for folder in (
                'crates/%s/must-fail/%s.edit' % edit.groups(),
                'tests/must-fail/%s/%s.edit' % edit.groups())), page, 'no such edit: ' + text)
        elif re.match(r'make [a-z]', text):
            self.see(text.split()[1] in self.targets, page, 'no such target: ' + text)
        elif re.fullmatch(r'[A-Z]+\.md', text):
            self.see((ROOT / text).is_file() or (ROOT / 'docs' / text).is_file(), page, 'no such page: ' + text)

    def names(self, page):
        words = set()
        for pattern in ('crates/**/*.antt', 'crates/**/*.rt', 'tests/*.py', 'tests/*.c', 'include/*.h', 'tool/*.c'):
            for path in ROOT.glob(pattern):
                words.update(NAME.findall(path.read_text(errors='replace')))
        text = page.read_text()
        for name in sorted(set(re.findall(r'`(%s)`' % NAME.pattern, text))):
            self.see(name in words, page, 'no such name: ' + name)
        numbers = [int(n) for n in re.findall(r'^\| R(\d+) \|', text, re.M)]
        self.see(numbers == list(range(1, len(numbers) + 1)), page, 'the requirements do not count from 1')

    def calls(self):
        declared = DECLARED.findall((ROOT / 'include/reamstork.h').read_text())
        for page in (ROOT / 'docs/PROMISES.md', ROOT / 'docs/TIMING.md'):
            text = page.read_text()
            for name in declared:
                self.see('`%s`' % name in text, page, 'says nothing of ' + name)
        page = ROOT / 'README.md'
        count = COUNTS.get(len(declared), str(len(declared)))
        self.see('a C library of %s calls' % count in page.read_text(), page, 'the header declares %s calls' % count)

    def all(self):
        for page in PAGES:
            text = re.sub(r'^```.*?^```', '', page.read_text(), flags=re.M | re.S)
            for quoted in sorted(set(re.findall(r'`([^`]+)`', text))):
                self.quoted(page, quoted)
        self.names(ROOT / 'docs/REQUIREMENTS.md')
        self.calls()
        listed = (ROOT / 'README.md').read_text()
        for page in PAGES[2:]:
            self.see('| `docs/%s` |' % page.name in listed, page, "not in README's list of pages")
        print('%d passed, %d failed' % (self.passed, self.failed))
        return 1 if self.failed or not self.passed else 0


if __name__ == '__main__':
    sys.exit(Pages().all())
