#!/usr/bin/env python3
"""Holds what finding a new rule's place costs, in instructions, to docs/TIMING.md.

    tests/place.py [--archive FILE]

A rule whose number is above all that stand finds its place at the first look, however
many stand, in a store of either kind. The search alone is counted as a difference of two
calls over the same words: a read that is refused with 4, just after the search, less one
that is refused with 1, just before it; and in a full table, of 64 rules or 512, an insert
that is refused with 5 less one refused with 2. A search that looks at each rule would take
some instructions more for each.

The archive is that for the machine's own processor.
"""

import argparse
import sys
import tempfile

from calls import ARCHIVE, GIVEN, Program, Script, cannot
from laid import laid
from loads import READ
from reference import KINDS, LARGE, SMALL, Rule, default_rule

CELLS = 60
RULES = {SMALL: (1, 2, 8, 16, 32, 63), LARGE: (1, 63, 64, 511)}
MOST_FOR_A_RULE = 0.5  # instructions
LOW, HIGH = (1, 0, 17, 5000, 0, 0), (9, 4294967295, 17, 5009, 65535, 0)
# Refused by the last field: of all that is asked before the search only the port rule is left.
TOO_HIGH = HIGH[:5] + (2,)


def table(kind, rules):
    """A script over a store of so many rules, 100, 200, .., all of one range."""
    script = Script()
    script.fill(laid(CELLS, [default_rule(1)] + [Rule(100 * i + 100, 1, LOW, HIGH)
                                                 for i in range(rules)], kind))
    return script


def reading(program, kind, rules, number, answer):
    script = table(kind, rules)
    script.call(READ, number)
    count, given = program.count(script, 'reamstork_read')
    got = given[-GIVEN[READ]]
    if got != answer:
        sys.exit('a read of %d among %d rules gives %d, not %d' % (number, rules, got, answer))
    return count


def inserting(program, kind, high, answer):
    script = table(kind, kind.rules)
    script.insert(Rule(65000, 1, LOW, high))
    count, given = program.count(script, 'reamstork_insert')
    if given[-1] != answer:
        sys.exit('an insert into a full table gives %d, not %d' % (given[-1], answer))
    return count


def main():
    parser = argparse.ArgumentParser(description=__doc__,
                                     formatter_class=argparse.RawDescriptionHelpFormatter)
    parser.add_argument('--archive', default=ARCHIVE)
    options = parser.parse_args()
    why = cannot()
    if why:
        print('FAILED: %s\n0 passed, 1 failed' % why)
        return 1
    with tempfile.TemporaryDirectory(prefix='place-') as folder:
        program = Program(options.archive, folder)
        found = {(kind, n): reading(program, kind, n, 65000, 4) - reading(program, kind, n, 65536, 1)
                 for kind in KINDS for n in RULES[kind]}
        for kind in KINDS:
            found[kind, kind.rules] = (inserting(program, kind, HIGH, 5)
                                       - inserting(program, kind, TOO_HIGH, 2))
    passed = 0
    for (kind, rules), count in found.items():
        one = found[kind, 1]
        # for hundreds of rules a small part of an instruction each would hide a slow search
        good = count <= one + MOST_FOR_A_RULE * min(rules, 64)
        passed += good
        print('%s: finding the place above %d rules of a %s store takes %d instructions, above one %d'
              % ('ok' if good else 'FAILED', rules, kind.name, count, one))
    print('%d passed, %d failed' % (passed, len(found) - passed))
    return 0 if passed == len(found) else 1


if __name__ == '__main__':
    sys.exit(main())
