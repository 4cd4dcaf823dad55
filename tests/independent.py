#!/usr/bin/env python3
"""Drives the library through its C face and compares it with the reference.

    tests/independent.py --driver CMD.. [--bench CMD..] [--seconds N] [--seed N] [--case K]

--driver is the command that runs driver.c linked with the archive, --bench
the one that runs the bench program; an emulator may stand in front of either.
Cases are numbered. The first ones are fixed, the rest are random and go on
until the time is up. A case depends on the seed and its number alone: --seed
N --case K runs one again. The last line counts cases.
"""

import argparse
import random
import shlex
import sys
import time
from collections import Counter

from carry import (carry_bench, carry_full, carry_hostile, carry_limits, carry_refusals,
                   carry_worlds)
from cut import cut_examples, cut_grid, cuts
from dead import (dead_examples, dead_ports, dead_refusals, dead_sixty_four, hidden,
                  hidden_worlds)
from drive import Disagreement, Driver, Talk
from edits import crowd, edits, fit, histories, large, many
from frozen import (frozen_alike, frozen_cycles, frozen_deep, frozen_examples, frozen_four_levels,
                    frozen_hostile, frozen_lengths, frozen_mazes, frozen_most, frozen_orders,
                    frozen_pokes, frozen_refusals, frozen_worlds, frozen_worst)
from hostile import garbage, hostile, hostile_large, mazes
from limits import (any_words_before, bench_table, every_length, five_hundred_twelve, full_tables,
                    kinds, order_of_refusals, rows_of_a_walk, seven_before_nine, sizes_of_a_walk,
                    starts)
from lists import (list_crowded, list_damage, list_full, list_groups, list_hostile, list_lengths,
                   list_own, list_refusals, list_removes, list_room, list_swap, list_walls,
                   list_worlds)
from packets import BenchProgram, captures, every_prefix, header_grid, headers, prefixes
from portless import (most_reads, port_rule, port_rule_damage, port_tables, request_example,
                      who_has_ports)
from records import bench_list, beside, corners, lists
from tallies import differences, hostile_tallies, tallies, tally_edges
from worst import (worst_alike, worst_damage, worst_examples, worst_sixty_four, worst_tables,
                   worst_ties, worst_tops, worst_worlds)
from written import written_by_hand, written_far, written_files, written_lengths, written_numbers

FIXED = [bench_table, starts, any_words_before, every_length, sizes_of_a_walk, rows_of_a_walk,
         full_tables, five_hundred_twelve, kinds, order_of_refusals, header_grid, seven_before_nine,
         every_prefix, captures, tally_edges, bench_list, corners, port_rule, request_example,
         who_has_ports, most_reads, port_rule_damage, cut_examples, cut_grid, dead_examples,
         dead_ports, dead_sixty_four, dead_refusals, worst_examples, worst_ties, worst_tops,
         worst_sixty_four, worst_damage, frozen_examples, frozen_deep, frozen_worst, frozen_lengths,
         frozen_refusals, frozen_pokes, frozen_most, frozen_orders, frozen_cycles,
         frozen_four_levels, carry_bench, carry_refusals, carry_full, carry_limits, written_by_hand,
         written_lengths, written_numbers, written_far, list_swap, list_room, list_own,
         list_lengths, list_refusals, list_removes, list_full, list_crowded, list_walls,
         list_damage]

# In this order again and again; the costly ones come seldom.
RANDOM = [edits, hostile, fit, headers, frozen_worlds, carry_worlds, carry_hostile, edits,
          list_worlds, list_hostile, list_groups,
          histories, hostile, garbage, edits, frozen_hostile, crowd, fit, histories, hostile,
          prefixes, edits, headers, large, hostile, histories, hostile_large, mazes, mazes,
          tallies, differences, tallies, hostile_tallies, lists, frozen_mazes, frozen_worlds,
          beside, port_tables, port_rule_damage, port_tables, cuts, many, hidden, hidden_worlds,
          hidden, hidden, worst_tables, worst_worlds, worst_tables, worst_alike, frozen_hostile,
          frozen_alike, carry_worlds, carry_hostile, written_files, list_worlds, list_worlds,
          list_groups, list_hostile]


class Run:
    def __init__(self, options):
        self.options = options
        self.driver = Driver(options.driver, options.patience)
        self.random = RANDOM + [BenchProgram(options.bench, options.patience)]
        self.passed, self.failed = 0, 0
        self.parts, self.answers, self.notes = {}, Counter(), Counter()

    def part(self, number):
        if number < len(FIXED):
            return FIXED[number]
        return self.random[(number - len(FIXED)) % len(self.random)]

    def case(self, number):
        part = self.part(number)
        if isinstance(part, BenchProgram) and not part.command:
            return
        rng = random.Random('%d case %d' % (self.options.seed, number))
        talk = Talk(self.driver)
        began = time.monotonic()
        try:
            part(talk, rng)
            self.passed += 1
        except Disagreement as found:
            self.failed += 1
            print('FAILED case %d (%s): run again with --seed %d --case %d\n  %s' % (
                number, part.__name__, self.options.seed, number, str(found).replace('\n', '\n  ')),
                flush=True)
        count, spent = self.parts.get(part.__name__, (0, 0))
        self.parts[part.__name__] = (count + 1, spent + time.monotonic() - began)
        self.answers += talk.answers
        self.notes += talk.notes

    def all(self):
        began = time.monotonic()
        number = 0
        while self.failed < self.options.stop and (
                number < len(FIXED) or time.monotonic() < began + self.options.seconds):
            self.case(number)
            number += 1
        return time.monotonic() - began

    def report(self, spent):
        for name, (count, took) in self.parts.items():
            print('%-18s %6d cases %8.1f s' % (name, count, took))
        seen = ', '.join('%d: %d' % pair for pair in sorted(self.answers.items()))
        print('answers seen: ' + seen)
        print(', '.join('%s: %d' % pair for pair in self.notes.items()))
        print('%d calls in %.1f s, %d in a second' % (
            self.driver.calls, spent, self.driver.calls / max(spent, 0.001)))


def command_line(words):
    return shlex.split(words[0]) if len(words) == 1 else words


def main():
    parser = argparse.ArgumentParser(description='The library against an independent reference.')
    parser.add_argument('--driver', nargs='+', required=True, metavar='CMD')
    parser.add_argument('--bench', nargs='+', metavar='CMD')
    parser.add_argument('--seconds', type=float, default=60)
    parser.add_argument('--seed', type=int, default=None)
    parser.add_argument('--case', type=int, default=None)
    parser.add_argument('--patience', type=float, default=120,
                        help='seconds after which a batch of calls counts as hanging')
    parser.add_argument('--stop', type=int, default=20, help='stop after that many failures')
    options = parser.parse_args()
    options.driver = command_line(options.driver)
    options.bench = options.bench and command_line(options.bench)
    if options.seed is None:
        options.seed = random.SystemRandom().randrange(10 ** 9)
    print('seed %d' % options.seed, flush=True)
    run = Run(options)
    began = time.monotonic()
    if options.case is None:
        run.all()
    else:
        run.case(options.case)
    run.report(time.monotonic() - began)
    run.driver.end()
    print('%d passed, %d failed' % (run.passed, run.failed))
    return 1 if run.failed or not run.passed else 0


if __name__ == '__main__':
    sys.exit(main())
