#!/usr/bin/env python3
"""Makes a picture of how the calls grow with the rules, from what plain/growth.sh prints.

    make bench-growth > growth.txt
    plain/growth.py growth.txt > docs/growth.svg

Shown are the instructions of the library, or where none were counted its nanoseconds:
on the left the calls that go over the whole store or image, on the right a lookup. Both
axes are by powers, so that a straight line of slope 1 grows as the rules do, and one of
slope 2 as their square.
"""

import math
import sys

SHAPES = ('narrow', 'overlap')
CALLS = (('insert', 7), ('freeze', 8), ('check', 6), ('image check', 9))
LOOKUPS = (('store', 10), ('image', 11))
COLOURS = {'insert': '#333333', 'freeze': '#3a6ea5', 'check': '#a03020', 'image check': '#5a8f3c',
           'store': '#a03020', 'image': '#5a8f3c'}
LINES = {'narrow': '', 'overlap': ' stroke-dasharray="7 4"'}
TOP, BOTTOM = 104, 404


def read(lines):
    """The first table whose title has figures of the library alone: its title and its rows."""
    title, rows = None, []
    for line in lines:
        words = line.split()
        if line.rstrip() in ('Instructions of the library', 'Nanoseconds of the library'):
            title = line.rstrip()
        elif title and words and words[0] in SHAPES:
            rows.append([words[0]] + [float(w) for w in words[1:]])
        elif rows:
            break
    if not rows:
        sys.exit('growth.py: no table of the library here')
    return title, rows


class Panel:
    """One diagram, with rules across and a figure up, both by powers."""

    def __init__(self, left, right, rules, figures):
        self.left, self.right = left, right
        self.rules = math.log10(min(rules)), math.log10(max(rules))
        self.figures = math.floor(math.log10(min(figures))), math.ceil(math.log10(max(figures)))

    def x(self, rules):
        low, high = self.rules
        return self.left + (self.right - self.left) * (math.log10(rules) - low) / (high - low)

    def y(self, figure):
        low, high = self.figures
        return BOTTOM - (BOTTOM - TOP) * (math.log10(figure) - low) / (high - low)

    def axes(self, rules):
        out = []
        for power in range(self.figures[0], self.figures[1] + 1):
            y = self.y(10 ** power)
            out.append('  <path class="grid" d="M%d %.1f H%d"/><text x="%d" y="%.1f" class="small end">%s</text>'
                       % (self.left, y, self.right, self.left - 8, y + 4, '{:,}'.format(10 ** power)))
        for i, n in enumerate(rules):
            x = self.x(n)
            # two that would stand in each other's way move apart
            place, shift = 'mid', 0
            if i + 1 < len(rules) and self.x(rules[i + 1]) - x < 30:
                place, shift = 'end', 6
            elif i > 0 and x - self.x(rules[i - 1]) < 30:
                place, shift = 'start', -6
            out.append('  <path class="grid" d="M%.1f %d V%d"/><text x="%.1f" y="%d" class="small %s">%d</text>'
                       % (x, TOP, BOTTOM, x + shift, BOTTOM + 18, place, n))
        out.append('  <rect x="%d" y="%d" width="%d" height="%d" class="frame"/>'
                   % (self.left, TOP, self.right - self.left, BOTTOM - TOP))
        return out

    def line(self, points, colour, dashes):
        path = ' '.join('%s%.1f %.1f' % ('L' if i else 'M', self.x(n), self.y(v)) for i, (n, v) in enumerate(points))
        dots = ''.join('<circle cx="%.1f" cy="%.1f" r="2.5" fill="%s"/>' % (self.x(n), self.y(v), colour)
                       for n, v in points)
        return '  <path d="%s" fill="none" stroke="%s" stroke-width="1.8"%s/>%s' % (path, colour, dashes, dots)


def key(x, y, colour, text):
    return ('  <path d="M%d %d H%d" stroke="%s" stroke-width="3"/><text x="%d" y="%d" class="small">%s</text>'
            % (x, y - 4, x + 22, colour, x + 28, y, text))


def draw(title, rows):
    rules = sorted({row[1] for row in rows})
    unit = title.split()[0].lower()
    out = ['<svg xmlns="http://www.w3.org/2000/svg" viewBox="0 0 900 470" width="900" height="470" '
           'font-family="DejaVu Sans, Verdana, Arial, sans-serif" font-size="14">',
           '  <title>How the calls grow with the rules</title>',
           '  <style>',
           '    .grid { stroke: #dddddd; stroke-width: 1; fill: none }',
           '    .frame { stroke: #888888; stroke-width: 1; fill: none }',
           '    .small { font-size: 12px }',
           '    .mid { text-anchor: middle }',
           '    .end { text-anchor: end }',
           '    .start { text-anchor: start }',
           '  </style>',
           '  <rect width="900" height="470" fill="#ffffff"/>',
           '',
           '  <text x="20" y="28" font-weight="bold">From 10 to 512 rules, c = 65,536: %s of one call</text>' % unit,
           '  <text x="20" y="50" class="small">Both axes are by powers. Whole lines: narrow rules. Broken lines: '
           'rules that overlap.</text>']
    for calls, left, right, name, width in ((CALLS, 110, 500, 'over the whole store or image', 98),
                                            (LOOKUPS, 610, 870, 'a lookup, mean of 1,024 packets', 98)):
        panel = Panel(left, right, rules, [row[at] for row in rows for _, at in calls])
        out += ['', '  <!-- %s -->' % name]
        out += panel.axes(rules)
        for i, (call, at) in enumerate(calls):
            for shape in SHAPES:
                points = [(row[1], row[at]) for row in rows if row[0] == shape]
                out.append(panel.line(points, COLOURS[call], LINES[shape]))
            out.append(key(left + width * i, TOP - 14, COLOURS[call], call))
        out.append('  <text x="%d" y="%d" class="mid">rules; %s</text>' % ((left + right) // 2, BOTTOM + 44, name))
    out.append('</svg>')
    return '\n'.join(out)


def main():
    if len(sys.argv) > 2:
        sys.exit(__doc__)
    with open(sys.argv[1]) if len(sys.argv) == 2 else sys.stdin as lines:
        print(draw(*read(lines)))


if __name__ == '__main__':
    main()
