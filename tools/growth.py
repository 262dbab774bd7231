#!/usr/bin/env python3
"""growth.py: writes docs/growth.svg, how instructions grow with the size of a frame, the frames of a walk and the windows of the bus. Run after
tools/measure.sh, which builds the two programs that it calls. Counts are those of measure.py: a call and the Rust around it, less an empty turn.
"""
import os
import tempfile

import measure
from measure import BUS_ERROR, LONG, ROOT, SIDES, USUAL

FILE = os.path.join(ROOT, 'docs/growth.svg')
COLOURS = {'proved': '#1f5fa8', 'Rust': '#b3541e'}
# Each drawing: its title, what is on its axis, and points: where on the axis, and the input.
SIZES = [(6, 'take_exception:20 kind=1', 'patch=80:00002000'), (8, 'take_exception:20 kind=4', 'patch=80:00002000'), (12, 'exception_chk kind=4', 'patch=18:00002000'),
         (60, BUS_ERROR + ' kind=9', 'patch=8:00002000'), (92, BUS_ERROR + ' kind=4', 'patch=8:00002000')]
DEPTHS = [(n, 'walk:%x:%x kind=4' % (n, 4 * n), 'patch=8000:' + LONG * n) for n in (1, 8, 16, 32, 48, 64)]
WINDOWS = [(n, 'take_exception:20 kind=4', 'patch=80:00002000' + (' win=' + ','.join('%x:10' % (0xC000 + 0x100 * i) for i in range(n)) if n else '')) for n in (0, 1, 4, 8)]
DRAWINGS = [('an entry, by bytes of its frame', SIZES, list(SIDES)), ('a walk, by its frames', DEPTHS, ['proved']),
            ('take_exception on kind 4, by windows', WINDOWS, list(SIDES))]
WIDE, HIGH, LEFT, TOP, GAP = 250, 180, 60, 40, 90


def counts(side, call, rest, empty, folder):
    found = measure.each_turn(side, 'call', 'call=%s %s %s' % (call, USUAL, rest), folder)
    return sum(measure.without(found[1], empty[side][0]).values())


def drawing(place, title, lines, points):
    """One drawing: a line of points for each side, each with its number."""
    most, last = max(n for found in lines.values() for n in found), max(points)
    x0 = LEFT + place * (WIDE + GAP)
    out = ['<text x="%d" y="20">%s</text>' % (x0, title), '<path d="M%d %d v%d h%d" fill="none" stroke="#555"/>' % (x0, TOP, HIGH, WIDE)]
    for k, (side, found) in enumerate(lines.items()):
        dots = [(x0 + WIDE * p // last, TOP + HIGH - HIGH * n // most) for p, n in zip(points, found)]
        out.append('<polyline points="%s" fill="none" stroke="%s" stroke-width="1.5"/>' % (' '.join('%d,%d' % d for d in dots), COLOURS[side]))
        for i, ((x, y), n) in enumerate(zip(dots, found)):
            out.append('<circle cx="%d" cy="%d" r="2.5" fill="%s"/>' % (x, y, COLOURS[side]))
            if i in (0, len(dots) - 1):
                out.append('<text x="%d" y="%d" fill="%s">%d</text>' % (x + 4, y - 6 + (16 if side == 'Rust' else 0), COLOURS[side], n))
        out.append('<text x="%d" y="%d" fill="%s">%s</text>' % (x0 + 10 + 70 * k, TOP + 10, COLOURS[side], side))
    return out + ['<text x="%d" y="%d">%s</text>' % (x0, TOP + HIGH + 16, ', '.join(map(str, points)))]


def main():
    out = []
    with tempfile.TemporaryDirectory() as folder:
        empty = {side: measure.each_turn(side, 'copy', 'call=take_exception:20 kind=4 ' + USUAL, folder)[1:] for side in SIDES}
        for place, (title, rows, sides) in enumerate(DRAWINGS):
            lines = {side: [counts(side, call, rest, empty, folder) for _, call, rest in rows] for side in sides}
            print(title, [p for p, _, _ in rows], lines)
            out += drawing(place, title, lines, [p for p, _, _ in rows])
    width = LEFT + len(DRAWINGS) * (WIDE + GAP)
    with open(FILE, 'w', encoding='utf-8') as file:
        file.write('<svg xmlns="http://www.w3.org/2000/svg" width="%d" height="%d" font-family="sans-serif" font-size="11">\n' % (width, TOP + HIGH + 30))
        file.write('<rect width="100%" height="100%" fill="white"/>\n' + '\n'.join(out) + '\n</svg>\n')


if __name__ == '__main__':
    main()
