#!/usr/bin/env python3
"""Makes a table of the runner's output, or a chart of such a table.

    table.py [COUNTS] < OUTPUT        the table; COUNTS is the output of `counts.py`
    table.py --chart < DOCUMENT       the chart, as SVG, of the table that a document has

A row has the library's nanoseconds a unit, and its time divided by that of each other side: above 1
the library is slower. From COUNTS a row has the library's instructions divided by those of the side
in Rust. The chart shows each row beside its peers, on a scale of powers.
"""
import html
import math
import sys

HEAD = '| workload | library, ns | / C | / Rust | / Rust, instructions | / copy | / clients |'
BY_HAND = ['hand-c', 'hand-rust', 'copy']


def lines_of(stream):
    return [line.split() for line in stream if line.strip() and not line.startswith('#')]


def table(output, counts):
    """The lines of the table."""
    found = {}
    for workload, who, median, *_ in output:
        found.setdefault(workload, {})[who] = float(median)
    yield HEAD
    yield '|---|---|---|---|---|---|---|'
    for workload, sides in found.items():
        ours = sides.pop('library', None)
        if ours is None:
            continue
        ratio = {who: f'{ours / time:.2f}' if time else '' for who, time in sides.items()}
        clients = ', '.join(f'{who} {ratio[who]}' for who in sorted(sides, key=sides.get) if who not in BY_HAND)
        c, rust, copy = (ratio.get(who, '') for who in BY_HAND)
        time = f'{ours:.3g}' if ours < 1000 else f'{ours:.0f}'
        yield f'| {workload} | {time} | {c} | {rust} | {counts.get(workload, "")} | {copy} | {clients} |'


def rows_of(document):
    """Of each row of the document's table its workload and its sides, each with its ratio."""
    inside = False
    for line in document:
        line = line.strip()
        inside = line == HEAD or (inside and line.startswith('|'))
        cells = [cell.strip() for cell in line.strip('|').split('|')]
        if inside and line != HEAD and not line.startswith('|---'):
            sides = [(name, cell) for name, cell in zip(('C', 'Rust', 'instructions'), cells[2:5]) if cell]
            sides += [tuple(client.rsplit(' ', 1)) for client in cells[6].split(', ') if client]
            yield cells[0], [(name, float(ratio)) for name, ratio in sides]


# Of each side the letters that its name begins with, its words in the legend, its form, its colour.
SIDES = [
    ('C', 'C by hand', 'circle', '#6b7280'),
    ('Rust', 'Rust by hand', 'diamond', '#c2410c'),
    ('instructions', 'the same, by instructions', 'hollow', '#c2410c'),
    ('libmariadb', 'libmariadb', 'square', '#1d4ed8'),
    ('go-sql-driver', 'go-sql-driver', 'triangle', '#0d9488'),
    ('PyMySQL', 'PyMySQL', 'cross', '#a16207'),
]
LEAST, MOST = 0.01, 15
LEFT, TOP, HIGH, WIDE = 190, 64, 17, 700


def x_of(ratio):
    share = math.log(max(ratio, LEAST) / LEAST) / math.log(MOST / LEAST)
    return LEFT + share * WIDE


def mark(form, colour, x, y, words=''):
    """A side's mark at a place, with the words that a pointer shows."""
    paths = {
        'circle': f'M{x - 4:.1f} {y}a4 4 0 1 0 8 0a4 4 0 1 0 -8 0z',
        'diamond': f'M{x:.1f} {y - 5}l5 5l-5 5l-5 -5z',
        'hollow': f'M{x:.1f} {y - 5}l5 5l-5 5l-5 -5z',
        'square': f'M{x - 4:.1f} {y - 4}h8v8h-8z',
        'triangle': f'M{x:.1f} {y - 5}l5 9h-10z',
        'cross': f'M{x - 4:.1f} {y - 4}l8 8m0 -8l-8 8',
    }
    filled = colour if form not in ('hollow', 'cross') else 'none'
    width = 2 if form == 'cross' else 1.2
    title = f'<title>{html.escape(words)}</title>' if words else ''
    return f'<path d="{paths[form]}" fill="{filled}" stroke="{colour}" stroke-width="{width}">{title}</path>'


def text(x, y, words, anchor='start', weight='normal'):
    return f'<text x="{x:.1f}" y="{y}" text-anchor="{anchor}" font-weight="{weight}">{html.escape(words)}</text>'


def chart(rows):
    """The lines of the chart."""
    bottom = TOP + HIGH * len(rows)
    yield (f'<svg xmlns="http://www.w3.org/2000/svg" width="{LEFT + WIDE + 20}" height="{bottom + 34}" '
           f'font-family="sans-serif" font-size="11" fill="#1f2937">')
    yield '<rect width="100%" height="100%" fill="#ffffff"/>'
    yield text(10, 18, "The library's time divided by that of each peer: left of 1 the library is faster.", weight='bold')
    at = 10
    for _, words, form, colour in SIDES:
        yield mark(form, colour, at + 5, 36)
        yield text(at + 15, 40, words)
        at += 28 + 6.2 * len(words)
    for number, (workload, _) in enumerate(rows):
        family = workload.split('-')[0]
        if number and family != rows[number - 1][0].split('-')[0]:
            y = TOP + HIGH * number
            yield f'<path d="M10 {y}H{LEFT + WIDE}" stroke="#9ca3af"/>'
    for ratio in (0.01, 0.02, 0.05, 0.1, 0.2, 0.5, 1, 2, 5, 10):
        x = x_of(ratio)
        colour, width = ('#111827', 1.5) if ratio == 1 else ('#e5e7eb', 1)
        yield f'<path d="M{x:.1f} {TOP}V{bottom}" stroke="{colour}" stroke-width="{width}"/>'
        yield text(x, TOP - 6, f'{ratio:g}', 'middle')
        yield text(x, bottom + 16, f'{ratio:g}', 'middle')
    for number, (workload, sides) in enumerate(rows):
        y = TOP + HIGH * number + 9
        yield f'<path d="M{LEFT} {y}H{LEFT + WIDE}" stroke="#f3f4f6"/>'
        yield text(LEFT - 10, y + 4, workload, 'end')
        for name, ratio in sides:
            _, _, form, colour = next(side for side in SIDES if name.startswith(side[0]))
            yield mark(form, colour, x_of(ratio), y, f'{workload}: {name} {ratio:g}')
    yield '</svg>'


def main():
    if sys.argv[1:] == ['--chart']:
        lines = chart([row for row in rows_of(sys.stdin) if row[1]])
    else:
        counts = {}
        if len(sys.argv) > 1:
            with open(sys.argv[1]) as file:
                counts = {words[0]: words[2].replace('-', '') for words in lines_of(file)}
        lines = table(lines_of(sys.stdin), counts)
    print('\n'.join(lines))


main()
