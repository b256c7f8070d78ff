#!/usr/bin/env python3
"""picture.py INPUT OUTPUT > SVG: draws a plan and its points, coloured by what the program findspot replied.

INPUT is what the program read and OUTPUT what it wrote for it. Polygons are drawn as document 01 has them: the outer ring by its winding
number, less its holes. A tree's rings are drawn by parity, which is right where none crosses itself or goes round
twice. Points on the grid are round, points
on the half-grid square.
"""
import sys

SCALE = 18  # pixels a unit
MARGIN = 2  # units round the plan and its points
LEGEND_LEFT = 24  # pixels before the legend's entries
LEGEND_ROW = 26  # pixels a row of the legend
LEGEND_RIM = 12  # pixels above and below its rows

# the legend: a marker's shape and colour, and what it stands for
ENTRIES = [
    ('coin', 'inside', 'inside'),
    ('coin', 'outside', 'outside'),
    ('coin', 'boundary', 'boundary'),
    ('coin', 'plain', 'on the grid (coin)'),
    ('half', 'plain', 'on the half-grid (half)'),
]

# class: light colours, then dark ones
STYLE = """
  text { font: 13px ui-sans-serif, system-ui, "DejaVu Sans", sans-serif; }
  .card { fill: #ffffff; stroke: #d0d7de; }
  .grid { stroke: #e8ebef; stroke-width: 1; }
  .tick { fill: #6e7781; font-size: 11px; }
  .label { fill: #24292f; }
  .region { fill: #a9c7ea; }
  .ring { fill: none; stroke: #2c5c97; stroke-width: 1.6; stroke-linejoin: round; }
  .inside { fill: #0b7a45; stroke: #ffffff; }
  .outside { fill: #ffffff; stroke: #b3261e; }
  .boundary { fill: #f0a202; stroke: #3d2a00; }
  .point { stroke-width: 1.6; }
  .plain { fill: #57606a; stroke: #57606a; }
  @media (prefers-color-scheme: dark) {
    .card { fill: #0d1117; stroke: #30363d; }
    .grid { stroke: #1d232b; }
    .tick { fill: #8b949e; }
    .label { fill: #e6edf3; }
    .region { fill: #1f4a7d; }
    .ring { stroke: #7fb2f0; }
    .inside { fill: #3fd07f; stroke: #0d1117; }
    .outside { fill: #0d1117; stroke: #ff7b72; }
    .boundary { fill: #ffc53d; stroke: #0d1117; }
    .plain { fill: #8b949e; stroke: #8b949e; }
  }
"""


def read_plan(path):
    """The kind and the polygons of an input, each a list of rings; a tree is one polygon."""
    kind, polygons = 'list', []
    with open(path) as file:
        for line in file:
            word, *fields = line.rstrip('\n').split('\t')
            if word == 'plan':
                kind = fields[0] if fields else 'list'
                polygons = [[]] if kind == 'tree' else []
            elif word == 'outer':
                polygons.append([[]])
            elif word in ('hole', 'node'):
                polygons[-1].append([])
            elif word == 'at':
                polygons[-1][-1].append((int(fields[0]), int(fields[1])))
            else:
                return kind, polygons
    return kind, polygons


def read_points(path):
    """The word, the place and the reply of each point of an output."""
    points = []
    with open(path) as file:
        for line in file:
            word, *fields = line.rstrip('\n').split('\t')
            if word not in ('coin', 'half'):
                sys.exit(f'picture.py: {path}: not a reply: {line.strip()}')
            unit = 1 if word == 'coin' else 2
            points.append((word, int(fields[0]) / unit, int(fields[1]) / unit, fields[2]))
    return points


def number(value):
    return f'{value:.1f}'.removesuffix('.0')


class Sheet:
    """From the plan's coordinates to pixels, y upwards."""

    def __init__(self, polygons, points):
        corners = [corner for rings in polygons for ring in rings for corner in ring]
        xs = [x for x, _ in corners] + [x for _, x, _, _ in points]
        ys = [y for _, y in corners] + [y for _, _, y, _ in points]
        self.left, self.right = int(min(xs)) - MARGIN, int(max(xs)) + MARGIN
        self.bottom, self.top = int(min(ys)) - MARGIN, int(max(ys)) + MARGIN
        self.width = (self.right - self.left) * SCALE
        self.height = (self.top - self.bottom) * SCALE

    def x(self, x):
        return number((x - self.left) * SCALE)

    def y(self, y):
        return number((self.top - y) * SCALE)

    def path(self, ring):
        return 'M' + ' L'.join(f'{self.x(x)},{self.y(y)}' for x, y in ring) + ' Z' if ring else ''


def grid(sheet):
    """A line every five units, with its number at the rim."""
    for x in range(sheet.left + 1, sheet.right):
        if x % 5 == 0:
            yield f'<line class="grid" x1="{sheet.x(x)}" y1="0" x2="{sheet.x(x)}" y2="{sheet.height}"/>'
            yield f'<text class="tick" x="{sheet.x(x)}" y="{sheet.height - 6}" text-anchor="middle">{x}</text>'
    for y in range(sheet.bottom + 2, sheet.top):
        if y % 5 == 0:
            yield f'<line class="grid" x1="0" y1="{sheet.y(y)}" x2="{sheet.width}" y2="{sheet.y(y)}"/>'
            yield f'<text class="tick" x="6" y="{sheet.y(y)}" dy="4">{y}</text>'


def region(sheet, kind, polygons):
    """The filled region, then the rings."""
    for place, rings in enumerate(polygons):
        if kind == 'tree':
            whole = ' '.join(sheet.path(ring) for ring in rings)
            yield f'<path class="region" fill-rule="evenodd" d="{whole}"/>'
        else:
            outer, *holes = (sheet.path(ring) for ring in rings)
            yield f'<mask id="p{place}"><path fill="#fff" d="{outer}"/>'
            yield from (f'<path fill="#000" d="{hole}"/>' for hole in holes)
            yield f'</mask><path class="region" mask="url(#p{place})" d="{outer}"/>'
    yield from (f'<path class="ring" d="{sheet.path(ring)}"/>' for rings in polygons for ring in rings)


def marker(word, x, y, style):
    if word == 'coin':
        return f'<circle class="point {style}" cx="{number(x)}" cy="{number(y)}" r="5.5"/>'
    return f'<rect class="point {style}" x="{number(x - 4.5)}" y="{number(y - 4.5)}" width="9" height="9"/>'


def points_drawn(sheet, points):
    for word, x, y, reply in points:
        title = f'{word} {number(x)} {number(y)}: {reply}'
        yield f'<g><title>{title}</title>{marker(word, float(sheet.x(x)), float(sheet.y(y)), reply)}</g>'


def legend_rows(width):
    """Where each entry of the legend starts: in rows that fit the width."""
    rows, x = [[]], LEGEND_LEFT
    for word, style, text in ENTRIES:
        wide = 46 + 6.4 * len(text)
        if rows[-1] and x + wide > width:
            rows.append([])
            x = LEGEND_LEFT
        rows[-1].append((x, word, style, text))
        x += wide
    return rows


def legend(sheet, rows):
    """What the colours and the shapes mean."""
    for row, entries in enumerate(rows):
        y = sheet.height + LEGEND_ROW * (row + 0.5) + LEGEND_RIM
        for x, word, style, text in entries:
            yield marker(word, x, y, style)
            yield f'<text class="label" x="{number(x + 13)}" y="{number(y)}" dy="4.5">{text}</text>'


def picture(kind, polygons, points):
    sheet = Sheet(polygons, points)
    rows = legend_rows(sheet.width)
    height = sheet.height + LEGEND_ROW * len(rows) + 2 * LEGEND_RIM
    yield f'<svg xmlns="http://www.w3.org/2000/svg" viewBox="-1 -1 {sheet.width + 2} {height + 2}" width="{sheet.width + 2}" height="{height + 2}" role="img">'
    yield '<title>A plan, the points asked of it and the replies</title>'
    yield f'<style>{STYLE}</style>'
    yield f'<rect class="card" width="{sheet.width}" height="{height}" rx="8"/>'
    yield from grid(sheet)
    yield from region(sheet, kind, polygons)
    yield from points_drawn(sheet, points)
    yield f'<line class="grid" x1="0" y1="{sheet.height}" x2="{sheet.width}" y2="{sheet.height}"/>'
    yield from legend(sheet, rows)
    yield '</svg>'


def main():
    if len(sys.argv) != 3:
        sys.exit('usage: picture.py INPUT OUTPUT > SVG')
    try:
        kind, polygons = read_plan(sys.argv[1])
        points = read_points(sys.argv[2])
    except (OSError, ValueError, IndexError) as error:
        sys.exit(f'picture.py: {sys.argv[1]} and {sys.argv[2]} are not a plan and its replies: {error}')
    if not points and not any(ring for rings in polygons for ring in rings):
        sys.exit('picture.py: there is nothing to draw: no corner and no point')
    print('\n'.join(picture(kind, polygons, points)))


main()
