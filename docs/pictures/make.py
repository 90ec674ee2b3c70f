#!/usr/bin/env python3
"""Draws pictures beside this file: grid.svg and repair.svg of docs/CLAY-CODES.md from the numbers of a code, layers.svg of
docs/ARCHITECTURE.md from crates.txt, docs/CRATES.md and the crates' modules. `checks/traffic` draws traffic.svg.

Each number of a code is computed here from K and M as docs/CLAY-CODES.md defines it.
`make.py --check` writes nothing, and fails where a picture isn't what it would draw.
"""
import os
import sys

HERE = os.path.dirname(os.path.abspath(__file__))


def product(a, b):
    """The product in the field of 256 elements."""
    result = 0
    while b:
        result ^= a if b & 1 else 0
        a = a << 1 ^ (0x11D if a & 0x80 else 0)
        b >>= 1
    return result


def quotient(a, b):
    return next(c for c in range(256) if product(b, c) == a)


class Code:
    """K data and M parity chunks. A layer is its list of digits, the most significant first."""

    def __init__(self, data, parity):
        self.data, self.parity, self.chunks = data, parity, data + parity
        self.rows = parity
        self.columns = -(-self.chunks // self.rows)
        self.virtual = self.rows * self.columns - self.chunks
        self.layers = self.rows ** self.columns

    def digits(self, layer):
        return [layer // self.rows ** (self.columns - 1 - y) % self.rows for y in range(self.columns)]

    def number(self, digits):
        return sum(digit * self.rows ** (self.columns - 1 - y) for y, digit in enumerate(digits))

    def node_of(self, chunk):
        return chunk if chunk < self.data else chunk + self.virtual

    def name(self, chunk):
        return f'data {chunk}' if chunk < self.data else f'parity {chunk - self.data}'

    def partner(self, x, y, layer):
        digits = self.digits(layer)
        row, digits[y] = digits[y], x
        return row, y, self.number(digits)

    def repair_layers(self, chunk):
        x, y = self.node_of(chunk) % self.rows, self.node_of(chunk) // self.rows
        return [layer for layer in range(self.layers) if self.digits(layer)[y] == x]


# Dark ink on a light card, so that the pictures can be read on a page of either kind.
CARD, EDGE, INK, GREY, PALE = '#ffffff', '#8c959f', '#1f2328', '#57606a', '#eaeef2'
BLUE, LIGHT_BLUE, RED, LIGHT_RED, YELLOW = '#0550ae', '#9ec9ff', '#a40e26', '#ffc1ba', '#fff1b8'


# How wide letters are in DejaVu Sans, the widest of the usual fonts, in parts of the size; bold ones are a ninth wider.
NARROW, WIDE = dict.fromkeys("ijl.,:;'|· ", 0.34) | dict.fromkeys('frt()/-*', 0.46), dict.fromkeys('mwM+=W', 0.9) | dict.fromkeys('ABCDEFGHKLNOPRSTUVXYZ', 0.72)


def widest(words, size, weight):
    """How wide words may come to be in whatever font they are shown."""
    return sum((NARROW | WIDE).get(letter, 0.64) for letter in words) * size * (1.12 if weight == 'bold' else 1)


class Picture:
    def __init__(self, width, height, title):
        self.width = width
        self.parts = [
            f'<svg xmlns="http://www.w3.org/2000/svg" viewBox="0 0 {width} {height}" width="{width}" height="{height}"'
            ' font-family="Helvetica, Arial, sans-serif" role="img">',
            f'<title>{title}</title>',
        ]
        self.box(1, 1, width - 2, height - 2, CARD, EDGE, 8)
        self.text(24, 36, title, 18, weight='bold')

    def box(self, x, y, width, height, fill, edge='none', corner=0, line=1):
        self.parts.append(f'<rect x="{x}" y="{y}" width="{width}" height="{height}" rx="{corner}" fill="{fill}" stroke="{edge}" stroke-width="{line}"/>')

    def text(self, x, y, words, size=14, anchor='start', fill=INK, weight='normal'):
        """Words that stay within the frame: set smaller where they might not."""
        room = {'start': self.width - x, 'end': x, 'middle': 2 * min(x, self.width - x)}[anchor] - 10
        wide = widest(words, size, weight)
        size = size if wide <= room else int(size * room / wide * 10) / 10
        self.parts.append(f'<text x="{x}" y="{y}" font-size="{size}" text-anchor="{anchor}" fill="{fill}" font-weight="{weight}">{words}</text>')

    def path(self, way, edge, line):
        self.parts.append(f'<path d="{way}" fill="none" stroke="{edge}" stroke-width="{line}"/>')

    def save(self, name, is_check):
        file, drawn = os.path.join(HERE, name), '\n'.join([*self.parts, '</svg>']) + '\n'
        if not is_check:
            with open(file, 'w') as it:
                it.write(drawn)
        elif open(file).read() != drawn:
            raise SystemExit(f'{name} is not what make.py draws')


def grid_of_layer(picture, code, left, top, layer, marked):
    """One layer: a cell for each node, the unpaired ones yellow. Returns the middle of the marked one's upper and lower edge."""
    wide, high, gap = 96, 44, 12
    digits = code.digits(layer)
    middle = left + (code.columns * (wide + gap) - gap) / 2
    picture.text(middle, top, f'layer {layer}, digits {" ".join(map(str, digits))}', 15, 'middle', weight='bold')
    for y in range(code.columns):
        picture.text(left + y * (wide + gap) + wide / 2, top + 22, f'column {y}', 12, 'middle', GREY)
        picture.text(left + y * (wide + gap) + wide / 2, top + 37, f'digit {digits[y]}', 12, 'middle', GREY)
        for x in range(code.rows):
            at, down = left + y * (wide + gap), top + 46 + x * (high + gap)
            is_marked = (x, y) == marked
            fill = LIGHT_BLUE if is_marked else YELLOW if digits[y] == x else PALE
            picture.box(at, down, wide, high, fill, BLUE if is_marked else EDGE, 5, 3 if is_marked else 1)
            chunk = next(c for c in range(code.chunks) if code.node_of(c) == y * code.rows + x)
            picture.text(at + wide / 2, down + 20, code.name(chunk), 14, 'middle', weight='bold' if is_marked else 'normal')
            picture.text(at + wide / 2, down + 36, f'row {x}', 11, 'middle', GREY)
    x, y = marked
    across, down = left + y * (wide + gap) + wide / 2, top + 46 + x * (high + gap)
    return (across, down), (across, down + high)


def draw_grid():
    code = Code(8, 4)
    x, y, layer = 2, 1, code.number([1, 3, 0])
    partner = code.partner(x, y, layer)
    assert code.partner(*partner) == (x, y, layer)
    picture = Picture(800, 478, f'{code.data} + {code.parity}: the nodes in two of the {code.layers} layers, and a pair')
    _, (from_x, from_y) = grid_of_layer(picture, code, 32, 76, layer, (x, y))
    (to_x, to_y), _ = grid_of_layer(picture, code, 456, 76, partner[2], partner[:2])
    # The pair's rows follow one another, so the line between them runs where no cell is.
    picture.path(f'M{from_x} {from_y}V{(from_y + to_y) / 2}H{to_x}V{to_y}', BLUE, 3)
    picture.box(32, 356, 16, 16, YELLOW, EDGE, 3)
    picture.text(56, 369, 'unpaired: the row is the digit of the column; U = C')
    picture.box(432, 356, 16, 16, LIGHT_BLUE, BLUE, 3, 2)
    picture.text(456, 369, 'a pair, p on the left and p* on the right')
    picture.text(32, 402, f'p is row {x} of column {y}, where the digit is {partner[0]}. So p* is row {partner[0]}, in the layer whose digit {y} is {x}.')
    stored, other = 0x01, 0x80
    first, second = stored ^ product(2, other), other ^ product(2, stored)
    assert quotient(first ^ product(2, second), 5) == stored and quotient(second ^ product(2, first), 5) == other
    picture.text(32, 432, 'U(p) = C(p) + 2 C(p*)', weight='bold')
    picture.text(292, 432, 'U(p*) = C(p*) + 2 C(p)', weight='bold')
    picture.text(552, 432, 'C(p) = (U(p) + 2 U(p*)) / 5', weight='bold')
    picture.text(32, 456, f'{first:02x} = {stored:02x} + 2 · {other:02x}', fill=GREY)
    picture.text(292, 456, f'{second:02x} = {other:02x} + 2 · {stored:02x}', fill=GREY)
    picture.text(552, 456, f'{stored:02x} = ({first:02x} + 2 · {second:02x}) / 5', fill=GREY)
    return picture


def draw_repair():
    code, lost = Code(8, 4), 5
    layers = code.repair_layers(lost)
    x, y = code.node_of(lost) % code.rows, code.node_of(lost) // code.rows
    wide, gap, high, left, top = 44, 8, 6, 96, 92
    bars = {LIGHT_RED: '', BLUE: '', PALE: ''}
    picture = Picture(800, 600, f'{code.data} + {code.parity}: what a repair of {code.name(lost)} reads')
    for chunk in range(code.chunks):
        at = left + chunk * (wide + gap)
        kind, number = code.name(chunk).split()
        ink = RED if chunk == lost else INK
        picture.text(at + wide / 2, top - 24, kind, 12, 'middle', ink, 'bold' if chunk == lost else 'normal')
        picture.text(at + wide / 2, top - 9, number, 12, 'middle', ink, 'bold' if chunk == lost else 'normal')
        for layer in range(code.layers):
            fill = LIGHT_RED if chunk == lost else BLUE if layer in layers else PALE
            bars[fill] += f'M{at} {top + layer * (high + 1) + high // 2}h{wide}'
    for fill, way in bars.items():
        picture.path(way, fill, high)
    picture.text(left - 10, top - 9, 'layers', 12, 'end', GREY)
    for layer in (z for z in layers if z - 1 not in layers):
        last = next(z for z in range(layer, code.layers + 1) if z not in layers) - 1
        picture.text(left - 10, top + (layer + last + 1) / 2 * (high + 1) + 4, f'{layer} to {last}', 12, 'end', GREY)
    helpers = code.chunks - 1
    down = top + code.layers * (high + 1) + 22
    picture.box(left, down - 12, 16, 14, BLUE)
    picture.text(left + 24, down, f'read: the {len(layers)} of {code.layers} layers whose digit {y} is {x}, since {code.name(lost)} is row {x} of column {y}')
    total, whole = len(layers) * helpers, code.data * code.layers
    picture.text(left + 24, down + 24, f'{len(layers)} subchunks from each of {helpers} helpers are {total}: {total / code.layers:g} chunks, in place of {code.data} ({whole} subchunks)')
    return picture


def layers():
    """The layers of crates.txt, lowest first: each one's name, what it holds, and its crates."""
    found = []
    with open(os.path.join(HERE, '../../crates.txt')) as lines:
        for line in list(lines)[1:]:
            if line.startswith('# '):
                name, _, holds = line[2:].strip().partition(': ')
                found.append((name, holds, []))
            elif ':' in line:
                found[-1][2].append(line.split(':')[0].split()[0])
    return found


def holds_of_crates():
    """What each crate holds, by the rows of docs/CRATES.md."""
    with open(os.path.join(HERE, '../CRATES.md')) as lines:
        rows = [line.strip().strip('|').split(' | ') for line in lines if line.startswith('| `')]
    return {name.strip(' `'): holds.strip().replace('`', '') for name, holds in rows}


def modules(crate):
    """The modules of a crate, but for its root."""
    folder = os.path.join(HERE, '../../crates', crate, 'src')
    return sorted(name[:-3] for name in os.listdir(folder) if name.endswith('.rt') and name not in ('lib.rt', 'main.rt'))


def wrapped(words, size, room):
    """The words as lines that stay within the room."""
    lines = ['']
    for word in words.split():
        longer = f'{lines[-1]} {word}'.strip()
        if widest(longer, size, 'normal') <= room:
            lines[-1] = longer
        else:
            lines.append(word)
    return lines


# A crate's entry: the width of its column, where its phrase begins, the height of a line, and what stands between two entries.
COLUMN, NAME, LINE, GAP = 580, 116, 14, 5


def entry(crate, holds):
    """The lines of a crate's entry: what it holds, and its modules."""
    room = COLUMN - NAME - 8
    return wrapped(holds, 11, room), wrapped(', '.join(modules(crate)), 10, room) if modules(crate) else []


def columns(entries):
    """The entries of a tier in two columns of about one height, and the greater height."""
    heights = [LINE * sum(map(len, lines)) + GAP for _, lines in entries]
    split = min(range(len(entries) + 1), key=lambda at: max(sum(heights[:at]), sum(heights[at:])))
    return (entries[:split], entries[split:]), max(sum(heights[:split]), sum(heights[split:]))


def draw_layers():
    holds_of = holds_of_crates()
    drawn = [(name, holds, *columns([(crate, entry(crate, holds_of[crate])) for crate in crates])) for name, holds, crates in reversed(layers())]
    picture = Picture(1240, 70 + sum(height + 52 for *_, height in drawn), 'The tiers: a crate names none of a box above its own')
    top = 58
    for name, holds, sides, height in drawn:
        picture.box(24, top, 1192, height + 44, PALE if name.startswith('tests') else LIGHT_BLUE, 'none', 6)
        picture.text(36, top + 24, name, 15, weight='bold')
        picture.text(176, top + 23, holds, 13, fill=GREY)
        for left, entries in zip((36, 36 + COLUMN + 8), sides):
            down = top + 44
            for crate, (phrase, names) in entries:
                picture.text(left, down, crate, 12, weight='bold')
                for lines, size, ink in ((phrase, 11, INK), (names, 10, GREY)):
                    for line in lines:
                        picture.text(left + NAME, down, line, size, fill=ink)
                        down += LINE
                down += GAP
        top += height + 52
    return picture


def main():
    is_check = sys.argv[1:] == ['--check']
    for name, draw in [('grid.svg', draw_grid), ('repair.svg', draw_repair), ('layers.svg', draw_layers)]:
        draw().save(name, is_check)


if __name__ == '__main__':
    main()
