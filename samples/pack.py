#!/usr/bin/env python3
"""Draws a scan of an electrophoresis gel and packs it for the program `unpack`.

It writes crates/unpack/stdin (the packed scan), crates/unpack/stdout (the picture that unpacking must give, a binary PGM of 16
bits) and docs/gel.png. Every run draws the same scan: its noise is counted, and it is made of operations that round alike on
every machine.

The prediction is written anew, from document 01 and the Rust, in plain Python and by other means than the library's: errors are
looked up by the pixel's place (the library keeps two halves of memory), and the tree is walked node by node (the library
flattens it). So a picture that comes back whole is a test of both.
"""
import math
import os
import struct
import zlib

WIDTH, ROWS = 300, 400
DEFAULT_HEADER = dict(p1c=16, p2c=10, p3ca=7, p3cb=7, p3cc=7, p3cd=0, p3ce=0, w0=13, w1=12, w2=12, w3=12)
CHANNEL, STREAM = 0, 0


# ---- the scan: bright bands on a dark ground, in lanes

class Noise:
    """A linear congruential generator; three of its numbers make a bell."""

    def __init__(self, seed):
        self.state = seed

    def unit(self):
        self.state = (self.state * 1664525 + 1013904223) % 2**32
        return self.state / 2**32

    def bell(self):
        return self.unit() + self.unit() + self.unit() - 1.5


def bump(distance, width):
    """1 at the middle, near 0 some widths away."""
    far = distance / width
    down = 1 + far * far
    return 1 / (down * down)


def bands_of(lane):
    """Places down the lane and strengths. Lane 0 is the ladder."""
    if lane == 0:
        return [(40 + 11 * k + k * k, 21000 - 600 * k) for k in range(15)]
    pick = Noise(lane * 2654435761)
    bands = []
    for _ in range(3 + lane % 5):
        place, strength = pick.unit(), pick.unit()
        bands.append((30 + 340 * place, 3000 + 52000 * strength * strength * strength))
    return bands


def draw():
    lanes = [(24 + 36 * lane, bands_of(lane)) for lane in range(8)]
    noise = Noise(20261115)
    plane = []
    for y in range(ROWS):
        for x in range(WIDTH):
            light = 2400 + 2 * x + 3 * y
            for middle, bands in lanes:
                across = x - middle
                if -18 <= across < 18:
                    side = across * across / 169
                    body = 1 / (1 + side * side * side)
                    light += 700 * body
                    for place, strength in bands:
                        light += strength * body * bump(y - place - 2 * side, 3.5)
            light += (20 + 0.8 * math.sqrt(light)) * noise.bell()
            plane.append(min(65535, max(0, int(light))))
    return plane


# ---- the tree

ZERO, WEST, NORTH, AVERAGE_WEST_NORTH, SELECT, GRADIENT, WEIGHTED, NORTH_EAST = range(8)
AVERAGE_ALL = 13


def leaf(predictor, offset=0):
    return ('leaf', predictor, offset)


def split(property, value, greater, other):
    return ('split', property, value, greater, other)


# first by how far the weighted predictor was off beside this pixel (property 15, in eighths), then by what stands there
TREE = split(15, 0,
             split(15, 1600,
                   split(9, 20000, leaf(WEIGHTED, -40), leaf(GRADIENT)),
                   split(15, 320,
                         split(12, 100, leaf(GRADIENT), leaf(WEIGHTED)),
                         split(9, 4000, leaf(WEIGHTED), leaf(AVERAGE_ALL)))),
             split(15, -1600,
                   split(15, -320,
                         split(8, 0, leaf(AVERAGE_ALL), leaf(WEIGHTED)),
                         split(11, 0, leaf(WEIGHTED), leaf(SELECT))),
                   split(6, 30000, leaf(WEIGHTED, 40), split(3, 149, leaf(GRADIENT), leaf(AVERAGE_WEST_NORTH)))))


def node_words(tree):
    """Five words a node in the order of `Tree::read`: level by level, children side by side, left where the cell is greater."""
    words, queue, ids = [], [tree], 0
    for node in queue:
        if node[0] == 'split':
            left = len(queue)
            queue += node[3:]
            words += [node[1], node[2], left, left + 1, 0]
        else:
            words += [-1, node[1], node[2], 1, ids]
            ids += 1
    return words


def walk(node, cells):
    while node[0] == 'split':
        node = node[3] if cells[node[1]] > node[2] else node[4]
    return node


# ---- prediction

class Neighbours:
    """The seven around a pixel, each with what stands in for it at an edge."""

    def __init__(self, plane, x, y):
        def at(column, row):
            return plane[row * WIDTH + column]

        self.left = at(x - 1, y) if x > 0 else at(x, y - 1) if y > 0 else 0
        self.top = at(x, y - 1) if y > 0 else self.left
        self.topleft = at(x - 1, y - 1) if x > 0 and y > 0 else self.left
        self.topright = at(x + 1, y - 1) if x + 1 < WIDTH and y > 0 else self.top
        self.leftleft = at(x - 2, y) if x > 1 else self.left
        self.toptop = at(x, y - 2) if y > 1 else self.top
        self.toprightright = at(x + 2, y - 1) if x + 2 < WIDTH and y > 0 else self.topright


def toward_zero(a, b):
    return abs(a) // b * (1 if a >= 0 else -1)


def predict(predictor, n, weighted):
    if predictor == ZERO:
        return 0
    if predictor == WEST:
        return n.left
    if predictor == NORTH:
        return n.top
    if predictor == AVERAGE_WEST_NORTH:
        return toward_zero(n.left + n.top, 2)
    if predictor == SELECT:
        return n.left if abs(n.top - n.topleft) < abs(n.left - n.topleft) else n.top
    if predictor == GRADIENT:
        return max(min(n.left, n.top), min(max(n.left, n.top), n.left + n.top - n.topleft))
    if predictor == WEIGHTED:
        return weighted
    if predictor == NORTH_EAST:
        return n.topright
    assert predictor == AVERAGE_ALL
    return toward_zero(6 * n.top - 2 * n.toptop + 7 * n.left + n.leftleft + n.toprightright + 3 * n.topright + 8, 16)


def error_weight(x, most):
    shift = max(0, (x + 1).bit_length() - 6)
    return 4 + (most * (2**24 // ((x >> shift) + 1)) >> shift)


class Weighted:
    """The weighted predictor. Errors of pixel (x, y), the true one in eighths and four more, stand at place y * WIDTH + x."""

    def __init__(self, header):
        self.header = header
        self.true, self.four = [], []

    def errors(self, list, none, x, y):
        def at(column, row):
            return list[row * WIDTH + column] if column >= 0 and row >= 0 else none

        n = at(x, y - 1)
        return (at(x - 1, y), n, at(x - 1, y - 1) if x > 0 else n, at(x + 1, y - 1) if x + 1 < WIDTH else n, at(x - 2, y))

    def ask(self, p, x, y):
        """The guess and the property."""
        h = self.header
        w, n, nw, ne, _ = self.errors(self.true, 0, x, y)
        west, north, corner, right, top = (8 * v for v in (p.left, p.top, p.topleft, p.topright, p.toptop))
        self.found = (
            west + right - north,
            north - ((n + w + ne) * h['p1c'] >> 5),
            west - ((n + w + nw) * h['p2c'] >> 5),
            north - (nw * h['p3ca'] + n * h['p3cb'] + ne * h['p3cc'] + (top - north) * h['p3cd'] + (corner - west) * h['p3ce'] >> 5),
        )
        four = self.errors(self.four, (0, 0, 0, 0), x, y)
        last = four[0] if x + 1 == WIDTH else (0, 0, 0, 0)
        weights = [error_weight((sum(e[i] for e in four) + last[i]) % 2**32, h['w%d' % i]) for i in range(4)]
        shift = sum(weights).bit_length() - 5
        weights = [v >> shift for v in weights]
        total = sum(weights)
        pred = ((total >> 1) - 1 + sum(a * b for a, b in zip(self.found, weights))) * (2**24 // total) >> 24
        if (n ^ w) | (n ^ nw) <= 0:
            pred = max(min(west, north, right), min(max(west, north, right), pred))
        self.pred = pred
        return pred + 3 >> 3, max((w, n, nw, ne), key=abs)

    def put(self, value):
        self.true.append(self.pred - 8 * value)
        self.four.append(tuple(abs(p - 8 * value) + 3 >> 3 for p in self.found))


def residuals(plane):
    state, cell9, out = Weighted(DEFAULT_HEADER), 0, []
    for k, value in enumerate(plane):
        x, y = k % WIDTH, k // WIDTH
        n = Neighbours(plane, x, y)
        guess, property = state.ask(n, x, y)
        gradient = n.left + n.top - n.topleft
        cells = [CHANNEL, STREAM, y, x, abs(n.top), abs(n.left), n.top, n.left, n.left - cell9, gradient,
                 n.left - n.topleft, n.topleft - n.top, n.top - n.topright, n.top - n.toptop, n.left - n.leftleft, property]
        cell9 = gradient
        _, predictor, offset = walk(TREE, cells)
        out.append(value - (predict(predictor, n, guess) + offset))
        state.put(value)
    return out


# ---- the files

def words(list):
    return struct.pack('<%di' % len(list), *list)


def png(plane):
    """Eight bits of the sixteen, each row after the one above it (filter 2)."""
    def chunk(kind, data):
        return struct.pack('>I', len(data)) + kind + data + struct.pack('>I', zlib.crc32(kind + data))

    high = bytes(v >> 8 for v in plane)
    above, rows = bytes(WIDTH), b''
    for y in range(ROWS):
        row = high[y * WIDTH:(y + 1) * WIDTH]
        rows += b'\2' + bytes((a - b) % 256 for a, b in zip(row, above))
        above = row
    head = struct.pack('>IIBBBBB', WIDTH, ROWS, 8, 0, 0, 0, 0)
    return b'\x89PNG\r\n\x1a\n' + chunk(b'IHDR', head) + chunk(b'IDAT', zlib.compress(rows, 9)) + chunk(b'IEND', b'')


def main():
    root = os.path.dirname(os.path.dirname(os.path.abspath(__file__)))

    def save(name, data):
        with open(os.path.join(root, name), 'wb') as file:
            file.write(data)
        print('%s: %d bytes' % (name, len(data)))

    plane, tree = draw(), node_words(TREE)
    rest = residuals(plane)
    save('crates/unpack/stdin', words([WIDTH, ROWS, *DEFAULT_HEADER.values(), 1, CHANNEL, STREAM, len(tree) // 5] + tree + rest))
    save('crates/unpack/stdout', b'P5\n%d %d\n65535\n' % (WIDTH, ROWS) + struct.pack('>%dH' % len(plane), *plane))
    save('docs/gel.png', png(plane))
    print('%d nodes; a residual is %.1f on average' % (len(tree) // 5, sum(map(abs, rest)) / len(rest)))


main()
