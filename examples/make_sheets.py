#!/usr/bin/env python3
"""Writes three sheets beside this script: link16.sheet, link64.sheet and largest.sheet.

The two link codes are regular: every column has weight 2, every row weight 4. So a column joins two
rows, and the code is a 4-regular graph on the rows whose edges are the columns. The graph is
drawn at random until no two columns join the same rows and no three columns close a triangle
(the shortest loop then has eight edges of the code); the coefficients are drawn until the rows
are independent over the field that the link uses. The draw is seeded: the same sheets come out
of every run. The largest code has every number at its bound: 256 columns, 128 rows, 1,024 edges,
64 symbols; it is there for its size and not for its words.
"""
import pathlib
import random


class BinaryField:
    """The field of 2^p codes whose products are reduced by a polynomial."""

    def __init__(self, p, polynomial):
        self.p, self.polynomial, self.order = p, polynomial, 1 << p

    def product(self, a, b):
        whole = 0
        for i in range(self.p):
            if b >> i & 1:
                whole ^= a << i
        for i in reversed(range(self.p)):
            if whole >> (self.p + i) & 1:
                whole ^= self.polynomial << i
        return whole

    def inverse(self, a):
        return next(b for b in range(1, self.order) if self.product(a, b) == 1)


def draw_graph(draw, rows, weight):
    """The columns of a code with that row weight, as pairs of rows, without a short loop."""
    while True:
        ends = [row for row in range(rows) for _ in range(weight)]
        draw.shuffle(ends)
        pairs = [tuple(sorted(pair)) for pair in zip(ends[::2], ends[1::2])]
        joined = [set() for _ in range(rows)]
        for a, b in pairs:
            joined[a].add(b)
            joined[b].add(a)
        simple = len(set(pairs)) == len(pairs) and all(a != b for a, b in pairs)
        if simple and not any(joined[a] & joined[b] for a, b in pairs):
            return sorted(pairs)


def independent(field, rows, columns, edges):
    """Whether no combination of the rows, with factors not all 0, is the zero row."""
    matrix = [[0] * columns for _ in range(rows)]
    for row, column, coefficient in edges:
        matrix[row][column] = coefficient
    rank = 0
    for column in range(columns):
        found = next((r for r in range(rank, rows) if matrix[r][column]), None)
        if found is None:
            continue
        matrix[rank], matrix[found] = matrix[found], matrix[rank]
        scale = field.inverse(matrix[rank][column])
        for r in range(rank + 1, rows):
            factor = field.product(matrix[r][column], scale)
            if factor:
                matrix[r] = [x ^ field.product(factor, y) for x, y in zip(matrix[r], matrix[rank])]
        rank += 1
    return rank == rows


def write_sheet(path, field, rows, limit, seed):
    draw = random.Random(seed)
    columns = draw_graph(draw, rows, 4)
    while True:
        edges = sorted(
            (row, column, draw.randrange(1, field.order))
            for column, pair in enumerate(columns)
            for row in pair
        )
        if independent(field, rows, len(columns), edges):
            break
    write_lines(path, [field.order, len(columns), rows, "-", limit], edges)


def write_largest(path):
    """Rows 8 heavy, columns 4 heavy: two circulants of 128 columns side by side."""
    shifts = [(0, 1, 5, 25), (0, 3, 17, 60)]
    edges = sorted(
        ((column + shift) % 128, column, 1 + (7 * column + 13 * shift) % 63)
        for column in range(256)
        for shift in shifts[column // 128]
    )
    write_lines(path, [64, 256, 128, 1023, 200], edges)


def write_lines(path, header, edges):
    entries = sorted((column, row) for row, column, _ in edges)
    lines = ["C\t" + "\t".join(str(number) for number in header)]
    lines += ["E\t%d\t%d\t%d" % edge for edge in edges]
    lines += ["K\t%d\t%d" % entry for entry in entries]
    lines += ["Z"]
    path.write_text("".join(line + "\n" for line in lines), encoding="ascii")


if __name__ == "__main__":
    here = pathlib.Path(__file__).resolve().parent
    write_sheet(here / "link16.sheet", BinaryField(4, 19), rows=24, limit=50, seed=16)
    write_sheet(here / "link64.sheet", BinaryField(6, 67), rows=18, limit=50, seed=64)
    write_largest(here / "largest.sheet")
