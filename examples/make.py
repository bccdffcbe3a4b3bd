#!/usr/bin/env python3
"""Makes the problem files of the sampled flows, and of a grid whose pairs are listed by rule.

usage: make.py FOLDER

A planar vector field is sampled on a square grid. Each sample says which cells the flow leads through together.
The field of the problem is the finest partition of the grid's cells into locally closed parts that keeps
those cells together: their hull. For each flow three files are written, with the same cells and the same parts.
FOLDER/NAME/hull.json lists the squares of the grid and the cells that go together, and leaves the parts to the reader.
FOLDER/NAME/cubical.json lists the squares and the parts, FOLDER/NAME/problem.json each cell, each incidence and the
parts. The parts are made here as well, so that the program can be compared with it; whoever samples a flow needs none
of that.

A cell of the grid is named by doubled coordinates (a, b): even for a point, odd for an interval between two.
"""
import json
import math
import os
import sys


# ---- the flows: the vector at the point (x, y)

def limit_cycle(x, y):
    """A repelling point at 0 and an attracting cycle of radius 1."""
    g = 2 * (1 - x * x - y * y)
    return -y / 2 + x * g, x / 2 + y * g


def double_well(x, y):
    """A saddle at 0 and attracting points at (-1, 0) and (1, 0)."""
    return x - x * x * x, -y


def three_cycles(x, y):
    """A repelling point at 0 and cycles of radius 1, 2 and 3: attracting, repelling, attracting."""
    r = math.sqrt(x * x + y * y)
    g = 2 * (1 - r) * (2 - r) * (3 - r)
    return -y / 4 + x * g, x / 4 + y * g


# name, flow, squares along each side, least and greatest coordinate.
# The square is a little off the centre, so that no sample falls on a zero of the field.
FLOWS = [
    ("limit-cycle", limit_cycle, 15, -2.03, 2.01),
    ("double-well", double_well, 11, -2.03, 2.01),
    ("three-cycles", three_cycles, 40, -4.03, 4.01),
]

# How many samples are taken along an edge.
SAMPLES = 5

# Named sets of a flow: the cells between two coordinates along each axis, in doubled coordinates.
SETS = {
    "double-well": [
        ("left", (0, 10), (0, 22)),
        ("middle", (9, 13), (0, 22)),
        ("bar", (4, 18), (10, 12)),
        ("arm", (11, 18), (10, 12)),
    ],
    "pairs": [
        ("corner", (24, 24), (24, 24)),
        ("start", (0, 0), (0, 0)),
        ("square", (5, 5), (23, 23)),
    ],
}


# ---- the grid

def dimension(cell):
    return cell[0] % 2 + cell[1] % 2


def cells_of_grid(n):
    """The cells of the grid of n by n squares, by dimension, then by coordinates."""
    side = range(2 * n + 1)
    return sorted(((a, b) for a in side for b in side), key=lambda cell: (dimension(cell), cell))


def label(cell):
    """For each axis the lower end, with a + where the cell is an interval there."""
    return ",".join(f"{c // 2}+" if c % 2 else f"{c // 2}" for c in cell)


def moved(cell, axis, by):
    return (cell[0] + by, cell[1]) if axis == 0 else (cell[0], cell[1] + by)


def boundary(cell):
    """The faces of one dimension less with their signs: at the k-th interval the upper end has (-1)^k, the lower end the other sign."""
    found, sign = [], 1
    for axis in (0, 1):
        if cell[axis] % 2:
            found += [(moved(cell, axis, 1), sign), (moved(cell, axis, -1), -sign)]
            sign = -sign
    return found


def faces(cell):
    """All faces, the cell included."""
    ends = [[c - 1, c, c + 1] if c % 2 else [c] for c in cell]
    return [(a, b) for a in ends[0] for b in ends[1]]


# ---- from samples to lists of cells that stay together

def sign(number):
    return (number > 0) - (number < 0)


def lists_of_samples(flow, n, low, high):
    """Each vertex with the cell that its vector points into; each edge with the squares into which the flow crosses it."""
    step = (high - low) / n / 2

    def at(a, b):
        return flow(low + a * step, low + b * step)

    def is_inside(cell):
        return 0 <= min(cell) and max(cell) <= 2 * n

    found = []
    side = range(2 * n + 1)
    for cell in ((a, b) for a in side for b in side):
        if dimension(cell) == 0:
            p, q = at(*cell)
            into = (cell[0] + sign(p), cell[1] + sign(q))
            if into != cell and is_inside(into):
                found.append([cell, into])
        elif dimension(cell) == 1:
            # the axis along the edge, and the one across it
            along, across = (0, 1) if cell[0] % 2 else (1, 0)
            places = [-1 + 2 * (i + 0.5) / SAMPLES for i in range(SAMPLES)]
            sides = {sign(at(*moved(cell, along, place))[across]) for place in places}
            for by in (-1, 1):
                into = moved(cell, across, by)
                if by in sides and is_inside(into):
                    found.append([cell, into])
    return found


# ---- a grid without samples

def pairs_by_rule(n):
    """Each vertex with the edge to its right, the vertices at the right border with the edge above; the first squares with the edge at their left."""
    side = range(n)
    found = [[(2 * i, 2 * j), (2 * i + 1, 2 * j)] for i in side for j in range(n + 1)]
    found += [[(2 * n, 2 * j), (2 * n, 2 * j + 1)] for j in side]
    squares = [(i, j) for i in side for j in side][:32]
    return found + [[(2 * i, 2 * j + 1), (2 * i + 1, 2 * j + 1)] for i, j in squares]


# ---- the finest partition into locally closed parts that keeps each list together

class Parts:
    """A partition that grows coarser: each cell has the number of its part, each part the list of its cells."""

    def __init__(self, cells):
        self.part_of = {cell: number for number, cell in enumerate(cells)}
        self.cells_of = {number: [cell] for number, cell in enumerate(cells)}

    def merge(self, one, other):
        """Makes one part of two, and says whether they were two."""
        one, other = self.part_of[one], self.part_of[other]
        if one == other:
            return False
        if len(self.cells_of[one]) < len(self.cells_of[other]):
            one, other = other, one
        for cell in self.cells_of[other]:
            self.part_of[cell] = one
        self.cells_of[one] += self.cells_of.pop(other)
        return True

    def find_gap(self, number):
        """A cell of the part and a face of it outside that has a face in the part, if there are such."""
        own = set(self.cells_of[number])
        for x in own:
            for y in faces(x):
                if y not in own and any(z in own for z in faces(y)):
                    return x, y
        return None


def hull(cells, lists):
    """Merges what each list keeps together, then across gaps until no part has one."""
    parts = Parts(cells)
    for listed in lists:
        for cell in listed[1:]:
            parts.merge(listed[0], cell)
    waiting = list(parts.cells_of)
    while waiting:
        number = waiting.pop()
        while number in parts.cells_of:
            gap = parts.find_gap(number)
            if gap is None:
                break
            parts.merge(*gap)
            waiting.append(parts.part_of[gap[0]])
    return list(parts.cells_of.values())


# ---- the files

def problem(complex, kind, lists, sets):
    value = {"version": 1, "scalars": 2, "complex": complex, "field": {"kind": kind, "parts": lists}}
    return {**value, "sets": sets} if sets else value


def named(cells, name):
    """The named sets of an example, with their labels."""
    for set_name, (left, right), (low, high) in SETS.get(name, []):
        yield [set_name, [label((a, b)) for a, b in cells if left <= a <= right and low <= b <= high]]


def by_squares(n):
    side = range(n)
    return {"kind": "cubical", "axes": 2, "cubes": [[[a, a + 1], [b, b + 1]] for a in side for b in side]}


def by_cells(cells, number):
    return {
        "kind": "lefschetz",
        "cells": [[label(cell), dimension(cell)] for cell in cells],
        "incidences": [[number[cell], number[face], value] for cell in cells for face, value in boundary(cell)],
    }


def problems(name, n, together):
    """The name and the problem of each file of an example: a grid of n by n squares, and cells that go together."""
    cells = cells_of_grid(n)
    number = {cell: k for k, cell in enumerate(cells)}
    sets = list(named(cells, name))
    parts = sorted(sorted(number[cell] for cell in part) for part in hull(cells, together) if len(part) > 1)
    labels = [[label(cells[k]) for k in part] for part in parts]
    yield "hull.json", problem(by_squares(n), "hull", [[label(cell) for cell in listed] for listed in together], sets)
    yield "cubical.json", problem(by_squares(n), "whole", labels, sets)
    yield "problem.json", problem(by_cells(cells, number), "whole", labels, sets)


def main(words):
    if len(words) != 1:
        sys.exit("usage: make.py FOLDER")
    examples = [(name, n, lists_of_samples(flow, n, low, high)) for name, flow, n, low, high in FLOWS]
    for name, n, together in examples + [("pairs", 12, pairs_by_rule(12))]:
        os.makedirs(os.path.join(words[0], name), exist_ok=True)
        for file_name, value in problems(name, n, together):
            with open(os.path.join(words[0], name, file_name), "w", encoding="utf-8") as file:
                json.dump(value, file, separators=(",", ":"))
                file.write("\n")


if __name__ == "__main__":
    main(sys.argv[1:])
