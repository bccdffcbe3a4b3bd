#!/usr/bin/env python3
"""Prints the recurrence classes of a problem file by their definition, for comparison with the proved program.

usage: classes.py FILE

A plain program that shares nothing with the crates. It reads a complex of the kind lefschetz with a field given
whole, and trusts the file: it refuses nothing.

A cell y is a face of x where descents along incidences other than zero lead from x to y; each cell is a face of
itself. A step leads from x to each face of x and to each cell of the part of x. A class is the cells that walks
lead to from one of them and back. Each line has the labels of a class in the order of the cells, and the lines
stand in the order of the classes' first cells.
"""
import json
import sys


def reached(steps, start):
    """All that walks lead to from the start, itself included. steps[x] is where steps lead from x."""
    found, waiting = {start}, [start]
    while waiting:
        for y in steps[waiting.pop()]:
            if y not in found:
                found.add(y)
                waiting.append(y)
    return found


class Problem:
    """What a file says, by the numbers of its cells: labels, dimensions, boundary, part_of and steps are lists."""

    def __init__(self, file):
        value = json.load(file)
        self.order = value["scalars"]
        self.labels = [label for label, dimension in value["complex"]["cells"]]
        self.dimensions = [dimension for label, dimension in value["complex"]["cells"]]
        self.cells = range(len(self.labels))

        # the scalars of the cells directly under each cell
        self.boundary = [{} for x in self.cells]
        for x, y, number in value["complex"]["incidences"]:
            if number % self.order != 0:
                self.boundary[x][y] = number % self.order

        number_of = {label: x for x, label in enumerate(self.labels)}
        self.part_of = [(x,) for x in self.cells]
        for listed in value["field"]["parts"]:
            part = tuple(number_of[label] for label in listed)
            for x in part:
                self.part_of[x] = part

        self.steps = [reached(self.boundary, x).union(self.part_of[x]) for x in self.cells]


def recurrence_classes(problem):
    """The classes as ascending lists of cells, in the order of their first cells."""
    back = [[] for x in problem.cells]
    for x in problem.cells:
        for y in problem.steps[x]:
            back[y].append(x)
    placed = set()
    for x in problem.cells:
        if x not in placed:
            mutual = reached(problem.steps, x) & reached(back, x)
            placed |= mutual
            yield sorted(mutual)


def main(words):
    if len(words) != 1:
        sys.exit("usage: classes.py FILE")
    with open(words[0], encoding="utf-8") as file:
        problem = Problem(file)
    for cells in recurrence_classes(problem):
        print(*(problem.labels[x] for x in cells))


if __name__ == "__main__":
    main(sys.argv[1:])
