#!/usr/bin/env python3
"""Prints the finest Morse decomposition of a problem file, for comparison with the proved program.

usage: morse.py FILE

Like classes.py, beside it, this is a plain program that trusts the file and shares nothing with the crates.

A recurrence class is a Morse set where it has cells of two or more parts, or where it is one part that is critical:
the homology of its closure relative to its mouth isn't zero. A line `set` has the number of a set, the numbers of
its homology by dimension, and its labels in the order of the cells; the sets stand in the order of their first cells.
A line `order` has the numbers of two sets of which the first reaches the second, with no third set between.
"""
import sys

from classes import Problem, reached, recurrence_classes


def rank(vectors, order):
    """How many of the vectors are independent over the residues modulo the order. A vector has scalars by places."""
    kept = {}
    for vector in vectors:
        rest = vector
        while rest:
            last = max(rest)
            if last not in kept:
                kept[last] = rest
                break
            by = rest[last] * pow(kept[last][last], order - 2, order)
            places = rest.keys() | kept[last].keys()
            rest = {y: (rest.get(y, 0) - by * kept[last].get(y, 0)) % order for y in places}
            rest = {y: scalar for y, scalar in rest.items() if scalar != 0}
    return len(kept)


def homology(problem, cells):
    """For each dimension how many relative cycles there are, up to relative boundaries."""
    closure = set().union(*(reached(problem.boundary, x) for x in cells))
    mouth = closure.difference(cells)
    numbers = []
    for dimension in range(1 + max(problem.dimensions, default=-1)):
        chains = [x for x in closure if problem.dimensions[x] == dimension]
        # a chain on the closure is a relative cycle where its boundary is zero outside the mouth
        outside = [{y: s for y, s in problem.boundary[x].items() if y not in mouth} for x in chains]
        # a relative boundary is the boundary of a chain on the closure plus a chain on the mouth
        boundaries = [problem.boundary[x] for x in closure if problem.dimensions[x] == dimension + 1]
        boundaries += [{y: 1} for y in chains if y in mouth]
        numbers.append(len(chains) - rank(outside, problem.order) - rank(boundaries, problem.order))
    return numbers


def morse_sets(problem):
    """The sets with the numbers of their homology."""
    for cells in recurrence_classes(problem):
        numbers = homology(problem, cells)
        if any(numbers) or len({problem.part_of[x] for x in cells}) > 1:
            yield cells, numbers


def covers(problem, sets):
    """The pairs of sets of which the first reaches the second, with no third set between, ascending."""
    set_of = {x: number for number, cells in enumerate(sets) for x in cells}
    lower = []
    for number, cells in enumerate(sets):
        lower.append({set_of[y] for y in reached(problem.steps, cells[0]) if y in set_of} - {number})
    for upper, below in enumerate(lower):
        yield from ((upper, q) for q in sorted(below) if not any(q in lower[r] for r in below))


def main(words):
    if len(words) != 1:
        sys.exit("usage: morse.py FILE")
    with open(words[0], encoding="utf-8") as file:
        problem = Problem(file)
    found = list(morse_sets(problem))
    for number, (cells, numbers) in enumerate(found):
        print("set", number, "index", *numbers, "cells", *(problem.labels[x] for x in cells))
    for pair in covers(problem, [cells for cells, numbers in found]):
        print("order", *pair)


if __name__ == "__main__":
    main(sys.argv[1:])
