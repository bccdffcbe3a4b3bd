#!/usr/bin/env python3
"""Prints what the named sets of a problem file hold, for comparison with the proved program.

usage: sets.py FILE

Like classes.py, beside it, this is a plain program that trusts the file and shares nothing with the crates.

A closed walk in a set is essential where its cells are of two or more parts, or where it stays at a cell whose part is
critical. The invariant part of a set is the cells that lie on a walk in the set that leads from an essential closed walk
in the set to another, or the same. A set is isolated where it is its invariant part, and no walk leads out of it and back
in the least closed set to which all steps from the set lead. A line has the name of a set, whether it is isolated, exactly
then its index, and the labels of its invariant part.
"""
import json
import sys

from classes import Problem, reached
from morse import homology


def within(problem, cells):
    """The steps within a set, and the same steps backwards."""
    steps = {x: problem.steps[x] & cells for x in cells}
    back = {x: set() for x in cells}
    for x in cells:
        for y in steps[x]:
            back[y].add(x)
    return steps, back


def invariant_part(problem, cells):
    """The cells on walks in the set that begin and end with essential closed walks in the set."""
    steps, back = within(problem, cells)
    essential = set()
    for x in cells:
        mutual = reached(steps, x) & reached(back, x)
        part = problem.part_of[x]
        if any(problem.part_of[y] != part for y in mutual) or any(homology(problem, part)):
            essential.add(x)
    return {x for x in cells if reached(steps, x) & essential and reached(back, x) & essential}


def is_isolated(problem, cells):
    """Whether walks in the least closed set to which all steps from the set lead don't leave the set and come back."""
    closed = set()
    for x in cells:
        for y in problem.steps[x]:
            closed |= reached(problem.boundary, y)
    steps, back = within(problem, closed)
    outside = closed - cells
    left = set().union(*(reached(steps, x) for x in cells)) & outside
    return not any(reached(steps, y) & cells for y in left)


def main(words):
    if len(words) != 1:
        sys.exit("usage: sets.py FILE")
    with open(words[0], encoding="utf-8") as file:
        problem = Problem(file)
    with open(words[0], encoding="utf-8") as file:
        named = json.load(file).get("sets", [])
    number_of = {label: x for x, label in enumerate(problem.labels)}
    for name, listed in named:
        cells = {number_of[label] for label in listed}
        invariant = invariant_part(problem, cells)
        line = ["set", name, "isolated"]
        if invariant == cells and is_isolated(problem, cells):
            line += ["yes", "index", *homology(problem, sorted(cells))]
        else:
            line += ["no"]
        print(*line, "invariant", *(problem.labels[x] for x in sorted(invariant)))


if __name__ == "__main__":
    main(sys.argv[1:])
