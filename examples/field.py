#!/usr/bin/env python3
"""Prints the parts of a problem file, each as regular or critical, for comparison with the proved program.

usage: field.py FILE

Like classes.py, beside it, this is a plain program that trusts the file and shares nothing with the crates.

A part is regular where the homology of its closure relative to its mouth is zero, else critical. A line has the labels
of a part in the order of the cells, and the lines stand in the order of the parts' first cells.
"""
import sys

from classes import Problem
from morse import homology


def main(words):
    if len(words) != 1:
        sys.exit("usage: field.py FILE")
    with open(words[0], encoding="utf-8") as file:
        problem = Problem(file)
    for cells in sorted({tuple(sorted(part)) for part in problem.part_of}):
        print("critical" if any(homology(problem, cells)) else "regular", *(problem.labels[x] for x in cells))


if __name__ == "__main__":
    main(sys.argv[1:])
