#!/usr/bin/env python3
"""Prints what `conley check FILE CERT` prints, and ends with the same status, by docs/certificates.md alone.

usage: check.py FILE CERT. A plain program that shares nothing with the crates. It takes FILE to be a problem that
conley accepts, with its cells listed and its field given whole, and refuses nothing of it. It is made for files of
some thousand cells.
"""
import json
import math
import sys

MATRICES = ["matrix", "phi", "psi", "gamma", "gamma2"]
MEMBERS = ["version", "scalars", "morse", "order", "index", "generators"] + MATRICES

def stop(status, *words):
    print(*words, file=sys.stderr)
    sys.exit(status)

def fetched(name, limit):
    try:
        data = open(name, "rb").read(limit + 1)
    except OSError:
        stop(3, "read fault")
    return data if len(data) <= limit else stop(1, "too long")

def number(digits):
    """Digits alone that fit 64 bits are a whole number, but not -0; what is too large for a float is no JSON."""
    if not math.isfinite(float(digits)):
        raise ValueError
    is_whole = digits.lstrip("-").isdigit() and digits != "-0" and -(1 << 63) <= int(digits) < 1 << 64
    return int(digits) if is_whole else float(digits)

def depth(value):
    inner = value.values() if isinstance(value, dict) else value if isinstance(value, list) else None
    return 0 if inner is None else 1 + max(map(depth, inner), default=0)

def json_of(data):
    def read(**keeps):
        return json.loads(data.decode(), parse_int=number, parse_float=number, parse_constant=number, **keeps)

    # every member, also one whose name comes again, of which the last counts
    every = read(object_pairs_hook=lambda members: {f"{k} {name}": value for k, (name, value) in enumerate(members)})
    json.dumps(every, ensure_ascii=False).encode()
    if depth(every) > 127:
        raise ValueError
    return read()

class Problem:
    """Dimensions, boundary (for each cell the codes of its direct faces), parts, and what parts each part reaches."""

    def __init__(self, value):
        cells = value["complex"]["cells"]
        self.order, self.dims = value["scalars"], [dimension for label, dimension in cells]
        self.count, self.levels = len(cells), max(self.dims, default=-1) + 1
        self.cell_of = {label: x for x, (label, dimension) in enumerate(cells)}
        self.boundary = [{} for x in cells]
        for x, y, v in value["complex"]["incidences"]:
            self.boundary[x][y] = v % self.order
        self.parts = [[self.cell_of[label] for label in part] for part in value["field"]["parts"]]
        listed = {x for part in self.parts for x in part}
        self.parts += [[x] for x in range(self.count) if x not in listed]
        self.part_of = {x: p for p, part in enumerate(self.parts) for x in part}
        steps = [{self.part_of[y] for x in part for y in self.boundary[x]} for part in self.parts]
        self.reached = [search(steps, p) for p in range(len(self.parts))]

    def reaches(self, x, y):
        return self.part_of[y] in self.reached[self.part_of[x]]

    def classes(self):
        # for each cell the least cell of its class, and for that cell the parts of the class
        least, parts = {}, {}
        for x, p in sorted(self.part_of.items()):
            if x not in least:
                parts[x] = {q for q in self.reached[p] if p in self.reached[q]}
                least.update((y, x) for q in parts[x] for y in self.parts[q])
        return least, parts

def search(steps, start):
    found, waiting = {start}, [start]
    while waiting:
        new = steps[waiting.pop()] - found
        found |= new
        waiting += new
    return found

def natural(v, most=(1 << 32) - 1):
    return type(v) is int and 0 <= v <= most

def list_of(test):
    return lambda v: isinstance(v, list) and all(map(test, v))

def row_of(*tests):
    return lambda v: isinstance(v, list) and len(v) == len(tests) and all(test(x) for test, x in zip(tests, v))

FORMS = [natural, natural, list_of(list_of(lambda t: isinstance(t, str))), list_of(row_of(natural, natural)), list_of(list_of(natural)),
         list_of(row_of(natural, lambda k: natural(k, 255)))] + 5 * [list_of(row_of(natural, natural, natural))]

def read_certificate(P, data):
    """The members by name; the sets as lists of cells; a matrix as its columns, each a dictionary from rows to codes."""
    try:
        C = json_of(data)
    except (ValueError, RecursionError):
        stop(1, "refused C1")
    for m, (name, has_form) in enumerate(zip(MEMBERS, FORMS), 1):
        if not isinstance(C, dict) or name not in C or not has_form(C[name]):
            stop(1, "refused C2", m)
    for m, name, due in (1, "version", 1), (2, "scalars", P.order):
        if C[name] != due:
            stop(1, "refused C3", m, C[name])
    sets, lists, seen, pairs = len(C["morse"]), len(C["index"]), set(), set()
    for k, labels in enumerate(C["morse"]):
        cells = C["morse"][k] = [P.cell_of.get(label) for label in labels]
        if not cells or None in cells or seen & set(cells) or len(set(cells)) < len(cells):
            stop(1, "refused C4 3", k)
        seen |= set(cells)
    for k, pair in enumerate(C["order"]):
        if max(pair) >= sets or tuple(pair) in pairs:
            stop(1, "refused C4 4", k)
        pairs.add(tuple(pair))
    for k in range(max(sets, lists)):
        if k >= min(sets, lists) or len(C["index"][k]) != P.levels:
            stop(1, "refused C4 5", k)
    n, g = P.count, len(C["generators"])
    for m, (name, rows, columns) in enumerate(zip(MATRICES, (g, n, g, n, g), (g, g, n, n, g)), 7):
        matrix = [{} for column in range(columns)]
        for k, (row, column, code) in enumerate(C[name]):
            if row >= rows or column >= columns or not 0 < code < P.order or row in matrix[column]:
                stop(1, "refused C4", m, k)
            matrix[column][row] = code
        C[name] = matrix
    return C

def rejected(law, part, row, column, have, want):
    stop(6, f"rejected J{law}", part, row, column, have, want)

def refuse(law, part, matrix, may_stand):
    for column, codes in enumerate(matrix):
        for row in sorted(codes):
            if not may_stand(row, column):
                rejected(law, part, row, column, codes[row], 0)

def image(matrix, chain, sign=1):
    """The columns of the matrix, each by its scalar in the chain: rows with scalars."""
    return [(row, sign * scalar * code) for k, scalar in chain.items() for row, code in matrix[k].items()]

def compare(P, law, columns, have, want):
    """The two sides are for each column rows with scalars, which are added up."""
    for column in range(columns):
        sides = {}
        for side, terms in enumerate((have(column), want(column))):
            for row, scalar in terms:
                sides.setdefault(row, [0, 0])[side] += scalar
        for row in sorted(sides):
            a, b = (value % P.order for value in sides[row])
            if a != b:
                rejected(law, 0, row, column, a, b)

def check(P, C):
    morse, generators, sets = C["morse"], C["generators"], range(len(C["morse"]))
    place = {x: i + 1 for i in sets for x in morse[i]}
    least, parts = P.classes()
    wanted = [x for x in sorted(parts) if len(parts[x]) > 1 or x in place]
    for x in range(P.count):
        want = wanted.index(least[x]) + 1 if least[x] in wanted else 0
        if place.get(x, 0) != want:
            rejected(1, 0, x, 0, place.get(x, 0), want)
    lower = [{q for q in sets if q != p and P.reaches(morse[p][0], morse[q][0])} for p in sets]
    for p in sets:
        covers, listed = lower[p] - {q for r in lower[p] for q in lower[r]}, {b for a, b in C["order"] if a == p}
        for q in sorted(covers ^ listed):
            rejected(2, 0, p, q, int(q in listed), int(q in covers))
    for g, pair in enumerate(generators):
        for column, bound in enumerate((len(sets), P.levels)):
            if pair[column] >= bound:
                rejected(3, 0, g, column, pair[column], bound)
    for i in sets:
        for k in range(P.levels):
            if C["index"][i][k] != generators.count([i, k]):
                rejected(4, 0, i, k, C["index"][i][k], generators.count([i, k]))
        if sorted(morse[i]) == sorted(P.parts[P.part_of[morse[i][0]]]) and all(j != i for j, k in generators):
            rejected(4, 0, i, P.levels, 0, 1)
    (delta, phi, psi, gamma, gamma2), d, dims, n, m = (C[name] for name in MATRICES), P.boundary, P.dims, P.count, len(generators)
    set_of, dim, base = [i for i, k in generators], [k for i, k in generators], [morse[i][0] for i, k in generators]
    refuse(5, 0, delta, lambda h, g: set_of[h] != set_of[g] and P.reaches(base[g], base[h]))
    refuse(6, 1, delta, lambda h, g: dim[h] + 1 == dim[g])
    refuse(6, 2, phi, lambda x, g: dims[x] == dim[g])
    refuse(6, 3, psi, lambda g, x: dim[g] == dims[x])
    refuse(6, 4, gamma, lambda y, x: dims[y] == dims[x] + 1)
    refuse(6, 5, gamma2, lambda h, g: dim[h] == dim[g] + 1)
    compare(P, 7, m, lambda g: image(delta, delta[g]), lambda g: [])
    refuse(8, 0, phi, lambda x, g: P.reaches(base[g], x))
    refuse(9, 0, psi, lambda g, x: P.reaches(x, base[g]))
    refuse(10, 0, gamma, lambda y, x: P.reaches(x, y))
    refuse(11, 0, gamma2, lambda h, g: P.reaches(base[g], base[h]))
    compare(P, 12, m, lambda g: image(d, phi[g]), lambda g: image(phi, delta[g]))
    compare(P, 13, n, lambda x: image(delta, psi[x]), lambda x: image(psi, d[x]))
    compare(P, 14, n, lambda x: [(x, 1)] + image(phi, psi[x], -1), lambda x: image(d, gamma[x]) + image(gamma, d[x]))
    compare(P, 15, m, lambda g: image(psi, phi[g]) + [(g, -1)], lambda g: image(delta, gamma2[g]) + image(gamma2, delta[g]))
    print("accepted")

if __name__ == "__main__":
    len(sys.argv) == 3 or stop(2, "usage: check.py FILE CERT")
    problem = Problem(json_of(fetched(sys.argv[1], 64 << 20)))
    check(problem, read_certificate(problem, fetched(sys.argv[2], 128 << 20)))
