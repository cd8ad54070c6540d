"""Formulas for `solve`, each made from its numbers alone: the number of variables, and the clauses."""
import random
from pathlib import Path

Clause = list[int]
Formula = tuple[int, list[Clause]]


def threshold(n: int, seed: int) -> Formula:
    """Random 3-SAT near the threshold: 4.26 clauses a variable."""
    rng = random.Random(seed)
    return n, [[v if rng.random() < 0.5 else -v for v in rng.sample(range(1, n + 1), 3)] for _ in range(round(4.26 * n))]


def easy(n: int, seed: int) -> Formula:
    """Random 3-SAT far below the threshold: 3 clauses a variable."""
    rng = random.Random(seed)
    return n, [[v if rng.random() < 0.5 else -v for v in rng.sample(range(1, n + 1), 3)] for _ in range(3 * n)]


def pigeons(things: int, places: int) -> Formula:
    """More things than places."""
    clauses = [[i * places + j + 1 for j in range(places)] for i in range(things)]
    for j in range(places):
        clauses += [[-(i * places + j + 1), -(k * places + j + 1)] for i in range(things) for k in range(i)]
    return things * places, clauses


def parity_clauses(variables: list[int], value: int) -> list[Clause]:
    """That the number of the variables that are true is odd, or even."""
    clauses = []
    for mask in range(1 << len(variables)):
        if bin(mask).count("1") % 2 != value:
            clauses.append([-v if mask >> k & 1 else v for k, v in enumerate(variables)])
    return clauses


def parity(bits: int, seed: int) -> Formula:
    """Two chains of exclusive or over the same bits in two orders, with two values."""
    rng = random.Random(seed)
    n, clauses = bits, []
    for value, order in ((0, list(range(1, bits + 1))), (1, rng.sample(range(1, bits + 1), bits))):
        left = order[0]
        for v in order[1:-1]:
            n += 1
            clauses += parity_clauses([left, v, n], 0)
            left = n
        clauses += parity_clauses([left, order[-1]], value)
    return n, clauses


def colours(vertices: int, degree: int, count: int, seed: int) -> Formula:
    """Colours for the vertices of a random graph."""
    rng = random.Random(seed)
    edges: set[tuple[int, int]] = set()
    while len(edges) < vertices * degree // 2:
        a, b = sorted(rng.sample(range(vertices), 2))
        edges.add((a, b))
    clauses = [[v * count + c + 1 for c in range(count)] for v in range(vertices)]
    for a, b in sorted(edges):
        clauses += [[-(a * count + c + 1), -(b * count + c + 1)] for c in range(count)]
    return vertices * count, clauses


def tseitin(vertices: int, seed: int) -> Formula:
    """Charges on a random graph of degree 3 that do not add up."""
    rng = random.Random(seed)
    pairs: list[tuple[int, ...]] = [(0, 0)]
    while any(pair[0] == pair[1] for pair in pairs) or len(set(pairs)) < len(pairs):
        ends = [v for v in range(vertices) for _ in range(3)]
        rng.shuffle(ends)
        pairs = [tuple(sorted(ends[k : k + 2])) for k in range(0, len(ends), 2)]
    clauses = []
    for v in range(vertices):
        clauses += parity_clauses([k + 1 for k, pair in enumerate(pairs) if v in pair], int(v == 0))
    return len(pairs), clauses


def is_model(formula: Formula, text: bytes) -> bool:
    """Whether the line `v` of the text makes each clause true."""
    line = next((it for it in text.splitlines() if it.startswith(b"v ")), b"v 0")
    chosen = set(map(int, line.split()[1:-1]))
    return {abs(it) for it in chosen} == set(range(1, formula[0] + 1)) and len(chosen) == formula[0] and all(not chosen.isdisjoint(it) for it in formula[1])


def write(path: Path, formula: Formula) -> None:
    """In DIMACS form."""
    n, clauses = formula
    with open(path, "w") as file:
        file.write(f"p cnf {n} {len(clauses)}\n")
        file.writelines(" ".join(map(str, clause)) + " 0\n" for clause in clauses)


# hard ones, and easy ones
HARD = [
    ("random, 250 variables, seed 5", threshold(250, 5)),
    ("random, 250 variables, seed 6", threshold(250, 6)),
    ("nine things, eight places", pigeons(9, 8)),
    ("ten things, nine places", pigeons(10, 9)),
    ("parity, 21 bits", parity(21, 6)),
    ("parity, 24 bits", parity(24, 6)),
]
EASY = [
    ("easy, 100,000 clauses", easy(33333, 11)),
    ("random, 200 variables", threshold(200, 3)),
    ("three colours, 200 vertices", colours(200, 4, 3, 7)),
    ("charges on 34 vertices", tseitin(34, 8)),
]
