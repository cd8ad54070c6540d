"""Proofs for `lrat`, each made from its numbers alone: the variables, the clauses, and the steps, each an id, literals and hints."""
from pathlib import Path
from typing import Callable

from bench.formulas import Clause

Step = tuple[int, Clause, list[int]]
Proof = tuple[int, list[Clause], list[Step]]


def ring(n: int) -> list[Clause]:
    """The first of n variables, each implies the next, the last the first, and not the last."""
    return [[1]] + [[-v, v + 1] for v in range(1, n)] + [[-n, 1], [-n]]


def units(n: int, count: int) -> Proof:
    """Lemmas of one literal, each with two hints."""
    ids, last, v = {1: 1}, n + 2, 1
    steps: list[Step] = []
    for at in range(count + n - 1 - count % n):
        before, v = v, v % n + 1
        last += 1
        steps.append((last, [v], [ids[before], before + 1]))
        ids[v] = last
    steps.append((last + 1, [], [ids[n], n + 2]))
    return n, ring(n), steps


def refutation(n: int) -> tuple[Clause, list[int]]:
    """The empty clause, with hints once round the ring."""
    return [], [*range(1, n + 1), n + 2]


def lemmas(n: int, length: int, count: int, step: Callable[[int], tuple[Clause, list[int]]]) -> Proof:
    """Lemmas with their hints, each made from a variable that `length` others follow, and then the empty clause."""
    steps: list[Step] = [(n + 3 + at, *step(at * 7919 % (n - length) + 1)) for at in range(count)]
    return n, ring(n), [*steps, (n + 3 + count, *refutation(n))]


def chains(n: int, length: int, count: int) -> Proof:
    """Lemmas of two literals, each with a chain of hints of this length."""
    return lemmas(n, length, count, lambda v: ([-v, v + length], list(range(v + 1, v + length + 1))))


def wide(n: int, length: int, count: int) -> Proof:
    """Lemmas of this length, each with one hint."""
    return lemmas(n, length, count, lambda v: ([-v, *range(v + 1, v + length)], [v + 1]))


def one(n: int) -> Proof:
    """One step with a hint for each clause."""
    return n, ring(n), [(n + 3, *refutation(n))]


FAMILIES: list[tuple[str, Callable[[], Proof]]] = [
    ("1,000,000 lemmas of one literal", lambda: units(1000, 1_000_000)),
    ("100,000 lemmas with 100 hints", lambda: chains(10_000, 100, 100_000)),
    ("one step with 1,000,000 hints", lambda: one(1_000_000)),
    ("10,000 lemmas of 1,000 literals", lambda: wide(10_000, 1000, 10_000)),
]


def write(folder: Path, proof: Proof) -> None:
    """The files of the formula, f.cnf, and of the proof, f.lrat."""
    n, clauses, steps = proof
    with open(folder / "f.cnf", "w") as file:
        file.write(f"p cnf {n} {len(clauses)}\n")
        file.writelines(" ".join(map(str, clause)) + " 0\n" for clause in clauses)
    with open(folder / "f.lrat", "w") as file:
        for number, lits, hints in steps:
            file.write(" ".join(map(str, [number, *lits, 0, *hints, 0])) + "\n")
