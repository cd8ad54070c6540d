"""The log of a repair's certificate as a proof by itself: over the repair formula, made anew here, with its bounds as clauses."""
from dataclasses import dataclass
from functools import cached_property
from pathlib import Path

from bench import encoding


@dataclass
class Certificate:
    answer: str  # `repaired`, `none` or `budget`
    bound: int
    log: list[str]

    @property
    def lemmas(self) -> int:
        return sum(line.split(" ", 2)[1] not in ("b", "d") for line in self.log)

    @cached_property
    def bounds(self) -> list[tuple[str, int]]:
        """The ids of the clauses that bound the price, and the prices."""
        found = [line.split() for line in self.log if line.split(" ", 2)[1] == "b"]
        return [(words[0], int(words[2])) for words in found]


def read(path: Path) -> Certificate:
    lines = path.read_text().splitlines()
    claim = lines[1].split()
    return Certificate(claim[1], int(claim[-1]), lines[lines.index("log") + 1 : -1])


def renamed(certificate: Certificate, clauses: int) -> dict[str, str]:
    """The ids of the log once its bounds come right after the formula's clauses: these first, and then the lemmas."""
    names = {number: str(clauses + at) for at, (number, _) in enumerate(certificate.bounds, 1)}
    for line in certificate.log:
        number = line.partition(" ")[0]
        names.setdefault(number, str(int(number) + len(certificate.bounds)))
    return names


def step(line: str, names: dict[str, str]) -> str:
    """A line of the log under its new ids; only ids come after the literals, and in a line that drops."""
    front, _, hints = line.partition(" 0 ")
    number, *lits = front.split()
    if lits[:1] == ["d"]:
        return " ".join(names.get(word, word) for word in line.split())
    return " ".join([names[number], *lits, "0", *(names.get(word, word) for word in hints.split())])


def write_proof(certificate: Certificate, formula: encoding.Formula, cnf: Path, proof: Path) -> None:
    """The formula with the counter and the bounds, and the log as a proof that it has no model."""
    clauses = formula.clauses + list(encoding.counter(formula, certificate.bound))
    names = renamed(certificate, len(clauses))
    clauses += [[-encoding.above(formula, certificate.bound, price)] for _, price in certificate.bounds]
    variables = formula.variables + len(formula.questions.number) * (certificate.bound + 1)
    with open(cnf, "w") as file:
        file.write(f"p cnf {variables} {len(clauses)}\n")
        file.writelines(" ".join(map(str, clause)) + " 0\n" for clause in clauses)
    with open(proof, "w") as file:
        file.writelines(step(line, names) + "\n" for line in certificate.log if line.split(" ", 2)[1] != "b")
