"""What arcv answers, read from its text."""
import subprocess
from dataclasses import dataclass
from ipaddress import IPv4Network
from typing import Optional

from lab.settings import ALL_SERVICES

SECONDS = 600


class Refused(Exception):
    """The files are refused, or arcv did not answer."""


@dataclass(frozen=True)
class Traffic:
    """A class of packets: two prefixes and the first and last of its services."""
    source: IPv4Network
    target: IPv4Network
    services: tuple[int, int]


@dataclass(frozen=True)
class Verdict:
    """An answer with its witness lines, as words."""
    kind: str
    answer: str
    lines: tuple[tuple[str, ...], ...]

    def numbers(self, word: str) -> Optional[frozenset[int]]:
        """The numbers of the first line that begins with this word, or None where there is none."""
        return next((frozenset(map(int, line[1:])) for line in self.lines if line[0] == word), None)

    def names(self, word: str) -> tuple[str, ...]:
        return next((line[1:] for line in self.lines if line[0] == word), ())


@dataclass(frozen=True)
class Row:
    """A router in a trace: its cost, or None where it has no route, and the links that it uses."""
    cost: Optional[int]
    links: frozenset[int]


def traffic_of(line: tuple[str, ...]) -> tuple[Traffic, tuple[str, ...]]:
    """The class of a witness line, and the words behind it."""
    services, rest = ALL_SERVICES, line[3:]
    if rest and rest[0].startswith("service:"):
        low, high = (tuple(map(int, part.split("."))) for part in rest[0].removeprefix("service:").split("-"))
        services, rest = (low[0] << 16 | low[1], high[0] << 16 | high[1]), rest[1:]
    return Traffic(IPv4Network(line[1]), IPv4Network(line[2]), services), rest


def blocks(lines: list[list[str]]) -> list[Verdict]:
    """The verdicts of a report, from its second line on."""
    found, at = [], 0
    while lines[at][0].isdigit():
        count = int(lines[at][3])
        found.append(Verdict(lines[at][1], lines[at][2], tuple(map(tuple, lines[at + 1 : at + 1 + count]))))
        at += 1 + count
    return found


class Program:
    """A built arcv over the documents of a folder."""

    def __init__(self, path: str, folder: str) -> None:
        self.path, self.folder = path, folder

    def run(self, *words: str) -> tuple[int, str]:
        """The status and the text of a run that is not refused."""
        done = subprocess.run(
            [self.path, *words], cwd=self.folder, stdin=subprocess.DEVNULL, capture_output=True, text=True, timeout=SECONDS
        )
        if done.returncode > 3:
            raise Refused(f"arcv {' '.join(words)} ends with {done.returncode}: {done.stdout}{done.stderr}".strip())
        return done.returncode, done.stdout

    def lines(self, *words: str) -> list[list[str]]:
        return [line.split() for line in self.run(*words)[1].splitlines()]

    def verify(self, document: str) -> tuple[str, list[Verdict]]:
        """The report and its verdicts."""
        text = self.run("verify", document)[1]
        return text, blocks([line.split() for line in text.splitlines()[1:]])

    def trace(self, document: str, source: IPv4Network, target: IPv4Network, down: frozenset[int]) -> dict[str, Row]:
        """The row of each router."""
        option = [f"--down={','.join(map(str, sorted(down)))}"] if down else []
        rows = {}
        for words in self.lines("trace", document, str(source), str(target), *option)[1:]:
            cost = None if words[1] == "none" else int(words[1])
            rows[words[0]] = Row(cost, frozenset(map(int, words[3:])))
        return rows

    def nodes(self, document: str, source: IPv4Network, target: IPv4Network, failures: int) -> Verdict:
        lines = self.lines("nodes", document, str(source), str(target), str(failures))
        return Verdict("nodes", lines[1][2], tuple(map(tuple, lines[2:-1])))

    def prefers(self, document: str, source: IPv4Network, target: IPv4Network, names: list[str]) -> Verdict:
        lines = self.lines("prefers", document, str(source), str(target), ",".join(names))
        return Verdict("prefers", lines[1][1], tuple(map(tuple, lines[2:-1])))

    def alone(self, document: str, report: str) -> dict[int, frozenset[int]]:
        """The links of each `alone` line, by its policy."""
        lines = self.lines("recheck", document, report)
        return {int(words[1]): frozenset(map(int, words[2:])) for words in lines if words[:1] == ["alone"]}

    def repair(self, document: str, suffix: str, certificate: str) -> tuple[int, list[str]]:
        """The status, and the files that were written."""
        status, text = self.run("repair", document, "--out", suffix, "--proof", certificate)
        return status, [line.split(" ", 1)[1] for line in text.splitlines() if line.startswith("wrote ")]
