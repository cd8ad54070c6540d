"""The table of rules: what a line of a running-config bears on that is none of the language's, and why."""
import os
from collections.abc import Iterable, Sequence
from dataclasses import dataclass

from ops import ios

PATH = os.path.join(os.path.dirname(os.path.abspath(__file__)), "rules.rows")
PLACES = ("top", "block", "interface", "process", "ospf", "bgp", "segment")
MADE = ("unknown", "elsewhere")  # by the tools themselves: a row may not say so
LOSES: dict[str, tuple[str, ...]] = {
    "inert": (), "nothing": (), "inferred": (), "time": (), "adjacency": ("reach",), "drops": ("reach",), "routes": ("reach",),
    "passes": ("reach", "blocked", "through"), "unknown": ("reach", "blocked", "through"), "elsewhere": ("blocked", "through"),
}


@dataclass(frozen=True)
class Row:
    """Where a line stands, the words that it begins with, what it costs, why, and an example."""
    where: str
    words: tuple[str, ...]
    cost: str
    reason: str
    example: str = ""


@dataclass(frozen=True)
class Note:
    """A line of a file that a copy does not have as it stands: where it is, by which rule, at what cost, and why."""
    file: str
    number: int
    text: str
    rule: str
    cost: str
    reason: str

    def loses(self) -> tuple[str, ...]:
        """The kinds of policies of which nothing is known while nobody says what the line bears on."""
        return LOSES.get(self.cost, ())


UNKNOWN = Row("top", (), "unknown", "no row of the table knows this line")


def row_of(text: str, place: str) -> Row:
    """The row that a line of a table writes; `place` is where that line stands, for messages."""
    parts = [part.strip() for part in text.split("|")]
    if len(parts) not in (4, 5):
        raise ValueError(f"{place}: a row has four or five parts with `|` between them")
    where, words, cost, reason = parts[:4]
    if where not in PLACES:
        raise ValueError(f"{place}: `{where}` is no place; one of {', '.join(PLACES)}")
    if cost not in LOSES or cost in MADE:
        raise ValueError(f"{place}: `{cost}` is no cost; one of {', '.join(name for name in LOSES if name not in MADE)}")
    if not words or not reason:
        raise ValueError(f"{place}: a row has words and a reason")
    return Row(where, tuple(words.split()), cost, reason, parts[4] if len(parts) == 5 else "")


def rows_of(path: str) -> list[Row]:
    """The rows of a table in a file."""
    with open(path, encoding="utf-8") as file:
        lines = [(number, line.strip()) for number, line in enumerate(file, 1)]
    return [row_of(line, f"{path}:{number}") for number, line in lines if line and not line.startswith("#")]


class Table:
    """Rows of one's own, each of which counts before the rows of this project."""

    def __init__(self, own: Sequence[Row] = (), given: Sequence[Row] | None = None) -> None:
        self.levels = [list(own), rows_of(PATH) if given is None else list(given)]

    def find(self, places: Iterable[str], words: Sequence[str]) -> Row | None:
        """The row with most words for a line that stands in one of these places, those of one's own first."""
        wanted = tuple(places)
        for rows in self.levels:
            found = [row for row in rows if row.where in wanted and ios.begins(words, row.words)]
            if found:
                return max(found, key=lambda row: len(row.words))
        return None

    def claims(self) -> list[str]:
        """The networks in which no device without a file forwards, as rows of one's own say."""
        return [row.words[0] for row in self.levels[0] if row.where == "segment" and row.cost == "nothing"]

    def judge(self, places: Iterable[str], words: Sequence[str]) -> Row:
        """The row for a line, or the one that says that none knows it."""
        return self.find(places, words) or UNKNOWN


def table(path: str | None) -> Table:
    """The table, with the rows of a file of one's own before it where one is named."""
    return Table(rows_of(path) if path else ())
