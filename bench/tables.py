"""Tables in Markdown, and the place in bench/README.md where they go."""
from dataclasses import dataclass, field
from pathlib import Path

BEGIN, END = "<!-- bench/run --write: from here -->", "<!-- bench/run --write: to here -->"


@dataclass(frozen=True)
class Row:
    """A line of a table: its cells; and where it has a target, what was measured, the target and whether it is met."""

    cells: list[str]
    is_met: bool | None = None
    profile: str = ""  # where a target is not met: what takes the time


@dataclass
class Table:
    title: str
    head: list[str]
    target: str
    rows: list[Row] = field(default_factory=list)

    def lines(self) -> list[str]:
        marks = {None: "", True: "met", False: "**not met**"}
        head = [*self.head, "target"]
        rows = [line([*row.cells, marks[row.is_met]]) for row in self.rows]
        return [f"## {self.title}", "", f"Target: {self.target}.", "", line(head), "|---" * len(head) + "|", *rows, ""]

    def missed(self) -> list[tuple[str, str]]:
        return [(f"{self.title}: {row.cells[0]}", row.profile) for row in self.rows if row.is_met is False]


def line(cells: list[str]) -> str:
    return "| " + " | ".join(cells) + " |"


def seconds(took: float | None) -> str:
    return "-" if took is None else f"{took:.3f}" if took < 0.1 else f"{took:.2f}"


def times(quotient: float | None) -> str:
    return "-" if quotient is None else f"{quotient:.2f}" if quotient < 10 else f"{quotient:.0f}"


def mebibytes(peak: int) -> str:
    return f"{peak / (1 << 20):,.0f} MiB"


def in_the_way(tables: list[Table]) -> list[str]:
    """Each row whose target is not met, with its profile."""
    missed = [it for table in tables for it in table.missed()]
    if not missed:
        return []
    rows = [line([name, said or "no profile was taken"]) for name, said in missed]
    return ["## Where the time of rows goes that miss their target", "", line(["row", "functions, by their own part of the time"]), "|---|---|", *rows, ""]


def write(path: Path, lines: list[str]) -> None:
    """Writes the lines between the two marks of the file."""
    text = path.read_text()
    before, _, rest = text.partition(BEGIN)
    _, _, after = rest.partition(END)
    if not rest or not after:
        raise ValueError(f"{path} lacks the two marks")
    path.write_text("\n".join([before + BEGIN, "", *lines, END]) + after)
