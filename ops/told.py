"""An answer in words, before it is shown in one form or another."""
from dataclasses import dataclass, field

from ops.commands import wrapped
from ops.documents import Policy
from ops.reports import Block

ANSWER_WORDS = {"yes": "yes", "no": "NO", "refused": "NOT ANSWERED"}
ORDER = ("no", "refused", "yes")


@dataclass
class Told:
    """One answer in words, with what a drawing of it needs."""

    head: str
    answer: str
    lines: list[str] = field(default_factory=list)  # may be longer than a line of a terminal
    number: int = 0
    name: str = ""
    policy: Policy | None = None
    block: Block | None = None
    mark: str = ""


def shown(told: Told) -> list[str]:
    """The lines of an answer in 80 columns."""
    mark = f" ({told.mark})" if told.mark else ""
    lines = wrapped(f"{told.head}: {ANSWER_WORDS.get(told.answer, told.answer)}{mark}", "", "    ")
    for line in told.lines:
        front = "      " if line.startswith("  ") else "    "
        lines += wrapped(line.strip(), front, front + ("  " if front == "      " else ""))
    return lines
