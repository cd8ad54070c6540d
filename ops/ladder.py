"""A repair by rising prices and conflicts."""
import time
from collections.abc import Callable
from dataclasses import dataclass, field

from ops.commands import tell
from ops.reports import Edit
from ops.trial import Repair, Texts, Trial

PRICES = (1, 2, 4, 8, 16, 32, 64, 128, 256, 512)
CONFLICTS = (2_000, 10_000, 50_000, 200_000)


@dataclass
class Outcome:
    """Where a ladder of steps ends: the last answer, and the highest price that is proved not to be enough, or -1."""

    repair: Repair
    proved: int = -1


@dataclass
class Limits:
    """The highest price and the most conflicts that a step may ask."""

    price: int
    conflicts: int


@dataclass
class Known:
    """What is known so far, and what stands when the search is stopped."""

    certificate: str = ""
    proved: int = -1
    rounds: list[tuple[list[Edit], Texts]] = field(default_factory=list)


def climb(question: Trial, limits: Limits, known: Callable[[int, str], None], what: str = "") -> Outcome:
    """Asks at prices 1, 2, 4, .., each with more and more conflicts, until the answer is a repair or no step is
    left."""
    proved, at = -1, 0
    prices = [number for number in PRICES if number < limits.price] + [limits.price]
    levels = [number for number in CONFLICTS if number < limits.conflicts] + [limits.conflicts]
    for bound in prices:
        while True:
            begun = time.monotonic()
            repair = question.repair(bound, levels[at])
            said = {"repaired": f"repaired, it costs {repair.number}", "none": "none", "budget": "not done"}.get(
                repair.answer, repair.reason
            )
            tell(f"{what}price at most {bound}, {levels[at]:,} conflicts: {said} ({time.monotonic() - begun:.1f} s)")
            if repair.answer != "budget" or at + 1 == len(levels):
                break
            at += 1
        if repair.answer == "none":
            proved = bound
            known(proved, repair.certificate)
        if repair.answer != "none":
            return Outcome(repair, proved)
    return Outcome(repair, proved)
