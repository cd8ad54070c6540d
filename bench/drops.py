"""The rule by which a log drops lemmas, held to its lines: the j-th step that drops comes right after the lemma with which 1,500 j were
added since the one before it (or, where none could go, 1,500, 3,000 .. later), and of the lemmas of more than two literals that are not
among the last 1,000 j added and not dropped yet it names at least one and at most half, rounded up."""
from dataclasses import dataclass, field
from typing import Iterable

STEP, KEPT = 1500, 1000
REASONS = 100  # up to this many old lemmas may all be reasons, which stay; the log does not say which are


@dataclass
class Log:
    """The lemmas of a log so far."""

    lengths: dict[int, int] = field(default_factory=dict)  # of the live ones
    added: list[int] = field(default_factory=list)
    since: int = 0  # lemmas since the last step that dropped
    drops: int = 0
    faults: list[str] = field(default_factory=list)

    def add(self, number: int, length: int) -> None:
        self.check_late()
        self.added.append(number)
        self.lengths[number] = length
        self.since += 1

    def may_go(self, among: Iterable[int]) -> list[int]:
        return [it for it in among if self.lengths.get(it, 0) > 2]

    def old(self) -> list[int]:
        kept = KEPT * (self.drops + 1)
        return self.added[:-kept] if len(self.added) > kept else []

    def is_time(self) -> bool:
        gap = STEP * (self.drops + 1)
        return self.since >= gap and (self.since - gap) % STEP == 0

    def check_late(self) -> None:
        """At a lemma: where it was time for a drop, none could go but for reasons."""
        if self.is_time() and len(self.may_go(self.old())) > REASONS:
            self.faults.append(f"no drop after {self.since} lemmas, though many could go")

    def drop(self, named: list[int]) -> None:
        may = self.may_go(self.old())
        if not self.is_time():
            self.faults.append(f"drop {self.drops + 1} comes {self.since} lemmas after the last one")
        if not set(named) <= set(may):
            self.faults.append(f"drop {self.drops + 1} names what may not go")
        if not 1 <= len(named) <= (len(may) + 1) // 2:
            self.faults.append(f"drop {self.drops + 1} names {len(named)} of {len(may)}")
        for number in named:
            self.lengths.pop(number, None)
        self.since, self.drops = 0, self.drops + 1


def read(lines: Iterable[str]) -> Log:
    """The log that these lines are, without hints and without those that bound a price."""
    log = Log()
    for line in lines:
        number, *words = line.partition(" 0")[0].split()
        if words[:1] == ["d"]:
            log.drop(list(map(int, words[1:])))
        elif words[:1] != ["b"]:
            log.add(int(number), len(words))
    return log
