"""What a repair changes in a router file: the file before and the file after, compared line by line."""
import re
from collections.abc import Sequence
from dataclasses import dataclass, field

from ops.commands import Wrong
from ops.ios import Block
from ops.lists import blocks_of, lists_of, split

NUMBER = re.compile(r"^(\s*)([0-9]+)(?=[ \t]+(?:permit|deny)\b)|^(ip prefix-list [^ ]+ seq )([0-9]+)(?= )")


@dataclass(frozen=True)
class NewEntry:
    """An entry at the front of a list that is there."""

    prefix: bool
    name: str
    text: str


@dataclass(frozen=True)
class NewList:
    """A new list with all its entries, in their order."""

    prefix: bool
    name: str
    entries: tuple[str, ...]


@dataclass(frozen=True)
class Binding:
    """A list bound inbound at an interface, or at a neighbor of a process."""

    prefix: bool
    name: str
    place: str
    head: str


@dataclass(frozen=True)
class Session:
    """An adjacency at an interface, or a session with a neighbor, that goes down or comes up; `head` is that of its
    process."""

    place: str
    head: str
    down: bool

    @property
    def bgp(self) -> bool:
        return self.head.startswith("router bgp")


@dataclass
class Changes:
    """All changes of one file, each kind in the order of the file."""

    router: str
    file: str
    entries: list[NewEntry] = field(default_factory=list)
    lists: list[NewList] = field(default_factory=list)
    bindings: list[Binding] = field(default_factory=list)
    sessions: list[Session] = field(default_factory=list)
    renumbered: int = 0

    def same(self) -> tuple[object, ...]:
        """What is changed, whatever the file is called."""
        return self.entries, self.lists, self.bindings, self.sessions


def bare(line: str) -> str:
    """A line without its end and without the number of an entry."""
    text = line.rstrip("\n").removesuffix("\r")
    return NUMBER.sub(lambda found: (found[1] if found[1] is not None else found[3]) + "#", text)


def _plain(line: str) -> str:
    return line.rstrip("\n").removesuffix("\r")


def aligned(old: Sequence[str], new: Sequence[str], name: str) -> list[int]:
    """For each old line the place of the line of the new text that it is; `Wrong` where one is missing."""
    places, at = [], 0
    for number, line in enumerate(old, 1):
        while at < len(new) and bare(new[at]) != bare(line):
            at += 1
        if at == len(new):
            raise Wrong(f"{name}: line {number} is not in the file after the repair, in its order: {_plain(line)[:60]}")
        places.append(at)
        at += 1
    return places


def heads(found: Sequence[Block]) -> dict[int, Block]:
    """The block of each line of a file, by the number of the line."""
    return {line.number: block for block in found for line in [block.head, *block.lines]}


def hostname(found: Sequence[Block], name: str) -> str:
    return next(
        (block.head.words[1] for block in reversed(found) if block.begins("hostname") and len(block.head.words) > 1),
        name,
    )


class _Reader:
    """Reads new lines, each with the block that it stands in."""

    def __init__(self, changes: Changes, old_lists: set[tuple[bool, str]]) -> None:
        self.changes, self.old = changes, old_lists
        self.fresh: dict[tuple[bool, str], list[str]] = {}

    def add(self, words: tuple[str, ...], head: tuple[str, ...]) -> bool:
        """Takes a line; whether it is one that a repair writes."""
        if words[:3] == ("ip", "access-list", "extended") and len(words) == 4:
            self.fresh[False, words[3]] = []
        elif head[:2] == ("ip", "access-list"):
            return self._entry(False, head[3], words[1:] if words[0].isdigit() else words)
        elif words[0] == "access-list" and len(words) > 3:
            return self._entry(False, words[1], words[2:])
        elif words[:2] == ("ip", "prefix-list") and len(words) > 4:
            return self._entry(True, words[2], words[5:] if words[3] == "seq" else words[3:])
        elif head[:1] == ("interface",) and words[:2] == ("ip", "access-group") and words[3:] == ("in",):
            self.changes.bindings.append(Binding(False, words[2], " ".join(head[1:]), " ".join(head)))
        elif head[:2] == ("router", "bgp") and words[:1] == ("neighbor",) and words[2:3] == (
            "prefix-list",
        ) and words[4:] == ("in",):
            self.changes.bindings.append(Binding(True, words[3], words[1], " ".join(head)))
        else:
            return self._session(words, " ".join(head))
        return True

    def _entry(self, prefix: bool, name: str, words: tuple[str, ...]) -> bool:
        if words[:1] not in (("permit",), ("deny",)):
            return False
        if (prefix, name) in self.old:
            self.changes.entries.append(NewEntry(prefix, name, " ".join(words)))
        else:
            self.fresh.setdefault((prefix, name), []).append(" ".join(words))
        return True

    def _session(self, words: tuple[str, ...], head: str) -> bool:
        positive = words[1:] if words[0] == "no" else words
        down = words[0] != "no"
        if head.startswith("router ospf") and positive[:1] == ("passive-interface",) and len(positive) == 2:
            self.changes.sessions.append(Session(positive[1], head, down))
        elif head.startswith("router bgp") and positive[:1] == ("neighbor",) and positive[2:] == ("shutdown",):
            self.changes.sessions.append(Session(positive[1], head, down))
        else:
            return False
        return True

    def end(self) -> None:
        self.changes.lists = [NewList(prefix, name, tuple(entries)) for (prefix, name), entries in self.fresh.items()]


def changes_of(before: str, after: str, file: str) -> Changes:
    """What stands in the file after, and not in the file before; `Wrong` where anything else is changed than a repair
    may."""
    old, new = split(before), split(after)
    places = aligned(old, new, file)
    found, blocks = blocks_of(new), blocks_of(old)
    block_of = heads(found)
    changes = Changes(hostname(found, file), file)
    changes.renumbered = sum(_plain(line) != _plain(new[place]) for line, place in zip(old, places))
    reader = _Reader(changes, set(lists_of(blocks)))
    kept = set(places)
    for place, line in enumerate(new):
        if place in kept:
            continue
        words = tuple(_plain(line).split())
        block = block_of.get(place + 1)
        if words == ("!",):
            continue
        head = () if block is None or block.head.number == place + 1 else block.head.words
        if not words or not reader.add(words, head):
            raise Wrong(
                f"{file}: line {place + 1} of the file after the repair is none that a repair writes: "
                f"{_plain(line)[:60]}"
            )
    reader.end()
    _check_fronts(changes, before, after, file)
    return changes


def _check_fronts(changes: Changes, before: str, after: str, file: str) -> None:
    """The new entries of a list stand before all its old ones, and these are the same as before."""
    old, new = lists_of(blocks_of(split(before))), lists_of(blocks_of(split(after)))
    for key, listed in old.items():
        fresh = [entry.text for entry in changes.entries if (entry.prefix, entry.name) == key]
        if [entry.text for entry in new[key].entries] != fresh + [entry.text for entry in listed.entries]:
            raise Wrong(f"{file}: list {key[1]} after the repair is not its new entries and then its old ones")
