"""The lists of a router file with the places of their entries: ACLs and prefix lists."""
import re
from collections.abc import Iterator, Sequence
from dataclasses import dataclass, field

from ops import ports
from ops.ios import Block, Line, blocks

@dataclass(frozen=True)
class Entry:
    """An entry: the number of its line in the file, its own number, and its words from `permit` or `deny` on."""

    line: int
    number: int | None
    words: tuple[str, ...]

    @property
    def text(self) -> str:
        return " ".join(self.words)


@dataclass
class ListText:
    """A list of a file. `kind` is extended, standard or prefix; `head` is the line of its block, 0 where it stands
    line by line."""

    kind: str
    name: str
    head: int
    entries: list[Entry] = field(default_factory=list)

    def is_numbered(self) -> bool:
        return any(entry.number is not None for entry in self.entries)

    @property
    def command(self) -> str:
        """What leads into the list on a router, also where the file has it line by line."""
        return f"ip access-list {self.kind} {self.name}"


def _entry(line: Line, words: Sequence[str]) -> Entry | None:
    """The entry in these words, a number before them or not; a remark is none."""
    number = int(words[0]) if words and words[0].isdigit() else None
    rest = tuple(words if number is None else words[1:])
    return Entry(line.number, number, rest) if rest and rest[0] != "remark" else None


def _numbered_kind(name: str) -> str:
    number = int(name) if name.isdigit() else 0
    return "standard" if number <= 99 or 1300 <= number <= 1999 else "extended"


def _of_block(block: Block) -> Iterator[tuple[str, str, int, Entry | None]]:
    words = block.head.words
    if words[:2] == ("ip", "access-list") and len(words) == 4 and words[2] in ("extended", "standard"):
        yield words[2], words[3], block.head.number, None
        for line in block.lines:
            yield words[2], words[3], block.head.number, _entry(line, line.words)
    elif words[0] == "access-list" and len(words) > 2:
        yield _numbered_kind(words[1]), words[1], 0, _entry(block.head, words[2:])
    elif words[:2] == ("ip", "prefix-list") and len(words) > 3 and words[2] != "sequence-number" and words[
        3
    ] != "description":
        rest = words[4:] if words[3] == "seq" else words[3:]
        yield "prefix", words[2], 0, _entry(block.head, rest)


def lists_of(found: Sequence[Block]) -> dict[tuple[bool, str], ListText]:
    """The lists of a file, by whether they are prefix lists and by name."""
    lists: dict[tuple[bool, str], ListText] = {}
    for block in found:
        for kind, name, head, entry in _of_block(block):
            listed = lists.setdefault((kind == "prefix", name), ListText(kind, name, head))
            if entry:
                listed.entries.append(entry)
    return lists


def split(text: str) -> list[str]:
    """The lines of a text with their ends; a line ends at a line feed."""
    return re.findall(r"[^\n]*\n|[^\n]+$", text)


def numbered(lines: Sequence[str]) -> list[tuple[int, str]]:
    """Lines without their ends, counted from 1."""
    return [(number, line.rstrip("\n").removesuffix("\r")) for number, line in enumerate(lines, 1)]


def blocks_of(lines: Sequence[str]) -> list[Block]:
    return blocks(numbered(lines))[0]


def _ends(words: list[str]) -> Iterator[str]:
    """The source and the destination of an entry in one spelling; they are taken from the words."""
    for _ in range(2):
        if words[:1] == ["any"] or words[:2] == ["0.0.0.0", "255.255.255.255"]:
            del words[: 1 if words[0] == "any" else 2]
            yield "any"
        elif words[:1] == ["host"]:
            yield f"{words[1]} 0.0.0.0"
            del words[:2]
        else:
            yield " ".join(words[:2])
            del words[:2]
        while words and words[0] in ("eq", "gt", "lt", "neq"):
            yield " ".join(words[:2])
            del words[:2]
        if words[:1] == ["range"]:
            yield " ".join(words[:3])
            del words[:3]


def normal(kind: str, words: Sequence[str]) -> tuple[str, ...]:
    """The words of an entry in one spelling, so that two say the same where these are equal. What is logged does not
    count."""
    if kind == "prefix":
        return tuple(words)
    kept = [word for word in words if word not in ("log", "log-input")]
    if kind == "standard" or len(kept) < 4:
        return tuple(kept)
    number = ports.protocol(kept[1])
    names = ports.PORTS.get(number or 0, {})
    rest = [str(names.get(word, word)) for word in kept[2:]]
    return (kept[0], kept[1] if number is None else str(number), *_ends(rest), *rest)
