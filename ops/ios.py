"""Blocks and lines of a running-config of Cisco IOS."""
import re
from collections.abc import Iterable, Sequence
from dataclasses import dataclass, field


@dataclass(frozen=True)
class Line:
    """A line with its number in the file, its words, and how many spaces it begins with."""
    number: int
    text: str
    words: tuple[str, ...]
    depth: int


@dataclass
class Block:
    """A top line, and the lines below it that are indented."""
    head: Line
    lines: list[Line] = field(default_factory=list)

    def begins(self, *front: str) -> bool:
        """Whether the words of the head begin like that."""
        return self.head.words[: len(front)] == front


def words_of(text: str) -> tuple[str, ...]:
    """The words of a line, as arcv has them: only spaces and tabs stand between words."""
    return tuple(re.findall("[^ \t]+", text))


def begins(words: Sequence[str], front: Sequence[str]) -> bool:
    """Whether the words begin like that; `*` stands for any word."""
    return len(words) >= len(front) and all(mine in ("*", word) for mine, word in zip(front, words))


def banner_end(text: str) -> str | None:
    """What ends the banner that this line begins, or None where it ends in the line itself."""
    parts = text.split(None, 2)
    rest = parts[2] if len(parts) == 3 else ""
    mark = "^C" if rest.startswith("^C") else rest[:1]
    return None if not mark or mark in rest[len(mark):] else mark


def line_of(number: int, text: str) -> Line:
    return Line(number, text, words_of(text), len(text) - len(text.lstrip(" \t")))


def blocks(numbered: Iterable[tuple[int, str]]) -> tuple[list[Block], list[Line]]:
    """The blocks of a file in order, without comments and banners; and the indented lines that stand in no block, with the
    first line of a banner that does not end."""
    found: list[Block] = []
    orphans: list[Line] = []
    banner: list[Line] = []
    block: Block | None = None
    end: str | None = None
    for number, text in numbered:
        line = line_of(number, text)
        if end is not None:
            end = None if end in text else end
        elif not line.words:
            continue
        elif line.depth == 0:
            block = None
            if line.words[0] == "banner":
                end, banner = banner_end(text), [line]
            elif not text.startswith("!"):
                block = Block(line)
                found.append(block)
        elif not line.words[0].startswith("!"):
            (orphans if block is None else block.lines).append(line)
    return found, orphans + (banner if end is not None else [])


def families(block: Block) -> list[tuple[tuple[str, ...], Line]]:
    """The lines of a block, each with the words of the address family in which it stands, or with none."""
    found: list[tuple[tuple[str, ...], Line]] = []
    family: tuple[str, ...] = ()
    depth = 0
    for line in block.lines:
        if line.words[0] == "address-family":
            family, depth = line.words[1:], line.depth
        elif line.words[0] == "exit-address-family" or (family and line.depth < depth):
            family = () if line.words[0] == "exit-address-family" or line.depth < depth else family
            if line.words[0] != "exit-address-family":
                found.append((family, line))
        else:
            found.append((family, line))
    return found
