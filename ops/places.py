"""Whether new lines stand in a file where they stand in its copy: in the same block, before the same line."""
from collections.abc import Iterator, Sequence
from dataclasses import dataclass

from ops.changes import Changes, aligned, bare
from ops.commands import Wrong
from ops.ios import Block
from ops.lists import blocks_of, lists_of, normal, split

SPELT = dict[str, str]


@dataclass(frozen=True)
class Pair:
    """A file before and after."""

    before: str
    after: str


@dataclass(frozen=True)
class Place:
    """A new line with its block or list, empty for a top line, and the old lines there behind it and all in all."""

    text: str
    head: str
    behind: tuple[str, ...]
    block: tuple[str, ...]


def _text(line: str) -> str:
    return " ".join(bare(line).split())


def _spelt(text: str, names: SPELT) -> str:
    """The text with the router's names in place of the copy's."""
    return " ".join(names.get(word, word) for word in text.split())


def _groups(found: Sequence[Block]) -> tuple[dict[int, str], dict[str, dict[int, str]]]:
    """The block or list of each line, and the lines of each with their texts. Entries are in one spelling, in
    whatever form the file has its list."""
    head_of: dict[int, str] = {}
    lines: dict[str, dict[int, str]] = {"": {}}
    for block in found:
        head = " ".join(block.head.words)
        lines[""][block.head.number] = head
        head_of[block.head.number] = ""
        for line in block.lines:
            lines.setdefault(head, {})[line.number] = _text(line.text)
            head_of[line.number] = head
    for (prefix, name), listed in lists_of(found).items():
        head = f"{'prefix list' if prefix else 'list'} {name}"
        for entry in listed.entries:
            lines.setdefault(head, {})[entry.line] = " ".join(normal(listed.kind, entry.words))
            head_of[entry.line] = head
    return head_of, lines


def new_places(pair: Pair, file: str) -> Iterator[Place]:
    """Each new line of a file in order, with where it stands."""
    old, new = split(pair.before), split(pair.after)
    kept = {place + 1 for place in aligned(old, new, file)}
    head_of, lines = _groups(blocks_of(new))
    for number in range(1, len(new) + 1):
        if number in kept or number not in head_of:
            continue
        head = head_of[number]
        group = {at: text for at, text in lines[head].items() if at in kept}
        yield Place(
            lines[head][number], head, tuple(text for at, text in group.items() if at > number), tuple(group.values())
        )


def _names(changes: Changes, mine: Changes) -> SPELT:
    """From the words of the copy to those of the router, of what the changes name."""
    found = {}
    for one, two in zip(
        [*changes.entries, *changes.lists, *changes.bindings], [*mine.entries, *mine.lists, *mine.bindings]
    ):
        found[one.name] = two.name
    for one, two in zip([*changes.bindings, *changes.sessions], [*mine.bindings, *mine.sessions]):
        found[one.place] = two.place
    return found


def _agrees(copy: Place, real: Place, names: SPELT) -> bool:
    """Whether the first line behind it that both blocks have is the same one."""
    here, there = {_spelt(text, names) for text in copy.block}, set(real.block)
    first = next((text for text in (_spelt(text, names) for text in copy.behind) if text in there), None)
    second = next((text for text in real.behind if text in here), None)
    return first == second


def check(copy: Pair, real: Pair, changes: Changes, mine: Changes, file: str) -> None:
    """Each new line of the copy stands in the router's file in the same block, before the same line; `Wrong` where
    one does not."""
    names = _names(changes, mine)
    left = list(new_places(real, file))
    for place in new_places(copy, file):
        text, head = _spelt(place.text, names), _spelt(place.head, names)
        found = next((other for other in left if (other.text, other.head) == (text, head)), None)
        if found is None:
            raise Wrong(
                f"{file}: `{text}` would not be below `{head}`"
                if head
                else f"{file}: `{text}` would not be there"
            )
        left.remove(found)
        if not _agrees(place, found, names) and not _is_new_list(text, place, found):
            raise Wrong(f"{file}: `{text}` would not be before the line before which it is in the copy")
    if left:
        raise Wrong(f"{file}: `{left[0].text}` is in no copy")


def _is_new_list(text: str, copy: Place, real: Place) -> bool:
    """A new list may stand anywhere at the top where the copy's process is not the router's."""
    process = next((head for head in copy.block if head.startswith("router ")), "")
    is_list = text.split()[:2] in (["ip", "access-list"], ["ip", "prefix-list"])
    return is_list and not real.head and process not in real.block
