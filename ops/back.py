"""back: a repair of copies put into the files as the routers printed them."""
import argparse
import os
from collections.abc import Callable, Sequence
from dataclasses import dataclass, field, replace

from ops import commands, copies, places
from ops.changes import Binding, Changes, NewEntry, NewList, Session, bare, changes_of, hostname
from ops.commands import Wrong, counted, wrapped
from ops.fewer import fewer
from ops.ios import Block, Line
from ops.lists import ListText, blocks_of, lists_of, normal, split

LAST = 1 << 30


@dataclass(frozen=True)
class Placed:
    """A new line, and before which old line it comes."""

    before: int
    text: str


@dataclass
class Original:
    """A file as the router printed it, while new lines are placed in it. Lines count from 1."""

    file: str
    lines: list[str]
    placed: list[Placed] = field(default_factory=list)
    notes: list[str] = field(default_factory=list)

    def __post_init__(self) -> None:
        self.blocks = blocks_of(self.lines)
        self.lists = lists_of(self.blocks)
        self.end = "\r\n" if self.lines and self.lines[0].endswith("\r\n") else "\n"

    def block(self, head: str) -> Block:
        """The one block with this head."""
        found = [block for block in self.blocks if " ".join(block.head.words) == head]
        if len(found) != 1:
            raise Wrong(f"{self.file}: `{head}` is there {counted(len(found), 'time')}, and once in the copy")
        return found[0]

    def add(self, before: int, text: str) -> None:
        self.placed.append(Placed(before, text))

    def add_last(self, block: Block, text: str) -> None:
        """At the end of a block: behind its last command line, or its last before the address families."""
        first = next((line for line in block.lines if line.words[0] == "address-family"), None)
        inner = [line for line in block.lines if first is None or line.number < first.number]
        last = inner[-1] if inner else block.head
        self.add(last.number + 1, " " + text)


def _entry_lines(original: Original, listed: ListText, texts: Sequence[str]) -> None:
    """New entries at the front of a list, in the form in which the file has it; their numbers come with the others'."""
    first = listed.entries[0]
    fronts = {
        "prefix": f"ip prefix-list {listed.name} " + ("seq 0 " if first.number is not None else ""),
        "": f"access-list {listed.name} ",
    }
    front = " " + ("0 " if listed.is_numbered() else "") if listed.head else fronts[
        "prefix" if listed.kind == "prefix" else ""
    ]
    for text in texts:
        original.add(first.line, front + text)


def _place_entries(original: Original, mine: Changes) -> None:
    for key in dict.fromkeys((entry.prefix, entry.name) for entry in mine.entries):
        listed = original.lists.get(key)
        if listed is None or not listed.entries:
            raise Wrong(f"{original.file}: there is no list {key[1]} with entries, and there is one in the copy")
        if listed.kind == "standard":
            raise Wrong(
                f"{original.file}: list {key[1]} is a standard list, which has no entries such as the copy's: bind "
                "an extended one by hand"
            )
        _entry_lines(original, listed, [entry.text for entry in mine.entries if (entry.prefix, entry.name) == key])


def _top(original: Original, process: str) -> Line | None:
    """The line before which new lists stand: the head of the copy's routing process, else of the first one, else what
    follows the interfaces."""
    found = [block.head for block in original.blocks if block.begins("router")]
    same = [line for line in found if " ".join(line.words) == process]
    faces = [at for at, block in enumerate(original.blocks) if block.begins("interface")]
    behind = [block.head for block in original.blocks[faces[-1] + 1 :]] if faces else []
    return next(iter(same + found + behind), None)


def _place_lists(original: Original, mine: Changes, process: str) -> None:
    top = _top(original, process)
    if mine.lists and top is None:
        raise Wrong(f"{original.file}: no line is found before which a new list could come")
    for listed in mine.lists:
        place = top.number if top else LAST
        if listed.prefix:
            for number, text in enumerate(listed.entries, 1):
                original.add(place, f"ip prefix-list {listed.name} seq {5 * number} {text}")
            continue
        for text in [f"ip access-list extended {listed.name}", *(" " + text for text in listed.entries), "!"]:
            original.add(place, text)


def _words_in(block: Block, front: Sequence[str]) -> list[Line]:
    return [line for line in block.lines if line.words[: len(front)] == tuple(front)]


def _place_binding(original: Original, binding: Binding) -> None:
    block = original.block(binding.head)
    if not binding.prefix:
        bound = [line for line in _words_in(block, ("ip", "access-group")) if line.words[-1] == "in"]
        if bound:
            raise Wrong(
                f"{original.file}:{bound[-1].number}: `{binding.head}` has a list inbound already, which the copy "
                f"leaves out: {bound[-1].text.strip()}"
            )
        original.add_last(block, f"ip access-group {binding.name} in")
        return
    of_neighbor = _words_in(block, ("neighbor", binding.place))
    bound = [line for line in of_neighbor if line.words[2] == "prefix-list" and line.words[-1] == "in"]
    if bound:
        raise Wrong(
            f"{original.file}:{bound[-1].number}: the neighbor has a prefix list already, which the copy leaves out: "
            f"{bound[-1].text.strip()}"
        )
    inner = [line for line in of_neighbor if line.words[2] == "activate"]
    text = f"neighbor {binding.place} prefix-list {binding.name} in"
    if inner:
        original.add(inner[-1].number + 1, " " * inner[-1].depth + text)
    else:
        original.add_last(block, text)


def _is_down(block: Block, session: Session) -> bool:
    """Whether a line of the process keeps the adjacency or the session down: the last that speaks of it."""
    down = False
    for line in block.lines:
        positive = line.words[1:] if line.words[0] == "no" else line.words
        of_it = positive in (("passive-interface", session.place), ("passive-interface", "default"))
        if positive == ("neighbor", session.place, "shutdown") if session.bgp else of_it:
            down = line.words[0] != "no"
    return down


def _place_session(original: Original, session: Session) -> None:
    if _is_down(original.block(session.head), session) == session.down:
        said = f"{original.file}: `{session.head}` keeps the adjacency at {session.place} down already"
        if not session.down:
            said = f"{original.file}: `{session.head}` does not keep the adjacency at {session.place} down: "
            said += "on the copy it is down for another reason, which this does not mend"
        raise Wrong(said)
    text = f"neighbor {session.place} shutdown" if session.bgp else f"passive-interface {session.place}"
    original.add_last(original.block(session.head), ("" if session.down else "no ") + text)


def _renumber(original: Original, mine: Changes) -> dict[int, int]:
    """New numbers of old entries, by their lines, in lists with numbers that get new entries; these rise from the
    front."""
    numbers = {}
    for key in dict.fromkeys((entry.prefix, entry.name) for entry in mine.entries):
        listed, many = original.lists[key], sum((entry.prefix, entry.name) == key for entry in mine.entries)
        step = 5 if listed.kind == "prefix" else 10
        for place, entry in enumerate(listed.entries, many + 1):
            if entry.number is not None:
                numbers[entry.line] = step * place
    return numbers


def _with_number(text: str, number: int) -> str:
    """The line of an entry with another number."""
    marked = bare(text).replace("#", str(number), 1) if "#" in bare(text) else text
    return marked if marked == text else marked + text[len(text.rstrip("\r\n")) :]


def _numbered_lines(placed: Sequence[Placed]) -> list[str]:
    """The texts of new lines, the entries of each list with their numbers from its front on."""
    counts: dict[tuple[int, str], int] = {}
    found = []
    for one in placed:
        key = (one.before, one.text.split(" permit ")[0].split(" deny ")[0])
        counts[key] = counts.get(key, 0) + 1
        text = one.text
        if text.startswith(" 0 "):
            text = f" {10 * counts[key]} {text[3:]}"
        found.append(text.replace(" seq 0 ", f" seq {5 * counts[key]} ", 1))
    return found


def transfer(text: str, mine: Changes, file: str, process: str = "") -> str:
    """The file with these changes, which name what it names; new lists before the head of this process, where it is
    there."""
    original = Original(file, split(text))
    _place_entries(original, mine)
    _place_lists(original, mine, process)
    for binding in mine.bindings:
        _place_binding(original, binding)
    for session in mine.sessions:
        _place_session(original, session)
    numbers = _renumber(original, mine)
    placed = sorted(original.placed, key=lambda one: one.before)
    texts = _numbered_lines(placed)
    out, at = [], 0
    for number, line in enumerate(original.lines, 1):
        while at < len(placed) and placed[at].before == number:
            out.append(texts[at] + original.end)
            at += 1
        out.append(_with_number(line, numbers[number]) if number in numbers else line)
    ended = not out or out[-1].endswith("\n")
    return "".join([*out, *(text + original.end if ended else original.end + text for text in texts[at:])])


def renamed(changes: Changes, original: Original, names: copies.Mapping) -> Changes:
    """The changes of a copy in the names of the router; a new list whose name is taken there gets the next free one."""
    router = changes.router
    face: Callable[[str], str] = lambda name: names.interface(router, name)
    taken = {name for _, name in original.lists}
    for block in original.blocks:
        taken |= {word for line in [block.head, *block.lines] for word in line.words if word.startswith("ARC-")}
    fresh: dict[str, str] = {}
    for listed in changes.lists:
        free = (f"ARC-{number}" for number in range(1, len(taken) + 2))
        name = listed.name if listed.name not in taken else next(name for name in free if name not in taken)
        fresh[listed.name] = name
        taken.add(name)
        if name != listed.name:
            original.notes.append(f"{original.file}: the name {listed.name} is taken there, so the new list is {name}")
    listname: Callable[[str], str] = lambda name: fresh.get(name) or names.list_name(router, name)
    bindings = []
    for one in changes.bindings:
        place = one.place if one.prefix else face(one.place)
        head = one.head if one.prefix else f"interface {place}"
        bindings.append(Binding(one.prefix, listname(one.name), place, head))
    sessions = [one if one.bgp else replace(one, place=face(one.place)) for one in changes.sessions]
    return Changes(
        hostname(original.blocks, original.file), original.file,
        [NewEntry(one.prefix, listname(one.name), one.text) for one in changes.entries],
        [NewList(one.prefix, listname(one.name), one.entries) for one in changes.lists],
        bindings, sessions,
    )


def _fronts(copy: str, original: Original, changes: Changes, mine: Changes) -> None:
    """Notes where the list of the copy begins with another entry than the router's."""
    lists = lists_of(blocks_of(split(copy)))
    pairs = {(one.prefix, one.name): (two.prefix, two.name) for one, two in zip(changes.entries, mine.entries)}
    for key, real in pairs.items():
        here, there = lists[key].entries, original.lists[real].entries if real in original.lists else []
        if here and there and normal(lists[key].kind, here[0].words) != normal(lists[key].kind, there[0].words):
            original.notes.append(
                f"{original.file}: the copy's list {key[1]} begins with another entry; the new ones come before "
                f"`{there[0].text}`"
            )


def _refuse_sessions(changes: Changes, names: copies.Mapping) -> None:
    """An open copy has adjacencies of its own: one that goes down there stops no packet in the network."""
    if names.kind == "open" and changes.sessions:
        place = names.interface(changes.router, changes.sessions[0].place)
        raise Wrong(
            f"{changes.file}: this repair of an open copy turns the adjacency at {place}, which stops no packet in the "
            "network. `bin/repair-steps` looks for one that turns none"
        )


def process_of(text: str) -> str:
    """The head of the routing process."""
    return next((" ".join(block.head.words) for block in blocks_of(split(text)) if block.begins("router")), "")


def put_back(before: str, after: str, original: str, file: str, names: copies.Mapping) -> tuple[
    str, Changes, list[str]
]:
    """The original with what changed from one copy to the other; the changes in its names; and what to know of them.

    What comes out is read again: it has every line of the original, just these changes, and each in its place."""
    changes = changes_of(before, after, file)
    _refuse_sessions(changes, names)
    place = Original(file, split(original))
    mine = renamed(changes, place, names)
    _fronts(before, place, changes, mine)
    result = transfer(original, mine, file, process_of(before))
    if changes_of(original, result, file).same() != mine.same():
        raise Wrong(f"{file}: the changes would not be those of the copy")
    places.check(places.Pair(before, after), places.Pair(original, result), changes, mine, file)
    return result, mine, place.notes


@dataclass
class Returned:
    """A file as a router printed it, with a repair, and what to know of it. Several copies may be of one file."""

    file: str
    before: str
    after: str
    notes: list[str] = field(default_factory=list)

    def changes(self) -> Changes:
        return changes_of(self.before, self.after, self.file)


def returned(options: argparse.Namespace) -> list[Returned]:
    """The originals with the repair that the words of the command line name."""
    found: dict[str, Returned] = {}
    for one in copies.repaired(options):
        text = copies.original_text(one.original) if one.original not in found else found[one.original].before
        row = found.setdefault(one.original, Returned(one.original, text, text))
        row.after, _, notes = put_back(one.before, one.after, row.after, one.original, one.mapping)
        row.notes += notes
    if options.join:
        for row in found.values():
            row.after = transfer(row.before, fewer(row.changes()), row.file, process_of(row.before))
    return list(found.values())


def arguments() -> argparse.ArgumentParser:
    words = commands.parser(
        "back",
        "Adds a repair of copies to the files as the routers printed them. Each new line comes into the same "
        "block, before the same line: entries at the front of their list, new lists before the routing process, the "
        "others at the end of their block. The result is read again and compared: it has every line of the original "
        "in its order, and no other change than the copy. Where that cannot be, nothing is written.\n\nEDITS is a "
        "certificate of repair, what repair printed, or a list of edits. With --copies SUFFIX in its place the files "
        "that repair wrote are taken.",
        "the changed files, each under the name of the original with --out behind it.",
        """
        bin/back net.json repair.cert --originals . --out .new
        bin/back net.json --copies .new --originals . --out .new
        """,
    )
    copies.add_arguments(words)
    words.add_argument(
        "--out", metavar="SUFFIX", required=True, help="what follows the name of an original in that of its copy"
    )
    commands.with_json(words)
    commands.with_force(words)
    return words


def main(words: list[str]) -> int:
    options = arguments().parse_args(words)
    if not options.out or "/" in options.out:
        raise Wrong("--out is what follows the names of files, as .new")
    made, rows, notes = {}, [], []
    for one in returned(options):
        mine = one.changes()
        made[one.file + options.out] = one.after
        many = len(mine.entries) + sum(len(listed.entries) for listed in mine.lists) + len(mine.bindings) + len(
            mine.sessions
        )
        rows.append({"router": mine.router, "file": one.file, "written": one.file + options.out, "lines": many})
        notes += one.notes
    commands.check_free(list(made), options.force)
    for path, text in made.items():
        commands.save(path, text, True)
    if options.json:
        commands.put(commands.as_json({"files": rows, "notes": notes}))
        return commands.FINE
    lines = [
        f"wrote {row['written']}: {counted(int(str(row['lines'])), 'new line')} of commands" for row in rows
    ] or ["nothing has to be changed"]
    for note in notes:
        lines += wrapped(f"note: {os.path.basename(note)}", "", "    ")
    commands.put("\n".join(lines) + "\n")
    return commands.FINE
