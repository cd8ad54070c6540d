"""enter: a repair as IOS commands for each router, and the commands that take it back."""
import argparse
import os
from collections.abc import Sequence
from dataclasses import dataclass, field

from ops import commands, copies
from ops.changes import Binding, Changes, NewList, Session
from ops.commands import Wrong, counted
from ops.ios import Block, families
from ops.lists import Entry, ListText, blocks_of, lists_of, normal, split
from ops.plan import Planned, planned, session_words

MINUTES = 10


@dataclass
class Step:
    """Commands that belong together, with a remark; and those that take them back."""

    remark: str
    lines: list[str]
    back: list[str]
    behind: list[str] = field(default_factory=list)  # in exec mode, once the lines are entered, both ways


@dataclass
class Router:
    """A router's configuration, and the steps that are to be entered there."""

    name: str
    blocks: list[Block]
    lists: dict[tuple[bool, str], ListText]
    steps: list[Step] = field(default_factory=list)
    notes: list[str] = field(default_factory=list)
    fresh: set[str] = field(default_factory=set)  # names of new lists

    def free_name(self) -> str:
        """A name for one more list, which neither the file nor a new list has."""
        taken = self.fresh | {
            word for block in self.blocks for line in [block.head, *block.lines] for word in line.words
        }
        name = next(name for number in range(1, len(taken) + 2) if (name := f"ARC-{number}") not in taken)
        self.fresh.add(name)
        return name

    def bound_at(self, name: str) -> list[tuple[str, str]]:
        """The neighbors at which a prefix list is bound inbound, each with the head of its process."""
        found = []
        for block in self.blocks:
            for line in block.lines if block.begins("router", "bgp") else []:
                if line.words[0] == "neighbor" and line.words[2:] == ("prefix-list", name, "in"):
                    found.append((line.words[1], " ".join(block.head.words)))
        return found

    def family(self, head: str, neighbor: str) -> list[str]:
        """The address family in which a neighbor is activated, as the lines that lead there."""
        block = next(block for block in self.blocks if " ".join(block.head.words) == head)
        inner = {
            " ".join(words)
            for words, line in families(block) if words and line.words[:3] == ("neighbor", neighbor, "activate")
        }
        plain = [words for words in sorted(inner) if words.startswith("ipv4") and "vrf" not in words]
        return [f" address-family {plain[0]}"] if plain else []


def _indented(lead: Sequence[str], lines: Sequence[str]) -> list[str]:
    """Lines below those that lead to them."""
    return [*lead, *(" " * len(lead) + line for line in lines)]


def _soft(neighbor: str) -> str:
    """What asks a neighbor for its routes again."""
    group = "" if neighbor.replace(".", "").isdigit() else "peer-group "
    return f"clear ip bgp {group}{neighbor} soft in"


def _numbers(first: int, many: int) -> list[int]:
    """Numbers below the first one, in rising order; none where there is no room."""
    step = min(10, first // (many + 1))
    return [first - step * (many - place) for place in range(many)] if step else []


def _spacing(entries: Sequence[Entry]) -> str:
    """What `resequence` needs to give old numbers again, or nothing where they are not regular."""
    numbers = [entry.number or 0 for entry in entries]
    steps = {two - one for one, two in zip(numbers, numbers[1:])}
    return f"{numbers[0]} {steps.pop() if steps else 10}" if len(steps) <= 1 else ""


def _resequenced(router: Router, listed: ListText, many: int) -> tuple[list[int], dict[int, int]]:
    """Gives a list numbers with room before its first entry; the room's numbers, and each old entry's number by its
    line."""
    first = 10 * (many + 1)
    back, numbers = f"ip access-list resequence {listed.name} 10 10", {
        entry.line: first + 10 * place for place, entry in enumerate(listed.entries)
    }
    if listed.is_numbered():
        spacing = _spacing(listed.entries)
        back = f"ip access-list resequence {listed.name} {spacing}" if spacing else ""
        remark = f"No number is free below the first entry of {listed.name}: new numbers, in the same order"
    else:
        remark = f"The file does not show the numbers of {listed.name}: new numbers, in the same order"
    if not back:
        remark += ". The old ones are not regular, and are not given again when this is taken back"
    router.steps.append(Step(remark, [f"ip access-list resequence {listed.name} {first} 10"], [back] if back else []))
    return [10 * place for place in range(1, many + 1)], numbers


def _same(listed: ListText, text: str) -> Entry | None:
    """The entry that says the same, further down."""
    wanted = normal(listed.kind, text.split())
    return next((entry for entry in listed.entries if normal(listed.kind, entry.words) == wanted), None)


def _packet_entries(router: Router, listed: ListText, texts: Sequence[str]) -> None:
    """New entries at the front of an ACL that is there."""
    first = listed.entries[0].number if listed.is_numbered() else None
    numbers = _numbers(first, len(texts)) if first is not None else []
    old = {entry.line: entry.number or 0 for entry in listed.entries}
    if not numbers:
        numbers, old = _resequenced(router, listed, len(texts))
    lines, back, twice = [], [], []
    for number, text in zip(numbers, texts):
        same = _same(listed, text)
        if same:
            lines.append(f"no {old[same.line]}")
            twice.append(text)
            back = [f"no {number}", f"{old[same.line]} {same.text}", *back]
        else:
            back = [f"no {number}", *back]
        lines.append(f"{number} {text}")
    remark = f"List {listed.name}: {counted(len(texts), 'entry', 'entries')} in front"
    if twice:
        remark += f". The same entry is further down (`{twice[0]}`), and IOS would take no second one: "
        remark += "it is taken out, and the new one entered at once"
    router.steps.append(Step(remark, _indented([listed.command], lines), _indented([listed.command], back)))


def _route_entries(router: Router, listed: ListText, texts: Sequence[str]) -> None:
    """New entries at the front of a prefix list that is there; where they find no room, a new list in its place."""
    first = listed.entries[0]
    numbers = _numbers(first.number, len(texts)) if first.number is not None else []
    mine = {tuple(text.split()[1:]) for text in texts}
    twice = any(entry.words[1:] in mine for entry in listed.entries)
    neighbors = router.bound_at(listed.name)
    behind = [_soft(neighbor) for neighbor, _ in neighbors]
    if numbers and not twice:
        lines = [f"ip prefix-list {listed.name} seq {number} {text}" for number, text in zip(numbers, texts)]
        back = [f"no {line}" for line in reversed(lines)]
        remark = f"Prefix list {listed.name}: {counted(len(texts), 'entry', 'entries')} in front"
        router.steps.append(Step(remark, lines, back, behind))
        return
    name = router.free_name()
    why = "the list has an entry for the same prefix" if twice else "no number is free below its first"
    fresh = NewList(True, name, (*texts, *(entry.text for entry in listed.entries if entry.words[1:] not in mine)))
    _new_list(router, fresh, f"Prefix list {listed.name}: {why}, so it is entered whole as {name}, and that is bound")
    for neighbor, head in neighbors:
        lead = [head, *router.family(head, neighbor)]
        front = f"neighbor {neighbor} prefix-list"
        there, gone = (_indented(lead, [f"{front} {bound} in"]) for bound in (name, listed.name))
        said = f"{name} in place of {listed.name} at neighbor {neighbor}"
        router.steps.append(Step(said, there, gone, [_soft(neighbor)]))
    router.notes.append(
        f"list {listed.name} stays as it is, and is bound no more; in the files after the repair it has the new "
        "entries itself"
    )


def _new_list(router: Router, listed: NewList, remark: str = "") -> None:
    """A whole new list, before anything binds it."""
    if listed.prefix:
        lines = [
            f"ip prefix-list {listed.name} seq {5 * number} {text}" for number, text in enumerate(listed.entries, 1)
        ]
        back = [f"no ip prefix-list {listed.name}"]
        show = f"show ip prefix-list {listed.name}"
    else:
        head = f"ip access-list extended {listed.name}"
        lines = _indented([head], [f"{10 * number} {text}" for number, text in enumerate(listed.entries, 1)])
        back, show = [f"no {head}"], f"show ip access-lists {listed.name}"
    what = "prefix list" if listed.prefix else "list"
    said = remark or f"A new {what} {listed.name} of {counted(len(listed.entries), 'entry', 'entries')}, which nothing binds yet"
    router.steps.append(Step(said, lines, back))
    router.notes.append(
        f"before `{'prefix list' if listed.prefix else 'list'} {listed.name}` is bound, `{show}` has to show "
        f"{counted(len(listed.entries), 'entry', 'entries')}, the last of them `{listed.entries[-1]}`"
    )


def _bind(router: Router, binding: Binding) -> None:
    if binding.prefix:
        line, lead = f"neighbor {binding.place} prefix-list {binding.name} in", [binding.head]
        lead += router.family(binding.head, binding.place)
        said, behind = f"Prefix list {binding.name} at neighbor {binding.place}", [_soft(binding.place)]
    else:
        line, lead = f"ip access-group {binding.name} in", [binding.head]
        said, behind = f"List {binding.name}, in at {binding.place}", []
    router.steps.append(Step(said, _indented(lead, [line]), _indented(lead, [f"no {line}"]), behind))


def _turn(router: Router, session: Session) -> None:
    line = f"neighbor {session.place} shutdown" if session.bgp else f"passive-interface {session.place}"
    there, gone = _indented([session.head], [line]), _indented([session.head], [f"no {line}"])
    said = session_words(session)
    router.steps.append(
        Step(said[0].upper() + said[1:], there if session.down else gone, gone if session.down else there)
    )


def _entries(router: Router, changes: Changes, permits: bool) -> None:
    """New entries of lists that are there: of lists that only permit more, or the other ones."""
    for key in dict.fromkeys((entry.prefix, entry.name) for entry in changes.entries):
        texts = [entry.text for entry in changes.entries if (entry.prefix, entry.name) == key]
        if all(text.startswith("permit ") for text in texts) != permits:
            continue
        listed = router.lists.get(key)
        if listed is None or not listed.entries:
            raise Wrong(f"{changes.file}: there is no list {key[1]} with entries")
        (_route_entries if key[0] else _packet_entries)(router, listed, texts)


def steps_of(row: Planned) -> Router:
    """The steps of a router: what lets more through first, lists before what binds them, what goes down last."""
    blocks = blocks_of(split(row.original))
    router = Router(row.changes.router, blocks, lists_of(blocks), fresh={listed.name for listed in row.changes.lists})
    for session in row.changes.sessions:
        if not session.down:
            _turn(router, session)
    _entries(router, row.changes, True)
    for listed in row.changes.lists:
        _new_list(router, listed)
    _entries(router, row.changes, False)
    for binding in row.changes.bindings:
        _bind(router, binding)
    for session in row.changes.sessions:
        if session.down:
            _turn(router, session)
    return router


def goes_down(row: Planned) -> bool:
    return any(session.down for session in row.changes.sessions)


def _remark(text: str) -> list[str]:
    return commands.wrapped(text, "! ", "!   ")


def _configured(lines: Sequence[str], behind: Sequence[str]) -> list[str]:
    return ["configure terminal", *(" " + line for line in lines), " end", *behind] if lines else list(behind)


def entered(router: Router, down: bool) -> list[str]:
    """What is entered on a router, with remarks that IOS takes as comments."""
    lines = _remark(f"{router.name}: {counted(len(router.steps), 'step')}. Look at what each prints before the next")
    for note in router.notes:
        lines += _remark(note)
    if down:
        lines += _remark(
            f"An adjacency goes down: come in another way, or let the router start anew in {MINUTES} minutes, "
            "unless all is well then. It comes back with its saved "
            "configuration, so save it as it is now (copy running-config startup-config), and then"
        )
        lines.append(f"reload in {MINUTES}")
    for step in router.steps:
        lines += ["!", *_remark(step.remark), *_configured(step.lines, step.behind)]
    if down:
        lines += ["!", *_remark("All is well: the router does not start anew"), "reload cancel"]
    return lines


def taken_back(router: Router) -> list[str]:
    """What takes it back, in the order from the last step to the first."""
    lines = _remark(f"{router.name}: takes back what was entered")
    for step in reversed(router.steps):
        if step.back:
            lines += ["!", *_remark(f"back: {step.remark}"), *_configured(step.back, step.behind)]
    return lines


def ordered(rows: Sequence[Planned]) -> list[Planned]:
    """Routers at which an adjacency goes down come last."""
    return sorted(rows, key=goes_down)


def arguments() -> argparse.ArgumentParser:
    words = commands.parser(
        "enter",
        "Prints a repair as IOS commands for each router, in a safe order: a list whole before it is bound, entries "
        "with numbers below the first, `clear ip bgp .. soft in` behind what changes routes, adjacencies that go "
        "down last and with `reload in`. The numbers are those of the files as the routers printed them, so fetch "
        "them right before. In between the network is in states of which no policy was asked.\n\nEDITS is a "
        "certificate of repair, what repair printed, or a list of edits. With --copies SUFFIX in its place the files "
        "that repair wrote are taken.",
        "nothing, or with --out a file ROUTER.enter and a file ROUTER.back for each router into FOLDER.",
        """
        bin/enter net.json repair.cert --originals .
        bin/enter net.json --copies .new --originals . --out window
        """,
    )
    copies.add_arguments(words)
    words.add_argument("--out", metavar="FOLDER", help="write two files a router there")
    commands.with_json(words)
    commands.with_force(words)
    return words


def main(words: list[str]) -> int:
    options = arguments().parse_args(words)
    rows = ordered(planned(options))
    routers = [(steps_of(row), goes_down(row)) for row in rows]
    texts = {router.name: (entered(router, down), taken_back(router)) for router, down in routers}
    if options.out:
        files = {
            os.path.join(options.out, name + end): "\n".join(lines) + "\n"
            for name, both in texts.items()
            for end, lines in zip((".enter", ".back"), both)
        }
        commands.check_free(list(files), options.force)
        for path, text in files.items():
            commands.save(path, text, True)
        commands.put("".join(f"wrote {path}\n" for path in files) or "nothing has to be changed\n")
    elif options.json:
        commands.put(
            commands.as_json(
                [{"router": name, "enter": there, "back": back} for name, (there, back) in texts.items()]
            )
        )
    else:
        parts = ["\n".join(there) for there, _ in texts.values()] + [
            "\n".join(back) for _, back in reversed(texts.values())
        ]
        commands.put("\n\n".join(parts or ["nothing has to be changed"]) + "\n")
    for row in rows:
        for note in row.notes:
            commands.tell(f"note: {note}")
    return commands.FINE
