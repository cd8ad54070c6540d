"""plan: a repair as a table, before anything of it is entered."""
import argparse
from collections.abc import Sequence
from dataclasses import dataclass

from ops import commands, copies
from ops.back import returned
from ops.changes import Changes, Session
from ops.commands import counted, wrapped
from ops.documents import read_document
from ops.fewer import fewer
from ops.ios import Block
from ops.joining import price
from ops.lists import blocks_of, split


@dataclass
class Planned:
    """What a repair changes at one router, with the file as the router printed it and after."""

    changes: Changes
    original: str
    after: str
    notes: list[str]


def planned(options: argparse.Namespace) -> list[Planned]:
    """The changes at each router, in the names of the routers."""
    found = []
    for one in returned(options):
        mine = one.changes()
        found.append(Planned(mine, one.before, one.after, one.notes + uses(mine, one.before)))
    return found


USERS = (
    "access-group", "access-list", "list", "community", "match", "distribute-list", "traffic-filter", "peer", "serve"
)


def _is_use(words: Sequence[str], name: str) -> bool:
    """Whether a line names a list somewhere else than where it stands or is bound to packets or routes."""
    if name not in words[1:] or words[0] in ("description", "remark", "hostname", "access-list", "interface", "router"):
        return False
    if tuple(words[:2]) in (("ip", "access-list"), ("ip", "prefix-list"), ("ip", "access-group")):
        return False
    if name.isdigit():
        return tuple(words[:1]) in (("access-class",),) or any(word in words for word in USERS)
    return not (words[0] == "neighbor" and "prefix-list" in words)


def uses(changes: Changes, text: str) -> list[str]:
    """Notes on what else names a list that gets new entries: these act there too."""
    found = []
    blocks: list[Block] = blocks_of(split(text))
    for name in dict.fromkeys(entry.name for entry in changes.entries):
        for block in blocks:
            for line in [block.head, *block.lines]:
                if _is_use(line.words, name):
                    found.append(
                        f"{changes.router}: `{line.text.strip()}` names list {name} too, so the new entries act "
                        "there as well"
                    )
    return found


def session_words(session: Session) -> str:
    """What happens to an adjacency or a session."""
    what = f"BGP session with {session.place}" if session.bgp else f"OSPF adjacency at {session.place}"
    return f"{what} goes {'down: no traffic takes that way any more' if session.down else 'up, unless the far end keeps it down'}"


def details(changes: Changes) -> list[str]:
    """What changes at a router, a line each."""
    lines = []
    for name in dict.fromkeys((entry.prefix, entry.name) for entry in changes.entries):
        texts = [entry.text for entry in changes.entries if (entry.prefix, entry.name) == name]
        lines.append(
            f"{'prefix list' if name[0] else 'list'} {name[1]}: {counted(len(texts), 'entry', 'entries')} in front"
        )
        lines += [f"    {text}" for text in texts]
    for listed in changes.lists:
        where = [
            ("at neighbor " if bind.prefix else "in at ") + bind.place
            for bind in changes.bindings if (bind.prefix, bind.name) == (listed.prefix, listed.name)
        ]
        lines.append(f"new {'prefix list' if listed.prefix else 'list'} {listed.name}, bound {', '.join(where)}")
        lines += [f"    {text}" for text in listed.entries]
    return lines + [session_words(session) for session in changes.sessions]


def counts(changes: Changes) -> tuple[int, int, int, int, int]:
    """New lists, entries in front of old lists, bindings, sessions that go down, and such as come up."""
    down = sum(session.down for session in changes.sessions)
    return len(changes.lists), len(changes.entries), len(changes.bindings), down, len(changes.sessions) - down


def new_entries(changes: Changes) -> int:
    """How many entries are new, in old lists and in new ones."""
    return len(changes.entries) + sum(len(listed.entries) for listed in changes.lists)


COLUMNS = ("new lists", "entries", "bindings", "down", "up")


def table(rows: Sequence[Planned], total: int) -> list[str]:
    """The table with its sum."""
    names = [row.changes.router for row in rows]
    width = min(max(len(name) for name in [*names, "router", "000 of 000 routers"]), 32)
    head = "router".ljust(width) + "".join(f"{column:>11}" for column in COLUMNS[:3]) + f"{'sessions':>11}"
    lines = [head]
    sums = [0] * 5
    for row in rows:
        mine = counts(row.changes)
        sums = [one + other for one, other in zip(sums, mine)]
        lines.append(_row(row.changes.router, width, mine))
    lines.append("-" * len(head))
    lines.append(_row(f"{len(rows)} of {counted(total, 'router')}", width, sums))
    return lines


def _row(name: str, width: int, mine: Sequence[int]) -> str:
    sessions = ", ".join(f"{count} {word}" for count, word in zip(mine[3:], COLUMNS[3:]) if count) or "0"
    return f"{name[:width]:<{width}}" + "".join(f"{count:>11}" for count in mine[:3]) + f"{sessions:>11}"


def said(rows: Sequence[Planned], total: int) -> list[str]:
    """The table, and below it what changes."""
    if not rows:
        return ["nothing has to be changed"]
    lines = table(rows, total)
    rest = total - len(rows)
    others = {0: ".", 1: ", and the other file is as before."}.get(rest, f", and the {rest} other files are as before.")
    lines += wrapped(
        f"Nothing else changes: every line of {'this file' if len(rows) == 1 else 'these files'} stays{others}"
    )
    for row in rows:
        lines += ["", f"{row.changes.router} ({row.changes.file})"]
        for line in details(row.changes):
            lines += wrapped(line.strip(), "    " if line.startswith("  ") else "  ", "        ")
        for note in row.notes:
            lines += wrapped(f"note: {note}", "  ", "      ")
    return lines


def as_rows(rows: Sequence[Planned]) -> list[dict[str, object]]:
    found = []
    for row in rows:
        mine = row.changes
        found.append({
            "router": mine.router, "file": mine.file,
            "entries": [{"list": one.name, "prefix-list": one.prefix, "entry": one.text} for one in mine.entries],
            "new lists": [{"list": one.name, "prefix-list": one.prefix, "entries": list(one.entries)} for one in mine.lists],
            "bindings": [{"list": one.name, "at": one.place} for one in mine.bindings],
            "sessions": [{"at": one.place, "process": one.head, "goes": "down" if one.down else "up"} for one in mine.sessions],
            "notes": row.notes,
        })
    return found


def arguments() -> argparse.ArgumentParser:
    words = commands.parser(
        "plan",
        "Shows what a repair changes, as a table with a sum and then line by line: lists, entries, bindings, "
        "sessions. EDITS is a certificate of repair, what repair printed, or a list of edits; arcv makes them in "
        "copies in a folder of its own. With --copies SUFFIX the files that repair wrote are taken.",
        "nothing.",
        """
        bin/plan net.json repair.cert
        bin/plan net.json --copies .new --originals .
        """,
    )
    copies.add_arguments(words)
    commands.with_json(words)
    return words


def main(words: list[str]) -> int:
    options = arguments().parse_args(words)
    document = read_document(options.doc)
    rows, total = planned(options), copies.total(options.doc, document)
    edits = copies.edits_of(options)
    cost = price(edits, document.weights)
    if options.json:
        value = {"routers": as_rows(rows), "of": total, "price": cost if options.edits else None}
        commands.put(commands.as_json(value))
        return commands.FINE
    lines = said(rows, total)
    many = sum(new_entries(row.changes) for row in rows)
    few = sum(new_entries(fewer(row.changes)) for row in rows)
    if few < many:
        lines += ["", f"{counted(many, 'entry', 'entries')}, which --join makes {few}"]
    if edits:
        lines += ["", f"{counted(len(edits), 'edit')} at the price of {cost}"]
    commands.put("\n".join(lines) + "\n")
    return commands.FINE
