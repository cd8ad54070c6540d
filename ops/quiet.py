"""quiet: copies of running-configs with the lines commented out that bear on nothing that arcv models."""
import argparse
import os
import re
from collections.abc import Sequence

from ops import commands, ios, rules
from ops.commands import Wrong

KEPT_HEADS = ("router ", "ip access-list ", "access-list ", "ip prefix-list ", "route-map ")
KEPT_INNER = ("ip address", "ip unnumbered", "ipv6 address", "ip access-group")
READ_INTERFACE = re.compile(r"(Ethernet|FastEthernet|GigabitEthernet|TenGigabitEthernet|Serial|Loopback)[0-9]+(/[0-9]+)*")
IDLE = "an interface of a kind that is not read, with no address and nothing switched on"


class Quieter:
    """Comments lines out, by the rows that cost nothing; with `adjacencies` by those that cost an adjacency or time too."""

    def __init__(self, table: rules.Table, adjacencies: bool) -> None:
        self.table, self.adjacencies = table, adjacencies

    def reason(self, places: Sequence[str], words: Sequence[str]) -> str | None:
        """Why a line that stands in one of these places may be commented out, or None."""
        row = self.table.find(places, words)
        if row is None or row.where not in places:
            return None
        if row.cost == "nothing":
            return row.reason
        return f"{row.cost}: {row.reason}" if self.adjacencies and row.cost in ("adjacency", "time") else None

    def inner(self, line: str, head: str, words: Sequence[str]) -> str | None:
        """Why a line below this head may be commented out by itself, or None."""
        if head.startswith("router "):
            found = self.reason(("process", ios.words_of(head)[1]), words)
            return found if found and found.startswith(("adjacency: ", "time: ")) else None
        if is_kept(line, head) or not head.startswith("interface "):
            return None
        return self.reason(("interface",), words)

    def quiet(self, lines: Sequence[str]) -> tuple[list[str], list[tuple[int, str, str]]]:
        """The lines, some of them commented out, and those with their numbers and reasons."""
        out: list[str] = []
        told: list[tuple[int, str, str]] = []
        head, end, block = "", None, None
        for number, line in enumerate(lines, 1):
            words, inner, why = ios.words_of(line), line[:1] in " \t", None
            if end is not None:
                end = None if end in line else end
            elif not inner and words[:1] == ("banner",):
                end, head, block = ios.banner_end(line), "", None
            elif not words or words[0].startswith("!"):
                block, head = (block, head) if inner else (None, "")
            elif inner:
                why = block or self.inner(line, head, words)
            else:
                head, block, why = line, *self.top(lines, number - 1, words)
            if why:
                told.append((number, line.strip(), why))
                line = " ! " + line.strip() if inner else "! " + line
            out.append(line)
        return out, told

    def top(self, lines: Sequence[str], at: int, words: Sequence[str]) -> tuple[str | None, str | None]:
        """Why the block of a top line may be commented out, or None; and why the line itself may be."""
        if is_idle(lines, at):
            return IDLE, IDLE
        if is_kept(lines[at], lines[at]):
            return None, None
        row, why = self.table.find(("top", "block"), words), self.reason(("top", "block"), words)
        return (why if row and row.where == "block" else None), why


def is_kept(line: str, head: str) -> bool:
    """Whether the line is one that is never touched but with the option."""
    if line[:1] in " \t":
        return head.startswith(KEPT_HEADS) or line.strip().startswith(KEPT_INNER)
    return line.startswith(KEPT_HEADS)


def is_idle(lines: Sequence[str], at: int) -> bool:
    """Whether the line here heads the block of an interface that arcv does not read and that has no part in anything."""
    words = ios.words_of(lines[at])
    if words[0] != "interface" or len(words) != 2 or READ_INTERFACE.fullmatch(words[1]):
        return False
    for line in lines[at + 1 :]:
        words = ios.words_of(line)
        if line[:1] not in (" ", "\t") and words:
            break
        if words and not words[0].startswith("!") and words != ("shutdown",) and words[0] not in ("no", "description"):
            return False
    return True


def copy(quieter: Quieter, text: str) -> tuple[str, list[tuple[int, str, str]]]:
    """The copy of a text with the line ends that it has, and the lines that are commented out in it."""
    end = "\r\n" if "\r\n" in text else "\n"
    out, told = quieter.quiet(text.replace("\r\n", "\n").split("\n"))
    return end.join(out), told


def arguments() -> argparse.ArgumentParser:
    words = commands.parser(
        "quiet",
        "Copies running-configs, with the lines commented out that bear on nothing that arcv models but are not of its language, by the rows of "
        "ops/rules.rows that say so. A line that no row names stays as it is, so arcv still refuses what it does not model. No line of an ACL, "
        "a prefix list or a routing process is touched, and none that gives an address. Each line that is commented out is printed with its reason; "
        "keep that list and a diff of the two folders. Line numbers stay the same.",
        "the copies, under the names of the files, into FOLDER.",
        """
        bin/quiet configs/*.cfg
        """,
    )
    words.add_argument("files", metavar="FILE", nargs="+", help="a running-config")
    words.add_argument("--to", metavar="FOLDER", default="quiet", help="the folder of the copies; quiet without it")
    words.add_argument("--adjacencies", action="store_true",
                       help="lines too that can only keep an adjacency down, or say how fast it goes down: docs/real-files.md says what answers are then worth")
    words.add_argument("--rows", metavar="FILE", help="rows of your own, which count before those of ops/rules.rows")
    commands.with_json(words)
    commands.with_force(words)
    return words


def targets(files: Sequence[str], folder: str) -> dict[str, str]:
    """The files by the names of their copies; `Wrong` where two have one name, or a copy would be a file that is read."""
    found: dict[str, str] = {}
    for name in files:
        target = os.path.join(folder, os.path.basename(name))
        if os.path.exists(target) and any(os.path.exists(other) and os.path.samefile(target, other) for other in files):
            raise Wrong(f"{target} would be written over")
        if found.setdefault(target, name) != name:
            raise Wrong(f"{found[target]} and {name} would have one copy, {target}")
    return found


def main(words: list[str]) -> int:
    options = arguments().parse_args(words)
    try:
        quieter = Quieter(rules.table(options.rows), options.adjacencies)
    except ValueError as error:
        raise Wrong(str(error)) from error
    found = targets(options.files, options.to)
    commands.check_free(list(found), options.force)
    copies = {target: copy(quieter, commands.load(name)) for target, name in found.items()}
    for target, (text, _) in copies.items():
        commands.save(target, text, True)
    rows = [(found[target], *row) for target, (_, told) in copies.items() for row in told]
    if options.json:
        commands.put(commands.as_json([{"file": name, "line": number, "text": line, "reason": why} for name, number, line, why in rows]))
    else:
        commands.put("".join(f"{name}:{number}: {line}    ({why})\n" for name, number, line, why in rows))
    return commands.FINE
