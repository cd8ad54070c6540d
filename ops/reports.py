"""What arcv prints and writes, read: reports, answers of single commands, traces, certificates, edits."""
import re
from dataclasses import dataclass, field

ANSWERS = ("yes", "no", "refused")
HEADS = {
    "arc-report 1": "report", "arc-recheck 1": "recheck", "arc-nodes 1": "nodes", "arc-prefers 1": "prefers",
    "arc-repair 1": "certificate",
}


@dataclass(frozen=True)
class Block:
    """The answer to one policy with its witness: the words of each line."""

    number: int
    kind: str
    answer: str
    lines: tuple[tuple[str, ...], ...]
    mark: str = ""
    at: int = 0  # the number of its first line in the text


@dataclass(frozen=True)
class Edit:
    """An edit: of a session, of a route or of packets; at a bound list, at an interface or at a neighbour without
    one."""

    kind: str
    router: str
    place: str
    name: str
    source: str = ""
    target: str = ""
    service: str = ""

    def line(self) -> str:
        words = [self.kind, self.router, self.place, self.name, self.source, self.target, self.service]
        if self.kind == "session":
            words = [self.kind, self.router, self.name]
        return " ".join(["edit", *(word for word in words if word)])

    def weight(self) -> str:
        """The name of its price in `weights` of a document."""
        return {"session": "session", "route": "filter", "packet": "list"}[self.kind]


@dataclass
class Text:
    """A text of arcv. `form` is report, recheck, nodes, prefers, certificate, trace, repair, edits, rejected,
    accepted or refused."""

    form: str
    blocks: list[Block] = field(default_factory=list)
    alone: dict[int, tuple[int, ...]] = field(default_factory=dict)
    edits: list[Edit] = field(default_factory=list)
    answer: str = ""
    numbers: tuple[int, ...] = ()
    rows: list[tuple[str, ...]] = field(default_factory=list)
    wrote: list[str] = field(default_factory=list)
    log: int = 0


def parse_edit(line: str) -> Edit:
    """The edit that a line names; `ValueError` where it has not the form of one."""
    words = line.split()
    if words[:2] == ["edit", "session"] and len(words) == 4:
        return Edit("session", words[2], "interface", words[3])
    if words[:2] == ["edit", "route"] and len(words) == 6 and words[3] in ("list", "neighbor"):
        return Edit("route", words[2], words[3], words[4], target=words[5])
    if words[:2] == ["edit", "packet"] and len(words) in (7, 8) and words[3] in ("list", "interface"):
        return Edit("packet", words[2], words[3], words[4], words[5], words[6], words[7] if len(words) == 8 else "")
    raise ValueError(f"no edit: {line.strip()[:60]}")


def _block(lines: list[str], at: int) -> tuple[Block, int]:
    """The block that begins in line `at`, counted from 0, and where the next one begins."""
    words = lines[at].split()
    right = len(words) in (4, 5) and words[0].isdigit() and words[3].isdigit() and words[2] in ANSWERS
    if not right or len(words[0]) > 10 or len(words[3]) > 10:
        raise ValueError(f"line {at + 1}: no block begins so: {lines[at][:60]}")
    count = int(words[3])
    if at + 1 + count > len(lines):
        raise ValueError(f"line {len(lines) + 1}: the text ends too early")
    witness = tuple(tuple(line.split()) for line in lines[at + 1 : at + 1 + count])
    return Block(
        int(words[0]), words[1], words[2], witness, words[4] if len(words) == 5 else "", at + 1
    ), at + 1 + count


def _blocks(lines: list[str], at: int, ends: tuple[str, ...]) -> tuple[list[Block], int]:
    found = []
    while at < len(lines) and lines[at].split(" ")[0] not in ends:
        block, at = _block(lines, at)
        found.append(block)
    if at == len(lines):
        raise ValueError(f"line {at + 1}: the text ends too early")
    return found, at


def _report(lines: list[str], form: str) -> Text:
    blocks, at = _blocks(lines, 1, ("alone", "end"))
    text = Text(form, blocks)
    while lines[at].startswith("alone ") and at + 1 < len(lines):
        numbers = [int(word) for word in lines[at].split()[1:] if word.isdigit()]
        text.alone[numbers[0]] = tuple(numbers[1:])
        at += 1
    _ended(lines, at)
    return text


def _ended(lines: list[str], at: int) -> None:
    if lines[at] != "end" or at + 1 != len(lines):
        raise ValueError(f"line {at + 1}: `end` is missing, or something follows it")


def _single(lines: list[str], form: str) -> Text:
    """The text of `nodes` or of `prefers`."""
    words = lines[1].split() if len(lines) > 1 else []
    front = 2 if form == "nodes" else 1
    if len(words) != front + 2 or words[front] not in ANSWERS or not words[-1].isdigit():
        raise ValueError(f"line 2: no answer of {form}")
    block = Block(
        int(words[1]) if form == "nodes" else 0, words[0], words[front],
        tuple(tuple(line.split()) for line in lines[2:-1]), at=2,
    )
    if len(block.lines) != int(words[-1]):
        raise ValueError(f"line {len(lines)}: it has not as many lines as line 2 says")
    _ended(lines, len(lines) - 1)
    return Text(form, [block], answer=block.answer)


def _certificate(lines: list[str]) -> Text:
    words = lines[1].split() if len(lines) > 1 else []
    many = {"repaired": 4, "none": 3, "budget": 4}.get(words[1] if len(words) > 1 else "", 0)
    if words[:1] != ["answer"] or len(words) != many or not all(word.isdigit() for word in words[2:]):
        raise ValueError("line 2: no answer of a repair")
    text = Text("certificate", answer=words[1], numbers=tuple(int(word) for word in words[2:]))
    at = 2
    while at < len(lines) and lines[at].startswith("edit "):
        text.edits.append(_edit_at(lines, at))
        at += 1
    text.blocks, at = _blocks(lines, at, ("log",))
    text.log = at + 1
    if lines[-1] != "end":
        raise ValueError(f"line {len(lines) + 1}: `end` is missing")
    return text


def _edit_at(lines: list[str], at: int) -> Edit:
    try:
        return parse_edit(lines[at])
    except ValueError as error:
        raise ValueError(f"line {at + 1}: {error}") from error


def _repair(lines: list[str]) -> Text:
    """What `repair` printed, or a list of edits."""
    words = lines[0].split()
    text = Text("repair", answer=words[0], numbers=(int(words[1]),)) if words[0] != "edit" else Text("edits")
    for at in range(0 if text.form == "edits" else 1, len(lines)):
        if lines[at].startswith("wrote "):
            text.wrote.append(lines[at][6:])
        elif lines[at].strip():
            text.edits.append(_edit_at(lines, at))
    return text


def _is_repair(words: list[str]) -> bool:
    return words[0] == "edit" or len(words) == 2 and words[0] in ("repaired", "none", "budget") and words[1].isdigit()


def read_text(text: str) -> Text:
    """What a text of arcv holds; `ValueError` with the line where it is none."""
    lines = [line.removesuffix("\r") for line in text.split("\n")]
    if lines and not lines[-1]:
        lines.pop()
    while lines and not lines[0].strip():
        lines.pop(0)
    if not lines:
        raise ValueError("line 1: the text is empty")
    form, words = HEADS.get(lines[0], ""), lines[0].split()
    if form in ("report", "recheck"):
        return _report(lines, form)
    if form in ("nodes", "prefers"):
        return _single(lines, form)
    if form == "certificate":
        return _certificate(lines)
    if words[0] == "trace" and len(words) == 5:
        return Text("trace", rows=[tuple(line.split()) for line in lines])
    if words[0] == "rejected" and len(words) == 3 and words[1].isdigit():
        return Text("rejected", answer=words[2], numbers=(int(words[1]),))
    if lines == ["accepted"]:
        return Text("accepted")
    if re.fullmatch(r"refused .+ [0-9]+ [a-z-]+( [a-z]+ [0-9]+)?", lines[0]):
        return Text("refused", answer=lines[0])
    if _is_repair(words):
        return _repair(lines)
    raise ValueError(f"line 1: no text of arcv begins so: {lines[0][:60]}")


def read_report(text: str) -> list[Block]:
    """The blocks of a report of `verify` or `recheck`."""
    found = read_text(text)
    if found.form not in ("report", "recheck"):
        raise ValueError("line 1: no report of verify or recheck")
    return found.blocks


def read_edits(text: str) -> Text:
    """The edits in a certificate, in what `repair` printed, or in a list; an empty list has none."""
    if not text.strip():
        return Text("edits")
    found = read_text(text)
    if found.form not in ("certificate", "repair", "edits"):
        raise ValueError("line 1: no edits: a certificate of repair, what repair printed, or lines `edit ..`")
    return found
