"""refusals: every line of a document's router files that arcv refuses, in place of the first alone."""
import argparse
import json
import os
import re
import shutil
import subprocess
import tempfile
from dataclasses import asdict, dataclass
from typing import Any

from lab.router_ids import warnings
from ops import commands
from ops.commands import Wrong, counted

WHAT_TO_DO = {
    "orphan-line": "an indented line with no block above it: a comment `!` at the start of a line ends a block",
    "unknown-line": "no line of the language: docs/real-files.md says which lines may be left out, and which must not",
    "bad-word": "a word is out of its form or range, missing, or one too many; or a banner is not closed",
    "wildcard-not-prefix": "a mask or wildcard whose ones are not contiguous: write one line for each prefix",
    "duplicate-block": "the block is there twice: join the two",
    "sequence-not-rising": "entry numbers of a list do not rise, or some entries have one and others none",
}
THEN = {
    "missing": "there is no such file; names of router files are looked up in the document's folder",
    "document-form": "no JSON (`python3 -m json.tool` says where), or not of the form in docs/formats.md: a member unknown or "
    "missing, `failures` at another kind than `reach`, a prefix with a bit past its length",
}
DOCUMENT = "document"
MOST = 10_000


def shown(text: str | bytes) -> str:
    """Text of a file, with its control characters as question marks."""
    return re.sub(r"[\x00-\x1f\x7f-\x9f]", "?", text.decode("latin-1") if isinstance(text, bytes) else text)


def comment_out(lines: list[bytes], number: int) -> None:
    """The lines, with this one, and where it heads a block the lines of its block, commented out."""
    at = number - 1
    inner = lines[at][:1] in (b" ", b"\t")
    lines[at] = b" ! " + lines[at].lstrip() if inner else b"! " + lines[at]
    if not inner:
        for place in range(at + 1, len(lines)):
            if lines[place][:1] not in (b" ", b"\t") and lines[place].strip():
                break
            if lines[place].strip() and not lines[place].lstrip().startswith(b"!"):
                lines[place] = b"! " + lines[place]


Refusal = tuple[str, int, str]  # the refused file, the number, the kind


def asked(program: str, folder: str, document: str) -> tuple[Refusal | None, bytes]:
    """What arcv says of a document: the refused file, the number and the kind, or None where nothing is refused; and the
    last line that it says on standard error."""
    run = subprocess.run([program, "verify", "--", document], cwd=folder, stdin=subprocess.DEVNULL, capture_output=True)
    said = run.stderr.strip().split(b"\n")[-1]
    if run.returncode in (0, 1) and run.stdout.startswith(b"arc-report 1\n"):
        return None, said
    match = re.fullmatch(rb"refused (.+) ([0-9]+) ([a-z-]+(?: [a-z]+ [0-9]+)?)\n", run.stdout, re.S)
    if run.returncode != 5 or not match:
        raise Wrong(f"{program} ended with status {run.returncode}: {shown(said)}")
    return (os.fsdecode(match[1]), int(match[2]), match[3].decode()), said


def names_of(path: str) -> tuple[dict[str, Any], list[str]] | None:
    """The document and the names of its router files, or None where it is not of such a form."""
    try:
        with open(path, encoding="utf-8") as file:
            document = json.load(file)
        names = document["routers"]
    except (OSError, ValueError, KeyError, TypeError, RecursionError):
        return None
    return (document, names) if isinstance(names, list) and all(isinstance(name, str) for name in names) else None


def lay(folder: str, document: dict[str, Any], names: list[str], copy: str) -> dict[str, str]:
    """Lays the files into the folder of the copy under numbers, and the document that names them so."""
    numbers = [str(number) for number in range(1, len(names) + 1)]
    for number, name in zip(numbers, names):
        shutil.copyfile(os.path.join(folder, name), os.path.join(copy, number))
    with open(os.path.join(copy, DOCUMENT), "w", encoding="utf-8") as file:
        json.dump({**document, "routers": numbers}, file, ensure_ascii=False, separators=(",", ":"))
    return dict(zip(numbers, names))


@dataclass(frozen=True)
class Line:
    """A refused line of a router file; the word at fault where arcv names it."""

    file: str
    number: int
    kind: str
    text: str
    word: str


def list_refused(program: str, copy: str, names: dict[str, str]) -> tuple[list[Line], Refusal | None]:
    """Each refused line in the folder of the copy; and the refusal that is left, or None."""
    found: list[Line] = []
    while len(found) < MOST:
        refusal, said = asked(program, copy, DOCUMENT)
        if refusal is None or refusal[0] not in names or refusal[2] not in WHAT_TO_DO:
            return found, refusal
        number, line, kind = refusal
        path = os.path.join(copy, number)
        with open(path, "rb") as file:
            lines = file.read().split(b"\n")
        word = shown(said.removeprefix(b"arcv: ")) if said.startswith(b"arcv: ") else ""
        found.append(Line(shown(names[number]), line, kind, shown(lines[line - 1].strip()), word))
        comment_out(lines, line)
        with open(path, "wb") as file:
            file.write(b"\n".join(lines))
    return found, None


def faces_of(folder: str, names: list[str]) -> dict[str, list[str]]:
    """The interfaces that router files have, by the names of their routers."""
    found: dict[str, list[str]] = {}
    for name in names:
        text = commands.load(os.path.join(folder, name))
        host = re.search(r"^hostname (\S+)", text, re.M)
        if host:
            found[host[1]] = re.findall(r"^interface (\S+)", text, re.M)
    return found


def strange_ends(document: dict[str, Any], number: int, faces: dict[str, list[str]]) -> list[str]:
    """The ends of a link that are no interface of the files, with one that may be meant: `Gi0/1` for GigabitEthernet0/1."""
    try:
        ends = [str(document["links"][number - 1][end]).partition(":") for end in ("a", "b")]
    except (IndexError, KeyError, TypeError):
        return []
    out = []
    for router, _, face in ends:
        known, kind = faces.get(router, []), re.match(r"[A-Za-z-]*", face)
        if face in known or not kind:
            continue
        near = [name for name in known if re.fullmatch(f"{re.escape(kind[0])}[A-Za-z-]*{re.escape(face[kind.end():])}", name, re.I)]
        why = f"no file has a router {router}" if router not in faces else f"{router} has no interface {face}"
        out.append(why + (f"; is it {router}:{near[0]}?" if near else ""))
    return out


def told(lines: list[Line], left: Refusal | None, ends: list[str]) -> list[str]:
    """The lines, each kind with what to do where it comes first, what is left, and which ends of its link are no interface."""
    out: list[str] = []
    kinds: set[str] = set()
    for line in lines:
        out.append(f"{line.file}:{line.number}: {line.kind}: {line.text}")
        hints = [WHAT_TO_DO[line.kind]] if line.kind not in kinds else []
        kinds.add(line.kind)
        if hints or line.word:
            out += commands.wrapped("; ".join([*hints, *([line.word] if line.word else [])]), "    ")
    if left:
        out.append(f"then: refused {shown(left[0])} {left[1]} {left[2]}")
        more = "; it may come of the lines above, which were left out" if lines else ""
        out += commands.wrapped("; ".join(ends) or THEN.get(left[2], "docs/manual.md has each kind under Refusals") + more, "    ")
    return [*out, counted(len(lines), "refused line")]


def arguments() -> argparse.ArgumentParser:
    words = commands.parser(
        "refusals",
        "Lists every line of a document's router files that arcv refuses, with its text, and what to do where a kind "
        "comes first. arcv prints the first refusal alone, so this copies the files into a temporary folder, "
        "comments the refused line out there (`!` at the start of a top line and of its block, ` !` in an indented "
        "one, so that line numbers stay), and asks again, until no line of one file is refused by itself. The "
        "refusal that is left then, of the files and the document together, comes last, after `then:`. Where none "
        "is left, a line `warning:` names each router id that another router may take by itself, which arcv does not "
        "refuse. The names of router files are looked up in DOC's folder.",
        "nothing but in the temporary folder.",
        "bin/refusals net.json",
    )
    words.add_argument("doc", metavar="DOC", help="the document")
    words.add_argument("program", metavar="ARCV", nargs="?", help="the program to ask; bin/arcv without it")
    commands.with_program(words)
    commands.with_json(words)
    return words


def main(words: list[str]) -> int:
    options = arguments().parse_args(words)
    options.arcv = options.arcv or options.program
    program = commands.program(options)
    folder, base = os.path.split(os.path.abspath(options.doc))
    lines: list[Line] = []
    left, _ = asked(program, folder, base)
    document = names_of(options.doc)
    warned: list[str] = []
    if left and document and left[0] in document[1] and left[2] in WHAT_TO_DO:
        with tempfile.TemporaryDirectory(prefix="arcv-refusals-") as copy:
            names = lay(folder, *document, copy)
            lines, left = list_refused(program, copy, names)
            warned = [] if left else warnings(os.path.join(copy, DOCUMENT))
            left = left and ({**names, DOCUMENT: options.doc}[left[0]], *left[1:])
    elif left and left[0] == base:
        left = (options.doc, *left[1:])
    elif not left:
        warned = warnings(options.doc)
    is_face = left is not None and left[2] == "link-face" and document is not None
    ends = [shown(text) for text in strange_ends(document[0], left[1], faces_of(folder, document[1]))] if is_face and left and document else []
    if options.json:
        rest = {"file": shown(left[0]), "number": left[1], "kind": left[2]} if left else None
        commands.put(commands.as_json({"lines": [asdict(line) for line in lines], "then": rest, "warnings": warned}))
    else:
        commands.put("\n".join([*(f"warning: {text}" for text in warned), *told(lines, left, ends)]) + "\n")
    return commands.NOT_SO if lines or left else commands.FINE
