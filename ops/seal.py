"""seal: checksums of a report and of all that it speaks of, in one text."""
import argparse
import hashlib
import os
import re
import shutil
import subprocess
from collections.abc import Sequence
from dataclasses import dataclass

from ops import commands
from ops.commands import TOP, Wrong, counted, load
from ops.documents import folder_of, read_document
from ops.wording import names_file

ROW = re.compile(r"([0-9a-f]{64})  (.+)")
HEAD = "# arcv-seal 1"


@dataclass(frozen=True)
class Sealed:
    """A file under a seal: what it is, its name, its checksum."""

    what: str
    name: str
    sum: str


def checksum(path: str) -> str:
    """The SHA-256 of a file."""
    try:
        with open(path, "rb") as file:
            found = hashlib.sha256()
            while piece := file.read(1 << 20):
                found.update(piece)
            return found.hexdigest()
    except OSError as error:
        raise Wrong(f"{path} cannot be read: {error.strerror}") from error


def program_of(options: argparse.Namespace) -> str:
    """The program itself: of bin/arcv what it has built."""
    built, mine = os.path.join(TOP, ".built", "arcv"), os.path.join(TOP, "bin", "arcv")
    if os.path.abspath(options.arcv or os.environ.get("ARCV") or mine) != mine:
        return commands.program(options)
    if not os.path.exists(built):
        raise Wrong("no program is built yet: call bin/arcv once, or name one by --arcv")
    return built


def _said(words: Sequence[str]) -> str:
    """The first line that a command prints, or nothing."""
    if not shutil.which(words[0]):
        return ""
    run = subprocess.run(words, capture_output=True, stdin=subprocess.DEVNULL, check=False)
    lines = run.stdout.decode("utf-8", "replace").strip().split("\n")
    return lines[0] if run.returncode == 0 else ""


def sealed(options: argparse.Namespace, folder: str) -> list[Sealed]:
    """The files under the seal, by their names from the folder in which it lies."""
    document = read_document(options.doc)
    files = [("document", options.doc)]
    files += [("router file", os.path.join(folder_of(options.doc), name)) for name in document.routers]
    files += [("report", path) for path in options.reports]
    files += [
        ("names", path)
        for path in (names_file(options.doc), os.path.join(os.path.dirname(options.doc), "map.json"))
        if os.path.exists(path)
    ]
    files.append(("program", program_of(options)))
    found: dict[str, Sealed] = {}
    for what, path in files:
        name = os.path.relpath(path, folder) if what != "program" else os.path.abspath(path)
        if "\n" in name or "\\" in name:
            raise Wrong(f"a seal cannot hold the name {name!r}")
        found.setdefault(name, Sealed(what, name, checksum(path)))
    return list(found.values())


def seal_text(options: argparse.Namespace, rows: Sequence[Sealed]) -> str:
    """The text: remarks, and rows that `sha256sum --check` reads."""
    lines = [HEAD, "# `bin/seal --check SEAL`, or `sha256sum --check SEAL`, in the folder of this text"]
    is_built_here = program_of(options).startswith(TOP + os.sep)
    for word, command in (("sources", [os.path.join(TOP, "bin", "sources")]), ("kit", ["rt", "version"])) if is_built_here else ():
        if said := _said(command):
            lines.append(f"# {word}: {said}")
    for what in dict.fromkeys(row.what for row in rows):
        lines.append(f"# {what}")
        lines += [f"{row.sum}  {row.name}" for row in rows if row.what == what]
    return "\n".join(lines) + "\n"


def read_seal(text: str, path: str) -> list[Sealed]:
    """The rows of a seal; `Wrong` where it is none."""
    lines = text.split("\n")
    if lines[0] != HEAD:
        raise Wrong(f"{path} is no seal: its first line is not `{HEAD}`")
    what, found = "file", []
    for number, line in enumerate(lines[1:], 2):
        row = ROW.fullmatch(line)
        if row:
            found.append(Sealed(what, row[2], row[1]))
        elif line.startswith("# "):
            what = line[2:]
        elif line:
            raise Wrong(f"{path}: line {number} is no line of a seal")
    if not found:
        raise Wrong(f"{path} seals nothing")
    return found


def compared(rows: Sequence[Sealed], folder: str) -> list[tuple[Sealed, str]]:
    """Each file under a seal, and what is to be said of it: as sealed, changed, missing."""
    found = []
    for row in rows:
        path = os.path.join(folder, row.name)
        if not os.path.exists(path):
            found.append((row, "missing"))
        else:
            found.append((row, "as sealed" if checksum(path) == row.sum else "changed"))
    return found


def arguments() -> argparse.ArgumentParser:
    words = commands.parser(
        "seal",
        "Prints checksums (SHA-256) of a document, its router files, its reports or certificates, and the program, "
        "as one text to lie beside a report. It names the sources and the kit too, where the program was built here. "
        "With --check it compares the files with such a text.",
        "nothing, or the file of --out.",
        """
        bin/seal net.json report.txt --out report.seal
        bin/seal --check report.seal
        """,
    )
    words.add_argument("doc", metavar="DOC", nargs="?", help="the document; its router files lie in its folder")
    words.add_argument("reports", metavar="REPORT", nargs="*", help="reports and certificates")
    words.add_argument("--check", metavar="SEAL", help="compare with this text; names are looked up in its folder")
    words.add_argument("--out", metavar="FILE", help="write there and not to standard output")
    commands.with_program(words)
    commands.with_json(words)
    commands.with_force(words)
    return words


def main(words: list[str]) -> int:
    options = arguments().parse_args(words)
    if options.check:
        if options.doc or options.out:
            raise Wrong("--check SEAL takes no other word but --json")
        rows = compared(read_seal(load(options.check), options.check), os.path.dirname(os.path.abspath(options.check)))
        wrong = [row for row in rows if row[1] != "as sealed"]
        if options.json:
            commands.put(commands.as_json([{"what": row.what, "name": row.name, "is": said} for row, said in rows]))
        else:
            lines = [f"{row.name}: {said}" for row, said in wrong] + [
                f"{len(rows) - len(wrong)} of {counted(len(rows), 'file')} as sealed"
            ]
            commands.put("\n".join(lines) + "\n")
        return commands.NOT_SO if wrong else commands.FINE
    if not options.doc or not options.reports:
        raise Wrong("DOC and a REPORT have to be given, or --check SEAL")
    rows = sealed(options, os.path.dirname(os.path.abspath(options.out)) if options.out else os.getcwd())
    text = commands.as_json(
        [{"what": row.what, "name": row.name, "sha256": row.sum} for row in rows]
    ) if options.json else seal_text(options, rows)
    if options.out:
        commands.save(options.out, text, options.force)
    else:
        commands.put(text)
    return commands.FINE
