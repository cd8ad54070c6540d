"""The router files of a document before and after a repair, and the files as the routers printed them."""
import argparse
import os
from collections.abc import Sequence
from dataclasses import dataclass
from typing import Protocol

from ops import captures, commands
from ops.commands import Wrong, load
from ops.documents import Document, folder_of, read_document
from ops.lists import numbered, split
from ops.reports import Edit, read_edits
from ops.trial import trial_of
from ops.wording import map_beside


class Mapping(Protocol):
    """How what a copy names is called on the router, and of which kind the copy is."""

    kind: str

    def interface(self, router: str, name: str) -> str: ...

    def list_name(self, router: str, name: str) -> str: ...


class Same:
    """Everything is called as in the copy."""

    kind = ""

    def interface(self, router: str, name: str) -> str:
        return name

    def list_name(self, router: str, name: str) -> str:
        return name


@dataclass
class Repaired:
    """A router file that a repair changes: its name in the document, before and after, and the original that it is a
    copy of."""

    name: str
    before: str
    after: str
    original: str
    mapping: Mapping


def add_arguments(words: argparse.ArgumentParser) -> None:
    """DOC, and EDITS or --copies; --originals; --arcv."""
    words.add_argument("doc", metavar="DOC", help="the document that was repaired; its router files lie in its folder")
    words.add_argument(
        "edits", metavar="EDITS", nargs="?", help="a certificate, what repair printed, or a list of edits"
    )
    words.add_argument("--copies", metavar="SUFFIX", help="take the files that repair or apply wrote with this suffix")
    words.add_argument("--join", action="store_true", help="new entries that together are one are written as one")
    words.add_argument("--originals", metavar="FOLDER", help="where the files lie as the routers printed them")
    commands.with_program(words)


def edits_of(options: argparse.Namespace) -> list[Edit]:
    """The edits that EDITS names; none with --copies."""
    if options.edits is None:
        return []
    if not hasattr(options, "found_edits"):
        try:
            options.found_edits = read_edits(load(options.edits)).edits
        except ValueError as error:
            raise Wrong(f"{options.edits}: {error}") from error
    return list(options.found_edits)


def applied(program: str, document: Document, doc: str, edits: Sequence[Edit]) -> dict[str, tuple[str, str]]:
    """The router files that edits change, before and after, as `arcv apply` writes them."""
    trial = trial_of(program, document, doc)
    written, refused = trial.apply(edits)
    if refused:
        raise Wrong(f"the edits cannot be made: {refused}")
    return {name: (trial.texts[name], text) for name, text in written.items()}


def _written(document: Document, folder: str, suffix: str) -> dict[str, tuple[str, str]]:
    found = {}
    for name in document.routers:
        path = os.path.join(folder, name)
        if os.path.exists(path + suffix):
            found[name] = (load(path), load(path + suffix))
    if not found:
        raise Wrong(f"no router file of the document has a copy with {suffix} behind its name")
    return found


def _originals(doc: str, folder: str | None) -> tuple[dict[str, str], str, Mapping]:
    """From names of copies to names of originals, where the originals lie, and what things are called there."""
    found = map_beside(doc)
    if found is None:
        return {}, folder if folder is not None else folder_of(doc), Same()
    return found.files, folder if folder is not None else os.path.join(folder_of(doc), "..", ".."), found


def original_text(path: str) -> str:
    """A file as the router printed it. Of what a terminal recorded it is the configuration alone, as the copies are
    of that."""
    text, capture = load(path), captures.read(path, path)
    raw = dict(numbered(split(text)))
    added = [line for line in capture.dropped if line.text.strip() and not line.text.startswith(captures.FRONT)]
    clean = [line.text.encode("latin-1", "replace").decode("utf-8", "surrogateescape") for line in capture.lines]
    if not added and clean == [raw.get(line.number) for line in capture.lines]:
        return text
    return "".join(line + "\n" for line in clean)


def total(doc: str, document: Document) -> int:
    """How many routers' files a document is of."""
    found = map_beside(doc)
    return len(set(found.files.values())) if found and found.files else len(document.routers)


def repaired(options: argparse.Namespace) -> list[Repaired]:
    """The router files that a repair changes, by the words of the command line."""
    if (options.edits is None) == (options.copies is None):
        raise Wrong("either EDITS or --copies SUFFIX has to be given")
    document, folder = read_document(options.doc), folder_of(options.doc)
    if options.copies:
        changed = _written(document, folder, options.copies)
    else:
        changed = applied(commands.program(options), document, options.doc, edits_of(options))
    files, place, mapping = _originals(options.doc, options.originals)
    found = []
    for name, (before, after) in changed.items():
        router = os.path.basename(name).removesuffix(".cfg")
        original = os.path.normpath(os.path.join(place, files.get(router, os.path.basename(name))))
        if options.originals is None and not files:
            original = os.path.normpath(os.path.join(folder, name))
        if files and router not in files:
            raise Wrong(
                f"{name} is the copy of no router's file, so what the repair changes there cannot be entered anywhere"
            )
        found.append(Repaired(name, before, after, min(original, os.path.relpath(original), key=len), mapping))
    return found
