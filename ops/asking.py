"""Asks arcv of copies, and takes each answer back to the policy that it is of."""
import ipaddress
import os
import re
from collections.abc import Sequence
from dataclasses import dataclass, field

from ops import commands, names, reports, rules
from ops.documents import Document, document_text

MOST = 256
ADDRESS = re.compile(r"^ ip address (\S+) (\S+)$", re.M)
LIMIT = re.compile(r"refused \S+ 0 limit classes [0-9]+")


@dataclass
class Reply:
    """The answer of one copy to one part of a policy: the block of its report, or why there is none."""
    place: int
    copy: str
    kind: str
    block: reports.Block | None
    map: names.CopyMap
    document: Document
    folder: str
    why: str = ""
    yours: list[rules.Note] = field(default_factory=list)
    is_stronger: bool = False
    unlike: int = 0  # entries of its copy by which more packets pass an open one, or fewer an exact one
    rules: tuple[str, ...] = ()  # by which entries of its copy are not as on the routers

    def answer(self) -> str:
        """`yes`, `no`, `yours` for a yes that rests on what only the user knows, or `none` where there is no answer."""
        if self.block is None or self.block.answer == "refused":
            return "none"
        return "yours" if self.block.answer == "yes" and self.yours else self.block.answer


class Asker:
    """Writes copies into folders below one, and asks the program of them."""

    def __init__(self, program: str, folder: str) -> None:
        self.program, self.folder = program, folder
        self.taken: list[str] = []

    def name(self, wanted: str) -> str:
        """A name for the folder of a copy."""
        found, number = wanted, 1
        while found in self.taken:
            number += 1
            found = f"{wanted}-{number}"
        self.taken.append(found)
        return found

    def lay(self, name: str, files: dict[str, str], document: Document, said: names.CopyMap) -> str:
        path = os.path.join(self.folder, name)
        for file, text in files.items():
            commands.save(os.path.join(path, file), text, force=True)
        commands.save(os.path.join(path, "net.json"), document_text(document), force=True)
        commands.save(os.path.join(path, "map.json"), said.text(), force=True)
        return path

    def report(self, path: str) -> tuple[list[reports.Block], str]:
        """The blocks of the report on a copy, or what was said in its place."""
        said = commands.run_arcv(self.program, ["verify", "net.json"], path)
        if said.status not in (0, 1):
            return [], said.reason()
        commands.save(os.path.join(path, "report.txt"), said.out, force=True)
        try:
            return reports.read_report(said.out), ""
        except ValueError as error:
            raise commands.Wrong(f"{self.program} gave no report on {path}: {error}") from error


def halves(places: Sequence[int]) -> list[list[int]]:
    """The places in groups that a document may have."""
    return [list(places[begin : begin + MOST]) for begin in range(0, len(places), MOST)]


def is_too_much(why: str) -> bool:
    """Whether fewer policies may be asked about where these were too many."""
    return LIMIT.match(why) is not None


def closed_routers(block: reports.Block) -> set[str]:
    """The routers of a copy to which packets get, by the witness of a yes."""
    found: set[str] = set()
    for words in block.lines:
        if words[0] == "closed":
            found.update(word for word in words[3:] if not word.startswith("service:"))
    return found


def beside(routers: set[str], document: Document) -> set[str]:
    """These routers of a copy and those that a link joins to one of them."""
    found = set(routers)
    for link in document.links:
        (a, _), (b, _) = link.ends()
        if a in routers:
            found.add(b)
        if b in routers:
            found.add(a)
    return found


def owners(files: dict[str, str], prefix: str) -> set[str]:
    """The routers of a copy that have a network which holds a prefix."""
    wanted = ipaddress.IPv4Network(prefix)
    return {file.removesuffix(".cfg") for file, text in files.items() for address, mask in ADDRESS.findall(text)
            if wanted.subnet_of(ipaddress.IPv4Network(f"{address}/{mask}", strict=False))}
