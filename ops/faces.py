"""The interfaces of router files, as much as names and words need: addresses, what is shut down, which lists are
bound."""
import ipaddress
import os
from collections.abc import Iterator
from dataclasses import dataclass, field

from ops.commands import Wrong, load
from ops.documents import Document, network
from ops.lists import blocks_of, split


@dataclass
class Face:
    """An interface of a router file."""

    router: str
    name: str
    address: str = ""
    prefix: str = ""
    up: bool = True
    lists: dict[str, str] = field(default_factory=dict)  # "in", "out": the name of the list that is bound
    point_to_point: bool = False


@dataclass
class RouterFile:
    """The name and the interfaces of a router file, and whether its process is of OSPF."""

    path: str
    name: str
    faces: list[Face] = field(default_factory=list)
    is_ospf: bool = False


def _subnet(address: str, mask: str) -> str:
    try:
        return str(ipaddress.IPv4Interface(f"{address}/{mask}").network)
    except ValueError:
        return ""


def _set(face: Face, words: tuple[str, ...]) -> None:
    """What a line of an interface's block sets."""
    if words[:2] == ("ip", "address") and len(words) == 4:
        face.address, face.prefix = words[2], _subnet(words[2], words[3])
    elif words == ("no", "ip", "address"):
        face.prefix = ""
    elif words in (("shutdown",), ("no", "shutdown")):
        face.up = words[0] == "no"
    elif words[:2] == ("ip", "access-group") and len(words) == 4:
        face.lists[words[3]] = words[2]
    elif words[:3] == ("ip", "ospf", "network") and len(words) == 4:
        face.point_to_point = words[3] == "point-to-point"


def read_faces(path: str) -> RouterFile:
    """What is read of one router file."""
    file = RouterFile(path, os.path.basename(path))
    for block in blocks_of(split(load(path))):
        if block.begins("hostname") and len(block.head.words) > 1:
            file.name = block.head.words[1]
        file.is_ospf = file.is_ospf or block.begins("router", "ospf")
        if block.begins("interface") and len(block.head.words) > 1:
            face = Face("", block.head.words[1])
            file.faces.append(face)
            for line in block.lines:
                _set(face, line.words)
    for found in file.faces:
        found.router = file.name
    return file


@dataclass(frozen=True)
class HostNetwork:
    """A network of hosts, and where it lies."""

    router: str
    interface: str
    prefix: str
    loopback: bool = False


class Routers:
    """The routers of a document as far as their files tell; without any file they are those of its links."""

    def __init__(self, document: Document, folder: str, wanted: bool = True) -> None:
        self.document, self.files = document, []
        self.missing = ""
        for name in document.routers:
            try:
                self.files.append(read_faces(os.path.join(folder, name)))
            except Wrong as error:
                if wanted:
                    raise
                self.missing = self.missing or str(error)
        self.ends = {end for link in document.links for end in link.ends()}
        self._hosts: list[HostNetwork] | None = None
        self._owners: dict[str, HostNetwork | None] = {}

    def names(self) -> list[str]:
        found = [file.name for file in self.files]
        return found + sorted({router for router, _ in self.ends} - set(found))

    def hosts(self) -> list[HostNetwork]:
        """Every network of hosts: the subnet of an interface that is no link's end, of a loopback under OSPF its
        address."""
        if self._hosts is None:
            self._hosts = list(self._read_hosts())
        return self._hosts

    def _read_hosts(self) -> Iterator[HostNetwork]:
        for file in self.files:
            for face in file.faces:
                if not face.prefix or (file.name, face.name) in self.ends:
                    continue
                loopback = face.name.startswith("Loopback")
                prefix = face.prefix
                if loopback and file.is_ospf and not face.point_to_point:
                    prefix = face.address + "/32"
                yield HostNetwork(file.name, face.name, prefix, loopback)

    def owner(self, prefix: str) -> HostNetwork | None:
        """Where a prefix lies."""
        if prefix not in self._owners:
            inner = network(prefix)
            self._owners[prefix] = next((host for host in self.hosts() if inner.subnet_of(network(host.prefix))), None)
        return self._owners[prefix]

    def bound(self, router: str, interface: str, way: str) -> str:
        """The list that is bound at an interface, or nothing."""
        for file in self.files:
            for face in file.faces:
                if (file.name, face.name) == (router, interface):
                    return face.lists.get(way, "")
        return ""

    def along(self, start: str, links: list[int]) -> list[str]:
        """The routers on the way over these links; where they do not join on, as many as do."""
        way, at = [start], start
        for number in links:
            if not 1 <= number <= len(self.document.links):
                break
            (a, _), (b, _) = self.document.links[number - 1].ends()
            if at not in (a, b):
                break
            at = b if at == a else a
            way.append(at)
        return way
