"""A network as the benchmarks need it, and its files: the document and a configuration for each router."""
import json
from dataclasses import dataclass, field
from pathlib import Path
from typing import Iterator

HOSTS, LINKS = 0x0A000000, 0x0A800000  # where the host networks (/24) and the subnets of links (/30) are numbered from


@dataclass(frozen=True, order=True)
class Prefix:
    """The addresses whose first `length` bits are those of `address`."""

    address: int
    length: int

    def __str__(self) -> str:
        return f"{dotted(self.address)}/{self.length}"

    def holds(self, other: "Prefix") -> bool:
        return self.length <= other.length and (self.address ^ other.address) >> (32 - self.length) == 0

    def halves(self) -> tuple["Prefix", "Prefix"]:
        return Prefix(self.address, self.length + 1), Prefix(self.address + (1 << (31 - self.length)), self.length + 1)

    def words(self) -> str:
        """As an entry of an access list has it."""
        return "any" if self.length == 0 else f"{dotted(self.address)} {dotted((1 << (32 - self.length)) - 1)}"


ANY = Prefix(0, 0)


@dataclass(frozen=True)
class Entry:
    """An entry of an access list, by source and destination."""

    permits: bool
    source: Prefix
    target: Prefix


PERMIT_ALL = Entry(True, ANY, ANY)


@dataclass(frozen=True)
class RouteEntry:
    """An entry of a prefix list: the prefix alone, or with `longer` all that lie in it."""

    permits: bool
    prefix: Prefix
    longer: bool = False


@dataclass
class Face:
    """An interface. Under OSPF `is_off` makes it passive, under eBGP it shuts its neighbour down."""

    name: str
    address: int
    length: int
    host: bool
    inbound: str | None = None
    outbound: str | None = None
    filter: str | None = None
    is_off: bool = False

    @property
    def subnet(self) -> Prefix:
        return Prefix(self.address >> (32 - self.length) << (32 - self.length), self.length)


@dataclass
class Router:
    name: str
    faces: list[Face] = field(default_factory=list)
    lists: dict[str, list[Entry]] = field(default_factory=dict)
    filters: dict[str, list[RouteEntry]] = field(default_factory=dict)


End = tuple[int, int]  # a router and one of its interfaces, by their places


@dataclass(frozen=True)
class Link:
    a: End
    b: End
    is_waypoint: bool = False


@dataclass(frozen=True)
class Policy:
    kind: str
    source: Prefix
    target: Prefix
    failures: int | None = None


@dataclass
class Network:
    bgp: bool = False
    routers: list[Router] = field(default_factory=list)
    links: list[Link] = field(default_factory=list)
    policies: list[Policy] = field(default_factory=list)
    hosts: list[End] = field(default_factory=list)

    def add_router(self, name: str = "") -> int:
        self.routers.append(Router(name or f"r{len(self.routers) + 1}"))
        return len(self.routers) - 1

    def _add_face(self, router: int, address: int, length: int, host: bool) -> End:
        faces = self.routers[router].faces
        faces.append(Face(f"GigabitEthernet0/{len(faces)}", address, length, host))
        return router, len(faces) - 1

    def add_host(self, router: int) -> Prefix:
        """A host network of its own at the router."""
        self.hosts.append(self._add_face(router, HOSTS + (len(self.hosts) << 8) + 1, 24, True))
        return self.face(self.hosts[-1]).subnet

    def join(self, a: int, b: int, is_waypoint: bool = False) -> int:
        """A link between two routers, and its place."""
        first = LINKS + 4 * len(self.links)
        self.links.append(Link(self._add_face(a, first + 1, 30, False), self._add_face(b, first + 2, 30, False), is_waypoint))
        return len(self.links) - 1

    def join_all(self, router: int, others: list[int]) -> None:
        """A link from the router to each of the others."""
        for other in others:
            self.join(router, other)

    def face(self, end: End) -> Face:
        return self.routers[end[0]].faces[end[1]]

    def ask(self, kind: str, source: Prefix, target: Prefix, failures: int | None = None) -> None:
        self.policies.append(Policy(kind, source, target, failures if kind == "reach" else None))

    def host_at(self, prefix: Prefix) -> End:
        """The interface whose host network holds the prefix."""
        return next(end for end in self.hosts if self.face(end).subnet.holds(prefix))

    def neighbours(self, router: int) -> Iterator[tuple[Face, int, Face]]:
        """The router's own interface, the far router and its interface, link by link."""
        for link in self.links:
            for end, far in ((link.a, link.b), (link.b, link.a)):
                if end[0] == router:
                    yield self.face(end), far[0], self.face(far)


# ---- files


def dotted(number: int) -> str:
    return ".".join(str(number >> shift & 255) for shift in (24, 16, 8, 0))


def mask(length: int) -> str:
    return dotted((1 << 32) - (1 << (32 - length)))


def word(permits: bool) -> str:
    return "permit" if permits else "deny"


def face_lines(face: Face) -> Iterator[str]:
    yield f"interface {face.name}"
    yield f" ip address {dotted(face.address)} {mask(face.length)}"
    if face.inbound:
        yield f" ip access-group {face.inbound} in"
    if face.outbound:
        yield f" ip access-group {face.outbound} out"
    yield "!"


def list_lines(router: Router) -> Iterator[str]:
    for name, entries in router.lists.items():
        yield f"ip access-list extended {name}"
        yield from (f" {word(entry.permits)} ip {entry.source.words()} {entry.target.words()}" for entry in entries)
        yield "!"
    for name, routes in router.filters.items():
        for entry in routes:
            yield f"ip prefix-list {name} {word(entry.permits)} {entry.prefix}" + " le 32" * entry.longer


def ospf_lines(router: Router) -> Iterator[str]:
    yield "router ospf 1"
    yield from (f" passive-interface {face.name}" for face in router.faces if face.is_off)
    yield " network 0.0.0.0 255.255.255.255 area 0"


def bgp_lines(network: Network, place: int) -> Iterator[str]:
    yield f"router bgp {1001 + place}"
    for face, far, other in network.neighbours(place):
        yield f" neighbor {dotted(other.address)} remote-as {1001 + far}"
        if face.is_off:
            yield f" neighbor {dotted(other.address)} shutdown"
        if face.filter:
            yield f" neighbor {dotted(other.address)} prefix-list {face.filter} in"
    for face in network.routers[place].faces:
        if face.host:
            yield f" network {dotted(face.subnet.address)} mask {mask(face.length)}"


def router_text(network: Network, place: int) -> str:
    router = network.routers[place]
    lines = [f"hostname {router.name}", "!"]
    for face in router.faces:
        lines += face_lines(face)
    lines += list_lines(router)
    lines += bgp_lines(network, place) if network.bgp else ospf_lines(router)
    return "\n".join([*lines, "!", "end", ""])


def document(network: Network) -> str:
    def end(place: End) -> str:
        return f"{network.routers[place[0]].name}:{network.face(place).name}"

    links: list[dict[str, str | bool]] = [{"a": end(link.a), "b": end(link.b)} for link in network.links]
    for link, text in zip(network.links, links):
        text |= {"waypoint": True} if link.is_waypoint else {}
    policies: list[dict[str, str | int]] = [{"kind": it.kind, "from": str(it.source), "to": str(it.target)} for it in network.policies]
    for policy, asked in zip(network.policies, policies):
        asked |= {} if policy.failures is None else {"failures": policy.failures}
    names = [f"{router.name}.cfg" for router in network.routers]
    return json.dumps({"version": 1, "routers": names, "links": links, "policies": policies}, indent=1) + "\n"


def lay(network: Network, folder: Path) -> None:
    """Writes the network's files into the folder, the document as net.json."""
    for place, router in enumerate(network.routers):
        (folder / f"{router.name}.cfg").write_text(router_text(network, place))
    (folder / "net.json").write_text(document(network))
