"""The open copy: interfaces, addresses and packet lists alone, with OSPF everywhere. It answers `blocked` and `through`
whatever the routing does."""
import ipaddress
from collections.abc import Sequence
from dataclasses import dataclass, field

from ops import building, names, written
from ops.documents import Document, Link, Policy
from ops.links import Net, Segment, merged
from ops.routers import Face, Interface, Router
from ops.written import Change

POINT = " ip ospf network point-to-point"
OPEN_LIST = "arcv-permits-all"


@dataclass
class OpenCopy:
    """A copy: files by name, the document, the map, and what is not as it was, by file."""
    files: dict[str, str] = field(default_factory=dict)
    document: Document = field(default_factory=lambda: Document([], [], []))
    map: names.CopyMap = field(default_factory=names.CopyMap)
    changes: dict[str, list[Change]] = field(default_factory=dict)
    real: dict[str, str | None] = field(default_factory=dict)


class Opener:
    """Writes one open copy."""

    def __init__(self, routers: Sequence[Router], segments: Sequence[Segment], asked: Sequence[Net], packets: str,
                 waypoints: Sequence[str]) -> None:
        self.routers, self.segments, self.asked = routers, segments, asked
        self.packets, self.waypoints = packets, waypoints
        self.nodes: dict[str, building.Node] = {}
        self.joins: list[building.Join] = []
        self.copy = OpenCopy(map=names.CopyMap("open", packets))
        self.of = {router.name: router for router in routers}
        self.ends: dict[tuple[str, str], list[tuple[building.Port, Interface]]] = {}
        self.own_names: dict[tuple[str, str], str] = {}
        self.pool = building.Pool([net for segment in segments for net in segment.nets] + list(asked))
        self.hubs = 0

    def node(self, wanted: str, text: str, real: str | None) -> building.Node:
        """The router of the copy that stands for this, under that name or a free one."""
        if text not in self.nodes:
            taken = {node.name for node in self.nodes.values()} | set(self.of if real is None or text != real else ())
            name = wanted
            while name in taken:
                name += "-x"
            self.nodes[text] = building.Node(name)
            self.copy.map.routers[name], self.copy.map.real[name] = text, real
            if real is not None:
                self.copy.map.files[name] = self.of[real].file
        return self.nodes[text]

    def node_of(self, face: Face) -> building.Node:
        """The router of the copy that an interface belongs to: one for each table of routes."""
        table = self.of[face.router].table_of(face.vrf)
        if not table:
            return self.node(names.clean(face.router), face.router, face.router)
        return self.node(names.clean(f"{face.router}-vrf-{table}"), f"{face.router} (VRF {table})", face.router)

    def outside(self) -> building.Node:
        return self.node("outside", "outside", None)

    def bind(self, node: building.Node, port: building.Port, face: Face) -> None:
        """Binds the lists of an interface that stand and are read; an interface with labels has none."""
        router = self.of[face.router]
        for way, name in face.lists.items():
            found = router.lists.get(name)
            if found is None or not found.entries or face.has_labels:
                continue
            if not found.is_read:
                continue
            own = self.own_names.setdefault((node.name, name), self.own_name(node, name))
            if own not in node.lists:
                texts, changes = written.list_texts(found, self.packets, True)
                node.lists[own] = (found.is_standard, texts)
                self.copy.changes.setdefault(router.file, []).extend(changes)
                if not found.is_standard:
                    self.copy.map.lists[f"{node.name}:{own}"] = name
            port.lists[way] = own

    def own_name(self, node: building.Node, name: str) -> str:
        found = names.clean(name)
        while found == OPEN_LIST or found in node.lists:
            found = found[:60] + "-x"
        return found

    def open(self, node: building.Node, port: building.Port) -> None:
        """Binds a list there that permits all, so that a repair puts no entry there."""
        if "in" not in port.lists:
            node.lists[OPEN_LIST] = (True, [" permit any"])
            port.lists["in"] = OPEN_LIST

    def port(self, node: building.Node, face: Face, address: Interface, is_end: bool) -> building.Port:
        made = node.port(face.name, address, is_end)
        made.lines.append(POINT)
        self.bind(node, made, face)
        if made.name != face.name:
            self.copy.map.interfaces[f"{node.name}:{made.name}"] = face.name
        return made

    def join(self, a: building.Node, a_port: building.Port, b: building.Node, b_port: building.Port, text: str, marked: bool) -> None:
        self.joins.append(building.Join(a, a_port, b, b_port, text, marked))
        for node, mine, far in ((a, a_port, b_port), (b, b_port, a_port)):
            name = mine.lists.get("in")
            if name is not None and name != OPEN_LIST:
                self.ends.setdefault((node.name, name), []).append((mine, far.address))

    def is_marked(self, face: Face) -> bool:
        return face.router in self.waypoints or face.key() in self.waypoints

    def segment(self, segment: Segment) -> None:
        """Lays one segment: a host network, a link, or a router of its own with a link to each interface."""
        asked = [net for net in segment.nets if any(net.overlaps(prefix) for prefix in self.asked)]
        if len(segment.faces) == 1 and not segment.outside:
            face = segment.faces[0]
            if asked and len(segment.nets) == 1:
                self.port(self.node_of(face), face, face.addresses[0], False)
                return
            if not asked:
                return
        elif not asked and self.link(segment):
            return
        self.hub(segment, asked)

    def link(self, segment: Segment) -> bool:
        """Lays a segment of two ends as a link, where it is one."""
        if len(segment.nets) > 1 or len(segment.faces) + bool(segment.outside) != 2:
            return False
        face = segment.faces[0]
        first = self.node_of(face)
        if segment.outside:
            mine = face.addresses[0] if face.addresses else None
            far = far_of(mine) if mine else None
            if mine is None or far is None:
                return False
            port = self.port(first, face, mine, True)
            node = self.outside()
            other = node.port(f"Ethernet1/{len(node.ports)}", far, True)
            other.lines.append(POINT)
            self.open(node, other)
            self.join(first, port, node, other, f"{face.key()} - outside", self.is_marked(face))
            return True
        second = self.node_of(segment.faces[1])
        ends = [face.addresses[0] for face in segment.faces if len(face.addresses) == 1]
        if first is second or len(ends) != 2 or ends[0].ip == ends[1].ip or ends[0].network != ends[1].network:
            return False
        made = [self.port(node, face, end, True) for node, face, end in zip((first, second), segment.faces, ends)]
        if not made[0].lists and not made[1].lists:
            for node, port in zip((first, second), made):
                self.open(node, port)
        marked = any(self.is_marked(face) for face in segment.faces)
        self.join(first, made[0], second, made[1], " - ".join(face.key() for face in segment.faces), marked)
        return True

    def hub(self, segment: Segment, asked: Sequence[Net]) -> None:
        """Lays a segment as a router of its own."""
        self.hubs += 1
        hub = self.node(f"segment-{self.hubs}", f"the segment {segment.text()}", None)
        for face in segment.faces:
            node = self.node_of(face)
            mine, far = self.pool.pair()
            port = self.port(node, face, mine, True)
            other = hub.port(f"Ethernet1/{len(hub.ports)}", far, True)
            other.lines.append(POINT)
            self.open(hub, other)
            if not asked:
                self.open(node, port)
            self.join(node, port, hub, other, f"{face.key()} - the segment {segment.text()}", self.is_marked(face))
        if segment.outside:
            node = self.outside()
            mine, far = self.pool.pair()
            ends = []
            for owner, address in ((node, mine), (hub, far)):
                port = owner.port(f"Ethernet1/{len(owner.ports)}", address, True)
                port.lines.append(POINT)
                self.open(owner, port)
                ends.append(port)
            self.join(node, ends[0], hub, ends[1], f"outside - the segment {segment.text()}", False)
        for net in asked:
            self.host(hub, net)

    def host(self, node: building.Node, net: Net) -> None:
        """A host network at a router of the copy that is none of the files'."""
        port = node.port(f"Ethernet1/{len(node.ports)}", Interface((net.network_address + (1 if net.prefixlen < 31 else 0), net.prefixlen)), False)
        port.lines.append(POINT)
        self.open(node, port)

    def sessions(self) -> None:
        """Lets OSPF pass each list inbound on a link, from the far end to this one: packets that no policy speaks of."""
        by_name = {node.name: node for node in self.nodes.values()}
        for (name, own), ends in self.ends.items():
            is_standard, entries = by_name[name].lists[own]
            first = []
            for port, far in ends:
                if is_standard:
                    first.append(f" permit host {far.ip}")
                else:
                    first += [f" permit 89 host {far.ip} host {target}" for target in (port.address.ip, "224.0.0.5", "224.0.0.6")]
            by_name[name].lists[own] = (is_standard, first + entries)

    def write(self, policies: Sequence[Policy]) -> OpenCopy:
        """The copy with these policies, of which no prefix lies in more than one network."""
        for segment in self.segments:
            self.segment(segment)
        known = [net for segment in self.segments for net in segment.nets]
        for prefix in merged(self.asked):
            if not any(prefix.overlaps(net) for net in known):
                self.host(self.outside(), prefix)
        self.sessions()
        for node in self.nodes.values():
            node.process = ["router ospf 1", " network 0.0.0.0 255.255.255.255 area 0"]
            self.copy.files[f"{node.name}.cfg"] = node.text()
        links = [Link(f"{join.a.name}:{join.a_port.name}", f"{join.b.name}:{join.b_port.name}", join.is_waypoint) for join in self.joins]
        self.copy.document = Document(list(self.copy.files), links, list(policies))
        self.copy.map.links = [join.text for join in self.joins]
        return self.copy


def far_of(mine: Interface) -> Interface | None:
    """Another address of the network of this one, for a device that has no file."""
    if mine.network.prefixlen == 32:
        return None
    for address in mine.network.hosts():
        if address != mine.ip:
            return Interface((address, mine.network.prefixlen))
    return None


def open_copy(routers: Sequence[Router], segments: Sequence[Segment], policies: Sequence[Policy], packets: str = "all",
              waypoints: Sequence[str] = ()) -> OpenCopy:
    """The open copy of a network for these policies and packets."""
    asked = [ipaddress.IPv4Network(prefix) for policy in policies for prefix in (policy.source, policy.target)]
    return Opener(routers, segments, asked, packets, waypoints).write(policies)
