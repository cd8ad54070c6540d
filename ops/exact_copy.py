"""The exact copy: routing as the files have it, with lists by which no more packets pass. It answers `reach`."""
from collections.abc import Sequence
from dataclasses import dataclass, field

from ops import adjacency, building, names, sessions, written
from ops.documents import Document, Link, Policy
from ops.exact import Exact, Meeting
from ops.processes import Bgp, Ospf
from ops.routers import Face, Interface
from ops.written import Change

SPEEDS = {"Vlan": 1_000_000, "Port-channel": 1_000_000, "GigabitEthernet": 1_000_000, "TenGigabitEthernet": 10_000_000,
          "FastEthernet": 100_000, "Ethernet": 10_000, "TwentyFiveGigE": 25_000_000, "FortyGigabitEthernet": 40_000_000,
          "HundredGigE": 100_000_000, "Tunnel": 100, "Serial": 1544, "Multilink": 1544}


@dataclass(frozen=True)
class Want:
    """A part of a policy: its place among the policies, and the interfaces of its two networks that one copy has."""
    place: int
    policy: Policy
    source: Face
    target: Face
    is_stronger: bool = False        # asked with more failures than the policy, since links share ports


@dataclass
class ExactCopy:
    """A copy: files by name, the document, the map, and what is not as it was, by file."""
    files: dict[str, str] = field(default_factory=dict)
    document: Document = field(default_factory=lambda: Document([], [], []))
    map: names.CopyMap = field(default_factory=names.CopyMap)
    changes: dict[str, list[Change]] = field(default_factory=dict)


def default_cost(face: Face, reference: str) -> int:
    """The cost that OSPF gives an interface of this kind."""
    kind = next((kind for kind in sorted(SPEEDS, key=len, reverse=True) if face.name.startswith(kind)), "")
    speed = SPEEDS.get(kind, 100_000)
    return min(65535, max(1, int(reference or "100") * 1000 // speed))


class Builder:
    """Writes one exact copy of a network with OSPF or BGP."""

    def __init__(self, exact: Exact, wants: Sequence[Want], packets: str, wider: bool = False) -> None:
        self.exact, self.packets, self.wider = exact, packets, wider
        self.wants = wants
        self.copy = ExactCopy(map=names.CopyMap("exact", packets))
        self.nodes: dict[str, building.Node] = {}
        self.joins: list[building.Join] = []
        taken = [net for segment in exact.segments for net in segment.nets]
        self.pool = building.Pool(taken)
        self.firsts: dict[tuple[str, str], list[str]] = {}

    def node(self, name: str) -> building.Node:
        if name not in self.nodes:
            self.nodes[name] = building.Node(names.clean(name))
            self.copy.map.routers[names.clean(name)] = self.copy.map.real[names.clean(name)] = name
            self.copy.map.files[names.clean(name)] = self.exact.routers[name].file
        return self.nodes[name]

    def port(self, face: Face, address: Interface, is_end: bool) -> building.Port:
        """An interface on the copy, with its lists."""
        node, router = self.node(face.router), self.exact.routers[face.router]
        made = node.port(face.name, address, is_end)
        if made.name != face.name:
            self.copy.map.interfaces[f"{node.name}:{made.name}"] = face.name
        for way, name in face.lists.items():
            found = router.lists.get(name)
            if found is None or not found.entries or not found.is_read:
                continue
            own = names.clean(name)
            if own not in node.lists:
                texts, changes = written.list_texts(found, self.packets, self.wider)
                node.lists[own] = (found.is_standard, texts)
                self.copy.changes.setdefault(router.file, []).extend(changes)
                self.copy.map.lists[f"{node.name}:{own}"] = name
            made.lists[way] = own
        return made

    def let_pass(self, face: Face, port: building.Port, own: Interface, far: Interface) -> None:
        """Puts entries first by which the routing protocol's own packets pass, from the far end of a link to this one."""
        node = self.node(face.router)
        name = port.lists.get("in")
        if name is None:
            return
        if node.lists[name][0]:
            first = [f" permit host {far.ip}"]
        elif self.exact.kind == "ospf":
            first = [f" permit 89 host {far.ip} host {target}" for target in (own.ip, "224.0.0.5", "224.0.0.6")]
        else:
            first = [f" permit tcp host {far.ip} host {own.ip}"]
        self.firsts.setdefault((face.router, name), []).extend(first)

    def ospf_lines(self, face: Face, port: building.Port, process: Ospf) -> None:
        """The lines of OSPF at an interface."""
        kept = [line for line in face.lines if line.words[:3] == ("ip", "ospf", "cost") or line.words[0] == "bandwidth" and len(line.words) == 2
                and line.words[1].isdigit()]
        port.lines += [line.text.rstrip() for line in kept]
        if not kept and port.name != face.name:
            port.lines.append(f" ip ospf cost {default_cost(face, process.reference)}")
        port.lines.append(f" ip ospf network {adjacency.network_type(face)}")
        port.lines.append(f" ip ospf 1 area {process.area(face) or self.exact.area}")

    def link(self, a: tuple[building.Node, building.Port], b: tuple[building.Node, building.Port], text: str) -> None:
        self.joins.append(building.Join(*a, *b, text))

    def meeting(self, meeting: Meeting, number: int) -> None:
        """Lays interfaces that meet: a link of two, or a router with a link to each."""
        if len(meeting.faces) == 2:
            a, b = meeting.faces
            ends = [(face, self.port(face, face.addresses[0], True)) for face in (a, b)]
            for (face, port), (far, _) in zip(ends, reversed(ends)):
                self.let_pass(face, port, face.addresses[0], far.addresses[0])
                process = self.exact.process(face)
                if isinstance(process, Ospf):
                    self.ospf_lines(face, port, process)
            if meeting.session is not None:
                self.session(meeting.session)
            self.link((self.node(a.router), ends[0][1]), (self.node(b.router), ends[1][1]), f"{a.key()} - {b.key()}")
            return
        text = f"the segment {meeting.segment.text()}"
        hub = self.nodes.setdefault(text, building.Node(f"segment-{number}"))
        self.copy.map.routers[hub.name], self.copy.map.real[hub.name] = text, None
        for face in meeting.faces:
            mine, far = self.pool.pair()
            port, other = self.port(face, mine, True), hub.port(f"Ethernet1/{len(hub.ports)}", far, True)
            self.let_pass(face, port, mine, far)
            process = self.exact.process(face)
            assert isinstance(process, Ospf)
            self.ospf_lines(face, port, process)
            other.lines += [f" ip ospf network {adjacency.network_type(face)}", " ip ospf cost 1", f" ip ospf 1 area {process.area(face)}"]
            self.link((self.node(face.router), port), (hub, other), f"{face.key()} - {text}")

    def session(self, session: sessions.Session) -> None:
        """The lines of a session at both ends; a list for routes out stands at the far end, for routes in."""
        targets = sorted({want.target.addresses[0].network for want in self.wants})
        for end, far in ((0, 1), (1, 0)):
            node, address = self.node(session.faces[end].router), session.faces[far].addresses[0].ip
            node.process.append(f" neighbor {address} remote-as {session.processes[far].number}")
            name, entries = session.taken(end, targets)
            if entries:
                own = names.clean(f"{name}-{address}")
                node.prefix_lists[own] = [f"seq {5 * place} {entry}" for place, entry in enumerate(entries, 1)]
                self.copy.map.lists[f"{node.name}:{own}"] = name
                node.process.append(f" neighbor {address} prefix-list {own} in")

    def host(self, face: Face) -> None:
        """A network of hosts at an interface, told as the files tell it."""
        port = self.port(face, face.addresses[0], False)
        process = self.exact.process(face)
        node = self.node(face.router)
        if isinstance(process, Ospf):
            if self.exact.told(face):
                self.ospf_lines(face, port, process)
                node.process.append(f" passive-interface {port.name}")
        elif self.exact.told(face):
            net = face.addresses[0].network
            node.process.append(f" network {net.network_address} mask {net.netmask}")

    def write(self) -> ExactCopy:
        """The copy with the parts of policies that it is for."""
        for number, meeting in enumerate(self.exact.meetings, 1):
            self.meeting(meeting, number)
        for face in {id(face): face for want in self.wants for face in (want.source, want.target)}.values():
            self.host(face)
        for (name, own), first in self.firsts.items():
            is_standard, entries = self.nodes[name].lists[own]
            self.nodes[name].lists[own] = (is_standard, first + entries)
        for name, node in self.nodes.items():
            process = self.exact.processes.get(name)
            if isinstance(process, Bgp):
                node.process = [f"router bgp {process.number}", *node.process]
            else:
                head = ["router ospf 1"]
                if isinstance(process, Ospf) and process.reference:
                    head.append(f" auto-cost reference-bandwidth {process.reference}")
                node.process = head + node.process
            self.copy.files[f"{node.name}.cfg"] = node.text()
        links = [Link(f"{join.a.name}:{join.a_port.name}", f"{join.b.name}:{join.b_port.name}") for join in self.joins]
        self.copy.document = Document(list(self.copy.files), links, [want.policy for want in self.wants])
        self.copy.map.links = [join.text for join in self.joins]
        return self.copy
