"""What the files say of routing, as far as arcv models it, and what stands in the way of an answer on `reach`."""
from collections.abc import Sequence
from dataclasses import dataclass

from ops import adjacency, rules, sessions
from ops.links import Net, Segment
from ops.processes import Bgp, Ospf, Peer, against, bgp, ospf
from ops.routers import Face, Router

@dataclass
class Meeting:
    """Interfaces over which a routing protocol speaks: two of them are a link, more are joined by a router of the copy's."""
    faces: list[Face]
    segment: Segment | None
    session: sessions.Session | None = None


def structural(text: str, cost: str = "routes") -> rules.Note:
    """What stands in the way and is no single line."""
    return rules.Note("", 0, "", "", cost, text)


class Exact:
    """What the files say of routing, as far as arcv models it, and what stands in the way of an answer."""

    def __init__(self, routers: Sequence[Router], segments: Sequence[Segment], table: rules.Table) -> None:
        self.routers, self.segments = {router.name: router for router in routers}, segments
        self.notes: list[rules.Note] = []
        self.processes: dict[str, Ospf | Bgp] = {}
        self.meetings: list[Meeting] = []
        self.down: list[str] = []
        self.others: dict[Net, list[rules.Note]] = {}
        self.missing: list[tuple[Bgp, Peer]] = []
        self.area = "0"
        self.kind = self.kind_of(routers)
        for router in routers:
            for block in router.processes:
                if block.head.words[1] == self.kind and router.name not in self.processes:
                    self.processes[router.name] = (ospf if self.kind == "ospf" else bgp)(router, block, table)
        self.judge(routers)

    def kind_of(self, routers: Sequence[Router]) -> str:
        """The protocol of the network, `ospf` or `bgp`; notes where routers have several."""
        kinds = [block.head.words[1] for router in routers for block in router.processes]
        kind = "ospf" if "ospf" in kinds else "bgp" if kinds else ""
        if not kind:
            self.notes.append(structural("no file has a process of OSPF or BGP"))
        for router in routers:
            mine = [" ".join(block.head.words) for block in router.processes]
            if len(mine) > 1:
                self.notes.append(structural(f"{router.name} has {' and '.join(mine)}: one process a router is modelled"))
            elif mine and not mine[0].startswith(f"router {kind}"):
                self.notes.append(structural(f"{router.name} has {mine[0]}, others have {kind.upper()}"))
        return kind

    def judge(self, routers: Sequence[Router]) -> None:
        """Notes what the lines of routers and their processes cost."""
        for name, process in self.processes.items():
            router = self.routers[name]
            self.notes += [note for note in router.notes if "reach" in note.loses() and not note.text.startswith("system mtu")]
            self.notes += [note for note in process.notes if "reach" in note.loses() and note.cost != "adjacency"]
            if router.leaks:
                self.notes.append(structural(f"routes of {name} go over from one VRF to another"))
        ids = [router_id(process) for process in self.processes.values()]
        for double in sorted({value for value in ids if value and ids.count(value) > 1}):
            self.notes.append(structural(f"two routers have the id {double}"))
        if self.kind == "ospf":
            self.judge_ospf()

    def judge_ospf(self) -> None:
        """Notes what processes of OSPF have that is not modelled, or not at all routers."""
        lines = {name: {note.text for note in process.notes if note.cost == "adjacency" and not note.text.startswith(("area", "bfd"))}
                 for name, process in self.processes.items()}
        if len({frozenset(texts) for texts in lines.values()}) > 1:
            self.notes.append(structural("lines of routing processes that keep adjacencies down differ between routers", "adjacency"))
        for process in self.processes.values():
            numbers = {line.words[2] for face in process.router.faces if not face.vrf for line in face.lines
                       if line.words[:2] == ("ip", "ospf") and line.words[3:4] == ("area",)}
            if numbers - {process.number}:
                self.notes.append(structural(f"{process.router.name} has a process of OSPF for interfaces that is not router ospf {process.number}"))
        areas = {process.area(face) for process in self.processes.values() if isinstance(process, Ospf)
                 for face in process.router.faces if face.is_up()} - {""}
        self.area = min(areas, default="0")
        if len(areas) > 1:
            self.notes.append(structural(f"OSPF has the areas {', '.join(sorted(areas))}: one is modelled"))

    def process(self, face: Face) -> Ospf | Bgp | None:
        return self.processes.get(face.router)

    def global_faces(self, segment: Segment) -> list[Face]:
        return [face for face in segment.faces if not face.vrf and face.router in self.processes]

    def speakers(self, segment: Segment) -> list[Face]:
        """The interfaces of a segment over which OSPF makes adjacencies."""
        return [face for face in self.global_faces(segment) if isinstance(process := self.process(face), Ospf) and process.speaks(face)]

    def meet(self, hosts: Sequence[Segment]) -> None:
        """Finds which interfaces make adjacencies; `hosts` are the segments of networks that policies name."""
        if self.kind == "bgp":
            self.meet_bgp(hosts)
            return
        for segment in self.segments:
            faces = self.speakers(segment)
            if not faces or all(face.name.startswith("Loopback") for face in faces):
                continue
            where = ", ".join(face.key() for face in faces)
            if not all(face.addresses for face in faces):
                self.notes.append(structural(f"OSPF speaks at {where}, whose address is another's"))
                continue
            if segment.outside:
                self.notes.append(structural(f"OSPF speaks at {where}, and {segment.outside[0]}: routes of its router are not known"))
            if len(faces) == 1:
                if not segment.outside:
                    self.notes.append(structural(f"OSPF speaks at {where}, where no other file has a router; if one is there, its file is missing", "adjacency"))
                continue
            if len({face.router for face in faces}) < len(faces) or len({face.addresses[0].network for face in faces}) > 1:
                self.notes.append(structural(f"{where} meet, and are of one router or of different networks"))
            elif any(segment is host for host in hosts):
                if any(face.lists for face in faces):
                    self.notes.append(structural(f"OSPF speaks between {where}, in a network of hosts with lists bound"))
            else:
                self.pair(faces, segment)

    def meet_bgp(self, hosts: Sequence[Segment]) -> None:
        """Finds the sessions of BGP that come up."""
        processes = {name: process for name, process in self.processes.items() if isinstance(process, Bgp)}
        numbers = [process.number for process in processes.values()]
        if len(set(numbers)) < len(numbers):
            self.notes.append(structural("two routers have one AS"))
        found, self.missing, wrong = sessions.find(processes, self.segments)
        self.notes += [structural(text) for text in wrong]
        most = sessions.most_routes(list(processes.values()))
        for session in found:
            judged = sessions.judged(session)
            if session.lost():
                self.notes.append(structural(session.lost()))
            segment = next(segment for segment in self.segments if session.faces[0] in segment.faces)
            if any(segment is host for host in hosts):
                self.notes.append(structural(f"a session of BGP goes over {segment.text()}, which a policy names"))
            if judged.answer == "down":
                self.down.append(judged.reason)
                continue
            if judged.answer == "yours":
                self.notes.append(structural(judged.reason, "adjacency"))
            if not sessions.few(session, most) or (self.missing and any(sessions.kept(peer, "maximum-prefix") for peer in session.peers)):
                self.notes.append(structural(f"`maximum-prefix` between {session.faces[0].key()} and {session.faces[1].key()}", "adjacency"))
            self.meetings.append(Meeting(list(session.faces), None, session))

    def pair(self, faces: list[Face], segment: Segment) -> None:
        """Judges each two of the interfaces that meet in a segment."""
        up = True
        for place, a in enumerate(faces):
            for b in faces[place + 1:]:
                found = self.adjacent(a, b)
                if found.answer in ("yours", "unknown"):
                    self.notes.append(structural(found.reason, "adjacency" if found.answer == "yours" else "routes"))
                elif found.answer == "down":
                    up = False
                    if len(faces) == 2:
                        self.down.append(found.reason)
                    else:
                        self.notes.append(structural(f"{found.reason}, in a segment of more than two routers"))
        if up:
            self.meetings.append(Meeting(faces, segment))

    def adjacent(self, a: Face, b: Face) -> adjacency.Judged:
        """Whether OSPF makes an adjacency of two interfaces."""
        pa, pb = self.process(a), self.process(b)
        assert isinstance(pa, Ospf) and isinstance(pb, Ospf)
        for router, face, far in ((pa.router, a, b), (pb.router, b, a)):
            passes = adjacency.ospf_passes(router, face, face.addresses[0], far.addresses[0])
            if passes is not True:
                answer = "yours" if passes is None else "down"
                return adjacency.Judged(answer, f"the list inbound at {face.key()} stops OSPF" if passes is False else f"whether the list inbound at {face.key()} lets OSPF pass is not known")
        return adjacency.ospf(a, b, pa, pb)

    def gateways(self, net: Net) -> list[Face]:
        """The interfaces of routers with a process that have this network as their first one."""
        return [face for segment in self.segments for face in self.global_faces(segment)
                if face.addresses and face.addresses[0].network == net]

    def others_in(self, net: Net) -> list[rules.Note]:
        """Interfaces in a network that count as no gateways of it: of another mask or VRF, or of a router without a process."""
        if net in self.others:
            return self.others[net]
        gateways = self.gateways(net)
        found = [face for segment in self.segments if any(own.overlaps(net) for own in segment.nets) for face in segment.faces]
        why = f"is in {net} too, by another mask or VRF, as a second network, or without a process of {self.kind.upper()}"
        self.others[net] = [structural(f"{face.key()} {why}") for face in found
                            if not any(face is other for other in gateways) and not self.is_host(face)]
        return self.others[net]

    def is_host(self, face: Face) -> bool:
        """Whether a device only has an address there, and forwards nothing."""
        return any(note.text == "no ip routing" for note in self.routers[face.router].notes)

    def over_ports(self) -> dict[tuple[str, str], int]:
        """How many links go over each port of each router, where that are several; over trunks, nobody knows which."""
        counts: dict[tuple[str, str], int] = {}
        for meeting in self.meetings:
            for face in meeting.faces:
                port = "the trunks" if face.name.startswith(("Vlan", "BVI", "BDI")) else face.name.split(".")[0]
                counts[face.router, port] = counts.get((face.router, port), 0) + 1
        return {place: count for place, count in counts.items() if count > 1}

    def shared(self) -> list[rules.Note]:
        """That several links may fail together, while a policy counts links."""
        return [structural(f"{count} links go over {port} of {router}: as one port they fail together, as {count} links", "adjacency")
                for (router, port), count in self.over_ports().items()]

    def told(self, face: Face) -> bool:
        """Whether the network of an interface is told to other routers."""
        process = self.process(face)
        if isinstance(process, Ospf):
            return bool(process.area(face)) or "connected" in process.brings
        return isinstance(process, Bgp) and (face.addresses[0].network in process.networks or "connected" in process.brings)

    def against(self, target: Net) -> list[rules.Note]:
        """The static routes, and the networks that BGP brings in, that could lead packets to this network another way."""
        found = []
        for router in self.routers.values():
            for static in against(target, [static for static in router.statics if not static.vrf]):
                found.append(rules.Note(router.file, static.line.number, static.line.text.strip(), "ip route", "routes",
                                        f"a static route inside {target}"))
        for process in self.processes.values():
            if isinstance(process, Bgp):
                own = {face.addresses[0].network for face in process.router.faces if face.is_up() and face.addresses}
                found += [structural(f"{process.router.name} brings in {net} by BGP, which is none of its networks")
                          for net in process.networks if net not in own and net.subnet_of(target)]
        for process, peer in self.missing:
            name = peer.lists.get("in")
            taken = sessions.rules_of(process.router.prefix_lists.get(name, ())) if name else []
            if taken is None or sessions.may_take(taken, target):
                found.append(structural(f"the neighbour {peer.address} of {process.router.name} has no file, and may send routes to {target}"))
        return found

    def face_notes(self, faces: Sequence[Face]) -> list[rules.Note]:
        """What stands in the way at interfaces that a copy has, but for what is compared at both ends."""
        found = [note for face in faces for note in face.notes if "reach" in note.loses() and note.cost != "adjacency"]
        for face in faces:
            for name in face.lists.values():
                held = self.routers[face.router].lists.get(name)
                if held is not None and not held.is_read:
                    found.append(structural(f"the list {name} at {face.key()} is of a kind that is not read"))
        return found


def router_id(process: Ospf | Bgp) -> str:
    """The id that a router has: the one that is set, or its highest address, of a loopback first."""
    faces = [face for face in process.router.faces if face.is_up() and face.addresses and not face.vrf]
    loops = [face for face in faces if face.name.startswith("Loopback")]
    ids = [face.addresses[0].ip for face in loops or faces]
    return process.router_id or (str(max(ids)) if ids else "")
