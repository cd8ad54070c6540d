"""Random networks for the checker: their files, and what they do with packets; nothing here uses the code that is checked."""
import ipaddress
import random
from collections import deque
from dataclasses import dataclass, field

from ops.tests.packets import AccessList, Maker, Packet

Net = ipaddress.IPv4Network


@dataclass
class Face:
    """An interface: its segment, address, lists by direction, and OSPF's cost."""
    router: str
    name: str
    segment: int
    address: ipaddress.IPv4Interface
    is_shut: bool = False
    inbound: AccessList | None = None
    outbound: AccessList | None = None
    cost: int = 1
    is_passive: bool = True
    undefined: str = ""
    vrf: str = ""


@dataclass
class Segment:
    """A segment: its network, and whether something without a file is there."""
    net: Net
    has_outside: bool = False
    is_hosts: bool = False
    second: Net | None = None  # a network of secondary addresses on the same wire

    def nets(self) -> list[Net]:
        return [self.net] + ([self.second] if self.second else [])


@dataclass
class Network:
    """A network as it is: segments, interfaces, lines of its files that say more."""
    segments: list[Segment] = field(default_factory=list)
    faces: list[Face] = field(default_factory=list)
    routers: list[str] = field(default_factory=list)
    lists: dict[str, list[AccessList]] = field(default_factory=dict)
    statics: dict[str, list[str]] = field(default_factory=dict)
    leaks: dict[str, str] = field(default_factory=dict)  # routers whose tables have routes of one another, and the line by which

    def table(self, face: Face) -> str:
        """The table of routes of an interface, as one name with its router."""
        return face.router if face.router in self.leaks else f"{face.router} {face.vrf}"

    def up(self, segment: int) -> list[Face]:
        return [face for face in self.faces if face.segment == segment and not face.is_shut]

    def text(self, router: str, dice: random.Random) -> str:
        """The file of a router."""
        lines = ["Building configuration...", "", "Current configuration : 4711 bytes", "!", "version 15.2", f"hostname {router}", "!"]
        for one in self.lists.get(router, []):
            lines += one.groups
        leak = self.leaks.get(router, "")
        if any(face.vrf for face in self.faces if face.router == router):
            lines += ["vrf definition RED", " rd 65000:1", " !", " address-family ipv4", *([f"  {leak}"] if leak[:1] == "r" else []), " exit-address-family", "!"]
        for face in self.faces:
            if face.router != router:
                continue
            lines += [f"interface {face.name}", f" description segment {face.segment}"]
            lines += [f" vrf forwarding {face.vrf}"] if face.vrf else []
            second = self.segments[face.segment].second
            if second is not None:
                lines.append(f" ip address {second.network_address + 1 + self.faces.index(face)} {second.netmask} secondary")
            lines.append(f" ip address {face.address.ip} {face.address.netmask}")
            for way, bound in (("in", face.inbound), ("out", face.outbound)):
                if bound is not None:
                    lines.append(f" ip access-group {bound.name} {way}")
            if face.undefined:
                lines.append(f" ip access-group {face.undefined} out")
            lines.append(f" ip ospf cost {face.cost}")
            if self.segments[face.segment].is_hosts:
                lines.append(" standby 1 ip " + str(face.address.network.broadcast_address - 1) if dice.random() < 0.3 else " no ip redirects")
            if face.is_shut:
                lines.append(" shutdown")
            lines.append("!")
        lines += ["router ospf 1", " passive-interface default"]
        lines += [f" no passive-interface {face.name}" for face in self.faces if face.router == router and not face.is_passive]
        lines += [" network 0.0.0.0 255.255.255.255 area 0", "!"]
        lines += [f"ip route {static}" for static in self.statics.get(router, [])]
        lines += [leak] if leak[:2] == "ip" else []
        for one in self.lists.get(router, []):
            lines += list_lines(one, dice)
        return "\n".join([*lines, "!", "end", ""])

    def delivered(self, packet: Packet, source: int, target: int, cross: str = "") -> bool:
        """Whether any forwarding brings a packet from hosts of one segment to those of another; with a router named, without
        ever being at that router."""
        seen: set[str] = set()
        waiting: deque[str] = deque()

        def arrive(segment: int) -> None:
            for face in self.up(segment):
                table = self.table(face)
                if table not in seen and face.router != cross and (face.inbound is None or face.inbound.permits(packet)):
                    seen.add(table)
                    waiting.append(table)

        arrive(source)
        while waiting:
            table = waiting.popleft()
            for face in self.faces:
                if self.table(face) != table or face.is_shut or (face.outbound is not None and not face.outbound.permits(packet)):
                    continue
                if face.segment == target:
                    return True
                arrive(face.segment)
                if self.segments[face.segment].has_outside:
                    for place, segment in enumerate(self.segments):
                        if segment.has_outside:
                            if place == target:
                                return True
                            arrive(place)
        return False


def list_lines(one: AccessList, dice: random.Random) -> list[str]:
    if one.name.isdigit():
        return [f"access-list {one.name} {entry.text}" for entry in one.entries] or [f"access-list {one.name} remark nothing"]
    lines = [f"ip access-list {'standard' if one.is_standard else 'extended'} {one.name}"]
    if not one.entries:
        lines.append(" remark nothing")
    numbered = dice.random() < 0.5
    rows = [f" {10 * place} {entry.text}" if numbered else f" {entry.text}" for place, entry in enumerate(one.entries, 1)]
    if numbered and dice.random() < 0.2:
        dice.shuffle(rows)
    return lines + rows


KINDS = ("GigabitEthernet0/{}", "GigabitEthernet0/0.{}", "Vlan{}", "Port-channel{}", "Serial0/0/{}", "TenGigabitEthernet1/0/{}", "FastEthernet0/{}", "BVI{}")


def network(dice: random.Random, can_route: bool) -> Network:
    """A random network; where routes are to be asked about, with fewer lists, on interfaces of hosts alone."""
    made = Network(routers=[f"r{place}" for place in range(1, dice.randint(2, 6) + 1)])
    counts = dict.fromkeys(made.routers, 0)

    def face(router: str, segment: int, place: int) -> Face:
        counts[router] += 1
        net = made.segments[segment].net
        kind = dice.choice(KINDS)
        found = Face(router, kind.format(counts[router]), segment, ipaddress.IPv4Interface(f"{net.network_address + place}/{net.prefixlen}"))
        found.cost = dice.choice((1, 1, 10, 20))
        made.faces.append(found)
        return found

    pairs = [(made.routers[dice.randrange(place)], made.routers[place]) for place in range(1, len(made.routers))]
    pairs += [tuple(dice.sample(made.routers, 2)) for _ in range(dice.randint(0, 4))]
    for a, b in pairs:
        made.segments.append(Segment(Net(f"192.168.{len(made.segments)}.0/{dice.choice((30, 30, 29))}")))
        for place, router in enumerate((a, b), 1):
            face(router, len(made.segments) - 1, place).is_passive = False
        ends = made.faces[-2:]
        kind = "Serial" if any(one.name.startswith("Serial") for one in ends) else ""
        if kind and not all(one.name.startswith("Serial") for one in ends):
            for one in ends:
                one.name = f"GigabitEthernet3/{counts[one.router]}"
    for _ in range(dice.randint(2, 5)):
        made.segments.append(Segment(Net(f"10.0.{len(made.segments)}.0/24"), is_hosts=True))
        if dice.random() < 0.15:
            made.segments[-1].second = Net(f"10.50.{len(made.segments)}.0/24")
        gateways = dice.sample(made.routers, min(len(made.routers), dice.choice((1, 1, 1, 2, 3))))
        for place, router in enumerate(gateways, 1):
            found = face(router, len(made.segments) - 1, place)
            found.is_shut = not can_route and dice.random() < 0.06
            if found.name.startswith("Serial"):
                found.name = f"Vlan9{counts[router]}"
    strange(made, dice, face, can_route)
    if not can_route:
        tables(made, dice)
    bind(made, dice, can_route)
    return made


def strange(made: Network, dice: random.Random, face, can_route: bool) -> None:  # type: ignore[no-untyped-def]
    """Far ends without a file, and static routes to what is not there."""
    if dice.random() < 0.5:
        for _ in range(dice.randint(1, 2)):
            made.segments.append(Segment(Net(f"172.16.{len(made.segments)}.0/30"), has_outside=True))
            face(dice.choice(made.routers), len(made.segments) - 1, 1)
    if dice.random() < 0.4:
        own = dice.choice([one for one in made.faces if made.segments[one.segment].is_hosts and not one.is_shut] or made.faces)
        hop = own.address.network.broadcast_address - 3
        if own.address.network.prefixlen == 24:
            made.statics.setdefault(own.router, []).append(f"0.0.0.0 0.0.0.0 {hop}")
            made.segments[own.segment].has_outside = True
    if not can_route and dice.random() < 0.3:
        made.statics.setdefault(dice.choice(made.routers), []).append("10.0.0.0 255.0.0.0 Null0")


def tables(made: Network, dice: random.Random) -> None:
    """Puts some interfaces of some routers into a table of their own, and lets some of these leak."""
    for router in made.routers:
        if dice.random() < 0.25:
            for face in made.faces:
                if face.router == router and dice.random() < 0.5:
                    face.vrf = "RED"
            if dice.random() < 0.4:
                made.leaks[router] = dice.choice(("route-target import 65000:1", "ip route vrf RED 0.0.0.0 0.0.0.0 192.168.0.1 global"))


def bind(made: Network, dice: random.Random, can_route: bool) -> None:
    """Random lists at random interfaces."""
    maker = Maker(dice, [segment.net for segment in made.segments if segment.is_hosts])
    for face in made.faces:
        own = made.segments[face.segment].is_hosts
        for way in ("inbound", "outbound"):
            chance = (0.2 if own else 0.03) if can_route else (0.5 if own else 0.35)
            if dice.random() < chance:
                bound = maker.make()
                setattr(face, way, bound)
                made.lists.setdefault(face.router, []).append(bound)
        if face.outbound is None and dice.random() < 0.05:
            face.undefined = "NOT-THERE"
