"""Random networks with eBGP for the checker: their files, and which routes their sessions carry; nothing here uses the code
that is checked."""
import random
from collections import deque
from dataclasses import dataclass, field

from ops.tests.packets import Packet
from ops.tests.random_networks import Face, Net, list_lines, network

FAR = 10 ** 9


@dataclass(frozen=True)
class Filter:
    """A prefix list: entries of an answer, a prefix and the shortest and longest prefixes in it that match."""
    name: str
    entries: tuple[tuple[bool, Net, int, int], ...]

    def permits(self, net: Net) -> bool:
        return next((permit for permit, own, low, high in self.entries if net.subnet_of(own) and low <= net.prefixlen <= high), False)

    def lines(self) -> list[str]:
        rows = []
        for place, (permit, net, low, high) in enumerate(self.entries, 1):
            bounds = "" if low == high == net.prefixlen else f" le {high}" if low == net.prefixlen else f" ge {low} le {high}"
            rows.append(f"ip prefix-list {self.name} seq {5 * place} {'permit' if permit else 'deny'} {net}{bounds}")
        return rows


@dataclass
class Sessions:
    """What routers say of BGP: their filters by router, segment and direction; which networks they tell; neighbours that have no file."""
    filters: dict[tuple[str, int, str], Filter] = field(default_factory=dict)
    shut: set[tuple[str, int]] = field(default_factory=set)
    told: set[tuple[str, int]] = field(default_factory=set)
    strangers: list[tuple[str, int]] = field(default_factory=list)


class BgpNetwork:
    """A network in which each router is an AS of its own."""

    def __init__(self, dice: random.Random) -> None:
        self.net, self.dice = network(dice, True), dice
        self.said = Sessions()
        hosts = [segment.net for segment in self.net.segments if segment.is_hosts]
        for place, segment in enumerate(self.net.segments):
            segment.second = None
            ends = self.net.up(place)
            for face in ends:
                if segment.is_hosts and dice.random() < 0.95:
                    self.said.told.add((face.router, place))
                for way in ("in", "out"):
                    if not segment.is_hosts and dice.random() < 0.25:
                        self.said.filters[face.router, place, way] = self.filter(hosts)
            if segment.has_outside and not segment.is_hosts and dice.random() < 0.6:
                self.said.strangers.append((ends[0].router, place))
                if dice.random() < 0.8:
                    self.said.filters[ends[0].router, place, "in"] = self.stranger(hosts)

    def filter(self, hosts: list[Net]) -> Filter:
        rows = [(False, self.dice.choice(hosts), 24, 24)] if self.dice.random() < 0.5 else []
        rows.append(self.dice.choice(((True, Net("10.0.0.0/8"), 8, 24), (True, Net("0.0.0.0/0"), 0, 32), (True, Net("10.0.0.0/16"), 20, 28))))
        return Filter(f"PL-{self.dice.randrange(10 ** 6)}", tuple(rows))

    def stranger(self, hosts: list[Net]) -> Filter:
        rows = self.dice.choice(([(True, Net("0.0.0.0/0"), 0, 0)], [(False, Net("10.0.0.0/8"), 8, 32), (True, Net("0.0.0.0/0"), 0, 32)],
                                 [(True, Net("0.0.0.0/0"), 0, 24)], [(False, self.dice.choice(hosts), 24, 24), (True, Net("0.0.0.0/0"), 0, 32)],
                                 [(True, Net("192.0.2.0/24"), 24, 32)]))
        return Filter(f"PL-{self.dice.randrange(10 ** 6)}", tuple(rows))

    def far(self, face: Face) -> Face | None:
        """The other end of a segment of two routers."""
        ends = [one for one in self.net.up(face.segment) if one.router != face.router]
        is_line = not self.net.segments[face.segment].is_hosts and not self.net.segments[face.segment].has_outside
        return ends[0] if is_line and len(ends) == 1 else None

    def text(self, router: str, dice: random.Random) -> str:
        """The file of a router."""
        lines = [f"hostname {router}", "!"]
        for one in self.net.lists.get(router, []):
            lines += one.groups
        mine = [face for face in self.net.faces if face.router == router]
        for face in mine:
            lines += [f"interface {face.name}", f" ip address {face.address.ip} {face.address.netmask}"]
            lines += [f" ip access-group {bound.name} {way}" for way, bound in (("in", face.inbound), ("out", face.outbound)) if bound is not None]
            lines += [" shutdown"] if face.is_shut else []
            lines.append("!")
        lines += self.process(router, mine, dice)
        lines += [f"ip route {static}" for static in self.net.statics.get(router, [])]
        for place, one in self.said.filters.items():
            if place[0] == router:
                lines += one.lines()
        for bound in self.net.lists.get(router, []):
            lines += list_lines(bound, dice)
        return "\n".join([*lines, "!", "end", ""])

    def process(self, router: str, mine: list[Face], dice: random.Random) -> list[str]:
        number = {name: 65001 + place for place, name in enumerate(self.net.routers)}
        flat = dice.random() < 0.5
        head, inner = [f"router bgp {number[router]}"], []
        peers = [(face, self.far(face)) for face in mine]
        for face, far in peers:
            address = far.address.ip if far else face.address.ip + 1 if (router, face.segment) in self.said.strangers else None
            if address is None:
                continue
            head.append(f" neighbor {address} remote-as {number[far.router] if far else 64999}")
            inner += [] if flat else [f" neighbor {address} activate"]
            inner += [f" neighbor {address} prefix-list {self.said.filters[router, face.segment, way].name} {way}" for way in ("in", "out")
                      if (router, face.segment, way) in self.said.filters]
        for face in mine:
            if (router, face.segment) in self.said.told and not face.is_shut:
                net = face.address.network
                inner.append(f" network {net.network_address} mask {net.netmask}")
        if flat:
            return [*head, *inner, "!"]
        return [head[0], " no bgp default ipv4-unicast", *head[1:], " !", " address-family ipv4", *(" " + line for line in inner), " exit-address-family", "!"]

    def carries(self, face: Face, net: Net) -> Face | None:
        """The far end, where its router tells a prefix over this interface and it is taken here."""
        far = self.far(face)
        if far is None or not self.comes_up(face, far):
            return None
        out, inside = self.said.filters.get((far.router, face.segment, "out")), self.said.filters.get((face.router, face.segment, "in"))
        return far if (out is None or out.permits(net)) and (inside is None or inside.permits(net)) else None

    def comes_up(self, a: Face, b: Face) -> bool:
        """Whether either end can open a session through the lists inbound at both."""
        def passes(face: Face, packet: Packet) -> bool:
            return face.inbound is None or face.inbound.permits(packet)

        for one, other in ((a, b), (b, a)):
            mine, far = int(one.address.ip), int(other.address.ip)
            there = [Packet(6, mine, far, 40000, 179, frozenset(flags)) for flags in (("syn",), ("ack",), ("ack", "psh"))]
            back = [Packet(6, far, mine, 179, 40000, frozenset(flags)) for flags in (("syn", "ack"), ("ack",))]
            if all(passes(other, packet) for packet in there) and all(passes(one, packet) for packet in back):
                return True
        return False

    def cost(self, failed: set[int], target: int) -> dict[str, int]:
        """Each router's number of AS to a network, where its route gets there."""
        net = self.net.segments[target].net
        found = {face.router: 0 for face in self.net.up(target)}
        tells = {face.router: 0 for face in self.net.up(target) if (face.router, target) in self.said.told}
        for _ in self.net.routers:
            for face in self.net.faces:
                far = None if face.is_shut or face.segment in failed else self.carries(face, net)
                if far is not None and far.router in tells:
                    tells[face.router] = min(tells.get(face.router, FAR), 1 + tells[far.router])
        return {**tells, **found}

    def lost_at(self, target: int, failed: set[int]) -> set[str]:
        """Routers that may take a route of a stranger for a part of a network, and so send packets to it."""
        net = self.net.segments[target].net
        lost: set[str] = set()
        for part in (net, next(net.subnets(prefixlen_diff=1)), Net((net.network_address + 7, 32))):
            waiting = deque(router for router, place in self.said.strangers
                            if (router, place, "in") not in self.said.filters or self.said.filters[router, place, "in"].permits(part))
            seen = set(waiting)
            while waiting:
                at = waiting.popleft()
                for face in self.net.faces:
                    far = None if face.is_shut or face.segment in failed or face.router in seen else self.carries(face, part)
                    if far is not None and far.router == at:
                        seen.add(face.router)
                        waiting.append(face.router)
            lost |= seen
        return lost

    def arrives(self, packet: Packet, gateway: Face, target: int, failed: set[int]) -> bool:
        """Whether a packet that comes in at a gateway arrives, whichever of the equal ways it takes."""
        if gateway.inbound is not None and not gateway.inbound.permits(packet):
            return False
        cost, lost = self.cost(failed, target), self.lost_at(target, failed)
        own = {face.router: face for face in self.net.up(target)}
        waiting, seen = [gateway.router], set()
        while waiting:
            at = waiting.pop()
            if at in seen:
                continue
            seen.add(at)
            if at in own:
                if own[at].outbound is not None and not own[at].outbound.permits(packet):
                    return False
                continue
            if at in lost or cost.get(at, FAR) >= FAR:
                return False
            for face in self.net.faces:
                far = self.carries(face, self.net.segments[target].net) if face.router == at and not face.is_shut and face.segment not in failed else None
                if far is not None and (far.router, target) in self.told_by(target) and 1 + cost.get(far.router, FAR) == cost[at]:
                    if (face.outbound and not face.outbound.permits(packet)) or (far.inbound and not far.inbound.permits(packet)):
                        return False
                    waiting.append(far.router)
        return True

    def told_by(self, target: int) -> set[tuple[str, int]]:
        """Routers that tell a network: not those that have it and do not say so."""
        quiet = {face.router for face in self.net.up(target)} - {router for router, place in self.said.told if place == target}
        return {(router, target) for router in self.net.routers if router not in quiet}

