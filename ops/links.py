"""Segments: which interfaces meet, by the networks of their addresses, and where devices may be that have no file."""
import ipaddress
from collections.abc import Iterable, Sequence
from dataclasses import dataclass, field

from ops.routers import POINT, Address, Face, Router

Net = ipaddress.IPv4Network


@dataclass
class Segment:
    """Interfaces whose networks have addresses in common, these networks, and why devices without a file may be there."""
    faces: list[Face] = field(default_factory=list)
    nets: list[Net] = field(default_factory=list)
    outside: list[str] = field(default_factory=list)

    def text(self) -> str:
        return ", ".join(str(net) for net in self.nets) or (self.faces[0].key() if self.faces else "")

    def holds(self, address: Address) -> bool:
        return any(address in net for net in self.nets)


def merged(nets: Iterable[Net]) -> list[Net]:
    """Of networks those that lie in no other."""
    found: list[Net] = []
    for net in sorted(set(nets), key=lambda net: (net.network_address, net.prefixlen)):
        if not found or not net.subnet_of(found[-1]):
            found.append(net)
    return found


class Parts:
    """Things that are joined: which belong together in the end."""

    def __init__(self, count: int) -> None:
        self.above = list(range(count))

    def top(self, place: int) -> int:
        while self.above[place] != place:
            place = self.above[place]
        return place

    def join(self, one: int, other: int) -> None:
        self.above[self.top(other)] = self.top(one)


def segments(routers: Sequence[Router]) -> list[Segment]:
    """The segments of a network, in the order of their first interfaces."""
    faces = [face for router in routers for face in router.faces if face.is_up()]
    parts = Parts(len(faces))
    pairs = sorted(((address.network, place) for place, face in enumerate(faces) for address in face.addresses),
                   key=lambda pair: (pair[0].network_address, pair[0].prefixlen))
    begun: Net | None = None
    first = 0
    for net, place in pairs:
        if begun is not None and net.subnet_of(begun):
            parts.join(first, place)
        else:
            begun, first = net, place
    found: dict[int, Segment] = {}
    for place, face in enumerate(faces):
        found.setdefault(parts.top(place), Segment()).faces.append(face)
    for segment in found.values():
        segment.nets = merged(address.network for face in segment.faces for address in face.addresses)
    return sorted(found.values(), key=lambda segment: faces.index(segment.faces[0]))


def is_point(segment: Segment) -> bool:
    """Whether two devices at most have room in the segment."""
    small = all(30 <= net.prefixlen for net in segment.nets)
    return small or any(POINT.match(face.name) for face in segment.faces)


def is_owned(vrfs: set[str], vrf: str) -> bool:
    """Whether an address that a table of routes names may be one of interfaces in these tables: the same, or the one of a router
    that has a table for this neighbour alone."""
    return vrf in vrfs or "" in vrfs or (vrf == "" and bool(vrfs))


def join_outside(routers: Sequence[Router], found: Sequence[Segment], alone: Sequence[Net]) -> None:
    """Notes at each segment why devices without a file may be there; not where it is claimed that there are none."""
    owned: dict[Address, set[str]] = {}
    for face in (face for segment in found for face in segment.faces):
        for address in {*(own.ip for own in face.addresses), *face.virtual}:
            owned.setdefault(address, set()).add(face.vrf)
    hops = {hop: router.name for router in routers for vrf, hop in router.hops if not is_owned(owned.get(hop, set()), vrf)}
    exits = {(router.name, name) for router in routers for name in router.exits}
    for segment in found:
        if any(net.overlaps(claim) for net in segment.nets for claim in alone):
            continue
        one = len({(face.router, face.vrf) for face in segment.faces}) == 1
        is_loop = all(face.name.startswith("Loopback") for face in segment.faces)
        segment.outside += [f"{hops[hop]} names {hop}" for hop in sorted(hops) if segment.holds(hop)]
        segment.outside += [f"{router.name} listens to neighbours in {net}" for router in routers for net in router.ranges
                            if any(net.overlaps(own) for own in segment.nets)]
        segment.outside += [f"{face.key()} has an address that is not in its file" for face in segment.faces if face.is_elsewhere]
        segment.outside += [f"{face.key()} is a tunnel of many ends" for face in segment.faces if face.has_many_ends()]
        if not is_loop and one and is_point(segment):
            segment.outside.append("the far end has no file")
        if one or not is_point(segment):
            segment.outside += [f"a route of {face.router} leads to {face.name}" for face in segment.faces
                                if (face.router, face.name) in exits and not is_loop]
