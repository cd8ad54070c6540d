"""Whether what was seen of a packet is a walk of the model: over next hops of the trace alone, and lost only where a list denies
the packet, no route is left or its interface is down."""
from collections import Counter
from dataclasses import dataclass

from lab.network import End, Link, Network, list_at
from lab.probes import Packet, Sighting
from lab.program import Row
from lab.settings import PacketEntry


@dataclass(frozen=True)
class Walk:
    """What became of a packet: whether it arrived, over which links and routers, and what is wrong with that, or nothing."""
    arrived: bool
    links: tuple[int, ...]
    routers: tuple[str, ...]
    fault: str = ""


def permits(entries: list[PacketEntry], packet: Packet) -> bool:
    """What an ACL says of a packet; one without entries permits everything."""
    for entry in entries:
        (low, high), is_inside = entry.services, packet.source in entry.source and packet.target in entry.target
        if is_inside and low <= packet.service <= high:
            return entry.permit
    return not entries


class Ways:
    """The ways of packets through a network under one failure set. `rows` has the trace to each host network by its prefix."""

    def __init__(self, network: Network, rows: dict[str, Row], source: End, target: End) -> None:
        self.network, self.rows, self.source, self.target = network, rows, source, target

    def is_permitted(self, end: End, side: str, packet: Packet) -> bool:
        return permits(list_at(self.network.routers[end.router], self.network.face(end), side), packet)

    def is_own(self, packet: Packet) -> bool:
        """Whether the packet goes to the address of the router itself at the target interface, which no list outbound there
        keeps it from."""
        face = self.network.face(self.target)
        return face.address is not None and packet.target == face.address.ip

    def is_kept_out(self, packet: Packet) -> bool:
        """Whether the list outbound at the target interface denies the packet."""
        return not self.is_permitted(self.target, "out", packet)

    def may_stop(self, place: int, packet: Packet) -> bool:
        """Whether the packet may be lost at a router that it was let into."""
        if place == self.target.router:
            return self.network.face(self.target).is_shut or not self.is_own(packet) and self.is_kept_out(packet)
        hops = [self.network.links[number - 1] for number in self.rows[self.network.routers[place].name].links]
        return not hops or any(not self.is_carried(link, place, packet) for link in hops)

    def is_carried(self, link: Link, place: int, packet: Packet) -> bool:
        """Whether the lists at both ends of a link permit the packet, on its way from this router."""
        return self.is_permitted(link.near(place), "out", packet) and self.is_permitted(link.far(place), "in", packet)

    def follow(self, sighting: Sighting) -> tuple[list[Link], str]:
        """The links that the packet crossed, in order, and what is wrong with what was seen."""
        left, place = sighting.arrivals.copy(), self.source.router
        crossed: list[Link] = []
        if not left[self.source]:
            return [], f"it never came in at {self.named(self.source)}"
        left[self.source] -= 1
        while left := +left:
            steps = [link for link in map(self.network.link_at.get, left) if link and self.leads(link, place, left)]
            if len(steps) != 1 or len(crossed) > len(self.network.routers):
                return crossed, f"it was also seen at {', '.join(map(self.named, left))}"
            crossed += steps
            left[steps[0].far(place)] -= 1
            place = steps[0].far(place).router
        return crossed, ""

    def leads(self, link: Link, place: int, left: Counter[End]) -> bool:
        """Whether the link leads from this router to an interface where the packet was seen."""
        return place in (link.ends[0].router, link.ends[1].router) and link.far(place) in left

    def named(self, end: End) -> str:
        return f"{self.network.routers[end.router].name}:{end.face}"

    def has_arrived(self, packet: Packet, sighting: Sighting) -> bool:
        """Whether the hosts behind the target interface got the packet, or its router where it is the router's own."""
        if sighting.taken:
            return self.is_own(packet) and set(sighting.taken) == {self.target.router} and not sighting.handed
        return set(sighting.handed) == {self.target}

    def judge(self, packet: Packet, sighting: Sighting) -> Walk:
        """What became of the packet, and whether that is a walk of the model."""
        is_sent = not self.network.face(self.source).is_shut
        crossed, fault = self.follow(sighting) if is_sent else ([], "")
        arrived = self.has_arrived(packet, sighting)
        if (sighting.taken or sighting.handed) and not arrived:
            fault = fault or "it was delivered at another place"
        came, names = self.source, [self.network.routers[self.source.router].name]
        for link in crossed:
            fault = fault or self.wrong_step(link, came, packet)
            came = link.far(came.router)
            names.append(self.network.routers[came.router].name)
        if is_sent:
            fault = fault or self.wrong_end(came, packet, arrived)
        return Walk(arrived, tuple(link.number for link in crossed), tuple(names), fault)

    def wrong_step(self, link: Link, came: End, packet: Packet) -> str:
        """What is wrong with a step over a link, from a router where the packet came in at this interface."""
        name, near = self.network.routers[came.router].name, link.near(came.router)
        if not self.is_permitted(came, "in", packet):
            return f"the list inbound at {self.named(came)} denies it, and it went on"
        if came.router == self.target.router:
            return f"it left {name}, which owns its network"
        if link.number not in self.rows[name].links:
            return f"{name} sent it over link {link.number}, which is no next hop"
        if not self.is_permitted(near, "out", packet):
            return f"the list outbound at {self.named(near)} denies it, and it went on"
        return ""

    def wrong_end(self, came: End, packet: Packet, arrived: bool) -> str:
        """What is wrong with where the packet ended: at a router where it came in at this interface."""
        is_in = self.is_permitted(came, "in", packet)
        if not arrived:
            name, is_free = self.network.routers[came.router].name, is_in and not self.may_stop(came.router, packet)
            return f"it was lost at {name}, where nothing denies it and a route is left" if is_free else ""
        if came.router != self.target.router:
            return "it arrived without having come to its router"
        if not is_in:
            return f"the list inbound at {self.named(came)} denies it, and it arrived"
        if self.network.face(self.target).is_shut:
            return "it arrived at an interface that is shut"
        is_denied = not self.is_own(packet) and self.is_kept_out(packet)
        return f"the list outbound at {self.named(self.target)} denies it, and it arrived" if is_denied else ""
