"""The network of a document and its router files: what the settings come to, as docs/formats.md says it."""
import json
import os
from dataclasses import dataclass, field
from ipaddress import IPv4Address, IPv4Network
from typing import Any, Optional

from lab.settings import ALL_SERVICES, PROTOCOLS, Interface, PacketEntry, Router, read_router

BANDWIDTHS = {
    "Ethernet": 10_000, "FastEthernet": 100_000, "GigabitEthernet": 1_000_000, "TenGigabitEthernet": 10_000_000,
    "Serial": 1_544, "Loopback": 8_000_000,
}


@dataclass(frozen=True)
class End:
    """An interface of a router, by the place of the router and the name of the interface."""
    router: int
    face: str


@dataclass(frozen=True)
class Link:
    number: int
    ends: tuple[End, End]
    is_waypoint: bool

    def near(self, router: int) -> End:
        """The end at this router."""
        return self.ends[0] if self.ends[0].router == router else self.ends[1]

    def far(self, router: int) -> End:
        """The end that is not at this router."""
        return self.ends[1] if self.ends[0].router == router else self.ends[0]


@dataclass(frozen=True)
class Policy:
    """A policy by its number; `services` is the first and the last that it speaks of."""
    number: int
    kind: str
    source: IPv4Network
    target: IPv4Network
    failures: int
    services: tuple[int, int]


@dataclass
class Network:
    routers: list[Router]
    links: list[Link]
    policies: list[Policy]
    hosts: dict[IPv4Network, End] = field(default_factory=dict)
    link_at: dict[End, Link] = field(default_factory=dict)

    @property
    def protocol(self) -> str:
        return self.routers[0].protocol

    def face(self, end: End) -> Interface:
        return self.routers[end.router].interfaces[end.face]

    def host_of(self, prefix: IPv4Network) -> IPv4Network:
        """The host network in which a prefix lies."""
        return next(host for host in self.hosts if prefix.subnet_of(host))

    def router_of(self, prefix: IPv4Network) -> int:
        return self.hosts[self.host_of(prefix)].router


def is_point(face: Interface) -> bool:
    return face.kind == "Serial" if face.is_point is None else face.is_point


def cost_of(router: Router, face: Interface) -> int:
    """The OSPF cost of an interface."""
    bandwidth = BANDWIDTHS[face.kind] if face.bandwidth is None else face.bandwidth
    return min(max(router.reference * 1000 // bandwidth, 1), 65535) if face.cost is None else face.cost


def is_enabled(router: Router, face: Interface) -> bool:
    """Whether OSPF is enabled on an interface."""
    return face.has_area or (face.address is not None and any(face.address.ip in prefix for prefix in router.networks))


def is_passive(router: Router, face: Interface) -> bool:
    """As the last line says that names the interface or the default."""
    lines = [flag for flag, name in router.passive if name in (None, face.name)]
    return bool(lines) and lines[-1]


def is_host_alone(router: Router, face: Interface) -> bool:
    """Whether the interface stands for its own address alone: a loopback under OSPF that is not set to point-to-point."""
    return router.protocol == "ospf" and face.kind == "Loopback" and face.is_point is not True


def host_network(router: Router, face: Interface) -> Optional[IPv4Network]:
    """The host network of an interface that is no link's end."""
    if face.address is None:
        return None
    return IPv4Network(face.address.ip) if is_host_alone(router, face) else face.address.network


def router_id(router: Router) -> Optional[IPv4Address]:
    """The id that a router sets, or else takes: its highest loopback address, else its highest address, of interfaces that
    are up."""
    if router.router_id is not None:
        return router.router_id
    faces = [face for face in router.interfaces.values() if face.address and not face.is_shut]
    loopbacks = [face for face in faces if face.kind == "Loopback"]
    return max((face.address.ip for face in loopbacks or faces if face.address), default=None)


def list_at(router: Router, face: Interface, side: str) -> list[PacketEntry]:
    """The entries of the ACL that is bound at a side, none where it permits everything: it is not bound, or has no entry."""
    return router.packet_lists.get(face.lists.get(side, ""), [])


def services_asked(policy: dict[str, Any]) -> tuple[int, int]:
    """The services of a policy of the document."""
    if "proto" not in policy:
        return ALL_SERVICES
    proto = policy["proto"]
    number = PROTOCOLS[proto] if isinstance(proto, str) else proto
    return number << 16 | policy.get("port", 0), number << 16 | policy.get("port", 0xFFFF)


def policy_of(number: int, policy: dict[str, Any]) -> Policy:
    source, target = (IPv4Network(policy[end]) for end in ("from", "to"))
    return Policy(number, policy["kind"], source, target, policy.get("failures", 0), services_asked(policy))


def read_network(path: str) -> Network:
    """The network of a document; the names of router files are looked up in its folder."""
    folder = os.path.dirname(os.path.abspath(path))
    with open(path, encoding="utf-8") as file:
        document = json.load(file)
    routers = []
    for name in document["routers"]:
        with open(os.path.join(folder, name), encoding="latin-1", newline="") as file:
            routers.append(read_router(file.read()))
    places = {router.name: place for place, router in enumerate(routers)}
    links = []
    for number, link in enumerate(document["links"], 1):
        parts = [link[side].partition(":") for side in ("a", "b")]
        one, other = (End(places[name], face) for name, _, face in parts)
        links.append(Link(number, (one, other), bool(link.get("waypoint"))))
    network = Network(routers, links, [policy_of(number, item) for number, item in enumerate(document["policies"], 1)])
    network.link_at = {end: link for link in links for end in link.ends}
    for place, router in enumerate(routers):
        for face in router.interfaces.values():
            host = host_network(router, face)
            if host is not None and End(place, face.name) not in network.link_at:
                network.hosts[host] = End(place, face.name)
    return network
