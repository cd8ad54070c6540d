"""Which packets of a class are sent: a few, at the bounds of what the network's lists and policies tell apart."""
from ipaddress import IPv4Address, IPv4Network
from random import Random
from typing import Iterable, Iterator

from lab.network import Network
from lab.probes import Packet
from lab.program import Traffic

USUAL = (1 << 16, 6 << 16 | 22, 6 << 16 | 443, 17 << 16 | 53, 17 << 16 | 40001, 47 << 16)
WITH_PORTS = (6, 17)
UNSENT = (0, 255)
TRIES = 20


def marks_of(network: Network, traffics: Iterable[Traffic]) -> tuple[list[IPv4Network], list[int]]:
    """The prefixes and the services at the bounds of what lists, policies and these classes speak of."""
    prefixes: set[IPv4Network] = set()
    services: set[int] = set(USUAL)
    for traffic in traffics:
        services |= set(at_bounds(*traffic.services))
    for router in network.routers:
        for entry in (entry for entries in router.packet_lists.values() for entry in entries):
            prefixes |= {entry.source, entry.target}
            services |= set(at_bounds(*entry.services))
    for policy in network.policies:
        prefixes |= {policy.source, policy.target}
        services |= set(at_bounds(*policy.services))
    return sorted(prefixes), sorted(service for service in services if service >> 16 not in UNSENT)


def at_bounds(low: int, high: int) -> Iterator[int]:
    """The services at the bounds of a range and just outside it."""
    for service in (low - 1, low, high, high + 1):
        if 0 <= service < 1 << 24:
            yield service if service >> 16 in WITH_PORTS else service & 0xFF0000


class Chooser:
    """Draws packets of classes in a network."""

    def __init__(self, network: Network, traffics: Iterable[Traffic], draw: Random) -> None:
        self.network, self.draw = network, draw
        self.prefixes, self.services = marks_of(network, traffics)

    def protocols(self) -> set[int]:
        return {service >> 16 for service in self.services}

    def is_good(self, address: IPv4Address, host: IPv4Network) -> bool:
        """Whether the address is one of a host: not the router's own, and neither the first nor the last of its subnet."""
        face = self.network.face(self.network.hosts[host])
        subnet = face.address.network if face.address else host
        own = face.address.ip if face.address else None
        return address != own and (subnet.prefixlen > 30 or address not in (subnet.network_address, subnet.broadcast_address))

    def address(self, prefix: IPv4Network) -> IPv4Address:
        """An address of a prefix that lies in a host network."""
        host = self.network.host_of(prefix)
        inner = [mark for mark in self.prefixes if mark.subnet_of(prefix)] + [prefix]
        for _ in range(TRIES):
            part = self.draw.choice(inner)
            address = part[self.draw.randrange(part.num_addresses)]
            if self.is_good(address, host):
                return address
        return prefix[0]

    def packets(self, traffic: Traffic, count: int) -> list[Packet]:
        """Some packets of a class, each once; none of one whose protocols cannot be sent."""
        low, high = traffic.services
        services = [service for service in self.services if low <= service <= high]
        drawn = {
            Packet(self.address(traffic.source), self.address(traffic.target), self.draw.choice(services))
            for _ in range(count if services else 0)
        }
        return sorted(drawn, key=str)
