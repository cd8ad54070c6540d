"""A network that is made to be written as files of arcv: its routers, their interfaces and lists, and links."""
import ipaddress
from collections.abc import Iterable
from dataclasses import dataclass, field

from ops.names import Free
from ops.routers import Interface

POOLS = ("100.64.0.0/12", "100.80.0.0/12", "100.96.0.0/12", "198.18.0.0/16", "240.0.0.0/12", "241.0.0.0/12", "242.0.0.0/12")


@dataclass
class Port:
    """An interface on a copy."""
    name: str
    address: Interface
    lists: dict[str, str] = field(default_factory=dict)
    lines: list[str] = field(default_factory=list)


@dataclass
class Node:
    """A router on a copy: its interfaces, the entries of its lists by name, and what stands in its process."""
    name: str
    ports: list[Port] = field(default_factory=list)
    lists: dict[str, tuple[bool, list[str]]] = field(default_factory=dict)
    prefix_lists: dict[str, list[str]] = field(default_factory=dict)
    process: list[str] = field(default_factory=list)
    free: Free = field(default_factory=Free)

    def port(self, name: str, address: Interface, is_end: bool) -> Port:
        made = Port(self.free.take(name, is_end), address)
        self.ports.append(made)
        return made

    def text(self) -> str:
        """The file of the router."""
        lines = [f"hostname {self.name}", "!"]
        for port in self.ports:
            lines += [f"interface {port.name}", f" ip address {port.address.ip} {port.address.netmask}", *port.lines]
            lines += [f" ip access-group {name} {way}" for way, name in sorted(port.lists.items())]
            lines.append("!")
        for name, (is_standard, entries) in self.lists.items():
            lines += [f"ip access-list {'standard' if is_standard else 'extended'} {name}", *entries, "!"]
        for name, entries in self.prefix_lists.items():
            lines += [f"ip prefix-list {name} {entry}" for entry in entries]
        return "\n".join([*lines, *self.process, "!", "end", ""])


@dataclass
class Join:
    """A link: the routers and ports at its ends, and whether it is a waypoint."""
    a: Node
    a_port: Port
    b: Node
    b_port: Port
    text: str
    is_waypoint: bool = False


class Pool:
    """Addresses for links that only a copy has: none of them is in the network or in a policy."""

    def __init__(self, taken: Iterable[ipaddress.IPv4Network]) -> None:
        nets = list(taken)
        free = [pool for pool in map(ipaddress.IPv4Network, POOLS) if not any(pool.overlaps(net) for net in nets)]
        if not free:
            raise ValueError("no range of addresses is free for the links of a copy")
        self.place = int(free[0].network_address)

    def pair(self) -> tuple[Interface, Interface]:
        """The two addresses of a new link."""
        self.place += 4
        return Interface((self.place + 1, 30)), Interface((self.place + 2, 30))
