"""Router files to settings: a second reader, written from docs/formats.md, of files that arcv does not refuse."""
import re
from dataclasses import dataclass, field
from ipaddress import IPv4Address, IPv4Interface, IPv4Network
from typing import Callable, Iterator, Optional

ALL_SERVICES = (0, 0xFFFFFF)
PROTOCOLS = {"icmp": 1, "igmp": 2, "tcp": 6, "udp": 17, "gre": 47, "esp": 50, "ospf": 89}
PORTS = {
    6: {"ftp-data": 20, "ftp": 21, "telnet": 23, "smtp": 25, "domain": 53, "www": 80, "pop3": 110, "bgp": 179},
    17: {"domain": 53, "bootps": 67, "bootpc": 68, "tftp": 69, "ntp": 123, "snmp": 161, "snmptrap": 162, "syslog": 514},
}
ANY = IPv4Network("0.0.0.0/0")


@dataclass(frozen=True)
class PacketEntry:
    """An entry of an ACL: what it says of packets from `source` to `target` of services from the first to the last."""
    permit: bool
    source: IPv4Network
    target: IPv4Network
    services: tuple[int, int]


@dataclass(frozen=True)
class RouteEntry:
    """An entry of a prefix list: what it says of prefixes inside `prefix` of lengths from `low` to `high`."""
    permit: bool
    prefix: IPv4Network
    low: int
    high: int


@dataclass
class Interface:
    name: str
    address: Optional[IPv4Interface] = None
    is_shut: bool = False
    bandwidth: Optional[int] = None
    cost: Optional[int] = None
    has_area: bool = False
    is_point: Optional[bool] = None
    lists: dict[str, str] = field(default_factory=dict)

    @property
    def kind(self) -> str:
        return self.name.rstrip("0123456789/")


@dataclass
class Neighbour:
    remote_as: int = 0
    is_shut: bool = False
    prefix_list: Optional[str] = None


@dataclass
class Router:
    """The settings of one file. `passive` has the lines of passive interfaces in their order, with None for `default`."""
    name: str = ""
    protocol: str = ""
    number: int = 0
    router_id: Optional[IPv4Address] = None
    area: str = "0"
    reference: int = 100
    maximum_paths: Optional[int] = None
    interfaces: dict[str, Interface] = field(default_factory=dict)
    networks: list[IPv4Network] = field(default_factory=list)
    passive: list[tuple[bool, Optional[str]]] = field(default_factory=list)
    neighbours: dict[IPv4Address, Neighbour] = field(default_factory=dict)
    packet_lists: dict[str, list[PacketEntry]] = field(default_factory=dict)
    route_lists: dict[str, list[RouteEntry]] = field(default_factory=dict)


def prefix_of(address: str, wildcard: str) -> IPv4Network:
    """The prefix that an address and a wildcard mask stand for."""
    length = 32 - int(IPv4Address(wildcard)).bit_length()
    return IPv4Network((address, length), strict=False)


def masked(address: str, mask: str) -> IPv4Network:
    return IPv4Network((address, bin(int(IPv4Address(mask))).count("1")), strict=False)


def ends_of(words: list[str]) -> IPv4Network:
    """Takes SRC or DST from the front of the words."""
    first = words.pop(0)
    if first == "any":
        return ANY
    if first == "host":
        return IPv4Network(words.pop(0))
    return prefix_of(first, words.pop(0))


def port_of(protocol: int, word: str) -> int:
    named = PORTS.get(protocol, {})
    return named[word] if word in named else int(word)


def services_of(protocol: str, words: list[str]) -> tuple[int, int]:
    """The services of a protocol with what follows the addresses of an entry."""
    if protocol == "ip":
        return ALL_SERVICES
    number = PROTOCOLS[protocol] if protocol in PROTOCOLS else int(protocol)
    low, high = 0, 0xFFFF
    if words[:1] == ["eq"]:
        low = high = port_of(number, words[1])
    elif words[:1] == ["range"]:
        low, high = port_of(number, words[1]), port_of(number, words[2])
    return number << 16 | low, number << 16 | high


def packet_entry(words: list[str], is_extended: bool) -> Optional[PacketEntry]:
    """An entry of an ACL, or None for a remark."""
    rest = words[1:] if words[0].isdigit() else list(words)
    if rest[0] == "remark":
        return None
    permit = rest.pop(0) == "permit"
    if not is_extended:
        alone = rest[0] not in ("any", "host") and rest[1:] in ([], ["log"])
        return PacketEntry(permit, IPv4Network(rest[0]) if alone else ends_of(rest), ANY, ALL_SERVICES)
    protocol = rest.pop(0)
    source, target = ends_of(rest), ends_of(rest)
    return PacketEntry(permit, source, target, services_of(protocol, rest))


def route_entry(words: list[str]) -> RouteEntry:
    """An entry of a prefix list, from `permit` or `deny` on."""
    prefix = IPv4Network(words[1], strict=False)
    bounds = dict(zip(words[2::2], map(int, words[3::2])))
    low = bounds.get("ge", prefix.prefixlen)
    return RouteEntry(words[0] == "permit", prefix, low, bounds.get("le", 32 if "ge" in bounds else low))


def commands(text: str) -> Iterator[tuple[list[str], list[str]]]:
    """Each line that is no comment, blank or part of a banner: the words of the line that heads its block, and its own."""
    head: list[str] = []
    mark: Optional[str] = None
    for line in text.split("\n"):
        line = line[:-1] if line.endswith("\r") else line
        words = re.findall("[^ \t]+", line)
        if mark is not None:
            mark = None if mark in line else mark
        elif line.startswith("!"):
            head = []
        elif not words or words[0].startswith("!"):
            continue
        elif line[0] in " \t":
            yield head, words
        elif words[0] == "banner":
            head, mark = [], banner_mark(line)
        else:
            head = words
            yield [], words


def banner_mark(line: str) -> Optional[str]:
    """What ends the banner that this line begins, or None where it ends in the line itself."""
    text = line.split(None, 2)[2]
    mark = "^C" if text.startswith("^C") else text[0]
    return None if mark in text[len(mark):] else mark


def read_interface(face: Interface, words: list[str]) -> None:
    """One line of the block of an interface."""
    front = " ".join(words[:2])
    if words == ["no", "ip", "address"]:
        face.address = None
    elif front == "ip address":
        face.address = IPv4Interface((words[2], masked(words[2], words[3]).prefixlen))
    elif words[0] == "shutdown" or front == "no shutdown":
        face.is_shut = words[0] == "shutdown"
    elif words[0] == "bandwidth":
        face.bandwidth = int(words[1])
    elif front == "ip ospf" and words[2] == "cost":
        face.cost = int(words[3])
    elif front == "ip ospf" and words[2] == "network":
        face.is_point = words[3] == "point-to-point"
    elif front == "ip ospf" and words[3] == "area":
        face.has_area = True
    elif front == "ip access-group":
        face.lists[words[3]] = words[2]


def read_ospf(router: Router, words: list[str]) -> None:
    """One line of the block of an OSPF process."""
    if words[0] == "network":
        router.networks.append(prefix_of(words[1], words[2]))
        router.area = words[4]
    elif words[0] == "auto-cost":
        router.reference = int(words[2])
    elif words[0] == "router-id":
        router.router_id = IPv4Address(words[1])
    elif words[0] == "maximum-paths":
        router.maximum_paths = int(words[1])
    elif "passive-interface" in words[:2]:
        name = words[-1]
        router.passive.append((words[0] != "no", None if name == "default" else name))


def classful(address: str) -> IPv4Network:
    """The network of a `network` line of BGP without a mask."""
    first = int(address.split(".")[0])
    return IPv4Network((address, 8 if first < 128 else 16 if first < 192 else 24), strict=False)


def read_bgp(router: Router, words: list[str]) -> None:
    """One line of the block of a BGP process."""
    if words[0] == "network":
        router.networks.append(masked(words[1], words[3]) if "mask" in words else classful(words[1]))
    elif words[:2] == ["bgp", "router-id"]:
        router.router_id = IPv4Address(words[2])
    elif words[0] == "maximum-paths" and words[1].isdigit():
        router.maximum_paths = int(words[1])
    elif "neighbor" in words[:2]:
        is_no, words = words[0] == "no", words[words.index("neighbor"):]
        neighbour = router.neighbours.setdefault(IPv4Address(words[1]), Neighbour())
        if words[2] == "remote-as":
            neighbour.remote_as = int(words[3])
        elif words[2] == "shutdown":
            neighbour.is_shut = not is_no
        elif words[2] == "prefix-list":
            neighbour.prefix_list = words[3]


def read_top(router: Router, words: list[str]) -> None:
    """One top line."""
    front = " ".join(words[:2])
    if words[0] == "hostname":
        router.name = words[1]
    elif words[0] == "interface":
        router.interfaces.setdefault(words[1], Interface(words[1]))
    elif front in ("router ospf", "router bgp"):
        router.protocol, router.number = words[1], int(words[2])
    elif words[0] == "access-list" and words[2] != "remark":
        number = int(words[1])
        entry = packet_entry(words[2:], 100 <= number < 200 or number >= 2000)
        if entry:
            router.packet_lists.setdefault(words[1], []).append(entry)
    elif front == "ip prefix-list" and words[2] != "sequence-number" and words[3] != "description":
        rest = words[5:] if words[3] == "seq" else words[3:]
        router.route_lists.setdefault(words[2], []).append(route_entry(rest))


def read_block(router: Router, head: list[str], words: list[str]) -> None:
    """One line of a block, by the line that heads it."""
    processes: dict[str, Callable[[Router, list[str]], None]] = {"ospf": read_ospf, "bgp": read_bgp}
    if head[:1] == ["interface"]:
        face = router.interfaces[head[1]]
        read_interface(face, words)
        if words[:2] == ["ip", "ospf"] and words[3] == "area":
            router.area = words[4]
    elif head[:1] == ["router"] and head[1] in processes:
        processes[head[1]](router, words)
    elif head[:2] == ["ip", "access-list"]:
        entry = packet_entry(words, head[2] == "extended")
        if entry:
            router.packet_lists.setdefault(head[3], []).append(entry)


def read_router(text: str) -> Router:
    """The settings of a router file."""
    router = Router()
    for head, words in commands(text):
        if head:
            read_block(router, head, words)
        elif words[0] not in ("end", "version"):
            read_top(router, words)
    return router
