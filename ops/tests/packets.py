"""Packets and list entries for the checker, with their meaning on a router; nothing here uses the code that is checked."""
import ipaddress
import random
from collections.abc import Callable
from dataclasses import dataclass, field

NAMES = {6: {22: "22", 80: "www", 443: "443", 25: "smtp", 3389: "3389"}, 17: {53: "domain", 123: "ntp", 161: "snmp", 500: "isakmp"}}


@dataclass(frozen=True)
class Packet:
    """A packet as it is."""
    protocol: int
    source: int
    target: int
    sport: int = 0
    dport: int = 0
    flags: frozenset[str] = frozenset()
    icmp: str = ""
    dscp: str = "default"
    in_time: bool = True


Test = Callable[[Packet], bool]


@dataclass
class Entry:
    """An entry: its text behind the sequence number, its answer, and the packets that it matches."""
    text: str
    permit: bool
    matches: Test


@dataclass
class AccessList:
    """A list: its name, whether it is a standard one, its entries, and the object groups that they name."""
    name: str
    is_standard: bool
    entries: list[Entry] = field(default_factory=list)
    groups: list[str] = field(default_factory=list)

    def permits(self, packet: Packet) -> bool:
        """First match; nothing at the end; a list without entries stops nothing."""
        if not self.entries:
            return True
        return next((entry.permit for entry in self.entries if entry.matches(packet)), False)


def number(address: str) -> int:
    return int(ipaddress.IPv4Address(address))


class Maker:
    """Makes random lists over the networks of a network."""

    def __init__(self, dice: random.Random, networks: list[ipaddress.IPv4Network]) -> None:
        self.dice, self.networks = dice, networks
        self.count = 0

    def end(self, groups: list[str]) -> tuple[str, Callable[[int], bool]]:
        """The text of a source or destination, and the addresses that it means."""
        kind = self.dice.choice(("any", "any", "net", "net", "net", "part", "host", "loose", "group"))
        net = self.dice.choice(self.networks)
        if kind == "any":
            return "any", lambda address: True
        if kind == "host":
            host = self.dice.choice(list(net.hosts())[:40])
            return f"host {host}", lambda address, host=int(host): address == host
        if kind == "part":
            net = self.dice.choice(list(net.subnets(prefixlen_diff=self.dice.randint(1, 3))))
        if kind == "loose":
            wildcard = self.dice.choice((0xFEFF, 0x00FE, 0x03FF00FF, 0x0000AAFF, 0x00FFFF00, 0x55555555))
            base = int(net.network_address) & ~wildcard & 0xFFFFFFFF
            text = f"{ipaddress.IPv4Address(base)} {ipaddress.IPv4Address(wildcard)}"
            return text, lambda address: address & ~wildcard & 0xFFFFFFFF == base
        if kind == "group":
            self.count += 1
            nets = self.dice.sample(self.networks, min(len(self.networks), self.dice.randint(1, 2)))
            groups += [f"object-group network NETS-{self.count}", *(f" {one.network_address} {one.netmask}" for one in nets)]
            return f"object-group NETS-{self.count}", lambda address: any(ipaddress.IPv4Address(address) in one for one in nets)
        return f"{net.network_address} {net.hostmask}", lambda address: ipaddress.IPv4Address(address) in net

    def port(self, protocol: int) -> tuple[str, Callable[[int], bool]]:
        """The text of a test on ports, and the ports that it means."""
        known = NAMES[protocol]
        kind = self.dice.choice(("", "", "eq", "eq", "gt", "lt", "neq", "range", "many"))
        one = self.dice.choice(list(known))
        if kind == "eq":
            return f" eq {known[one]}", lambda port: port == one
        if kind == "neq":
            return f" neq {known[one]}", lambda port: port != one
        if kind == "gt":
            return " gt 1023", lambda port: port > 1023
        if kind == "lt":
            return " lt 1024", lambda port: port < 1024
        if kind == "range":
            return " range 20 443", lambda port: 20 <= port <= 443
        if kind == "many":
            some = self.dice.sample(list(known), 2)
            return f" eq {known[some[0]]} {known[some[1]]}", lambda port: port in some
        return "", lambda port: True

    def tail(self, protocol: int) -> tuple[str, Test]:
        """The text of what else an entry looks at, and the packets that it means."""
        kind = self.dice.choice(("", "", "", "", "log", "dscp", "time", "fragments"))
        if protocol in (1, 6) and self.dice.random() < 0.4:
            kind = "flags" if protocol == 6 else "type"
        if kind == "log":
            return f" {self.dice.choice(('log', 'log-input'))}", lambda packet: True
        if kind == "dscp":
            return " dscp ef", lambda packet: packet.dscp == "ef"
        if kind == "time":
            return " time-range WORK", lambda packet: packet.in_time
        if kind == "fragments":
            return " fragments", lambda packet: False
        if kind == "flags" and protocol == 6:
            text, test = self.dice.choice(FLAG_TESTS)
            return f" {text}", lambda packet: test(packet.flags)
        if kind == "type" and protocol == 1:
            name = self.dice.choice(("echo", "echo-reply", "unreachable"))
            return f" {name}", lambda packet: packet.icmp == name
        return "", lambda packet: True

    def extended(self, groups: list[str]) -> Entry:
        answer = self.dice.choice(("permit", "permit", "deny"))
        protocol = self.dice.choice((None, None, 6, 6, 6, 17, 17, 1, 47))
        (source, in_source), (target, in_target) = self.end(groups), self.end(groups)
        sport, is_sport = self.port(protocol) if protocol in NAMES else ("", lambda port: True)
        dport, is_dport = self.port(protocol) if protocol in NAMES else ("", lambda port: True)
        if sport and self.dice.random() < 0.5:
            sport, is_sport = "", lambda port: True
        tail, more = self.tail(protocol or 0)
        if "fragments" in tail:
            sport, dport = "", ""
        name = {None: "ip", 6: "tcp", 17: "udp", 1: "icmp", 47: "gre"}[protocol]

        def matches(packet: Packet) -> bool:
            right = protocol is None or packet.protocol == protocol
            return right and in_source(packet.source) and in_target(packet.target) and is_sport(packet.sport) and is_dport(packet.dport) and more(packet)

        return Entry(f"{answer} {name} {source}{sport} {target}{dport}{tail}", answer == "permit", matches)

    def standard(self) -> Entry:
        answer = self.dice.choice(("permit", "permit", "deny"))
        source, holds = self.end([])
        while source.startswith("object-group"):
            source, holds = self.end([])
        text = source.replace("host ", "") if self.dice.random() < 0.5 else source
        return Entry(f"{answer} {text}", answer == "permit", lambda packet: holds(packet.source))

    def make(self) -> AccessList:
        """A random list."""
        self.count += 1
        standard = self.dice.random() < 0.15
        name = str(self.count) if standard and self.count < 99 else f"LIST-{self.count}"
        made = AccessList(name, standard)
        for _ in range(self.dice.choice((0, 1, 2, 3, 4, 6))):
            made.entries.append(self.standard() if standard else self.extended(made.groups))
        if made.entries and self.dice.random() < 0.4:
            made.entries.append(Entry("permit any" if standard else "permit ip any any", True, lambda packet: True))
        return made


FLAG_TESTS: list[tuple[str, Callable[[frozenset[str]], bool]]] = [
    ("established", lambda flags: bool(flags & {"ack", "rst"})),
    ("established", lambda flags: bool(flags & {"ack", "rst"})),
    ("syn", lambda flags: "syn" in flags),
    ("ack", lambda flags: "ack" in flags),
    ("match-all +syn -ack", lambda flags: "syn" in flags and "ack" not in flags),
    ("match-any +fin +rst", lambda flags: bool(flags & {"fin", "rst"})),
]


def random_packet(dice: random.Random, source: ipaddress.IPv4Network, target: ipaddress.IPv4Network, protocol: int | None, port: int | None,
                  packets: str) -> Packet:
    """A packet of a policy, more often one that lists tell from others."""
    number_of = protocol if protocol is not None else dice.choice((6, 6, 17, 1, 47, 50))
    ends = [int(net.network_address) + dice.choice((0, 1, 2, 5, dice.randrange(net.num_addresses), net.num_addresses - 1)) % net.num_addresses
            for net in (source, target)]
    low = 1024 if packets == "client" else 0
    sport = dice.choice((80, 443, 22, 25, 53, 123, 1023, 1024, 40000, 65535, dice.randrange(65536)))
    while sport < low:
        sport = dice.choice((1024, 40000, 65535, dice.randrange(1024, 65536)))
    dport = port if port is not None else dice.choice((22, 80, 443, 25, 53, 123, 161, 500, 1023, 1024, 3389, dice.randrange(65536)))
    flags = dice.choice((("syn",), ("syn", "ack"), ("ack",), ("rst",), ("fin", "ack"), (), ("ack", "psh")))
    if packets == "opening":
        flags = ("syn",)
    return Packet(number_of, ends[0], ends[1], sport if number_of in (6, 17) else 0, dport if number_of in (6, 17) else 0,
                  frozenset(flags) if number_of == 6 else frozenset(), dice.choice(("echo", "echo-reply", "unreachable")) if number_of == 1 else "",
                  dice.choice(("default", "ef")), dice.random() < 0.5)
