"""Entries of Cisco IOS packet lists: what each of them looks at, and what of it a list of arcv can say."""
import ipaddress
from collections.abc import Iterable, Mapping, Sequence
from dataclasses import dataclass, field, replace

from ops import ports

Net = ipaddress.IPv4Network
ANY = Net("0.0.0.0/0")
EVERY = 256  # as a protocol: `ip`
LOOSE = 6
FLAGS = ("ack", "fin", "psh", "rst", "syn", "urg")
CONDITIONS = {"dscp": 1, "precedence": 1, "tos": 1, "time-range": 1, "option": 1, "ttl": 2}


@dataclass(frozen=True)
class Area:
    """Networks that hold every address that is meant, and whether they hold no other."""
    nets: tuple[Net, ...]
    is_exact: bool = True


@dataclass(frozen=True)
class Flags:
    """A test on the flags of TCP: any, or all, of them are as is said here."""
    every: bool
    wanted: tuple[tuple[str, bool], ...]

    def holds(self, flags: Iterable[str]) -> bool:
        have = set(flags)
        tests = [(name in have) == value for name, value in self.wanted]
        return all(tests) if self.every else any(tests)


@dataclass(frozen=True)
class Box:
    """Packets by protocol, networks and ports; and what else is looked at."""
    protocol: int
    source: Area
    target: Area
    sports: ports.Ranges = ports.ALL
    dports: ports.Ranges = ports.ALL
    flags: Flags | None = None
    more: tuple[str, ...] = ()

    def is_exact(self) -> bool:
        """Whether a list of arcv can say it as it is."""
        return self.source.is_exact and self.target.is_exact and self.sports == ports.ALL and not self.flags and not self.more


@dataclass(frozen=True)
class Entry:
    """An entry with its line, its sequence number, its answer, and the packets that it matches; None where it is not read."""
    line: int
    text: str
    number: int | None
    permit: bool
    boxes: tuple[Box, ...] | None


@dataclass
class Groups:
    """Object groups by name: the networks of some, the services of others; None for one that is not read."""
    networks: dict[str, Area | None] = field(default_factory=dict)
    services: dict[str, tuple[Box, ...] | None] = field(default_factory=dict)


NO_GROUPS = Groups()


class NotRead(Exception):
    """The words are of no form that is read here."""


def address(word: str) -> int:
    try:
        return int(ipaddress.IPv4Address(word))
    except ValueError:
        raise NotRead(word) from None


def by_wildcard(word: str, wildcard: str) -> Area:
    """The networks that an address and a wildcard name."""
    bits, free = address(word), address(wildcard)
    low = 0
    while low < 32 and free >> low & 1:
        low += 1
    loose = [place for place in range(low, 32) if free >> place & 1]
    base = bits & ~free & 0xFFFFFFFF
    if len(loose) > LOOSE:
        top = loose[-1] + 1
        return Area((Net((base >> top << top, 32 - top)),), False)
    found = []
    for choice in range(1 << len(loose)):
        extra = sum(1 << place for at, place in enumerate(loose) if choice >> at & 1)
        found.append(Net((base | extra, 32 - low)))
    return Area(tuple(sorted(found)))


def area_of(words: Sequence[str], groups: Groups) -> tuple[Area, int]:
    """The networks that words begin with, and how many words that takes."""
    if words[:1] == ["any"]:
        return Area((ANY,)), 1
    if len(words) < 2:
        raise NotRead(" ".join(words))
    if words[0] == "host":
        return Area((Net((address(words[1]), 32)),)), 2
    if words[0] in ("object-group", "addrgroup"):
        group = groups.networks.get(words[1])
        if group is None:
            raise NotRead(words[1])
        return group, 2
    return by_wildcard(words[0], words[1]), 2


def ports_of(protocol: int, words: Sequence[str]) -> tuple[ports.Ranges, int]:
    """The ports that words begin with, all where they begin with none, and how many words that takes."""
    if not words or words[0] not in ("eq", "neq", "gt", "lt", "range") or protocol not in ports.PORTS:
        return ports.ALL, 0
    found = ports.ranges_of(protocol, tuple(words))
    if found is None:
        raise NotRead(words[0])
    return found


def conditions(protocol: int, words: Sequence[str]) -> tuple[Flags | None, tuple[str, ...]]:
    """The test on flags that the last words of an entry make, and their other tests."""
    wanted: list[tuple[str, bool]] = []
    more: list[str] = []
    every, at = False, 0
    while at < len(words):
        word, at = words[at], at + 1
        if word in ("log", "log-input"):
            continue
        if word == "reflect":
            at += 3 if words[at + 1 : at + 2] == ["timeout"] else 1
        elif protocol == 6 and word == "established":
            wanted += [("ack", True), ("rst", True)]
        elif protocol == 6 and word in ("match-any", "match-all"):
            every = word == "match-all"
        elif protocol == 6 and word.lstrip("+-") in FLAGS:
            wanted.append((word.lstrip("+-"), not word.startswith("-")))
        else:
            count = CONDITIONS.get(word, 0)
            more.append(" ".join([word, *words[at : at + count]]))
            at += count
    return (Flags(every, tuple(wanted)) if wanted else None), tuple(more)


def boxes_of(words: Sequence[str], groups: Groups) -> tuple[Box, ...]:
    """The packets that an extended entry names behind its answer."""
    services: tuple[Box, ...] | None
    if words[:1] == ["object-group"] and len(words) > 1:
        services = groups.services.get(words[1])
        if services is None:
            raise NotRead(words[1])
        rest = list(words[2:])
    else:
        number = ports.protocol(words[0]) if words else None
        if number is None:
            raise NotRead(" ".join(words))
        services, rest = (Box(number, Area((ANY,)), Area((ANY,))),), list(words[1:])
    protocol = services[0].protocol if len(services) == 1 else EVERY
    source, count = area_of(rest, groups)
    rest = rest[count:]
    sports, count = ports_of(protocol, rest)
    rest = rest[count:]
    target, count = area_of(rest, groups)
    rest = rest[count:]
    dports, count = ports_of(protocol, rest)
    flags, more = conditions(protocol, rest[count:])
    if len(services) == 1 and words[0] != "object-group":
        return (Box(protocol, source, target, sports, dports, flags, more),)
    if sports != ports.ALL or dports != ports.ALL:
        raise NotRead("ports behind a group of services")
    return tuple(replace(box, source=source, target=target, flags=box.flags or flags, more=box.more + more) for box in services)


def service_boxes(words: Sequence[str]) -> tuple[Box, ...]:
    """The services that a line of an object group names."""
    if not words:
        raise NotRead("")
    numbers = [6, 17] if words[0] == "tcp-udp" else [ports.protocol(words[0])]
    found = []
    for number in numbers:
        if number is None:
            raise NotRead(words[0])
        rest = list(words[1:])
        sports = ports.ALL
        if rest[:1] == ["source"]:
            sports, count = ports_of(number, rest[1:])
            rest = rest[1 + count:]
        dports, count = ports_of(number, rest)
        found.append(Box(number, Area((ANY,)), Area((ANY,)), sports, dports, None, tuple(rest[count:])))
    return tuple(found)


def extended(line: int, text: str, words: Sequence[str], groups: Groups) -> Entry | None:
    """The entry of an extended list that words make, or None for a remark."""
    rest, number = list(words), None
    if rest and rest[0].isdigit():
        number, rest = int(rest[0]), rest[1:]
    extra: tuple[str, ...] = ()
    if rest[:1] == ["remark"]:
        return None
    if rest[:1] == ["evaluate"]:
        every = Box(EVERY, Area((ANY,)), Area((ANY,)), more=(" ".join(rest),))
        return Entry(line, text, number, True, (every,))
    if rest[:1] == ["dynamic"]:
        skip = 4 if rest[2:3] == ["timeout"] else 2
        extra, rest = (" ".join(rest[:skip]),), rest[skip:]
    if rest[:1] not in (["permit"], ["deny"]):
        raise NotRead(text)
    permit = rest[0] == "permit"
    try:
        boxes: tuple[Box, ...] | None = tuple(replace(box, more=box.more + extra) for box in boxes_of(rest[1:], groups))
    except NotRead:
        boxes = None
    return Entry(line, text, number, permit, boxes)


def standard(line: int, text: str, words: Sequence[str]) -> Entry | None:
    """The entry of a standard list that words make, or None for a remark."""
    rest, number = [word for word in words if word != "log"], None
    if rest and rest[0].isdigit():
        number, rest = int(rest[0]), rest[1:]
    if rest[:1] == ["remark"]:
        return None
    if rest[:1] not in (["permit"], ["deny"]):
        raise NotRead(text)
    permit = rest[0] == "permit"
    try:
        if len(rest) == 2 and rest[1] != "any":
            rest.append("0.0.0.0")
        source, count = area_of(rest[1:], NO_GROUPS)
        more = tuple(rest[1 + count:])
        boxes: tuple[Box, ...] | None = (Box(EVERY, source, Area((ANY,)), more=more),)
    except NotRead:
        boxes = None
    return Entry(line, text, number, permit, boxes)


OPENING = ("syn",)
CLIENT = (1024, ports.LAST)


def among(box: Box, packets: str) -> Box | None:
    """The box as it matches packets of one sort alone: `opening` for those that open TCP connections and all of other
    protocols, `client` for those with no source port below 1024. None where it matches none of them."""
    if packets == "opening" and box.protocol == 6 and box.flags:
        return replace(box, flags=None) if box.flags.holds(OPENING) else None
    if packets == "client" and box.sports != ports.ALL:
        left = [(max(first, CLIENT[0]), last) for first, last in box.sports if last >= CLIENT[0]]
        if not left:
            return None
        return replace(box, sports=ports.ALL) if joined(left) == [CLIENT] else box
    return box


def joined(ranges: Iterable[tuple[int, int]]) -> list[tuple[int, int]]:
    """The same ports in as few ranges as there can be."""
    found: list[tuple[int, int]] = []
    for first, last in sorted(ranges):
        if found and first <= found[-1][1] + 1:
            found[-1] = (found[-1][0], max(found[-1][1], last))
        else:
            found.append((first, last))
    return found


Named = Mapping[str, Sequence[Sequence[str]]]


def groups_of(networks: Named, services: Named) -> Groups:
    """The object groups that lines make: under each name the words of each of its lines."""
    groups = Groups()
    for name in networks:
        groups.networks[name] = network_group(name, networks, ())
    for name in services:
        groups.services[name] = service_group(name, services, ())
    return groups


def network_group(name: str, all_lines: Named, above: tuple[str, ...]) -> Area | None:
    """The networks of a group, or None where one of its lines is not read, or it names itself."""
    if name in above or name not in all_lines:
        return None
    nets: list[Net] = []
    for words in all_lines[name]:
        try:
            if words[0] == "group-object":
                inner = network_group(words[1], all_lines, (*above, name))
                if inner is None:
                    return None
                nets += inner.nets
            elif words[0] == "range":
                ends = [ipaddress.IPv4Address(address(word)) for word in words[1:3]]
                nets += ipaddress.summarize_address_range(ends[0], ends[1])
            elif words[0] in ("host", "any"):
                nets += area_of(list(words), NO_GROUPS)[0].nets
            else:
                nets.append(Net(f"{words[0]}/{words[1]}", strict=False))
        except (NotRead, ValueError, IndexError, TypeError):
            return None
    return Area(tuple(nets)) if nets else None


def service_group(name: str, all_lines: Named, above: tuple[str, ...]) -> tuple[Box, ...] | None:
    """The services of a group, or None where one of its lines is not read, or it names itself."""
    if name in above or name not in all_lines:
        return None
    found: list[Box] = []
    for words in all_lines[name]:
        try:
            inner = service_group(words[1], all_lines, (*above, name)) if words[0] == "group-object" else service_boxes(words)
        except (NotRead, IndexError):
            return None
        if inner is None:
            return None
        found += inner
    return tuple(found) or None
