"""Routing processes: what OSPF and BGP do on a router, and which of their lines say more than that."""
from collections.abc import Callable
from dataclasses import dataclass, field

from ops import entries, ios, rules
from ops.links import Net
from ops.routers import Address, Face, Router, Static, is_address

Judge = Callable[[tuple[str, ...], ios.Line], None]


@dataclass
class Ospf:
    """A process of OSPF: its areas by networks, which interfaces are passive, and what it brings in."""
    router: Router
    number: str = ""
    areas: list[tuple[entries.Area, str]] = field(default_factory=list)
    is_passive: bool = False
    passive: dict[str, bool] = field(default_factory=dict)
    reference: str = ""
    router_id: str = ""
    brings: set[str] = field(default_factory=set)
    authentication: dict[str, str] = field(default_factory=dict)
    notes: list[rules.Note] = field(default_factory=list)

    def area(self, face: Face) -> str:
        """The area in which OSPF is enabled on an interface, or nothing."""
        found = ""
        for line in face.lines:
            if line.words[:2] == ("ip", "ospf") and line.words[3:4] == ("area",) and len(line.words) > 4:
                found = area_text(line.words[4])
        for area, name in self.areas if not found and face.addresses else ():
            if any(face.addresses[0].ip in net for net in area.nets):
                return name
        return found

    def speaks(self, face: Face) -> bool:
        """Whether it makes adjacencies over an interface."""
        return bool(self.area(face)) and not self.passive.get(face.name, self.is_passive)


def area_text(word: str) -> str:
    return str(int(Address(word))) if is_address(word) and not word.isdigit() else word


@dataclass
class Peer:
    """A neighbour of BGP."""
    address: Address
    remote: str = ""
    is_shut: bool = False
    activated: bool | None = None
    lists: dict[str, str] = field(default_factory=dict)
    lines: list[ios.Line] = field(default_factory=list)


@dataclass
class Bgp:
    """A process of BGP: its AS, neighbours and networks, and what it brings in."""
    router: Router
    number: str = ""
    router_id: str = ""
    peers: dict[Address, Peer] = field(default_factory=dict)
    networks: list[Net] = field(default_factory=list)
    brings: set[str] = field(default_factory=set)
    has_families: bool = False
    default_ipv4: bool = True
    notes: list[rules.Note] = field(default_factory=list)

    def is_active(self, peer: Peer) -> bool:
        """Whether routes of IPv4 go over the session, as far as this end says it."""
        if peer.is_shut or not peer.remote:
            return False
        if peer.activated is not None:
            return peer.activated
        return self.default_ipv4 and not self.has_families


def noter(router: Router, table: rules.Table, notes: list[rules.Note]) -> Judge:
    def judge(places: tuple[str, ...], line: ios.Line) -> None:
        row = table.judge(places, line.words)
        notes.append(rules.Note(router.file, line.number, line.text.strip(), " ".join(row.words) or "unknown", row.cost, row.reason))
    return judge


def ospf(router: Router, block: ios.Block, table: rules.Table) -> Ospf:
    """The process that a block says."""
    found = Ospf(router, block.head.words[2])
    judge = noter(router, table, found.notes)
    for line in block.lines:
        if not taken(lambda line=line: ospf_line(found, line)):  # type: ignore[misc]
            judge(("process", "ospf"), line)
    return found


def taken(take: Callable[[], bool]) -> bool:
    """Whether a line says what stands in the model; not where a word of it is of no form that is read."""
    try:
        return take()
    except (ValueError, IndexError, entries.NotRead):
        return False


def ospf_line(found: Ospf, line: ios.Line) -> bool:
    """Takes a line of a process of OSPF that says what stands in the model; whether it was one."""
    words = line.words
    if words[0] == "network" and len(words) == 5 and words[3] == "area":
        found.areas.append((entries.by_wildcard(words[1], words[2]), area_text(words[4])))
    elif words[-2:-1] == ("passive-interface",) and words[0] in ("passive-interface", "no"):
        if words[-1] == "default":
            found.is_passive = words[0] != "no"
            found.passive.clear()
        else:
            found.passive[words[-1]] = words[0] != "no"
    elif words[:2] == ("auto-cost", "reference-bandwidth") and len(words) == 3 and words[2].isdigit():
        found.reference = words[2]
    elif words[0] == "router-id" and len(words) == 2 and is_address(words[1]):
        found.router_id = words[1]
    elif words[0] == "redistribute" and words[1:2] in (("static",), ("connected",)) and "route-map" not in words:
        if "subnets" in words:
            found.brings.add(words[1])
        found.notes.append(told(found.router, line, f"redistribute {words[1]}", "routes less specific than every target, or of others"))
    elif words[:2] == ("default-information", "originate"):
        found.notes.append(told(found.router, line, "default-information originate", "a default route is less specific than every target"))
    else:
        if words[0] == "area" and words[2:3] == ("authentication",):
            found.authentication[area_text(words[1])] = " ".join(words[3:]) or "key"
        return False
    return True


def told(router: Router, line: ios.Line, rule: str, reason: str) -> rules.Note:
    return rules.Note(router.file, line.number, line.text.strip(), rule, "nothing", reason)


def bgp(router: Router, block: ios.Block, table: rules.Table) -> Bgp:
    """The process that a block says."""
    found = Bgp(router, block.head.words[2])
    judge = noter(router, table, found.notes)
    for family, line in ios.families(block):
        if line.words[0] == "address-family":
            continue
        if family in (("ipv4",), ("ipv4", "unicast")):
            found.has_families = True
        elif family:
            continue
        if not taken(lambda line=line: bgp_line(found, line)):  # type: ignore[misc]
            judge(("process", "bgp"), line)
    return found


def bgp_line(found: Bgp, line: ios.Line) -> bool:
    """Takes a line of a process of BGP that says what stands in the model; whether it was one."""
    words = line.words
    no = words[0] == "no"
    rest = words[1:] if no else words
    if rest[0] == "neighbor" and len(rest) > 2 and is_address(rest[1]):
        return peer_line(found.peers.setdefault(Address(rest[1]), Peer(Address(rest[1]))), line, rest, no)
    if words[0] == "network" and len(words) in (2, 4) and (len(words) == 2 or words[2] == "mask"):
        found.networks.append(Net(f"{words[1]}/{words[3]}", strict=False) if len(words) == 4 else classful(words[1]))
    elif words[0] == "redistribute" and words[1:2] in (("static",), ("connected",)) and "route-map" not in words:
        found.brings.add(words[1])
        found.notes.append(told(found.router, line, f"redistribute {words[1]}", "connected networks written out, static routes judged by themselves"))
    elif words[:2] == ("bgp", "router-id") and len(words) == 3:
        found.router_id = words[2]
    elif words == ("no", "bgp", "default", "ipv4-unicast"):
        found.default_ipv4 = False
    else:
        return False
    return True


def peer_line(peer: Peer, line: ios.Line, words: tuple[str, ...], no: bool) -> bool:
    """Takes a line of a neighbour that says what stands in the model; whether it was one."""
    peer.lines.append(line)
    if words[2] == "activate":
        peer.activated = not no
    elif words[2] == "shutdown":
        peer.is_shut = not no
    elif no:
        return False
    elif words[2] == "remote-as" and len(words) == 4:
        peer.remote = words[3]
    elif words[2] == "prefix-list" and len(words) == 5 and words[4] in ("in", "out"):
        peer.lists[words[4]] = words[3]
    else:
        return False
    return True


def classful(word: str) -> Net:
    first = int(word.split(".")[0])
    return Net(f"{word}/{8 if first < 128 else 16 if first < 192 else 24}", strict=False)


def against(target: Net, statics: list[Static]) -> list[Static]:
    """The static routes that a router would prefer to the routes of a network, or take for a part of it."""
    return [static for static in statics if static.prefix.subnet_of(target)]
