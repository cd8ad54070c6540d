"""Routers as their files say them: interfaces, lists, static routes, neighbours, and what every other line costs."""
import ipaddress
import re
from collections.abc import Iterable
from dataclasses import dataclass, field

from ops import captures, entries, ios, rules
from ops.entries import Entry

Interface = ipaddress.IPv4Interface
Address = ipaddress.IPv4Address


POINT = re.compile(r"(Serial|Tunnel|Dialer|Multilink|Virtual-|Cellular|Async|BRI|POS|ATM|Group-Async|pseudowire|MFR)")


@dataclass
class Face:
    """An interface."""
    router: str
    name: str
    head: ios.Line
    lines: list[ios.Line] = field(default_factory=list)
    addresses: list[Interface] = field(default_factory=list)
    virtual: set[Address] = field(default_factory=set)
    vrf: str = ""
    is_shut: bool = False
    is_elsewhere: bool = False       # its address is another's, or is given to it: what is at its far end no file says
    has_labels: bool = False
    lists: dict[str, str] = field(default_factory=dict)
    notes: list[rules.Note] = field(default_factory=list)

    def is_up(self) -> bool:
        return not self.is_shut and bool(self.addresses or self.is_elsewhere)

    def key(self) -> str:
        return f"{self.router}:{self.name}"

    def has_many_ends(self) -> bool:
        """Whether it is a tunnel to ends that no line of it names."""
        return any(line.words[:2] == ("tunnel", "mode") and "multipoint" in line.words for line in self.lines)


@dataclass
class PacketList:
    """A packet list: whether it looks at sources alone, and its entries in their order."""
    name: str
    is_standard: bool
    entries: list[Entry] = field(default_factory=list)
    is_read: bool = True


@dataclass(frozen=True)
class Static:
    """A static route: its table, its prefix, and the interface or the address that it leads to."""
    line: ios.Line
    vrf: str
    prefix: ipaddress.IPv4Network
    face: str
    hop: Address | None


@dataclass
class Router:
    """A router: what its file says."""
    name: str
    file: str
    is_whole: bool
    faces: list[Face] = field(default_factory=list)
    lists: dict[str, PacketList] = field(default_factory=dict)
    prefix_lists: dict[str, list[ios.Line]] = field(default_factory=dict)
    processes: list[ios.Block] = field(default_factory=list)
    statics: list[Static] = field(default_factory=list)
    hops: list[tuple[str, Address]] = field(default_factory=list)
    exits: list[str] = field(default_factory=list)
    ranges: list[ipaddress.IPv4Network] = field(default_factory=list)
    vrfs: set[str] = field(default_factory=set)
    leaks: bool = False
    notes: list[rules.Note] = field(default_factory=list)

    def face(self, name: str) -> Face | None:
        return next((face for face in self.faces if face.name == name), None)

    def table_of(self, vrf: str) -> str:
        """The table that a VRF counts as: itself, or the router's one where routes may go over from table to table."""
        return "" if self.leaks else vrf


READ_TOP = (("hostname",), ("interface",), ("router", "ospf"), ("router", "bgp"), ("ip", "access-list"), ("access-list",),
            ("ip", "prefix-list"), ("ip", "route"), ("vrf", "definition"), ("ip", "vrf"), ("object-group",), ("route-map",))
GIVEN = ("dhcp", "negotiated", "pool", "slarp", "auto", "autoconfig")
QUEUES = ("class", "bandwidth", "priority", "shape", "set", "queue-limit", "random-detect", "fair-queue", "description", "trust", "compression",
          "netflow-sampler", "queue-buffers", "estimate", "account", "exit")
POLICERS = ("police", "drop", "conform-action", "exceed-action", "violate-action", "admit")
OTHER_SYSTEMS = (("feature",), ("vdc",), ("ASA", "Version"), ("nameif",), ("router", "static"), ("set", "version"))
VRF_LINES = ("rd", "address-family", "exit-address-family", "description", "maximum", "vnet", "snmp", "!")
SHARED = (("standby", "*", "ip"), ("standby", "ip"), ("vrrp", "*", "ip"), ("glbp", "*", "ip"), ("vrrp", "*", "address"))


def is_address(word: str) -> bool:
    try:
        Address(word)
    except ValueError:
        return False
    return True


class Reader:
    """Reads one capture into a router."""

    def __init__(self, capture: captures.Capture, table: rules.Table) -> None:
        self.table = table
        self.labels = False
        numbered = ((line.number, line.text) for line in capture.lines)
        self.blocks, orphans = ios.blocks(numbered)
        self.router = Router(self.host(), capture.name, capture.is_whole)
        for line in capture.dropped:
            self.note(line.number, line.text, "capture", "inert", "no line of the configuration")
        for line in orphans:
            self.note(line.number, line.text, "orphan", "unknown", "an indented line with no block above it")
            self.note(line.number, line.text, "orphan", "elsewhere", "an indented line with no block above it: an interface may be missing")
        if not capture.is_whole:
            self.note(0, "", "capture", "unknown", "the capture does not end in `end`: lines may be missing")
            self.note(0, "", "capture", "elsewhere", "the capture does not end in `end`: interfaces may be missing")

    def host(self) -> str:
        names = [block.head.words[1] for block in self.blocks if block.begins("hostname") and len(block.head.words) == 2]
        return names[-1] if names else ""

    def note(self, number: int, text: str, rule: str, cost: str, reason: str, face: Face | None = None) -> None:
        made = rules.Note(self.router.file, number, text.strip(), rule, cost, reason)
        (self.router if face is None else face).notes.append(made)

    def judge(self, places: Iterable[str], line: ios.Line, face: Face | None = None) -> rules.Row:
        row = self.table.judge(places, line.words)
        self.note(line.number, line.text, " ".join(row.words) or "unknown", row.cost, row.reason, face)
        return row

    def read(self) -> Router:
        """The router, from all blocks of the file."""
        groups = self.groups()
        for block in self.blocks:
            words = block.head.words
            if block.begins("ip", "address") or block.begins("shutdown"):
                self.note(block.head.number, block.head.text, "orphan", "elsewhere", "a line of an interface that is not indented")
            if any(block.begins(*front) for front in OTHER_SYSTEMS):
                self.note(block.head.number, block.head.text, "system", "elsewhere", "a file of another system than IOS: its interfaces may not be read")
            if block.begins("router"):
                self.peers(block)
            if block.begins("crypto") and any("reverse-route" in line.words or line.words[:2] == ("route", "set") for line in block.lines):
                self.note(block.head.number, block.head.text, "crypto", "routes", "routes are put in for the far ends of tunnels")
            if block.begins("ip", "default-gateway") and is_address(words[-1]):
                self.router.hops.append(("", Address(words[-1])))
            if block.begins("interface") and len(words) > 1:
                self.interface(block)
            elif block.begins("ip", "access-list") or block.begins("access-list"):
                self.packet_list(block, groups)
            elif block.begins("ip", "prefix-list") and len(words) > 4:
                self.router.prefix_lists.setdefault(words[2], []).append(block.head)
            elif (block.begins("router", "ospf") or block.begins("router", "bgp")) and len(words) > 2:
                self.process(block)
            elif block.begins("ip", "route"):
                self.static(block.head)
            elif block.begins("vrf", "definition") or block.begins("ip", "vrf"):
                self.vrf(block)
            elif block.begins("route-map"):
                self.route_map(block)
            elif not any(block.begins(*front) for front in READ_TOP) or len(words) < 3 and words[0] in ("router", "interface"):
                self.judge(("top", "block"), block.head)
        for face in self.router.faces:
            face.has_labels = face.has_labels or self.labels
        for found in self.router.lists.values():
            if found.entries and all(entry.number is not None for entry in found.entries):
                found.entries.sort(key=lambda entry: entry.number or 0)
        return self.router

    def groups(self) -> entries.Groups:
        """The object groups of the file."""
        networks: dict[str, list[tuple[str, ...]]] = {}
        services: dict[str, list[tuple[str, ...]]] = {}
        for block in self.blocks:
            words = block.head.words
            if block.begins("object-group") and len(words) == 3 and words[1] in ("network", "service"):
                kept = [line.words for line in block.lines if line.words[0] != "description"]
                (networks if words[1] == "network" else services)[words[2]] = kept
            elif block.begins("object-group"):
                self.note(block.head.number, block.head.text, "object-group", "nothing", "acts only where an entry names it")
        return entries.groups_of(networks, services)

    def interface(self, block: ios.Block) -> None:
        """Takes the block of an interface."""
        face = Face(self.router.name, "".join(block.head.words[1:]), block.head, block.lines)
        if self.router.face(face.name) is not None:
            self.note(block.head.number, block.head.text, "interface", "unknown", "the block of an interface is there twice")
        self.router.faces.append(face)
        for line in block.lines:
            if not self.face_line(face, line):
                row = self.judge(("interface",), line, face)
                if row.cost == "unknown" and any(is_address(word.split("/")[0]) for word in line.words):
                    self.note(line.number, line.text, "interface", "elsewhere", "a line with an address that no row knows: it may join networks", face)
                if row.words[:1] in (("mpls",), ("tag-switching",)):
                    face.has_labels = True
                if any(ios.begins(line.words, front) for front in SHARED):
                    face.virtual |= {Address(word) for word in line.words if is_address(word)}

    def face_line(self, face: Face, line: ios.Line) -> bool:
        """Takes a line of an interface that says what stands in the model; whether it was one."""
        words = line.words
        if words in (("shutdown",), ("no", "shutdown")):
            face.is_shut = words == ("shutdown",)
        elif words == ("no", "ip", "address"):
            face.addresses.clear()
        elif words[:2] == ("ip", "address"):
            self.address(face, line)
        elif words[:2] == ("ip", "unnumbered"):
            face.is_elsewhere = True
            self.note(line.number, line.text, "unnumbered", "routes", "its address is another interface's", face)
        elif words[:2] == ("ip", "access-group") and len(words) == 4 and words[3] in ("in", "out"):
            face.lists[words[3]] = words[2]
        elif words[:2] == ("vrf", "forwarding") or words[:3] == ("ip", "vrf", "forwarding"):
            face.vrf = words[-1]
            self.router.vrfs.add(words[-1])
        elif words[0] == "service-policy":
            self.service_policy(face, line)
        elif words[0] == "bandwidth" and len(words) == 2 and words[1].isdigit():
            pass
        elif words[:3] == ("ip", "ospf", "cost") and len(words) == 4 or words[:2] == ("ip", "ospf") and words[3:4] == ("area",):
            if words[-2:] == ("secondaries", "none"):
                return False
        elif words[:3] == ("ip", "ospf", "network") and len(words) == 4 and words[3] in ("point-to-point", "broadcast"):
            pass
        else:
            return False
        return True

    def address(self, face: Face, line: ios.Line) -> None:
        """Takes a line that gives an address."""
        words = line.words
        try:
            value = Interface(f"{words[2]}/{words[3]}")
        except (ValueError, IndexError):
            face.is_elsewhere = True
            self.elsewhere(face, line)
            return
        if words[4:5] == ("secondary",):
            self.note(line.number, line.text, "secondary", "nothing", "a second network of one interface", face)
            face.addresses.append(value)
        else:
            face.addresses.insert(0, value)

    def elsewhere(self, face: Face, line: ios.Line) -> None:
        """Notes an address that the file does not tell, but for a line between two devices alone, or where a row says that it is fine."""
        row = self.table.find(("interface",), line.words)
        if row is not None:
            self.judge(("interface",), line, face)
        elif line.words[2:3] and line.words[2] not in GIVEN:
            self.note(line.number, line.text, "address", "elsewhere", "an address that is not read", face)
        elif not POINT.match(face.name):
            self.note(line.number, line.text, "address", "elsewhere", "another device gives it an address: of none of these networks, if you say so", face)
        self.note(line.number, line.text, "address", "routes", "its address is given to it by another device", face)

    def service_policy(self, face: Face, line: ios.Line) -> None:
        """Takes a line that binds a policy map."""
        words = line.words
        if len(words) != 3 or words[1] not in ("input", "output"):
            self.judge(("interface",), line, face)
            return
        if self.table.find(("interface",), words) is not None:
            self.judge(("interface",), line, face)
            return
        cost = self.policy_cost(words[2], ())
        reason = {"nothing": "it marks, queues and shapes", "drops": "a class of it polices or drops", "unknown": "a class of it does what no row knows"}[cost]
        self.note(line.number, line.text, "service-policy", cost, reason, face)

    def policy_cost(self, name: str, above: tuple[str, ...]) -> str:
        """What the classes of a policy map cost: nothing, drops, or unknown; a map that is not there does nothing."""
        block = next((b for b in self.blocks if b.head.words == ("policy-map", name)), None)
        if block is None:
            return "nothing"
        found = {"unknown"} if name in above else {"nothing"}
        for line in block.lines:
            if line.words[0] == "service-policy" and name not in above:
                found.add(self.policy_cost(line.words[-1], (*above, name)))
            elif line.words[0] not in QUEUES:
                found.add("drops" if line.words[0] in POLICERS else "unknown")
        return next(cost for cost in ("unknown", "drops", "nothing") if cost in found)

    def packet_list(self, block: ios.Block, groups: entries.Groups) -> None:
        """Takes a list, or an entry of one that stands line by line."""
        words = block.head.words
        if words[0] == "access-list":
            number = int(words[1]) if len(words) > 1 and words[1].isdigit() else 0
            is_standard = 1 <= number <= 99 or 1300 <= number <= 1999
            if not is_standard and not (100 <= number <= 199 or 2000 <= number <= 2699):
                self.note(block.head.number, block.head.text, "access-list", "nothing", "a list of another kind, which is bound to no packets of IPv4")
                return
            found = self.router.lists.setdefault(words[1], PacketList(words[1], is_standard))
            self.entry(found, block.head, words[2:], groups)
        elif len(words) == 4 and words[2] in ("standard", "extended"):
            if words[3] in self.router.lists:
                self.note(block.head.number, block.head.text, "ip access-list", "unknown", "the block of a list is there twice")
            found = self.router.lists.setdefault(words[3], PacketList(words[3], words[2] == "standard"))
            for line in block.lines:
                self.entry(found, line, line.words, groups)
        elif len(words) == 3 and words[2] in ("resequence", "logging", "log-update"):
            return
        elif words[2:3] not in (("logging",), ("log-update",), ("persistent",), ("match-local-traffic",)):
            name = words[-1]
            self.router.lists[name] = PacketList(name, False, is_read=False)

    def entry(self, found: PacketList, line: ios.Line, words: tuple[str, ...], groups: entries.Groups) -> None:
        try:
            made = (entries.standard(line.number, line.text.strip(), words) if found.is_standard
                    else entries.extended(line.number, line.text.strip(), words, groups))
        except entries.NotRead:
            found.is_read = False
            return
        if made is not None:
            found.entries.append(made)

    def peers(self, block: ios.Block) -> None:
        """Takes the neighbours that a process of any protocol names: what is sent to these addresses leaves over them."""
        table = block.head.words[block.head.words.index("vrf") + 1] if "vrf" in block.head.words[:-1] else ""
        for family, line in ios.families(block):
            vrf = family[family.index("vrf") + 1] if "vrf" in family[:-1] else table
            if line.words[0] == "neighbor" and len(line.words) > 1 and is_address(line.words[1]):
                self.router.hops.append((vrf, Address(line.words[1])))
            if line.words[:3] == ("bgp", "listen", "range") and len(line.words) > 3:
                try:
                    self.router.ranges.append(ipaddress.IPv4Network(line.words[3], strict=False))
                except ValueError:
                    self.router.ranges.append(ipaddress.IPv4Network("0.0.0.0/0"))

    def process(self, block: ios.Block) -> None:
        if "vrf" in block.head.words:
            return
        self.router.processes.append(block)
        for line in block.lines:
            if line.words[:2] in (("mpls", "ldp"), ("segment-routing", "mpls"), ("mpls", "traffic-eng")):
                self.labels = True

    def static(self, line: ios.Line) -> None:
        """Takes a static route: where it leads, and whether it leads from one table to another."""
        words = list(line.words[2:])
        vrf = ""
        if words[:1] == ["vrf"] and len(words) > 1:
            vrf, words = words[1], words[2:]
        elif words[:1] in (["profile"], ["static"]):
            self.note(line.number, line.text, "ip route", "nothing", "how static routes are watched")
            return
        try:
            prefix = ipaddress.IPv4Network(f"{words[0]}/{words[1]}", strict=False)
        except (ValueError, IndexError):
            self.note(line.number, line.text, "ip route", "unknown", "a static route that is not read")
            return
        ends = words[2:4]
        face = ends[0] if ends and not is_address(ends[0]) and ends[0] != "dhcp" else ""
        hop = next((Address(word) for word in (ends[1:] if face else ends[:1]) if is_address(word)), None)
        own = self.router.face(face) if face else None
        if "global" in words or (own is not None and own.vrf != vrf):
            self.router.leaks = True
        self.router.statics.append(Static(line, vrf, prefix, face, hop))
        if hop is not None:
            self.router.hops.append((vrf, hop))
        elif face and not face.lower().startswith("null"):
            self.router.exits.append(face)

    def vrf(self, block: ios.Block) -> None:
        self.router.vrfs.add(block.head.words[-1])
        for line in block.lines:
            if line.words[0] not in VRF_LINES:
                self.router.leaks = True

    def route_map(self, block: ios.Block) -> None:
        """Takes the addresses and interfaces to which a route map sends packets."""
        for line in block.lines:
            if line.words[:2] in (("set", "vrf"), ("set", "global"), ("set", "ip")) and {"vrf", "global"} & set(line.words):
                self.router.leaks = True
            if line.words[0] != "set":
                continue
            self.router.hops += [(vrf, Address(word)) for word in line.words if is_address(word) for vrf in ("", *self.router.vrfs)]
            if line.words[1:2] == ("interface",) or line.words[1:4] == ("ip", "default", "interface"):
                self.router.exits += [word for word in line.words if any(letter.isdigit() for letter in word)]


def read(capture: captures.Capture, table: rules.Table) -> Router:
    """The router that a capture is of."""
    return Reader(capture, table).read()
