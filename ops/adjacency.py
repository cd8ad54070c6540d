"""Whether two interfaces that meet make an adjacency: timers, keys, sizes and kinds of lines compared at both ends."""
import re
from dataclasses import dataclass

from ops import entries, ios, ports
from ops.processes import Ospf
from ops.routers import Face, Interface, PacketList, Router

SALT = b"dsfd;kfoA,.iyewrkldJKDHSUBsgvca69834ncxv9873254k;fg87"
FINE = ("ip ospf priority", "ip ospf mtu-ignore", "bfd interval", "ip ospf bfd", "bfd all-interfaces", "bfd")


@dataclass(frozen=True)
class Judged:
    """Whether an adjacency is `up`, `down`, `yours` where the files do not tell, or `unknown` where it is not modelled; and why."""
    answer: str
    reason: str = ""


def plain(words: tuple[str, ...]) -> tuple[str, ...]:
    """The words that end in a key, with the key as it was typed where that can be told."""
    if len(words) < 2 or words[-2] != "7":
        return tuple(word for place, word in enumerate(words) if not (word == "0" and place == len(words) - 2))
    text = words[-1]
    try:
        seed, data = int(text[:2]), bytes.fromhex(text[2:])
    except ValueError:
        return words
    key = bytes(byte ^ SALT[(seed + place) % len(SALT)] for place, byte in enumerate(data))
    return (*words[:-2], key.decode("latin-1"))


def value(face: Face, *front: str) -> str:
    """The last word of the last line of an interface that begins like that and has one word more."""
    found = [line.words[-1] for line in face.lines if line.words[: len(front)] == front and len(line.words) == len(front) + 1]
    return found[-1] if found else ""


def network_type(face: Face) -> str:
    """The OSPF network type of an interface."""
    said = [line.words[3:] for line in face.lines if line.words[:3] == ("ip", "ospf", "network")]
    if said:
        return " ".join(said[-1])
    if re.match(r"(Serial|Tunnel|Multilink|POS|Dialer)", face.name):
        return "point-to-point"
    return "broadcast"


def timers(face: Face) -> tuple[str, str]:
    hello = value(face, "ip", "ospf", "hello-interval") or "10"
    minimal = [line.words for line in face.lines if line.words[:4] == ("ip", "ospf", "dead-interval", "minimal")]
    if minimal:
        return " ".join(minimal[-1][4:]), "1"
    return hello, value(face, "ip", "ospf", "dead-interval") or (str(4 * int(hello)) if hello.isdigit() else hello)


def keys(face: Face, process: Ospf) -> tuple[str, frozenset[tuple[str, ...]]]:
    """How messages are authenticated on an interface, and with which keys."""
    lines = [line.words for line in face.lines if line.words[:3] == ("ip", "ospf", "authentication")]
    kind = (" ".join(lines[-1][3:]) or "key") if lines else process.authentication.get(process.area(face), "null")
    front = {"key": "authentication-key", "message-digest": "message-digest-key"}.get(kind)
    if front is None:
        return kind, frozenset()
    return kind, frozenset(plain(line.words)[2:] for line in face.lines if line.words[:3] == ("ip", "ospf", front))


def size(face: Face) -> str:
    """The largest packet that an interface sends whole, as its own lines say."""
    return value(face, "ip", "mtu") or value(face, "mtu") or "1500"


def system_size(router: Router) -> list[str]:
    """What lines say of the largest packet of all interfaces."""
    return sorted(note.text for note in router.notes if note.text.startswith("system mtu") and note.text.split()[-1] != "1500")


def tag(face: Face) -> str:
    """What the line of an interface speaks: the VLAN of a subinterface or of a VLAN's interface, or the encapsulation."""
    for line in face.lines:
        if line.words[0] == "encapsulation":
            return " ".join(line.words[1:3]).lower()
    vlan = re.fullmatch(r"Vlan([0-9]+)", face.name)
    return f"dot1q {vlan[1]}" if vlan else ""


def others(face: Face) -> frozenset[tuple[str, ...]]:
    """The other lines that can keep an adjacency down."""
    kept = ("ip ospf", "ip mtu", "mtu", "encapsulation", *FINE)
    texts = [note.text for note in face.notes if note.cost == "adjacency"]
    found = [text for text in texts if not text.startswith(kept)]
    found += [text for text in texts if text.startswith("ip ospf ttl-security")]
    return frozenset(plain(ios.words_of(text)) for text in found)


def watched(face: Face) -> bool:
    return any(note.text.startswith(("bfd interval", "bfd template", "ip ospf bfd")) for note in face.notes)


def ospf(a: Face, b: Face, pa: Ospf, pb: Ospf) -> Judged:
    """The adjacency of two interfaces over which OSPF speaks."""
    types = {network_type(a), network_type(b)}
    if not types <= {"point-to-point", "broadcast"}:
        return Judged("unknown", f"{a.key()} and {b.key()} are {' and '.join(sorted(types))}, which is not modelled")
    if len(types) > 1:
        return Judged("down", f"{a.key()} is {network_type(a)}, {b.key()} is {network_type(b)}")
    if timers(a) != timers(b):
        return Judged("down", f"hello and dead timers of {a.key()} and {b.key()} differ")
    (kind, mine), (other, far) = keys(a, pa), keys(b, pb)
    if kind != other:
        return Judged("yours" if "key-chain" in kind + other else "down", f"{a.key()} authenticates by {kind}, {b.key()} by {other}")
    if mine != far:
        hidden = any("6" in words[:-1] for words in mine | far) or mine & far
        return Judged("yours" if hidden else "down", f"keys of {a.key()} and {b.key()} differ")
    if value(a, "ip", "ospf", "priority") == "0" == value(b, "ip", "ospf", "priority") and network_type(a) == "broadcast":
        return Judged("down", f"{a.key()} and {b.key()} have priority 0 both")
    ignored = all(any(line.words[:3] == ("ip", "ospf", "mtu-ignore") for line in face.lines) for face in (a, b))
    if size(a) != size(b) and not ignored:
        return Judged("down", f"{a.key()} sends {size(a)} bytes, {b.key()} {size(b)}")
    if system_size(pa.router) != system_size(pb.router) and not ignored:
        return Judged("yours", f"`system mtu` of {a.router} and {b.router} differs")
    return line_of(a, b)


def line_of(a: Face, b: Face) -> Judged:
    """What is left to compare for each protocol: the line itself, and what no row knows better."""
    if tag(a) != tag(b):
        return Judged("yours", f"{a.key()} speaks {tag(a) or 'without a tag'}, {b.key()} {tag(b) or 'without a tag'}")
    if others(a) != others(b):
        differ = sorted(" ".join(words[:2]) for words in others(a) ^ others(b))
        return Judged("yours", f"lines `{differ[0]} ..` of {a.key()} and {b.key()} differ")
    if watched(a) != watched(b):
        return Judged("yours", f"BFD watches one of {a.key()} and {b.key()} alone")
    return Judged("up")


@dataclass(frozen=True)
class Packet:
    """A packet as a list sees it."""
    protocol: int
    source: int
    target: int
    sport: int = 0
    dport: int = 0
    flags: tuple[str, ...] = ()


def meets(box: entries.Box, packet: Packet) -> bool | None:
    """Whether a box matches a packet; None where that is not known."""
    if box.protocol not in (entries.EVERY, packet.protocol):
        return False
    for area, address in ((box.source, packet.source), (box.target, packet.target)):
        if not any(int(net.network_address) <= address <= int(net.broadcast_address) for net in area.nets):
            return False
    if box.protocol in ports.PORTS:
        for ranges, port in ((box.sports, packet.sport), (box.dports, packet.dport)):
            if not any(first <= port <= last for first, last in ranges):
                return False
        if box.flags and not box.flags.holds(packet.flags):
            return False
    return True if box.source.is_exact and box.target.is_exact and not box.more else None


def permits(found: PacketList | None, packet: Packet) -> bool | None:
    """Whether a list permits a packet; None where that is not known."""
    if found is None or (found.is_read and not found.entries):
        return True
    if not found.is_read:
        return None
    answers = set()
    for entry in found.entries:
        tests = [None] if entry.boxes is None else [meets(box, packet) for box in entry.boxes]
        if True in tests:
            answers.add(entry.permit)
            return entry.permit if len(answers) == 1 else None
        if None in tests:
            answers.add(entry.permit)
    return False if answers <= {False} else None


def ospf_passes(router: Router, face: Face, own: Interface, far: Interface) -> bool | None:
    """Whether the list inbound at an interface lets OSPF's packets pass from the far end."""
    found = router.lists.get(face.lists.get("in", ""))
    targets = (int(own.ip), 0xE0000005, 0xE0000006)
    answers = {permits(found, Packet(89, int(far.ip), target)) for target in targets}
    return False if False in answers else None if None in answers else True


CLIENT = 40000


def bgp_passes(routers: tuple[Router, Router], faces: tuple[Face, Face], ends: tuple[Interface, Interface]) -> bool | None:
    """Whether the lists inbound at two interfaces let one of the two ends open a session of BGP."""
    found = [router.lists.get(face.lists.get("in", "")) for router, face in zip(routers, faces)]
    first, second = int(ends[0].ip), int(ends[1].ip)
    answers = []
    for a, b, list_a, list_b in ((first, second, found[0], found[1]), (second, first, found[1], found[0])):
        there = [permits(list_b, Packet(6, a, b, CLIENT, 179, flags)) for flags in (("syn",), ("ack",))]
        back = permits(list_a, Packet(6, b, a, 179, CLIENT, ("ack",)))
        answers.append(False if False in (*there, back) else None if None in (*there, back) else True)
    return True if True in answers else None if None in answers else False


