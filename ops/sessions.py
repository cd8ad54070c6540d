"""Sessions of BGP between routers, and which routes go over them."""
from collections.abc import Sequence
from dataclasses import dataclass

from ops import adjacency, ios
from ops.links import Net, Segment
from ops.processes import Bgp, Peer
from ops.routers import Face


@dataclass(frozen=True)
class Rule:
    """An entry of a prefix list: its answer, and the prefixes that it matches."""
    permit: bool
    net: Net
    low: int
    high: int
    text: str

    def matches(self, net: Net) -> bool:
        return net.subnet_of(self.net) and self.low <= net.prefixlen <= self.high


def rule_of(line: ios.Line) -> Rule | None:
    """The entry that a line `ip prefix-list NAME ..` says, or None for a description."""
    words = list(line.words[3:])
    if words[:1] == ["description"]:
        return None
    if words[:1] == ["seq"]:
        words = words[2:]
    net = Net(words[1], strict=False)
    bounds = dict(zip(words[2::2], map(int, words[3::2])))
    low = bounds.get("ge", net.prefixlen)
    high = bounds.get("le", 32 if "ge" in bounds else net.prefixlen)
    tail = "".join(f" {name} {bound}" for name, bound in bounds.items())
    return Rule(words[0] == "permit", net, low, high, f"{words[0]} {net}{tail}")


def rules_of(lines: Sequence[ios.Line]) -> list[Rule] | None:
    """The entries of a prefix list, or None where a line of it is not read."""
    try:
        return [rule for line in lines if (rule := rule_of(line)) is not None]
    except (ValueError, IndexError):
        return None


def permits(rules: Sequence[Rule], net: Net) -> bool:
    """Whether a prefix list permits a prefix; one without entries permits every one."""
    return next((rule.permit for rule in rules if rule.matches(net)), not rules)


def may_take(rules: Sequence[Rule], net: Net) -> bool:
    """Whether a prefix list may permit a prefix of which some address is one of the network's and that is not shorter."""
    for rule in rules:
        if rule.permit and rule.net.overlaps(net) and rule.high >= net.prefixlen:
            return True
        if not rule.permit and net.subnet_of(rule.net) and rule.low <= net.prefixlen and rule.high == 32:
            return False
    return not rules


@dataclass(frozen=True)
class Session:
    """A session between two interfaces, with what each end says of the other."""
    faces: tuple[Face, Face]
    processes: tuple[Bgp, Bgp]
    peers: tuple[Peer, Peer]

    def list_rules(self, end: int, way: str) -> list[Rule] | None:
        """The prefix list at an end, for routes in or out; no entries where there is none."""
        name = self.peers[end].lists.get(way)
        return rules_of(self.processes[end].router.prefix_lists.get(name, ())) if name else []

    def lost(self) -> str:
        """Why it is not known which routes go over the session, or nothing."""
        if any(self.list_rules(end, way) is None for end in (0, 1) for way in ("in", "out")):
            return f"a prefix list between {self.faces[0].key()} and {self.faces[1].key()} is not read"
        return ""

    def taken(self, end: int, targets: Sequence[Net]) -> tuple[str, list[str]]:
        """The list for routes in at an end that takes of these networks what both ends let pass: its name, and its entries."""
        out, inside = self.list_rules(1 - end, "out") or [], self.list_rules(end, "in") or []
        if not inside:
            return f"{self.faces[1 - end].router}-{self.peers[1 - end].lists.get('out')}", [rule.text for rule in out]
        denied = [f"deny {net}" for net in targets if out and not permits(out, net)]
        return self.peers[end].lists["in"], denied + [rule.text for rule in inside]


def kept(peer: Peer, *words: str) -> set[tuple[str, ...]]:
    """The lines of a neighbour that begin so, without its address."""
    return {adjacency.plain(line.words)[2:] for line in peer.lines if line.words[2 : 2 + len(words)] == words}


def judged(session: Session) -> adjacency.Judged:
    """Whether a session comes up."""
    (a, b), (pa, pb), (one, other) = session.faces, session.processes, session.peers
    if one.remote != pb.number or other.remote != pa.number:
        return adjacency.Judged("down", f"{a.key()} and {b.key()} have another AS for each other")
    if not pa.is_active(one) or not pb.is_active(other):
        return adjacency.Judged("down", f"the session of {a.key()} and {b.key()} is shut down or not active")
    passes = adjacency.bgp_passes((pa.router, pb.router), (a, b), (a.addresses[0], b.addresses[0]))
    if passes is not True:
        return adjacency.Judged("yours" if passes is None else "down", f"lists at {a.key()} and {b.key()} may stop their session")
    if kept(one, "password") != kept(other, "password"):
        hidden = any("6" in words for words in kept(one, "password") | kept(other, "password"))
        return adjacency.Judged("yours" if hidden else "down", f"passwords of {a.key()} and {b.key()} differ")
    for words in (("ttl-security",), ("fall-over",), ("ebgp-multihop",), ("disable-connected-check",)):
        if kept(one, *words) != kept(other, *words):
            return adjacency.Judged("yours", f"only one of {a.key()} and {b.key()} has `{words[0]}`, or another")
    if kept(one, "transport") or kept(other, "transport"):
        return adjacency.Judged("yours", f"`transport` between {a.key()} and {b.key()}")
    return adjacency.line_of(a, b)


def most_routes(processes: Sequence[Bgp]) -> int:
    """No session carries more routes than this, where each neighbour has a file."""
    return sum(len(process.networks) + len(process.router.faces) + len(process.router.statics) for process in processes)


def few(session: Session, most: int) -> bool:
    """Whether no end takes its session down for the number of routes that there can be."""
    limits = [words[1] for peer in session.peers for words in kept(peer, "maximum-prefix")]
    return all(limit.isdigit() and int(limit) >= most for limit in limits)


def find(processes: dict[str, Bgp], segments: Sequence[Segment]) -> tuple[list[Session], list[tuple[Bgp, Peer]], list[str]]:
    """The sessions between routers that meet in a segment of two; the neighbours that have no file; and what is in the way."""
    owners = {address.ip: (face, segment) for segment in segments for face in segment.faces if not face.vrf and face.router in processes
              for address in face.addresses}
    found: dict[frozenset[str], Session] = {}
    missing, wrong = [], []
    for process in processes.values():
        for peer in process.peers.values():
            if peer.is_shut or not peer.remote:
                continue
            if peer.remote == process.number:
                wrong.append(f"{process.router.name} has the neighbour {peer.address} in its own AS")
                continue
            far, segment = owners.get(peer.address, (None, None))
            if far is None or segment is None:
                missing.append((process, peer))
                continue
            mine = [face for face in segment.faces if face.router == process.router.name and not face.vrf]
            if len(mine) != 1 or len(segment.faces) != 2 or segment.outside:
                wrong.append(f"{process.router.name} and {far.router} are neighbours over more than one line ({peer.address})")
                continue
            back = processes[far.router].peers.get(mine[0].addresses[0].ip)
            if back is not None:
                key = frozenset((mine[0].key(), far.key()))
                found.setdefault(key, Session((mine[0], far), (process, processes[far.router]), (peer, back)))
    return list(found.values()), missing, wrong
