"""Networks of hosts: which there are, how they are called, and which parts of a policy lie in which."""
import re
from collections.abc import Mapping, Sequence
from dataclasses import dataclass

from ops import rules
from ops.links import Net, Segment, is_point
from ops.processes import ospf
from ops.routers import Face, Router

RESERVED = {"all", "and", "any", "both", "client", "everyone", "except", "group", "icmp", "never", "only", "opening", "pairs", "protocol",
            "reach", "reaches", "survive", "survives", "tcp", "through", "to", "udp", "ways", "waypoints"}


def description(face: Face) -> str:
    """What the description of an interface says."""
    for line in face.lines:
        if line.words[0] == "description":
            return " ".join(line.words[1:])
    return ""


def word_of(text: str) -> str:
    """A text as a word of the language of policies."""
    word = re.sub(r"[^a-z0-9.]+", "-", text.lower()).strip("-.")[:40].strip("-.")
    return f"{word}-net" if word in RESERVED or word[:1].isdigit() else word


def is_hosts(segment: Segment) -> bool:
    """Whether hosts are in a segment: not where just routers are, or a loopback, or what has no file."""
    return bool(segment.nets) and not segment.outside and not is_point(segment) and not all(f.name.startswith("Loopback") for f in segment.faces)


def named(segments: Sequence[Segment], transit: Sequence[Segment], known: Mapping[str, str]) -> dict[str, str]:
    """A name for each network of hosts, by its prefix: one that is known already, or one by the description of a port."""
    found: dict[str, str] = {}
    taken = set(known.values())
    for segment in segments:
        if not is_hosts(segment) or any(segment is other for other in transit) or any(face.vrf for face in segment.faces):
            continue
        for place, net in enumerate(segment.nets):
            if str(net) in known:
                found[str(net)] = known[str(net)]
                continue
            texts = [description(face) for face in segment.faces if description(face)]
            wanted = word_of(texts[0]) if texts else ""
            wanted = wanted or word_of(f"{segment.faces[0].router}-{segment.faces[0].name}")
            if place or wanted in taken:
                wanted = f"{wanted}-{str(net.network_address).replace('.', '-')}"
            taken.add(wanted)
            found[str(net)] = wanted
    return found


@dataclass(frozen=True)
class Part:
    """The part of a policy between two networks of the files: its place among the policies, and the two prefixes."""
    place: int
    source: Net
    target: Net


def split(prefix: Net, segments: Sequence[Segment]) -> list[Net]:
    """The parts of a prefix that lie in networks of the files; the prefix itself where it lies in one."""
    nets = [net for segment in segments for net in segment.nets]
    if any(prefix.subnet_of(net) for net in nets):
        return [prefix]
    return sorted({net for net in nets if net.subnet_of(prefix)})


def parts(place: int, source: Net, target: Net, segments: Sequence[Segment]) -> tuple[list[Part], str]:
    """The parts of a policy, and why there are none, or nothing."""
    ends: list[list[Net]] = []
    for prefix in (source, target):
        found = split(prefix, segments)
        if not found and any(segment.outside for segment in segments):
            found = [prefix]
        if not found:
            return [], f"{prefix} is in no file, and no network leads outside"
        ends.append(found)
    made = [Part(place, one, other) for one in ends[0] for other in ends[1] if not one.overlaps(other)]
    made = [part for part in made if not same_network(part, segments)]
    return made, "" if made else f"{source} and {target} lie in one network"


def same_network(part: Part, segments: Sequence[Segment]) -> bool:
    """Whether both ends lie in one network."""
    return any(part.source.subnet_of(net) and part.target.subnet_of(net) for segment in segments for net in segment.nets)


def is_transit(segment: Segment, routers: Sequence[Router]) -> bool:
    """Whether routers alone meet in a segment: a static route or a neighbour of one is another of them, or OSPF speaks there."""
    owned = {address.ip for face in segment.faces for address in face.addresses}
    if any(hop in owned for router in routers for _, hop in router.hops):
        return True
    blocks = {router.name: block for router in routers for block in router.processes if block.head.words[1] == "ospf"}
    of = {router.name: router for router in routers}
    table = rules.Table(given=())
    speaking = [face for face in segment.faces if face.router in blocks and ospf(of[face.router], blocks[face.router], table).speaks(face)]
    return len(speaking) > 1
