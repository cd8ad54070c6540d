"""Packet lists as arcv reads them: entries that look at more are widened or left out, to the side that is safe."""
from collections.abc import Iterable
from dataclasses import dataclass

from ops import ports
from ops.entries import EVERY, Area, Box, Entry, Net, among
from ops.routers import PacketList

MOST = 2000


@dataclass(frozen=True)
class Change:
    """An entry that a copy has in another form: its line, its text, the rule, and which packets pass the copy."""
    line: int
    text: str
    rule: str
    direction: str


def end_text(net: Net) -> str:
    if net.prefixlen == 0:
        return "any"
    return f"host {net.network_address}" if net.prefixlen == 32 else f"{net.network_address} {net.hostmask}"


def port_texts(box: Box) -> list[str]:
    """The parts of entries by which the ports of a box are said, one an entry; none where there are no ports."""
    if box.protocol not in ports.PORTS or box.dports == ports.ALL:
        return [""]
    return [f" eq {first}" if first == last else f" range {first} {last}" for first, last in box.dports]


def box_texts(answer: str, box: Box, is_standard: bool) -> list[str]:
    """The entries that say a box: all packets of its networks, protocol and destination ports."""
    if is_standard:
        return [f" {answer} {end_text(net)}" for net in box.source.nets]
    name = "ip" if box.protocol == EVERY else ports.WRITTEN.get(box.protocol, str(box.protocol))
    return [f" {answer} {name} {end_text(source)} {end_text(target)}{part}"
            for source in box.source.nets for target in box.target.nets for part in port_texts(box)]


def size(box: Box) -> int:
    return len(box.source.nets) * len(box.target.nets) * max(1, len(box.dports))


def hull(nets: Iterable[Net]) -> Area:
    """One network that holds them all."""
    nets = tuple(nets)
    found = nets[0]
    while not all(net.subnet_of(found) for net in nets):
        found = found.supernet()
    return Area((found,), len(nets) == 1)


def reduced(box: Box) -> Box:
    """The box, with one network at each end where it would take too many entries to write it out."""
    if size(box) <= MOST:
        return box
    return Box(box.protocol, hull(box.source.nets), hull(box.target.nets), box.sports, box.dports, box.flags, (*box.more, "many networks"))


def is_later_fragment(box: Box) -> bool:
    """Whether only later fragments match: whole packets, of which the model speaks, do not."""
    return "fragments" in box.more


def entry_texts(entry: Entry, packets: str, wider: bool, is_standard: bool) -> tuple[list[str], str]:
    """The entries of the copy for an entry, and how they differ: `exact`, or else what was done."""
    answer = "permit" if entry.permit else "deny"
    kept = entry.permit == wider
    if entry.boxes is None:
        anything = [f" {answer} any" if is_standard else f" {answer} ip any any"]
        return (anything, f"not read, so it matches all packets: {'more' if wider else 'fewer'} pass") if kept else ([], "not read, so left out")
    texts: list[str] = []
    done = ""
    for whole in entry.boxes:
        box = among(whole, packets)
        if box is None:
            done = done or f"matches no packet that is asked about ({packets})"
            continue
        box = reduced(box)
        if box.is_exact():
            texts += box_texts(answer, box, is_standard)
            if box != whole:
                done = done or f"said for the packets that are asked about ({packets})"
        elif not wider and not entry.permit and is_later_fragment(box):
            done = "matches later fragments alone: packets are whole"
        elif kept:
            texts += box_texts(answer, box, is_standard)
            done = "widened" if wider else "widened, so that fewer pass"
        else:
            done = "left out: it looks at more"
    return texts, done or "exact"


def list_texts(found: PacketList, packets: str, wider: bool) -> tuple[list[str], list[Change]]:
    """The entries of a list on a copy, at least one, and what is not as it was."""
    texts: list[str] = []
    changes: list[Change] = []
    for entry in found.entries:
        more, done = entry_texts(entry, packets, wider, found.is_standard)
        texts += more
        if done != "exact":
            changes.append(Change(entry.line, entry.text, done, direction(done, wider)))
        elif len(more) != 1 or words(more[0]) != words(entry.text):
            changes.append(Change(entry.line, entry.text, "written out", "exact"))
    if not texts:
        texts = [" deny any"] if found.is_standard else [" deny ip any any"]
    return texts, changes


def words(text: str) -> list[str]:
    """The words of an entry from its answer on, without what is recorded of its packets."""
    found = [word for word in text.split() if word not in ("log", "log-input")]
    while found and found[0] not in ("permit", "deny"):
        found.pop(0)
    return found


def direction(done: str, wider: bool) -> str:
    if done.startswith(("matches", "said")):
        return "exact"
    return "wider" if wider else "narrower"
