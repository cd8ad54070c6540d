"""New entries of lists in fewer lines: entries that together are one prefix, or one range of ports, become one.

Where the new entries of a list match no packet in common their order does not matter, and one that matches what two of them
matched does the same. Where some do, as after repairs one after another, they stay as they are."""
from collections.abc import Sequence
from dataclasses import dataclass, replace
from itertools import combinations

from ops.changes import Changes, NewEntry, NewList
from ops.commands import Wrong
from ops.documents import network

PORTS = (0, 65535)
SERVICES = 1 << 24
LAST = "permit ip any any"


@dataclass(frozen=True)
class Box:
    """The packets of an entry: protocol as it is written, two prefixes, and destination ports."""

    action: str
    proto: str
    source: str
    target: str
    ports: tuple[int, int] = PORTS

    def size(self) -> int:
        """How many packets it matches, by addresses and services."""
        services = SERVICES if self.proto == "ip" else self.ports[1] - self.ports[0] + 1
        return network(self.source).num_addresses * network(self.target).num_addresses * services

    def meets(self, other: "Box") -> bool:
        """Whether some packet is of both."""
        if self.proto != other.proto and "ip" not in (self.proto, other.proto):
            return False
        if self.ports[0] > other.ports[1] or other.ports[0] > self.ports[1]:
            return False
        ends = ((self.source, other.source), (self.target, other.target))
        return all(network(here).overlaps(network(there)) for here, there in ends)

    def text(self) -> str:
        first, last = self.ports
        ports = "" if self.ports == PORTS else f" eq {first}" if first == last else f" range {first} {last}"
        return f"{self.action} {self.proto} {_written(self.source)} {_written(self.target)}{ports}"


def _written(prefix: str) -> str:
    net = network(prefix)
    if net.prefixlen == 0:
        return "any"
    return f"host {net.network_address}" if net.prefixlen == 32 else f"{net.network_address} {net.hostmask}"


def _end(words: list[str]) -> str:
    """The prefix at the front of these words, from which it is taken."""
    if words[0] == "any":
        words.pop(0)
        return "0.0.0.0/0"
    first, second = words.pop(0), words.pop(0)
    return f"{second}/32" if first == "host" else str(network(f"{first}/{second}"))


def box_of(text: str) -> Box:
    """The packets of an entry as a repair writes it."""
    action, proto, *words = text.split()
    source, target = _end(words), _end(words)
    if words[:1] == ["eq"] and len(words) == 2:
        return Box(action, proto, source, target, (int(words[1]), int(words[1])))
    if words[:1] == ["range"] and len(words) == 3:
        return Box(action, proto, source, target, (int(words[1]), int(words[2])))
    if words:
        raise ValueError(f"no entry of a repair: {text}")
    return Box(action, proto, source, target)


def _joined(one: Box, other: Box) -> Box | None:
    """One box of just the packets of two, where there is one."""
    for end in ("source", "target"):
        here, there = network(getattr(one, end)), network(getattr(other, end))
        if replace(one, **{end: getattr(other, end)}) == other and here.prefixlen == there.prefixlen > 0:
            if here != there and here.supernet() == there.supernet():
                return replace(one, **{end: str(here.supernet())})
    if replace(one, ports=other.ports) == other and one.ports[1] + 1 == other.ports[0]:
        return replace(one, ports=(one.ports[0], other.ports[1]))
    return None


def join(texts: Sequence[str]) -> list[str]:
    """The entries in fewer lines, which match the same packets."""
    boxes = [box_of(text) for text in texts]
    if any(one.meets(other) for one, other in combinations(boxes, 2)):
        return list(texts)
    size = sum(box.size() for box in boxes)
    at = 0
    while at < len(boxes):
        for other in range(len(boxes)):
            found = _joined(boxes[at], boxes[other]) if other != at else None
            if found:
                boxes[min(at, other)] = found
                del boxes[max(at, other)]
                at = -1
                break
        at += 1
    if sum(box.size() for box in boxes) != size:
        raise ValueError("they would not match the same packets")
    return [box.text() for box in boxes]


def fewer(changes: Changes) -> Changes:
    """The changes with the new entries of each ACL joined."""
    try:
        entries = [entry for entry in changes.entries if entry.prefix]
        for name in dict.fromkeys(entry.name for entry in changes.entries if not entry.prefix):
            texts = [entry.text for entry in changes.entries if not entry.prefix and entry.name == name]
            entries += [NewEntry(False, name, text) for text in join(texts)]
        lists = []
        for listed in changes.lists:
            whole = listed.prefix or listed.entries[-1] != LAST
            lists.append(listed if whole else NewList(False, listed.name, (*join(listed.entries[:-1]), LAST)))
    except ValueError as error:
        raise Wrong(f"{changes.file}: the new entries cannot be joined: {error}") from error
    return replace(changes, entries=entries, lists=lists)
