"""The text of policies: groups and statements, read line by line."""
import re
from collections.abc import Iterable, Iterator, Sequence
from dataclasses import dataclass, field, replace
from itertools import product

from ops.documents import Policy, is_prefix, network

NAME = re.compile(r"[A-Za-z0-9_][A-Za-z0-9_.-]*")
PACKETS = ("opening", "client")
EVERYONE = "everyone"
WORDS = {
    "never", "reach", "reaches", "only", "through", "survives", "survive", "both", "ways", "all", "pairs", "except",
    "and", "to", EVERYONE, *PACKETS,
}
MOST_FAILURES = 16
MOST = 20_000


@dataclass(frozen=True)
class Named:
    """A policy with its name; which packets of it are meant; for `through` what the text names as waypoints."""

    name: str
    policy: Policy
    packets: str = "all"
    waypoints: tuple[str, ...] = ()
    line: int = 0


@dataclass
class Statement:
    """A line of the text: what it says of each pair of its two ends."""

    line: int
    name: str = ""
    source: str = ""
    target: str = ""
    kind: str = "reach"
    failures: int = 0
    proto: str | int | None = None
    port: int | None = None
    packets: str = "all"
    waypoints: tuple[str, ...] = ()
    both: bool = False


@dataclass
class Reading:
    """What is known while a text is read: networks by their names, groups, and what was found."""

    networks: dict[str, str]
    groups: dict[str, list[str]] = field(default_factory=dict)
    found: list[Named] = field(default_factory=list)

    def prefixes(self, word: str) -> list[str]:
        """The prefixes that a word stands for."""
        if is_prefix(word):
            return [word]
        if word == EVERYONE:
            return list(self.networks.values())
        if word in self.groups:
            return self.groups[word]
        if word in self.networks:
            return [self.networks[word]]
        if re.fullmatch(r"[0-9.]+(/[0-9]+)?", word):
            raise ValueError(f"{word} is no prefix such as 10.1.0.0/24")
        known = ", ".join([*self.networks, *self.groups][:12])
        raise ValueError(f"no network or group is named {word}" + (f"; there are {known}" if known else ""))


def _number(words: list[str], what: str, most: int) -> int:
    if not words or not words[0].isdigit() or len(words[0]) > 5 or int(words[0]) > most:
        raise ValueError(f"{what} is a number from 0 to {most}")
    return int(words.pop(0))


def _service(word: str, words: list[str], found: Statement) -> bool:
    """Reads a service, where the word begins one."""
    if word == "icmp":
        found.proto = word
    elif word in ("tcp", "udp"):
        found.proto = word
        if words and words[0].isdigit():
            found.port = _number(words, "a port", 65535)
    elif word == "protocol":
        found.proto = _number(words, "a protocol", 255)
        if found.proto == 0:
            raise ValueError("a protocol is a number from 1 to 255")
    else:
        return False
    return True


def _waypoints(words: list[str], found: Statement) -> None:
    if words[:1] != ["through"]:
        raise ValueError("`only` is followed by `through` and the names of waypoints")
    words.pop(0)
    points = []
    while words and words[0] not in WORDS | {"tcp", "udp", "icmp", "protocol"}:
        points.append(words.pop(0).rstrip(","))
    if not points:
        raise ValueError(
            "`only through` names waypoints: a router, ROUTER:INTERFACE, or `waypoints` for those of the document"
        )
    found.kind, found.waypoints = "through", () if points == ["waypoints"] else tuple(points)


def _rest(words: list[str], found: Statement, survives: bool) -> None:
    """The words behind the two ends."""
    seen = set()
    while words:
        word = words.pop(0)
        if word in seen:
            raise ValueError(f"`{word}` is there twice")
        seen.add(word)
        if word in PACKETS:
            found.packets = word
        elif word == "both" and words[:1] == ["ways"]:
            words.pop(0)
            found.both = True
        elif word in ("survives", "survive") and survives and found.kind == "reach":
            found.failures = _number(words, "how many links may fail", MOST_FAILURES)
        elif word == "only" and survives and found.failures == 0:
            _waypoints(words, found)
        elif found.proto is not None or not _service(word, words, found):
            raise ValueError(f"`{word}` cannot come here")


def _statement(words: list[str], line: int) -> Statement:
    found = Statement(line)
    if words and words[0].endswith(":") and len(words[0]) > 1:
        found.name = words.pop(0)[:-1]
        if not NAME.fullmatch(found.name):
            raise ValueError(f"{found.name} is no name: letters, digits, `_`, `.` and `-`")
    if len(words) < 3:
        raise ValueError("a policy is `FROM reaches TO ..` or `FROM never reaches TO ..`")
    found.source = words.pop(0)
    if words[0] == "never":
        words.pop(0)
        found.kind = "blocked"
    if not words or words.pop(0) not in ("reach", "reaches"):
        raise ValueError(f"`reaches` or `never reaches` follows {found.source}")
    if not words:
        raise ValueError("a policy ends with whom it speaks of, and what of it")
    found.target = words.pop(0)
    _rest(words, found, found.kind != "blocked")
    return found


def _group(words: list[str], reading: Reading) -> None:
    if len(words) < 4 or words[2] != "=":
        raise ValueError("a group is `group NAME = 10.1.99.0/24 ..`")
    name = words[1]
    if not NAME.fullmatch(name) or name in WORDS:
        raise ValueError(f"{name} is no name of a group")
    if name in reading.groups or name in reading.networks:
        raise ValueError(f"{name} is named already")
    members: list[str] = []
    for word in words[3:]:
        members += [prefix for prefix in reading.prefixes(word.rstrip(",")) if prefix not in members]
    reading.groups[name] = members


def _pairs(sources: Iterable[str], targets: Iterable[str]) -> list[tuple[str, str]]:
    """The pairs of different networks; a policy from a network to itself is none."""
    return [
        (source, target)
        for source, target in product(sources, targets) if not network(source).overlaps(network(target))
    ]


def _policies(statement: Statement, reading: Reading) -> list[Named]:
    pairs = _pairs(reading.prefixes(statement.source), reading.prefixes(statement.target))
    if not pairs:
        raise ValueError(f"{statement.source} and {statement.target} are one network, and within it nothing is asked")
    if statement.both:
        pairs += [(target, source) for source, target in pairs if (target, source) not in pairs]
    failures = statement.failures if statement.kind == "reach" else None
    found = []
    for number, (source, target) in enumerate(pairs, 1):
        name = f"{statement.name}.{number}" if statement.name and len(pairs) > 1 else statement.name
        policy = Policy(statement.kind, source, target, failures, statement.proto, statement.port)
        found.append(Named(name, policy, statement.packets, statement.waypoints, statement.line))
    return found


def _exceptions(words: Sequence[str], reading: Reading) -> set[tuple[str, str]]:
    """The pairs that `except ..` names: `A to B`, `A and B` for both ways, `A` for every pair with A at an end."""
    everyone, found = list(reading.networks.values()), set()
    for part in " ".join(words).split(","):
        names = part.split()
        if len(names) == 1:
            mine = reading.prefixes(names[0])
            found |= set(product(mine, everyone)) | set(product(everyone, mine))
        elif len(names) == 3 and names[1] in ("to", "and"):
            here, there = reading.prefixes(names[0]), reading.prefixes(names[2])
            found |= set(product(here, there)) | (set(product(there, here)) if names[1] == "and" else set())
        else:
            raise ValueError(f"`{part.strip()}` is not `A to B`, `A and B` or `A`, with commas between them")
    return found


def _all_pairs(words: list[str], reading: Reading, line: int) -> list[Named]:
    if len(words) < 4 or words[2] not in ("survive", "survives"):
        raise ValueError("`all pairs survive N`, and behind it `except ..` where that is wanted")
    rest = words[3:]
    failures = _number(rest, "how many links may fail", MOST_FAILURES)
    if rest and (rest[0] != "except" or len(rest) == 1):
        raise ValueError(f"`{rest[0]}` cannot come here: `except A to B, C and D, E`")
    left_out = _exceptions(rest[1:], reading) if rest else set()
    networks = list(reading.networks.values())
    if len(networks) < 2:
        raise ValueError("`all pairs` speaks of the networks of hosts, and fewer than two are known")
    pairs = [pair for pair in _pairs(networks, networks) if pair not in left_out]
    return [Named("", Policy("reach", source, target, failures), line=line) for source, target in pairs]


def _contradictions(found: Sequence[Named]) -> Iterator[tuple[Named, Named]]:
    """Pairs that no network meets: one asks that packets arrive of which the other asks that they never do."""
    blocked: dict[tuple[str, str], list[Named]] = {}
    for one in found:
        if one.policy.kind == "blocked":
            blocked.setdefault((one.policy.source, one.policy.target), []).append(one)
    ends = {end: [source for source in dict.fromkeys(pair[end] for pair in blocked)] for end in (0, 1)}
    near: dict[tuple[int, str], list[str]] = {}
    for one in found:
        if one.policy.kind != "reach":
            continue
        wanted = (one.policy.source, one.policy.target)
        for end, prefix in enumerate(wanted):
            if (end, prefix) not in near:
                near[end, prefix] = [other for other in ends[end] if network(other).overlaps(network(prefix))]
        for pair in product(near[0, wanted[0]], near[1, wanted[1]]):
            for other in blocked.get(pair, ()):
                if one.packets == other.packets and one.policy.meets(other.policy):
                    yield one, other


def _check(found: Sequence[Named]) -> None:
    seen: dict[str, int] = {}
    for one in found:
        if one.name and seen.setdefault(one.name, one.line) != one.line:
            raise ValueError(f"line {one.line}: {one.name} is the name of line {seen[one.name]} already")
    for one, other in _contradictions(found):
        first, second = sorted((one, other), key=lambda named: named.line)
        where = f"{one.policy.source} to {one.policy.target}"
        raise ValueError(
            f"line {second.line}: it contradicts line {first.line}: packets from {where} cannot both arrive and "
            "never arrive"
        )


def read_policies(text: str, networks: dict[str, str]) -> list[Named]:
    """The policies of a text, over networks by their names; `ValueError` with the line where it is wrong."""
    reading = Reading(networks)
    for number, row in enumerate(text.split("\n"), 1):
        words = row.split("#", 1)[0].replace(",", ", ").split()
        if not words:
            continue
        try:
            if words[0] == "group":
                _group(words, reading)
            elif words[:2] == ["all", "pairs"]:
                reading.found += _all_pairs(words, reading, number)
            else:
                reading.found += _policies(_statement(words, number), reading)
            if len(reading.found) > MOST:
                raise ValueError(f"up to here it comes to {len(reading.found):,} policies, and {MOST:,} are the most")
        except ValueError as error:
            raise ValueError(f"line {number}: {error}") from error
    kept: dict[Named, Named] = {}
    for named in reading.found:
        kept.setdefault(replace(named, name="", line=0), named)
    _check(list(kept.values()))
    return list(kept.values())


def first_policies(networks: dict[str, str]) -> str:
    """A first text: each pair of networks, both ways, one failure."""
    lines = ["# What has to hold. `bin/policies --help` says what may come here.", "all pairs survive 1", ""]
    return "\n".join(lines) if len(networks) > 1 else lines[0] + "\n"
