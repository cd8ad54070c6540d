"""Documents of arcv: what they hold, read and written."""
import functools
import ipaddress
import json
import os
import re
from dataclasses import dataclass, field
from typing import Any

from ops import ports
from ops.commands import Wrong, load

KINDS = ("blocked", "through", "reach")
WITH_PORTS = (6, 17)
EDIT_KINDS = ("list", "filter", "session")
MOST_POLICIES = 256


@dataclass(frozen=True)
class Link:
    """A link by its two ends, each `ROUTER:INTERFACE`."""

    a: str
    b: str
    waypoint: bool = False

    def ends(self) -> tuple[tuple[str, str], tuple[str, str]]:
        """Router and interface of each end."""
        (router, _, face), (other, _, far) = self.a.partition(":"), self.b.partition(":")
        return (router, face), (other, far)


@dataclass(frozen=True)
class Policy:
    """A policy: its kind, the prefixes that it speaks of, and for `reach` how many links may fail."""

    kind: str
    source: str
    target: str
    failures: int | None = None
    proto: str | int | None = None
    port: int | None = None

    def services(self) -> tuple[int, int]:
        """The first and the last service that it speaks of: protocol times 65,536 plus port."""
        if self.proto is None:
            return 0, (1 << 24) - 1
        number = ports.PROTOCOLS[self.proto] if isinstance(self.proto, str) else self.proto
        if self.port is None:
            return number << 16, (number << 16) + 65535
        return (number << 16) + self.port, (number << 16) + self.port

    def members(self) -> dict[str, Any]:
        found: dict[str, Any] = {"kind": self.kind, "from": self.source, "to": self.target}
        for name, value in (("proto", self.proto), ("port", self.port), ("failures", self.failures)):
            if value is not None:
                found[name] = value
        return found

    def meets(self, other: "Policy") -> bool:
        """Whether some packet is of both."""
        (first, last), (begin, end) = self.services(), other.services()
        return (
            first <= end and begin <= last
            and network(self.source).overlaps(network(other.source))
            and network(self.target).overlaps(network(other.target))
        )


@dataclass
class Document:
    """A document: names of router files, links, policies, and what edits cost."""

    routers: list[str]
    links: list[Link]
    policies: list[Policy]
    weights: dict[str, int] = field(default_factory=dict)


@functools.lru_cache(maxsize=65536)
def network(prefix: str) -> ipaddress.IPv4Network:
    return ipaddress.IPv4Network(prefix)


def is_prefix(text: object) -> bool:
    """Whether a text is a prefix A/L with no bit past L, in its one spelling."""
    try:
        return isinstance(text, str) and str(ipaddress.IPv4Network(text)) == text
    except ValueError:
        return False


def _is_number(value: object, first: int, last: int) -> bool:
    return isinstance(value, int) and not isinstance(value, bool) and first <= value <= last


def _asked(holds: bool, path: str, what: str) -> None:
    if not holds:
        raise Wrong(f"{path} is no document: {what}")


def _link(path: str, number: int, value: Any) -> Link:
    where = f"link {number}"
    _asked(
        isinstance(value, dict) and set(value) <= {"a", "b", "waypoint"}, path,
        f"{where} has members other than a, b, waypoint",
    )
    for end in ("a", "b"):
        text = value.get(end)
        _asked(isinstance(text, str) and ":" in text, path, f"{where}: `{end}` is not ROUTER:INTERFACE")
    _asked(isinstance(value.get("waypoint", False), bool), path, f"{where}: `waypoint` is not true or false")
    return Link(value["a"], value["b"], value.get("waypoint", False))


def _policy(path: str, number: int, value: Any) -> Policy:
    where = f"policy {number}"
    known = {"kind", "from", "to", "failures", "proto", "port"}
    _asked(isinstance(value, dict) and set(value) <= known, path, f"{where} has a member that is not known")
    kind, proto, port = value.get("kind"), value.get("proto"), value.get("port")
    _asked(kind in KINDS, path, f"{where}: `kind` is not blocked, through or reach")
    for end in ("from", "to"):
        _asked(is_prefix(value.get(end)), path, f"{where}: `{end}` is no prefix such as 10.1.0.0/24")
    _asked(
        (kind == "reach") == ("failures" in value), path,
        f"{where}: `failures` comes exactly where the kind is reach",
    )
    _asked(
        "failures" not in value or _is_number(value["failures"], 0, (1 << 64) - 1), path,
        f"{where}: `failures` is no number",
    )
    right = "proto" not in value or proto in ("tcp", "udp", "icmp") or _is_number(proto, 1, 255)
    _asked(right, path, f"{where}: `proto` is not tcp, udp, icmp or a number from 1 to 255")
    right = "port" not in value or (proto in ("tcp", "udp", *WITH_PORTS) and _is_number(port, 0, 65535))
    _asked(right, path, f"{where}: `port` comes only with TCP or UDP, and is from 0 to 65535")
    return Policy(kind, value["from"], value["to"], value.get("failures"), proto, port)


def parse_document(text: str, path: str = "it") -> Document:
    """The document of a text; `Wrong` where it is none."""
    try:
        value = json.loads(text)
    except ValueError as error:
        raise Wrong(f"{path} is no JSON: {error}") from error
    _asked(isinstance(value, dict), path, "it is no object")
    for name in ("version", "routers", "links", "policies"):
        _asked(name in value, path, f"`{name}` is missing")
    extra = set(value) - {"version", "routers", "links", "policies", "weights"}
    _asked(not extra, path, f"it has a member that is not known: {', '.join(sorted(extra))}")
    for name in ("routers", "links", "policies"):
        _asked(isinstance(value[name], list), path, f"`{name}` is no list")
    names = value["routers"]
    right = bool(names) and all(isinstance(name, str) and name and "\0" not in name for name in names)
    _asked(right, path, "`routers` is not a list of names of files")
    weights = value.get("weights", {})
    right = isinstance(weights, dict) and set(weights) <= set(EDIT_KINDS)
    right = right and all(_is_number(cost, 1, 16) for cost in weights.values())
    _asked(right, path, "`weights` has something other than list, filter and session with 1 to 16")
    links = [_link(path, number, link) for number, link in enumerate(value["links"], 1)]
    policies = [_policy(path, number, policy) for number, policy in enumerate(value["policies"], 1)]
    return Document(list(value["routers"]), links, policies, dict(weights))


def read_document(path: str) -> Document:
    """The document in a file; `Wrong` where it is not there or is none."""
    return parse_document(load(path), path)


def _listed(name: str, rows: list[str]) -> str:
    return f'  "{name}": [' + ("\n    " + ",\n    ".join(rows) + "\n  ]" if rows else "]")


def document_text(document: Document) -> str:
    """The document as text, one link and one policy a line; of version 2 as soon as a policy names a protocol."""
    version = 2 if any(policy.proto is not None for policy in document.policies) else 1
    links = [{"a": link.a, "b": link.b, **({"waypoint": True} if link.waypoint else {})} for link in document.links]
    parts = [
        f'  "version": {version}',
        f'  "routers": {json.dumps(document.routers, ensure_ascii=False)}',
        _listed("links", [json.dumps(link, ensure_ascii=False) for link in links]),
        _listed("policies", [json.dumps(policy.members()) for policy in document.policies]),
    ]
    if document.weights:
        parts.append(f'  "weights": {json.dumps(document.weights)}')
    return "{\n" + ",\n".join(parts) + "\n}\n"


def folder_of(path: str) -> str:
    """The folder in which the names of a document's router files are looked up."""
    return os.path.dirname(os.path.abspath(path))


def with_files(document: Document, names: dict[str, str]) -> Document:
    """The same over other files."""
    return Document(
        [names.get(name, name) for name in document.routers], document.links, document.policies, document.weights
    )


def with_policies(document: Document, numbers: list[int]) -> Document:
    """The same with these policies alone, counted from 1."""
    return Document(
        document.routers, document.links, [document.policies[number - 1] for number in numbers], document.weights
    )


def service_words(policy: Policy) -> str:
    """`TCP 22`, `UDP`, `protocol 47`, or nothing where it speaks of all services."""
    if policy.proto is None:
        return ""
    name = {1: "ICMP", 6: "TCP", 17: "UDP"}.get(policy.services()[0] >> 16) or f"protocol {policy.services()[0] >> 16}"
    return name if policy.port is None else f"{name} {policy.port}"


def span_words(word: str) -> str:
    """What a word `service:P.N-P.N` or `service:P.N` of a report says: `TCP 22`, `TCP 22 to 25`, `UDP`, `protocols 18
    to 255`."""
    found = re.fullmatch(r"service:([0-9]+)\.([0-9]+)(?:-([0-9]+)\.([0-9]+))?", word)
    if not found:
        return word
    proto, port = int(found[1]), int(found[2])
    last, end = (proto, port) if found[3] is None else (int(found[3]), int(found[4]))
    names = {0: "protocol 0", 1: "ICMP", 6: "TCP", 17: "UDP"}
    if proto != last:
        return f"protocols {proto} to {last}" if (port, end) == (0, 65535) else f"protocol {proto} port {port} to protocol {last} port {end}"
    name = names.get(proto, f"protocol {proto}")
    if (port, end) == (0, 65535) or proto not in WITH_PORTS:
        return name
    return f"{name} {port}" if port == end else f"{name} {port} to {end}"
