"""Names and words for what a document counts by numbers: policies, links, routers, networks."""
import json
import os
from typing import Any, Protocol

from ops.commands import Wrong, load
from ops.documents import Document, Policy, is_prefix, network, service_words
from ops.names import CopyMap


class Names(Protocol):
    """Names of routers, links, networks and policies, for people."""

    def router(self, name: str) -> str: ...

    def link(self, number: int) -> str: ...

    def interface(self, router: str, name: str) -> str: ...

    def list_name(self, router: str, name: str) -> str: ...

    def network(self, prefix: str) -> str: ...

    def policy(self, number: int) -> str: ...


class PlainNames:
    """The names of a document, and those of a file of names beside it."""

    def __init__(
        self, document: Document, networks: dict[str, str] | None = None, policies: list[str] | None = None
    ) -> None:
        self.document, self.policies = document, policies or []
        self.networks = {network(prefix): name for prefix, name in (networks or {}).items() if is_prefix(prefix)}

    def router(self, name: str) -> str:
        return name

    def link(self, number: int) -> str:
        if not 1 <= number <= len(self.document.links):
            return f"link {number}"
        (a, face), (b, far) = self.document.links[number - 1].ends()
        return f"{a} {face} - {b} {far}"

    def interface(self, router: str, name: str) -> str:
        return name

    def list_name(self, router: str, name: str) -> str:
        return name

    def network(self, prefix: str) -> str:
        if not is_prefix(prefix):
            return prefix
        inner = network(prefix)
        if inner in self.networks:
            return f"{self.networks[inner]} ({prefix})"
        wider = [outer for outer in self.networks if inner.subnet_of(outer)]
        return f"{prefix} of {self.networks[max(wider, key=lambda net: net.prefixlen)]}" if wider else prefix

    def policy(self, number: int) -> str:
        return self.policies[number - 1] if 1 <= number <= len(self.policies) else ""


def names_file(path: str) -> str:
    """The file of names that `bin/policies` writes beside a document."""
    return path.removesuffix(".json") + ".names.json"


def names_text(networks: dict[str, str], policies: list[str]) -> str:
    return json.dumps({"version": 1, "policies": policies, "networks": networks}, indent=1, ensure_ascii=False) + "\n"


def _members(path: str) -> dict[str, Any]:
    try:
        value = json.loads(load(path))
    except ValueError as error:
        raise Wrong(f"{path} is no JSON: {error}") from error
    if not isinstance(value, dict):
        raise Wrong(f"{path} is no object")
    return value


def read_networks(path: str) -> dict[str, str]:
    """Names of networks by their prefixes: an object {PREFIX: NAME}, or one with such an object as `networks`."""
    value = _members(path)
    value = value.get("networks", value)
    right = isinstance(value, dict) and all(is_prefix(prefix) for prefix in value if prefix != "version")
    if not right or not all(isinstance(name, str) for prefix, name in value.items() if prefix != "version"):
        raise Wrong(f"{path} is not of the form {{PREFIX: NAME, ..}}")
    return {prefix: name for prefix, name in value.items() if prefix != "version"}


def map_beside(doc: str) -> CopyMap | None:
    """The map of the copies beside a document, where there is one; `Wrong` where it has not that form."""
    path = os.path.join(os.path.dirname(doc), "map.json")
    if not os.path.exists(path):
        return None
    value = _members(path)
    plain = CopyMap()
    for name, default in vars(plain).items():
        given = value.get(name, default)
        parts = given.values() if isinstance(given, dict) else given if isinstance(given, list) else ()
        if type(given) is not type(default) or not all(
            isinstance(part, str) or name == "real" and part is None for part in parts
        ):
            raise Wrong(f"{path} is no map of copies: `{name}`")
        setattr(plain, name, given)
    return plain


def names_of(path: str, document: Document, given: str = "") -> Names:
    """The names for a document: of the file that is given, else of the one beside it, else of the map of its copies."""
    beside = given or names_file(path)
    if not given and not os.path.exists(beside):
        return map_beside(path) or PlainNames(document)
    value = _members(beside)
    policies = value.get("policies", [])
    if not isinstance(policies, list) or not all(isinstance(name, str) for name in policies):
        raise Wrong(f"{beside}: `policies` is no list of names")
    return PlainNames(document, read_networks(beside) if "networks" in value or not policies else {}, policies)


def failures_words(count: int) -> str:
    return {0: "while no link has failed", 1: "whichever link fails"}.get(count, f"whichever {count} links fail")


def policy_words(policy: Policy, names: Names) -> str:
    """The policy as a sentence without its end."""
    source, target = names.network(policy.source), names.network(policy.target)
    service = service_words(policy)
    what = f", {service}," if service else ""
    if policy.kind == "blocked":
        return f"{source} never reaches {target}" + (f", {service}" if service else "")
    if policy.kind == "through":
        return f"{source} reaches {target}{what} through waypoints alone"
    return f"{source} reaches {target}{what} {failures_words(policy.failures or 0)}"


def title(number: int, policy: Policy, names: Names) -> str:
    """Number, name and words of a policy."""
    name = names.policy(number)
    return f"{number}. {name + ': ' if name else ''}{policy_words(policy, names)}"
