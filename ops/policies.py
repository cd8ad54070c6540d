"""policies: a small text of policies, with names and groups, made a document."""
import argparse
import os
from collections.abc import Sequence
from dataclasses import replace

from ops import commands
from ops.commands import Wrong, counted, wrapped
from ops.documents import MOST_POLICIES, Document, Link, Policy, document_text, folder_of, network, read_document, service_words
from ops.faces import Routers
from ops.statements import Named, first_policies, read_policies
from ops.wording import names_file, names_text, read_networks

__all__ = ["Named", "first_policies", "main", "read_policies"]


def waypoints_of(document: Document, points: Sequence[str]) -> list[Link]:
    """The links of a document, those marked that a text names as waypoints: ROUTER, or ROUTER:INTERFACE."""
    links = []
    for link in document.links:
        ends = {link.a, link.b} | {router for router, _ in link.ends()}
        links.append(replace(link, waypoint=bool(ends & set(points))))
    known = {point for link in document.links for point in (link.a, link.b, *(router for router, _ in link.ends()))}
    wrong = [point for point in points if point not in known]
    if wrong:
        raise Wrong(f"no link ends at {wrong[0]}: a waypoint is a router, or ROUTER:INTERFACE at the end of a link")
    return links


def silent_pairs(networks: dict[str, str], policies: Sequence[Policy]) -> list[tuple[str, str, str]]:
    """The pairs of networks that no policy speaks of wholly, and of which services some does."""
    near = [
        {prefix: _near(prefix, [getattr(policy, end) for policy in policies]) for prefix in networks.values()}
        for end in ("source", "target")
    ]
    nets = {name: network(prefix) for name, prefix in networks.items()}
    ends = [(network(policy.source), network(policy.target), policy) for policy in policies]
    found = []
    for name, source in nets.items():
        here = [(target, policy) for begin, target, policy in ends if source.overlaps(begin)]
        for other, target in nets.items():
            if name == other or source.overlaps(target):
                continue
            of_them = [policy for end, policy in here if target.overlaps(end)]
            pair = (networks[name], networks[other])
            if not any(_covers(policy, *pair) for policy in of_them):
                found.append((name, other, ", ".join(dict.fromkeys(_part(policy, *pair) for policy in of_them))))
    return found


def _near(prefix: str, others: Sequence[str]) -> set[int]:
    """The places of the prefixes that share an address with this one."""
    return {place for place, other in enumerate(others) if network(prefix).overlaps(network(other))}


def _covers(policy: Policy, source: str, target: str) -> bool:
    wide = network(source).subnet_of(network(policy.source)) and network(target).subnet_of(network(policy.target))
    return wide and policy.proto is None


def _part(policy: Policy, source: str, target: str) -> str:
    """What part of a pair's packets a policy speaks of."""
    ends = "" if (policy.source, policy.target) == (source, target) else f"{policy.source} to {policy.target}"
    return " ".join(part for part in (service_words(policy), ends) if part)


def networks_of(options: argparse.Namespace, document: Document) -> dict[str, str]:
    """The networks of hosts of a document by their names; one without a name is named by its prefix."""
    beside = (names_file(options.doc), os.path.join(os.path.dirname(options.doc), "names.json"))
    given = options.names or next((path for path in beside if os.path.exists(path)), "")
    names = {network(prefix): name for prefix, name in (read_networks(given) if given else {}).items()}
    found: dict[str, str] = {}
    for host in Routers(document, folder_of(options.doc)).hosts():
        if not host.loopback:
            found.setdefault(names.get(network(host.prefix), host.prefix), host.prefix)
    return found


def arguments() -> argparse.ArgumentParser:
    words = commands.parser(
        "policies",
        "Makes a text of policies a document: the routers and links are those of DOC, and each line of TEXT says "
        "what has to hold. Prints the pairs of networks of which no policy speaks.\n\ngroup NAME = WORD ..   WORD is "
        "a prefix, or a name of a network or group\n\n[NAME:] FROM never reaches TO [SERVICE] [both ways]\n\n[NAME:] "
        "FROM reaches TO [SERVICE] [survives N] [both ways]\n\n[NAME:] FROM reaches TO only through W.. [SERVICE] "
        "[both ways]\n\nall pairs survive N [except A to B, C and D, E]\n\nFROM and TO are such words, or "
        "`everyone`; SERVICE is tcp, tcp PORT, udp, udp PORT, icmp or protocol N; W is a router, ROUTER:INTERFACE, "
        "or `waypoints` for the links that DOC marks. `#` begins a comment. Names of networks come from the file of "
        "names beside DOC.",
        "with --out the document, and a file of names beside it (FILE.names.json); where the policies are more than "
        "256, or name different waypoints, several documents: FILE.json, FILE-2.json and so on. Without it nothing.",
        """
        cat > policies.txt
        group guests = 10.1.99.0/24 10.2.99.0/24
        pci-3: guests never reach 10.1.0.0/24 tcp
        all pairs survive 1 except guests
        bin/policies policies.txt net.json --out tonight.json
        """,
    )
    words.add_argument("text", metavar="TEXT", help="the text of policies, or `-` for standard input")
    words.add_argument("doc", metavar="DOC", help="a document with the routers and links")
    words.add_argument("--out", metavar="FILE", help="the document to write")
    words.add_argument("--names", metavar="FILE", default="", help="names of networks: {PREFIX: NAME, ..}")
    commands.with_json(words)
    commands.with_force(words)
    return words


def documents_of(found: Sequence[Named], document: Document) -> list[tuple[list[Named], Document]]:
    """The documents of these policies: one for each set of waypoints, since that is one of links, and of at most 256
    policies."""
    other = next((named for named in found if named.packets != "all"), None)
    if other:
        raise Wrong(
            f"line {other.line}: a document cannot speak of `{other.packets}` packets alone; bin/start asks of them"
        )
    sets = list(dict.fromkeys(named.waypoints for named in found if named.policy.kind == "through")) or [()]
    made = []
    for points in sets:
        mine = [named for named in found if (named.waypoints if named.policy.kind == "through" else sets[0]) == points]
        links = waypoints_of(document, points) if points else document.links
        for at in range(0, max(len(mine), 1), MOST_POLICIES):
            part = mine[at : at + MOST_POLICIES]
            made.append((part, Document(document.routers, links, [named.policy for named in part], document.weights)))
    return made


def _named(path: str, number: int) -> str:
    """The name of one of several documents: FILE.json, FILE-2.json, .."""
    stem = path.removesuffix(".json")
    return path if number == 1 else f"{stem}-{number}{path[len(stem):]}"


def _said(found: Sequence[Named], silent: Sequence[tuple[str, str, str]], wrote: Sequence[str]) -> list[str]:
    lines = [counted(len(found), "policy", "policies")] + [f"wrote {path}" for path in wrote]
    if not silent:
        return [*lines, "some policy speaks of each pair of networks, of every service"]
    lines.append(f"no policy speaks of {counted(len(silent), 'pair')} of networks, or of parts alone:")
    groups: dict[tuple[str, str], list[str]] = {}
    for source, target, part in silent:
        groups.setdefault((source, part), []).append(target)
    for (source, part), targets in groups.items():
        lines += wrapped(f"{source} to {', '.join(targets)}" + (f": of {part} alone" if part else ""), "  ", "      ")
    return lines


def _write(
    options: argparse.Namespace, made: Sequence[tuple[list[Named], Document]], prefixes: dict[str, str]
) -> list[str]:
    """Writes the documents, and a file of names beside each."""
    if folder_of(options.out) != folder_of(options.doc):
        raise Wrong(
            f"{options.out} has to lie in the folder of {options.doc}, in which the names of router files are looked "
            "up"
        )
    paths = [_named(options.out, number) for number in range(1, len(made) + 1)]
    commands.check_free([name for path in paths for name in (path, names_file(path))], options.force)
    for path, (found, document) in zip(paths, made):
        commands.save(names_file(path), names_text(prefixes, [named.name for named in found]), True)
        commands.save(path, document_text(document), True)
    return [name for path in paths for name in (path, names_file(path))]


def main(words: list[str]) -> int:
    options = arguments().parse_args(words)
    document = read_document(options.doc)
    networks = networks_of(options, document)
    try:
        found = read_policies(commands.load(options.text), networks)
    except ValueError as error:
        raise Wrong(f"{options.text}: {error}") from error
    made = documents_of(found, document)
    silent = silent_pairs(networks, [named.policy for named in found])
    wrote = _write(
        options, made, {prefix: name for name, prefix in networks.items() if name != prefix}
    ) if options.out else []
    if options.json:
        rows = [{"from": source, "to": target, "spoken of": part} for source, target, part in silent]
        commands.put(
            commands.as_json(
                {
                    "policies": [{"name": one.name, "line": one.line, **one.policy.members()} for one in found],
                    "silent": rows, "wrote": wrote,
                }
            )
        )
    else:
        commands.put("\n".join(_said(found, silent, wrote)) + "\n")
    return commands.FINE
