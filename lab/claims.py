"""What the answers of arcv claim of packets under a failure set, and the failure sets that their witnesses speak of."""
from dataclasses import dataclass, field
from itertools import combinations
from random import Random
from typing import Callable, Optional

from lab.network import Network, Policy
from lab.program import Program, Row, Traffic, Verdict, traffic_of
from lab.walks import Walk

Failures = frozenset[int]
MOST_PAIRS, NODE_FAILURES = 3, 1


@dataclass(frozen=True)
class Claim:
    """What is said of the packets of a class, under the failure sets for which `holds_under` is true: `wrong` tells what is
    wrong with a walk, or nothing."""
    said: str
    traffic: Traffic
    holds_under: Callable[[Failures], bool]
    wrong: Callable[[Walk], str]


@dataclass
class Claims:
    """All claims on a network, the failure sets to try with what each is from, and the classes to send packets of."""
    claims: list[Claim] = field(default_factory=list)
    sets: dict[Failures, str] = field(default_factory=dict)
    traffics: list[Traffic] = field(default_factory=list)

    def say(self, said: str, traffic: Traffic, holds_under: Callable[[Failures], bool], wrong: Callable[[Walk], str]) -> None:
        self.claims.append(Claim(said, traffic, holds_under, wrong))

    def try_set(self, failed: Failures, of: str) -> None:
        self.sets.setdefault(failed, of)


def fate(walk: Walk) -> str:
    return "and arrived" if walk.arrived else "and was lost"


def arrives(walk: Walk) -> str:
    return "" if walk.arrived else "it was lost"


def is_lost(walk: Walk) -> str:
    return "it arrived" if walk.arrived else ""


def always(_: Failures) -> bool:
    return True


def passes(waypoints: Failures) -> Callable[[Walk], str]:
    return lambda walk: "it arrived without a waypoint" if walk.arrived and not waypoints & set(walk.links) else ""


def goes_over(links: Failures) -> Callable[[Walk], str]:
    return lambda walk: "" if walk.arrived and set(walk.links) == links else f"it went over {list(walk.links)}, {fate(walk)}"


def goes_by(names: tuple[str, ...]) -> Callable[[Walk], str]:
    return lambda walk: "" if walk.arrived and walk.routers == names else f"it went by {', '.join(walk.routers)}, {fate(walk)}"


def at_most(failures: int) -> Callable[[Failures], bool]:
    return lambda failed: len(failed) <= failures


def just(links: Failures) -> Callable[[Failures], bool]:
    return lambda failed: failed == links


def all_of(links: Failures) -> Callable[[Failures], bool]:
    return lambda failed: links <= failed


def whole(policy: Policy) -> Traffic:
    return Traffic(policy.source, policy.target, policy.services)


def all_services(policy: Policy) -> Traffic:
    """All packets between a policy's prefixes: `nodes` and `prefers` ask of every service."""
    return Traffic(policy.source, policy.target, (0, 0xFFFFFF))


def blocking_claims(found: Claims, network: Network, policy: Policy, verdict: Verdict) -> None:
    """The claims of a verdict on `blocked` or `through`."""
    said = f"policy {policy.number} {policy.kind} {verdict.answer}"
    if verdict.answer == "yes":
        waypoints = frozenset(link.number for link in network.links if link.is_waypoint)
        found.say(said, whole(policy), always, is_lost if policy.kind == "blocked" else passes(waypoints))
        found.traffics += [traffic_of(line)[0] for line in verdict.lines]
        return
    traffic, words = traffic_of(verdict.lines[0])
    walk = frozenset(map(int, words))
    others = frozenset(link.number for link in network.links) - walk
    found.try_set(others, f"walk of policy {policy.number}")
    found.say(f"{said} walk", traffic, just(others), goes_over(walk))
    found.traffics.append(traffic)


def reach_claims(found: Claims, policy: Policy, verdict: Verdict) -> None:
    """The claims of a verdict on `reach`."""
    said, cut = f"policy {policy.number} reach {verdict.answer}", verdict.numbers("cut")
    if verdict.answer == "yes":
        found.say(said, whole(policy), at_most(policy.failures), arrives)
    elif cut is not None:
        found.say(f"{said} cut", whole(policy), all_of(cut), is_lost)
        found.try_set(cut, f"cut of policy {policy.number}")
    elif verdict.answer == "no":
        traffic = traffic_of(verdict.lines[0])[0]
        found.say(f"{said} denied", traffic, always, is_lost)
        found.traffics.append(traffic)


def alone_claims(found: Claims, network: Network, policy: Policy, alone: Failures, draw: Random) -> None:
    """The claims of an `alone` line: of each of its links, and of one that is none of them."""
    others = sorted({link.number for link in network.links} - alone)
    for number in sorted(draw.sample(sorted(alone), min(2, len(alone)))):
        found.say(f"alone {policy.number} {number}", whole(policy), just(frozenset({number})), is_lost)
        found.try_set(frozenset({number}), f"alone of policy {policy.number}")
    for number in draw.sample(others, min(1, len(others))):
        found.say(f"alone {policy.number} without {number}", whole(policy), just(frozenset({number})), arrives)
        found.try_set(frozenset({number}), f"none alone of policy {policy.number}")


def links_of(network: Network, routers: frozenset[int]) -> Failures:
    """The links that fail with routers."""
    return frozenset(link.number for link in network.links if {end.router for end in link.ends} & routers)


def node_claims(found: Claims, network: Network, policy: Policy, failures: int, verdict: Verdict, draw: Random) -> None:
    """The claims of an answer on routers that fail."""
    said = f"nodes {policy.source} {policy.target} {failures} {verdict.answer}"
    places = {router.name: place for place, router in enumerate(network.routers)}
    ends = {network.router_of(policy.source), network.router_of(policy.target)}
    if verdict.answer == "yes":
        sets = list(combinations(sorted(set(range(len(network.routers))) - ends), failures))
        for routers in draw.sample(sets, min(2, len(sets))):
            failed = links_of(network, frozenset(routers))
            found.try_set(failed, f"routers of {said}")
            found.say(said, all_services(policy), just(failed), arrives)
    elif verdict.names("cut") or any(line == ("cut",) for line in verdict.lines):
        failed = links_of(network, frozenset(places[name] for name in verdict.names("cut")))
        found.try_set(failed, f"cut of {said}")
        found.say(f"{said} cut", all_services(policy), all_of(failed), is_lost)
    elif verdict.answer == "no":
        traffic = traffic_of(verdict.lines[0])[0]
        found.say(f"{said} denied", traffic, always, is_lost)
        found.traffics.append(traffic)


def way(network: Network, rows: dict[str, Row], source: int, target: int, draw: Random) -> Optional[list[str]]:
    """The names of the routers on some way of the trace, or None where there is none."""
    names, place = [network.routers[source].name], source
    while place != target:
        links = sorted(rows[network.routers[place].name].links)
        if not links:
            return None
        place = network.links[draw.choice(links) - 1].far(place).router
        names.append(network.routers[place].name)
    return names


def preferred_claims(found: Claims, program: Program, document: str, network: Network, policy: Policy, draw: Random) -> None:
    """Asks whether packets of a policy go by some way of the trace, and takes the claim of a yes."""
    rows = program.trace(document, policy.source, policy.target, frozenset())
    names = way(network, rows, network.router_of(policy.source), network.router_of(policy.target), draw)
    if names is None:
        return
    verdict = program.prefers(document, policy.source, policy.target, names)
    if verdict.answer == "yes":
        said = f"prefers {policy.source} {policy.target} {','.join(names)} yes"
        found.say(said, all_services(policy), just(frozenset()), goes_by(tuple(names)))


def gather(program: Program, document: str, report: str, network: Network, verdicts: list[Verdict], draw: Random) -> Claims:
    """All claims on a network: of its verdicts, of its `alone` lines, and of `nodes` and `prefers` asked of its policies."""
    found = Claims()
    found.try_set(frozenset(), "nothing")
    alone = program.alone(document, report)
    asked: set[tuple[object, object]] = set()
    for policy, verdict in zip(network.policies, verdicts):
        if policy.kind == "reach":
            reach_claims(found, policy, verdict)
        else:
            blocking_claims(found, network, policy, verdict)
        if policy.number in alone:
            alone_claims(found, network, policy, alone[policy.number], draw)
        if (policy.source, policy.target) not in asked and len(asked) < MOST_PAIRS:
            asked.add((policy.source, policy.target))
            verdict = program.nodes(document, policy.source, policy.target, NODE_FAILURES)
            node_claims(found, network, policy, NODE_FAILURES, verdict, draw)
            preferred_claims(found, program, document, network, policy, draw)
    return found
