"""The repair formula of docs/repair-formula.md, made anew from a network of bench/networks.py: its part of the policies for solvers that
find the least price by themselves, and the whole with the counter of prices, over which the log of a certificate is judged."""
from dataclasses import dataclass, field
from functools import cached_property
from pathlib import Path
from typing import Hashable, Iterator

from bench.networks import End, Network, Policy, Prefix

Condition = bool | int  # true, false, or the literal of an edit
Class = tuple[Prefix, Prefix]


def negated(condition: Condition) -> Condition:
    return not condition if isinstance(condition, bool) else -condition


@dataclass(frozen=True)
class Arc:
    """A link in one of its two directions, with the interfaces at its ends."""

    link: int
    tail: End
    head: End


def leaves(whole: Prefix, marks: list[Prefix]) -> list[Prefix]:
    """The parts of a prefix, halved while a mark lies strictly inside."""
    inner = [it for it in marks if whole.length < it.length and whole.holds(it)]
    return [part for half in whole.halves() for part in leaves(half, inner)] if inner else [whole]


class Questions:
    """A network's edits, and its answers with the edit that turns each."""

    def __init__(self, network: Network) -> None:
        self.network = network
        self.arcs = [Arc(at, *ends) for at, link in enumerate(network.links) for ends in ((link.a, link.b), (link.b, link.a))]
        self.answers: dict[tuple[int, str, Class], bool] = {}
        self.number: dict[Hashable, int] = {edit: at for at, edit in enumerate(self.edits(), 1)}

    def bound_lists(self) -> set[tuple[int, str]]:
        return {(at, name) for at, it in enumerate(self.network.routers) for face in it.faces for name in (face.inbound, face.outbound) if name}

    @cached_property
    def marks(self) -> tuple[list[Prefix], list[Prefix]]:
        entries = [entry for at, name in sorted(self.bound_lists()) for entry in self.network.routers[at].lists[name]]
        sources = {entry.source for entry in entries} | {it.source for it in self.network.policies}
        targets = {entry.target for entry in entries} | {it.target for it in self.network.policies}
        return sorted(sources), sorted(targets)

    def classes(self, policy: Policy) -> list[Class]:
        sources, targets = self.marks
        return [(a, b) for a in leaves(policy.source, sources) for b in leaves(policy.target, targets)]

    def edits(self) -> Iterator[Hashable]:
        network = self.network
        for link in network.links:
            yield from (("session", end) for end in (link.a, link.b))
        targets = dict.fromkeys(network.face(network.host_at(it.target)).subnet for it in network.policies)
        classes = dict.fromkeys(one for policy in network.policies for one in self.classes(policy))
        lists = sorted(self.bound_lists())
        for at, router in enumerate(network.routers):
            if network.bgp:
                yield from self.route_edits(at, list(targets))
        for at, router in enumerate(network.routers):
            yield from (("list", it, one) for it in lists if it[0] == at for one in classes)
            free = [(at, place) for place, face in enumerate(router.faces) if face.inbound is None]
            yield from (("face", end, one) for end in free for one in classes)

    def route_edits(self, router: int, targets: list[Prefix]) -> Iterator[Hashable]:
        network = self.network
        bound = sorted({face.filter for face in network.routers[router].faces if face.filter})
        yield from (("filter", (router, name), to) for name in bound for to in targets)
        for link in network.links:
            for end in (link.a, link.b):
                if end[0] == router and network.face(end).filter is None:
                    yield from (("neighbour", end, to) for to in targets)

    def turned(self, edit: Hashable, holds: bool) -> Condition:
        number = self.number.get(edit)
        return holds if number is None else -number if holds else number

    def session(self, end: End) -> Condition:
        return self.turned(("session", end), not self.network.face(end).is_off)

    def route(self, end: End, to: Prefix) -> Condition:
        name = self.network.face(end).filter
        if not self.network.bgp or name is None:
            return self.turned(("neighbour", end, to), True)
        for entry in self.network.routers[end[0]].filters[name]:
            if entry.prefix == to or entry.longer and entry.prefix.holds(to):
                return self.turned(("filter", (end[0], name), to), entry.permits)
        return self.turned(("filter", (end[0], name), to), False)

    def permits(self, router: int, name: str, one: Class) -> Condition:
        key = (router, name, one)
        if key not in self.answers:
            entries = self.network.routers[router].lists[name]
            self.answers[key] = next((it.permits for it in entries if it.source.holds(one[0]) and it.target.holds(one[1])), False)
        return self.turned(("list", (router, name), one), self.answers[key])

    def inbound(self, end: End, one: Class) -> Condition:
        name = self.network.face(end).inbound
        return self.turned(("face", end, one), True) if name is None else self.permits(end[0], name, one)

    def outbound(self, end: End, one: Class) -> Condition:
        name = self.network.face(end).outbound
        return True if name is None else self.permits(end[0], name, one)


@dataclass
class Formula:
    """The clauses of the policies, over the edits and then the variables of each policy in order."""

    questions: Questions
    clauses: list[list[int]] = field(default_factory=list)
    variables: int = 0

    def put(self, *conditions: Condition) -> None:
        if True not in (it for it in conditions if isinstance(it, bool)):
            self.clauses.append(list(dict.fromkeys(it for it in conditions if not isinstance(it, bool))))

    def routing(self, arc: Arc, to: Prefix) -> tuple[Condition, Condition, Condition]:
        link, asks = self.questions.network.links[arc.link], self.questions
        return asks.session(link.a), asks.session(link.b), asks.route(arc.tail, to)

    def blocked(self, policy: Policy, first: int) -> int:
        """The clauses of `blocked` and `through`, with variables from the first on, and the next free one."""
        asks, network = self.questions, self.questions.network
        source, target = network.host_at(policy.source), network.host_at(policy.target)
        to = network.face(target).subnet
        for one in asks.classes(policy):
            self.put(negated(asks.inbound(source, one)), first + source[0])
            for arc in asks.arcs:
                if policy.kind == "through" and network.links[arc.link].is_waypoint:
                    continue
                lists = asks.outbound(arc.tail, one), asks.inbound(arc.head, one)
                passes = [negated(it) for it in (*self.routing(arc, to), *lists)]
                self.put(-(first + arc.tail[0]), *passes, first + arc.head[0])
            self.put(-(first + target[0]), negated(asks.outbound(target, one)))
            first += len(network.routers)
        return first

    def reach(self, policy: Policy, first: int) -> int:
        asks, network = self.questions, self.questions.network
        source, target = network.host_at(policy.source), network.host_at(policy.target)
        to = network.face(target).subnet
        for one in asks.classes(policy):
            self.put(asks.inbound(source, one))
            self.put(asks.outbound(target, one))
        if source[0] == target[0]:
            return first
        arcs = [arc for arc in asks.arcs if False not in (it for it in self.routing(arc, to) if isinstance(it, bool))]
        for one in asks.classes(policy):
            for arc in arcs:
                away = [negated(it) for it in self.routing(arc, to)]
                self.put(*away, asks.outbound(arc.tail, one))
                self.put(*away, asks.inbound(arc.head, one))
        for family in range((policy.failures or 0) + 1):
            self.family(arcs, [first + family * len(arcs) + e for e in range(len(arcs))], source[0], target[0], to)
        self.apart(arcs, first, (policy.failures or 0) + 1)
        return first + ((policy.failures or 0) + 1) * len(arcs)

    def family(self, arcs: list[Arc], goes: list[int], source: int, target: int, to: Prefix) -> None:
        """One path, of which `goes` says for each arc whether it goes over it."""
        out: list[list[int]] = [[] for _ in self.questions.network.routers]
        into: list[list[int]] = [[] for _ in self.questions.network.routers]
        for arc, it in zip(arcs, goes):
            out[arc.tail[0]].append(it)
            into[arc.head[0]].append(it)
            for condition in self.routing(arc, to):
                self.put(-it, condition)
        self.put(*out[source])
        self.put(*into[target])
        for it in into[source] + out[target]:
            self.put(-it)
        for router in range(len(out)):
            if router not in (source, target):
                for it in into[router]:
                    self.put(-it, *out[router])
                for it in out[router]:
                    self.put(-it, *into[router])
        for router in range(len(out)):
            self.at_most_one(out[router])
            self.at_most_one(into[router])

    def at_most_one(self, some: list[int]) -> None:
        for at, one in enumerate(some):
            for other in some[at + 1 :]:
                self.put(-one, -other)

    def apart(self, arcs: list[Arc], first: int, families: int) -> None:
        """No link is in two of the paths, or in one of them twice."""
        over: list[list[int]] = [[] for _ in self.questions.network.links]
        for family in range(families):
            for e, arc in enumerate(arcs):
                over[arc.link].append(first + family * len(arcs) + e)
        for some in over:
            self.at_most_one(some)


def of_policies(network: Network) -> Formula:
    formula = Formula(Questions(network))
    first = len(formula.questions.number) + 1
    for policy in network.policies:
        first = (formula.reach if policy.kind == "reach" else formula.blocked)(policy, first)
    formula.variables = first - 1
    return formula


def counter(formula: Formula, bound: int) -> Iterator[list[int]]:
    """The clauses that count the price of the edits, each of which costs 1, up to the bound."""
    for edit in range(len(formula.questions.number)):
        here = formula.variables + 1 + edit * (bound + 1)
        before = here - bound - 1
        for most in range(bound + 1):
            if edit:
                yield [-(before + most), here + most]
            if most == 0:
                yield [-(edit + 1), here]
            elif edit:
                yield [-(edit + 1), -(before + most - 1), here + most]


def above(formula: Formula, bound: int, price: int) -> int:
    """The variable that says that all edits cost more than the price."""
    return formula.variables + 1 + (len(formula.questions.number) - 1) * (bound + 1) + price


def write_weighted(path: Path, formula: Formula) -> None:
    """For solvers of weighted formulas: each edit that is chosen costs 1."""
    edits = len(formula.questions.number)
    top = edits + 1
    with open(path, "w") as file:
        file.write(f"p wcnf {formula.variables} {len(formula.clauses) + edits} {top}\n")
        file.writelines(f"{top} {' '.join(map(str, clause))} 0\n" for clause in formula.clauses)
        file.writelines(f"1 -{edit} 0\n" for edit in range(1, edits + 1))
