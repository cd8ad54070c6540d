"""Networks that break policies, for `repair`: a shape, faults, the policies that they break, and others that hold."""
import random
from typing import Callable

from bench import shapes
from bench.networks import PERMIT_ALL, Entry, Link, Network, Prefix, RouteEntry


def ask(network: Network, kind: str, count: int, seed: int, failures: int = 0) -> None:
    for source, target in shapes.pairs(network, count, seed):
        network.ask(kind, source, target, failures)


def links_off(network: Network, count: int, seed: int) -> None:
    """Hosts with one link left: at `count` routers all others are off, and a policy asks for two paths."""
    hosts = shapes.prefixes(network)
    for place in random.Random(seed).sample(range(len(hosts)), count):
        router = network.hosts[place][0]
        own = [end for link in network.links for end in (link.a, link.b) if end[0] == router]
        for end in own[1:]:
            network.face(end).is_off = True
        network.ask("reach", hosts[place], hosts[(place + len(hosts) // 2) % len(hosts)], 1)


def ends_off(network: Network, count: int, seed: int) -> None:
    """Turns ends of links off, drawn at random."""
    ends = [end for link in network.links for end in (link.a, link.b)]
    for end in random.Random(seed).sample(ends, count):
        network.face(end).is_off = True


def lists(network: Network, count: int, seed: int) -> None:
    """Lists at host networks that deny a quarter of what a policy asks for."""
    hosts = shapes.prefixes(network)
    for place in random.Random(seed).sample(range(len(hosts)), count):
        end, other = network.hosts[place], hosts[(place + 1) % len(hosts)]
        part = Prefix(hosts[place].address, 26)
        network.routers[end[0]].lists["GUARD"] = [Entry(False, part, other), Entry(True, hosts[place], other), PERMIT_ALL]
        network.face(end).inbound = "GUARD"
        network.ask("reach", hosts[place], other, 0)


def filters(network: Network, count: int, seed: int) -> None:
    """Prefix lists (eBGP) that keep the routes of a policy out at every link of its source."""
    hosts = shapes.prefixes(network)
    for place in random.Random(seed).sample(range(len(hosts)), count):
        router, target = network.hosts[place][0], hosts[(place + len(hosts) // 2) % len(hosts)]
        network.routers[router].filters["IN"] = [RouteEntry(False, target), RouteEntry(True, Prefix(0, 0), True)]
        for end in (end for link in network.links for end in (link.a, link.b)):
            if end[0] == router:
                network.face(end).filter = "IN"
        network.ask("reach", hosts[place], target, 0)


def is_joined(network: Network, source: int, target: int, spared: Link | None = None) -> bool:
    """Whether links whose ends are on join two routers, but for the one that is spared."""
    seen, waiting = {source}, [source]
    while waiting:
        at = waiting.pop()
        for link in network.links:
            near, far = (link.a, link.b) if link.a[0] == at else (link.b, link.a)
            is_on = not network.face(near).is_off and not network.face(far).is_off
            if near[0] == at and far[0] not in seen and is_on and link is not spared:
                seen.add(far[0])
                waiting.append(far[0])
    return target in seen


def ask_held(network: Network, count: int, seed: int) -> None:
    """Policies that hold: with one failure allowed where the links that are on stand it, and else with none."""
    for source, target in shapes.pairs(network, 2 * count, seed):
        ends = network.host_at(source)[0], network.host_at(target)[0]
        if count and is_joined(network, *ends):
            network.ask("reach", source, target, int(all(is_joined(network, *ends, link) for link in network.links)))
            count -= 1


def off(network: Network, count: int, policies: int, seed: int) -> Network:
    links_off(network, count, seed)
    ask_held(network, policies - count, seed)
    return network


def filtered(network: Network, count: int, policies: int, seed: int) -> Network:
    filters(network, count, seed)
    ask(network, "reach", policies - len(network.policies), seed, 1)
    return network


def mixed(network: Network, ends: int, reach: int, through: int, blocked: int, seed: int) -> Network:
    """Ends of links that are off, a quarter of the links waypoints, and policies of each kind over the whole."""
    ends_off(network, ends, seed)
    shapes.mark_waypoints(network, len(network.links) // 4, seed)
    ask(network, "reach", reach, seed, 1)
    ask(network, "through", through, seed)
    ask(network, "blocked", blocked, seed)
    return network


def cut(network: Network, count: int, through: int, seed: int) -> Network:
    """Lists that cut the classes of each policy, and policies for waypoints over the same hosts."""
    lists(network, count, seed)
    shapes.mark_waypoints(network, len(network.links) // 4, seed)
    ask(network, "through", through, seed)
    return network


def guarded(network: Network, broken: int, policies: int, seed: int) -> Network:
    """A campus: floors that reach each other past no firewall though a policy asks for one, and what the servers are asked for."""
    servers, *floors = shapes.prefixes(network)
    apart = [(a, b) for a in floors for b in floors if a != b]
    random.Random(seed).shuffle(apart)
    for a, b in apart[:broken]:
        network.ask("through", a, b)
    for at, (a, b) in enumerate(apart[broken:]):
        network.ask("through" if at % 2 else "reach", a, servers if at % 2 else b, 0)
    network.policies = list(dict.fromkeys(network.policies))[:policies]
    return network


def listed(network: Network) -> Network:
    """At each interface its router's list, which permits all and can be edited: an edit for a list, and not for each interface."""
    for router in network.routers:
        router.lists["PASS"] = [PERMIT_ALL]
        for face in router.faces:
            face.inbound = "PASS"
    return network


Make = Callable[[], Network]
# a title and the network
FEW: list[tuple[str, Make]] = [
    ("ring of 12", lambda: off(shapes.ring(12, 6, 1), 1, 8, 1)),
    ("ring of 20", lambda: off(shapes.ring(20, 10, 2), 2, 12, 2)),
    ("ring of 40", lambda: off(shapes.ring(40, 20, 3), 4, 12, 3)),
    ("ring of 80", lambda: off(shapes.ring(80, 40, 4), 1, 4, 4)),
    ("ring of 80", lambda: off(shapes.ring(80, 40, 5), 2, 6, 5)),
    ("ring of 20, eBGP", lambda: off(shapes.ring(20, 10, 6, True), 2, 12, 6)),
    ("fat-tree of 20", lambda: off(shapes.fat_tree(4), 2, 12, 7)),
    ("fat-tree of 20, eBGP", lambda: off(shapes.fat_tree(4, True), 3, 12, 8)),
    ("leaf-spine of 12, eBGP", lambda: filtered(shapes.leaf_spine(10, 2, True), 2, 16, 9)),
    ("leaf-spine of 20", lambda: off(shapes.leaf_spine(16, 4), 4, 12, 10)),
    ("campus of 24", lambda: guarded(shapes.campus(4, 3), 2, 12, 11)),
    ("campus of 24", lambda: guarded(shapes.campus(4, 3), 4, 16, 12)),
]
MANY: list[tuple[str, Make]] = [
    ("ring of 12, all kinds", lambda: mixed(shapes.ring(12, 6, 13), 8, 4, 2, 2, 13)),
    ("ring of 12, all kinds", lambda: mixed(shapes.ring(12, 6, 14), 10, 5, 3, 3, 14)),
    ("fat-tree of 20, all kinds", lambda: mixed(shapes.fat_tree(4), 14, 4, 2, 2, 15)),
    ("fat-tree of 20, all kinds", lambda: mixed(shapes.fat_tree(4), 20, 6, 3, 3, 16)),
    ("ring of 12, classes cut by lists", lambda: cut(shapes.ring(12, 6, 17), 4, 3, 17)),
    ("ring of 12, classes cut by lists", lambda: cut(shapes.ring(12, 6, 18), 6, 4, 18)),
    ("leaf-spine of 12, eBGP", lambda: filtered(shapes.leaf_spine(10, 2, True), 8, 16, 19)),
    ("ring of 20", lambda: off(shapes.ring(20, 10, 20), 16, 16, 20)),
    ("ring of 12, 64 policies", lambda: off(shapes.ring(12, 6, 22), 4, 64, 22)),
    ("ring of 12, 128 policies", lambda: off(shapes.ring(12, 6, 26), 3, 128, 26)),
    ("ring of 20, 256 policies", lambda: off(listed(shapes.ring(20, 10, 25)), 4, 256, 25)),
    ("leaf-spine of 12, eBGP, 64 policies", lambda: filtered(shapes.leaf_spine(10, 2, True), 4, 64, 24)),
    ("campus of 24, 64 policies", lambda: guarded(shapes.campus(4, 3), 4, 64, 23)),
]
LARGE: list[tuple[str, Make]] = [("ring of 40 routers, 20 chords, 1 broken of 10 policies", lambda: off(shapes.ring(40, 20, 1), 1, 10, 1))]
