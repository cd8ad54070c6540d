"""Shapes of networks: routers, links and a host network at each router that may have one. Policies and lists come later."""
import random
from dataclasses import replace

from bench.networks import Network, Prefix


def torus(side: int, bgp: bool = False) -> Network:
    """A square of routers that closes at its sides, each linked to its eight neighbours."""
    network = Network(bgp)
    for _ in range(side * side):
        network.add_host(network.add_router())
    for row in range(side):
        for column in range(side):
            for down, right in ((0, 1), (1, 0), (1, 1), (1, -1)):
                network.join(side * row + column, side * ((row + down) % side) + (column + right) % side)
    return network


def ring(routers: int, chords: int, seed: int, bgp: bool = False) -> Network:
    """A ring with chords drawn at random."""
    rng = random.Random(seed)
    network = Network(bgp)
    for _ in range(routers):
        network.add_host(network.add_router())
    ends = {(min(at, (at + 1) % routers), max(at, (at + 1) % routers)) for at in range(routers)}
    around = sorted(ends)
    across: list[tuple[int, int]] = []
    while len(across) < chords:
        a, b = sorted(rng.sample(range(routers), 2))
        if (a, b) not in ends:
            ends.add((a, b))
            across.append((a, b))
    for a, b in around + across:
        network.join(a, b)
    return network


def fat_tree(ports: int, bgp: bool = False) -> Network:
    """Switches with this number of ports in three layers: cores, and pods of aggregation and edge switches; hosts are at edges."""
    network, half = Network(bgp), ports // 2
    cores = [network.add_router(f"core{at}") for at in range(half * half)]
    for pod in range(ports):
        upper = [network.add_router(f"agg{pod}-{at}") for at in range(half)]
        for place, switch in enumerate(upper):
            network.join_all(switch, cores[half * place : half * (place + 1)])
        for at in range(half):
            edge = network.add_router(f"edge{pod}-{at}")
            network.add_host(edge)
            network.join_all(edge, upper)
    return network


def leaf_spine(leaves: int, spines: int, bgp: bool = False) -> Network:
    """Each leaf, with its hosts, is linked to each spine."""
    network = Network(bgp)
    above = [network.add_router(f"spine{at}") for at in range(spines)]
    for at in range(leaves):
        leaf = network.add_router(f"leaf{at}")
        network.add_host(leaf)
        network.join_all(leaf, above)
    return network


def campus(buildings: int, floors: int, bgp: bool = False) -> Network:
    """Two cores joined by two firewalls (waypoints), servers behind one, and buildings of two distribution routers and floors at the other."""
    network = Network(bgp)
    core, inner = network.add_router("core"), network.add_router("servers")
    network.add_host(inner)
    for at in range(2):
        firewall = network.add_router(f"firewall{at}")
        network.join(core, firewall, True)
        network.join(firewall, inner, True)
    for building in range(buildings):
        pair = [network.add_router(f"dist{building}-{at}") for at in range(2)]
        network.join(pair[0], pair[1])
        for router in pair:
            network.join(router, core)
        for floor in range(floors):
            access = network.add_router(f"floor{building}-{floor}")
            network.add_host(access)
            network.join_all(access, pair)
    return network


def prefixes(network: Network) -> list[Prefix]:
    """The host networks in their order."""
    return [network.face(end).subnet for end in network.hosts]


def pairs(network: Network, count: int, seed: int) -> list[tuple[Prefix, Prefix]]:
    """Different pairs of host networks, drawn at random, that have no policy yet."""
    hosts = prefixes(network)
    asked = {(it.source, it.target) for it in network.policies}
    drawn = random.Random(seed).sample(range(len(hosts) * (len(hosts) - 1)), min(count + len(asked), len(hosts) * (len(hosts) - 1)))
    every = (divmod(it, len(hosts) - 1) for it in drawn)
    apart = [(hosts[a], hosts[b + (b >= a)]) for a, b in every]
    return [it for it in apart if it not in asked][:count]


def mark_waypoints(network: Network, count: int, seed: int) -> None:
    """Makes this number of links waypoints, drawn at random."""
    for at in random.Random(seed).sample(range(len(network.links)), count):
        network.links[at] = replace(network.links[at], is_waypoint=True)
