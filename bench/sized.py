"""Networks at the limits, for `verify`, `check` and `recheck`, and long router files."""
from pathlib import Path
from typing import Callable

from bench import shapes
from bench.networks import PERMIT_ALL, Entry, Network, Prefix, lay

MOST_BYTES = 1 << 23  # of a router file


def asked(network: Network, kind: str, count: int, failures: int, seed: int) -> Network:
    for source, target in shapes.pairs(network, count, seed):
        network.ask(kind, source, target, failures)
    return network


def shut(network: Network) -> Network:
    """Every second host network lets nothing out to the targets of its policies."""
    for place, end in enumerate(network.hosts):
        own = network.face(end).subnet
        targets = [it.target for it in network.policies if it.source == own]
        if place % 2 and targets:
            network.routers[end[0]].lists["OUT"] = [*(Entry(False, own, it) for it in targets), PERMIT_ALL]
            network.face(end).inbound = "OUT"
    return network


def waypoints(network: Network, count: int) -> Network:
    shapes.mark_waypoints(network, count, 1)
    return network


def halves(whole: Prefix, count: int) -> list[Prefix]:
    """`count` parts of a prefix, each of which cuts one more in two."""
    parts: list[Prefix] = [whole]
    found: list[Prefix] = []
    while len(found) < count:
        lower, upper = parts.pop(0).halves()
        found.append(lower)
        parts += [lower, upper]
    return found


def classes(kind: str, failures: int) -> Network:
    """One policy that a list cuts into 64 times 64 classes, over a ring; a blocked one is stopped where it would leave."""
    network = shapes.ring(32, 16, 1)
    source, target = shapes.prefixes(network)[:17:16]
    entries = [Entry(True, it, Prefix(0, 0)) for it in halves(source, 63)] + [Entry(True, Prefix(0, 0), it) for it in halves(target, 63)]
    network.routers[0].lists["CUT"] = [*entries, PERMIT_ALL]
    network.face(network.hosts[0]).inbound = "CUT"
    if kind == "blocked":
        network.routers[16].lists["STOP"] = [Entry(False, source, Prefix(0, 0)), PERMIT_ALL]
        network.face(network.hosts[16]).outbound = "STOP"
    network.ask(kind, source, target, failures)
    return network


def interfaces(routers: int) -> Network:
    """A ring of routers with 256 interfaces each."""
    network = shapes.ring(routers, 0, 1)
    for router in range(routers):
        while len(network.routers[router].faces) < 256:
            network.add_host(router)
    return asked(network, "blocked", 64, 0, 1)


def denials(count: int, first: int) -> list[Entry]:
    """Entries that deny one host each, of a network that is nowhere, and one that permits all."""
    return [*(Entry(False, Prefix(first + at, 32), Prefix(0, 0)) for at in range(count - 1)), PERMIT_ALL]


def listed(routers: int, lists: int, entries: int, kind: str) -> Network:
    """A ring in which some routers have a long list at their hosts and at a link."""
    network = asked(shapes.ring(routers, routers // 2, 1), kind, 64, 1, 1)
    for router in range(lists):
        network.routers[router].lists["LONG"] = denials(entries, 0x0B000000 + (router << 16))
        for face in network.routers[router].faces[:2]:
            face.inbound = "LONG"
    return network


Make = Callable[[], Network]
LIMITS: list[tuple[str, Make]] = [
    ("256 routers, 1,024 links, 256 `reach`, 7 failures", lambda: asked(shapes.torus(16), "reach", 256, 7, 1)),
    ("the same under 16 failures", lambda: asked(shapes.torus(16), "reach", 256, 16, 1)),
    ("the same under eBGP, 7 failures", lambda: asked(shapes.torus(16, True), "reach", 256, 7, 1)),
    ("the same, 256 `blocked`, half of them shut", lambda: shut(asked(shapes.torus(16), "blocked", 256, 0, 1))),
    ("the same, 256 `through`, 512 waypoints", lambda: waypoints(asked(shapes.torus(16), "through", 256, 0, 1), 512)),
    ("fat-tree of 180 switches, 256 `reach`, 5 failures", lambda: asked(shapes.fat_tree(12), "reach", 256, 5, 1)),
    ("leaf-spine of 244 under eBGP, 256 `reach`, 3 failures", lambda: asked(shapes.leaf_spine(240, 4, True), "reach", 256, 3, 1)),
    ("campus of 244, 256 `through`", lambda: asked(shapes.campus(10, 22), "through", 256, 0, 1)),
    ("ring of 256 with 128 chords, 256 `reach`, 1 failure", lambda: asked(shapes.ring(256, 128, 1), "reach", 256, 1, 1)),
    ("4,096 classes of one `blocked`", lambda: classes("blocked", 0)),
    ("4,096 classes of one `reach`", lambda: classes("reach", 1)),
    ("64 routers of 256 interfaces, 64 `blocked`", lambda: interfaces(64)),
    ("two lists of 16,384 entries, 64 `blocked`", lambda: listed(16, 2, 16_384, "blocked")),
    ("64 lists of 1,024 entries, 64 `reach`", lambda: listed(64, 64, 1024, "reach")),
]
# long paths: 256 policies on rings without chords, and with a few
PATHS: list[tuple[str, Make]] = [
    ("ring of 64", lambda: asked(shapes.ring(64, 0, 1), "reach", 256, 0, 1)),
    ("ring of 128", lambda: asked(shapes.ring(128, 0, 1), "reach", 256, 0, 1)),
    ("ring of 256", lambda: asked(shapes.ring(256, 0, 1), "reach", 256, 0, 1)),
    ("ring of 256, 8 chords", lambda: asked(shapes.ring(256, 8, 1), "reach", 256, 0, 1)),
    ("ring of 256, eBGP", lambda: asked(shapes.ring(256, 0, 1, True), "reach", 256, 0, 1)),
]
DOUBLED = {"ring of 64", "ring of 128"}  # right after each comes the ring of twice as many


def long_files(folder: Path) -> None:
    """Eight files of 8 MiB, 64 MiB in all: lists of one entry each, of which nothing binds one."""
    network = shapes.ring(8, 0, 1)
    source, target = shapes.prefixes(network)[:2]
    network.ask("blocked", source, target)
    lay(network, folder)
    for router in network.routers:
        path = folder / f"{router.name}.cfg"
        text, at = [path.read_text().removesuffix("end\n")], 0
        size = len(text[0]) + 4
        while size < MOST_BYTES - 80:
            text.append(f"ip access-list standard L{at}\n permit 10.0.0.0 0.0.0.255\n!\n")
            size += len(text[-1])
            at += 1
        path.write_text("".join(text) + "end\n" + "!" * (MOST_BYTES - size - 1) + "\n")
