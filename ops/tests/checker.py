"""checker: asks the tools of random networks with random lists, and tries each yes with packets as they are, by every
forwarding (blocked, through) or by every failure and every choice of equal ways (reach). A wrong yes ends it with status 1.

python3 -m ops.tests.checker [--networks N] [--seed N] [--arcv PATH] [--keep FOLDER]"""
import argparse
import itertools
import os
import random
import shutil
import sys
import tempfile
from collections import Counter

from ops import answers, asking, documents, links, routers, rules, statements
from ops.captures import strip
from ops.tests.given import program
from ops.tests.packets import Packet, random_packet
from ops.tests.bgp_networks import BgpNetwork
from ops.tests.random_networks import Face, Net, Network, network

FAR = 10 ** 9
World = Network | BgpNetwork


def policies_of(made: Network, dice: random.Random, can_route: bool) -> list[statements.Named]:
    """Random policies between the networks of hosts."""
    there = [place for place, segment in enumerate(made.segments) if segment.is_hosts and made.up(place)]
    nets = [(place, own) for place in there for own in made.segments[place].nets()]
    found = []
    for (place, source), (other, target) in itertools.permutations(nets, 2):
        if place == other:
            continue
        kind = "reach" if can_route else dice.choice(("blocked", "blocked", "through"))
        proto, port = dice.choice(((None, None), (6, None), (6, 22), (6, 80), (17, 53), (1, None), (17, None)))
        packets = dice.choice(("all", "all", "opening", "client"))
        ends = [str(net if dice.random() < 0.7 else dice.choice(list(net.subnets(prefixlen_diff=dice.randint(1, 8))))) for net in (source, target)]
        policy = documents.Policy(kind, *ends, dice.choice((0, 1, 1, 2)) if kind == "reach" else None, proto, port)
        marks = (dice.choice(made.routers),) if kind == "through" else ()
        found.append(statements.Named(f"p-{len(found)}", policy, packets, marks))
    return found


def is_adjacent(a: Face, b: Face) -> bool:
    """Whether OSPF's own packets pass the lists inbound at both ends."""
    for own, far in ((a, b), (b, a)):
        for target in (int(own.address.ip), 0xE0000005, 0xE0000006):
            if own.inbound is not None and not own.inbound.permits(Packet(89, int(far.address.ip), target)):
                return False
    return a.router != b.router and not a.is_passive and not b.is_passive and not a.is_shut and not b.is_shut


def distances(made: Network, failed: set[int], target: int) -> dict[str, int]:
    """Each router's least cost to a network, by OSPF over the segments between routers that have not failed."""
    cost = {face.router: 0 for face in made.up(target)}
    for _ in made.routers:
        for face in made.faces:
            for far in made.up(face.segment) if face.segment not in failed else ():
                if is_adjacent(face, far):
                    cost[face.router] = min(cost.get(face.router, FAR), face.cost + cost.get(far.router, FAR))
    return cost


def arrives(made: Network, packet: Packet, gateway: Face, target: int, failed: set[int]) -> bool:
    """Whether a packet that comes in at a gateway arrives, whichever of the equal ways it takes."""
    if gateway.inbound is not None and not gateway.inbound.permits(packet):
        return False
    cost = distances(made, failed, target)
    own = {face.router: face for face in made.up(target)}
    waiting, seen = [gateway.router], set()
    while waiting:
        at = waiting.pop()
        if at in seen:
            continue
        seen.add(at)
        if at in own:
            if own[at].outbound is not None and not own[at].outbound.permits(packet):
                return False
            continue
        if cost.get(at, FAR) >= FAR:
            return False
        for face in made.faces:
            for far in made.up(face.segment) if face.router == at and face.segment not in failed else ():
                if is_adjacent(face, far) and face.cost + cost.get(far.router, FAR) == cost[at]:
                    if (face.outbound and not face.outbound.permits(packet)) or (far.inbound and not far.inbound.permits(packet)):
                        return False
                    waiting.append(far.router)
    return True


def place_of(made: Network, prefix: str) -> int:
    return next(place for place, segment in enumerate(made.segments) if any(Net(prefix).subnet_of(own) for own in segment.nets()))


def wrong_packet(world: World, named: statements.Named, dice: random.Random, tries: int) -> str:
    """A packet that shows that a yes is wrong, or nothing."""
    made = world.net if isinstance(world, BgpNetwork) else world
    policy = named.policy
    source, target = place_of(made, policy.source), place_of(made, policy.target)
    proto = policy.proto if isinstance(policy.proto, int) else None
    between = [place for place, segment in enumerate(made.segments) if not segment.is_hosts and not segment.has_outside]
    for _ in range(tries):
        packet = random_packet(dice, Net(policy.source), Net(policy.target), proto, policy.port, named.packets)
        if policy.kind == "reach":
            failed = set(dice.sample(between, min(len(between), policy.failures or 0)))
            for gateway in made.up(source):
                there = world.arrives(packet, gateway, target, failed) if isinstance(world, BgpNetwork) else arrives(made, packet, gateway, target, failed)
                if not there:
                    return f"{packet} is lost from {gateway.router} {gateway.name} with {failed} failed"
        elif made.delivered(packet, source, target, named.waypoints[0] if policy.kind == "through" else ""):
            return f"{packet} is delivered"
    return ""


def check(world: World, dice: random.Random, can_route: bool, program: str, folder: str, tries: int) -> tuple[Counter[str], list[str]]:
    """Asks about one network; what was answered, and each yes that is wrong."""
    made = world.net if isinstance(world, BgpNetwork) else world
    table = rules.table(None)
    found = []
    for name in made.routers:
        text = world.text(name, dice)
        with open(os.path.join(folder, f"{name}.cfg"), "w", encoding="utf-8") as file:
            file.write(text)
        found.append(routers.read(strip(f"{name}.cfg", text.encode()), table))
    segments = links.segments(found)
    links.join_outside(found, segments, [])
    named = policies_of(made, dice, can_route)
    asked = answers.Answers(found, segments, named, asking.Asker(program, os.path.join(folder, "arcv")), table, {})
    asked.ask()
    counts: Counter[str] = Counter()
    wrong = []
    for joined in asked.joined:
        answer = joined.answer()
        counts[f"{joined.named.policy.kind} {answer}"] += 1
        if answer == "none" and any(reply.block is None and not asking.is_too_much(reply.why) for reply in joined.replies):
            wrong.append(f"{joined.named.policy}: a copy was refused: {[reply.why for reply in joined.replies if reply.why][0]}")
        shown = wrong_packet(world, joined.named, dice, tries) if answer in ("yes", "yours", "no") else ""
        if answer in ("yes", "yours") and shown:
            wrong.append(f"{joined.named}: {answer}, but {shown}")
        if answer == "no" and not shown:
            counts[f"{joined.named.policy.kind} no, without a packet found"] += 1
    return counts, wrong


def main(words: list[str]) -> int:
    parser = argparse.ArgumentParser(description=__doc__, formatter_class=argparse.RawDescriptionHelpFormatter)
    parser.add_argument("--networks", type=int, default=500)
    parser.add_argument("--seed", type=int, default=1)
    parser.add_argument("--tries", type=int, default=150)
    parser.add_argument("--arcv", default=program())
    parser.add_argument("--keep", help="a folder in which the files of a network with a wrong yes are left")
    options = parser.parse_args(words)
    counts: Counter[str] = Counter()
    for seed in range(options.seed, options.seed + options.networks):
        dice = random.Random(seed)
        can_route = seed % 3 == 0
        world: World = BgpNetwork(dice) if seed % 6 == 0 else network(dice, can_route)
        with tempfile.TemporaryDirectory(prefix="arcv-checker-") as folder:
            more, wrong = check(world, dice, can_route, os.path.abspath(options.arcv), folder, options.tries)
            counts += more
            if wrong:
                if options.keep:
                    shutil.copytree(folder, os.path.join(options.keep, str(seed)), dirs_exist_ok=True)
                print(f"network {seed}:", *wrong, sep="\n  ")
                return 1
    print(f"{options.networks} networks, no wrong yes: " + ", ".join(f"{count} {name}" for name, count in sorted(counts.items())))
    return 0


if __name__ == "__main__":
    sys.exit(main(sys.argv[1:]))
