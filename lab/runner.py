"""One document: its network is brought up, failed in turn, and compared with what arcv answers."""
import os
from collections import Counter
from concurrent.futures import ThreadPoolExecutor
from dataclasses import dataclass, field
from ipaddress import IPv4Network
from random import Random
from typing import Callable, Optional

from lab import claims as claimed
from lab.claims import Claim, Claims, Failures
from lab.network import Network, read_network
from lab.packets import Chooser
from lab.probes import Packet, Probes
from lab.program import Program, Traffic
from lab.routes import Rows, compared, hops_now, settle
from lab.site import BESIDE, Site
from lab.spaces import Spaces
from lab.walks import Walk, Ways

PER_POLICY, MOST_CLASSES = 8, 12


@dataclass
class Options:
    """What is tried: so many sets drawn, or the one set that is named, and the seed of all that is drawn."""
    sets: int = 20
    down: Optional[Failures] = None
    seed: int = 1


@dataclass
class Tally:
    """What was compared, by words, and a line for each difference."""
    counts: Counter[str] = field(default_factory=Counter)
    claims: Counter[str] = field(default_factory=Counter)
    differences: list[str] = field(default_factory=list)


def draw_sets(network: Network, found: Claims, options: Options, draw: Random) -> dict[Failures, str]:
    """The failure sets to try, each with what it is from: the one that is named alone, or those of witnesses and some drawn, most
    of them within what a policy allows to fail."""
    numbers = [link.number for link in network.links]
    if options.down is not None:
        return {options.down: "named"}
    sets = dict(found.sets)
    limit = max((policy.failures for policy in network.policies), default=0) + 1
    for _ in range(options.sets):
        count = draw.randint(1, max(1, min(limit, len(numbers))))
        sets.setdefault(frozenset(draw.sample(numbers, min(count, len(numbers)))), "drawn")
    return in_order(sets)


def in_order(sets: dict[Failures, str]) -> dict[Failures, str]:
    """The failure sets in an order in which few links come up again from one to the next, since that is what takes time."""
    left, last = dict(sets), Failures()
    ordered: dict[Failures, str] = {}
    while left:
        following = min(left, key=lambda failed: (len(last - failed), len(failed - last), sorted(failed)))
        ordered[following], last = left.pop(following), following
    return ordered


class Run:
    """A document's network that runs, and what was compared of it."""

    def __init__(self, program: Program, document: str, options: Options, tell: Callable[[str], None], spaces: Spaces) -> None:
        self.program, self.document, self.options, self.tell = program, document, options, tell
        self.network = read_network(os.path.join(program.folder, document))
        self.draw = Random(options.seed)
        self.tally = Tally()
        report, self.verdicts = program.verify(document)
        with open(os.path.join(program.folder, "lab-report"), "w") as file:
            file.write(report)
        self.claims = claimed.gather(program, document, "lab-report", self.network, self.verdicts, self.draw)
        self.chooser = Chooser(self.network, self.claims.traffics, self.draw)
        self.sets = draw_sets(self.network, self.claims, options, self.draw)
        self.site = Site(spaces, self.network)

    def run(self) -> Tally:
        """Brings the network up, tries each failure set, and takes it down."""
        counts = self.tally.counts
        counts["routers"], counts["links"] = len(self.network.routers), len(self.network.links)
        for policy, verdict in zip(self.network.policies, self.verdicts):
            counts[f"{policy.kind} {verdict.answer}"] += 1
        with ThreadPoolExecutor(BESIDE) as pool:
            try:
                told = {failed: pool.submit(self.rows, failed) for failed in self.sets}
                self.site.up()
                with Probes(self.site, self.chooser.protocols()) as probes:
                    for failed, origin in self.sets.items():
                        self.try_set(failed, origin, told[failed].result(), probes)
            finally:
                pool.shutdown(wait=False, cancel_futures=True)
                self.site.down()
        return self.tally

    def differs(self, failed: Failures, origin: str, text: str) -> None:
        down = ",".join(map(str, sorted(failed))) or "nothing"
        line = f"down {down} ({origin}): {text}"
        self.tally.differences.append(line)
        self.tell(line)

    def rows(self, failed: Failures) -> Rows:
        """The trace to each host network."""
        hosts = list(self.network.hosts)
        if len(hosts) < 2:
            return {}
        return {host: self.program.trace(self.document, hosts[host == hosts[0]], host, failed) for host in hosts}

    def try_set(self, failed: Failures, origin: str, rows: Rows, probes: Probes) -> None:
        """Compares routes and packets under one failure set, `rows` being what arcv says of it."""
        self.site.fail(failed)
        hops, texts = compared(self.site, rows)
        counts = self.tally.counts
        counts["sets"] += 1
        counts["rows"] += len(hops)
        for place, host in hops:
            row = rows[host][self.network.routers[place].name]
            counts["rows with several next hops"] += len(row.links) > 1
            counts["rows without a route"] += row.cost is None
        for text in texts:
            self.differs(failed, origin, text)
        self.try_packets(failed, origin, rows, probes)
        if hops_now(self.site, list(rows)) != hops and settle(self.site, rows) != hops:
            self.differs(failed, origin, "the routes changed while packets were sent")

    def drawn(self) -> list[Packet]:
        """The packets of one batch: some of each policy, and of classes that witnesses name."""
        traffics = [claimed.whole(policy) for policy in self.network.policies]
        packets = [packet for traffic in traffics for packet in self.chooser.packets(traffic, PER_POLICY)]
        classes = self.claims.traffics
        for traffic in self.draw.sample(classes, min(MOST_CLASSES, len(classes))):
            packets += self.chooser.packets(traffic, 2)
        return list(dict.fromkeys(packets))

    def try_packets(self, failed: Failures, origin: str, rows: Rows, probes: Probes) -> None:
        """Sends a batch, and once more what was not as told."""
        batch = self.drawn()
        wrong = self.judge(batch, failed, rows, probes, self.tally)
        if wrong:
            settle(self.site, rows)
            self.tally.counts["probes sent again"] += len(wrong)
            for packet, text in self.judge(list(wrong), failed, rows, probes, Tally()).items():
                self.differs(failed, origin, f"packet {packet}: {text}")

    def judge(self, packets: list[Packet], failed: Failures, rows: Rows, probes: Probes, tally: Tally) -> dict[Packet, str]:
        """Sends packets, and tells of those that did not do as told what is wrong."""
        ways = {packet: self.ways(packet, rows) for packet in packets}
        sent = [(packet, ways[packet].source) for packet in packets]
        wrong = {}
        for packet, sighting in zip(packets, probes.send(sent)):
            walk = ways[packet].judge(packet, sighting)
            tally.counts["probes"] += 1
            tally.counts["probes delivered"] += walk.arrived
            text = walk.fault or self.wrong_claim(packet, walk, ways[packet], failed, tally)
            if text:
                wrong[packet] = text
        return wrong

    def ways(self, packet: Packet, rows: Rows) -> Ways:
        source, target = (self.network.host_of(IPv4Network(address)) for address in (packet.source, packet.target))
        return Ways(self.network, rows[target], self.network.hosts[source], self.network.hosts[target])

    def wrong_claim(self, packet: Packet, walk: Walk, ways: Ways, failed: Failures, tally: Tally) -> str:
        """Which claim the packet breaks, or nothing. One to the router's own address behind a list outbound that denies it
        breaks none, since docs/model.md says so."""
        texts = []
        spoken = [claim for claim in self.claims.claims if is_of(packet, claim.traffic) and claim.holds_under(failed)]
        if ways.is_own(packet) and ways.is_kept_out(packet):
            tally.counts["claims let go for an own address"] += bool(spoken)
            return ""
        tally.counts["probes with a claim"] += bool(spoken)
        for claim in spoken:
            tally.claims[kind_of(claim)] += 1
            if claim.wrong(walk):
                texts.append(f"{claim.said}: {claim.wrong(walk)}")
        return "; ".join(texts)


def kind_of(claim: Claim) -> str:
    """The words of a claim without its numbers and names."""
    return " ".join(word for word in claim.said.split() if word.isalpha() and word != "policy")


def is_of(packet: Packet, traffic: Traffic) -> bool:
    low, high = traffic.services
    return packet.source in traffic.source and packet.target in traffic.target and low <= packet.service <= high


def summary(name: str, tally: Tally) -> str:
    """The sum of what was compared."""
    counts = tally.counts
    words = ("routers", "links", "sets", "rows", "probes", "probes delivered", "probes with a claim")
    return f"{name}: " + ", ".join(f"{counts[word]} {word}" for word in words) + f"; differences: {len(tally.differences)}"
