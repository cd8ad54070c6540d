"""Each policy is asked of the copy that decides it; what was said is joined to one answer a policy."""
import ipaddress
from collections.abc import Iterable, Sequence
from dataclasses import dataclass, field, replace

from ops import asking, hosts, opened, rules
from ops.asking import Asker, Reply
from ops.documents import Policy
from ops.exact import Exact, structural
from ops.exact_copy import Builder, Want
from ops.hosts import Part
from ops.links import Net, Segment
from ops.routers import Face, Router
from ops.statements import Named
from ops.written import Change

MOST_FAILURES = 16
LONGEST = 27  # no prefix of a policy is halved beyond this length
ORDER = ("no", "none", "yours", "yes")


@dataclass
class Joined:
    """A policy with the answers of its parts, and why a part has none."""
    named: Named
    replies: list[Reply] = field(default_factory=list)
    reasons: list[rules.Note] = field(default_factory=list)

    def answer(self) -> str:
        """The worst of its parts: `no`, `none` where one is not answered, `yours`, or `yes`."""
        found = [reply.answer() for reply in self.replies if not reply.is_stronger] + (["none"] if self.reasons or not self.replies else [])
        return min(found, key=ORDER.index)


def net(prefix: str) -> Net:
    return ipaddress.IPv4Network(prefix)


def part_policy(named: Named, part: Part) -> Policy:
    return replace(named.policy, source=str(part.source), target=str(part.target))


class Answers:
    """All policies over one network."""

    def __init__(self, routers: Sequence[Router], segments: Sequence[Segment], named: Sequence[Named], asker: Asker, table: rules.Table,
                 networks: dict[str, str]) -> None:
        self.routers, self.segments, self.asker = routers, segments, asker
        self.networks = networks
        self.joined = [Joined(one) for one in named]
        self.parts: dict[int, list[Part]] = {}
        self.holders: dict[Net, Net] = {}
        self.changes: dict[str, list[Change]] = {}
        self.exact = Exact(routers, segments, table)
        self.routed: dict[int, bool] = {}  # of a no of an open copy: whether the routing of the files alone would be a yes
        self.own: dict[str, list[int]] = {}  # ports whose list outbound does not guard the router's own address there
        places = {router.name for router in routers} | {face.key() for router in routers for face in router.faces}
        for place, one in enumerate(named):
            found, why = hosts.parts(place, net(one.policy.source), net(one.policy.target), segments)
            self.parts[place] = found
            strange = [mark for mark in one.waypoints if mark not in places]
            if strange:
                why = f"no file has a router or port {', '.join(strange)}, which a policy names as waypoint"
                self.parts[place] = []
            if why:
                self.joined[place].reasons.append(structural(why))

    def ask(self) -> None:
        """Asks of every policy the copy that decides it."""
        groups: dict[tuple[str, tuple[str, ...]], list[int]] = {}
        for place, joined in enumerate(self.joined):
            named = joined.named
            if named.policy.kind != "reach":
                marks = named.waypoints if named.policy.kind == "through" else ()
                groups.setdefault((named.packets, marks), []).append(place)
        for (packets, marks), places in groups.items():
            found = [part for place in places for part in self.parts[place]]
            for numbers in asking.halves(range(len(found))):
                self.ask_open([found[number] for number in numbers], packets, marks)
        self.ask_exact()
        self.ask_routed()

    def ask_routed(self) -> None:
        """Where an open copy says no to `blocked`, asks whether the routing of the files brings packets there; only where that is
        all that there is: no static routes, nothing without a file, and nothing in the way of an exact copy."""
        if self.exact.notes or any(router.statics for router in self.routers) or any(segment.outside for segment in self.segments):
            return
        for packets in sorted({joined.named.packets for joined in self.joined}):
            wants: list[tuple[str, Want, list[rules.Note]]] = []
            for place, joined in enumerate(self.joined):
                if joined.named.policy.kind == "blocked" and joined.named.packets == packets and joined.answer() == "no":
                    for part in self.parts[place]:
                        found, why = self.wants(part)
                        ends = [self.network_of(prefix) for prefix in (part.source, part.target)]
                        if why or any(self.exact.others_in(own) for own in ends) or len(self.exact.gateways(ends[1])) > 1:
                            break
                        wants += [(packets, want, []) for want in found]
                    else:
                        self.routed.setdefault(place, True)
            for _, group in grouped(wants):
                self.ask_group(group, packets)

    def ask_group(self, group: Sequence[tuple[Want, list[rules.Note]]], packets: str) -> None:
        """Asks a copy with the routing of the files and lists by which no fewer packets pass."""
        copy = Builder(self.exact, [want for want, _ in group], packets, True).write()
        copy.map.policies = [self.joined[want.place].named.name for want, _ in group]
        blocks, _ = self.asker.report(self.asker.lay(self.asker.name("routed"), copy.files, copy.document, copy.map))
        for place, (want, _) in enumerate(group):
            self.routed[want.place] = self.routed[want.place] and bool(blocks) and blocks[place].answer == "yes"

    def policy(self, part: Part) -> Policy:
        return part_policy(self.joined[part.place].named, part)

    def ask_open(self, found: Sequence[Part], packets: str, marks: tuple[str, ...]) -> None:
        """Asks an open copy about parts of policies; where they have too many classes together, about half of them."""
        if not found:
            return
        policies = [self.policy(part) for part in found]
        copy = opened.open_copy(self.routers, self.segments, policies, packets, marks)
        name = self.asker.name("open" if packets == "all" else f"open-{packets}")
        copy.map.policies = [self.joined[part.place].named.name for part in found]
        copy.map.networks = self.networks
        path = self.asker.lay(name, copy.files, copy.document, copy.map)
        blocks, why = self.asker.report(path)
        smaller = smaller_parts(found) if asking.is_too_much(why) else []
        for some in smaller:
            self.ask_open(some, packets, marks)
        if smaller:
            return
        for file, changes in copy.changes.items():
            self.changes.setdefault(file, []).extend(changes)
        for place, part in enumerate(found):
            reply = Reply(part.place, name, "open", blocks[place] if blocks else None, copy.map, copy.document, path, why, unlike=unlike(copy.changes),
                          rules=rules_of(copy.changes))
            self.joined[part.place].replies.append(reply)
            if reply.block is not None and reply.block.answer == "yes":
                reply.yours = self.acting(reply, asking.owners(copy.files, str(part.source)))

    def acting(self, reply: Reply, source: set[str]) -> list[rules.Note]:
        """Lines by which packets of a policy may pass lists, or that no row knows, at the routers to which they get."""
        assert reply.block is not None
        closed = asking.closed_routers(reply.block) | source
        there = {reply.map.real.get(name) for name in closed}
        near = {reply.map.real.get(name) for name in asking.beside(closed, reply.document)}
        kind = self.joined[reply.place].named.policy.kind
        found = [note for router in self.routers if router.name in near for note in lines_of(router) if kind in note.loses() and note.cost != "elsewhere"]
        found += [note for router in self.routers if router.name not in there for note in lines_of(router) if note.cost == "elsewhere"]
        own = [face.key() for face in self.gateways(net(self.joined[reply.place].named.policy.target)) if face.router in there and "out" in face.lists]
        if own:
            self.own.setdefault(", ".join(own), []).append(reply.place)
        return found

    def gateways(self, prefix: Net) -> list[Face]:
        """The interfaces that are in a network of the files, or in one of its parts."""
        return [face for segment in self.segments if any(own.overlaps(prefix) for own in segment.nets) for face in segment.faces]

    def ask_exact(self) -> None:
        """Asks exact copies about `reach`, where nothing stands in the way of an answer."""
        wants: list[tuple[str, Want, list[rules.Note]]] = []
        places = [place for place, joined in enumerate(self.joined) if joined.named.policy.kind == "reach"]
        nets = {end for place in places for part in self.parts[place] for end in (part.source, part.target)}
        self.exact.meet([segment for segment in self.segments if any(prefix.subnet_of(own) for prefix in nets for own in segment.nets)])
        cannot = [note for note in self.exact.notes if note.cost in ("routes", "passes")]
        lines = self.exact.face_notes([face for meeting in self.exact.meetings for face in meeting.faces])
        for place in places:
            joined = self.joined[place]
            for part in self.parts[place]:
                found, why = self.wants(part)
                notes = [*cannot, *why, *self.exact.against(self.network_of(part.target)),
                         *self.exact.others_in(self.network_of(part.source)), *self.exact.others_in(self.network_of(part.target)),
                         *(note for note in [*lines, *self.exact.face_notes(ends_of(found))] if note.cost in ("routes", "passes"))]
                joined.reasons += notes
                if not notes:
                    yours = [*self.exact.notes, *lines, *self.exact.face_notes(ends_of(found)), *(self.exact.shared() if joined.named.policy.failures else [])]
                    wants += [(joined.named.packets, want, list(yours)) for want in [*found, *self.stronger(found)]]
        for packets, group in grouped(wants):
            for numbers in asking.halves(range(len(group))):
                self.ask_wants([group[number] for number in numbers], packets)
        for joined in self.joined:
            stronger = [reply for reply in joined.replies if reply.is_stronger]
            if stronger and all(reply.block is not None and reply.block.answer == "yes" for reply in stronger):
                for reply in joined.replies:
                    reply.yours = [note for note in reply.yours if note not in self.exact.shared()]

    def stronger(self, found: Sequence[Want]) -> list[Want]:
        """The same with as many failed links as a policy's number of failed ports can be."""
        most = max(self.exact.over_ports().values(), default=1)
        return [replace(want, policy=replace(want.policy, failures=most * want.policy.failures), is_stronger=True) for want in found
                if want.policy.failures and 1 < most and most * want.policy.failures <= MOST_FAILURES]

    def network_of(self, prefix: Net) -> Net:
        """The network of the files in which a prefix lies."""
        if prefix not in self.holders:
            self.holders[prefix] = next((own for segment in self.segments for own in segment.nets if prefix.subnet_of(own)), prefix)
        return self.holders[prefix]

    def wants(self, part: Part) -> tuple[list[Want], list[rules.Note]]:
        """What has to hold for a part of a policy: each gateway of its source by itself, to each of its target."""
        ends = [self.exact.gateways(self.network_of(prefix)) for prefix in (part.source, part.target)]
        for prefix, found in zip((part.source, part.target), ends):
            if not found:
                return [], [structural(f"{prefix} is at no router whose routes are modelled")]
        policy = self.policy(part)
        made = []
        for source in ends[0]:
            near = [face for face in ends[1] if face.router == source.router]
            made += [Want(part.place, policy, source, target) for target in near or ends[1]]
        return made, []

    def ask_wants(self, found: Sequence[tuple[Want, list[rules.Note]]], packets: str) -> None:
        """Asks an exact copy; where there are too many classes together, about half of them."""
        copy = Builder(self.exact, [want for want, _ in found], packets).write()
        name = self.asker.name(("ports" if found[0][0].is_stronger else "exact") + ("" if packets == "all" else f"-{packets}"))
        copy.map.policies = [self.joined[want.place].named.name for want, _ in found]
        copy.map.networks = self.networks
        path = self.asker.lay(name, copy.files, copy.document, copy.map)
        blocks, why = self.asker.report(path)
        smaller = smaller_wants(found) if asking.is_too_much(why) else []
        for some in smaller:
            self.ask_wants(some, packets)
        if smaller:
            return
        for file, changes in copy.changes.items():
            self.changes.setdefault(file, []).extend(changes)
        for place, (want, yours) in enumerate(found):
            block = blocks[place] if blocks else None
            reply = Reply(want.place, name, "exact", block, copy.map, copy.document, path, why, yours, want.is_stronger, unlike(copy.changes),
                          rules_of(copy.changes))
            self.joined[want.place].replies.append(reply)


def unlike(changes: dict[str, list[Change]]) -> int:
    """How many entries of a copy let other packets pass than on the routers."""
    return len({(file, change) for file, some in changes.items() for change in some if change.direction != "exact"})


def rules_of(changes: dict[str, list[Change]]) -> tuple[str, ...]:
    """The rules by which entries of a copy are not as on the routers."""
    return tuple(sorted({change.rule for some in changes.values() for change in some}))


def smaller_ends(source: Net, target: Net) -> list[tuple[Net, Net]]:
    """Two halves of the packets between two prefixes, or none where halves have been taken often enough."""
    wide = source if source.prefixlen <= target.prefixlen else target
    if wide.prefixlen >= LONGEST:
        return []
    halves = list(wide.subnets())
    return [(half, target) for half in halves] if wide is source else [(source, half) for half in halves]


def smaller_parts(found: Sequence[Part]) -> list[list[Part]]:
    """What to ask in two copies in place of one."""
    if len(found) > 1:
        return [list(found[: len(found) // 2]), list(found[len(found) // 2 :])]
    return [[Part(found[0].place, *ends)] for ends in smaller_ends(found[0].source, found[0].target)]


def smaller_wants(found: Sequence[tuple[Want, list[rules.Note]]]) -> list[list[tuple[Want, list[rules.Note]]]]:
    """What to ask in two copies in place of one."""
    if len(found) > 1:
        return [list(found[: len(found) // 2]), list(found[len(found) // 2 :])]
    want, yours = found[0]
    ends = smaller_ends(net(want.policy.source), net(want.policy.target))
    return [[(replace(want, policy=replace(want.policy, source=str(source), target=str(target))), yours)] for source, target in ends]


def lines_of(router: Router) -> list[rules.Note]:
    """What the lines of a router cost, but for those of interfaces that are shut down."""
    return router.notes + [note for face in router.faces if not face.is_shut for note in face.notes]


def ends_of(wants: Iterable[Want]) -> list[Face]:
    return list({id(face): face for want in wants for face in (want.source, want.target)}.values())


Asked = list[tuple[Want, list[rules.Note]]]


def grouped(wants: Sequence[tuple[str, Want, list[rules.Note]]]) -> list[tuple[str, Asked]]:
    """The wants in groups that one copy can have: of the same packets, each network at one interface."""
    groups: list[tuple[tuple[str, bool], dict[Net, Face], Asked]] = []
    for packets, want, yours in wants:
        places = {face.addresses[0].network: face for face in (want.source, want.target)}
        for kind, taken, group in groups:
            if kind == (packets, want.is_stronger) and all(taken.get(own, face) is face for own, face in places.items()):
                break
        else:
            taken, group = {}, []
            groups.append(((packets, want.is_stronger), taken, group))
        taken.update(places)
        group.append((want, yours))
    return [(packets, group) for (packets, _), _, group in groups]
