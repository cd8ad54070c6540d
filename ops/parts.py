"""A repair by parts: a few broken policies at a time, each over the files that the part before left."""
from collections.abc import Sequence
from dataclasses import dataclass, field, replace

from ops import commands
from ops.commands import Wrong, tell
from ops.documents import Document, Policy, network, span_words, with_policies
from ops.joining import joined, price, span
from ops.ladder import Known, Limits, climb
from ops.reports import Block, Edit
from ops.trial import Texts, Trial, not_yes

GROUP = 4
PIECES = 64


@dataclass
class Result:
    """What is found: the files after, the edits, and what can be said of them."""

    texts: Texts
    edits: list[Edit]
    price: int | None
    cheapest: bool
    open_policies: list[int]
    say: list[str]


def links_of(block: Block) -> set[int]:
    """The links that a witness names."""
    found = set()
    for line in block.lines:
        front = {"walk": 3, "acl-on-routed-link": 3, "path": 1, "cut": 1}.get(line[0], len(line))
        words = line[front:]
        found |= {int(word) for word in words if word.isdigit()}
    return found


def on_the_way(document: Document, blocks: Sequence[Block], broken: Sequence[int]) -> list[int]:
    """The `reach` policies that hold and lie on the ways of the broken ones: they share a link of a witness, or a
    network at an end."""
    mine = [document.policies[number - 1] for number in broken]
    links: set[int] = set()
    for block in blocks:
        links |= links_of(block) if block.number in broken else set()
    found = []
    for block in blocks:
        policy = document.policies[block.number - 1]
        if block.answer != "yes" or block.kind != "reach":
            continue
        ends = any(
            network(policy.source).overlaps(network(one.source)) or network(policy.target).overlaps(network(one.target)) for one in mine
        )
        if ends or links_of(block) & links:
            found.append(block.number)
    return found


@dataclass
class Parts:
    """A repair by parts: groups of broken policies, each over the files that the ones before left."""

    whole: Trial
    limits: Limits
    known: Known
    texts: Texts = field(default_factory=dict)
    blocks: list[Block] = field(default_factory=list)
    failed: list[int] = field(default_factory=list)
    small: bool = False  # whether only policies on the ways are kept

    def run(self) -> None:
        """Repairs group after group; what cannot be repaired is left in `failed`."""
        self.texts, self.blocks = self.whole.texts, self.whole.verify()
        size = GROUP
        while broken := [number for number in not_yes(self.blocks) if number not in self.failed]:
            group = broken[:size]
            if self._group(group, [self.whole.document.policies[number - 1] for number in group]):
                continue
            if len(group) > 1:
                size = (len(group) + 1) // 2
            elif not self._halves(group[0]):
                self.failed += group
                tell(f"policy {group[0]} is left as it is")

    def _halves(self, number: int) -> bool:
        """Repairs one policy in pieces, half after half of its target; whether it holds then."""
        waiting, tried = halves(self.whole.document.policies[number - 1]), 0
        while waiting and tried < PIECES:
            piece, tried = waiting.pop(0), tried + 1
            tell(f"  of policy {number} the part to {piece.target}")
            if not self._group([number], [piece]):
                if not (smaller := halves(piece)):
                    return False
                waiting = smaller + waiting
        return number not in not_yes(self.blocks)

    def _group(self, group: list[int], wanted: list[Policy]) -> bool:
        """Tries one group: the policies that hold are kept, all or those on the way, and those that would break are
        added."""
        now = self.whole.over(texts=self.texts)
        holding = [block.number for block in self.blocks if block.answer == "yes"]
        kept = on_the_way(now.document, self.blocks, group) if self.small else holding
        while True:
            left = [number for number in holding if number not in kept]
            said = f"{'policy' if len(group) == 1 else 'policies'} {listed(group)}, keeping {len(kept)} that hold" + (
                f", and leaving out {listed(left)}" if left else ""
            )
            tell("\n".join(commands.wrapped(said, "", "    ")))
            document = with_policies(now.document, kept)
            document.policies += wanted
            outcome = climb(now.over(document), self.limits, lambda _bound, _text: None, "  ")
            if outcome.repair.answer == "refused" and "limit" in outcome.repair.reason.split() and not self.small:
                self.small, kept = True, on_the_way(now.document, self.blocks, group)
                continue
            if outcome.repair.answer != "repaired":
                if outcome.repair.answer == "refused" and "limit" not in outcome.repair.reason.split():
                    raise Wrong(f"nothing is judged: {outcome.repair.reason}")
                return False
            blocks = self.whole.over(texts=outcome.repair.texts).verify()
            worse = [block.number for block in blocks if block.answer != "yes" and block.number in left]
            if not worse:
                self.known.rounds.append((outcome.repair.edits, self.texts))
                self.texts, self.blocks = outcome.repair.texts, blocks
                return True
            tell(f"  that breaks {listed(worse)}, so these are kept too")
            kept = sorted({*kept, *worse})


def halves(policy: Policy) -> list[Policy]:
    """The policy in two: to each half of its target, or from each half of its source where the target is one host."""
    for end in ("target", "source"):
        net = network(getattr(policy, end))
        if net.prefixlen < 32:
            return [replace(policy, **{end: str(half)}) for half in net.subnets()]
    return []


def listed(numbers: Sequence[int]) -> str:
    """`1 to 3, 7`."""
    parts: list[list[int]] = []
    for number in sorted(numbers):
        if parts and parts[-1][-1] == number - 1:
            parts[-1].append(number)
        else:
            parts.append([number])
    return ", ".join(
        str(part[0]) if len(part) == 1 else f"{part[0]}{' to ' if len(part) > 2 else ', '}{part[-1]}"
        for part in parts
    )


def hints(blocks: Sequence[Block]) -> list[str]:
    """Why policies may be beyond a repair: no entry can say the services of a class that breaks them."""
    found = []
    for block in blocks:
        word = next((word for line in block.lines for word in line[3:4] if word.startswith("service:")), "")
        first, last = (number >> 16 for number in span(word))
        if block.answer != "yes" and word and (first != last or first == 0):
            found.append(
                f"Policy {block.number} is broken by packets of {span_words(word)}. No single entry can say that, so no list is edited for them: "
                "ask for tcp, udp and icmp each by itself, or change a list by hand."
            )
    return found


def by_parts(whole: Trial, limits: Limits, known: Known) -> Result:
    """A repair by parts, its edits joined and written by `apply` over the first files, every policy verified over the
    result."""
    parts = Parts(whole, limits, known)
    parts.run()
    texts, edits, cost, say = parts.texts, [edit for edits, _ in known.rounds for edit in edits], None, []
    try:
        together = joined(known.rounds, whole)
        written, refused = whole.apply(together)
        if refused:
            raise Wrong(refused)
        after = {**whole.texts, **written}
        if not_yes(whole.over(texts=after).verify()) != not_yes(parts.blocks):
            raise Wrong("joined they do not do what they do one after another")
        texts, edits, cost = after, together, price(together, whole.document.weights)
    except Wrong as error:
        say.append(
            f"The edits were made part by part, and no list of them is one of the whole document ({error}): take "
            "the files, by `bin/plan DOC --copies SUFFIX`."
        )
    blocks = whole.over(texts=texts).verify()
    return Result(texts, edits, cost, False, not_yes(blocks), say + hints(blocks))
