"""Edits that were found one after another, as edits of one document over the first files.

An edit turns about what a list does with a class of packets, what a list does with a route, or whether an adjacency is there.
So edits of several rounds join to those that were turned an odd number of times. A class of a smaller document is several
classes of the whole one; which these are arcv itself tells, asked of the same files with every interface shut down."""
from collections.abc import Iterable, Sequence
from dataclasses import replace

from ops.trial import Trial, Texts
from ops.commands import Wrong
from ops.documents import Document, Policy, network
from ops.lists import blocks_of, lists_of, split
from ops.reports import Edit

ALL_SERVICES = (0, (1 << 24) - 1)
Class = tuple[str, str, str]


def shut(text: str) -> str:
    """A router file with every interface shut down."""
    lines = split(text)
    last = {
        block.lines[-1].number if block.lines else block.head.number
        for block in blocks_of(lines) if block.begins("interface")
    }
    out = []
    for number, line in enumerate(lines, 1):
        out.append(line if line.endswith("\n") or number not in last else line + "\n")
        if number in last:
            out.append(" shutdown\n")
    return "".join(out)


def classes_of(asked: Trial) -> set[Class]:
    """The traffic classes of a document: sources, destinations, and the word of their services, empty for all."""
    policies = [
        Policy("blocked", policy.source, policy.target, None, policy.proto, policy.port)
        for policy in asked.document.policies
    ]
    document = Document(asked.document.routers, asked.document.links, policies, asked.document.weights)
    blocks = asked.over(document, {name: shut(text) for name, text in asked.texts.items()}).verify()
    found = set()
    for block in blocks:
        for line in block.lines:
            if line[0] != "closed":
                raise Wrong("its classes are not to be had")
            found.add((line[1], line[2], line[3] if len(line) > 3 and line[3].startswith("service:") else ""))
    return found


def span(word: str) -> tuple[int, int]:
    """The first and the last service of a word `service:P.N-P.N`."""
    if not word:
        return ALL_SERVICES
    first, _, last = word.removeprefix("service:").partition("-")
    one, two = ([int(part) for part in text.split(".")] for text in (first, last or first))
    return (one[0] << 16) + one[1], (two[0] << 16) + two[1]


def inside(small: Class, wide: Class) -> bool:
    """Whether every packet of a class is of another one."""
    (first, last), (begin, end) = span(small[2]), span(wide[2])
    ends = all(network(one).subnet_of(network(other)) for one, other in zip(small[:2], wide[:2]))
    return ends and begin <= first and last <= end


def _makers(first: Texts, now: Texts) -> dict[tuple[str, str, str], tuple[str, str]]:
    """The lists that earlier rounds made, by router, kind and name: what an edit of the first files calls them, and
    where they are bound."""
    found = {}
    for name, text in now.items():
        blocks = blocks_of(split(text))
        old = lists_of(blocks_of(split(first[name])))
        router = next(
            (
                block.head.words[1]
                for block in reversed(blocks) if block.begins("hostname") and len(block.head.words) > 1
            ),
            "",
        )
        for block in blocks:
            for line in block.lines:
                words = line.words
                is_bound = words[:2] == ("ip", "access-group") and words[3:] == ("in",)
                if block.begins("interface") and is_bound and (False, words[2]) not in old:
                    found[router, "packet", words[2]] = ("interface", block.head.words[1])
                is_bound = words[2:3] == ("prefix-list",) and words[4:] == ("in",)
                if block.begins("router", "bgp") and is_bound and (True, words[3]) not in old:
                    found[router, "route", words[3]] = ("neighbor", words[1])
    return found


def joined(rounds: Iterable[tuple[Sequence[Edit], Texts]], first: Trial) -> list[Edit]:
    """The edits of all rounds, each with the texts before it, as edits of the whole document over the first texts."""
    classes: set[Class] | None = None
    found: dict[Edit, None] = {}
    for edits, texts in rounds:
        makers = _makers(first.texts, texts)
        for edit in edits:
            place, name = makers.get(
                (edit.router, edit.kind, edit.name), (edit.place, edit.name)
            ) if edit.place == "list" else (edit.place, edit.name)
            mine = replace(edit, place=place, name=name)
            if edit.kind != "packet":
                parts = [mine]
            else:
                classes = classes if classes is not None else classes_of(first)
                wide = (edit.source, edit.target, edit.service)
                parts = [
                    replace(mine, source=one[0], target=one[1], service=one[2])
                    for one in sorted(classes) if inside(one, wide)
                ]
                if not parts:
                    raise Wrong(f"`{edit.line()}` is of no class of the whole document")
            for part in parts:
                if part in found:
                    del found[part]
                else:
                    found[part] = None
    return list(found)


def price(edits: Sequence[Edit], weights: dict[str, int]) -> int:
    return sum(weights.get(edit.weight(), 1) for edit in edits)
