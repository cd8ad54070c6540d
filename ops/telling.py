"""What `bin/start` tells: what cannot be answered, what needs a yes, what was left out, and the answers."""
from collections import Counter
from collections.abc import Iterable, Sequence
from typing import Any

from ops import explain, rules
from ops.answers import Answers, Joined
from ops.asking import Reply
from ops.commands import counted, wrapped
from ops.documents import Policy
from ops.faces import Routers
from ops.links import Segment
from ops.opened import OPEN_LIST
from ops.routers import Router
from ops.wording import policy_words

WORDS = {"yes": "yes", "no": "NO", "yours": "yes, if you say so too", "none": "NOT ANSWERED"}
SHORT = {"yes": "yes", "no": "no", "yours": "needs your yes", "none": "not answered"}
SHOWN = 12
READ: dict[str, Routers] = {}
COPIES = {"open": "the open copy, which lets packets go any way that interfaces and lists leave them",
          "exact": "the exact copy, which routes as the files say"}


def place_of(note: rules.Note) -> str:
    return f"{note.file}:{note.number}" if note.file else ""


def grouped(notes: Iterable[rules.Note]) -> list[tuple[str, list[rules.Note]]]:
    """Notes by rule and reason, each line once, those of most lines first."""
    found: dict[tuple[str, str], dict[rules.Note, None]] = {}
    for note in notes:
        key = (note.rule if note.rule != "unknown" else " ".join(note.text.split()[:2]), note.reason)
        found.setdefault(key, {})[note] = None
    rows = [(f"`{rule}`: {reason}" if rule else reason, list(lines)) for (rule, reason), lines in found.items()]
    return sorted(rows, key=lambda row: -len(row[1]))


def group_lines(rows: Sequence[tuple[str, list[rules.Note]]], most: int) -> list[str]:
    """One entry a group: its text, how many lines it has, and where the first of them stand."""
    lines = []
    for text, notes in rows[:most]:
        places = [place_of(note) for note in notes if place_of(note)]
        where = f" ({counted(len(notes), 'line')}: {', '.join(places[:2])}{', ..' if len(places) > 2 else ''})" if places else ""
        lines += wrapped(text + where, "  ", "      ")
    if len(rows) > most:
        lines.append(f"  and {len(rows) - most} more: changes.txt has each line")
    return lines


def refused(joined: Joined) -> list[str]:
    """Why copies gave no answer, where the files did not stand in the way."""
    found = []
    for reply in (reply for reply in joined.replies if not reply.is_stronger):
        if reply.block is None:
            found.append(f"arcv refused the copy {reply.copy}: {reply.why.splitlines()[0] if reply.why else ''}")
        elif reply.block.answer == "refused":
            found += [line.strip() for line in witness(reply)]
    return found


def routers_of(reply: Reply) -> Routers:
    """The routers of a copy, read once."""
    if reply.folder not in READ:
        READ[reply.folder] = Routers(reply.document, reply.folder, wanted=False)
    return READ[reply.folder]


def witness(reply: Reply) -> list[str]:
    """The witness of an answer in words."""
    assert reply.block is not None
    teller = explain.Teller(reply.map, routers_of(reply))
    policy = reply.document.policies[reply.block.number - 1]
    return [part for line in teller.witness(policy, reply.block) for part in wrapped(line.strip(), "    " + line[: len(line) - len(line.lstrip())])]


def lists_on_way(reply: Reply) -> str:
    """The lists that let the packets of a walk pass, where they are bound in the network."""
    assert reply.block is not None
    words = [word for word in reply.block.lines[0] if not word.startswith("service:")]
    routers, links = routers_of(reply), [int(word) for word in words[3:]]
    ends = [routers.owner(prefix) for prefix in words[1:3]]
    if words[0] != "walk" or not all(ends):
        return ""
    first, last = ends
    assert first is not None and last is not None
    places = [(first.router, first.interface, "in")]
    for router, far, number in zip(routers.along(first.router, links), routers.along(first.router, links)[1:], links):
        faces = dict(reply.document.links[number - 1].ends())
        places += [(router, faces[router], "out"), (far, faces[far], "in")]
    places.append((last.router, last.interface, "out"))
    names = reply.map
    found = [f"{names.list_name(router, bound)} {way} at {names.interface(router, face)} of {names.router(router)}" for router, face, way in places
             if (bound := routers.bound(router, face, way)) and bound != OPEN_LIST]
    return f"Lists on this way, which let them pass: {'; '.join(found)}." if found else "No list is bound on this way."


def cannot_lines(answers: Answers) -> list[str]:
    """What stands in the way of an answer, each reason with the kinds of policies that it costs, and how many."""
    reasons: dict[str, list[tuple[int, rules.Note | None]]] = {}
    for place, joined in enumerate(answers.joined):
        if joined.answer() != "none":
            continue
        for text, notes in grouped(joined.reasons):
            reasons.setdefault(text, []).extend((place, note) for note in notes)
        for text in refused(joined):
            reasons.setdefault(text, []).append((place, None))
    lines = []
    for text, rows in sorted(reasons.items(), key=lambda row: -len({place for place, _ in row[1]})):
        kinds = Counter(answers.joined[place].named.policy.kind for place in {place for place, _ in rows})
        places = sorted({place_of(note) for _, note in rows if note and note.file})
        where = f" ({counted(len(places), 'line')}: {', '.join(places[:2])}{', ..' if len(places) > 2 else ''})" if places else ""
        cost = ", ".join(f"{count} of {kind}" for kind, count in sorted(kinds.items()))
        lines += wrapped(f"{text}{where}. It costs {cost}.", "  ", "      ")
    return lines


def yours_lines(answers: Answers) -> list[str]:
    notes = [note for joined in answers.joined for reply in joined.replies if reply.answer() == "yours" for note in reply.yours]
    return group_lines(grouped(notes), 40)


def rewritten_lines(answers: Answers) -> list[str]:
    """What lists say otherwise on copies, counted by rule."""
    found: Counter[str] = Counter()
    for file, changes in answers.changes.items():
        for change in set(changes):
            found[f"{change.rule} ({change.direction})"] += 1
    return [line for text, count in found.most_common() for line in wrapped(f"{counted(count, 'entry', 'entries')}: {text}", "  ", "      ")]


def premises(segments: Sequence[Segment], answers: Answers, own: Sequence[rules.Row]) -> list[str]:
    """What every yes rests on beside the files."""
    lines = wrapped("No device but these routers, and those that are named here as `outside`, forwards packets from one network to another.", "  ", "      ")
    for port, places in answers.own.items():
        policies = counted(len(set(places)), "policy", "policies")
        hold = "holds" if len(set(places)) == 1 else "hold"
        lines += wrapped(f"the list outbound at {port}, by which {policies} {hold}, does not guard the router's own address there", "  ", "      ")
    reasons = list(dict.fromkeys(reason for segment in segments if not all(face.vrf for face in segment.faces) for reason in segment.outside))
    for reason in reasons[:SHOWN]:
        lines += wrapped(f"outside: {reason}", "  ", "      ")
    if len(reasons) > SHOWN:
        lines.append(f"  and {len(reasons) - SHOWN} more: changes.txt")
    for row in own:
        lines += wrapped(f"you say of `{' '.join(row.words)}`: {row.cost}, since: {row.reason}", "  ", "      ")
    for note in answers.exact.notes:
        if note.reason.startswith("OSPF speaks at") and note.cost == "adjacency":
            lines += wrapped(note.reason, "  ", "      ")
    for reason in answers.exact.down:
        lines += wrapped(f"counts as down: {reason}", "  ", "      ")
    return lines


def left_out(routers: Sequence[Router]) -> list[rules.Note]:
    found = []
    for router in routers:
        notes = router.notes + [note for face in router.faces for note in face.notes]
        found += [note for note in notes if note.cost in ("nothing", "time", "inferred")]
    return found


def head(joined: Joined, answers: Answers) -> str:
    policy = joined.named.policy
    names = _Names(answers.networks)
    packets = {"opening": ", packets that open TCP connections", "client": ", packets of clients"}.get(joined.named.packets, "")
    return f"{joined.named.name + ': ' if joined.named.name else ''}{policy_words(policy, names)}{packets}"


class _Names:
    """The names of networks alone."""

    def __init__(self, networks: dict[str, str]) -> None:
        self.networks = networks

    def network(self, prefix: str) -> str:
        return self.networks.get(prefix, prefix)

    def router(self, name: str) -> str:
        return name

    def link(self, number: int) -> str:
        return f"link {number}"

    def interface(self, router: str, name: str) -> str:
        return name

    def list_name(self, router: str, name: str) -> str:
        return name

    def policy(self, number: int) -> str:
        return ""


def key(joined: Joined) -> str:
    """What a policy asks, whatever it is called."""
    return f"{sorted(joined.named.policy.members().items())} {joined.named.packets} {joined.named.waypoints}"


def changed(joined: Joined, before: dict[str, str]) -> str:
    """What the answer was at the call before, where it was another."""
    was = before.get(key(joined), joined.answer())
    return "" if was == joined.answer() else f" (new; before: {SHORT.get(was, was)})"


def why(joined: Joined) -> list[str]:
    """What stands in the way of an answer, or what a yes needs."""
    if joined.answer() == "none":
        return [text for text, _ in grouped(joined.reasons)] + refused(joined)
    return [text for text, _ in grouped(note for reply in joined.replies for note in reply.yours)] if joined.answer() == "yours" else []


def answer_lines(answers: Answers, before: dict[str, str]) -> list[str]:
    """The noes with their ways, then what is not answered, then the yeses."""
    lines: list[str] = []
    for wanted in ("no", "none", "yours", "yes"):
        for place, joined in enumerate(answers.joined):
            if joined.answer() != wanted:
                continue
            by = f" [{', '.join(copies_of(joined))}]" if wanted in ("yes", "yours") else ""
            lines += wrapped(f"{WORDS[wanted]}: {head(joined, answers)}{changed(joined, before)}{by}", "  ", "      ")
            for text in why(joined)[:2]:
                lines += wrapped(text, "      ")
            if wanted == "no":
                first = next(reply for reply in joined.replies if reply.answer() == "no" and not reply.is_stronger)
                lines += witness(first)
                if first.kind == "open":
                    lines += wrapped(lists_on_way(first), "    ")
                side = "more" if first.kind == "open" else "fewer"
                other = f"; {counted(first.unlike, 'entry', 'entries')} of its lists {'lets' if first.unlike == 1 else 'let'} {side} packets pass than on the routers" if first.unlike else ""
                lines += wrapped(f"by {COPIES[first.kind]} ({first.copy}){other}", "      ")
                if answers.routed.get(place):
                    lines += wrapped("While routers route as the files say, none is delivered, whichever links fail (routed).", "      ")
    return lines


def copies_of(joined: Joined) -> list[str]:
    """The copies that gave an answer."""
    return list(dict.fromkeys(reply.copy for reply in joined.replies if not reply.is_stronger))


def copy_lines(answers: Answers) -> list[str]:
    """Of each copy what it is, and by which rules entries of its lists are not as on the routers."""
    found: dict[str, dict[str, None]] = {}
    for reply in (reply for joined in answers.joined for reply in joined.replies if not reply.is_stronger):
        text = f"{COPIES[reply.kind]}. Entries of its lists: {'; '.join(reply.rules) or 'as on the routers'}."
        found.setdefault(text, {})[reply.copy] = None
    return [line for text, names in found.items() for line in wrapped(f"{', '.join(names)}: {text}", "  ", "      ")]


def total(answers: Answers) -> str:
    counts = Counter(joined.answer() for joined in answers.joined)
    return (f"{counted(len(answers.joined), 'policy', 'policies')}: {counts['no']} no, {counts['none']} not answered, "
            f"{counts['yours']} need your yes, {counts['yes']} yes")


def as_json(answers: Answers) -> list[dict[str, Any]]:
    """The answers for a program: of each policy the answer, the copies that it was had of, and what stands in its way."""
    found = []
    for joined in answers.joined:
        policy: Policy = joined.named.policy
        copies = [{"copy": reply.copy, "kind": reply.kind, "number": reply.block.number if reply.block else None,
                   "answer": reply.block.answer if reply.block else "refused"} for reply in joined.replies]
        found.append({"name": joined.named.name, "key": key(joined), **policy.members(), "packets": joined.named.packets, "answer": joined.answer(), "copies": copies,
                      "needs": why(joined) if joined.answer() == "yours" else [], "cannot": why(joined) if joined.answer() == "none" else [],
                      "rules": rules_of(joined)})
    return found


def rules_of(joined: Joined) -> list[str]:
    """By which rules an answer was had: those of the copies that gave it."""
    found = {rule for reply in joined.replies for rule in reply.rules}
    return sorted(found) + sorted({COPIES[reply.kind] for reply in joined.replies})


def changes_text(routers: Sequence[Router], answers: Answers, segments: Sequence[Segment]) -> str:
    """Every line that a copy does not have as it stands: file, line, rule, what it costs, text, reason."""
    rows = []
    for router in routers:
        notes = router.notes + [note for face in router.faces for note in face.notes]
        process = answers.exact.processes.get(router.name)
        notes += process.notes if process else []
        rows += [(note.file, note.number, note.cost, note.rule, note.text, note.reason) for note in notes]
    for file, changes in answers.changes.items():
        rows += [(file, change.line, change.direction, "entry", change.text, change.rule) for change in set(changes)]
    lines = [f"{file}:{number}: {cost}: {text}    ({rule}: {reason})" for file, number, cost, rule, text, reason in sorted(set(rows))]
    lines += [f"segment {segment.text()}: {', '.join(face.key() for face in segment.faces)}"
              + (f"; outside: {'; '.join(segment.outside)}" if segment.outside else "") for segment in segments]
    return "\n".join(lines) + "\n"
