"""explain: a report, or another text of arcv, in words."""
import argparse
from collections.abc import Iterable, Sequence

from ops import commands, showing
from ops.commands import Wrong, counted
from ops.documents import Document, Policy, folder_of, read_document, span_words
from ops.faces import Routers
from ops.reports import Block, Edit, Text, read_text
from ops.told import ORDER, Told
from ops.wording import Names, names_of, title

WHY_REJECTED = {
    "form": "the line is not of a form that may come there",
    "policy": "a block is not that of the next policy, is missing, or is one too many",
    "witness": "what is said there does not show the answer over the files as they are now",
    "no-end": "the text ends before the line `end`, or goes on after it",
    "no-claim": "a search that was given up claims nothing",
    "edit": "the line names no edit of the files as they are now, or the edits are out of order",
    "price": "the edits do not cost what line 2 says, or more than its bound",
    "not-yes": "after a repair every policy has to hold",
    "bound-too-low": "a bound of the log is lower than what has to be shown",
    "bound-too-high": "a bound of the log is above the bound of line 2",
    "not-refuted": "the log ends without a proof that nothing cheaper is enough",
}
LOG_STEP = "a step of the log does not follow from those before it: the files may be others than those of the proof"


class Teller:
    """Tells witnesses with names in place of numbers."""

    def __init__(self, names: Names, routers: Routers | None) -> None:
        self.names, self.routers = names, routers

    def packets(self, words: Sequence[str]) -> str:
        """`FROM to TO, TCP 22`, of the first words of a witness line."""
        service = next((span_words(word) for word in words[2:3] if word.startswith("service:")), "")
        return f"{self.names.network(words[0])} to {self.names.network(words[1])}" + (f", {service}" if service else "")

    def way(self, prefix: str, words: Iterable[str]) -> str:
        """The routers on the way over links, or the links where it is not known where it begins."""
        links = [int(word) for word in words if word.isdigit()]
        host = self.routers.owner(prefix) if self.routers else None
        start = host.router if host else self._start(links)
        routers = self.routers.along(start, links) if self.routers and start else []
        if len(routers) == len(links) + 1:
            steps = [
                f"{self.names.router(router)} {self.port(router, number)}" for router, number in zip(routers, links)
            ]
            return " > ".join([*steps, self.names.router(routers[-1])])
        return "; ".join(f"link {number}: {self.names.link(number)}" for number in links)

    def port(self, router: str, link: int) -> str:
        """The port of a router at which a link begins."""
        ends = self.routers.document.links[link - 1].ends() if self.routers else ()
        return next((self.names.interface(router, face) for end, face in ends if end == router), "")

    def _start(self, links: list[int]) -> str:
        """Where a way of two links or more begins: at the end of the first that the second has not."""
        if not self.routers or len(links) < 2 or max(links) > len(self.routers.document.links):
            return ""
        first, second = (
            {router for router, _ in self.routers.document.links[number - 1].ends()} for number in links[:2]
        )
        return next(iter(first - second)) if len(first - second) == 1 else ""

    def router_list(self, words: Iterable[str]) -> str:
        found = [self.names.router(word) for word in words]
        return ", ".join(found) if found else "none"

    def links(self, words: Iterable[str]) -> list[str]:
        return [f"link {word}: {self.names.link(int(word))}" for word in words if word.isdigit()]

    def lists_at(self, prefix: str, way: str) -> str:
        """Which list stands where a prefix lies."""
        host = self.routers.owner(prefix) if self.routers else None
        name = self.routers.bound(host.router, host.interface, way) if self.routers and host else ""
        if not host or not name:
            return ""
        port = self.names.interface(host.router, host.interface)
        return f"list {self.names.list_name(host.router, name)}, {way} at {port} of {self.names.router(host.router)}"

    def _closed(self, block: Block) -> list[str]:
        rows = [line for line in block.lines if line[:1] == ("closed",)]
        bound = [[word for word in line[3:] if not word.startswith("service:")] for line in rows]
        around = " around the waypoints" if block.kind == "through" else ""
        found = [f"Whatever fails, none is delivered{around}."]
        entered = [routers for routers in bound if routers]
        if not entered:
            return found + ["They do not even enter the network."]
        if len(rows) == 1:
            return found + [f"They get as far as {self.router_list(bound[0])}{around}."]
        order = {router: None for routers in entered for router in routers}
        found.append(
            f"Of {counted(len(rows), 'class', 'classes')} of packets {len(entered)} enter and get at most to "
            f"{self.router_list(order)}{around}."
        )
        return found

    def _cut(self, block: Block) -> list[str]:
        cut = next((line[1:] for line in block.lines if line[:1] == ("cut",)), ())
        side = next((line[1:] for line in block.lines if line[:1] == ("side",)), ())
        if block.kind == "reach-routers":
            found = [f"With these routers failed no route is left: {self.router_list(cut)}."]
        elif not cut:
            found = ["No route is there, even with every link up."]
        else:
            found = [
                "With " + ("this link" if len(cut) == 1 else f"these {len(cut)} links") + " failed no route is left:"
            ]
            found += [f"  {text}" for text in self.links(cut)]
        return found + [f"Cut off with the source: {self.router_list(side)}."]

    def _paths(self, block: Block, policy: Policy) -> list[str]:
        paths = [line[1:] for line in block.lines if line[:1] == ("path",)]
        if not paths:
            return ["Both networks are on one router."]
        part = "router but the ends" if block.kind == "reach-routers" else "link"
        head = "There is a way:" if len(paths) == 1 else f"There are {len(paths)} ways, of which no two share a {part}:"
        return [head, *(f"  {self.way(policy.source, path)}" for path in paths)]

    def _denied(self, line: tuple[str, ...]) -> list[str]:
        found = [f"Packets from {self.packets(line[1:])} do not enter or do not leave."]
        lists = [text for text in (self.lists_at(line[1], "in"), self.lists_at(line[2], "out")) if text]
        return found + ([f"Look at {' and '.join(lists)}."] if lists else ["Look whether an interface there is down."])

    def _refused(self, line: tuple[str, ...]) -> list[str]:
        link = line[-1]
        return [
            f"On a link that carries routes a list denies packets such as {self.packets(line[1:-1])}:",
            *(f"  {text}" for text in self.links([link])),
            "Whether they arrive all the same is not answered. Let the list permit them there, or ask less.",
        ]

    def _line(self, line: tuple[str, ...], policy: Policy) -> list[str]:
        """What a line of its own says; `label` lines are told together."""
        kind = line[0] if line else ""
        links = [word for word in line[3:] if word.isdigit()]
        if kind == "walk":
            where = self.way(line[1], links)
            return [
                f"Packets from {self.packets(line[1:])} are delivered, with every other link failed, by", f"  {where}"
            ]
        if kind == "arc":
            return [f"Link {line[1]} leads straight there: {self.names.link(int(line[1]))}."]
        if kind == "no-entry":
            return [f"No packet from {self.packets(line[1:])} enters."]
        if kind in ("stuck", "stray"):
            end = "get stuck at the end of" if kind == "stuck" else "arrive by other routers, by"
            return [f"Packets from {self.packets(line[1:])} {end}", f"  {self.way(line[1], links)}"]
        return []

    def witness(self, policy: Policy, block: Block) -> list[str]:
        """The witness of an answer in words."""
        kinds = {line[0] for line in block.lines if line}
        try:
            if "closed" in kinds:
                return self._closed(block)
            if kinds & {"cut", "side"}:
                return self._cut(block)
            if "path" in kinds or not kinds and block.answer == "yes":
                return self._paths(block, policy)
            if "denied" in kinds:
                return self._denied(block.lines[0])
            if "acl-on-routed-link" in kinds:
                return self._refused(block.lines[0])
            found = [text for line in block.lines for text in self._line(line, policy)]
            labels = [line for line in block.lines if line[0] == "label" and len(line) == 3]
            costs = ", ".join(f"{self.names.router(name)} {cost}" for _, name, cost in labels)
            return found + ([f"Distances to the target: {costs}."] if labels else [])
        except (IndexError, ValueError):
            return [" ".join(line) for line in block.lines]

    def edit(self, edit: Edit) -> str:
        """An edit in words. Which way it turns what it names is told by bin/plan."""
        router = self.names.router(edit.router)
        words = [word for word in (edit.source, edit.target, edit.service) if word]
        packets = self.packets(words) if edit.kind == "packet" else ""
        named = self.names.list_name if edit.place == "list" else self.names.interface
        name = named(edit.router, edit.name)
        if edit.kind == "session":
            return f"at {router}: the adjacency at {name} goes down, or comes up if it is down"
        if edit.kind == "route":
            where = f"prefix list {name}" if edit.place == "list" else f"neighbor {edit.name}, which has no prefix list,"
            return f"at {router}: {where} turns about what it does with the route to {self.names.network(edit.target)}"
        if edit.place == "interface":
            return f"at {router}: a new list, in at {name}, denies {packets}"
        return f"at {router}: list {name} turns about what it does with {packets}"


def tell_blocks(text: Text, document: Document, names: Names, routers: Routers) -> list[Told]:
    """The answers of a report or a certificate, noes first."""
    teller, found = Teller(names, routers), []
    for block in text.blocks:
        if not 1 <= block.number <= len(document.policies):
            raise Wrong(
                f"line {block.at} speaks of policy {block.number}, and the document has {len(document.policies)}: is "
                "it the report of another one?"
            )
        policy = document.policies[block.number - 1]
        if policy.kind != block.kind:
            raise Wrong(
                f"line {block.at} answers `{block.kind}`, and policy {block.number} is `{policy.kind}`: is it the "
                "report of another document?"
            )
        told = Told(
            title(block.number, policy, names), block.answer, teller.witness(policy, block), block.number,
            names.policy(block.number), policy, block, block.mark,
        )
        if block.number in text.alone:
            told.lines += _alone(teller, text.alone[block.number])
        found.append(told)
    return sorted(found, key=lambda told: ORDER.index(told.answer))


def _alone(teller: Teller, links: Sequence[int]) -> list[str]:
    if not links:
        return ["No single link is needed for it."]
    head = "It depends on this link alone:" if len(links) == 1 else f"It depends on each of these {len(links)} links:"
    return [head, *(f"  {text}" for text in teller.links(str(link) for link in links))]


def tell_single(text: Text, ends: Sequence[str], names: Names, routers: Routers) -> list[Told]:
    """The answer of `nodes` or `prefers`; FROM and TO stand in some witnesses alone, so they may be given."""
    block = text.blocks[0]
    prefixes = next(
        (line[1:3] for line in block.lines if len(line) > 2 and "/" in line[1] and "/" in line[2]), tuple(ends)
    )
    source, target = (prefixes[0], prefixes[1]) if len(prefixes) == 2 else ("the source", "the target")
    where = f"{names.network(source)} to {names.network(target)}"
    if text.form == "nodes":
        head = f"packets from {where} arrive whichever {'router fails' if block.number == 1 else f'{block.number} routers fail'}"
    else:
        head = f"packets from {where} go by the routers that were named"
    policy = Policy("reach", source, target, 0)
    if "/" not in source:
        policy = Policy("reach", "0.0.0.0/0", "0.0.0.0/0", 0)
    return [Told(head, text.answer, Teller(names, routers).witness(policy, block), policy=policy, block=block)]


def tell_trace(text: Text, names: Names) -> list[Told]:
    _, source, start, target, end = text.rows[0]
    lines = []
    for row in text.rows[1:]:
        router = names.router(row[0])
        if row[1:] == ("none",):
            lines.append(f"{router} has no route")
        elif len(row) == 2:
            lines.append(f"{router} has the network")
        else:
            lines.append(f"{router}, at distance {row[1]}, sends by")
            lines += [f"  link {word}: {names.link(int(word))}" for word in row[3:] if word.isdigit()]
    head = f"ways from {names.network(source)} at {names.router(start)} to {names.network(target)} at {names.router(end)}"
    return [Told(head, "trace", lines)]


def tell_repair(text: Text, names: Names, routers: Routers) -> Told:
    """What a certificate, or what `repair` printed, claims of edits."""
    teller = Teller(names, routers)
    edits = [teller.edit(edit) for edit in text.edits]
    if text.form == "edits":
        return Told(counted(len(edits), "edit"), "edits", edits)
    if text.answer == "none":
        return Told(f"no edits that cost at most {text.numbers[0]} are enough", "none")
    if text.answer == "budget":
        return Told(
            f"the search was given up after {counted(text.numbers[0], 'conflict')}: nothing is claimed", "budget"
        )
    head = f"{counted(len(edits), 'edit')} at the price of {text.numbers[0]} {'is' if len(edits) == 1 else 'are'} enough, and nothing cheaper is"
    return Told(head if edits else "nothing has to be changed: every policy holds", "repaired", edits)


def tell_rejected(line: int, word: str, text: str, document: Document, names: Names) -> Told:
    """Which policy, and which line of its witness, a rejection speaks of."""
    rows = text.split("\n")
    told = Told(f"line {line} is rejected: {word}", "rejected", [WHY_REJECTED.get(word, LOG_STEP) + "."])
    if 1 <= line <= len(rows) and rows[line - 1]:
        told.lines.append(f"The line: {rows[line - 1][:200]}")
    head = next((at for at in range(min(line, len(rows)), 0, -1) if _is_head(rows[at - 1])), 0)
    if "log" in rows[: line - 1]:
        told.lines.append(f"It is a step of the log, which begins in line {rows.index('log') + 2}.")
    elif head:
        words = rows[head - 1].split()
        number = int(words[0])
        policy = document.policies[number - 1] if 1 <= number <= len(document.policies) else None
        what = title(number, policy, names) if policy else f"policy {number}, which the document has not"
        told.lines.append(f"It is of policy {what}, which is answered {words[2]} in line {head}.")
        if line > head:
            told.lines.append(f"It is line {line - head} of the {words[3]} lines of its witness.")
        elif word == "witness":
            told.lines += [f"  {row}" for row in rows[head : head + min(int(words[3]), 8)]]
    return told


def _is_head(row: str) -> bool:
    words = row.split()
    return len(words) in (4, 5) and all(word.isdigit() and len(word) < 10 for word in (words[0], words[3]))


def tell(text: Text, ends: Sequence[str], document: Document, names: Names, routers: Routers) -> list[Told]:
    """Every text of arcv but a rejection, in words."""
    if text.form in ("nodes", "prefers"):
        return tell_single(text, ends, names, routers)
    if text.form == "trace":
        return tell_trace(text, names)
    found = [tell_repair(text, names, routers)] if text.form in ("certificate", "repair", "edits") else []
    if text.form in ("report", "recheck", "certificate"):
        return found + tell_blocks(text, document, names, routers)
    if text.form == "rejected":
        raise Wrong(
            f"REPORT has to be the text that was checked, with `--rejected {text.numbers[0]} {text.answer}` behind it"
        )
    if text.form == "accepted":
        return [Told("accepted: every answer of that text is true of these files", "accepted")]
    if text.form == "refused":
        return [
            Told(
                f"nothing was judged: {text.answer}", "nothing",
                ["docs/manual.md has each kind under Refusals; `bin/refusals DOC` lists every line."],
            )
        ]
    return found


def arguments() -> argparse.ArgumentParser:
    words = commands.parser(
        "explain",
        "Says in words what arcv printed: noes first, with names of policies, routers and ports in place of numbers, "
        "and the sum at the end. REPORT is a report of verify or recheck, what nodes, prefers or trace printed, a "
        "certificate of repair, or `-` for standard input. Names of policies and networks come from DOC's file of "
        "names, as bin/policies writes it.",
        "nothing, or the file of --out.",
        """
        bin/arcv verify net.json | bin/explain net.json -
        bin/explain net.json report.txt --html --out report.html
        bin/explain net.json report.txt --rejected 12 witness
        """,
    )
    words.add_argument("doc", metavar="DOC", help="the document; its router files lie in its folder")
    words.add_argument("report", metavar="REPORT", help="what arcv printed or wrote")
    form = words.add_mutually_exclusive_group()
    commands.with_json(form)  # type: ignore[arg-type]
    form.add_argument("--junit", action="store_true", help="print JUnit's XML, a test case for each policy")
    form.add_argument("--html", action="store_true", help="print one page with drawings, which needs no other file")
    words.add_argument("--rejected", nargs=2, metavar=("LINE", "WORD"), help="explain what check said of REPORT")
    words.add_argument("--ends", nargs=2, metavar=("FROM", "TO"), default=(), help="what nodes or prefers was asked of")
    words.add_argument("--names", metavar="FILE", default="", help="another file of names")
    words.add_argument("--out", metavar="FILE", help="write there and not to standard output")
    commands.with_force(words)
    return words


def main(words: list[str]) -> int:
    options = arguments().parse_args(words)
    document = read_document(options.doc)
    names = names_of(options.doc, document, options.names)
    routers = Routers(document, folder_of(options.doc), wanted=False)
    source = commands.load(options.report)
    if options.rejected:
        if not options.rejected[0].isdigit() or len(options.rejected[0]) > 15:
            raise Wrong(f"{options.rejected[0]} is no number of a line")
        told = [tell_rejected(int(options.rejected[0]), options.rejected[1], source, document, names)]
    else:
        try:
            told = tell(read_text(source), options.ends, document, names, routers)
        except ValueError as error:
            raise Wrong(f"{options.report}: {error}") from error
    form = "json" if options.json else "junit" if options.junit else "html" if options.html else "text"
    text = showing.FORMS[form](told, options.doc, routers)
    if options.out:
        commands.save(options.out, text, options.force)
    else:
        commands.put(text)
    return commands.FINE if all(
        one.answer not in ("no", "refused", "rejected", "none", "budget", "nothing") for one in told
    ) else commands.NOT_SO
