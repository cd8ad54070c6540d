"""repair-steps: a repair by rising prices and conflicts, by parts where the whole is too much."""
import argparse
import os

from ops import commands
from ops.commands import Wrong, counted, tell
from ops.documents import Document, document_text, folder_of, read_document, with_files
from ops.explain import Teller
from ops.ladder import Known, Limits, climb
from ops.parts import Result, by_parts, hints, listed
from ops.trial import Trial, not_yes, trial_of
from ops.wording import map_beside, names_of

SESSION = 16
MOST_TOLD = 20


def open_copy(doc: str) -> bool:
    """Whether the files are open copies, over which an adjacency that goes down stops nothing."""
    found = map_beside(doc)
    return found is not None and found.kind == "open"


def sentences(result: Result, known: Known, whole: Trial, options: argparse.Namespace) -> list[str]:
    """What can be said of the repair, and no more."""
    many = counted(len(whole.document.policies), "policy", "policies")
    if result.open_policies:
        return [
            f"Not repaired: policies {listed(result.open_policies)} of {many} do not hold over the files that are "
            "written.",
            *result.say,
        ]
    if result.cheapest:
        return [
            f"The cheapest repair costs {result.price}: {counted(len(result.edits), 'edit')}. {options.proof} is the "
            "proof, for `arcv check`."
        ]
    least = max(known.proved + 1, 1)
    found = [
        f"This repair is right: all {many} hold over the files that are written. It is not shown to be the cheapest."
    ]
    if result.price is not None:
        found.append(f"It costs {result.price}. The least price is at least {least} and at most {result.price}.")
    else:
        found.append(f"The least price is at least {least}.")
    if known.certificate:
        found.append(f"{options.proof} is the proof that no edits that cost at most {known.proved} are enough.")
    return found + result.say


def search(whole: Trial, options: argparse.Namespace, known: Known) -> Result:
    """The whole document first, by rising prices; then by parts where that is too much."""
    limits = Limits(options.max_price, options.conflicts)

    def keep(proved: int, certificate: str) -> None:
        known.proved, known.certificate = proved, certificate
        commands.save(options.proof, certificate, True)

    if options.parts:
        return by_parts(whole, limits, known)
    repair = climb(whole, limits, keep).repair
    if repair.answer == "repaired":
        known.certificate = repair.certificate
        commands.save(options.proof, repair.certificate, True)
        return Result(repair.texts, repair.edits, repair.number, True, [], [])
    if repair.answer == "none" and not options.no_sessions:
        blocks = whole.verify()
        said = f"No edits that cost at most {repair.number} are enough; {options.proof} is the proof."
        return Result(whole.texts, [], None, False, not_yes(blocks), [said, *hints(blocks)])
    if repair.answer == "refused" and "limit" not in repair.reason.split():
        raise Wrong(f"nothing is judged: {repair.reason}")
    tell(
        "no single repair is found, so it is repaired by parts"
        if repair.answer == "none"
        else "the whole is too much at once, so it is repaired by parts"
    )
    return by_parts(whole, limits, known)


def write(result: Result, whole: Trial, options: argparse.Namespace) -> list[str]:
    """Writes the changed files, the edits, and the document that names the changed files."""
    folder = folder_of(options.doc)
    changed = {name: text for name, text in result.texts.items() if text != whole.texts[name]}
    for name, text in changed.items():
        commands.save(os.path.join(folder, name + options.out), text, True)
    wrote = [os.path.join(os.path.dirname(options.doc), name + options.out) for name in changed]
    if not result.cheapest and result.edits:
        commands.save(options.proof + ".edits", "".join(edit.line() + "\n" for edit in result.edits), True)
        wrote.append(options.proof + ".edits")
    if options.after:
        document = with_files(read_document(options.doc), {name: name + options.out for name in changed})
        commands.save(options.after, document_text(document), True)
        wrote.append(options.after)
    if options.weighed:
        commands.save(options.weighed, document_text(whole.document), True)
        wrote.append(options.weighed)
    return wrote + ([options.proof] if os.path.exists(options.proof) else [])


def arguments() -> argparse.ArgumentParser:
    words = commands.parser(
        "repair-steps",
        "Looks for the cheapest repair by steps: prices 1, 2, 4, .., and for each 2,000 conflicts of the search, "
        "then 10,000, 50,000. A line on standard error reports each step. Where the document has too many edits, or a "
        "search is given up, it repairs by parts: a few broken policies at a time, with those that hold, or with the "
        "`reach` policies on their ways, over the files that the part before left; then it joins the edits, lets "
        "arcv apply them, and verifies every policy. Such a repair is right, but not shown to be the cheapest. "
        "Ctrl-C ends it, and it says what is known by then.",
        "FILE with SUFFIX behind it for each changed router file, beside it; NAME, the last certificate that claims "
        "something; NAME.edits where the repair is by parts; and with --after a document that names the changed "
        "files.",
        """
        bin/repair-steps net.json --out .new --proof repair.cert --after after.json
        bin/plan net.json repair.cert
        """,
    )
    words.add_argument("doc", metavar="DOC", help="the document; its router files lie in its folder")
    words.add_argument("--out", metavar="SUFFIX", required=True, help="what follows the names of changed files")
    words.add_argument("--proof", metavar="NAME", required=True, help="the certificate")
    words.add_argument("--after", metavar="FILE", help="a document over the changed files, in the folder of DOC")
    words.add_argument("--max-price", metavar="N", type=int, default=512, help="the highest price, 512 without it")
    words.add_argument(
        "--conflicts", metavar="N", type=int, default=50_000, help="the most conflicts of a step, 50,000 without it"
    )
    words.add_argument("--parts", action="store_true", help="go by parts at once, without asking of the whole")
    words.add_argument(
        "--no-sessions", action="store_true",
        help="no adjacency is turned: such an edit costs 16, and prices end at 15; the document with that price, "
        "which the certificate is of, is written beside DOC",
    )
    commands.with_program(words)
    commands.with_json(words)
    commands.with_force(words)
    return words


def _checked(options: argparse.Namespace, document: Document) -> None:
    if not options.out or "/" in options.out:
        raise Wrong("--out is what follows the names of files, as .new")
    if not 0 <= options.max_price <= 512 or not 1 <= options.conflicts <= 200_000:
        raise Wrong("a price is from 0 to 512, and conflicts are from 1 to 200,000")
    if options.after and folder_of(options.after) != folder_of(options.doc):
        raise Wrong(
            f"{options.after} has to lie in the folder of {options.doc}, in which the names of router files are "
            "looked up"
        )
    folder = folder_of(options.doc)
    mine = [
        os.path.abspath(path)
        for path in (options.proof, options.proof + ".edits", options.after, options.weighed) if path
    ]
    read = [os.path.abspath(options.doc), *(os.path.join(folder, name) for name in document.routers)]
    for path in mine + [name + options.out for name in read[1:]]:
        if any(os.path.exists(path) and os.path.exists(other) and os.path.samefile(path, other) for other in read):
            raise Wrong(f"{path} would be written over, and is read")
    commands.check_free(mine + [name + options.out for name in read[1:]], options.force)


def said(result: Result, known: Known, whole: Trial, options: argparse.Namespace, wrote: list[str]) -> str:
    """What is printed: sentences, the edits in words, and the files."""
    say = sentences(result, known, whole, options)
    if options.json:
        value = {
            "cheapest": result.cheapest, "price": result.price, "proved not enough": known.proved,
            "edits": [edit.line() for edit in result.edits], "not holding": result.open_policies, "wrote": wrote,
            "says": say,
        }
        return commands.as_json(value)
    teller = Teller(names_of(options.doc, whole.document), None)
    told = [teller.edit(edit) for edit in result.edits[:MOST_TOLD]]
    if len(result.edits) > MOST_TOLD:
        told.append(f"and {len(result.edits) - MOST_TOLD} more")
    lines = [row for text in say for row in commands.wrapped(text)]
    lines += [row for text in told for row in commands.wrapped(text, "  ", "      ")]
    return "\n".join(lines + [f"wrote {path}" for path in wrote]) + "\n"


def main(words: list[str]) -> int:
    options = arguments().parse_args(words)
    document = read_document(options.doc)
    options.weighed = None
    options.no_sessions = options.no_sessions or open_copy(options.doc)
    if options.no_sessions:
        if document.weights.get("session", 1) != SESSION:
            options.weighed = options.doc.removesuffix(".json") + ".no-sessions.json"
        document.weights = {**document.weights, "session": SESSION}
        options.max_price = min(options.max_price, SESSION - 1)
        tell(f"no adjacency is turned: such an edit costs {SESSION}, and prices end at {SESSION - 1}")
    _checked(options, document)
    whole, known = trial_of(commands.program(options), document, options.doc), Known()
    try:
        result = search(whole, options, known)
    except KeyboardInterrupt:
        proof = f"No edits that cost at most {known.proved} are enough: {options.proof} is the proof."
        tell(f"stopped. {proof if known.certificate else 'Nothing is known yet.'}")
        for edits, _ in known.rounds:
            tell("part: " + "; ".join(edit.line() for edit in edits))
        return 130
    wrote = write(result, whole, options)
    commands.put(said(result, known, whole, options, wrote))
    return commands.NOT_SO if result.open_policies else commands.FINE
