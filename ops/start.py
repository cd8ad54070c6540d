"""start: from a folder of running-configs to a first answer."""
import argparse
import json
import os
import shutil
from collections.abc import Sequence

from ops import captures, commands, hosts, links, policies, routers, rules, statements, telling
from ops.answers import Answers
from ops.asking import Asker
from ops.commands import Wrong, counted, put, save, wrapped
from ops.links import Net, Segment
from ops.routers import Router
from ops.wording import read_networks

MOST_FIRST = 16
OWN_FILES = ("policies.txt", "names.json", "rows.txt")


def arguments() -> argparse.ArgumentParser:
    words = commands.parser(
        "start",
        "Reads the running-configs in FOLDER, one file a router, as a terminal or a program of yours saved them; finds links and networks of hosts; "
        "writes copies that arcv reads; asks it about each policy of the copy that decides it; and says what cannot be answered, what needs "
        "your yes, what was left out, and the answers. Nothing in FOLDER is changed. The status is 0 where every answer is yes.\n\n"
        "What has to hold is in policies.txt: the first call writes one that asks each two networks to reach each other whichever link fails. "
        "Change it, fetch the files anew when you like, and call again with --again.",
        "FOLDER/arcv (or OUT): policies.txt and names.json, if they are not there; the copies; changes.txt with each line that a copy does not have "
        "unchanged; answers.txt and answers.json.",
        """
        bin/start configs
        vi configs/arcv/policies.txt
        bin/start configs --again
        """,
    )
    words.add_argument("folder", metavar="FOLDER", help="a folder with a running-config in each file")
    words.add_argument("--again", action="store_true", help="ask anew: write over the copies of an earlier call, keep policies.txt and names.json")
    words.add_argument("--to", metavar="OUT", help="the folder to write into; FOLDER/arcv without it")
    words.add_argument("--policies", metavar="FILE", help="another text of policies than OUT/policies.txt")
    words.add_argument("--names", metavar="FILE", help="another file of names of networks than OUT/names.json")
    words.add_argument("--rows", metavar="FILE", help="rules of your own, which count before those of ops/rules.rows; OUT/rows.txt if it is there")
    words.add_argument("--alone", metavar="PREFIX", action="append", default=[], help="no device without a file forwards in this network: you say so")
    commands.with_json(words)
    commands.with_program(words)
    return words


def read_captures(folder: str, table: rules.Table) -> tuple[list[Router], list[str]]:
    """The routers of a folder, and the names of files that are no captures."""
    found: list[Router] = []
    other: list[str] = []
    for name in sorted(os.listdir(folder)):
        path = os.path.join(folder, name)
        if name.startswith(".") or not os.path.isfile(path):
            continue
        capture = captures.read(path, name)
        texts = [line.text for line in capture.lines]
        if not any(text.strip() for text in texts):
            raise Wrong(f"{name} is empty: fetch it anew, or take it out of the folder")
        signs = [bool(captures.host_of(texts)), any(text.startswith("interface ") for text in texts)]
        if any(signs) and not all(signs):
            raise Wrong(f"{name} has {'a' if signs[0] else 'no'} line `hostname ..` and {'an' if signs[1] else 'no'} line `interface ..`: "
                        "fetch it anew, or take it out of the folder")
        if not any(signs):
            other.append(name)
            continue
        router = routers.read(capture, table)
        double = next((one for one in found if one.name == router.name), None)
        if double:
            raise Wrong(f"{double.file} and {name} are both of {router.name}: keep one of them in the folder")
        found.append(router)
    if not found:
        raise Wrong(f"{folder} has no running-config: a file with a line `hostname ..` and a line `interface ..`")
    return found, other


def claims(texts: Sequence[str]) -> list[Net]:
    try:
        return [Net(text, strict=False) for text in texts]
    except ValueError as error:
        raise Wrong(f"a network in which no device forwards: {error}") from error


def network_names(path: str, segments: Sequence[Segment], transit: Sequence[Segment]) -> dict[str, str]:
    """The names of networks by prefix: those of the file, and new ones."""
    known = read_networks(path) if os.path.exists(path) else {}
    twice = sorted({name for name in known.values() if list(known.values()).count(name) > 1})
    if twice:
        raise Wrong(f"{path}: {twice[0]} is the name of two networks")
    return {**known, **hosts.named(segments, transit, known)}


def prepared(out: str, again: bool) -> None:
    """The folder to write into, without the copies of an earlier call."""
    if os.path.isdir(out) and any(name not in OWN_FILES for name in os.listdir(out)) and not again:
        raise Wrong(f"{out} is there already; --again asks anew")
    os.makedirs(out, exist_ok=True)
    for name in os.listdir(out):
        if name.startswith(("open", "exact", "ports", "routed")) and os.path.exists(os.path.join(out, name, "map.json")):
            shutil.rmtree(os.path.join(out, name))


def first_text(networks: dict[str, str], own: Sequence[str]) -> str:
    """A first text of policies: each two networks; where they are many, each two of the first."""
    if len(own) <= MOST_FIRST:
        return statements.first_policies({networks[prefix]: prefix for prefix in own})
    names = [networks[prefix] for prefix in own[:MOST_FIRST]]
    return (f"# What has to hold. `bin/policies --help` says what may come here. Of {len(own)} networks these are asked about first.\n"
            f"group asked-first = {' '.join(names)}\nasked-first reaches asked-first survives 1\n")


def found_text(found: Sequence[Router], other: Sequence[str], segments: Sequence[Segment], networks: dict[str, str], own: Sequence[str]) -> list[str]:
    lines = wrapped(f"{counted(len(found), 'router')}, {counted(len(segments), 'segment')}, {counted(len(own), 'network of hosts', 'networks of hosts')}:")
    for prefix in own:
        lines += wrapped(f"{networks[prefix]} {prefix}", "  ")
    if other:
        lines += wrapped(f"Not read, since no running-configs: {', '.join(other)}. A router whose file is missing forwards unseen.", "", "  ")
    return lines


def titled(title: str, lines: Sequence[str], none: str) -> list[str]:
    return ["", title, *(lines or [f"  {none}"])]


def main(words: list[str]) -> int:
    options = arguments().parse_args(words)
    folder = options.folder
    if not os.path.isdir(folder):
        raise Wrong(f"{folder} is no folder")
    out = options.to or os.path.join(folder, "arcv")
    rows = options.rows or (os.path.join(out, "rows.txt") if os.path.exists(os.path.join(out, "rows.txt")) else None)
    program = commands.program(options)
    try:
        table = rules.table(rows)
    except (OSError, ValueError) as error:
        raise Wrong(str(error)) from error
    found, other = read_captures(folder, table)
    segments = links.segments(found)
    links.join_outside(found, segments, claims([*options.alone, *table.claims()]))
    prepared(out, options.again)
    transit = [segment for segment in segments if len(segment.faces) > 1 and hosts.is_transit(segment, found)]
    names_path = options.names or os.path.join(out, "names.json")
    networks = network_names(names_path, segments, transit)
    own = list(hosts.named(segments, transit, networks))
    if not options.names:
        save(names_path, json.dumps(networks, indent=1) + "\n", force=True)
    text_path = options.policies or os.path.join(out, "policies.txt")
    if not options.policies and not os.path.exists(text_path):
        save(text_path, first_text(networks, own))
    try:
        named = statements.read_policies(commands.load(text_path), {name: prefix for prefix, name in networks.items()})
    except ValueError as error:
        raise Wrong(f"{text_path}: {error}") from error
    answers = Answers(found, segments, named, Asker(program, out), table, networks)
    answers.ask()
    return told(out, options.json, found, other, segments, networks, own, answers, table)


def earlier(path: str) -> dict[str, str]:
    """The answers of the call before, by what each policy asks; none where there was none."""
    try:
        return {str(one["key"]): str(one["answer"]) for one in json.loads(commands.load(path))}
    except (Wrong, ValueError, TypeError, KeyError):
        return {}


def told(out: str, is_json: bool, found: Sequence[Router], other: Sequence[str], segments: Sequence[Segment], networks: dict[str, str],
         own: Sequence[str], answers: Answers, table: rules.Table) -> int:
    """Writes and prints what was found; the status of the command."""
    before = earlier(os.path.join(out, "answers.json"))
    lines = found_text(found, other, segments, networks, own)
    lines += titled("Cannot be answered:", telling.cannot_lines(answers), "nothing that was asked")
    lines += titled("Needs your yes:", telling.yours_lines(answers) + telling.premises(segments, answers, table.levels[0]), "")
    lines += titled("Entries of lists that a copy says otherwise:", telling.rewritten_lines(answers), "none")
    lines += titled("Left out, since it bears on nothing here:", telling.group_lines(telling.grouped(telling.left_out(found)), telling.SHOWN), "nothing")
    silent = policies.silent_pairs({networks[prefix]: prefix for prefix in own}, [joined.named.policy for joined in answers.joined])
    if silent:
        text = "; ".join(f"{source} to {target}" + (f" (of it {part} is asked)" if part else "") for source, target, part in silent[:6])
        text += "; .." if len(silent) > 6 else ""
        lines += titled(f"Nobody asks about {counted(len(silent), 'pair')} of networks, or of all packets between them:", wrapped(text, "  "), "")
    lines += titled("Answers:", telling.answer_lines(answers, before), "no policy was asked")
    lines += titled("By these copies:", telling.copy_lines(answers), "none")
    lines += ["", telling.total(answers)]
    save(os.path.join(out, "changes.txt"), telling.changes_text(found, answers, segments), force=True)
    save(os.path.join(out, "answers.json"), commands.as_json(telling.as_json(answers)), force=True)
    save(os.path.join(out, "answers.txt"), "\n".join(lines) + "\n", force=True)
    put(commands.as_json(telling.as_json(answers)) if is_json else "\n".join(lines) + "\n")
    return commands.FINE if all(joined.answer() == "yes" for joined in answers.joined) else commands.NOT_SO
