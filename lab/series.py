"""Many random networks, one after the other, with a line of what was compared for each, and the table of such lines."""
import json
import os
import shutil
import sys
import time
from collections import Counter
from dataclasses import dataclass
from typing import Any, Iterable, Optional

from lab import desk
from lab.drafts import Kind, write_network
from lab.program import Program, Refused
from lab.runner import Options, Run, Tally, summary
from lab.spaces import Spaces

KINDS = {"ospf": Kind("ospf"), "bgp": Kind("bgp"), "bgp-one": Kind("bgp", False)}
MIX = ("ospf", "bgp", "ospf", "bgp-one", "ospf", "bgp", "ospf", "bgp-one", "ospf", "bgp", "ospf")
DRAFTS = 60
ROWS = (
    "networks", "routers", "links", "sets", "rows", "rows with several next hops", "rows without a route", "probes",
    "probes delivered", "probes with a claim", "claims let go for an own address", "probes sent again", "differences",
)
ANSWERS = [f"{kind} {answer}" for kind in ("reach", "blocked", "through") for answer in ("yes", "no", "refused")]


@dataclass
class Plan:
    """Which networks are drawn, and what is tried of each."""
    kind: str
    sets: int
    repaired: bool
    log: Optional[str]
    minutes: float


def kind_of(kind: str, seed: int) -> str:
    return MIX[seed % len(MIX)] if kind == "all" else kind


def drafted(kind: str, seed: int, program: Program) -> Optional[str]:
    """Lays the first draft of a seed that arcv does not refuse into the program's folder, and gives the name of its document."""
    for draft in range(DRAFTS):
        shutil.rmtree(program.folder, ignore_errors=True)
        write_network(KINDS[kind], f"{seed} {draft}", program.folder)
        try:
            program.verify("net.json")
            return "net.json"
        except Refused:
            continue
    return None


def done_already(path: Optional[str]) -> set[str]:
    """The names of the networks that have a line in the log."""
    if path is None or not os.path.exists(path):
        return set()
    with open(path) as file:
        return {json.loads(line)["name"] for line in file}


def note(path: Optional[str], name: str, kind: str, tally: Tally, seconds: float) -> None:
    """Adds the line of a network to the log."""
    print(f"{summary(name, tally)} ({seconds:.0f} s)", flush=True)
    if path is not None:
        line = {"name": name, "kind": kind, "counts": tally.counts, "claims": tally.claims, "differences": tally.differences}
        with open(path, "a") as file:
            file.write(json.dumps(line | {"seconds": round(seconds)}) + "\n")


def compared(plan: Plan, name: str, kind: str, document: str, seed: int, program: Program, spaces: Spaces) -> int:
    """Compares one network, and counts its differences."""
    begun = time.monotonic()
    run = Run(program, document, Options(plan.sets, None, seed), lambda line: print(f"{name}: {line}", flush=True), spaces)
    tally = run.run()
    note(plan.log, name, kind, tally, time.monotonic() - begun)
    return len(tally.differences)


def run(plan: Plan, seeds: Iterable[int], program: Program, spaces: Spaces) -> int:
    """Compares the networks of the seeds, and gives the status."""
    deadline, found, failed = time.monotonic() + 60 * plan.minutes, 0, 0
    done = done_already(plan.log)
    for seed in seeds:
        kind = kind_of(plan.kind, seed)
        name = f"{kind} {seed}"
        if name in done or time.monotonic() > deadline:
            continue
        program.folder = os.path.join(spaces.folder, "files")
        try:
            document = drafted(kind, seed, program)
            if document is None:
                print(f"{name}: each draft is refused", file=sys.stderr)
                continue
            found += compared(plan, name, kind, document, seed, program, spaces)
            after = desk.repaired(program, document) if plan.repaired else None
            if after:
                found += compared(plan, f"{name} repaired", f"{kind} repaired", after, seed, program, spaces)
        except (OSError, Refused) as error:
            failed += 1
            print(f"{name}: {error}", file=sys.stderr, flush=True)
    return 1 if found else 2 if failed else 0


def table(paths: list[str]) -> str:
    """The sums of logs as a table in Markdown, a column for each kind of network, and the claims that probes were under."""
    lines: list[dict[str, Any]] = []
    for path in paths:
        with open(path) as file:
            lines += map(json.loads, file)
    kinds = list(dict.fromkeys(line["kind"] for line in lines))
    sums: dict[str, Counter[str]] = {kind: Counter() for kind in kinds}
    claims: Counter[str] = Counter()
    for line in lines:
        sums[line["kind"]].update(line["counts"] | {"networks": 1, "differences": len(line["differences"])})
        claims.update(line["claims"])
    text = [f"| of | {' | '.join(kinds)} | all |", "|---" * (len(kinds) + 2) + "|"]
    for row in ROWS:
        numbers = [sums[kind][row] for kind in kinds]
        text.append(f"| {row} | {' | '.join(f'{number:,}' for number in [*numbers, sum(numbers)])} |")
    text += ["", "| claim | probes |", "|---|---|", *(f"| {claim} | {count:,} |" for claim, count in sorted(claims.items()))]
    answers = {word: sum(counts[word] for counts in sums.values()) for word in ANSWERS}
    return "\n".join([*text, "", ", ".join(f"{word} {count:,}" for word, count in answers.items() if count)])
