"""table: asks `bin/start` of each of the networks beside it, and prints the table of docs/real-networks.md.

python3 -m ops.tests.table [--arcv PATH]"""
import argparse
import json
import os
import sys
import tempfile
from collections import Counter
from dataclasses import dataclass

from ops.tests.given import TOP, program, tool

NETWORKS = os.path.join(TOP, "ops", "tests", "networks")
KINDS = ("blocked", "through", "reach")


@dataclass
class Row:
    """What came of one network."""
    name: str
    routers: int
    lines: int
    rules: int
    left_out: int
    entries: int
    questions: int
    answers: dict[str, Counter[str]]

    def cells(self) -> list[str]:
        told = [", ".join(f"{count} {WORDS[answer]}" for answer, count in sorted(self.answers[kind].items(), key=lambda pair: ORDER.index(pair[0]))) or "none asked"
                for kind in KINDS]
        return [f"`{self.name}`", str(self.routers), f"{self.lines:,}", str(self.rules), f"{self.left_out:,}", str(self.entries), str(self.questions), *told]


WORDS = {"yes": "yes", "no": "no", "yours": "need a yes", "none": "not answered"}
ORDER = ("yes", "no", "yours", "none")
HEAD = ["network", "routers", "lines", "rows that acted", "lines left out", "entries said otherwise", "questions", *KINDS]


def captures_of(name: str) -> list[str]:
    folder = os.path.join(NETWORKS, name)
    return [os.path.join(folder, file) for file in sorted(os.listdir(folder)) if file != "policies.txt"]


def ask(name: str, arcv: str, out: str) -> list[dict[str, object]]:
    """What `bin/start` answers of a network, with what it wrote in `out`."""
    folder = os.path.join(NETWORKS, name)
    run = tool("start", folder, "--policies", os.path.join(folder, "policies.txt"), "--to", out, "--arcv", arcv, "--json")
    if run.returncode not in (0, 1):
        raise ValueError(f"{name}: {run.stderr}")
    found: list[dict[str, object]] = json.loads(run.stdout)
    return found


def count(path: str) -> int:
    with open(path, "rb") as file:
        return file.read().count(b"\n")


def row(name: str, arcv: str) -> Row:
    with tempfile.TemporaryDirectory(prefix="arcv-table-") as out:
        found = ask(name, arcv, out)
        with open(os.path.join(out, "changes.txt"), encoding="utf-8") as file:
            changes = [line for line in file if not line.startswith("segment ")]
    acted, left, entries = set(), 0, 0
    for line in changes:
        cost = line.split(": ", 2)[1]
        if cost in ("wider", "narrower", "exact"):
            entries += 1
        elif cost != "inert":
            acted.add(line.rsplit("    (", 1)[1].split(":", 1)[0])
            left += cost in ("nothing", "time", "inferred")
    answers = {kind: Counter(str(one["answer"]) for one in found if one["kind"] == kind) for kind in KINDS}
    questions = len({text for one in found for text in one["needs"]})  # type: ignore[attr-defined]
    lines = sum(count(path) for path in captures_of(name))
    return Row(name, len(captures_of(name)), lines, len(acted), left, entries, questions, answers)


def text(arcv: str) -> str:
    rows = [HEAD, ["---"] * len(HEAD), *(row(name, arcv).cells() for name in sorted(os.listdir(NETWORKS)))]
    return "\n".join("| " + " | ".join(cells) + " |" for cells in rows) + "\n"


def main(words: list[str]) -> int:
    parser = argparse.ArgumentParser(description=__doc__)
    parser.add_argument("--arcv", default=program())
    print(text(os.path.abspath(parser.parse_args(words).arcv)), end="")
    return 0


if __name__ == "__main__":
    sys.exit(main(sys.argv[1:]))
