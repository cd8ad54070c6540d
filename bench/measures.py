"""The tables of `verify`, `check`, `recheck`, of reading and of memory."""
import sys
from dataclasses import dataclass
from pathlib import Path
from typing import Callable, Iterator

from bench import beside, broken, profiles, sized
from bench.networks import Network, lay
from bench.tables import Row, Table, mebibytes, seconds, times
from bench.timing import Run, by_turns, quotient, run, scratch, took

LINEAR = 2.3  # times as long for twice as much, at most


@dataclass(frozen=True)
class Bench:
    """What a table needs to be measured: the program, and how often each command is run."""

    arcv: str
    rounds: int
    seconds: int
    is_profiled: bool

    def profile(self, is_met: bool | None, words: list[str], folder: Path) -> str:
        """Where the time goes, of a row that misses its target."""
        return profiles.of([self.arcv, *words], folder) if is_met is False and self.is_profiled else ""


def wrong(what: str) -> None:
    """Two programs say different things: nothing that was measured counts."""
    sys.exit(f"the answers differ: {what}")


def folders(families: list[tuple[str, Callable[[], Network]]]) -> Iterator[tuple[str, Network, Path]]:
    """Each family's title and network, and a folder with its files, for as long as it is at hand."""
    for title, make in families:
        with scratch() as folder:
            network = make()
            lay(network, folder)
            yield title, network, folder


def answers(report: bytes) -> list[bytes]:
    """The first words of each block of a report: number, kind and answer."""
    return [b" ".join(line.split()[:3]) for line in report.splitlines() if line[:1].isdigit()]


def tally(report: bytes) -> str:
    """How many answers of each kind a report has."""
    kinds = [line.split()[2].decode() for line in answers(report)]
    return ", ".join(f"{kinds.count(kind)} {kind}" for kind in ("yes", "no", "refused") if kind in kinds)


def agree(bench: Bench, title: str, folder: Path, runs: dict[str, Run]) -> None:
    """The peer answers as arcv does, its witnesses are right, and so are those of arcv."""
    if runs["check"].text != b"accepted\n":
        wrong(f"{title}: arcv check of arcv's report")
    if "boost" not in runs:
        return
    (folder / "other").write_bytes(runs["boost"].text)
    judged = run([bench.arcv, "check", "net.json", "other"], folder).text
    if answers(runs["boost"].text) != answers(runs["verify"].text) or judged != b"accepted\n":
        wrong(f"{title}: verify beside bench/peers/verify.cpp: {judged!r}")


def verified(bench: Bench) -> list[Table]:
    first = Table("`verify` at the limits", ["network", "answers", "verify", "C++ over Boost", "times"], "at most 0.5 of the program in C++ over Boost")
    second = Table("`check` of a report", ["network", "check", "verify", "times"], "at most 1 of `verify` (1.05 counts as 1)")
    boost = beside.built("verify")
    for title, _, folder in folders(sized.LIMITS):
        words = ["verify", "net.json"]
        (folder / "report").write_bytes(run([bench.arcv, *words], folder).text)
        commands = {"verify": [bench.arcv, *words], "check": [bench.arcv, "check", "net.json", "report"]}
        runs = by_turns(commands | ({"boost": [boost, "net.json"]} if boost else {}), folder, bench.rounds)
        agree(bench, title, folder, runs)
        ours, theirs = quotient(runs["verify"], runs.get("boost")), quotient(runs["check"], runs["verify"])
        met = None if ours is None else ours <= 0.5
        cells = [title, tally(runs["verify"].text), seconds(runs["verify"].seconds), seconds(took(runs.get("boost"))), times(ours)]
        first.rows.append(Row(cells, met, bench.profile(met, words, folder)))
        met = None if theirs is None else theirs <= 1.05
        cells = [title, seconds(runs["check"].seconds), seconds(runs["verify"].seconds), times(theirs)]
        second.rows.append(Row(cells, met, bench.profile(met, ["check", "net.json", "report"], folder)))
    return [first, second]


def rechecked(bench: Bench) -> list[Table]:
    head = ["network", "recheck", "verify", "times", "beside half the ring"]
    table = Table("`recheck` where paths are long", head, f"at most 1.5 of `verify`, and {LINEAR} times as long for a ring twice as long")
    before: Run | None = None  # of the ring half as long
    for title, _, folder in folders(sized.PATHS):
        (folder / "report").write_bytes(run([bench.arcv, "verify", "net.json"], folder).text)
        words = ["recheck", "net.json", "report"]
        runs = by_turns({"recheck": [bench.arcv, *words], "verify": [bench.arcv, "verify", "net.json"]}, folder, bench.rounds)
        kept = [line for line in runs["recheck"].text.splitlines() if line.endswith(b" kept")]
        if answers(runs["recheck"].text) != answers(runs["verify"].text) or len(kept) != len(answers(runs["verify"].text)):
            wrong(f"{title}: recheck beside verify")
        ratio, growth = quotient(runs["recheck"], runs["verify"]), quotient(runs["recheck"], before)
        before = runs["recheck"] if title in sized.DOUBLED else None
        met = None if ratio is None else ratio <= 1.5 and (growth is None or growth <= LINEAR)
        cells = [title, seconds(runs["recheck"].seconds), seconds(runs["verify"].seconds), times(ratio), times(growth)]
        table.rows.append(Row(cells, met, bench.profile(met, words, folder)))
    return [table]


def long_files(bench: Bench) -> list[Table]:
    table = Table("Reading 64 MiB of lists of one entry", ["command", "arcv", "wc", "times", "peak memory"], "at most 3 of `wc` in the locale C, and 300 MB")
    with scratch() as folder:
        sized.long_files(folder)
        files = sorted(it.name for it in folder.glob("*.cfg"))
        runs = by_turns({"arcv": [bench.arcv, "verify", "net.json"], "wc": ["env", "LC_ALL=C", "wc", *files]}, folder, min(bench.rounds, 3))
        if runs["arcv"].status not in (0, 1):
            wrong(f"64 MiB are not read: {runs['arcv'].text[:80]!r}")
        ratio = quotient(runs["arcv"], runs["wc"])
        met = ratio is not None and ratio <= 3 and runs["arcv"].peak <= 300_000_000
        cells = ["`verify` of eight files", seconds(runs["arcv"].seconds), seconds(runs["wc"].seconds), times(ratio), mebibytes(runs["arcv"].peak)]
        table.rows.append(Row(cells, met, bench.profile(met, ["verify", "net.json"], folder)))
    return [table]


def memory(bench: Bench) -> list[Table]:
    table = Table("Memory of `repair --max-price 512`", ["network", "seconds", "peak memory"], "at most 130 MB")
    for title, _, folder in folders(broken.LARGE):
        words = ["repair", "net.json", "--out", ".new", "--proof", "cert", "--max-price", "512"]
        ours = run([bench.arcv, *words], folder, 4 * bench.seconds)
        met = ours.status in (0, 2, 3) and ours.peak <= 130_000_000
        table.rows.append(Row([title, seconds(ours.seconds), mebibytes(ours.peak)], met, bench.profile(met, words, folder)))
    return [table]
