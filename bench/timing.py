"""Processor time and peak memory of programs. Programs that are compared run by turns, and the least time of the rounds counts, since
other work on the machine only adds to it."""
import subprocess
import sys
import tempfile
from contextlib import contextmanager
from dataclasses import dataclass
from pathlib import Path
from typing import Iterator

Command = list[str]
LAUNCH = Path(__file__).with_name("launch.py")


@dataclass(frozen=True)
class Run:
    """What came of a run; no status where it was cut off at its limit of processor time."""

    status: int | None
    text: bytes
    seconds: float
    peak: int  # bytes

    @property
    def is_done(self) -> bool:
        return self.status is not None


@contextmanager
def scratch() -> Iterator[Path]:
    """A folder for the files of one row."""
    with tempfile.TemporaryDirectory(prefix="arcv-bench-") as name:
        yield Path(name)


def run(command: Command, folder: Path, seconds: int = 60) -> Run:
    launch = [sys.executable, "-I", "-S", str(LAUNCH), str(seconds), ".out", *command]
    said = subprocess.run(launch, cwd=folder, stdout=subprocess.PIPE, check=True).stdout.split()
    code, used, peak = int(said[0]), float(said[1]), int(said[2])
    return Run(None if used >= seconds - 0.5 and code < 0 else code, (folder / ".out").read_bytes(), used, peak << 10)


def by_turns(commands: dict[str, Command], folder: Path, rounds: int, seconds: int = 60) -> dict[str, Run]:
    """The run of each command that took least; one that took over ten seconds is not run again."""
    best: dict[str, Run] = {}
    for _ in range(rounds):
        for name, command in commands.items():
            if name in best and best[name].seconds > 10:
                continue
            found = run(command, folder, seconds)
            if name not in best or found.seconds < best[name].seconds:
                best[name] = found
    return best


def took(ran: Run | None) -> float | None:
    """The seconds of a run, where there is one and it was done."""
    return ran.seconds if ran is not None and ran.is_done else None


def quotient(ours: Run | None, theirs: Run | None) -> float | None:
    """How many times as long the one took, where both were done."""
    if ours is None or theirs is None or not ours.is_done or not theirs.is_done:
        return None
    return max(ours.seconds, 0.001) / max(theirs.seconds, 0.001)
