"""Network namespaces of a run, the processes in them, and their end, whatever ends the run.

A run's namespaces, and its folder, have the number of its process in their names, so that two runs share none. A run takes its own
down at its end and when it is stopped; a guard, a process beside it, does so where the run is killed; and `sweep` does so for
whatever is left of runs that are gone."""
import atexit
import os
import re
import shutil
import signal
import subprocess
import sys
import tempfile
import time
from typing import Iterable, Optional

from lab.kernel import inside

MARK = "arcvlab-"
FOLDER_OF_NAMES = "/run/netns"
SIGNALS = (signal.SIGINT, signal.SIGTERM, signal.SIGHUP, signal.SIGQUIT)


def batch(lines: Iterable[str], namespace: Optional[str] = None, force: bool = False) -> None:
    """Hands lines to one call of `ip`, in a namespace where one is named; forced, it goes on past those that fail."""
    command = ["ip", *(["-n", namespace] if namespace else []), *(["-force"] if force else []), "-batch", "-"]
    text = "".join(line + "\n" for line in lines)
    done = subprocess.run(command, input=text, text=True, capture_output=True)
    if done.returncode != 0 and not force:
        raise OSError(f"ip: {done.stderr.strip()}")


def owner(name: str) -> int:
    """The number of the process whose run made a namespace or folder, or 0 where none did."""
    found = re.match(re.escape(MARK) + "([0-9]+)", name)
    return int(found[1]) if found else 0


def is_running(number: int) -> bool:
    return os.path.exists(f"/proc/{number}")


def names() -> list[str]:
    """The namespaces of all runs."""
    return sorted(name for name in os.listdir(FOLDER_OF_NAMES) if owner(name)) if os.path.isdir(FOLDER_OF_NAMES) else []


def members(name: str) -> set[int]:
    """The processes in a namespace."""
    done = subprocess.run(["ip", "netns", "pids", name], text=True, capture_output=True)
    return {int(word) for word in done.stdout.split()} - {os.getpid()}


def remove(mine: list[str]) -> None:
    """Takes down namespaces in which no process is left."""
    if mine:
        batch([f"netns del {name}" for name in mine], force=True)


def take_down(number: int) -> int:
    """Takes down all that the run of this process made, and counts its namespaces."""
    mine = [name for name in names() if owner(name) == number]
    for process in set().union(*(members(name) for name in mine)):
        try:
            os.kill(process, signal.SIGKILL)
        except ProcessLookupError:
            pass
    remove(mine)
    shutil.rmtree(folder_of(number), ignore_errors=True)
    return len(mine)


def folder_of(number: int) -> str:
    return os.path.join(tempfile.gettempdir(), f"{MARK}{number}")


def sweep() -> int:
    """Takes down what is left of runs that are gone, and counts their namespaces."""
    folders = [name for name in os.listdir(tempfile.gettempdir()) if owner(name)]
    gone = {owner(name) for name in names() + folders if not is_running(owner(name))}
    return sum(take_down(number) for number in gone)


class Spaces:
    """The namespaces of this run, one network's at a time, and the processes that it started in them. `folder` is the run's own,
    and `site` in it the one of the network that is up."""

    def __init__(self) -> None:
        self.number = os.getpid()
        self.processes: list[subprocess.Popen[bytes]] = []
        self.folder = folder_of(self.number)
        self.site = os.path.join(self.folder, "site")
        self.lifeline = -1
        self.set_guard()
        os.makedirs(self.folder, exist_ok=True)

    def name(self, part: str) -> str:
        return f"{MARK}{self.number}-{part}"

    def open(self, parts: Iterable[str]) -> None:
        """Makes the namespaces."""
        os.makedirs(self.site)
        batch(f"netns add {self.name(part)}" for part in parts)

    def set_guard(self) -> None:
        """Sees to it that the namespaces go when this process ends, is told to, or is killed."""
        ear, self.lifeline = os.pipe()
        if os.fork() == 0:
            os.setsid()
            os.close(self.lifeline)
            for handle in (0, 1, 2):
                os.dup2(os.open(os.devnull, os.O_RDWR), handle)
            os.read(ear, 1)
            deadline = time.monotonic() + 10
            while is_running(self.number) and time.monotonic() < deadline:
                time.sleep(0.2)
            take_down(self.number)
            os._exit(0)
        os.close(ear)
        atexit.register(self.end)
        for number in SIGNALS:
            signal.signal(number, lambda number, _: sys.exit(128 + number))

    def start(self, part: str, command: list[str]) -> None:
        """Starts a process in a namespace."""
        with inside(self.name(part)):
            with open(os.path.join(self.site, "log"), "ab") as said:
                process = subprocess.Popen(command, stdin=subprocess.DEVNULL, stdout=said, stderr=said, cwd=self.site)
        self.processes.append(process)

    def dead(self) -> Optional[str]:
        """The command of a process that has ended by itself, or None."""
        for process in self.processes:
            if process.poll() is not None:
                return " ".join(map(str, process.args)) if isinstance(process.args, list) else str(process.args)
        return None

    def close(self) -> None:
        """Takes the network down that is up."""
        for process in self.processes:
            process.kill()
        for process in self.processes:
            process.wait()
        self.processes = []
        remove([name for name in names() if owner(name) == self.number])
        shutil.rmtree(self.site, ignore_errors=True)

    def end(self) -> None:
        """Takes everything down; of no account in a process that the run has begun."""
        if os.getpid() == self.number:
            self.close()
            take_down(self.number)
