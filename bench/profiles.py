"""Where the time of a run goes: its functions by their own part of the time, by perf, or by valgrind where there is no perf."""
import re
import resource
import shutil
import subprocess
from pathlib import Path
from typing import Callable

from bench.timing import Command

SHOWN = 4


def limit_processor(seconds: int) -> Callable[[], None]:
    return lambda: resource.setrlimit(resource.RLIMIT_CPU, (seconds, seconds))


def short(symbol: str) -> str:
    """The last words of a path of modules, without hashes and types."""
    bare = re.sub(r"\.llvm\.\d+|::h[0-9a-f]{16}$|<[^<>]*>|\[[^\]]*\]", "", symbol).strip()
    return "::".join(bare.strip(": ").split("::")[-2:])[:48]


def by_perf(command: Command, folder: Path, seconds: int) -> str:
    data = folder / ".perf"
    record = ["perf", "record", "-q", "-F", "499", "-o", str(data), "--", *command]
    subprocess.run(record, cwd=folder, stdin=subprocess.DEVNULL, capture_output=True, preexec_fn=limit_processor(seconds))
    report = ["perf", "report", "-q", "--stdio", "--no-children", "-F", "overhead,symbol", "-i", str(data)]
    said = subprocess.run(report, capture_output=True, text=True).stdout
    found = re.findall(r"^\s*([\d.]+)%\s+\[.\]\s+(\S.*)$", said, re.MULTILINE)
    return ", ".join(f"{short(name)} {float(part):.0f} %" for part, name in found[:SHOWN])


def by_valgrind(command: Command, folder: Path, seconds: int) -> str:
    data = folder / ".callgrind"
    record = ["valgrind", "-q", "--tool=callgrind", f"--callgrind-out-file={data}", *command]
    subprocess.run(record, cwd=folder, stdin=subprocess.DEVNULL, capture_output=True, preexec_fn=limit_processor(30 * seconds))
    if not data.exists():
        return ""
    said = subprocess.run(["callgrind_annotate", str(data)], capture_output=True, text=True).stdout
    found = re.findall(r"^\s*[\d,]+ \(\s*([\d.]+)%\)\s+\S+?:(\S+)", said, re.MULTILINE)
    return ", ".join(f"{short(name)} {float(part):.0f} %" for part, name in found[:SHOWN])


def of(command: Command, folder: Path, seconds: int = 6) -> str:
    """One line: the functions that take most; empty where nothing here can say."""
    for tool, profile in (("perf", by_perf), ("valgrind", by_valgrind)):
        if shutil.which(tool):
            found = profile(command, folder, seconds)
            if found:
                return found
    return ""
