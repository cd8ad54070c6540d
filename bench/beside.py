"""The other programs: those of bench/peers, which a compiler of the machine builds, and solvers that are installed."""
import hashlib
import re
import shutil
import subprocess
import sys
from pathlib import Path

TOP = Path(__file__).resolve().parent.parent
SOURCES = TOP / "bench/peers"
BUILT = TOP / ".built/bench"
BUILDS: dict[str, tuple[str, list[str], list[str], list[str]]] = {
    "checker": ("cc", ["-O2"], ["checker.c"], []),
    "verify": ("g++", ["-O2", "-std=c++17", "-w", "-DBOOST_BIND_GLOBAL_PLACEHOLDERS"], ["verify.cpp", "network.cpp"], ["network.hpp"]),
}


def built(name: str) -> str | None:
    """The program of bench/peers with this name, or none where nothing here builds it (no compiler, or no Boost)."""
    compiler, flags, sources, headers = BUILDS[name]
    texts = b"".join((SOURCES / source).read_bytes() for source in [*sources, *headers])
    program = BUILT / f"{name}-{hashlib.sha256(texts).hexdigest()[:12]}"
    if not program.exists():
        if shutil.which(compiler) is None:
            return None
        BUILT.mkdir(parents=True, exist_ok=True)
        made = subprocess.run([compiler, *flags, "-o", str(program), *(str(SOURCES / it) for it in sources)], capture_output=True)
        if made.returncode != 0:
            print(f"bench/peers/{sources[0]} is not built: {made.stderr.decode()[-300:]}", file=sys.stderr)
            return None
    return str(program)


def installed(name: str) -> str | None:
    return shutil.which(name)


def version(name: str) -> str:
    """How an installed solver calls its version, or `-`."""
    if installed(name) is None:
        return "-"
    if name == "minisat":
        said = subprocess.run(["dpkg-query", "-W", "-f", "${Version}", "minisat"], capture_output=True, text=True).stdout
    else:
        said = subprocess.run([name, "--version"], capture_output=True, text=True).stdout
    found = re.search(r"\d+\.\d+(\.\d+)?", said)
    return found.group() if found else "-"
