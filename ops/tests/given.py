"""Where tests find examples and recorded answers; a built program, where there is one."""
import os
import signal
import subprocess
import sys
import tempfile
import unittest

TOP = os.path.dirname(os.path.dirname(os.path.dirname(os.path.abspath(__file__))))
EXAMPLES = os.path.join(TOP, "examples")
CASES = os.path.join(TOP, "conformance")


def program() -> str:
    """A built program, or nothing: the one that ARCV names, that the gate built, or that bin/arcv keeps."""
    found = (
        os.environ.get("ARCV", ""), os.path.join(TOP, "crates", "arcv", "out", "arcv"),
        os.path.join(TOP, ".built", "arcv"),
    )
    return next(
        (os.path.abspath(path) for path in found if path and os.access(path, os.X_OK) and not os.path.isdir(path)), ""
    )


def read(path: str) -> str:
    with open(path, "rb") as file:
        return file.read().decode("utf-8", "surrogateescape")


def tool(name: str, *words: str, folder: str = TOP, given: str = "") -> subprocess.CompletedProcess[str]:
    """Runs a command of bin/ as a user would, to whom Ctrl-C is an interrupt also where these tests run in the background."""
    return subprocess.run(
        [sys.executable, os.path.join(TOP, "bin", name), *words], cwd=folder, input=given, capture_output=True, text=True, check=False,
        env={**os.environ, "PYTHONDONTWRITEBYTECODE": "1"}, preexec_fn=lambda: signal.signal(signal.SIGINT, signal.SIG_DFL),
    )


def cases() -> list[str]:
    """The recorded cases, by their paths in conformance/."""
    return sorted(os.path.relpath(at, CASES) for at, _, files in os.walk(CASES) if "cmd" in files)


def pairs() -> list[tuple[str, str, str]]:
    """Router files before and after edits that are recorded: the case, both texts."""
    found = []
    for case in cases():
        after = os.path.join(CASES, case, "after")
        store = os.path.join(CASES, case, "store")
        of = os.path.join(CASES, case, "store-of")
        store = os.path.join(TOP, read(of).strip()) if os.path.exists(of) else store
        for name in sorted(os.listdir(after)) if os.path.isdir(after) else []:
            old = os.path.join(store, name.removesuffix(".new"))
            if name.endswith(".new") and os.path.exists(old):
                found.append((case, read(old), read(os.path.join(after, name))))
    return found


class WithFolder(unittest.TestCase):
    """A test with a folder of its own, in which it works."""

    def setUp(self) -> None:
        place = tempfile.TemporaryDirectory(prefix="arcv-ops-test-")
        self.addCleanup(place.cleanup)
        self.folder = place.name

    def path(self, name: str) -> str:
        return os.path.join(self.folder, name)

    def write(self, name: str, text: str) -> str:
        os.makedirs(os.path.dirname(self.path(name)), exist_ok=True)
        with open(self.path(name), "wb") as file:
            file.write(text.encode("utf-8", "surrogateescape"))
        return self.path(name)

    def lay(self, example: str) -> None:
        """Lays an example into the folder; its router files by way of bin/quiet where it needs that."""
        source = os.path.join(EXAMPLES, example)
        for name in os.listdir(source):
            if name.endswith((".cfg", ".json", ".txt")):
                self.write(name, read(os.path.join(source, name)))
        if "quiet/" in read(os.path.join(source, "net.json")):
            files = sorted(name for name in os.listdir(source) if name.endswith(".cfg"))
            tool("quiet", *files, folder=self.folder)
