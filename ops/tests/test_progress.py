"""The line on a terminal that says what a long run is doing."""
import os
import pty
import subprocess
import time
import unittest

from ops.tests.given import WithFolder, program

HOLES = 10


def pigeons() -> str:
    """The formula in which one pigeon more than there are holes has a hole each, and no hole has two: it has no model."""
    of = [[pigeon * HOLES + hole + 1 for hole in range(HOLES)] for pigeon in range(HOLES + 1)]
    clauses = [*of, *([-one[hole], -two[hole]] for hole in range(HOLES) for place, one in enumerate(of) for two in of[:place])]
    lines = [f"p cnf {HOLES * (HOLES + 1)} {len(clauses)}", *(" ".join(map(str, [*clause, 0])) for clause in clauses)]
    return "\n".join(lines) + "\n"


@unittest.skipUnless(program(), "no program is built")
class Line(WithFolder):
    def on_terminal(self, **more: str) -> tuple[str, str]:
        """What a long search prints, and what comes on the terminal that its standard error is."""
        ours, its = pty.openpty()
        said = b""
        words = [program(), "solve", "pigeons.cnf", "--proof", "proof", "--conflicts", "20000"]
        kept = {name: value for name, value in os.environ.items() if name != "ARCV_QUIET"}
        with subprocess.Popen(words, cwd=self.folder, stdout=subprocess.PIPE, stderr=its, env={**kept, **more}) as run:
            os.close(its)
            while True:
                try:
                    piece = os.read(ours, 4096)
                except OSError:  # how Linux says that the other end is closed
                    break
                if not piece:
                    break
                said += piece
            assert run.stdout
            printed = run.stdout.read().decode()
        os.close(ours)
        return printed, said.decode()

    def test_a_long_search(self) -> None:
        self.write("pigeons.cnf", pigeons())
        begun = time.monotonic()
        printed, said = self.on_terminal()
        took = time.monotonic() - begun
        self.assertEqual(printed, "s UNKNOWN\n")
        if said or took > 10:
            self.assertRegex(said, r"\A(\rarcv: searching: \d+00 conflicts\x1b\[K)+\r\x1b\[K\Z")
        self.assertEqual(self.on_terminal(ARCV_QUIET="1"), (printed, ""))

    def test_none_without_a_terminal(self) -> None:
        self.write("pigeons.cnf", pigeons())
        words = [program(), "solve", "pigeons.cnf", "--proof", "proof", "--conflicts", "20000"]
        run = subprocess.run(words, cwd=self.folder, capture_output=True, check=False)
        self.assertEqual((run.returncode, run.stderr), (3, b""))
