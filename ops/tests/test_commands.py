"""Every command: its help, its statuses, and that no wrong input ends in a traceback."""
import contextlib
import importlib
import io
import os
import random
import re
import shutil
import stat
import subprocess
import sys
import tempfile
import unittest

from ops import commands, pages
from ops.tests.given import EXAMPLES, TOP, WithFolder, program, read, tool

MODULES = {
    "policies": "policies", "explain": "explain", "draw": "draw", "plan": "plan", "enter": "enter", "back": "back",
    "repair-steps": "steps", "seal": "seal", "refusals": "refusals", "start": "start", "quiet": "quiet",
}


def called(name: str, words: list[str]) -> tuple[int, str, str]:
    """Runs a command in this process; an exception that a user would see as a traceback comes out."""
    out, err = io.StringIO(), io.StringIO()
    out.buffer = io.BytesIO()  # type: ignore[misc]
    with contextlib.redirect_stdout(out), contextlib.redirect_stderr(err):
        old, sys.argv = sys.argv, [name, *words]
        try:
            status = commands.run(importlib.import_module(f"ops.{MODULES[name]}").main)
        finally:
            sys.argv = old
    return status, out.getvalue() + out.buffer.getvalue().decode("utf-8", "replace"), err.getvalue()


class Help(unittest.TestCase):
    def test_each_has_an_example_and_says_what_it_writes(self) -> None:
        for name in [*MODULES, "pages"]:
            with self.subTest(name):
                done = tool(name, "--help")
                self.assertEqual(done.returncode, 0)
                self.assertIn("\nexample:\n  ", done.stdout)
                self.assertRegex(done.stdout, f"example:\n(.*\n)*.*bin/{name} ")
                self.assertIn("\nWrites: ", done.stdout)
                self.assertLessEqual(max(len(line) for line in done.stdout.split("\n")), 80)

    def test_no_words_and_wrong_words(self) -> None:
        for name in MODULES:
            for words in ([], ["--what"], ["a", "b", "c", "d", "e", "--what=3"]):
                with self.subTest(name, words=words):
                    done = tool(name, *words)
                    self.assertEqual((done.returncode, done.stdout), (2, ""))
                    self.assertTrue(done.stderr.startswith(f"{name}: "))
                    self.assertNotIn("Traceback", done.stderr)


class Pages(unittest.TestCase):
    def test_they_are_as_they_are_made(self) -> None:
        self.assertEqual(pages.differing(), [], "bin/pages --force makes them anew")

    @unittest.skipUnless(program(), "no program is built")
    def test_the_table_is_that_of_the_program(self) -> None:
        usage = subprocess.run([program()], capture_output=True, text=True, check=False).stdout
        names = re.search(r"usage: arcv ([a-z|]+)", usage)
        assert names
        self.assertEqual(sorted(names[1].split("|")), sorted(command.name for command in pages.program_commands()))

    def test_every_tool_is_in_the_page(self) -> None:
        page = read(os.path.join(TOP, "docs", "arcv.1")).replace("\\-", "-")
        for name in MODULES:
            self.assertIn(f".B {name} ", page)

    @unittest.skipUnless(shutil.which("bash"), "no bash")
    def test_completion_of_bash(self) -> None:
        script = "source docs/completions/arcv.bash; COMP_WORDS=(arcv repair --c); COMP_CWORD=2; _arcv; echo ${COMPREPLY[@]}"
        done = subprocess.run(["bash", "-c", script], cwd=TOP, capture_output=True, text=True, check=False)
        self.assertEqual(done.stdout, "--conflicts\n")


class Reading(unittest.TestCase):
    """bin/reading, and the numbers of docs/auditing.md by which an auditor plans."""

    def test_the_page_has_the_numbers_of_each_command(self) -> None:
        page = read(os.path.join(TOP, "docs", "auditing.md"))
        counted = re.findall(r"^(\w[\w ]*?) +(\d+) files +([\d,]+) lines$", tool("reading", "--commands").stdout, re.M)
        self.assertEqual({name for name, _, _ in counted}, {"shared by all", "all of them", *(one.name for one in pages.program_commands())})
        for name, files, lines in counted[1:]:
            row = re.search(rf"^\| {'all commands' if name == 'all of them' else f'`{name}`'}[^|]* \| ([\d,]+)[^|]* \| (\d+) \|$", page, re.M)
            self.assertIsNotNone(row, name)
            assert row
            for said, found in ((row[1], lines), (row[2], files)):
                number = int(found.replace(",", ""))
                self.assertLessEqual(abs(int(said.replace(",", "")) - number), number / 10, f"{name}: {found}; bin/reading --commands counts")

    def test_help_and_what_is_no_file(self) -> None:
        for name in ("reading", "definitions"):
            self.assertEqual(tool(name, "--help").returncode, 0)
            for word in ("nothere", "README.md", "--what"):
                done = tool(name, word)
                self.assertEqual((done.returncode, done.stdout), (1, ""))
                self.assertTrue(done.stderr.startswith(f"{name}: "), done.stderr)


class Files(WithFolder):
    def test_nothing_is_written_over_without_force(self) -> None:
        path = self.write("there", "old")
        with self.assertRaisesRegex(commands.Wrong, "--force"):
            commands.save(path, "new")
        self.assertEqual(read(path), "old")
        commands.save(path, "new", True)
        self.assertEqual(read(path), "new")
        self.assertEqual(os.listdir(self.folder), ["there"])

    def test_what_cannot_be_read_or_written(self) -> None:
        for path in (self.path("none"), self.folder):
            with self.assertRaises(commands.Wrong):
                commands.load(path)
        os.mkdir(self.path("folder"))
        with self.assertRaises(commands.Wrong):
            commands.save(self.path("folder"), "x", True)

    def test_control_characters_are_shown_as_question_marks(self) -> None:
        self.lay("office")
        self.write("net.names.json", '{"networks": {"10.1.0.0/24": "ser\\u001b[31mvers"}, "policies": []}')
        done = tool("explain", "net.json", "report.txt", folder=self.folder)
        self.assertIn("ser?[31mvers (10.1.0.0/24)", done.stdout)
        self.assertNotIn("\x1b", done.stdout)

    def test_a_closed_output(self) -> None:
        words = [sys.executable, os.path.join(TOP, "bin", "explain"), "net.json", "report.txt"]
        run = subprocess.Popen(
            words, cwd=os.path.join(EXAMPLES, "campus"), stdout=subprocess.PIPE, stderr=subprocess.PIPE
        )
        assert run.stdout and run.stderr
        run.stdout.close()
        self.assertNotIn(b"Traceback", run.stderr.read())
        run.stderr.close()
        run.wait()


class Seal(WithFolder):
    def test_seal_and_check(self) -> None:
        self.lay("office")
        program = self.write("arcv", "#!/bin/sh\nexit 9\n")
        os.chmod(program, stat.S_IRWXU)
        words = ("net.json", "report.txt", "--arcv", program)
        self.assertEqual(tool("seal", *words, "--out", "report.seal", folder=self.folder).returncode, 0)
        self.assertEqual(tool("seal", *words, "--out", "report.seal", folder=self.folder).returncode, 2)
        done = tool("seal", "--check", "report.seal", folder=self.folder)
        self.assertEqual((done.returncode, done.stdout), (0, "5 of 5 files as sealed\n"))
        self.write("hq.cfg", read(self.path("hq.cfg")) + "!\n")
        os.unlink(self.path("report.txt"))
        done = tool("seal", "--check", "report.seal", folder=self.folder)
        self.assertEqual(
            (done.returncode, done.stdout), (1, "hq.cfg: changed\nreport.txt: missing\n3 of 5 files as sealed\n")
        )
        self.assertEqual(tool("seal", "--check", "net.json", folder=self.folder).returncode, 2)


def mangled(text: str, dice: random.Random) -> str:
    """The text with a few pieces taken out, doubled or changed."""
    for _ in range(dice.randrange(1, 4)):
        at, end = sorted((dice.randrange(len(text) + 1), dice.randrange(len(text) + 1)))
        end = min(end, at + dice.choice((1, 5, 40, 1000)))
        text = text[:at] + dice.choice(
            ("", text[at:end] * 2, "99999999999", "\x00", "\udcff", " ", "\n", "end", "-1", "{", '"')
        ) + text[end:]
    return text


class Wrong(WithFolder):
    """Documents, reports, router files and texts that are broken at random: a message and status 2, or an answer."""

    def test_no_traceback(self) -> None:
        with tempfile.TemporaryDirectory() as place:
            fake = os.path.join(place, "arcv")
            with open(fake, "w", encoding="ascii") as file:
                file.write("#!/bin/sh\necho 'refused net.json 0 document-form'\nexit 5\n")
            os.chmod(fake, stat.S_IRWXU)
            for seed in range(60):
                self._one(random.Random(seed), fake)

    def _one(self, dice: random.Random, fake: str) -> None:
        example = dice.choice(("office", "square", "services", "triangle"))
        source = os.path.join(EXAMPLES, example)
        names = [name for name in sorted(os.listdir(source)) if name.endswith((".cfg", ".json", ".txt"))]
        for name in names:
            self.write(name, read(os.path.join(source, name)))
        routers = [name for name in names if name.endswith(".cfg")]
        self.write(routers[0] + ".new", mangled(read(os.path.join(source, routers[0])), dice))
        self.write(
            "edits", mangled("edit session hq Serial0/0/0\nedit packet hq list F 10.1.0.0/24 10.2.0.0/24\n", dice)
        )
        self.write(
            "text",
            mangled(
                "group g = 10.1.0.0/24 10.2.0.0/24\na: g never reach 10.20.0.0/24 tcp 22\nall pairs survive 1 except "
                "g\n",
                dice,
            ),
        )
        broken = dice.choice([*names, "edits", "text"])
        self.write(broken, mangled(read(self.path(broken)), dice))
        doc, arcv = self.path("net.json"), ["--arcv", fake]
        trials = (
            ("explain", [doc, self.path("report.txt"), *dice.choice(([], ["--json"], ["--junit"], ["--html"], ["--rejected", "7", "form"]))]),
            ("draw", [doc, self.path("report.txt")]), ("policies", [self.path("text"), doc]), ("plan", [doc, "--copies", ".new"]), ("enter", [doc, "--copies", ".new"]),
            ("back", [doc, "--copies", ".new", "--out", ".back", "--force"]), ("plan", [doc, self.path("edits"), *arcv]), ("refusals", [doc, fake]),
            ("repair-steps", [doc, "--out", ".fixed", "--proof", self.path("cert"), "--force", *arcv]), ("seal", [doc, self.path("report.txt"), *arcv]),
        )
        name, words = dice.choice(trials)
        with self.subTest(name=name, broken=broken, example=example):
            status, _, err = called(name, words)
            self.assertIn(status, (0, 1, 2))
            self.assertEqual(status == 2, bool(err) and status == 2)


if __name__ == "__main__":
    unittest.main()
