"""Repairs by steps and by parts, and the whole way to the routers and back, with the program."""
import json
import os
import re
import stat
import subprocess
import unittest

from ops.commands import Wrong, run_arcv
from ops.documents import read_document
from ops.joining import classes_of, inside, joined, shut
from ops.reports import Block, parse_edit, read_text
from ops.parts import hints, listed, on_the_way
from ops.tests.given import EXAMPLES, TOP, WithFolder, program, read, tool
from ops.trial import not_yes, trial_of

NETWORKS = os.path.join(TOP, "ops", "tests", "networks")
HAS = unittest.skipUnless(program(), "no program is built")


class Words(unittest.TestCase):
    def test_numbers_in_a_row(self) -> None:
        self.assertEqual([listed(numbers) for numbers in ([1], [1, 2], [3, 1, 2, 9])], ["1", "1, 2", "1 to 3, 9"])

    def test_classes_inside_others(self) -> None:
        wide = ("10.1.0.0/24", "10.2.0.0/24", "service:6.0-6.65535")
        self.assertTrue(inside(("10.1.0.0/25", "10.2.0.0/24", "service:6.22-6.22"), wide))
        self.assertFalse(inside(("10.1.0.0/25", "10.2.0.0/24", ""), wide))
        self.assertFalse(inside(("10.3.0.0/25", "10.2.0.0/24", "service:6.22-6.22"), wide))

    def test_every_interface_is_shut_down(self) -> None:
        text = shut(read(os.path.join(EXAMPLES, "office", "hq.cfg")))
        self.assertEqual(text.count("\n shutdown\n"), text.count("\ninterface ") + 1)  # one is down already

    def test_services_that_no_entry_can_say(self) -> None:
        blocks = [Block(1, "blocked", "no", (("walk", "a", "b", "service:0.0-5.65535", "1"),)), Block(2, "blocked", "no", (("walk", "a", "b", "service:6.0-6.21", "1"),)),
                  Block(3, "blocked", "no", (("walk", "a", "b", "1"),)), Block(4, "blocked", "yes", (("closed", "a", "b", "service:0.0-5.65535"),))]
        said = hints(blocks)
        self.assertEqual(len(said), 1)
        self.assertIn("Policy 1 is broken by packets of protocols 0 to 5.", said[0])

    def test_which_policies_lie_on_the_ways(self) -> None:
        document = read_document(os.path.join(EXAMPLES, "square", "net.json"))
        blocks = [
            Block(1, "reach", "yes", (("path", "1", "2"),)), Block(2, "reach", "yes", (("path", "3", "4"),)),
            Block(3, "blocked", "no", (("walk", "a", "b", "1"),)),
        ]
        document.policies[1] = type(document.policies[1])("reach", "10.3.0.0/24", "10.1.0.0/24", 1)
        self.assertEqual(on_the_way(document, blocks, [3]), [1])


class Generated(WithFolder):
    """A ring of six routers, with policies of which many do not hold."""

    def setUp(self) -> None:
        super().setUp()
        subprocess.run(
            [os.path.join(EXAMPLES, "generated", "make"), "6", self.path("net")], check=True,
            stdout=subprocess.DEVNULL,
        )
        self.net = self.path("net")

    def policies(self, text: str) -> None:
        self.write("net/text", text)
        done = tool("policies", "text", "net.json", "--out", "asked.json", "--force", folder=self.net)
        self.assertEqual(done.returncode, 0, done.stderr)

    def steps(self, *words: str) -> subprocess.CompletedProcess[str]:
        return tool(
            "repair-steps", "asked.json", "--out", ".new", "--proof", "cert", "--after", "after.json", "--arcv",
            program(), *words, folder=self.net,
        )

    def status(self, *words: str) -> int:
        return run_arcv(program(), words, self.net).status


@HAS
class Steps(Generated):
    def test_cheapest(self) -> None:
        self.policies(
            "10.1.0.0/24 never reaches 10.4.0.0/24\n10.2.0.0/24 never reaches 10.5.0.0/24\n10.1.0.0/24 reaches "
            "10.2.0.0/24 survives 1\n"
        )
        done = self.steps()
        self.assertEqual(done.returncode, 0, done.stderr)
        self.assertIn("The cheapest repair costs 2: 2 edits.", done.stdout)
        self.assertRegex(
            done.stderr,
            r"price at most 1, 2,000 conflicts: none \([0-9.]+ s\)\nprice at most 2, 2,000 conflicts: repaired, it "
            r"costs 2",
        )
        self.assertEqual(
            (
                self.status("check", "asked.json", "cert"), self.status("verify", "after.json"),
                self.status("verify", "asked.json"),
            ),
            (0, 0, 1),
        )
        again = self.steps()
        self.assertEqual(again.returncode, 2)
        self.assertIn("--force", again.stderr)

    def test_nothing_to_mend(self) -> None:
        self.policies("10.1.0.0/24 reaches 10.2.0.0/24 survives 1\n")
        done = self.steps("--json")
        self.assertEqual((done.returncode, json.loads(done.stdout)["price"]), (0, 0))

    def test_no_price_is_enough(self) -> None:
        self.policies("10.1.0.0/24 never reaches 10.4.0.0/24\n10.2.0.0/24 never reaches 10.5.0.0/24\n")
        done = self.steps("--max-price", "1")
        self.assertEqual(done.returncode, 1)
        self.assertIn("No edits that cost at most 1 are enough", done.stdout)
        self.assertEqual(self.status("check", "asked.json", "cert"), 0)

    def test_by_parts(self) -> None:
        self.policies(
            "a: everyone never reaches 10.4.0.0/24\n10.1.0.0/24 reaches 10.2.0.0/24 survives 1 both "
            "ways\n10.5.0.0/24 reaches 10.6.0.0/24 survives 1\n"
        )
        done = self.steps("--conflicts", "8")
        self.assertEqual(done.returncode, 0, done.stderr)
        self.assertIn("repaired by parts", done.stderr)
        self.assertIn("It is not shown to be the cheapest.", " ".join(done.stdout.split()))
        bounds = re.search(
            r"It costs (\d+). The least price is at least (\d+) and at most (\d+).", " ".join(done.stdout.split())
        )
        assert bounds
        price, least, most = (int(number) for number in bounds.groups())
        edits = read(os.path.join(self.net, "cert.edits")).strip().split("\n")
        self.assertEqual((price, most), (len(edits), price))
        self.assertLessEqual(least, most)
        self.assertEqual(self.status("verify", "after.json"), 0)
        files = {name: read(os.path.join(self.net, name)) for name in os.listdir(self.net) if name.endswith(".new")}
        self.assertEqual(self.status("apply", "asked.json", "cert.edits", "--out", ".again"), 0)
        self.assertEqual(
            files,
            {
                name.replace(".again", ".new"): read(os.path.join(self.net, name))
                for name in os.listdir(self.net) if name.endswith(".again")
            },
        )
        if os.path.exists(os.path.join(self.net, "cert")):
            self.assertEqual(self.status("check", "asked.json", "cert"), 0)

    def test_no_sessions(self) -> None:
        self.policies("everyone never reaches 10.4.0.0/24\n10.4.0.0/24 never reaches everyone\n")
        done = self.steps("--no-sessions")
        self.assertEqual(done.returncode, 0, done.stderr)
        self.assertNotIn("adjacency at", done.stdout)
        self.assertEqual(
            (self.status("check", "asked.no-sessions.json", "cert"), self.status("verify", "after.json")), (0, 0)
        )

    def test_what_cannot_be_repaired_is_said(self) -> None:
        self.policies("10.1.0.0/24 reaches 10.4.0.0/24 survives 5\n10.2.0.0/24 never reaches 10.5.0.0/24\n")
        done = self.steps("--max-price", "4")
        self.assertEqual(done.returncode, 1)
        self.assertIn("Not repaired: policies 1, 2 of 2 policies", " ".join(done.stdout.split()))

    def test_a_file_that_is_read_is_not_written(self) -> None:
        self.policies("10.2.0.0/24 never reaches 10.5.0.0/24\n")
        done = tool(
            "repair-steps", "asked.json", "--out", ".new", "--proof", "./r1.cfg", "--arcv", program(), "--force",
            folder=self.net,
        )
        self.assertEqual(done.returncode, 2)
        self.assertIn("is read", done.stderr)


@HAS
class Limits(WithFolder):
    def test_too_many_edits(self) -> None:
        net = self.path("net")
        subprocess.run([os.path.join(EXAMPLES, "generated", "make"), "14", net], check=True, stdout=subprocess.DEVNULL)
        self.write(
            "net/text",
            "10.1.0.0/24 never reaches 10.8.0.0/24\nall pairs survive 1 except 10.1.0.0/24 to 10.8.0.0/24\n",
        )
        tool("policies", "text", "net.json", "--out", "asked.json", folder=net)
        words = ("asked.json", "--out", ".new", "--proof", "cert", "--after", "after.json", "--arcv", program())
        done = tool("repair-steps", *words, folder=net)
        self.assertEqual(done.returncode, 0, done.stderr)
        self.assertIn("limit edits", done.stderr)
        self.assertIn("leaving out", done.stderr)
        self.assertEqual(run_arcv(program(), ["verify", "after.json"], net).status, 0)


@HAS
class Joining(Generated):
    def test_edits_of_rounds_are_edits_of_the_whole(self) -> None:
        self.policies("10.1.0.0/24 never reaches 10.4.0.0/24\n10.1.0.0/25 reaches 10.2.0.0/24 survives 1\n")
        whole = trial_of(
            program(), read_document(os.path.join(self.net, "asked.json")), os.path.join(self.net, "asked.json")
        )
        self.assertEqual({one[0] for one in classes_of(whole)}, {"10.1.0.0/25", "10.1.0.128/25"})
        wide = parse_edit("edit packet r1 interface GigabitEthernet0/0 10.1.0.0/24 10.4.0.0/24")
        edits = joined([([wide], whole.texts)], whole)
        self.assertEqual([edit.source for edit in edits], ["10.1.0.0/25", "10.1.0.128/25"])
        written, refused = whole.apply(edits)
        self.assertEqual((list(written), refused), (["r1.cfg"], ""))
        self.assertEqual(not_yes(whole.over(texts={**whole.texts, **written}).verify()), [])
        twice = parse_edit("edit packet r1 list ARC-1 10.1.0.0/25 10.4.0.0/24")
        edits = joined([([wide], whole.texts), ([twice], {**whole.texts, **written})], whole)
        self.assertEqual(
            [edit.line() for edit in edits], ["edit packet r1 interface GigabitEthernet0/0 10.1.0.128/25 10.4.0.0/24"]
        )
        with self.assertRaises(Wrong):
            joined(
                [([parse_edit("edit packet r1 interface GigabitEthernet0/0 10.9.0.0/24 10.4.0.0/24")], whole.texts)],
                whole,
            )


class WithoutProgram(WithFolder):
    """What is said where the program does something else."""

    def fake(self, script: str) -> str:
        path = self.write("arcv", "#!/bin/sh\n" + script)
        os.chmod(path, stat.S_IRWXU)
        return path

    def test_a_refusal_is_told(self) -> None:
        self.lay("office")
        done = tool(
            "repair-steps", "net.json", "--out", ".new", "--proof", "cert", "--arcv",
            self.fake("echo 'refused 1.cfg 6 unknown-line'; exit 5\n"), folder=self.folder,
        )
        self.assertEqual(done.returncode, 2)
        self.assertIn("refused hq.cfg 6 unknown-line", done.stderr)
        self.assertFalse(os.path.exists(self.path("cert")))

    def test_a_failure_is_told(self) -> None:
        self.lay("office")
        done = tool(
            "repair-steps", "net.json", "--out", ".new", "--proof", "cert", "--arcv",
            self.fake("echo 'no more memory' >&2; exit 8\n"), folder=self.folder,
        )
        self.assertEqual(done.returncode, 2)
        self.assertIn("no more memory", done.stderr)

    def test_ctrl_c_leaves_what_is_known(self) -> None:
        self.lay("office")
        script = 'case "$*" in *"--max-price 1 "*) echo "none 1"; echo "wrote cert"; printf "arc-repair 1\\nanswer none 1\\nlog\\nend\\n" > cert; exit 2 ;; esac\nkill -INT $PPID; sleep 5; exit 3\n'
        done = tool(
            "repair-steps", "net.json", "--out", ".new", "--proof", "cert", "--arcv", self.fake(script),
            folder=self.folder,
        )
        self.assertEqual(done.returncode, 130)
        self.assertIn("No edits that cost at most 1 are enough: cert is the proof.", done.stderr)
        self.assertEqual(read_text(read(self.path("cert"))).numbers, (1,))
        self.assertFalse([name for name in os.listdir(self.folder) if name.endswith(".new")])


if __name__ == "__main__":
    unittest.main()
