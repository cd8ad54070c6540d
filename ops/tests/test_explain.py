"""Texts of arcv in words: noes first, names in place of numbers, the sum at the end."""
import json
import os
import unittest
from xml.etree import ElementTree

from ops.explain import Teller
from ops.reports import Block, read_report
from ops.tests.given import CASES, EXAMPLES, WithFolder, read, tool
from ops.wording import PlainNames
from ops.documents import read_document

SQUARE = """\
2. 10.1.0.0/24 reaches 10.4.0.0/24 whichever 2 links fail: NO
    With these 2 links failed no route is left:
      link 1: west GigabitEthernet0/1 - north GigabitEthernet0/1
      link 3: west GigabitEthernet0/2 - south GigabitEthernet0/1
    Cut off with the source: west.

3. 10.2.0.0/24 never reaches 10.4.0.0/24: NO
    Packets from 10.2.0.0/24 to 10.4.0.0/24 are delivered, with every other link
    failed, by
      north GigabitEthernet0/1 > west GigabitEthernet0/2 > south
        GigabitEthernet0/2 > east

1. 10.1.0.0/24 reaches 10.4.0.0/24 whichever link fails: yes
    There are 2 ways, of which no two share a link:
      west GigabitEthernet0/1 > north GigabitEthernet0/2 > east
      west GigabitEthernet0/2 > south GigabitEthernet0/2 > east

2 no, 0 not answered, 1 yes: 3 policies
"""


def example(name: str, *words: str) -> tuple[int, str]:
    folder = os.path.join(EXAMPLES, name)
    done = tool("explain", "net.json", *words, folder=folder)
    if done.stderr:
        raise AssertionError(done.stderr)
    return done.returncode, done.stdout


class Reports(unittest.TestCase):
    def test_text(self) -> None:
        self.assertEqual(example("square", "report.txt"), (1, SQUARE))

    def test_the_status_is_that_of_the_answers(self) -> None:
        done = tool(
            "explain", "net.json", "-", folder=os.path.join(EXAMPLES, "office"),
            given="arc-report 1\n1 reach yes 2\npath 1\npath 2\nend\n",
        )
        self.assertEqual(done.returncode, 0)

    def test_lines_fit_a_terminal(self) -> None:
        for name in ("office", "square", "branch", "triangle", "services", "campus", "edge"):
            _, text = example(name, "report.txt")
            self.assertLessEqual(max(len(line) for line in text.split("\n")), 80)

    def test_noes_come_first_and_all_are_counted(self) -> None:
        for name in ("branch", "campus", "edge", "triangle"):
            blocks = read_report(read(os.path.join(EXAMPLES, name, "report.txt")))
            _, text = example(name, "report.txt", "--json")
            value = json.loads(text)
            order = [answer["answer"] for answer in value["answers"]]
            self.assertEqual(order, sorted(order, key=["no", "refused", "yes"].index))
            self.assertEqual(
                sorted(answer["number"] for answer in value["answers"]), [block.number for block in blocks]
            )
            self.assertEqual(sum(value["sum"].values()), len(blocks))

    def test_lists_at_the_ends_are_named(self) -> None:
        folder = os.path.join(EXAMPLES, "office")
        given = "arc-report 1\n3 blocked yes 0\nend\n".replace(
            "3 blocked yes 0", "1 reach no 1\ndenied 10.20.0.0/24 10.1.0.0/24"
        )
        text = tool("explain", "net.json", "-", folder=folder, given=given).stdout
        self.assertIn("list GUESTS, in at GigabitEthernet0/2 of warehouse", " ".join(text.split()))

    def test_other_texts(self) -> None:
        says = {
            "nodes.txt": "whichever router fails: yes", "prefers.txt": "arrive by other routers",
            "trace.txt": "west, at distance 20", "recheck.txt": "NO (kept)",
        }
        for name, words in says.items():
            self.assertIn(words, example("square", name)[1])
        self.assertIn(
            "from 10.1.0.0/24 to 10.4.0.0/24 arrive",
            example("square", "nodes.txt", "--ends", "10.1.0.0/24", "10.4.0.0/24")[1],
        )

    def test_another_network_s_report(self) -> None:
        done = tool(
            "explain", "net.json", os.path.join(EXAMPLES, "campus", "report.txt"),
            folder=os.path.join(EXAMPLES, "square"),
        )
        self.assertEqual(done.returncode, 2)
        self.assertIn("is it the report of another", " ".join(done.stderr.split()))

    def test_a_way_of_which_the_begin_is_not_known(self) -> None:
        document = read_document(os.path.join(EXAMPLES, "square", "net.json"))
        block = Block(1, "blocked", "no", (("walk", "10.1.0.0/24", "10.4.0.0/24", "service:6.22-6.22", "1", "2"),))
        words = " ".join(Teller(PlainNames(document), None).witness(document.policies[0], block))
        self.assertIn("Packets from 10.1.0.0/24 to 10.4.0.0/24, TCP 22 are delivered", words)
        self.assertIn("link 1: west GigabitEthernet0/1 - north GigabitEthernet0/1; link 2:", words)


class Forms(unittest.TestCase):
    def test_junit(self) -> None:
        root = ElementTree.fromstring(example("branch", "report.txt", "--junit")[1])
        self.assertEqual((root.get("tests"), root.get("failures"), root.get("errors")), ("4", "1", "1"))
        self.assertEqual(len(root.findall("./testsuite/testcase/failure")), 1)

    def test_html_needs_no_other_file(self) -> None:
        text = example("square", "report.txt", "--html")[1]
        self.assertEqual(text.count("<svg "), 3)
        body = text[text.index("<html") :].replace("&middot;", "")
        ElementTree.fromstring(body.replace('<meta charset="utf-8">', "").replace(" class=inner", ""))
        for word in ("<script", "src=", "href=", "url("):
            self.assertNotIn(word, text)

    def test_drawings_are_those_of_the_repository(self) -> None:
        done = tool("draw", "net.json", "report.txt", "2", folder=os.path.join(EXAMPLES, "square"))
        self.assertEqual(done.returncode, 0)
        ElementTree.fromstring(done.stdout)
        self.assertEqual(done.stdout.count('class="cut"'), 2)


class Rejections(WithFolder):
    def test_policy_and_line(self) -> None:
        self.lay("office")
        done = tool("explain", "net.json", "report.txt", "--rejected", "9", "form", folder=self.folder)
        self.assertEqual(done.returncode, 1)
        self.assertIn("It is of policy 3.", done.stdout)
        self.assertIn("It is line 1 of the 1 lines of its witness.", done.stdout)
        done = tool("explain", "net.json", "report.txt", "--rejected", "2", "witness", folder=self.folder)
        self.assertIn("is answered yes in line 2.\n    path 1\n    path 2\n", done.stdout)

    def test_step_of_a_log(self) -> None:
        case = os.path.join(CASES, "check/repair-accepted", "store")
        text = read(os.path.join(case, "cert"))
        line = text.split("\n").index("log") + 2
        done = tool("explain", "net.json", "cert", "--rejected", str(line), "hint-not-unit", folder=case)
        self.assertIn("step of the log", done.stdout)
        self.assertIn("1 edit at the price of 1 is enough", tool("explain", "net.json", "cert", folder=case).stdout)


if __name__ == "__main__":
    unittest.main()
