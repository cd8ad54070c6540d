"""Each row of the table acts on its example, and on nothing that is of another row."""
import os
import re
import unittest

from ops import captures, ios, processes, routers, rules
from ops.tests.given import TOP, WithFolder, read

TABLE = rules.table(None)
ROWS = TABLE.levels[1]


def capture(*lines: str) -> captures.Capture:
    text = "\n".join(["version 15.2", "hostname r1", *lines, "end", ""])
    return captures.strip("r1.cfg", text.encode())


def notes_of(row: rules.Row) -> list[rules.Note]:
    """What is noted of a file with the example of a row in its place."""
    if row.where == "interface":
        router = routers.read(capture("interface GigabitEthernet0/0", " ip address 10.0.0.1 255.255.255.0", f" {row.example}"), TABLE)
        return router.faces[0].notes
    if row.where in ("top", "block"):
        return routers.read(capture(row.example, " inner line"), TABLE).notes if row.where == "block" else routers.read(capture(row.example), TABLE).notes
    kind = row.where if row.where in ("ospf", "bgp") else "bgp" if row.words[0] in ("neighbor", "bgp") or row.words == ("timers", "bgp") else "ospf"
    router = routers.read(capture(f"router {kind} 1", f" {row.example}"), TABLE)
    return (processes.bgp if kind == "bgp" else processes.ospf)(router, router.processes[0], TABLE).notes


def inert_of(file: str) -> set[tuple[str, ...]]:
    """The words of the lines that the program reads and says nothing of, by its source; of rows with other parts those of neighbours."""
    text = read(os.path.join(TOP, "crates", "ios_words", "src", file))
    found = re.findall(r"inert!\(([^)]*)\)", text) + re.findall(r'row!\(Inert:\s*(Word\(b"neighbor"\).*?)Anything', text, re.S)
    return {tuple(re.findall(r'b"([^"]*)"', words)) for words in found}


class EachRow(unittest.TestCase):
    def test_has_a_reason_an_example_and_a_cost(self) -> None:
        for row in ROWS:
            with self.subTest(row=row.words):
                self.assertTrue(row.reason and row.example)
                self.assertIn(row.cost, rules.LOSES)
                self.assertTrue(ios.begins(ios.words_of(row.example), row.words), row.example)

    def test_is_found_for_its_example(self) -> None:
        for row in ROWS:
            with self.subTest(row=row.words):
                places = ("top", "block") if row.where in ("top", "block") else ("process", row.where) if row.where != "process" else ("process",)
                found = TABLE.find(places, ios.words_of(row.example))
                self.assertEqual(found, row)

    def test_acts_in_a_file(self) -> None:
        for row in ROWS:
            if row.cost == "inert":
                continue
            with self.subTest(row=row.words):
                found = [note for note in notes_of(row) if note.text == row.example]
                self.assertEqual([(note.cost, note.reason) for note in found], [(row.cost, row.reason)])

    def test_inert_rows_are_those_of_the_program(self) -> None:
        for file, places in (("top_rows.rt", ("top", "block")), ("interface_rows.rt", ("interface",)), ("block_rows.rt", ("process", "ospf", "bgp"))):
            with self.subTest(file):
                self.assertEqual({tuple(word for word in row.words if word != "*") for row in ROWS if row.cost == "inert" and row.where in places},
                                 inert_of(file))

    def test_stands_once(self) -> None:
        keys = [(row.where, row.words) for row in ROWS]
        self.assertEqual(sorted(key for key in set(keys) if keys.count(key) > 1), [])

    def test_nothing_that_changes_packets_is_left_out(self) -> None:
        for line in ("ip nat inside", "ip inspect FW out", "crypto map VPN", "bridge-group 1", "xconnect 10.0.0.1 1 encapsulation mpls",
                     "ip wccp web-cache redirect in", "utd enable"):
            self.assertEqual(TABLE.judge(("interface",), ios.words_of(line)).cost, "passes", line)
        for line in ("ip verify unicast reverse-path", "zone-member security IN", "rate-limit input 1 1 1 conform-action drop exceed-action drop"):
            self.assertEqual(TABLE.judge(("interface",), ios.words_of(line)).cost, "drops", line)
        for line in ("ip policy route-map X", "tunnel source Loopback0"):
            self.assertEqual(TABLE.judge(("interface",), ios.words_of(line)).cost, "routes", line)


class RowsOfOnesOwn(WithFolder):
    def test_count_before_the_others(self) -> None:
        path = self.write("rows.txt", "# ours\ninterface | ip nat | nothing | only to the Internet, said by N.N.\n")
        table = rules.table(path)
        self.assertEqual(table.judge(("interface",), ("ip", "nat", "outside")).cost, "nothing")
        self.assertEqual(table.judge(("interface",), ("ip", "inspect", "FW", "in")).cost, "passes")

    def test_wrong_rows_are_told_with_their_line(self) -> None:
        for text, part in (("interface | ip nat", "four or five"), ("elsewhere | a | nothing | b", "no place"), ("top | a | cheap | b", "no cost"),
                           ("top | a | unknown | b", "no cost"), ("top |  | nothing | b", "words and a reason")):
            path = self.write("rows.txt", f"\n{text}\n")
            with self.assertRaisesRegex(ValueError, f"rows.txt:2: .*{part}"):
                rules.table(path)

    def test_a_line_that_no_row_knows_costs_every_kind(self) -> None:
        row = TABLE.judge(("top", "block"), ("wonderful", "feature"))
        note = rules.Note("r1.cfg", 1, "", "", row.cost, row.reason)
        self.assertEqual(set(note.loses()), {"reach", "blocked", "through"})
        self.assertTrue(os.path.exists(rules.PATH))
