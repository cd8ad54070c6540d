"""Texts of arcv are read as they are printed, and others are told with their line."""
import os
import unittest

from ops.documents import document_text, parse_document, span_words
from ops.commands import Wrong
from ops.reports import parse_edit, read_edits, read_report, read_text
from ops.tests.given import CASES, EXAMPLES, cases, read


class Texts(unittest.TestCase):
    def test_every_recorded_answer_is_read(self) -> None:
        read_forms = set()
        for case in cases():
            path = os.path.join(CASES, case, "stdout")
            if os.path.exists(path) and read(path) and not read(path).startswith(("usage", "s ", "generated", "wrote")):
                with self.subTest(case):
                    read_forms.add(read_text(read(path)).form)
        forms = {"report", "recheck", "nodes", "prefers", "trace", "repair", "rejected", "accepted", "refused"}
        self.assertEqual(read_forms & forms, forms)

    def test_every_certificate_of_a_repair_is_read(self) -> None:
        seen = 0
        for case in cases():
            path = os.path.join(CASES, case, "after", "cert")
            if os.path.exists(path):
                text = read_text(read(path))
                self.assertEqual(text.form, "certificate")
                self.assertEqual(
                    [edit.line() for edit in text.edits],
                    [line for line in read(path).split("\n") if line.startswith("edit ")],
                )
                seen += 1
        self.assertGreater(seen, 3)

    def test_answer_and_witness(self) -> None:
        blocks = read_report(read(os.path.join(EXAMPLES, "square", "report.txt")))
        self.assertEqual(
            [(block.number, block.kind, block.answer) for block in blocks],
            [(1, "reach", "yes"), (2, "reach", "no"), (3, "blocked", "no")],
        )
        self.assertEqual(blocks[1].lines, (("cut", "1", "3"), ("side", "west")))

    def test_recheck(self) -> None:
        text = read_text(read(os.path.join(EXAMPLES, "square", "recheck.txt")))
        self.assertEqual([block.mark for block in text.blocks], ["kept"] * 3)
        self.assertEqual(text.alone, {1: (), 2: ()})

    def test_wrong_texts_name_their_line(self) -> None:
        for text, line in (("", 1), ("hello\n", 1), ("arc-report 1\n1 reach yes 2\npath 1\n", 4), ("arc-report 1\n1 reach maybe 0\nend\n", 2),
                           ("arc-report 1\nend\nend\n", 2), ("arc-nodes 1\n", 2), ("arc-repair 1\nanswer what 1\n", 2), ("edit nothing\n", 1)):
            with self.subTest(text), self.assertRaisesRegex(ValueError, f"^line {line}: "):
                read_text(text)

    def test_edits(self) -> None:
        for line in ("edit session r1 Serial0/0", "edit route r1 list PL 10.1.0.0/24", "edit route r1 neighbor 10.0.0.1 10.1.0.0/24",
                     "edit packet r1 list F 10.1.0.0/24 10.2.0.0/24 service:6.23-6.23", "edit packet r1 interface Gi0/0 10.1.0.0/24 10.2.0.0/24"):
            self.assertEqual(parse_edit(line).line(), line)
        self.assertEqual(read_edits("").edits, [])
        with self.assertRaises(ValueError):
            read_edits("accepted\n")


class Documents(unittest.TestCase):
    def test_examples_are_read_and_written(self) -> None:
        for name in sorted(os.listdir(EXAMPLES)):
            path = os.path.join(EXAMPLES, name, "net.json")
            if os.path.exists(path):
                document = parse_document(read(path))
                self.assertEqual(parse_document(document_text(document)), document)

    def test_wrong_documents(self) -> None:
        good = '{"version": 1, "routers": ["a"], "links": [], "policies": [%s]}'
        for policy, says in (('{"kind": "reach", "from": "10.1.0.0/24", "to": "10.2.0.0/24"}', "failures"), ('{"kind": "blocked", "from": "10.1.0.1/24", "to": "10.2.0.0/24"}', "no prefix"),
                             ('{"kind": "open"}', "kind"), ("3", "policy 1"), ('{"kind": "blocked", "from": "10.1.0.0/24", "to": "10.2.0.0/24", "port": 22}', "port")):
            with self.subTest(policy), self.assertRaisesRegex(Wrong, says):
                parse_document(good % policy)
        for text in (
            "", "[]", "{}", "{", '{"version": 1, "routers": [], "links": [], "policies": []}',
            '{"version": 1, "routers": "a", "links": [], "policies": []}',
        ):
            with self.subTest(text), self.assertRaises(Wrong):
                parse_document(text)

    def test_services(self) -> None:
        words = {"service:6.22-6.22": "TCP 22", "service:6.0-6.65535": "TCP", "service:17.1-17.9": "UDP 1 to 9", "service:18.0-255.65535": "protocols 18 to 255",
                 "service:6.443": "TCP 443", "service:1.0-1.65535": "ICMP"}
        for word, says in words.items():
            self.assertEqual(span_words(word), says)


if __name__ == "__main__":
    unittest.main()
