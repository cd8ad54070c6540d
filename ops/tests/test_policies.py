"""A text of policies becomes the policies that it says, and a wrong one is told with its line."""
import json
import unittest

from ops.documents import Policy, read_document
from ops.policies import silent_pairs
from ops.statements import first_policies, read_policies
from ops.tests.given import WithFolder, read, tool

NETWORKS = {"staff": "10.1.0.0/24", "guests": "10.2.0.0/24", "servers": "10.3.0.0/24"}


def said(text: str) -> list[tuple[str, Policy]]:
    return [(one.name, one.policy) for one in read_policies(text, NETWORKS)]


class Statements(unittest.TestCase):
    def test_each_form(self) -> None:
        a, b, c = NETWORKS.values()
        forms = {
            "x: guests never reach servers tcp": [("x", Policy("blocked", b, c, None, "tcp"))],
            "servers reach staff survives 1": [("", Policy("reach", c, a, 1))],
            "servers reaches staff udp 53": [("", Policy("reach", c, a, 0, "udp", 53))],
            "staff reach servers only through waypoints": [("", Policy("through", a, c))],
            "10.1.0.0/25 never reaches guests protocol 47": [("", Policy("blocked", "10.1.0.0/25", b, None, 47))],
            "w: staff reach guests survives 2 both ways": [("w.1", Policy("reach", a, b, 2)), ("w.2", Policy("reach", b, a, 2))],
            "group g = staff, guests\ng never reach servers": [("", Policy("blocked", a, c)), ("", Policy("blocked", b, c))],
            "everyone reach servers": [("", Policy("reach", a, c, 0)), ("", Policy("reach", b, c, 0))],
            "all pairs survive 1 except guests, staff to servers": [("", Policy("reach", c, a, 1))],
            "# nothing\n\n": [],
        }
        for text, policies in forms.items():
            with self.subTest(text):
                self.assertEqual(said(text), policies)

    def test_packets_and_waypoints(self) -> None:
        one, two = read_policies(
            "staff never reach servers tcp opening\nt: guests reach servers only through fw r1:Gi0/1 tcp 80", NETWORKS
        )
        self.assertEqual((one.packets, two.waypoints, two.policy.port), ("opening", ("fw", "r1:Gi0/1"), 80))

    def test_all_pairs_and_first_policies(self) -> None:
        self.assertEqual(len(said("all pairs survive 1")), 6)
        self.assertEqual(len(said("all pairs survive 1 except staff and guests")), 4)
        self.assertEqual(len(said(first_policies(NETWORKS))), 6)

    def test_the_same_policy_counts_once(self) -> None:
        self.assertEqual(len(said("a: staff reach servers survives 1\nall pairs survive 1")), 6)

    def test_wrong_texts(self) -> None:
        wrong = {
            "staff reach nobody": "line 1: no network or group is named nobody", "\nstaff servers": "line 2: ", "staff reach servers survives 17": "from 0 to 16",
            "staff reach staff": "one network", "group staff = 10.9.0.0/24": "named already", "group x 10.9.0.0/24": "a group is",
            "staff reach servers tcp 70000": "65535", "staff never reach servers survives 1": "cannot come", "staff reach servers only through": "names waypoints",
            "staff reach servers tcp tcp": "cannot come|twice", "all pairs survive": "all pairs", "all pairs survive 1 but guests": "cannot come",
            "staff never reach servers tcp\nstaff reach servers": "line 2: it contradicts line 1", "a: staff reach servers\na: guests reach servers": "already",
            "10.1.0.1/24 reach servers": "no prefix", "x!: staff reach servers": "no name", "staff reach servers protocol 0": "1 to 255",
        }
        for text, says in wrong.items():
            with self.subTest(text), self.assertRaisesRegex(ValueError, says):
                read_policies(text, NETWORKS)

    def test_pairs_that_nobody_asks_about(self) -> None:
        a, b, c = NETWORKS.values()
        found = silent_pairs(
            NETWORKS, [Policy("blocked", a, b), Policy("reach", a, c, 0, "tcp", 22), Policy("blocked", b, a)]
        )
        self.assertEqual(
            found,
            [
                ("staff", "servers", "TCP 22"), ("guests", "servers", ""), ("servers", "staff", ""),
                ("servers", "guests", ""),
            ],
        )


class Command(WithFolder):
    def test_document_and_names(self) -> None:
        self.lay("office")
        self.write("names.json", json.dumps({"10.1.0.0/24": "servers", "10.2.0.0/24": "staff"}))
        self.write("text", "pci-3: 10.20.0.0/24 never reach servers\nstaff reach servers survives 1\n")
        done = tool("policies", "text", "net.json", "--out", "new.json", folder=self.folder)
        self.assertEqual((done.returncode, done.stderr), (0, ""))
        self.assertIn("2 policies\nwrote new.json\nwrote new.names.json\n", done.stdout)
        self.assertIn("servers to staff, 10.20.0.0/24", done.stdout)
        self.assertEqual(len(read_document(self.path("new.json")).policies), 2)
        self.assertEqual(json.loads(read(self.path("new.names.json")))["policies"], ["pci-3", ""])
        again = tool("policies", "text", "net.json", "--out", "new.json", folder=self.folder)
        self.assertEqual(again.returncode, 2)
        report = "arc-report 1\n1 blocked yes 1\nclosed 10.20.0.0/24 10.1.0.0/24\n2 reach no 1\ndenied 10.2.0.0/24 10.1.0.0/24\nend\n"
        words = tool("explain", "new.json", "-", folder=self.folder, given=report).stdout
        self.assertIn("1. pci-3: 10.20.0.0/24 never reaches servers (10.1.0.0/24): yes", words)
        self.assertIn("2. staff (10.2.0.0/24) reaches servers (10.1.0.0/24) whichever link fails", words)

    def test_waypoints(self) -> None:
        self.lay("square")
        self.write("text", "10.1.0.0/24 reach 10.4.0.0/24 only through north\n")
        self.assertEqual(tool("policies", "text", "net.json", "--out", "new.json", folder=self.folder).returncode, 0)
        self.assertEqual(
            [link.waypoint for link in read_document(self.path("new.json")).links], [True, True, False, False]
        )
        self.write("text", "10.1.0.0/24 reach 10.4.0.0/24 only through nowhere\n")
        self.assertIn("no link ends at nowhere", tool("policies", "text", "net.json", folder=self.folder).stderr)


    def test_several_documents(self) -> None:
        self.lay("square")
        self.write(
            "text",
            "10.1.0.0/24 reach 10.4.0.0/24 only through north\n10.1.0.0/24 reach 10.2.0.0/24\n10.1.0.0/24 reach "
            "10.4.0.0/24 only through south\n",
        )
        done = tool("policies", "text", "net.json", "--out", "new.json", folder=self.folder)
        self.assertIn("wrote new-2.json\n", done.stdout)
        one, two = (read_document(self.path(name)) for name in ("new.json", "new-2.json"))
        self.assertEqual(
            [[link.waypoint for link in document.links] for document in (one, two)],
            [[True, True, False, False], [False, False, True, True]],
        )
        self.assertEqual([len(document.policies) for document in (one, two)], [2, 1])
        ports = "\n".join(f"10.1.0.0/24 never reach 10.4.0.0/24 tcp {port}" for port in range(1, 301))
        self.write("many", ports + "\n")
        done = tool("policies", "many", "net.json", "--out", "many.json", folder=self.folder)
        self.assertEqual(
            [len(read_document(self.path(name)).policies) for name in ("many.json", "many-2.json")], [256, 44]
        )


if __name__ == "__main__":
    unittest.main()
