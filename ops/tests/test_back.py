"""A repair of copies comes back onto the files as the routers printed them, each line in its place, or not at all."""
import os
import unittest

from ops.back import put_back
from ops.changes import changes_of
from ops.commands import Wrong
from ops.copies import Same
from ops.tests.given import CASES, EXAMPLES, WithFolder, pairs, read, tool
from ops.tests.meaning import meaning

ROUTER = """\
hostname r1
!
interface Vlan30
 ip address 10.1.0.1 255.255.255.0
 ip access-group GUESTS in
 standby 1 ip 10.1.0.254
!
interface GigabitEthernet0/1
 ip address 10.0.1.1 255.255.255.252
 ip helper-address 10.9.9.9
!
router ospf 1
 network 10.0.0.0 0.255.255.255 area 0
 area 0 authentication
!
ip access-list extended GUESTS
 permit tcp any any established
 permit ip any any
!
end
"""
COPY = """\
hostname r1
!
interface Ethernet101/30
 ip address 10.1.0.1 255.255.255.0
 ip access-group GUESTS in
!
interface GigabitEthernet0/1
 ip address 10.0.1.1 255.255.255.252
!
router ospf 1
 network 10.0.0.0 0.255.255.255 area 0
!
ip access-list extended GUESTS
 permit ip any any
!
end
"""


class Renamed(Same):
    def interface(self, router: str, name: str) -> str:
        return {"Ethernet101/30": "Vlan30"}.get(name, name)


def copy_with(old: str, new: str) -> str:
    return COPY.replace(old, new, 1)


class Back(unittest.TestCase):
    def test_of_the_file_itself(self) -> None:
        for case, before, after in pairs():
            with self.subTest(case):
                self.assertEqual(put_back(before, after, before, case, Same())[0], after)

    def test_entry_before_lines_that_the_copy_leaves_out(self) -> None:
        after, mine, notes = put_back(
            COPY, copy_with(" permit ip any any", " deny ip any host 10.2.0.9\n permit ip any any"), ROUTER, "r1",
            Renamed(),
        )
        self.assertIn(
            "GUESTS\n deny ip any host 10.2.0.9\n permit tcp any any established\n permit ip any any\n", after
        )
        self.assertEqual([entry.text for entry in mine.entries], ["deny ip any host 10.2.0.9"])
        self.assertIn("begins with another entry", notes[0])

    def test_binding_under_the_name_of_the_router(self) -> None:
        new = copy_with("255.255.255.252\n", "255.255.255.252\n ip access-group ARC-1 in\n").replace(
            "router ospf", "ip access-list extended ARC-1\n deny ip any host 10.2.0.9\n permit ip any any\n!\nrouter ospf")
        after, _, _ = put_back(COPY, new, ROUTER, "r1", Renamed())
        self.assertIn(" ip helper-address 10.9.9.9\n ip access-group ARC-1 in\n", after)
        self.assertIn(" permit ip any any\n!\nrouter ospf 1\n", after)

    def test_session_under_the_name_of_the_router(self) -> None:
        after, _, _ = put_back(
            COPY, copy_with(" area 0\n", " area 0\n passive-interface Ethernet101/30\n"), ROUTER, "r1", Renamed()
        )
        self.assertIn(" area 0 authentication\n passive-interface Vlan30\n!\n", after)

    def test_name_that_is_taken(self) -> None:
        new = copy_with("255.255.255.252\n", "255.255.255.252\n ip access-group ARC-1 in\n").replace(
            "router ospf", "ip access-list extended ARC-1\n deny ip any host 10.2.0.9\n permit ip any any\n!\nrouter ospf")
        taken = ROUTER.replace("end\n", "ip access-list extended ARC-1\n permit ip any any\n!\nend\n")
        after, mine, notes = put_back(COPY, new, taken, "r1", Renamed())
        self.assertEqual((mine.lists[0].name, mine.bindings[0].name), ("ARC-2", "ARC-2"))
        self.assertIn(" ip access-group ARC-2 in\n", after)
        self.assertIn("the new list is ARC-2", notes[0])

    def test_what_cannot_be_put_back(self) -> None:
        bind = copy_with("255.255.255.252\n", "255.255.255.252\n ip access-group ARC-1 in\n").replace(
            "router ospf", "ip access-list extended ARC-1\n deny ip any host 10.2.0.9\n permit ip any any\n!\nrouter ospf")
        entry = copy_with(" permit ip any any", " deny ip any host 10.2.0.9\n permit ip any any")
        wrong = {
            "inbound already": (bind, ROUTER.replace(" ip helper-address 10.9.9.9", " ip access-group OTHER in")),
            "is there 0 times": (bind, ROUTER.replace("GigabitEthernet0/1", "GigabitEthernet0/2")),
            "is there 2 times": (bind, ROUTER + "interface GigabitEthernet0/1\n"),
            "no list GUESTS": (entry, ROUTER.replace("extended GUESTS", "extended STAFF")),
            "does not keep the adjacency": (COPY.replace("area 0\n", "area 0\n no passive-interface GigabitEthernet0/1\n"), ROUTER),
            "is a standard list": (entry, ROUTER.replace("extended GUESTS\n permit tcp any any established\n permit ip any any", "standard GUESTS\n permit any")),
            "is not in the file after": (entry.replace(" permit ip any any\n", ""), ROUTER),
            "none that a repair writes": (copy_with("!\nrouter", "!\nip route 0.0.0.0 0.0.0.0 10.0.1.2\n!\nrouter"), ROUTER),
        }
        for says, (new, original) in wrong.items():
            with self.subTest(says), self.assertRaisesRegex(Wrong, says):
                put_back(COPY, new, original, "r1", Renamed())

    def test_no_adjacency_of_an_open_copy(self) -> None:
        """There it stops no packet in the network."""
        opened = Renamed()
        opened.kind = "open"
        down = COPY.replace("area 0\n", "area 0\n passive-interface Ethernet101/30\n")
        self.assertIn("passive-interface Vlan30", put_back(COPY, down, ROUTER, "r1", Renamed())[0])
        with self.assertRaisesRegex(Wrong, "turns the adjacency at Vlan30"):
            put_back(COPY, down, ROUTER, "r1", opened)

    def test_never_behind_what_permits_all(self) -> None:
        """Where the router's list has its entries in another order than the copy, nothing is written."""
        before = COPY.replace(" permit ip any any", " deny ip any host 10.2.0.8\n permit ip any any")
        after = before.replace(" deny ip any host 10.2.0.8", " deny ip any host 10.2.0.9\n deny ip any host 10.2.0.8")
        other = ROUTER.replace(
            " permit tcp any any established\n permit ip any any\n",
            " permit ip any any\n deny ip any host 10.2.0.8\n",
        )
        with self.assertRaisesRegex(Wrong, "before which it is in the copy"):
            put_back(before, after, other, "r1", Renamed())

    def test_a_file_after_that_is_not_of_a_repair(self) -> None:
        behind = COPY.replace(" permit ip any any", " permit ip any any\n deny ip any host 10.2.0.9")
        with self.assertRaisesRegex(Wrong, "not its new entries and then its old ones"):
            changes_of(COPY, behind, "r1")

    def test_line_ends_and_last_line(self) -> None:
        original = ROUTER.removesuffix("end\n").removesuffix("!\n").rstrip("\n").replace("\n", "\r\n")
        after, _, _ = put_back(
            COPY, copy_with(" permit ip any any", " deny ip any host 10.2.0.9\n permit ip any any"), original, "r1",
            Renamed(),
        )
        self.assertEqual(after.replace(" deny ip any host 10.2.0.9\r\n", ""), original)


class Quiet(WithFolder):
    """Recorded repairs of the quiet copies of two examples."""

    def back(self, example: str, case: str) -> None:
        self.lay(example)
        place = os.path.join(CASES, case, "after", "quiet")
        for name in os.listdir(place):
            self.write(os.path.join("quiet", name), read(os.path.join(place, name)))
        suffix = "." + name.rsplit(".", 1)[1]
        done = tool("back", "repair.json", "--copies", suffix, "--originals", ".", "--out", ".real", folder=self.folder)
        self.assertEqual((done.returncode, done.stderr), (0, ""), done.stdout)
        for name in os.listdir(place):
            original = name.removesuffix(suffix)
            before, after = read(os.path.join(EXAMPLES, example, original)), read(self.path(original + ".real"))
            real, copy = changes_of(before, after, name), changes_of(
                read(self.path("quiet/" + original)), read(self.path("quiet/" + name)), name
            )
            self.assertEqual(real.same(), copy.same())
            self.assertEqual(meaning(after), meaning(read(self.path("quiet/" + name))))
        again = tool(
            "back", "repair.json", "--copies", suffix, "--originals", ".", "--out", ".real", folder=self.folder
        )
        self.assertEqual(again.returncode, 2)

    def test_campus(self) -> None:
        self.back("campus", "repair/campus")

    def test_edge(self) -> None:
        self.back("edge", "repair/edge-that-arrives")


if __name__ == "__main__":
    unittest.main()
