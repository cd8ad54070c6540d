"""Commands that are entered make a router what the file after the repair says, and those that take them back what it
was."""
import random
import unittest

from ops.back import process_of, put_back, transfer
from ops.changes import Binding, Changes, NewEntry, NewList, Session, changes_of
from ops.copies import Same
from ops.enter import entered, goes_down, ordered, steps_of, taken_back
from ops.lists import blocks_of, lists_of, split
from ops.plan import Planned, uses
from ops.tests.given import WithFolder, pairs, tool
from ops.tests.ios_router import Refused, Router
from ops.tests.meaning import meaning

FILE = """\
hostname r1
!
interface GigabitEthernet0/0
 ip address 10.1.0.1 255.255.255.0
 ip access-group GUESTS in
!
interface GigabitEthernet0/1
 ip address 10.0.1.1 255.255.255.252
!
ip prefix-list FROM-B seq 5 permit 10.2.0.0/24
ip prefix-list FROM-B seq 10 permit 10.3.0.0/24
!
router bgp 65001
 neighbor 10.0.1.2 remote-as 65002
 neighbor 10.0.1.2 prefix-list FROM-B in
!
ip access-list extended GUESTS
{entries}
!
line vty 0 4
 access-class GUESTS in
end
"""
SHOWN = " 10 permit tcp any any eq www\n 20 deny tcp any host 10.1.0.9 eq telnet log\n 30 permit ip any any"


def row(before: str, after: str) -> Planned:
    changes = changes_of(before, after, "r1.cfg")
    return Planned(changes, before, after, uses(changes, before))


def try_out(test: unittest.TestCase, before: str, after: str, hidden: int = 7) -> list[str]:
    """Enters what `after` has more on a router, takes it back, and compares both times."""
    steps, down = steps_of(row(before, after)), goes_down(row(before, after))
    router = Router(before, hidden)
    lines = entered(steps, down)
    router.enter(lines)
    test.assertEqual(meaning(router.config()), meaning(after))
    test.assertFalse(router.reload)
    router.enter(taken_back(steps))
    test.assertEqual(meaning(router.config()), meaning(before))
    test.assertTrue(all(len(line) <= 80 for line in lines if line.startswith("!")))
    return lines


class Entered(unittest.TestCase):
    def test_recorded_repairs(self) -> None:
        self.assertGreater(len(pairs()), 10)
        for case, before, after in pairs():
            with self.subTest(case):
                try_out(self, before, after)

    def with_entries(self, entries: str, texts: list[str]) -> tuple[str, str]:
        before = FILE.format(entries=entries)
        mine = Changes("r1", "r1.cfg", [NewEntry(False, "GUESTS", text) for text in texts])
        return before, transfer(before, mine, "r1.cfg")

    def test_number_below_the_first(self) -> None:
        lines = try_out(self, *self.with_entries(SHOWN, ["deny icmp any any"]))
        self.assertIn("  5 deny icmp any any", lines)
        self.assertFalse([line for line in lines if "resequence" in line])

    def test_no_number_is_free(self) -> None:
        lines = try_out(
            self,
            *self.with_entries(SHOWN.replace("10 permit", "1 permit"), ["deny icmp any any", "deny udp any any"]),
        )
        self.assertIn(" ip access-list resequence GUESTS 30 10", lines)
        self.assertIn("  20 deny udp any any", lines)

    def test_numbers_that_the_file_does_not_show(self) -> None:
        bare = SHOWN.replace(" 10 ", " ").replace(" 20 ", " ").replace(" 30 ", " ")
        lines = try_out(self, *self.with_entries(bare, ["deny icmp any any"]), hidden=3)
        self.assertIn(" ip access-list resequence GUESTS 20 10", lines)

    def test_same_entry_further_down(self) -> None:
        lines = try_out(self, *self.with_entries(SHOWN, ["deny tcp any 10.1.0.9 0.0.0.0 eq 23"]))
        self.assertEqual(lines.index("  no 20") + 1, lines.index("  5 deny tcp any 10.1.0.9 0.0.0.0 eq 23"))

    def test_prefix_list_with_room(self) -> None:
        before = FILE.format(entries=SHOWN)
        after = transfer(before, Changes("r1", "r1.cfg", [NewEntry(True, "FROM-B", "deny 10.9.0.0/24")]), "r1.cfg")
        lines = try_out(self, before, after)
        self.assertIn(" ip prefix-list FROM-B seq 3 deny 10.9.0.0/24", lines)
        self.assertIn("clear ip bgp 10.0.1.2 soft in", lines)

    def test_prefix_list_with_the_same_prefix(self) -> None:
        before = FILE.format(entries=SHOWN)
        after = transfer(before, Changes("r1", "r1.cfg", [NewEntry(True, "FROM-B", "deny 10.3.0.0/24")]), "r1.cfg")
        lines = try_out(self, before, after)
        self.assertLess(
            lines.index(" ip prefix-list ARC-1 seq 10 permit 10.2.0.0/24"),
            lines.index("  neighbor 10.0.1.2 prefix-list ARC-1 in"),
        )

    def test_list_stands_before_it_is_bound(self) -> None:
        before = FILE.format(entries=SHOWN)
        mine = Changes(
            "r1", "r1.cfg", lists=[NewList(False, "ARC-1", ("deny ip any host 10.1.0.1", "permit ip any any"))]
        )
        mine.bindings = [Binding(False, "ARC-1", "GigabitEthernet0/1", "interface GigabitEthernet0/1")]
        lines = try_out(self, before, transfer(before, mine, "r1.cfg"))
        self.assertLess(lines.index("  20 permit ip any any"), lines.index("  ip access-group ARC-1 in"))

    def test_the_order_matters(self) -> None:
        before = FILE.format(entries=SHOWN)
        with self.assertRaises(Refused):
            Router(before).enter(["configure terminal", "interface GigabitEthernet0/1", "ip access-group ARC-1 in"])
        with self.assertRaises(Refused):
            Router(before).enter(["configure terminal", "ip access-list extended GUESTS", "10 deny icmp any any"])

    def test_address_family(self) -> None:
        before = FILE.format(entries=SHOWN).replace(
            " neighbor 10.0.1.2 prefix-list FROM-B in\n",
            " !\n address-family ipv4\n  neighbor 10.0.1.2 activate\n exit-address-family\n",
        )
        mine = Changes("r1", "r1.cfg", lists=[NewList(True, "ARC-1", ("deny 10.3.0.0/24", "permit 0.0.0.0/0 le 32"))])
        mine.bindings = [Binding(True, "ARC-1", "10.0.1.2", "router bgp 65001")]
        mine.sessions = [Session("10.0.1.2", "router bgp 65001", True)]
        after = transfer(before, mine, "r1.cfg")
        lines = try_out(self, before, after)
        self.assertIn("  address-family ipv4", lines)
        self.assertIn("reload in 10", lines)
        self.assertLess(after.index("neighbor 10.0.1.2 shutdown"), after.index("address-family"))
        self.assertLess(after.index("prefix-list ARC-1 in"), after.index("exit-address-family"))

    def test_other_uses_are_told(self) -> None:
        before, after = self.with_entries(SHOWN, ["deny icmp any any"])
        self.assertEqual(len([note for note in row(before, after).notes if "access-class GUESTS in" in note]), 1)

    def test_what_goes_down_comes_last(self) -> None:
        before = FILE.format(entries=SHOWN)
        down = transfer(
            before, Changes("r1", "r1.cfg", sessions=[Session("10.0.1.2", "router bgp 65001", True)]), "r1.cfg"
        )
        rows = [row(before, down), row(*self.with_entries(SHOWN, ["deny icmp any any"]))]
        self.assertEqual([goes_down(one) for one in ordered(rows)], [False, True])


class Random(unittest.TestCase):
    """Files and changes made at random."""

    def test_many(self) -> None:
        for seed in range(300):
            with self.subTest(seed=seed):
                dice = random.Random(seed)
                before = random_file(dice)
                after = transfer(before, random_changes(dice, before), "r1.cfg")
                try_out(self, before, after, dice.randrange(1, 20))
                again, mine, _ = put_back(before, after, before, "r1.cfg", Same())
                self.assertEqual(again, after)
                self.assertEqual(process_of(before), process_of(after))
                self.assertEqual(mine.same(), changes_of(before, after, "r1.cfg").same())


def random_entry(dice: random.Random) -> str:
    address = f"10.{dice.randrange(3)}.0.0 0.0.0.255"
    return f"{dice.choice(('permit', 'deny'))} {dice.choice(('ip', 'tcp', 'udp', 'icmp'))} {dice.choice(('any', address))} {dice.choice(('any', 'host 10.1.0.9'))}"


def random_file(dice: random.Random) -> str:
    """A file with lists in every form in which IOS prints them."""
    lines = ["hostname r1", "!"]
    for face in range(3):
        lines += [f"interface GigabitEthernet0/{face}", f" ip address 10.{face}.0.1 255.255.255.0"]
        lines += [f" ip access-group {('A', '110', 'C')[face]} in"] if dice.random() < 0.7 else []
        lines += [" ! a remark"] if dice.random() < 0.2 else []
        lines.append("!")
    number = 0
    for prefix in dict.fromkeys(f"10.{dice.randrange(9)}.0.0/24" for _ in range(3)):
        number += dice.randrange(1, 9)
        lines.append(f"ip prefix-list P seq {number} {dice.choice(('permit', 'deny'))} {prefix}")
    lines += ["!", "router ospf 1" if dice.random() < 0.5 else "router bgp 65001"]
    if "bgp" in lines[-1]:
        lines += [
            " neighbor 10.0.1.2 remote-as 65002", " neighbor 10.0.2.2 remote-as 65003",
            *([" neighbor 10.0.1.2 prefix-list P in"] if dice.random() < 0.5 else []),
        ]
    else:
        lines += [" passive-interface default", " no passive-interface GigabitEthernet0/1"]
    lines.append("!")
    texts = list(dict.fromkeys(random_entry(dice) for _ in range(5)))
    lines += [f"access-list 110 {text}" for text in texts]
    for name, shown in (("A", True), ("C", False)):
        lines += [f"ip access-list extended {name}", " remark first"]
        at = 0
        for text in dict.fromkeys(random_entry(dice) for _ in range(4)):
            at += dice.randrange(1, 12)
            lines.append(f" {at} {text}" if shown else f" {text}")
    return "\n".join([*lines, "!", "end", ""])


def random_changes(dice: random.Random, before: str) -> Changes:
    changes = Changes("r1", "r1.cfg")
    for name in dice.sample(["A", "C", "110"], dice.randrange(3)):
        first = meaning_of(before, name)
        fresh = list(dict.fromkeys(random_entry(dice) for _ in range(dice.randrange(1, 4))))
        changes.entries += [NewEntry(False, name, text) for text in fresh if text != first]
    if dice.random() < 0.5:
        changes.entries += [NewEntry(True, "P", f"deny 10.{dice.randrange(9)}.0.0/24 le 30")]
    free = next(
        (
            face
            for face in range(3)
            if f"GigabitEthernet0/{face}\n ip address 10.{face}.0.1 255.255.255.0\n ip access-group" not in before
        ),
        None,
    )
    if free is not None:
        changes.lists = [NewList(False, "ARC-1", ("deny ip any host 10.1.0.7", "permit ip any any"))]
        changes.bindings = [Binding(False, "ARC-1", f"GigabitEthernet0/{free}", f"interface GigabitEthernet0/{free}")]
    if "router bgp" in before:
        changes.sessions = [Session("10.0.1.2", "router bgp 65001", True)] if dice.random() < 0.5 else []
        if dice.random() < 0.5:
            name = f"ARC-{len(changes.lists) + 1}"
            changes.lists.insert(0, NewList(True, name, ("deny 10.1.0.0/24", "permit 0.0.0.0/0 le 32")))
            changes.bindings.append(Binding(True, name, "10.0.2.2", "router bgp 65001"))
    else:
        changes.sessions = [Session("GigabitEthernet0/1", "router ospf 1", True)] if dice.random() < 0.5 else []
    order = [name for name in ("110", "A", "C")]
    changes.entries.sort(key=lambda entry: (not entry.prefix, order.index(entry.name) if entry.name in order else -1))
    return changes


def meaning_of(before: str, name: str) -> str:
    """The first entry of a list: a repair never puts the same one before it."""
    listed = lists_of(blocks_of(split(before))).get((False, name))
    return listed.entries[0].text if listed and listed.entries else ""


class Command(WithFolder):
    def test_files_of_a_window(self) -> None:
        before, after = next((before, after) for case, before, after in pairs() if case == "repair/services")
        self.lay("services")
        self.write("branch.cfg", before)
        self.write("branch.cfg.new", after)
        done = tool("enter", "net.json", "--copies", ".new", "--out", "window", folder=self.folder)
        self.assertEqual((done.returncode, done.stdout), (0, "wrote window/branch.enter\nwrote window/branch.back\n"))
        done = tool("enter", "net.json", "--copies", ".new", "--out", "window", folder=self.folder)
        self.assertEqual(done.returncode, 2)
        self.assertIn("--force", done.stderr)


if __name__ == "__main__":
    unittest.main()
