"""Entries of lists: what is read of them, and how copies write them for each side."""
import unittest

from ops import entries, ports, written
from ops.adjacency import Packet, permits
from ops.routers import PacketList


def entry(text: str, groups: entries.Groups = entries.NO_GROUPS) -> entries.Entry:
    found = entries.extended(1, text, text.split(), groups)
    assert found is not None
    return found


def on_copy(text: str, wider: bool, packets: str = "all", groups: entries.Groups = entries.NO_GROUPS) -> list[str]:
    return [row.strip() for row in written.entry_texts(entry(text, groups), packets, wider, False)[0]]


GROUPS = entries.groups_of({"A": [("10.1.0.0", "255.255.0.0"), ("host", "10.9.0.1")], "B": [("group-object", "A"), ("range", "10.2.0.0", "10.2.0.2")],
                            "LOOP": [("group-object", "LOOP")]},
                           {"S": [("tcp", "eq", "www"), ("udp", "range", "10", "20"), ("icmp", "echo")], "T": [("tcp-udp", "eq", "53")],
                            "F": [("tcp", "source", "gt", "1023", "eq", "22")]})


class Exactly(unittest.TestCase):
    """Entries that say the same in other words."""

    def both(self, text: str, *rows: str, groups: entries.Groups = entries.NO_GROUPS) -> None:
        for wider in (True, False):
            self.assertEqual(on_copy(text, wider, groups=groups), list(rows), text)

    def test_forms(self) -> None:
        self.both("permit ip any any", "permit ip any any")
        self.both("10 deny tcp host 10.0.0.1 10.1.0.0 0.0.255.255 eq 22 log", "deny tcp host 10.0.0.1 10.1.0.0 0.0.255.255 eq 22")
        self.both("permit tcp any any gt 1023", "permit tcp any any range 1024 65535")
        self.both("permit udp any any lt 1024", "permit udp any any range 0 1023")
        self.both("deny tcp any any neq 25", "deny tcp any any range 0 24", "deny tcp any any range 26 65535")
        self.both("permit tcp any any eq www 443", "permit tcp any any eq 80", "permit tcp any any eq 443")
        self.both("permit udp any any eq isakmp log-input", "permit udp any any eq 500")
        self.both("permit eigrp any any", "permit 88 any any")
        self.both("permit ip 10.1.0.7 0.0.255.255 any", "permit ip 10.1.0.0 0.0.255.255 any")

    def test_object_groups(self) -> None:
        self.both("permit ip object-group A any", "permit ip 10.1.0.0 0.0.255.255 any", "permit ip host 10.9.0.1 any", groups=GROUPS)
        self.assertEqual(on_copy("permit object-group S any host 10.0.0.1", True, groups=GROUPS),
                         ["permit tcp any host 10.0.0.1 eq 80", "permit udp any host 10.0.0.1 range 10 20", "permit icmp any host 10.0.0.1"])
        self.assertEqual(on_copy("permit object-group T any any", False, groups=GROUPS), ["permit tcp any any eq 53", "permit udp any any eq 53"])
        self.assertEqual(on_copy("permit object-group F any any", False, groups=GROUPS), [])
        self.assertEqual(on_copy("deny ip object-group B any", True, groups=GROUPS)[-1], "deny ip host 10.2.0.2 any")

    def test_wildcards(self) -> None:
        area = entries.by_wildcard("10.0.0.1", "0.0.2.255")
        self.assertEqual([str(net) for net in area.nets], ["10.0.0.0/24", "10.0.2.0/24"])
        self.assertTrue(area.is_exact)
        area = entries.by_wildcard("10.0.0.1", "0.255.254.0")
        self.assertFalse(area.is_exact)
        self.assertEqual([str(net) for net in area.nets], ["10.0.0.0/8"])


class ByTheSafeSide(unittest.TestCase):
    """Entries that look at more: more packets pass the open copy, fewer the exact one."""

    def test_conditions(self) -> None:
        for tail in ("established", "syn", "match-all +ack -syn", "time-range WORK", "dscp ef", "fragments", "ttl eq 5", "surely-new"):
            with self.subTest(tail=tail):
                self.assertEqual(on_copy(f"permit tcp any host 10.0.0.1 {tail}", True), ["permit tcp any host 10.0.0.1"])
                self.assertEqual(on_copy(f"permit tcp any host 10.0.0.1 {tail}", False), [])
                self.assertEqual(on_copy(f"deny tcp any host 10.0.0.1 {tail}", True), [])
                wanted = [] if tail == "fragments" else ["deny tcp any host 10.0.0.1"]
                self.assertEqual(on_copy(f"deny tcp any host 10.0.0.1 {tail}", False), wanted)

    def test_source_ports_and_types(self) -> None:
        self.assertEqual(on_copy("permit tcp any eq 80 any eq 443", True), ["permit tcp any any eq 443"])
        self.assertEqual(on_copy("permit tcp any eq 80 any eq 443", False), [])
        self.assertEqual(on_copy("deny icmp any any echo", False), ["deny icmp any any"])
        self.assertEqual(on_copy("deny icmp any any echo", True), [])

    def test_what_is_not_read(self) -> None:
        for text in ("permit strange any any", "permit ip object-group NOT-THERE any", "permit ip object-group LOOP any", "permit tcp any any eq strange"):
            with self.subTest(text=text):
                self.assertEqual(on_copy(text, True, groups=GROUPS), ["permit ip any any"])
                self.assertEqual(on_copy(text, False, groups=GROUPS), [])
                self.assertEqual(on_copy(text.replace("permit", "deny"), True, groups=GROUPS), [])
                self.assertEqual(on_copy(text.replace("permit", "deny"), False, groups=GROUPS), ["deny ip any any"])

    def test_reflexive_and_dynamic(self) -> None:
        self.assertEqual(on_copy("evaluate MIRROR", True), ["permit ip any any"])
        self.assertEqual(on_copy("evaluate MIRROR", False), [])
        self.assertEqual(on_copy("permit tcp any any reflect MIRROR timeout 60", False), ["permit tcp any any"])
        self.assertEqual(on_copy("dynamic DOOR permit ip any any", False), [])
        self.assertEqual(on_copy("dynamic DOOR timeout 5 permit ip any any", True), ["permit ip any any"])

    def test_a_list_keeps_an_entry(self) -> None:
        held = PacketList("L", False, [entry("deny tcp any any established")])
        self.assertEqual(written.list_texts(held, "all", True)[0], [" deny ip any any"])
        held = PacketList("1", True, [entries.standard(1, "", "permit 10.0.0.1".split())])  # type: ignore[list-item]
        self.assertEqual(written.list_texts(held, "all", True)[0], [" permit host 10.0.0.1"])


class ForSomePackets(unittest.TestCase):
    def test_opening(self) -> None:
        for answer in ("permit", "deny"):
            self.assertEqual(on_copy(f"{answer} tcp any any established", answer == "permit", "opening"), [])
            self.assertEqual(on_copy(f"{answer} tcp any any match-all +syn -ack", answer != "permit", "opening"), [f"{answer} tcp any any"])
            self.assertEqual(on_copy(f"{answer} tcp any any ack", answer == "permit", "opening"), [])

    def test_client(self) -> None:
        self.assertEqual(on_copy("permit tcp any eq 80 any", True, "client"), [])
        self.assertEqual(on_copy("permit udp any lt 1024 any", True, "client"), [])
        self.assertEqual(on_copy("deny tcp any gt 1023 any", True, "client"), ["deny tcp any any"])
        self.assertEqual(on_copy("deny tcp any range 2000 3000 any", True, "client"), [])
        self.assertEqual(on_copy("permit tcp any neq 80 any", False, "client"), ["permit tcp any any"])

    def test_ports(self) -> None:
        self.assertEqual(ports.ranges_of(6, ("neq", "80", "www", "443")), (((0, 79), (81, 442), (444, 65535)), 4))
        self.assertIsNone(ports.ranges_of(6, ("range", "9", "3")))
        self.assertEqual(ports.ranges_of(6, ("gt", "65535")), ((), 2))


class WhatAListSurelyDoes(unittest.TestCase):
    def test_packets(self) -> None:
        held = PacketList("L", False, [entry("permit tcp any eq 179 any established"), entry("deny icmp any any time-range X"), entry("permit icmp any any")])
        self.assertIs(permits(held, Packet(6, 1, 2, 179, 4000, ("ack",))), True)
        self.assertIs(permits(held, Packet(6, 1, 2, 179, 4000, ("syn",))), False)
        self.assertIsNone(permits(held, Packet(1, 1, 2)))
        self.assertIs(permits(PacketList("E", False), Packet(1, 1, 2)), True)
        self.assertIsNone(permits(PacketList("X", False, is_read=False), Packet(1, 1, 2)))
