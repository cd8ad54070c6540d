"""What is seen of a packet beside what the model lets it do, on two routers with two links."""
import unittest
from collections import Counter
from ipaddress import IPv4Address

from lab.network import End, Link, Network
from lab.probes import Packet, Sighting
from lab.program import Row
from lab.settings import read_router
from lab.walks import Walk, Ways

FILE = """hostname {name}
interface GigabitEthernet0/0
 ip address 10.{place}.0.1 255.255.255.0
interface GigabitEthernet0/1
 ip address 10.0.1.{place} 255.255.255.252
 {bound}
interface GigabitEthernet0/2
 ip address 10.0.2.{place} 255.255.255.252
router ospf 1
 network 0.0.0.0 255.255.255.255 area 0
access-list 110 deny tcp any any eq 22
access-list 110 permit ip any any
"""
HOST, FIRST, SECOND = (f"GigabitEthernet0/{number}" for number in range(3))
SSH, WEB = 6 << 16 | 22, 6 << 16 | 443


def two_routers() -> Network:
    """Link 1 with a list inbound at its end at `two`, and link 2 without."""
    routers = [read_router(FILE.format(name=name, place=place, bound=bound))
               for name, place, bound in (("one", 1, "no shutdown"), ("two", 2, "ip access-group 110 in"))]
    links = [Link(number, (End(0, face), End(1, face)), False) for number, face in ((1, FIRST), (2, SECOND))]
    network = Network(routers, links, [], {}, {end: link for link in links for end in link.ends})
    return network


class Walks(unittest.TestCase):
    def judge(self, service: int, arrivals: list[End], handed: bool, hops: frozenset[int] = frozenset({1})) -> Walk:
        rows = {"one": Row(1, hops), "two": Row(0, frozenset())}
        ways = Ways(two_routers(), rows, End(0, HOST), End(1, HOST))
        packet = Packet(IPv4Address("10.1.0.9"), IPv4Address("10.2.0.9"), service)
        return ways.judge(packet, Sighting(Counter(arrivals), Counter([End(1, HOST)] if handed else [])))

    def test_arrives(self) -> None:
        walk = self.judge(WEB, [End(0, HOST), End(1, FIRST)], True)
        self.assertEqual(walk, Walk(True, (1,), ("one", "two"), ""))

    def test_denied_where_it_comes_in(self) -> None:
        self.assertEqual(self.judge(SSH, [End(0, HOST), End(1, FIRST)], False).fault, "")
        self.assertIn("list inbound at two", self.judge(SSH, [End(0, HOST), End(1, FIRST)], True).fault)

    def test_lost_without_a_cause(self) -> None:
        self.assertIn("lost at two", self.judge(WEB, [End(0, HOST), End(1, FIRST)], False).fault)
        self.assertIn("lost at one", self.judge(WEB, [End(0, HOST)], False).fault)
        self.assertEqual(self.judge(WEB, [End(0, HOST)], False, frozenset()).fault, "")

    def test_over_a_link_that_is_no_next_hop(self) -> None:
        self.assertIn("link 2, which is no next hop", self.judge(WEB, [End(0, HOST), End(1, SECOND)], True).fault)

    def test_seen_at_two_places(self) -> None:
        self.assertIn("also seen at", self.judge(WEB, [End(0, HOST), End(1, FIRST), End(1, SECOND)], True).fault)


if __name__ == "__main__":
    unittest.main()
