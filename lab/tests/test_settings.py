"""The reading of router files, and what the settings come to."""
import unittest
from ipaddress import IPv4Address, IPv4Network

from lab.network import cost_of, host_network, is_enabled, is_passive, is_point, list_at, router_id
from lab.router_ids import clashes
from lab.settings import ALL_SERVICES, ANY, PacketEntry, RouteEntry, read_router

OSPF = """hostname one
!
banner motd ^C
hostname none
^C
interface GigabitEthernet0/0
 ip address 10.0.0.1 255.255.255.0
 ip address 10.1.0.1 255.255.255.0
 shutdown
 no shutdown
 ! a comment that closes nothing
 ip access-group 110 in
!
interface Serial0/0
 ip address 10.2.0.1 255.255.255.252
 bandwidth 60000
 ip ospf 7 area 0
interface FastEthernet0/1
 ip address 10.3.0.1 255.255.255.0
 no ip address
 ip ospf cost 9
interface Loopback0
 ip address 10.9.0.1 255.255.255.0
router ospf 7
 passive-interface default
 no passive-interface Serial0/0
 network 10.1.0.0 0.0.255.255 area 0
access-list 110 remark a remark
access-list 110 deny tcp 10.1.0.0 0.0.0.255 any eq www log
access-list 110 permit 17 any host 10.9.0.1 range domain 100
ip access-list standard S
 10 permit 10.1.0.7
 20 deny any
"""
BGP = """hostname two
interface GigabitEthernet0/0
 ip address 10.0.0.1 255.255.255.0
router bgp 65001
 neighbor 10.0.0.2 remote-as 65002
 neighbor 10.0.0.2 shutdown
 neighbor 10.0.0.2 prefix-list P in
 no neighbor 10.0.0.2 shutdown
 network 172.16.9.9
 network 10.0.0.7 mask 255.255.255.0
 maximum-paths 4
ip prefix-list P description none
ip prefix-list P seq 5 deny 10.1.2.3/16 ge 20
ip prefix-list P permit 10.0.0.0/8 le 24
"""


class Reading(unittest.TestCase):
    def setUp(self) -> None:
        self.one, self.two = read_router(OSPF), read_router(BGP)

    def test_last_line_of_a_block_counts(self) -> None:
        face = self.one.interfaces["GigabitEthernet0/0"]
        self.assertEqual(str(face.address), "10.1.0.1/24")
        self.assertFalse(face.is_shut)
        self.assertIsNone(self.one.interfaces["FastEthernet0/1"].address)

    def test_a_banner_says_nothing(self) -> None:
        self.assertEqual(self.one.name, "one")

    def test_entries_of_packet_lists(self) -> None:
        tcp, udp = self.one.packet_lists["110"]
        self.assertEqual(tcp, PacketEntry(False, IPv4Network("10.1.0.0/24"), ANY, (6 << 16 | 80, 6 << 16 | 80)))
        self.assertEqual(udp, PacketEntry(True, ANY, IPv4Network("10.9.0.1/32"), (17 << 16 | 53, 17 << 16 | 100)))
        self.assertEqual(self.one.packet_lists["S"][0], PacketEntry(True, IPv4Network("10.1.0.7/32"), ANY, ALL_SERVICES))
        self.assertEqual(list_at(self.one, self.one.interfaces["GigabitEthernet0/0"], "out"), [])

    def test_entries_of_prefix_lists(self) -> None:
        wide, narrow = self.two.route_lists["P"]
        self.assertEqual(wide, RouteEntry(False, IPv4Network("10.1.0.0/16"), 20, 32))
        self.assertEqual(narrow, RouteEntry(True, IPv4Network("10.0.0.0/8"), 8, 24))

    def test_bgp(self) -> None:
        neighbour = self.two.neighbours[IPv4Address("10.0.0.2")]
        self.assertEqual((neighbour.remote_as, neighbour.is_shut, neighbour.prefix_list), (65002, False, "P"))
        self.assertEqual(self.two.networks, [IPv4Network("172.16.0.0/16"), IPv4Network("10.0.0.0/24")])
        self.assertEqual(self.two.maximum_paths, 4)

    def test_what_settings_come_to(self) -> None:
        faces = self.one.interfaces
        self.assertEqual(cost_of(self.one, faces["Serial0/0"]), 1)
        self.assertEqual(cost_of(self.one, faces["FastEthernet0/1"]), 9)
        self.assertTrue(is_passive(self.one, faces["GigabitEthernet0/0"]))
        self.assertFalse(is_passive(self.one, faces["Serial0/0"]))
        self.assertTrue(is_point(faces["Serial0/0"]) and not is_point(faces["GigabitEthernet0/0"]))
        self.assertTrue(is_enabled(self.one, faces["Serial0/0"]) and not is_enabled(self.one, faces["Loopback0"]))
        self.assertEqual(host_network(self.one, faces["Loopback0"]), IPv4Network("10.9.0.1/32"))
        self.assertEqual(router_id(self.one), IPv4Address("10.9.0.1"))

    def test_a_router_id_that_another_router_may_take(self) -> None:
        lines = {"router ospf 7": "router ospf 7\n router-id 10.2.0.1", "hostname one": "hostname taker"}
        taken = read_router("\n".join(lines.get(line, line) for line in OSPF.split("\n")))
        found = [(router.name, other.name, str(identity)) for router, other, identity in clashes([self.one, taken])]
        self.assertEqual(found, [("taker", "one", "10.2.0.1")])
        self.assertEqual(list(clashes([self.one, self.two])), [])


if __name__ == "__main__":
    unittest.main()
