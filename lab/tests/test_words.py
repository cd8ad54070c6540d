"""The words for FRR and nftables, the bytes of packets, and the answers of arcv that are read."""
import unittest
from ipaddress import IPv4Address, IPv4Network

from lab.frr import bgp_words, nft_rule, nft_words, ospf_words, route_line
from lab.network import End, Link, Network
from lab.probes import Packet, bytes_of, checksum, number_of
from lab.program import blocks, traffic_of
from lab.settings import RouteEntry, read_router
from lab.tests.test_settings import BGP, OSPF


def alone(text: str) -> Network:
    """A network of one router, whose first interface is taken for a link's end."""
    router = read_router(text)
    end = End(0, next(iter(router.interfaces)))
    return Network([router], [], [], {}, {end: Link(1, (end, end), False)})


class Words(unittest.TestCase):
    def test_ospf(self) -> None:
        words = ospf_words(alone(OSPF), 0)
        place = words.index("interface i1")
        self.assertEqual(words[place + 1 : place + 3], [" ip ospf cost 1", " ip ospf network point-to-point"])
        self.assertNotIn("interface i2", words)
        self.assertEqual(words[-3:], [" ospf router-id 10.9.0.1", " network 10.1.0.0/16 area 0", " network 10.2.0.1/32 area 0"])
        self.assertEqual(words.count(" ip ospf passive"), 1)

    def test_bgp(self) -> None:
        words = bgp_words(alone(BGP), 0)
        self.assertIn("ip prefix-list P seq 5 deny 10.1.0.0/16 ge 20 le 32", words)
        self.assertIn(" neighbor 10.0.0.2 remote-as 65002", words)
        self.assertNotIn(" neighbor 10.0.0.2 shutdown", words)
        self.assertIn("  maximum-paths 4", words)
        self.assertIn("  neighbor 10.0.0.2 prefix-list P in", words)

    def test_lengths_that_frr_does_not_take(self) -> None:
        prefix = IPv4Network("10.0.0.0/16")
        for low, high, bounds in ((16, 16, ""), (16, 24, " le 24"), (24, 24, " ge 24 le 24")):
            line = route_line("P", 5, RouteEntry(True, prefix, low, high))
            self.assertEqual(line, f"ip prefix-list P seq 5 permit 10.0.0.0/16{bounds}")

    def test_packet_lists(self) -> None:
        network = alone(OSPF)
        tcp, udp = network.routers[0].packet_lists["110"]
        self.assertEqual(nft_rule(tcp), "ip saddr 10.1.0.0/24 ip protocol 6 tcp dport 80-80 drop")
        self.assertEqual(nft_rule(udp), "ip daddr 10.9.0.1/32 ip protocol 17 udp dport 53-100 accept")
        self.assertIn("  iifname i0 jump l0", nft_words(network, 0))


class Packets(unittest.TestCase):
    def test_a_packet_is_known_again(self) -> None:
        for service in (1 << 16, 6 << 16 | 22, 17 << 16 | 53, 47 << 16):
            data = bytes_of(Packet(IPv4Address("10.1.0.9"), IPv4Address("10.2.0.9"), service), 77)
            self.assertEqual((number_of(data), checksum(data[:20])), (77, 0))

    def test_an_error_that_quotes_a_packet_is_none(self) -> None:
        data = bytes_of(Packet(IPv4Address("10.1.0.9"), IPv4Address("10.2.0.9"), 1 << 16), 77)
        self.assertIsNone(number_of(data[:20] + b"\3\1\0\0\0\0\0\0" + data))


class Answers(unittest.TestCase):
    def test_blocks(self) -> None:
        text = "1 reach no 2\ncut 1 3\nside west\n2 blocked no 1\nwalk 10.1.0.0/24 10.2.0.0/24 service:6.22-6.22 1 3\nend"
        reach, blocked = blocks([line.split() for line in text.splitlines()])
        self.assertEqual((reach.numbers("cut"), reach.names("side")), (frozenset({1, 3}), ("west",)))
        traffic, words = traffic_of(blocked.lines[0])
        self.assertEqual((traffic.services, words), ((6 << 16 | 22, 6 << 16 | 22), ("1", "3")))


if __name__ == "__main__":
    unittest.main()
