"""Segments: which interfaces meet, and where devices without a file may be."""
import unittest

from ops.tests.small import face, laid, router


def outside(*found, alone=()):  # type: ignore[no-untyped-def]
    return {segment.text(): segment.outside for segment in laid(*found, alone=alone) if segment.outside}


class Segments(unittest.TestCase):
    def test_addresses_in_common_join(self) -> None:
        a = router("a", *face("Gi0/0", "10.0.0.1/24"), *face("Gi0/1", "10.1.0.1/24"), *face("Gi0/2", "10.2.0.1/24", "shutdown"))
        b = router("b", *face("Gi0/0", "10.0.0.130/25"), "interface Gi0/1", " ip address 10.3.0.1 255.255.255.0", " ip address 10.1.0.9 255.255.255.0 secondary")
        self.assertEqual([(segment.text(), [one.key() for one in segment.faces]) for segment in laid(a, b)],
                         [("10.0.0.0/24", ["a:Gi0/0", "b:Gi0/0"]), ("10.1.0.0/24, 10.3.0.0/24", ["a:Gi0/1", "b:Gi0/1"])])

    def test_an_address_that_no_file_has(self) -> None:
        lan = face("Gi0/0", "10.0.0.1/24")
        for line in ("ip route 0.0.0.0 0.0.0.0 10.0.0.9", "ip route 0.0.0.0 0.0.0.0 Gi0/0 10.0.0.9", "ip default-gateway 10.0.0.9"):
            self.assertIn("10.0.0.0/24", outside(router("a", *lan, line)), line)
        for lines in (("router bgp 1", " neighbor 10.0.0.9 remote-as 2"), ("router eigrp 1", " neighbor 10.0.0.9 Gi0/0"),
                      ("route-map X permit 10", " set ip next-hop 10.0.0.9"), ("ip route 0.0.0.0 0.0.0.0 Gi0/0",)):
            self.assertIn("10.0.0.0/24", outside(router("a", *lan, *lines)), lines)
        self.assertEqual(outside(router("a", *lan, "ip route 0.0.0.0 0.0.0.0 10.0.0.2"), router("b", *face("Gi0/0", "10.0.0.2/24"))), {})
        self.assertEqual(outside(router("a", *lan, "ip route 0.0.0.0 0.0.0.0 10.0.0.254"), router("b", *face("Gi0/0", "10.0.0.2/24", "standby 1 ip 10.0.0.254"))), {})
        self.assertIn("10.0.0.0/24", outside(router("a", *lan, "ip route 0.0.0.0 0.0.0.0 10.0.0.2"), router("b", *face("Gi0/0", "10.0.0.2/24", "shutdown"))))

    def test_far_ends_without_a_file(self) -> None:
        self.assertIn("10.0.0.0/30", outside(router("a", *face("Gi0/0", "10.0.0.1/30"))))
        self.assertIn("10.0.0.0/24", outside(router("a", *face("Tunnel0", "10.0.0.1/24"))))
        self.assertEqual(outside(router("a", *face("Loopback0", "10.0.0.1/32"))), {})
        self.assertEqual(outside(router("a", *face("Gi0/0", "10.0.0.1/24"))), {})
        self.assertIn("a:Dialer0", outside(router("a", "interface Dialer0", " ip address negotiated")))
        self.assertIn("a:Tunnel0", outside(router("a", "interface Tunnel0", " ip unnumbered Loopback0")))

    def test_a_claim_ends_it(self) -> None:
        self.assertEqual(outside(router("a", *face("Gi0/0", "10.0.0.1/30")), alone=("10.0.0.0/30",)), {})
