"""The open copy: which interfaces, links, routers and lists it has."""
import unittest

from ops import names
from ops.tests.small import blocked, face, opened_copy, router
from ops.tests.test_exact import pair

POLICY = (blocked("10.1.0.0/24", "10.2.0.0/24"),)
LISTS = ("ip access-list extended L", " permit tcp any any eq 22", "ip access-list standard S", " permit 10.1.0.0 0.0.255.255")


def links(copy) -> list[str]:  # type: ignore[no-untyped-def]
    return sorted(copy.map.links)


class Copies(unittest.TestCase):
    def test_a_link_and_two_networks(self) -> None:
        copy = opened_copy(*pair(), policies=POLICY)
        self.assertEqual(sorted(copy.files), ["a.cfg", "b.cfg"])
        self.assertEqual(links(copy), ["a:Gi0/0 - b:Gi0/0"])
        self.assertIn(" network 0.0.0.0 255.255.255.255 area 0", copy.files["a.cfg"])
        self.assertEqual([policy.source for policy in copy.document.policies], ["10.1.0.0/24"])

    def test_networks_that_no_policy_names_are_left_out(self) -> None:
        a, b = pair(more_a=face("Gi0/5", "10.5.0.1/24"))
        self.assertNotIn("10.5.0", opened_copy(a, b, policies=POLICY).files["a.cfg"])

    def test_interfaces_that_are_down_are_left_out(self) -> None:
        a, b = pair(("shutdown",))
        self.assertEqual(links(opened_copy(a, b, policies=POLICY)), ["outside - the segment 10.0.0.0/30", "b:Gi0/0 - outside"][1:])

    def test_lists_and_the_protocols_packets(self) -> None:
        a, b = pair(("ip access-group L in", "ip access-group S out"), more_a=LISTS)
        text = opened_copy(a, b, policies=POLICY).files["a.cfg"]
        self.assertIn(" permit 89 host 10.0.0.2 host 10.0.0.1\n permit 89 host 10.0.0.2 host 224.0.0.5\n permit 89 host 10.0.0.2 host 224.0.0.6\n"
                      " permit tcp any any eq 22\n", text)
        self.assertIn("ip access-list standard S\n permit 10.1.0.0 0.0.255.255\n", text)

    def test_a_list_that_does_not_stand_is_not_bound(self) -> None:
        a, b = pair(("ip access-group NOT-THERE in",))
        self.assertNotIn("NOT-THERE", opened_copy(a, b, policies=POLICY).files["a.cfg"])

    def test_labels_pass_lists(self) -> None:
        for lines in (("mpls ip",), ("mpls traffic-eng tunnels",)):
            a, b = pair(("ip access-group L in", *lines), more_a=LISTS)
            self.assertNotIn("access-group L", opened_copy(a, b, policies=POLICY).files["a.cfg"])
        a, b = pair(("ip access-group L in",), more_a=(*LISTS, "router ospf 1", " mpls ldp autoconfig"))
        self.assertNotIn("access-group L", opened_copy(a, b, policies=POLICY).files["a.cfg"])

    def test_a_segment_of_three_is_a_router_of_its_own(self) -> None:
        a, b = pair()
        c = router("c", *face("Gi0/0", "10.2.0.9/24", "ip access-group L in"), *LISTS)
        copy = opened_copy(a, b, c, policies=POLICY)
        self.assertEqual(links(copy), ["a:Gi0/0 - b:Gi0/0", "b:Gi0/1 - the segment 10.2.0.0/24", "c:Gi0/0 - the segment 10.2.0.0/24"])
        self.assertIn("ip address 10.2.0.1 255.255.255.0", copy.files["segment-1.cfg"])
        self.assertIn("ip access-group L in", copy.files["c.cfg"])

    def test_a_repair_edits_where_hosts_are(self) -> None:
        a, b = pair()
        text = opened_copy(a, b, policies=POLICY).files["a.cfg"]
        link, hosts = text.split("interface ")[1:3]
        self.assertIn("arcv-permits-all in", link)
        self.assertNotIn("arcv-permits-all", hosts.split("!")[0])

    def test_interfaces_of_other_kinds_get_free_names(self) -> None:
        for name, free in (("Vlan30", "Ethernet101/30"), ("GigabitEthernet0/0.10", "Ethernet102/0/0/10"), ("Port-channel1", "Ethernet103/1"),
                           ("GigabitEthernet0/0", "GigabitEthernet0/0"), ("Serial0/0/0:15", "Ethernet114/0/0/0/15")):
            self.assertEqual(names.free_name(name, False), free)
            self.assertTrue(names.is_read(names.free_name(name, False)))
        self.assertEqual(names.free_name("Loopback7", True), "Ethernet118/7")


class Tables(unittest.TestCase):
    """VRFs."""

    def vrfs(self, *more: str):  # type: ignore[no-untyped-def]
        return router("a", "vrf definition RED", " rd 1:1", " address-family ipv4", *more, " exit-address-family",
                      "interface Gi0/1", " vrf forwarding RED", " ip address 10.1.0.1 255.255.255.0", *face("Gi0/2", "10.2.0.1/24"))

    def test_a_vrf_is_a_router_of_its_own(self) -> None:
        copy = opened_copy(self.vrfs(), policies=POLICY)
        self.assertEqual(sorted(copy.map.routers.values()), ["a", "a (VRF RED)"])
        self.assertEqual(copy.map.real, {"a": "a", "a-vrf-RED": "a"})

    def test_where_routes_may_leak_it_is_the_router(self) -> None:
        for more in (("  route-target import 1:1",), ("  import ipv4 unicast map X",), ("  something new",)):
            self.assertEqual(sorted(opened_copy(self.vrfs(*more), policies=POLICY).map.routers.values()), ["a"], more)
        for line in ("ip route vrf RED 0.0.0.0 0.0.0.0 10.2.0.9 global", "ip route 10.1.0.0 255.255.255.0 Gi0/1", "ip route vrf RED 10.2.0.0 255.255.255.0 Gi0/2"):
            leaking = router("a", *VRF, line)
            self.assertTrue(leaking.leaks, line)
        leaking = router("a", *VRF, "route-map X permit 10", " set vrf RED")
        self.assertTrue(leaking.leaks)


VRF = ("vrf definition RED", " rd 1:1", "interface Gi0/1", " vrf forwarding RED", " ip address 10.1.0.1 255.255.255.0", *face("Gi0/2", "10.2.0.1/24"))


class WhatIsNoted(unittest.TestCase):
    """Lines that could hide an interface, or that no row knows."""

    def costs(self, *lines: str) -> set[str]:
        found = router("a", *lines)
        return {note.cost for note in found.notes + [note for one in found.faces for note in one.notes]}

    def test_hidden_interfaces(self) -> None:
        self.assertIn("elsewhere", self.costs("interface Gi0/0", " ip address dhcp"))
        self.assertNotIn("elsewhere", self.costs("interface Dialer0", " ip address negotiated"))
        self.assertIn("elsewhere", self.costs("interface Gi0/0", " ip address 10.0.0.1/24"))
        self.assertIn("elsewhere", self.costs("interface Gi0/0", " ipv4 address 10.0.0.1 255.255.255.0"))
        self.assertIn("elsewhere", self.costs("feature ospf"))
        self.assertIn("elsewhere", self.costs("!", " ip address 10.0.0.1 255.255.255.0"))
        self.assertIn("elsewhere", self.costs("interface Gi0/0", "ip address 10.0.0.1 255.255.255.0"))

    def test_what_stands_twice(self) -> None:
        self.assertIn("unknown", self.costs(*face("Gi0/0", "10.0.0.1/24"), *face("Gi0/0", "10.0.0.1/24")))
        self.assertIn("unknown", self.costs("ip access-list extended L", " permit ip any any", "ip access-list extended L", " deny ip any any"))

    def test_service_policies(self) -> None:
        shaping = ("policy-map P", " class class-default", "  shape average 1000000")
        nested = ("policy-map Q", " class class-default", "  service-policy P", "interface Gi0/0", " service-policy output Q")
        policing = ("policy-map P", " class class-default", "  police 8000 conform-action transmit exceed-action drop")
        self.assertNotIn("drops", self.costs(*shaping, "interface Gi0/0", " service-policy output P"))
        self.assertIn("drops", self.costs(*policing, "interface Gi0/0", " service-policy output P"))
        self.assertIn("unknown", self.costs("policy-map P", " class X", "  divert somewhere", "interface Gi0/0", " service-policy output P"))
        self.assertIn("drops", self.costs(*policing, *nested))
        self.assertIn("unknown", self.costs("interface Gi0/0", " service-policy type inspect X"))
