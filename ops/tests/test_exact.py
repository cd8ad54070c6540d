"""The exact copy: what it has, and what stands in the way of an answer."""
import unittest

from ops import adjacency, exact, exact_copy, sessions
from ops.ios import line_of
from ops.links import Net
from ops.tests.small import face, judged, reach, router

OSPF = ("router ospf 1", " passive-interface default", " no passive-interface Gi0/0", " network 0.0.0.0 255.255.255.255 area 0")


def pair(a=(), b=(), more_a=(), more_b=()):  # type: ignore[no-untyped-def]
    return (router("a", *face("Gi0/0", "10.0.0.1/30", *a), *face("Gi0/1", "10.1.0.1/24"), *OSPF, *more_a),
            router("b", *face("Gi0/0", "10.0.0.2/30", *b), *face("Gi0/1", "10.2.0.1/24"), *OSPF, *more_b))


def reasons(made: exact.Exact) -> list[str]:
    return [note.reason for note in made.notes]


class Adjacencies(unittest.TestCase):
    def answer(self, a: tuple[str, ...], b: tuple[str, ...]) -> str:
        made = judged(*pair(a, b))
        if made.down:
            return "down"
        return "yours" if any(note.cost == "adjacency" for note in made.notes) else "up"

    def test_both_ends_are_compared(self) -> None:
        key = "ip ospf message-digest-key 1 md5 7 "
        rows = [((), (), "up"), (("ip ospf hello-interval 5",), (), "down"), (("ip ospf hello-interval 5",), ("ip ospf hello-interval 5",), "up"),
                (("ip ospf dead-interval 40",), (), "up"), (("ip ospf network point-to-point",), (), "down"),
                (("ip ospf authentication message-digest",), (), "down"),
                (("ip ospf authentication message-digest", key + "02050D480809"), ("ip ospf authentication message-digest", key + "060506324F41"), "up"),
                (("ip ospf authentication message-digest", key + "02050D480809"), ("ip ospf authentication message-digest", key + "02050D480808"), "down"),
                (("ip ospf authentication message-digest", "ip ospf message-digest-key 1 md5 6 abc"), ("ip ospf authentication message-digest", "ip ospf message-digest-key 1 md5 6 abd"), "yours"),
                (("mtu 9000",), (), "down"), (("mtu 9000", "ip mtu 1500"), (), "up"), (("ip ospf priority 0",), ("ip ospf priority 0",), "down"),
                (("encapsulation ppp",), ("encapsulation ppp",), "up"), (("encapsulation ppp",), (), "yours"), (("cts manual",), (), "yours"),
                (("ip ospf ttl-security hops 1",), (), "yours"), (("bfd interval 50 min_rx 50 multiplier 3",), (), "yours")]
        for a, b, wanted in rows:
            with self.subTest(a=a, b=b):
                self.assertEqual(self.answer(a, b), wanted)

    def test_keys_are_compared_as_they_were_typed(self) -> None:
        self.assertEqual(adjacency.plain(("x", "7", "02050D480809"))[-1], "cisco")
        self.assertEqual(adjacency.plain(("x", "7", "060506324F41"))[-1], "cisco")
        self.assertEqual(adjacency.plain(("x", "0", "cisco")), ("x", "cisco"))

    def test_a_list_that_stops_ospf_keeps_it_down(self) -> None:
        for entry, wanted in (("permit ospf any any", 0), ("permit ip any any", 0), ("permit tcp any any", 1)):
            made = judged(*pair(("ip access-group L in",), (), ("ip access-list extended L", f" {entry}")))
            self.assertEqual(len(made.down), wanted, entry)


class InTheWay(unittest.TestCase):
    def test_nothing(self) -> None:
        self.assertEqual(reasons(judged(*pair())), [])

    def test_what_is_not_modelled(self) -> None:
        for more, part in ((("router bgp 1",), "one process a router"), (("router eigrp 1",), "routes of another protocol"),
                           (("crypto map VPN 10 ipsec-isakmp", " reverse-route"), "far ends of tunnels"), (("mpls ldp router-id Loopback0",), "labels"), (("segment-routing mpls",), "labels"), (("a new feature",), "no row")):
            self.assertTrue(any(part in text for text in reasons(judged(*pair(more_a=more)))), more)
        for line in ("redistribute bgp 1", "redistribute static route-map X", "distribute-list 1 in", "area 0 range 10.0.0.0 255.0.0.0", "summary-address 10.0.0.0 255.0.0.0"):
            made = judged(*pair(), router("c", *face("Gi0/9", "10.9.0.1/24"), *OSPF, f" {line}"))
            self.assertTrue(any(note.cost == "routes" for note in made.notes), line)

    def test_two_areas(self) -> None:
        a, b = pair()
        c = router("c", *face("Gi0/9", "10.9.0.1/24"), "router ospf 1", " network 10.9.0.0 0.0.0.255 area 1")
        self.assertTrue(any("areas 0, 1" in text for text in reasons(judged(a, b, c))))

    def test_ospf_with_nobody(self) -> None:
        a, b = pair(more_a=(*face("Gi0/5", "10.5.0.1/24"), "router ospf 1"))
        lone = router("c", *face("Gi0/0", "10.7.0.1/24"), *OSPF)
        self.assertTrue(any("no other file has a router" in text for text in reasons(judged(a, b, lone))))
        missing = router("c", *face("Gi0/0", "10.7.0.1/30"), *OSPF)
        self.assertTrue(any("routes of its router are not known" in text for text in reasons(judged(a, b, missing))))

    def test_static_routes(self) -> None:
        for route, count in (("0.0.0.0 0.0.0.0 10.0.0.2", 0), ("10.0.0.0 255.0.0.0 Null0", 0), ("192.168.0.0 255.255.0.0 10.0.0.2", 0),
                             ("10.2.0.0 255.255.255.0 10.0.0.2", 1), ("10.2.0.128 255.255.255.128 Null0", 1)):
            made = judged(*pair(more_a=(f"ip route {route}",)))
            self.assertEqual(len(made.against(Net("10.2.0.0/24"))), count, route)

    def test_interfaces_of_a_copy(self) -> None:
        for line, cost in (("ip policy route-map X", "routes"), ("ip nat inside", "passes"), ("ip verify unicast reverse-path", "drops")):
            made = judged(*pair((line,)))
            self.assertEqual([note.cost for note in made.face_notes(made.meetings[0].faces)], [cost])


class Copies(unittest.TestCase):
    def test_interfaces_of_other_kinds_keep_their_costs(self) -> None:
        lines = [line.replace("Gi0/0", "Vlan7") for line in OSPF]
        a = router("a", *face("Vlan7", "10.0.0.1/30"), *face("Gi0/1", "10.1.0.1/24"), *lines, " auto-cost reference-bandwidth 10000")
        b = router("b", *face("Vlan7", "10.0.0.2/30"), *face("Gi0/1", "10.2.0.1/24"), *lines)
        made = judged(a, b)
        want = exact_copy.Want(0, reach("10.1.0.0/24", "10.2.0.0/24"), a.faces[1], b.faces[1])
        copy = exact_copy.Builder(made, [want], "all").write()
        self.assertIn("interface Ethernet101/7\n ip address 10.0.0.1 255.255.255.252\n ip ospf cost 10\n", copy.files["a.cfg"])
        self.assertEqual(copy.map.interfaces["a:Ethernet101/7"], "Vlan7")
        self.assertEqual(len(copy.document.links), 1)

    def test_a_network_that_is_not_told(self) -> None:
        a, _ = pair()
        quiet = router("b", *face("Gi0/0", "10.0.0.2/30", "ip ospf 1 area 0"), *face("Gi0/1", "10.2.0.1/24"), "router ospf 1")
        made = judged(a, quiet)
        self.assertFalse(made.told(quiet.faces[1]))
        copy = exact_copy.Builder(made, [exact_copy.Want(0, reach("10.1.0.0/24", "10.2.0.0/24"), a.faces[1], quiet.faces[1])], "all").write()
        self.assertNotIn("ip ospf 1 area", copy.files["b.cfg"].split("10.2.0.1")[1])

    def test_three_on_one_segment_meet_at_a_router_of_the_copy(self) -> None:
        found = [router(name, *face("Gi0/0", f"10.0.0.{place}/24"), *face("Gi0/1", f"10.{place}.0.1/24"), *OSPF) for place, name in enumerate("abc", 1)]
        made = judged(*found)
        copy = exact_copy.Builder(made, [exact_copy.Want(0, reach("10.1.0.0/24", "10.2.0.0/24"), found[0].faces[1], found[1].faces[1])], "all").write()
        self.assertEqual(len(copy.document.links), 3)


def rules(*texts: str) -> list[sessions.Rule]:
    return sessions.rules_of([line_of(1, f"ip prefix-list L {text}") for text in texts]) or []


class PrefixLists(unittest.TestCase):
    def test_permits(self) -> None:
        held = rules("seq 5 deny 10.1.0.0/16 le 24", "seq 10 permit 10.0.0.0/8 ge 16 le 24", "description x")
        self.assertEqual([sessions.permits(held, Net(net)) for net in ("10.1.1.0/24", "10.1.1.0/25", "10.2.0.0/16", "10.2.0.0/15", "11.0.0.0/16")],
                         [False, False, True, False, False])
        self.assertTrue(sessions.permits([], Net("10.0.0.0/8")))

    def test_may_take(self) -> None:
        target = Net("10.1.0.0/16")
        rows = [(("permit 0.0.0.0/0",), False), (("permit 0.0.0.0/0 le 32",), True), (("deny 10.0.0.0/8 le 32", "permit 0.0.0.0/0 le 32"), False),
                (("deny 10.1.0.0/16", "permit 0.0.0.0/0 le 32"), True), (("permit 10.1.5.0/24",), True), (("permit 11.0.0.0/8 le 32",), False), ((), True)]
        for texts, wanted in rows:
            self.assertEqual(sessions.may_take(rules(*texts), target), wanted, texts)

    def test_one_that_is_not_read(self) -> None:
        self.assertIsNone(sessions.rules_of([line_of(1, "ip prefix-list L strange")]))


BGP = ("router bgp {own}", " no bgp default ipv4-unicast", " neighbor {far} remote-as {other}", " address-family ipv4", "  network 10.{net}.0.0 mask 255.255.255.0",
       "  neighbor {far} activate", " exit-address-family")


def speakers(*more: str, far: tuple[str, ...] = ()):  # type: ignore[no-untyped-def]
    a = router("a", *face("Gi0/0", "10.0.0.1/30"), *face("Gi0/1", "10.1.0.1/24"), *(line.format(own=1, far="10.0.0.2", other=2, net=1) for line in BGP), *more)
    b = router("b", *face("Gi0/0", "10.0.0.2/30"), *face("Gi0/1", "10.2.0.1/24"), *(line.format(own=2, far="10.0.0.1", other=1, net=2) for line in BGP), *far)
    return a, b


class Bgp(unittest.TestCase):
    def test_address_families_are_written_flat(self) -> None:
        a, b = speakers()
        made = judged(a, b)
        self.assertEqual((reasons(made), made.down, len(made.meetings)), ([], [], 1))
        copy = exact_copy.Builder(made, [exact_copy.Want(0, reach("10.1.0.0/24", "10.2.0.0/24"), a.faces[1], b.faces[1])], "all").write()
        self.assertIn("router bgp 2\n neighbor 10.0.0.1 remote-as 1\n network 10.2.0.0 mask 255.255.255.0\n", copy.files["b.cfg"])

    def test_a_neighbour_that_is_not_active_is_none(self) -> None:
        a, b = speakers(" neighbor 10.0.0.2 shutdown")
        self.assertEqual(len(judged(a, b).meetings), 0)

    def test_a_list_out_stands_at_the_far_end(self) -> None:
        a, b = speakers(" neighbor 10.0.0.2 prefix-list OUT out", "ip prefix-list OUT seq 5 permit 10.9.0.0/24")
        made = judged(a, b)
        copy = exact_copy.Builder(made, [exact_copy.Want(0, reach("10.2.0.0/24", "10.1.0.0/24"), b.faces[1], a.faces[1])], "all").write()
        self.assertIn("seq 5 permit 10.9.0.0/24", copy.files["b.cfg"])
        a, b = speakers(" neighbor 10.0.0.2 prefix-list OUT out", "ip prefix-list OUT seq 5 permit 10.9.0.0/24",
                        far=(" neighbor 10.0.0.1 prefix-list IN in", "ip prefix-list IN seq 5 permit 0.0.0.0/0 le 32"))
        copy = exact_copy.Builder(judged(a, b), [exact_copy.Want(0, reach("10.2.0.0/24", "10.1.0.0/24"), b.faces[1], a.faces[1])], "all").write()
        self.assertIn("seq 5 deny 10.1.0.0/24\n", copy.files["b.cfg"])

    def test_neighbours_without_a_file(self) -> None:
        more = (*face("Gi0/2", "192.0.2.1/30"), "router bgp 1")
        for tail, count in ((" neighbor 192.0.2.2 remote-as 9", 1), (" neighbor 192.0.2.2 remote-as 9\n neighbor 192.0.2.2 prefix-list D in", 0)):
            a = router("a", *face("Gi0/0", "10.0.0.1/30"), *face("Gi0/1", "10.1.0.1/24"), *face("Gi0/2", "192.0.2.1/30"),
                       *(line.format(own=1, far="10.0.0.2", other=2, net=1) for line in BGP[:3]), *tail.split("\n"), " address-family ipv4", "  neighbor 10.0.0.2 activate",
                       "ip prefix-list D seq 5 permit 0.0.0.0/0")
            self.assertEqual(len(judged(a, speakers()[1]).against(Net("10.2.0.0/24"))), count, more)

    def test_one_as_twice(self) -> None:
        a, b = speakers()
        self.assertTrue(any("one AS" in text for text in reasons(judged(a, b, router("c", *face("Gi0/0", "10.9.0.1/24"), "router bgp 2")))))
