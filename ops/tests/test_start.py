"""bin/start: on small networks, on the ten networks beside this, and on what is wrong."""
import json
import os
import unittest

from ops import documents, start, statements
from ops.tests import table
from ops.tests.given import TOP, WithFolder, program, read, tool
from ops.tests.small import asked, blocked, face, reach, router
from ops.tests.test_exact import OSPF, pair

ARCV = program()
LISTS = ("ip access-list extended L", " deny ip 10.1.0.0 0.0.0.255 10.2.0.0 0.0.0.255", " permit ip any any")


@unittest.skipUnless(ARCV, "no program is built")
class Answers(WithFolder):
    def answer(self, policy, *found, **more):  # type: ignore[no-untyped-def]
        return asked(ARCV, self.folder, [policy], *found, **more).joined[0].answer()

    def guarded(self, *more: str):  # type: ignore[no-untyped-def]
        a, b = pair()
        guard = router("a", *face("Gi0/0", "10.0.0.1/30"), *face("Gi0/1", "10.1.0.1/24", "ip access-group L in", *more), *OSPF, *LISTS)
        return guard, b

    def test_blocked(self) -> None:
        self.assertEqual(self.answer(blocked("10.1.0.0/24", "10.2.0.0/24"), *pair()), "no")
        self.assertEqual(self.answer(blocked("10.1.0.0/24", "10.2.0.0/24"), *self.guarded()), "yes")
        self.assertEqual(self.answer(blocked("10.2.0.0/24", "10.1.0.0/24"), *self.guarded()), "no")

    def test_what_the_routing_does_is_told_beside_a_no(self) -> None:
        a, b = pair()
        quiet = router("b", *face("Gi0/0", "10.0.0.2/30", "ip ospf 1 area 0"), *face("Gi0/1", "10.2.0.1/24"), "router ospf 1")
        policy = blocked("10.1.0.0/24", "10.2.0.0/24")
        self.assertEqual(asked(ARCV, self.folder, [policy], a, quiet).routed, {0: True})
        self.assertEqual(asked(ARCV, self.folder, [policy], a, b).routed, {0: False})
        still = router("b", *face("Gi0/0", "10.0.0.2/30", "ip ospf 1 area 0"), *face("Gi0/1", "10.2.0.1/24"), "router ospf 1", "ip route 0.0.0.0 0.0.0.0 10.0.0.1")
        self.assertEqual(asked(ARCV, self.folder, [policy], a, still).routed, {})

    def test_blocked_whatever_the_routing_does(self) -> None:
        a, b = pair()
        quiet = router("b", *face("Gi0/0", "10.0.0.2/30"), *face("Gi0/1", "10.2.0.1/24"), "ip route 10.1.0.0 255.255.255.0 10.0.0.1")
        self.assertEqual(self.answer(blocked("10.1.0.0/24", "10.2.0.0/24"), a, quiet), "no")

    def test_lines_by_which_packets_may_pass_need_a_yes(self) -> None:
        for line in ("ip nat inside", "crypto map VPN", "a-new-feature on"):
            self.assertEqual(self.answer(blocked("10.1.0.0/24", "10.2.0.0/24"), *self.guarded(line)), "yours", line)
        self.assertEqual(self.answer(blocked("10.1.0.0/24", "10.2.0.0/24"), *self.guarded("ip verify unicast reverse-path")), "yes")

    def test_such_lines_where_packets_do_not_get_to(self) -> None:
        a, b = self.guarded()
        far = router("c", *face("Gi0/0", "10.9.0.1/24", "ip nat inside"), *face("Gi0/1", "10.2.0.9/24"), *OSPF)
        self.assertEqual(self.answer(blocked("10.1.0.0/24", "10.2.0.0/24"), a, b, far), "yes")

    def test_a_way_outside_may_come_back(self) -> None:
        a, b = self.guarded()
        out = [router(name, *face("Gi0/5", f"192.0.2.{place}/30"), *face("Gi0/6", f"10.{place}.9.1/24"), *OSPF) for place, name in ((1, "x"), (5, "y"))]
        policy = blocked("10.1.9.0/24", "10.5.9.0/24")
        self.assertEqual(self.answer(policy, a, b, *out), "no")
        self.assertEqual(self.answer(policy, a, b, *out, alone=("192.0.2.0/30",)), "yes")

    def test_reach(self) -> None:
        self.assertEqual(self.answer(reach("10.1.0.0/24", "10.2.0.0/24"), *pair()), "yes")
        self.assertEqual(self.answer(reach("10.1.0.0/24", "10.2.0.0/24", 1), *pair()), "no")
        self.assertEqual(self.answer(reach("10.1.0.0/24", "10.2.0.0/24"), *pair(("ip ospf hello-interval 5",))), "no")
        self.assertEqual(self.answer(reach("10.1.0.0/24", "10.2.0.0/24"), *pair(("encapsulation ppp",))), "yours")
        self.assertEqual(self.answer(reach("10.1.0.0/24", "10.2.0.0/24"), *pair(("ip verify unicast reverse-path",))), "yours")
        self.assertEqual(self.answer(reach("10.1.0.0/24", "10.2.0.0/24"), *pair(("ip policy route-map X",))), "none")
        self.assertEqual(self.answer(reach("10.1.0.0/24", "10.2.0.0/24"), *pair(more_a=("ip route 10.2.0.0 255.255.255.0 Null0",))), "none")
        self.assertEqual(self.answer(reach("10.1.0.0/24", "10.2.0.0/24"), *pair(more_a=("ip route 0.0.0.0 0.0.0.0 Null0",))), "yes")

    def test_links_over_one_port_fail_together(self) -> None:
        lines = ("router ospf 1", " passive-interface Gi0/1", " network 0.0.0.0 255.255.255.255 area 0")
        ends = [[line for part in range(count) for line in face(f"Gi0/0.{part}", f"10.0.{part}.{side}/30", f"encapsulation dot1Q {part}")]
                for count, side in ((2, 1), (2, 2))]
        a, b = (router(name, *end, *face("Gi0/1", f"10.{side}.0.1/24"), *lines) for name, end, side in (("a", ends[0], 1), ("b", ends[1], 2)))
        self.assertEqual(self.answer(reach("10.1.0.0/24", "10.2.0.0/24", 0), a, b), "yes")
        self.assertEqual(self.answer(reach("10.1.0.0/24", "10.2.0.0/24", 1), a, b), "yours")

    def test_a_second_router_in_a_network_without_a_process(self) -> None:
        a, b = pair()
        other = router("c", *face("Gi0/7", "10.2.0.9/24"), "ip route 0.0.0.0 0.0.0.0 10.2.0.1")
        self.assertEqual(self.answer(reach("10.1.0.0/24", "10.2.0.0/24"), a, b, other), "none")
        host = router("c", *face("Gi0/7", "10.2.0.9/24"), "no ip routing")
        self.assertEqual(self.answer(reach("10.1.0.0/24", "10.2.0.0/24"), a, b, host), "yes")

    def test_an_address_that_another_device_gives(self) -> None:
        lost = router("c", "interface Gi0/0", " ip address dhcp", *face("Gi0/1", "10.3.0.1/24"))
        self.assertEqual(self.answer(blocked("10.1.0.0/24", "10.2.0.0/24"), *self.guarded(), lost), "yours")

    def test_a_waypoint_that_is_not_there(self) -> None:
        policy = documents.Policy("through", "10.1.0.0/24", "10.2.0.0/24")
        self.assertEqual(self.answer(policy, *pair(), waypoints=("fw",)), "none")
        self.assertEqual(self.answer(policy, *pair(), waypoints=("b",)), "yes")

    def test_each_gateway_has_to_reach(self) -> None:
        a, b = pair()
        second = router("c", *face("Gi0/7", "10.1.0.2/24", "standby 1 ip 10.1.0.254"), *OSPF)
        self.assertEqual(self.answer(reach("10.1.0.0/24", "10.2.0.0/24"), a, b, second), "no")

    def test_a_wide_prefix_is_asked_in_parts(self) -> None:
        made = asked(ARCV, self.folder, [blocked("10.0.0.0/8", "10.2.0.0/24")], *self.guarded())
        self.assertEqual({reply.block.answer for reply in made.joined[0].replies if reply.block}, {"yes", "no"})
        self.assertEqual(self.answer(blocked("172.16.0.0/16", "10.2.0.0/24"), *pair()), "none")


@unittest.skipUnless(ARCV, "no program is built")
class Networks(unittest.TestCase):
    def test_the_table_of_the_page_is_what_comes_of_them(self) -> None:
        with open(os.path.join(TOP, "docs", "real-networks.md"), encoding="utf-8") as file:
            page = file.read().split("\n")
        for line in table.text(ARCV).split("\n"):
            self.assertIn(line, page, "docs/real-networks.md: python3 -m ops.tests.table makes its table")


class Command(WithFolder):
    def files(self) -> str:
        for name, text in (("a", pair()), ("b", pair())):
            lines = [f"hostname {name}", *face("GigabitEthernet0/0", f"10.0.0.{1 if name == 'a' else 2}/30"),
                     *face("GigabitEthernet0/1", f"10.{1 if name == 'a' else 2}.0.1/24", f"description Floor {name}"), "router ospf 1",
                     " network 0.0.0.0 255.255.255.255 area 0", " passive-interface GigabitEthernet0/1", "end", ""]
            self.write(f"net/{name}.cfg", "\n".join(lines))
        return self.path("net")

    @unittest.skipUnless(ARCV, "no program is built")
    def test_first_and_again(self) -> None:
        folder = self.files()
        first = tool("start", folder, "--arcv", ARCV)
        self.assertEqual((first.returncode, first.stderr), (1, ""))
        self.assertIn("floor-a reaches floor-b", first.stdout)
        self.assertTrue(all(len(line) <= 80 for line in first.stdout.split("\n")))
        self.assertIn("--again", tool("start", folder, "--arcv", ARCV).stderr)
        self.write("net/arcv/policies.txt", "p: floor-a reaches floor-b\n")
        again = tool("start", folder, "--arcv", ARCV, "--again", "--json")
        self.assertEqual(again.returncode, 0)
        self.assertEqual([(one["name"], one["answer"]) for one in json.loads(again.stdout)], [("p", "yes")])
        printed = read(self.path("net/arcv/answers.txt"))
        self.assertIn("  yes: p: floor-a reaches floor-b while no link has failed [exact]\n", printed)
        self.assertIn("  exact: the exact copy, which routes as the files say. Entries of its lists: as\n", printed)
        self.write("net/b.cfg", "hostname b\nend\n")
        self.assertIn("b.cfg has a line `hostname ..` and no", tool("start", folder, "--arcv", ARCV, "--again").stderr)
        os.remove(self.path("net/b.cfg"))
        self.assertIn("(new;", tool("start", folder, "--arcv", ARCV, "--again").stdout)

    def test_what_is_wrong(self) -> None:
        self.assertIn("is no folder", tool("start", self.path("not-there"), "--arcv", "/bin/true").stderr)
        os.makedirs(self.path("empty"))
        self.assertIn("has no running-config", tool("start", self.path("empty"), "--arcv", "/bin/true").stderr)
        folder = self.files()
        self.assertIn("is no program", tool("start", folder, "--arcv", self.path("no")).stderr)
        self.write("rows.txt", "nonsense\n")
        self.assertIn("rows.txt:1", tool("start", folder, "--arcv", "/bin/true", "--rows", self.path("rows.txt")).stderr)
        self.write("net/c.cfg", "\n")
        self.assertIn("c.cfg is empty", tool("start", folder, "--arcv", "/bin/true").stderr)
        self.write("net/c.cfg", "hostname a\ninterface Loopback0\nend\n")
        self.assertIn("both of a", tool("start", folder, "--arcv", "/bin/true").stderr)
        for run in (tool("start", "--help"), tool("quiet", "--help")):
            self.assertEqual(run.returncode, 0)
            self.assertIn("example", run.stdout)

    @unittest.skipUnless(ARCV, "no program is built")
    def test_what_was_decided_once(self) -> None:
        folder = self.files()
        self.write("net/a.cfg", read(self.path("net/a.cfg")).replace(" description", " ip nat inside\n description"))
        self.write("net/arcv/policies.txt", "p: floor-a never reaches floor-b tcp 22\n")
        first = tool("start", folder, "--arcv", ARCV).stdout
        self.assertIn("NO: p", first)
        self.assertIn("No list is bound on this way.", first)
        lists = "ip access-list extended L\n deny ip any any\nend"
        self.write("net/a.cfg", read(self.path("net/a.cfg")).replace(" ip nat", " ip access-group L in\n ip nat").replace("\nend", "\n" + lists))
        asked_of = tool("start", folder, "--arcv", ARCV, "--again").stdout
        self.assertIn("yes, if you say so too: p", asked_of)
        self.assertIn("addresses of packets are changed (1 line: a.cfg:8)", asked_of)
        self.write("net/arcv/rows.txt", "interface | ip nat | nothing | to the Internet alone\nsegment | 10.0.0.0/30 | nothing | a cable\n")
        said = tool("start", folder, "--arcv", ARCV, "--again")
        self.assertIn("  yes: p", said.stdout)
        self.assertIn("you say of `ip nat`: nothing, since: to the Internet alone", said.stdout)
        self.assertEqual(said.returncode, 0)

    def test_a_first_text_of_many_networks(self) -> None:
        names = {f"10.{number}.0.0/24": f"net-{number}" for number in range(40)}
        self.assertEqual(len(statements.read_policies(start.first_text(names, list(names)), {name: prefix for prefix, name in names.items()})), 240)


class Quiet(WithFolder):
    def test_line_numbers_stay(self) -> None:
        path = self.write("r1.cfg", "hostname r1\nip dhcp pool X\n network 10.0.0.0 255.0.0.0\n!\ninterface Gi0/0\n ip flow ingress\n ip nat inside\nend\n")
        run = tool("quiet", "--to", self.path("out"), path)
        with open(self.path("out/r1.cfg"), encoding="utf-8") as file:
            self.assertEqual(file.read(), "hostname r1\n! ip dhcp pool X\n ! network 10.0.0.0 255.0.0.0\n!\ninterface Gi0/0\n ! ip flow ingress\n ip nat inside\nend\n")
        self.assertEqual(len(run.stdout.split("\n")), 4)

    def test_nothing_is_written_over_without_force(self) -> None:
        path = self.write("r1.cfg", "hostname r\udce9\nip dhcp pool caf\udce9\nend\n")
        first = tool("quiet", "--to", self.path("out"), "--json", path)
        self.assertEqual([(one["line"], one["text"]) for one in json.loads(first.stdout)], [(2, "ip dhcp pool caf\udce9")])
        self.assertEqual(read(self.path("out/r1.cfg")), "hostname r\udce9\n! ip dhcp pool caf\udce9\nend\n")
        self.write("r2.cfg", "hostname r2\n")
        again = tool("quiet", "--to", self.path("out"), self.path("r2.cfg"), path)
        self.assertEqual((again.returncode, os.listdir(self.path("out"))), (2, ["r1.cfg"]))
        self.assertIn("--force writes over it", " ".join(again.stderr.split()))
        self.assertEqual(tool("quiet", "--to", self.path("out"), "--force", self.path("r2.cfg")).returncode, 0)

    def test_adjacencies_only_where_they_are_asked_for(self) -> None:
        path = self.write("r1.cfg", "interface Gi0/0\n ip ospf authentication\n standby 1 ip 10.0.0.1\nrouter ospf 1\n area 0 authentication\n redistribute static\n")
        tool("quiet", "--to", self.path("one"), path)
        tool("quiet", "--to", self.path("two"), "--adjacencies", path)
        with open(self.path("one/r1.cfg"), encoding="utf-8") as file:
            self.assertNotIn("!", file.read())
        with open(self.path("two/r1.cfg"), encoding="utf-8") as file:
            self.assertEqual(file.read().count("!"), 2)
