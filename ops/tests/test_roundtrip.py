"""The whole way, with the program: a network in which something is broken, its repair, onto its routers and back."""
import json
import os
import unittest

from ops.commands import run_arcv
from ops.copies import original_text
from ops.tests.given import TOP, WithFolder, program, read, tool
from ops.tests.ios_router import Router
from ops.tests.meaning import meaning

NETWORKS = os.path.join(TOP, "ops", "tests", "networks")
HAS = unittest.skipUnless(program(), "no program is built")


@HAS
class RoundTrip(WithFolder):
    """Break a network, repair it, plan, enter, fetch, verify, recheck; and put the repair into the files as well."""

    def way(self, example: str, broken: str, line: str, policy: str) -> None:
        self.lay(example)
        text = read(self.path(broken))
        self.assertIn(line, text)
        self.write(broken, text.replace(line, "", 1))
        originals = {name: read(self.path(name)) for name in os.listdir(self.folder) if name.endswith(".cfg")}
        self.quiet()
        self.ask("verify", "repair.json", 1)
        self.assertIn(f"{policy} no ", self.ask("verify", "repair.json", 1))
        done = tool(
            "repair-steps", "repair.json", "--out", ".new", "--proof", "cert", "--after", "aft.json", "--arcv",
            program(), folder=self.folder,
        )
        self.assertEqual(done.returncode, 0, done.stderr)
        report = self.ask("verify", "aft.json", 0)
        self.write("aft.txt", report)
        self.assertEqual(self.ask("check", "repair.json", 0, "cert"), "accepted\n")
        words = ("repair.json", "cert", "--originals", ".", "--arcv", program())
        plan = tool("plan", *words, "--json", folder=self.folder)
        self.assertEqual(plan.returncode, 0, plan.stderr)
        entered = json.loads(tool("enter", *words, "--json", folder=self.folder).stdout)
        self.assertEqual(
            sorted(row["router"] for row in json.loads(plan.stdout)["routers"]),
            sorted(row["router"] for row in entered),
        )
        back = tool("back", *words, "--out", ".real", folder=self.folder)
        self.assertEqual(back.returncode, 0, back.stderr)
        self.enter(entered, originals)
        self.quiet()
        self.ask("verify", "repair.json", 0)
        self.assertNotIn(" new", self.ask("recheck", "repair.json", 0, "aft.txt"))
        for name in originals:
            self.write(
                name,
                read(self.path(name + ".real")) if os.path.exists(self.path(name + ".real")) else originals[name],
            )
        self.quiet()
        self.ask("verify", "repair.json", 0)

    def test_parts_of_routes(self) -> None:
        self.lay("edge")
        self.write("text", "203.0.113.0/24 never reaches 198.19.0.0/24\n198.18.0.0/24 never reaches 198.19.0.0/24 tcp 22 both ways\n"
                   "203.0.114.0/24 never reaches 198.18.0.0/24 udp\n203.0.113.0/24 reaches 203.0.114.0/24 survives 1 both ways\n"
                   "198.19.0.0/24 reaches 198.18.0.0/24 tcp 443 only through waypoints\n")
        self.assertEqual(tool("policies", "text", "net.json", "--out", "asked.json", folder=self.folder).returncode, 0)
        done = tool(
            "repair-steps", "asked.json", "--out", ".new", "--proof", "cert", "--after", "aft.json", "--parts",
            "--arcv", program(), folder=self.folder,
        )
        self.assertEqual(done.returncode, 0, done.stderr)
        self.assertIn("The least price is at least 1 and at most ", done.stdout)
        self.ask("verify", "aft.json", 0)
        self.assertEqual(
            run_arcv(program(), ["apply", "asked.json", "cert.edits", "--out", ".again"], self.folder).status, 0
        )
        for name in os.listdir(self.path("quiet")):
            if name.endswith(".new"):
                self.assertEqual(
                    read(self.path("quiet/" + name)), read(self.path("quiet/" + name.removesuffix(".new") + ".again"))
                )
        words = ("asked.json", "cert.edits", "--originals", ".", "--arcv", program())
        for row in json.loads(tool("enter", *words, "--json", folder=self.folder).stdout):
            router = Router(read(self.path(row["router"] + ".cfg")))
            router.enter(row["enter"])
            self.write(row["router"] + ".cfg", router.config())
        self.quiet()
        self.ask("verify", "asked.json", 0)

    def enter(self, entered: list[dict[str, list[str]]], originals: dict[str, str]) -> None:
        """Enters the steps on routers with the original files, beside those that bin/back wrote."""
        for row in entered:
            name = row["router"] + ".cfg"
            router = Router(originals[name])
            router.enter(row["enter"])
            self.write(name, router.config())
            self.assertEqual(meaning(router.config()), meaning(read(self.path(name + ".real"))))
            router.enter(row["back"])
            self.assertEqual(meaning(router.config()), meaning(originals[name]))

    def quiet(self) -> None:
        files = sorted(name for name in os.listdir(self.folder) if name.endswith(".cfg"))
        done = tool("quiet", "--force", *files, folder=self.folder)
        self.assertEqual(done.returncode, 0, done.stderr)

    def ask(self, command: str, document: str, status: int, *more: str) -> str:
        answer = run_arcv(program(), [command, document, *more], self.folder)
        self.assertEqual(answer.status, status, answer.reason())
        return answer.out

    def test_campus(self) -> None:
        self.way("campus", "wifi.cfg", " ip access-group FROM-GUESTS in\n", "5 blocked")

    def test_edge(self) -> None:
        self.way("edge", "provider-a.cfg", " neighbor 10.254.2.1 prefix-list FROM-CUSTOMER in\n", "4 through")


@HAS
class RoundTripOfCaptures(WithFolder):
    """From the captures of a network in which a policy does not hold, by way of its copies, onto its routers and
    back."""

    def start(self, folder: str) -> str:
        done = tool(
            "start", folder, "--policies", "policies.txt", "--to", folder + "/arcv", "--arcv", program(),
            folder=self.folder,
        )
        self.assertEqual(done.stderr, "")
        return done.stdout.strip().split("\n")[-1]

    def way(self, network: str, copy: str, *more: str) -> None:
        source = os.path.join(NETWORKS, network)
        for name in os.listdir(source):
            self.write(name if name == "policies.txt" else "net/" + name, read(os.path.join(source, name)))
        self.assertIn(" 1 no, 0 not answered", self.start("net"))
        place = self.path(f"net/arcv/{copy}")
        done = tool(
            "repair-steps", "net.json", "--out", ".new", "--proof", "cert", "--after", "aft.json", "--arcv",
            program(), folder=place,
        )
        self.assertEqual(done.returncode, 0, done.stderr)
        self.assertNotIn("adjacency at", done.stdout)
        words = ("net.json", "cert", "--arcv", program(), *more)
        rows = json.loads(tool("plan", *words, "--json", folder=place).stdout)["routers"]
        steps = json.loads(tool("enter", *words, "--json", folder=place).stdout)
        self.assertEqual([row["router"] for row in rows], [row["router"] for row in steps])
        self.assertEqual(tool("back", *words, "--out", ".real", folder=place).returncode, 0)
        self.enter(steps)
        for folder in ("entered", "put"):
            for name in os.listdir(source):
                if name != "policies.txt" and not os.path.exists(self.path(f"{folder}/{name}")):
                    self.write(f"{folder}/{name}", read(os.path.join(source, name)))
            self.assertIn(" 0 no, 0 not answered", self.start(folder))
            status, is_kept = self.rechecked(place, self.path(f"{folder}/arcv/{copy}"))
            self.assertEqual(status, 0)
            self.assertTrue(is_kept or more)

    def rechecked(self, old: str, new: str) -> tuple[int, bool]:
        """The status of `recheck` over the new copy, of the report that was made over the repaired one; whether every
        answer is kept."""
        report = run_arcv(program(), ["verify", "aft.json"], old)
        self.assertEqual(report.status, 0, report.reason())
        self.write("old.txt", report.out)
        answer = run_arcv(program(), ["recheck", "net.json", self.path("old.txt")], new)
        return answer.status, " new" not in answer.out

    def enter(self, steps: list[dict[str, list[str]]]) -> None:
        """Enters the steps on routers with the captured configurations, beside the files that bin/back wrote."""
        for name in sorted(os.listdir(self.path("net"))):
            if name.endswith(".real"):
                original = original_text(self.path("net/" + name.removesuffix(".real")))
                real = read(self.path("net/" + name))
                row = next(row for row in steps if f"hostname {row['router']}\n" in original)
                router = Router(original)
                router.enter(row["enter"])
                self.write("entered/" + name.removesuffix(".real"), router.config())
                self.write("put/" + name.removesuffix(".real"), real)
                self.assertEqual(meaning(router.config()), meaning(real))
                router.enter(row["back"])
                self.assertEqual(meaning(router.config()), meaning(original))

    def test_terminal_and_open_copy(self) -> None:
        self.way("metro-ring", "open")

    def test_entries_that_are_joined(self) -> None:
        self.way("hub-subinterfaces", "exact", "--join")

    def test_subinterfaces_and_exact_copy(self) -> None:
        self.way("hub-subinterfaces", "exact")


if __name__ == "__main__":
    unittest.main()
