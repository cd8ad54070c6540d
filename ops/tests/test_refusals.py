"""Every refused line is listed, and the files stay as they are."""
import json
import unittest

from ops.tests.given import WithFolder, program, read, tool


@unittest.skipUnless(program(), "no program is built")
class Refusals(WithFolder):
    def test_every_line_of_every_file(self) -> None:
        self.lay("office")
        for name in ("hq.cfg", "warehouse.cfg"):
            self.write(
                name,
                read(self.path(name)).replace(
                    "!\ninterface GigabitEthernet0/1\n",
                    "!\nip nat pool X\ninterface GigabitEthernet0/1\n ip ospf cost 0\n",
                ),
            )
        before = read(self.path("hq.cfg"))
        done = tool("refusals", "net.json", "--arcv", program(), "--json", folder=self.folder)
        self.assertEqual(done.returncode, 1, done.stderr)
        found = json.loads(done.stdout)
        self.assertEqual([(line["file"], line["kind"], line["text"]) for line in found["lines"]], [
            (name, kind, text) for name in ("hq.cfg", "warehouse.cfg") for kind, text in (("unknown-line", "ip nat pool X"), ("bad-word", "ip ospf cost 0"))
        ])
        self.assertIn("wrong word: 0", found["lines"][1]["word"])
        self.assertIsNone(found["then"])
        self.assertEqual(read(self.path("hq.cfg")), before)
        lines = tool("refusals", "net.json", program(), folder=self.folder).stdout.split("\n")
        self.assertEqual((lines[0].split(": ", 1)[1], lines[-2]), ("unknown-line: ip nat pool X", "4 refused lines"))

    def test_nothing_is_refused(self) -> None:
        self.lay("office")
        done = tool("refusals", "net.json", program(), folder=self.folder)
        self.assertEqual((done.returncode, done.stdout), (0, "0 refused lines\n"))

    def test_what_is_left(self) -> None:
        self.lay("office")
        self.write("net.json", read(self.path("net.json")).replace("10.20.0.0/24", "10.77.0.0/24"))
        done = tool("refusals", "net.json", program(), folder=self.folder)
        self.assertEqual(done.returncode, 1)
        self.assertIn("then: refused net.json 3 endpoint\n", done.stdout)

    def test_ends_of_links_that_are_no_interface(self) -> None:
        self.lay("office")
        text = read(self.path("net.json"))
        for end, says in (("hq:Gi0/1", "hq has no interface Gi0/1; is it hq:GigabitEthernet0/1?"), ("hg:GigabitEthernet0/1", "no file has a router hg"),
                          ("hq:Te9/9", "hq has no interface Te9/9")):
            self.write("net.json", text.replace("hq:GigabitEthernet0/1", end))
            done = tool("refusals", "net.json", program(), folder=self.folder)
            self.assertIn(f"then: refused net.json 1 link-face\n    {says}\n", done.stdout)


if __name__ == "__main__":
    unittest.main()
