"""Faults planted in the running network are found, and the row or packet is named. It needs what the lab needs, and a built arcv in
the environment as ARCV; else it is skipped."""
import os
import unittest
from typing import Optional

from lab import desk, plants, routes
from lab.program import Program
from lab.runner import Options, Run
from lab.spaces import Spaces

ARCV = os.environ.get("ARCV")
SPACES: list[Spaces] = []


def spaces() -> Spaces:
    """The one run of all tests here."""
    if not SPACES:
        SPACES.append(Spaces())
    return SPACES[0]


@unittest.skipIf(desk.missing() is not None or not ARCV, "the lab cannot run here, or ARCV names no program")
class Plants(unittest.TestCase):
    def found(self, kind: Optional[str], example: str, down: set[int], line: Optional[tuple[str, str, str]] = None) -> list[str]:
        """The differences of an example under one failure set, with a line put into a file behind another."""
        program = Program(os.path.abspath(ARCV or ""), os.path.join(spaces().folder, self.id()))
        document = desk.lay(os.path.join(desk.TOP, "examples", example, "net.json"), program.folder)
        if line:
            self.put(os.path.join(program.folder, line[0]), *line[1:])
        self.addCleanup(setattr, routes, "FIRM", routes.FIRM)
        run = Run(program, document, Options(0, frozenset(down)), lambda _: None, spaces())
        if kind:
            routes.FIRM = 5.0
            plants.plant(kind, run)
        return run.run().differences

    def put(self, path: str, behind: str, line: str) -> None:
        with open(path) as file:
            text = file.read()
        self.assertIn(behind, text)
        with open(path, "w") as file:
            file.write(text.replace(behind, f"{behind}\n{line}"))

    def named(self, differences: list[str], text: str) -> None:
        self.assertTrue(any(text in line for line in differences), differences)

    def test_nothing_planted(self) -> None:
        self.assertEqual(self.found(None, "square", {2}), [])

    def test_a_cost_that_is_one_more(self) -> None:
        self.named(self.found("cost", "square", set()), "row north 10.1.0.0/24: arcv says 10 via 1, FRR 11 via 1")

    def test_a_list_at_the_wrong_side(self) -> None:
        self.named(self.found("list", "services", set()), "the list inbound at branch:GigabitEthernet0/2 denies it, and it went on")

    def test_an_adjacency_left_up(self) -> None:
        passive = ("1-west.cfg", " passive-interface GigabitEthernet0/0", " passive-interface GigabitEthernet0/1")
        self.named(self.found("session", "square", {3}, passive), "row west 10.4.0.0/24: arcv says none, FRR 20 via 1")

    def test_a_session_left_up(self) -> None:
        shut = ("1-paris.cfg", " neighbor 10.0.1.2 description lyon", " neighbor 10.0.1.2 shutdown")
        self.named(self.found("session", "triangle", {2}, shut), "row paris 10.2.0.0/24: arcv says none, FRR 1 via 1")

    def test_a_failure_that_is_not_applied(self) -> None:
        self.named(self.found("failure", "square", {2}), "row west 10.4.0.0/24: arcv says 20 via 3, FRR 20 via 1 3")


if __name__ == "__main__":
    unittest.main()
