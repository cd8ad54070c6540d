"""The checker on a few random networks; `python3 -m ops.tests.checker` runs it on 500."""
import contextlib
import io
import unittest

from ops.tests import checker
from ops.tests.given import program


@unittest.skipUnless(program(), "no program is built")
class Checker(unittest.TestCase):
    def test_no_yes_is_wrong(self) -> None:
        said = io.StringIO()
        with contextlib.redirect_stdout(said):
            status = checker.main(["--networks", "12", "--seed", "7000", "--tries", "60", "--arcv", program()])
        self.assertEqual(status, 0, said.getvalue())
