"""Running-configs with lines that are gone, cut, doubled or changed: whatever stands in them, an answer comes and no traceback."""
import os
import random
import unittest

from ops import answers, asking, captures, documents, hosts, links, names, reports, routers, rules, statements, telling
from ops.tests.table import NETWORKS, captures_of

TABLE = rules.table(None)
WORDS = (b"x", b"999.1.1.1", b"10.0.0.300", b"-1", b"0", b"any", b"host", b"255.0.255.0", b"7", b"area", b"\xff", b"vrf")


class Silent(asking.Asker):
    """Asks nobody."""

    def __init__(self) -> None:
        super().__init__("", "")

    def lay(self, name: str, files: dict[str, str], document: documents.Document, said: names.CopyMap) -> str:
        return ""

    def report(self, path: str) -> tuple[list[reports.Block], str]:
        return [], "refused net.json 0 nothing-asked"


def spoilt(data: bytes, dice: random.Random) -> bytes:
    """The lines of a file with some of them spoilt."""
    lines = data.split(b"\n")
    for _ in range(dice.randrange(60)):
        place = dice.randrange(len(lines))
        words = lines[place].split(b" ")
        way = dice.randrange(6)
        if way == 0:
            del lines[place]
        elif way == 1:
            words.pop(dice.randrange(len(words)))
            lines[place] = b" ".join(words)
        elif way == 2:
            lines[place] = lines[dice.randrange(len(lines))]
        elif way == 3:
            words[dice.randrange(len(words))] = dice.choice(WORDS)
            lines[place] = b" ".join(words)
        elif way == 4:
            lines.insert(place, lines[place][: dice.randrange(len(lines[place]) + 1)])
        else:
            lines.insert(place, b" " + lines[place])
    return b"\n".join(lines)


class Hostile(unittest.TestCase):
    def test_no_file_ends_in_a_traceback(self) -> None:
        for seed, network in enumerate(sorted(os.listdir(NETWORKS)) * 2):
            with self.subTest(seed=seed, network=network):
                self.ask(network, random.Random(seed))

    def ask(self, network: str, dice: random.Random) -> None:
        found: list[routers.Router] = []
        for path in captures_of(network):
            with open(path, "rb") as file:
                router = routers.read(captures.strip(os.path.basename(path), spoilt(file.read(), dice)), TABLE)
            found += [router] if router.name and all(router.name != other.name for other in found) else []
        segments = links.segments(found)
        links.join_outside(found, segments, [])
        nets = list(hosts.named(segments, [], {}))
        policies = [documents.Policy(kind, source, target, 1 if kind == "reach" else None)
                    for source in nets for target in nets if source != target for kind in (dice.choice(documents.KINDS),)]
        made = answers.Answers(found, segments, [statements.Named("", policy) for policy in policies[:20]], Silent(), TABLE, {})
        made.ask()
        for lines in (telling.cannot_lines(made), telling.yours_lines(made), telling.premises(segments, made, [])):
            self.assertIsInstance(lines, list)
        self.assertTrue(telling.changes_text(found, made, segments))


if __name__ == "__main__":
    unittest.main()
