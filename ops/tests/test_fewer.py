"""Entries that are joined match the same packets."""
import random
import unittest

from ops.documents import network
from ops.fewer import Box, box_of, join


def halves(box: Box, dice: random.Random) -> list[Box]:
    """The box cut in two at random: by source, by target or by ports."""
    end = dice.choice(("source", "target", "ports"))
    if end == "ports":
        first, last = box.ports
        if box.proto == "ip" or first == last:
            return [box]
        middle = dice.randrange(first, last)
        return [
            Box(box.action, box.proto, box.source, box.target, ports)
            for ports in ((first, middle), (middle + 1, last))
        ]
    net = network(getattr(box, end))
    if net.prefixlen == 32:
        return [box]
    made = []
    for half in net.subnets():
        ends = {"source": box.source, "target": box.target, end: str(half)}
        made.append(Box(box.action, box.proto, ends["source"], ends["target"], box.ports))
    return made


def holds(box: Box, packet: tuple[str, str, str, int]) -> bool:
    proto, source, target, port = packet
    ends = network(source + "/32").subnet_of(network(box.source)) and network(target + "/32").subnet_of(
        network(box.target)
    )
    return ends and (box.proto == "ip" or box.proto == proto and box.ports[0] <= port <= box.ports[1])


class Join(unittest.TestCase):
    def test_examples(self) -> None:
        whole = ["deny tcp 10.1.0.0 0.0.0.255 10.2.0.0 0.0.0.255 eq 22"]
        self.assertEqual(
            join(
                [
                    "deny tcp 10.1.0.0 0.0.0.127 10.2.0.0 0.0.0.255 eq 22",
                    "deny tcp 10.1.0.128 0.0.0.127 10.2.0.0 0.0.0.255 eq 22",
                ]
            ),
            whole,
        )
        self.assertEqual(
            join(["deny udp any host 10.0.0.1 range 0 52", "deny udp any host 10.0.0.1 range 53 65535"]),
            ["deny udp any host 10.0.0.1"],
        )
        apart = [
            "deny tcp any host 10.0.0.1 eq 22", "permit tcp any host 10.0.0.0 eq 22",
            "deny udp any host 10.0.0.0 eq 22", "deny tcp any host 10.0.0.2 eq 22",
        ]
        self.assertEqual(join(apart), apart)

    def test_packets_in_common(self) -> None:
        texts = ["permit tcp host 10.0.0.1 any eq 22", "deny tcp host 10.0.0.0 any", "deny tcp host 10.0.0.1 any"]
        self.assertEqual(join(texts), texts)

    def test_entries_of_another_form_are_told(self) -> None:
        with self.assertRaises(ValueError):
            join(["deny ip any host 10.0.0.1 established"])

    def test_pieces_come_together(self) -> None:
        for seed in range(60):
            dice = random.Random(seed)
            boxes = [
                Box("deny", dice.choice(("tcp", "udp")), "10.1.0.0/24", f"10.{number}.0.0/24") for number in (2, 5)
            ]
            for _ in range(dice.randrange(1, 12)):
                at = dice.randrange(len(boxes))
                boxes[at : at + 1] = halves(boxes[at], dice)
            dice.shuffle(boxes)
            made = [box_of(text) for text in join([box.text() for box in boxes])]
            self.assertLessEqual(len(made), len(boxes))
            for _ in range(200):
                packet = (
                    dice.choice(("tcp", "udp")), f"10.1.0.{dice.randrange(256)}",
                    f"10.{dice.choice((2, 5))}.0.{dice.randrange(256)}", dice.randrange(65536),
                )
                self.assertEqual(any(holds(box, packet) for box in boxes), any(holds(box, packet) for box in made))
                self.assertLessEqual(sum(holds(box, packet) for box in made), 1)


if __name__ == "__main__":
    unittest.main()
