"""Captures: what a terminal adds goes, and no line of the configuration goes with it."""
import unittest

from ops import captures, ios

LINES = ["version 15.2", "!", "hostname r1", "!", "interface GigabitEthernet0/0", " description r2#not a prompt", " ip address 10.0.0.1 255.255.255.0",
         "!", "banner motd ^C", "r9#show run", "^C", "!", "end"]


def texts(data: bytes) -> list[str]:
    return [line.text for line in captures.strip("r1.cfg", data).lines]


class Captures(unittest.TestCase):
    def test_plain(self) -> None:
        self.assertEqual(texts("\n".join(LINES).encode()), LINES)

    def test_ends_of_lines_and_marks_at_the_front(self) -> None:
        for end in ("\n", "\r\n", "\r\r\n"):
            with self.subTest(end=end):
                self.assertEqual(texts(b"\xef\xbb\xbf" + end.join(LINES).encode()), LINES)
        self.assertEqual(texts("\n".join(LINES).encode("utf-16")), LINES)

    def test_what_was_typed_and_said(self) -> None:
        front = ["r1#terminal length 0", "r1#show running-config", "Building configuration...", "", "Current configuration : 999 bytes",
                 "! Last configuration change at 10:00:00 UTC Mon Mar 2 2026 by admin"]
        found = captures.strip("r1.cfg", "\n".join([*front, *LINES, "", "r1#exit"]).encode())
        self.assertEqual([line.text for line in found.lines if line.text], LINES)
        self.assertEqual(found.lines[1].number, 7)
        self.assertTrue(found.is_whole)

    def test_pages(self) -> None:
        for mark in (" --More-- " + "\x08" * 9 + " " * 8 + "\x08" * 9, " --More-- \r" + " " * 16 + "\r", " --More-- \x1b[K", "--More--" + "\x08" * 8 + " " * 8 + "\x08" * 8,
                     " --More-- " + " " * 8, " --More-- \r", " --More-- " + "\x08" * 10):
            with self.subTest(mark=mark):
                paged = [mark + line if place in (5, 6) else line for place, line in enumerate(LINES)]
                self.assertEqual(texts("\r\n".join(paged).encode()), LINES)

    def test_messages_between_lines(self) -> None:
        said = "*Mar  2 10:00:00.123: %SYS-5-CONFIG_I: Configured from console by admin on vty0 (10.0.0.9)"
        self.assertEqual(texts("\n".join([*LINES[:6], said, *LINES[6:]]).encode()), LINES)

    def test_one_that_was_cut_off_is_not_whole(self) -> None:
        self.assertFalse(captures.strip("r1.cfg", "\n".join(LINES[:-2]).encode()).is_whole)

    def test_what_follows_the_end_is_dropped_and_told(self) -> None:
        found = captures.strip("r1.cfg", "\n".join([*LINES, "r1#show version", "interface GigabitEthernet9/9"]).encode())
        self.assertEqual([line.text for line in found.lines], LINES)
        self.assertEqual([line.number for line in found.dropped], [14, 15])


class Blocks(unittest.TestCase):
    def test_banners_and_comments_are_no_lines(self) -> None:
        blocks, orphans = ios.blocks(enumerate(LINES, 1))
        self.assertEqual([block.head.text for block in blocks], ["version 15.2", "hostname r1", "interface GigabitEthernet0/0", "end"])
        self.assertEqual([line.number for line in blocks[2].lines], [6, 7])
        self.assertEqual(orphans, [])

    def test_families(self) -> None:
        text = ["router bgp 1", " neighbor 10.0.0.2 remote-as 2", " !", " address-family ipv4", "  neighbor 10.0.0.2 activate", " exit-address-family", " !",
                " address-family vpnv4", "  neighbor 10.0.0.9 activate", " exit-address-family", " bgp router-id 1.1.1.1"]
        blocks, _ = ios.blocks(enumerate(text, 1))
        self.assertEqual([(family, line.words[0]) for family, line in ios.families(blocks[0])],
                         [((), "neighbor"), (("ipv4",), "neighbor"), (("vpnv4",), "neighbor"), ((), "bgp")])

    def test_an_indented_line_without_a_block_is_told(self) -> None:
        self.assertEqual([line.words for line in ios.blocks([(1, "!"), (2, " ip address")])[1]], [("ip", "address")])
