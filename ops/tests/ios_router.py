"""A router that takes IOS commands, as far as repairs need it, and is stricter than a router: it ends at what would
go wrong."""
import re

from ops.ios import Block
from ops.lists import blocks_of, lists_of, normal, split


class Refused(Exception):
    """A router would not do what the command means."""


class Router:
    """A running configuration that commands change. Numbers of entries that the file does not show are made up."""

    def __init__(self, text: str, hidden: int = 7) -> None:
        self.lines = [line.rstrip("\r\n") for line in split(text)]
        found = lists_of(blocks_of(split(text)))
        self.lists: dict[tuple[bool, str], list[tuple[int, str]]] = {}
        self.kinds = {key: listed.kind for key, listed in found.items()}
        self.shown = {key: listed.is_numbered() for key, listed in found.items()}
        for key, listed in found.items():
            step = 5 if key[0] else hidden
            self.lists[key] = [
                (entry.number if entry.number is not None else step * place, entry.text)
                for place, entry in enumerate(listed.entries, 1)
            ]
        self.known = set(self.lists)
        self.mode: tuple[str, ...] = ()
        self.cleared: list[str] = []
        self.reload = False

    def enter(self, lines: list[str]) -> None:
        for line in lines:
            if line.strip() and not line.startswith("!"):
                self.command(line.split())

    def command(self, words: list[str]) -> None:
        if words == ["configure", "terminal"]:
            self.mode = ("config",)
        elif words == ["end"]:
            self.mode = ()
        elif not self.mode:
            self._exec(words)
        elif words[:2] == ["ip", "access-list"] and words[2] == "resequence":
            self._resequence(words[3], int(words[4]), int(words[5]))
        elif words[:2] == ["ip", "access-list"]:
            self.mode = ("list", words[3])
            if (False, words[3]) not in self.lists:
                self.lists[False, words[3]], self.kinds[False, words[3]], self.shown[False, words[3]] = [], words[
                    2
                ], True
        elif words[:3] == ["no", "ip", "access-list"]:
            self._unbound(words[4])
            del self.lists[False, words[4]]
        elif words[0] in ("interface", "router"):
            self.mode = ("block", " ".join(words))
            self._block(" ".join(words))
        elif words[:2] == ["address-family", "ipv4"] and self.mode[0] == "block":
            self.mode = (*self.mode[:2], " ".join(words))
        elif words[-4:-3] != ["prefix-list"] and words[:2] == ["ip", "prefix-list"]:
            self._route_entry(words)
        elif words[:3] == ["no", "ip", "prefix-list"]:
            self._no_route_entry(words)
        elif self.mode[0] == "list":
            self._entry(self.mode[1], words)
        elif self.mode[0] == "block":
            self._setting(words)
        else:
            raise Refused(" ".join(words))

    def _exec(self, words: list[str]) -> None:
        if words[:3] == ["clear", "ip", "bgp"] and words[-2:] == ["soft", "in"]:
            self.cleared.append(words[-3])
        elif words[:2] == ["reload", "in"]:
            self.reload = True
        elif words == ["reload", "cancel"]:
            self.reload = False
        else:
            raise Refused(" ".join(words))

    def _resequence(self, name: str, first: int, step: int) -> None:
        self.lists[False, name] = [
            (first + step * place, text) for place, (_, text) in enumerate(self.lists[False, name])
        ]

    def _put(self, key: tuple[bool, str], number: int, text: str) -> None:
        entries = self.lists.setdefault(key, [])
        if any(number == other for other, _ in entries):
            raise Refused(f"number {number} is in use")
        if any(
            normal(self.kinds.get(key, "prefix"), text.split()) == normal(self.kinds.get(key, "prefix"), old.split())
            for _, old in entries
        ):
            raise Refused(f"the entry is there already: {text}")
        entries.append((number, text))
        entries.sort()

    def _entry(self, name: str, words: list[str]) -> None:
        entries = self.lists[False, name]
        if words[0] == "no":
            if not any(str(number) == words[1] for number, _ in entries):
                raise Refused(f"no entry {words[1]}")
            self.lists[False, name] = [entry for entry in entries if str(entry[0]) != words[1]]
        else:
            self._put((False, name), int(words[0]), " ".join(words[1:]))

    def _route_entry(self, words: list[str]) -> None:
        self.kinds.setdefault((True, words[2]), "prefix")
        self.shown.setdefault((True, words[2]), True)
        prefixes = [text.split()[1:] for _, text in self.lists.get((True, words[2]), [])]
        if words[6:] and [*words[6:]] in prefixes:
            raise Refused(f"the prefix is there already: {' '.join(words)}")
        self._put((True, words[2]), int(words[4]), " ".join(words[5:]))

    def _no_route_entry(self, words: list[str]) -> None:
        key = (True, words[3])
        if len(words) == 4:
            self._unbound(words[3])
            del self.lists[key]
            return
        self.lists[key] = [entry for entry in self.lists[key] if str(entry[0]) != words[5]]

    def _unbound(self, name: str) -> None:
        if any(line.split()[-2:-1] == [name] and line.startswith(" ") for line in self.lines):
            raise Refused(f"{name} is still bound")

    def _block(self, head: str) -> Block:
        block = next(
            (
                block
                for block in blocks_of([line + "\n" for line in self.lines]) if " ".join(block.head.words) == head
            ),
            None,
        )
        if block is None:
            raise Refused(f"no {head}")
        return block

    def _family_end(self, block: Block) -> int:
        """The line behind the last of the block's part in which commands are entered."""
        last = block.head.number
        inside = False
        for line in block.lines:
            if line.words[0] == "address-family":
                if len(self.mode) < 3:
                    break
                inside = " ".join(line.words) == self.mode[2]
            if line.words[0] == "exit-address-family":
                inside = False
            if len(self.mode) < 3 or inside:
                last = line.number
        return last

    def _setting(self, words: list[str]) -> None:
        block = self._block(self.mode[1])
        positive = words[1:] if words[0] == "no" else words
        if positive[:2] == ["ip", "access-group"] and words[0] != "no" and not self.lists.get((False, positive[2])):
            raise Refused(f"{positive[2]} is bound before it stands")
        if positive[2:3] == ["prefix-list"] and words[0] != "no" and not self.lists.get((True, positive[3])):
            raise Refused(f"{positive[3]} is bound before it stands")
        same = self._same_setting(positive)
        mine = [line for line in block.lines if same(list(line.words))]
        opposite = [line for line in mine if (line.words[0] == "no") != (words[0] == "no")]
        at = self._family_end(block)
        if positive[:2] == ["ip", "access-group"] or positive[2:3] == ["prefix-list"]:
            for line in reversed(mine):
                del self.lines[line.number - 1]
                at -= line.number <= at
            if words[0] != "no":
                self.lines.insert(at, " " * max(1, len(self.mode) - 1) + " ".join(words))
            elif not mine:
                raise Refused(f"nothing to take away: {' '.join(words)}")
        elif opposite:
            del self.lines[opposite[-1].number - 1]
        elif not mine:
            self.lines.insert(at, " " + " ".join(words))

    @staticmethod
    def _same_setting(positive: list[str]):  # type: ignore[no-untyped-def]
        """Whether a line sets the same value: a list that is bound replaces another one."""
        front = positive[:2] if positive[:2] == ["ip", "access-group"] else positive[:3] if positive[2:3] == [
            "prefix-list"
        ] else positive

        def same(words: list[str]) -> bool:
            other = words[1:] if words[0] == "no" else words
            return other[: len(front)] == front and (len(front) == len(positive) or other[-1] == positive[-1])

        return same

    def config(self) -> str:
        """What `show running-config` prints."""
        out: list[str] = []
        done: set[tuple[bool, str]] = set()
        skip = False
        for line in self.lines:
            words = line.split()
            if line[:1] == " " and skip:
                if words[:1] == ["remark"] or words[1:2] == ["remark"]:
                    out.append(line)
                continue
            skip = False
            if words[:2] == ["ip", "access-list"] and len(words) == 4:
                out.append(line)
                out += self._printed((False, words[3]), "", True)
                done.add((False, words[3]))
                skip = True
            elif words[:1] == ["access-list"] and words[2:3] != ["remark"] or words[:2] == [
                "ip", "prefix-list"
            ] and words[3:4] not in ([], ["description"]):
                key = (True, words[2]) if words[0] == "ip" else (False, words[1])
                if key not in done and key in self.lists:
                    out += self._printed(
                        key, f"ip prefix-list {key[1]} seq " if key[0] else f"access-list {key[1]} ", key[0]
                    )
                done.add(key)
            elif words[:1] == ["router"] or words == ["end"]:
                for key in [key for key in self.lists if key not in done | self.known]:
                    out += [] if key[0] else [f"ip access-list {self.kinds[key]} {key[1]}"]
                    out += self._printed(key, f"ip prefix-list {key[1]} seq " if key[0] else " ", True)
                    done.add(key)
                out.append(line)
            else:
                out.append(line)
        return "\n".join(out) + "\n"

    def _printed(self, key: tuple[bool, str], front: str, numbers: bool) -> list[str]:
        shown = self.shown[key] and numbers
        lead = front or " "
        return [
            f"{lead}{number} {text}" if shown else f"{lead if not key[0] else re.sub(' seq $', ' ', lead)}{text}"
            for number, text in self.lists[key]
        ]
