"""Questions to arcv over texts of router files, each in a folder of its own, so that nothing of the user's is
touched."""
import os
import tempfile
from collections.abc import Callable, Sequence
from dataclasses import dataclass
from typing import TypeVar

from ops import commands
from ops.commands import Answer, load, run_arcv
from ops.documents import Document, document_text, folder_of, with_files
from ops.reports import Block, Edit, read_report, read_text

Texts = dict[str, str]
Read = TypeVar("Read")
SUFFIX = ".new"


@dataclass
class Trial:
    """A document over texts of its router files, and the program to ask."""

    program: str
    document: Document
    texts: Texts

    def over(self, document: Document | None = None, texts: Texts | None = None) -> "Trial":
        """The same with another document of the same files, or with other texts."""
        return Trial(self.program, document or self.document, texts or self.texts)

    def names(self) -> dict[str, str]:
        """From the user's names of files to those in the folder."""
        return {name: f"{number}.cfg" for number, name in enumerate(self.document.routers, 1)}

    def run(self, words: Sequence[str], extra: Texts | None = None) -> tuple[Answer, Texts, Texts]:
        """Runs a command. Its answer; the router files that it wrote, by the user's names; the other files that it
        wrote."""
        with tempfile.TemporaryDirectory(prefix="arcv-ops-") as folder:
            names = self.names()
            for name, copy in names.items():
                commands.save(os.path.join(folder, copy), self.texts[name])
            commands.save(os.path.join(folder, "net.json"), document_text(with_files(self.document, names)))
            for name, text in (extra or {}).items():
                commands.save(os.path.join(folder, name), text)
            answer = run_arcv(self.program, words, folder)
            wrote = {line[6:] for line in answer.out.split("\n") if line.startswith("wrote ")}
            written = {
                name: load(os.path.join(folder, copy + SUFFIX))
                for name, copy in names.items() if copy + SUFFIX in wrote
            }
            others = {name: load(os.path.join(folder, name)) for name in wrote if not name.endswith(".cfg" + SUFFIX)}
            return answer, written, others

    def reason(self, answer: Answer) -> str:
        """A refusal in the user's names of files."""
        back = {copy: name for name, copy in self.names().items()}
        return " ".join(back.get(word, word) for word in answer.reason().split("\n")[0].split())

    def verify(self) -> list[Block]:
        """The answers to all policies; `Wrong` where nothing is judged."""
        answer, _, _ = self.run(["verify", "net.json"])
        if answer.status not in (0, 1):
            raise commands.Wrong(f"nothing is judged: {self.reason(answer)}")
        return self.read(read_report, answer)

    def read(self, reader: Callable[[str], Read], answer: Answer) -> Read:
        """What a reader makes of an answer; `Wrong` where it is none of arcv."""
        try:
            return reader(answer.out)
        except ValueError as error:
            raise commands.Wrong(f"{self.program} ended with status {answer.status} and printed no answer of arcv: {error}") from error

    def repair(self, price: int, conflicts: int) -> "Repair":
        words = [
            "repair", "net.json", "--out", SUFFIX, "--proof", "cert", "--max-price", str(price), "--conflicts",
            str(conflicts),
        ]
        answer, written, others = self.run(words)
        if answer.status == 5:
            return Repair("refused", 0, self.reason(answer), [], {}, "")
        text = self.read(read_text, answer)
        if text.form != "repair":
            raise commands.Wrong(f"{self.program} printed no answer to `repair`: {answer.first}")
        return Repair(text.answer, text.numbers[0], "", text.edits, {**self.texts, **written}, others.get("cert", ""))

    def apply(self, edits: Sequence[Edit]) -> tuple[Texts, str]:
        """The router files after the edits and what arcv writes, or why it refuses them."""
        answer, written, _ = self.run(
            ["apply", "net.json", "edits", "--out", SUFFIX], {"edits": "".join(edit.line() + "\n" for edit in edits)}
        )
        if answer.status == 0:
            return written, ""
        words = answer.first.split()
        if len(words) == 4 and words[:2] == ["refused", "edits"] and words[2].isdigit() and 0 < int(words[2]) <= len(
            edits
        ):
            return {}, f"`{edits[int(words[2]) - 1].line()}` is no edit of the files as they are now"
        return {}, self.reason(answer)


@dataclass
class Repair:
    """What `repair` said: repaired, none, budget or refused, with its number; the edits; all texts after them; the
    certificate."""

    answer: str
    number: int
    reason: str
    edits: list[Edit]
    texts: Texts
    certificate: str


def trial_of(program: str, document: Document, doc: str) -> Trial:
    """A document over its files."""
    return Trial(program, document, {name: load(os.path.join(folder_of(doc), name)) for name in document.routers})


def not_yes(blocks: Sequence[Block]) -> list[int]:
    """The policies that do not hold, or are not answered."""
    return [block.number for block in blocks if block.answer != "yes"]

