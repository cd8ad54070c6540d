"""Captures: the lines of a running-config without what a terminal or a program of terminals adds to them."""
import re
from dataclasses import dataclass

from ops import ios

ESCAPES = re.compile(r"\x1b\[[0-9;?]*[A-Za-z]|\x1b[()][A-Z0-9]|\x07")
MORE = re.compile(r" ?-{1,2} ?[Mm]ore ?-{1,2} ?")
ERASED = re.compile(r"(?:\x08+(?: +\x08+)?|\r(?: +\r)?)+")
SHOW = re.compile(r"^\S+[#>] ?(?:do )?sh[ow]* (?:run|conf|start|tech|archive)")
PROMPT = re.compile(r"^[A-Za-z0-9._/:@-]+(?:\([a-z0-9-]+\))?[#>]")
SYSLOG = re.compile(r"^(?:\d+: )?[*.]?[A-Z][a-z]{2} +\d+ (?:\d{4} )?\d\d:\d\d:\d\d[^%]*%[A-Z0-9_]+-(?:[A-Z0-9_]+-)?\d-[A-Z0-9_]+: ")
FRONT = ("Building configuration", "Current configuration", "Using ", "! Last configuration change", "! NVRAM config last updated",
         "! No configuration change since last restart")


@dataclass(frozen=True)
class Line:
    """A line of a capture with its number there, from 1."""
    number: int
    text: str


@dataclass(frozen=True)
class Capture:
    """The lines of a running-config, those that were taken out, and whether its last line is `end`."""
    name: str
    lines: tuple[Line, ...]
    dropped: tuple[Line, ...]
    is_whole: bool


def decoded(data: bytes) -> str:
    """The text of a file, whatever wrote it: one character a byte, but for UTF-16 as some terminals write it."""
    if data[:2] in (b"\xff\xfe", b"\xfe\xff"):
        return data.decode("utf-16", errors="replace")
    return data.removeprefix(b"\xef\xbb\xbf").decode("latin-1")


def without_pages(text: str) -> str:
    """A line without the marks of a pager and the characters by which a terminal takes them away again."""
    text = ESCAPES.sub("", text)
    place = MORE.search(text)
    while place and not text[: place.start()].strip():
        rest = text[place.end():]
        erased = ERASED.match(rest)
        if erased:
            rest = rest[erased.end():]
        elif rest.startswith(" " * 8):
            rest = rest[8:]
        text = rest
        place = MORE.search(text)
    return text.replace("\x08", "").replace("\r", "")


def is_added(text: str, host: str) -> bool:
    """Whether a terminal or the device itself put this line between those of the configuration."""
    prompt = PROMPT.match(text)
    if prompt and host and text.startswith((host + "#", host + ">", host + "(")):
        return True
    return bool(SYSLOG.match(text)) or text.startswith(FRONT)


def host_of(texts: list[str]) -> str:
    """The name that the configuration gives its router, or nothing."""
    for text in texts:
        words = text.split()
        if words[:1] == ["hostname"] and len(words) > 1 and not text[:1].isspace():
            return words[1]
    return ""


def begin_of(texts: list[str]) -> int:
    """Where the configuration begins: behind the prompt that asked for it, or at the line that heads it."""
    name = next((place for place, text in enumerate(texts) if text.startswith("hostname ")), len(texts))
    for place in range(name - 1, -1, -1):
        if SHOW.match(texts[place]):
            return place + 1
    return next((place for place in range(name) if texts[place].startswith(FRONT[:3])), 0)


def strip(name: str, data: bytes) -> Capture:
    """The configuration in a capture. No line of a banner is taken out, whatever it looks like."""
    texts = [without_pages(line) for line in decoded(data).split("\n")]
    host, begin = host_of(texts), begin_of(texts)
    kept, dropped, ended = [], [], False
    banner: str | None = None
    for number, text in enumerate(texts, 1):
        line = Line(number, text)
        if number > begin and not ended and banner is not None:
            kept.append(line)
            banner = None if banner in text else banner
        elif number <= begin or ended or is_added(text, host):
            if text.strip():
                dropped.append(line)
        else:
            kept.append(line)
            ended = text.rstrip() == "end"
            banner = ios.banner_end(text) if text.startswith("banner ") else None
    return Capture(name, tuple(kept), tuple(dropped), ended)


def read(path: str, name: str) -> Capture:
    """The configuration in a file, under this name."""
    with open(path, "rb") as file:
        return strip(name, file.read())
