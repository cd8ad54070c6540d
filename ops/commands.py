"""What all commands share: their words and help, how they end, how they write files, how they ask arcv."""
import argparse
import json
import os
import re
import signal
import subprocess
import sys
import tempfile
import textwrap
from collections.abc import Callable, Sequence
from dataclasses import dataclass

TOP = os.path.dirname(os.path.dirname(os.path.abspath(__file__)))
WIDTH = 80
CONTROLS = re.compile(r"[\x00-\x08\x0b-\x1f\x7f-\x9f]")
NO_TEXT = re.compile(r"[\ud800-\udfff]")
FINE, NOT_SO, CANNOT = 0, 1, 2


class Wrong(Exception):
    """What the user has to know: the command ends with status 2 and this message."""


class _Parser(argparse.ArgumentParser):
    def error(self, message: str) -> None:  # type: ignore[override]
        raise Wrong(f"{message}\n{self.format_usage().strip()}\n`bin/{self.prog} --help` says more")


def _help(prog: str) -> argparse.HelpFormatter:
    return argparse.RawDescriptionHelpFormatter(prog, max_help_position=24, width=WIDTH)


def _filled(text: str) -> str:
    return "\n\n".join(textwrap.fill(" ".join(part.split()), WIDTH) for part in text.split("\n\n"))


def parser(name: str, what: str, writes: str, example: str) -> argparse.ArgumentParser:
    """The parser of a command: what it does, what it writes, and an example, which its `--help` prints."""
    end = f"{_filled('Writes: ' + writes)}\n\nexample:\n{textwrap.indent(textwrap.dedent(example).strip(), '  ')}"
    end += "\n\nstatus: 0 done and all is well; 1 an answer is no; 2 it cannot be done"
    return _Parser(prog=name, description=_filled(what), epilog=end, formatter_class=_help, allow_abbrev=False)


def with_json(words: argparse.ArgumentParser) -> None:
    words.add_argument("--json", action="store_true", help="print JSON, for a program")


def with_force(words: argparse.ArgumentParser) -> None:
    words.add_argument("--force", action="store_true", help="write over files that are there")


def with_program(words: argparse.ArgumentParser) -> None:
    words.add_argument("--arcv", metavar="PATH", help="the program to ask; $ARCV, or bin/arcv, without it")


def program(options: argparse.Namespace) -> str:
    """The program to ask, with its whole path."""
    path = options.arcv or os.environ.get("ARCV") or os.path.join(TOP, "bin", "arcv")
    if not os.access(path, os.X_OK) or os.path.isdir(path):
        raise Wrong(f"{path} is no program")
    if os.path.abspath(path) == os.path.join(TOP, "bin", "arcv") and not os.path.exists(
        os.path.join(TOP, ".built", "arcv")
    ):
        tell("bin/arcv proves and builds the program first, which takes half an hour or more")
    return os.path.abspath(path)


@dataclass(frozen=True)
class Answer:
    """What arcv said: its status, standard output and standard error."""

    status: int
    out: str
    err: str

    @property
    def first(self) -> str:
        return self.out.split("\n", 1)[0]

    def reason(self) -> str:
        """Why there is no answer: the refusal, or what was said of the failure."""
        return "\n".join(text for text in (self.out.strip(), self.err.strip()) if text) or f"status {self.status}"


def run_arcv(path: str, words: Sequence[str], folder: str = ".") -> Answer:
    """Runs arcv with these words in a folder. Ctrl-C ends it too, as both are of one group."""
    try:
        run = subprocess.run([path, *words], cwd=folder, stdin=subprocess.DEVNULL, capture_output=True, check=False)
    except OSError as error:
        raise Wrong(f"{path} cannot be run: {error.strerror}") from error
    if run.returncode < 0 or run.returncode > 5:
        why = run.stderr.decode("latin-1").strip() or f"status {run.returncode}"
        raise Wrong(f"arcv {' '.join(words)} failed: {why}")
    return Answer(run.returncode, run.stdout.decode("utf-8", "surrogateescape"), run.stderr.decode("utf-8", "replace"))


def load(path: str) -> str:
    """The text of a file, byte for byte, or of standard input for `-`."""
    try:
        if path == "-":
            return sys.stdin.buffer.read().decode("utf-8", "surrogateescape")
        with open(path, "rb") as file:
            return file.read().decode("utf-8", "surrogateescape")
    except OSError as error:
        raise Wrong(f"{path} cannot be read: {error.strerror}") from error


def check_free(paths: Sequence[str], force: bool) -> None:
    """None of these files is there, unless they may be written over."""
    there = [path for path in paths if os.path.lexists(path)]
    if there and not force:
        raise Wrong(f"{there[0]} is there already; --force writes over it")


def save(path: str, text: str, force: bool = False) -> None:
    """Writes a whole file: under another name first, which is then renamed."""
    check_free([path], force)
    folder = os.path.dirname(os.path.abspath(path))
    try:
        os.makedirs(folder, exist_ok=True)
        handle, part = tempfile.mkstemp(prefix=os.path.basename(path) + ".", suffix=".part", dir=folder)
        try:
            with os.fdopen(handle, "wb") as file:
                file.write(text.encode("utf-8", "surrogateescape"))
            os.chmod(part, 0o644)
            os.replace(part, path)
        except BaseException:
            os.unlink(part)
            raise
    except OSError as error:
        raise Wrong(f"{path} cannot be written: {error.strerror}") from error


def visible(text: str) -> str:
    """The text with its control characters, which a terminal would act on, as question marks."""
    return CONTROLS.sub("?", text)


def put(text: str) -> None:
    """Prints a text; bytes of files that are no UTF-8 come as they are."""
    sys.stdout.flush()
    sys.stdout.buffer.write(visible(text).encode("utf-8", "surrogateescape"))
    sys.stdout.buffer.flush()


def as_json(value: object) -> str:
    """The value as JSON. A byte of a file that is no text in UTF-8 comes as an escape, `\\udcXX`, as Python reads it."""
    return NO_TEXT.sub(lambda found: f"\\u{ord(found[0]):04x}", json.dumps(value, indent=1, ensure_ascii=False)) + "\n"


def tell(text: str) -> None:
    """A line on standard error."""
    print(visible(text), file=sys.stderr, flush=True)


def counted(number: int, noun: str, many: str = "") -> str:
    """`1 router`, `2 routers`."""
    return f"{number:,} {noun if number == 1 else many or noun + 's'}"


def wrapped(text: str, first: str = "", rest: str | None = None) -> list[str]:
    """The text in lines of at most 80 columns, with these fronts; no word is broken."""
    lines = textwrap.wrap(
        text, WIDTH, initial_indent=first, subsequent_indent=first if rest is None else rest,
        break_long_words=False, break_on_hyphens=False,
    )
    return lines or [first.rstrip()]


def run(main: Callable[[list[str]], int]) -> int:
    """Runs a command with the words of the command line; no input ends in a traceback."""
    name = os.path.basename(sys.argv[0])
    try:
        return main(sys.argv[1:])
    except Wrong as error:
        first, *rest = str(error).split("\n")
        tell("\n".join([*wrapped(f"{name}: {first}", "", "  "), *rest]))
    except BrokenPipeError:
        os.dup2(os.open(os.devnull, os.O_WRONLY), sys.stdout.fileno())
        return 128 + signal.SIGPIPE
    except KeyboardInterrupt:
        tell(f"{name}: stopped")
        return 128 + signal.SIGINT
    except OSError as error:
        tell(f"{name}: {error.filename}: {error.strerror}" if error.filename else f"{name}: {error}")
    except RecursionError:
        tell(f"{name}: the input is nested too deep")
    except MemoryError:
        tell(f"{name}: there is no more memory")
    return CANNOT
