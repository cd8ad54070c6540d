"""pages: the manual page and the completions of shells, made from the table of the program's commands and the tools'
own words."""
import argparse
import importlib
import os
import re
from collections.abc import Sequence
from dataclasses import dataclass

from ops import commands
from ops.commands import TOP, Wrong, load

TABLE = os.path.join(TOP, "crates", "command_words", "src", "forms.rt")
MANUAL = os.path.join(TOP, "docs", "manual.md")
ABOUT = (
    "arcv reads router files in the language of Cisco IOS, a document with the links between them and with policies, "
    "and says which policies hold, whatever links fail. Each answer has a witness, which can be checked by itself. "
    "A repair is the cheapest one, and its certificate proves that."
)
FILES_AND_STREAMS = (
    "A file is looked up in the folder in which the command runs. Answers are printed to standard output, everything "
    "else to standard error."
)
QUIET = "Where it is set, arcv shows no line on a terminal while a run takes longer than a second."
OPTION = re.compile(r'const (\w+): CommandOption = CommandOption \{\s*name: "([^"]*)",\s*value: "([^"]*)",\s*\};')
FORM = re.compile(
    r'name: "([^"]*)",\s*places: &\[([^]]*)\],\s*needed: &\[([^]]*)\],\s*optional: &\[([^]]*)\],\s*meaning: "([^"]*)"'
)
FILES = ("DOC", "CERT", "REPORT", "EDITS", "CNF", "PROOF", "NAME", "TEXT", "FILE", "PATH", "FOLDER", "SEAL")


@dataclass(frozen=True)
class Command:
    """A command: its name, what stands behind it, its options with what stands for their values, and what it is for."""

    name: str
    places: tuple[str, ...]
    options: tuple[tuple[str, str], ...]
    form: str
    asks: str
    meaning: str = ""


def _plain(cell: str) -> str:
    """A cell of the manual without its marks."""
    return re.sub(r"\[([^]]*)\]\([^)]*\)", r"\1", cell).replace("`", "").strip()


def _rows(text: str, head: str) -> list[tuple[str, str]]:
    """The rows of the manual's table with this head."""
    lines = text.split("\n")
    if head not in lines:
        raise Wrong(f"docs/manual.md has no table `{head}`")
    found = []
    for line in lines[lines.index(head) + 2 :]:
        cells = line.strip().strip("|").split(" | ")
        if not line.startswith("|") or len(cells) != 2:
            break
        found.append((_plain(cells[0]), _plain(cells[1])))
    return found


def program_commands() -> list[Command]:
    """The commands of the program, by the table in its source; what each asks is said by the manual."""
    asks = {row[0].split()[1]: row[1] for row in _rows(load(MANUAL), "| command | asks |")}
    found = []
    table = load(TABLE)
    pair_of = {const: (f"--{option}", value) for const, option, value in OPTION.findall(table)}
    for name, places, needed, optional, meaning in FORM.findall(table):
        if name not in asks:
            raise Wrong(f"docs/manual.md has no row for {name}")
        words = tuple(re.findall(r'"([^"]*)"', places))
        must = [pair_of[const] for const in re.findall(r"\w+", needed)]
        may = [pair_of[const] for const in re.findall(r"\w+", optional)]
        options = [" ".join(pair) for pair in must] + [f"[{' '.join(pair)}]" for pair in may]
        found.append(Command(name, words, (*must, *may), " ".join([name, *words, *options]), asks[name], meaning))
    if not found or set(asks) != {command.name for command in found}:
        raise Wrong(f"{TABLE} and docs/manual.md do not have the same commands")
    return found


def _word(action: argparse.Action) -> str:
    """How a word or an option is shown: in brackets where it may be left out."""
    value = action.metavar if isinstance(action.metavar, str) else " ".join(action.metavar or ())
    if action.option_strings:
        text = " ".join(part for part in (action.option_strings[-1], value) if part)
        return text if action.required else f"[{text}]"
    return {None: value, "?": f"[{value}]", "*": f"[{value} ..]", "+": f"{value} .."}.get(
        action.nargs if isinstance(action.nargs, str) else None, value
    )


def tools() -> list[Command]:
    """The tools in bin/ that are of this package, by the words that they take."""
    found = []
    for name in sorted(os.listdir(os.path.join(TOP, "bin"))):
        path = os.path.join(TOP, "bin", name)
        module = re.search(r"^from ops import commands, (\w+)", load(path), re.M) if os.path.isfile(path) else None
        if not module:
            continue
        parser = importlib.import_module(f"ops.{module[1]}").arguments()
        places, options = [], []
        for action in parser._actions:  # argparse has no public name for these
            value = action.metavar if isinstance(action.metavar, str) else " ".join(
                action.metavar or ()
            ) or action.dest.upper()
            if not action.option_strings:
                places.append(value)
            elif action.nargs == 0:
                options.append((action.option_strings[-1], ""))
            else:
                options.append((action.option_strings[-1], value))
        form = " ".join([name, *(_word(action) for action in parser._actions if action.dest != "help")])
        asks = re.split(r"(?<=[.:])\s", (parser.description or "").replace("\n", " "), maxsplit=1)[0].rstrip(".:")
        found.append(Command(name, tuple(places), tuple(options), form, asks[0].lower() + asks[1:]))
    return found


def _roff(text: str) -> str:
    text = text.replace("\\", "\\\\").replace("-", "\\-")
    return "\\&" + text if text[:1] in (".", "'") else text


def manual_page() -> str:
    """The manual page, in the language of man."""
    lines = [
        ".\\\" Made by bin/pages. Do not edit.", ".TH ARCV 1", ".SH NAME",
        "arcv \\- verify and repair the reachability of networks from their router files", ".SH SYNOPSIS",
    ]
    for command in program_commands():
        lines += [f".B arcv {command.name}", _roff(command.form.removeprefix(command.name).strip()), ".br"]
    lines += [
        ".SH DESCRIPTION",
        _roff(ABOUT), ".PP", _roff(FILES_AND_STREAMS),
        ".SH COMMANDS",
    ]
    for command in program_commands():
        lines += [".TP", f".B {_roff(command.form)}", _roff(f"Asks {command.asks}. {command.meaning}.")]
    lines.append(".SH EXIT STATUS")
    for status, says in _rows(load(MANUAL), "| status | comes |"):
        lines += [".TP", f".B {_roff(status)}", _roff(says)]
    lines += [".SH ENVIRONMENT", ".TP", ".B ARCV_QUIET", _roff(QUIET)]
    lines += [".SH TOOLS", _roff("Scripts in bin/ beside the program. Nothing of them is proved. Each has --help.")]
    for tool in tools():
        lines += [".TP", f".B {_roff(tool.form)}", _roff(tool.asks[0].upper() + tool.asks[1:] + ".")]
    lines += [
        ".SH SEE ALSO",
        _roff("docs/manual.md, docs/formats.md, docs/model.md, docs/real-files.md and docs/tools.md of the repository."),
    ]
    return "\n".join(lines) + "\n"


def _takes_file(place: str) -> bool:
    return place.strip("[].") in FILES


def bash() -> str:
    """Completion for bash."""
    programs, mine = program_commands(), tools()
    lines = [
        "# Made by bin/pages. Do not edit.", "_arcv() {", "    local word=${COMP_WORDS[COMP_CWORD]} options=",
        "    COMPREPLY=()",
    ]
    lines += [
        "    if [ \"$COMP_CWORD\" -eq 1 ]; then",
        f"        COMPREPLY=($(compgen -W '{' '.join(command.name for command in programs)}' -- \"$word\"))",
        "        return", "    fi",
    ]
    lines.append("    case ${COMP_WORDS[1]} in")
    for command in programs:
        lines.append(f"        {command.name}) options='{' '.join(option for option, _ in command.options)}' ;;")
    lines += [
        "    esac", "    case $word in", "        -*) COMPREPLY=($(compgen -W \"$options\" -- \"$word\")) ;;",
        "        *) COMPREPLY=($(compgen -f -- \"$word\")) ;;", "    esac", "}",
    ]
    lines += [
        "complete -o filenames -F _arcv arcv", "_arcv_tool() {", "    local word=${COMP_WORDS[COMP_CWORD]} options=",
        "    COMPREPLY=()", "    case ${COMP_WORDS[0]##*/} in",
    ]
    for tool in mine:
        lines.append(f"        {tool.name}) options='{' '.join(option for option, _ in tool.options)}' ;;")
    lines += [
        "    esac", "    case $word in", "        -*) COMPREPLY=($(compgen -W \"$options\" -- \"$word\")) ;;",
        "        *) COMPREPLY=($(compgen -f -- \"$word\")) ;;", "    esac", "}",
    ]
    lines += [f"complete -o filenames -F _arcv_tool {' '.join('bin/' + tool.name for tool in mine)}"]
    return "\n".join(lines) + "\n"


def _quoted(text: str) -> str:
    return text.replace("'", "").replace("[", "(").replace("]", ")").replace(":", ",")


def zsh() -> str:
    """Completion for zsh."""
    lines = [
        "#compdef arcv", "# Made by bin/pages. Do not edit.", "_arcv() {", "    local -a found",
        "    if (( CURRENT == 2 )); then", "        found=(",
    ]
    lines += [f"            '{command.name}:{_quoted(command.asks)}'" for command in program_commands()]
    lines += ["        )", "        _describe command found", "        return", "    fi", "    case ${words[2]} in"]
    for command in program_commands():
        specs = " ".join(
            f"'{option}[{_quoted(value)}]:{_quoted(value)}:{'_files' if _takes_file(value) else ''}'"
            for option, value in command.options
        )
        lines.append(f"        {command.name}) _arguments {specs + ' ' if specs else ''}'*:file:_files' ;;")
    return "\n".join([*lines, "    esac", "}", "_arcv \"$@\"", ""])


def fish() -> str:
    """Completion for fish."""
    lines = ["# Made by bin/pages. Do not edit."]
    for command in program_commands():
        lines.append(f"complete -c arcv -n __fish_use_subcommand -f -a {command.name} -d '{_quoted(command.asks)}'")
        for option, value in command.options:
            needs = "-r" if _takes_file(value) else "-x"
            lines.append(
                f"complete -c arcv -n '__fish_seen_subcommand_from {command.name}' -l {option.removeprefix('--')} "
                f"{needs} -d '{_quoted(value)}'"
            )
    return "\n".join(lines) + "\n"


def made() -> dict[str, str]:
    """All pages by their paths from the top of the repository."""
    return {
        "docs/arcv.1": manual_page(), "docs/completions/arcv.bash": bash(), "docs/completions/_arcv": zsh(),
        "docs/completions/arcv.fish": fish(),
    }


def differing() -> list[str]:
    """The pages that are not there, or not as they would be made."""
    return [
        path
        for path, text in made().items()
        if not os.path.exists(os.path.join(TOP, path)) or load(os.path.join(TOP, path)) != text
    ]


def arguments() -> argparse.ArgumentParser:
    words = commands.parser(
        "pages",
        "Makes the manual page docs/arcv.1 and the completions of bash, zsh and fish from the table of commands in "
        "the program's source, docs/manual.md and the words of the tools. With --check it names those that are not "
        "as they would be made.",
        "docs/arcv.1, docs/completions/arcv.bash, docs/completions/_arcv and docs/completions/arcv.fish; with "
        "--check nothing.",
        """
        bin/pages --force
        man docs/arcv.1
        """,
    )
    words.add_argument("--check", action="store_true", help="write nothing, and name what differs")
    commands.with_force(words)
    return words


def main(words: Sequence[str]) -> int:
    options = arguments().parse_args(words)
    different = differing()
    if options.check:
        print("\n".join(different) if different else "every page is as it is made")
        return commands.NOT_SO if different else commands.FINE
    commands.check_free([os.path.join(TOP, path) for path in different], options.force)
    for path, text in made().items():
        if path in different:
            commands.save(os.path.join(TOP, path), text, True)
            print(f"wrote {path}")
    return commands.FINE
