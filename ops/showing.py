"""Answers in words, as text, JSON, JUnit's XML or one page of HTML."""
from collections.abc import Callable, Sequence
from html import escape
from xml.sax.saxutils import quoteattr

from ops import commands, draw
from ops.commands import counted, wrapped
from ops.faces import Routers
from ops.told import Told, shown

ELEMENTS = 60_000  # of all drawings of a page
HEADS = {"no": "No", "refused": "Not answered", "yes": "Yes"}
PAGE = """<!DOCTYPE html>
<html lang="en"><head><meta charset="utf-8"><title>{title}</title>
<style>
body {{ font: 15px/1.45 "DejaVu Sans", Arial, sans-serif; color: #1f2937; max-width: 980px; margin: 2em auto; padding: 0 1em }}
h1 {{ font-size: 1.4em }} h2 {{ font-size: 1.15em; margin-top: 2em }} h3 {{ font-size: 1em; margin: 1.5em 0 .3em }}
.sum td {{ padding: .2em 1em .2em 0 }} .no {{ color: #b91c1c }} .refused {{ color: #b45309 }} .yes {{ color: #15803d }}
p {{ margin: .2em 0 }} .inner {{ padding-left: 2em }} svg {{ max-width: 100%; height: auto; border: 1px solid #e5e7eb; margin: .5em 0 }}
</style></head><body>
<h1>{title}</h1>
{body}
</body></html>
"""


def _sum(told: Sequence[Told]) -> dict[str, int]:
    judged = [one for one in told if one.number]
    return {answer: sum(one.answer == answer for one in judged) for answer in HEADS}


def _sum_line(told: Sequence[Told]) -> str:
    counts = _sum(told)
    total = sum(counts.values())
    return f"{counts['no']} no, {counts['refused']} not answered, {counts['yes']} yes: {counted(total, 'policy', 'policies')}"


def text(told: Sequence[Told], _doc: str, _routers: Routers) -> str:
    lines: list[str] = []
    for one in told:
        if one.answer not in HEADS:
            lines += wrapped(one.head + (":" if one.lines else ""), "", "  ")
            for line in one.lines:
                front = "    " if line.startswith("  ") else "  "
                lines += wrapped(line.strip(), front, front + "  ")
        else:
            lines += shown(one)
        lines.append("")
    if any(one.number for one in told):
        lines.append(_sum_line(told))
    return "\n".join(lines).rstrip("\n") + "\n"


def as_json(told: Sequence[Told], doc: str, _routers: Routers) -> str:
    answers = []
    for one in told:
        found: dict[str, object] = {
            "answer": one.answer, "says": one.head, "words": [line.strip() for line in one.lines]
        }
        if one.number:
            found = {"number": one.number, "name": one.name, **found}
        if one.policy and one.number:
            found["policy"] = one.policy.members()
        if one.block:
            found["witness"] = [" ".join(line) for line in one.block.lines]
        if one.mark:
            found["mark"] = one.mark
        answers.append(found)
    return commands.as_json({"document": doc, "sum": _sum(told), "answers": answers})


def junit(told: Sequence[Told], doc: str, _routers: Routers) -> str:
    judged = [one for one in told if one.number or one.block] or list(told)
    failed = sum(one.answer in ("no", "rejected", "none") for one in judged)
    errors = sum(one.answer in ("refused", "budget", "nothing") for one in judged)
    head = f"tests=\"{len(judged)}\" failures=\"{failed}\" errors=\"{errors}\""
    lines = [
        '<?xml version="1.0" encoding="UTF-8"?>', f"<testsuites {head}>",
        f" <testsuite name={_attribute(doc)} {head}>",
    ]
    for one in judged:
        start = f"  <testcase classname={_attribute(doc)} name={_attribute(one.head)}"
        kind = {
            "no": "failure", "rejected": "failure", "none": "failure", "refused": "error", "budget": "error",
            "nothing": "error",
        }.get(one.answer)
        if kind is None:
            lines.append(start + "/>")
            continue
        words = _legal("\n".join(line.strip() for line in one.lines))
        lines += [
            start + ">", f"   <{kind} message={_attribute(one.answer)}>{escape(words, quote=False)}</{kind}>",
            "  </testcase>",
        ]
    return "\n".join([*lines, " </testsuite>", "</testsuites>", ""])


def _legal(words: str) -> str:
    """Without what XML cannot hold."""
    return "".join(
        letter
        if letter in "\n\t" or " " <= letter < "\ud800" or "\ue000" <= letter < "\ufffe" or letter > "\uffff" else "?"
        for letter in words
    )


def _attribute(words: str) -> str:
    return quoteattr(_legal(words))


def html(told: Sequence[Told], doc: str, routers: Routers) -> str:
    body = ['<table class="sum"><tr>']
    for answer, count in _sum(told).items():
        body.append(f'<td class="{answer}">{HEADS[answer]}: {count}</td>')
    body.append("</tr></table>")
    if not any(one.number for one in told):
        body = []
    drawings = ELEMENTS // (len(routers.document.links) + len(routers.document.routers) + 1)
    for answer in (*HEADS, None):
        rows = [one for one in told if one.answer == answer or answer is None and one.answer not in HEADS]
        if rows and answer:
            body.append(f'<h2 class="{answer}">{HEADS[answer]}</h2>')
        for one in rows:
            body.append(f"<h3>{escape(one.head)}</h3>")
            body += [
                f'<p{" class=inner" if line.startswith("  ") else ""}>{escape(line.strip())}</p>'
                for line in one.lines
            ]
            if one.policy and one.block and (drawings := drawings - 1) >= 0:
                body.append(draw.of_policy(routers, one.number, one.policy, one.block))
    if drawings < 0:
        body.append(f"<p>{-drawings} answers are not drawn: bin/draw draws each.</p>")
    return PAGE.format(title=escape(_legal(f"{doc}: what arcv answers")), body=_legal("\n".join(body)))


FORMS: dict[str, Callable[[Sequence[Told], str, Routers], str]] = {
    "text": text, "json": as_json, "junit": junit, "html": html
}
