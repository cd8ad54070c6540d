"""draw: a document's network as SVG, with the witnesses of a report marked."""
import argparse
import ipaddress
import math
from collections.abc import Sequence
from xml.sax.saxutils import escape

from ops import commands
from ops.commands import Wrong
from ops.documents import Policy, folder_of, read_document
from ops.faces import Routers
from ops.reports import Block, read_report

COLOURS = ("#15803d", "#1d4ed8", "#0f766e", "#7e22ce", "#4d7c0f", "#0369a1", "#a16207", "#4338ca")
WALK = "#c2410c"
STYLE = """
    text { font: 13px "DejaVu Sans", Arial, sans-serif; fill: #1f2937; text-anchor: middle }
    .small { font-size: 11px; fill: #4b5563 }
    .asked { font-weight: bold; fill: #111827 }
    .note { text-anchor: start }
    .router { fill: #e8edf3; stroke: #334155; stroke-width: 1.5 }
    .side { fill: #bfdbfe; stroke: #2563eb; stroke-dasharray: 4 3 }
    .link { stroke: #94a3b8; stroke-width: 2; fill: none }
    .waypoint { stroke: #94a3b8; stroke-width: 6; fill: none }
    .inside { stroke: #ffffff; stroke-width: 2; fill: none }
    .witness { stroke-width: 4; fill: none }
    .cut { stroke: #dc2626; stroke-width: 3 }
    .number { fill: #ffffff; stroke: #64748b }
"""


Point = tuple[float, float]
Curve = tuple[str, float, float]  # a path of SVG, and where the number of its link stands
Drawing = tuple[list[str], float, float]  # lines of SVG, width, height


def places(names: Sequence[str]) -> tuple[dict[str, Point], float, float]:
    """A place for each router, on an oval."""
    width, height = 360 + 35 * len(names), 150 + 38 * len(names)
    spots = {}
    for number, name in enumerate(names):
        angle = math.pi * (2 * number / len(names) - 1)
        spots[name] = (
            width / 2 + (width / 2 - 110) * math.cos(angle), height / 2 + (height / 2 - 62) * math.sin(angle)
        )
    return spots, width, height


def free_spot(start: Point, middle: Point, end: Point, taken: list[Point]) -> Point:
    """Where on the curve a link's number has room beside those that stand already."""
    x, y = middle
    for share in (0.5, 0.42, 0.58, 0.35, 0.65, 0.28, 0.72):
        x, y = (
            (1 - share) ** 2 * p + 2 * share * (1 - share) * q + share**2 * r for p, q, r in zip(start, middle, end)
        )
        if all(math.hypot(x - u, y - v) > 26 for u, v in taken):
            break
    taken.append((x, y))
    return x, y


def curves(links: Sequence[tuple[str, str, bool]], spots: dict[str, Point]) -> list[Curve]:
    """For each link its path as SVG text and the place of its number; links between the same routers bend apart."""
    seen: dict[frozenset[str], int] = {}
    out: list[Curve] = []
    taken: list[Point] = []
    for a, b, _ in links:
        key = frozenset((a, b))
        number = seen.get(key, 0)
        seen[key] = number + 1
        (x, y), (u, v) = spots[a], spots[b]
        length = math.hypot(u - x, v - y) or 1
        bend = 0 if number == 0 else (36 * ((number + 1) // 2)) * (1 if number % 2 else -1)
        if a > b:
            bend = -bend
        p, q = (x + u) / 2 - 2 * bend * (v - y) / length, (y + v) / 2 + 2 * bend * (u - x) / length
        out.append((f"M{x:.0f} {y:.0f} Q{p:.0f} {q:.0f} {u:.0f} {v:.0f}", *free_spot((x, y), (p, q), (u, v), taken)))
    return out


def numbers_of(words: Sequence[str], most: int) -> list[int]:
    """The numbers of links among these words."""
    return [int(word) for word in words if word.isdigit() and len(word) < 10 and 1 <= int(word) <= most]


def marks(lines: Sequence[Sequence[str]], most: int) -> tuple[list[tuple[str, list[int]]], set[int], set[str]]:
    """From the witness lines: the links of each path with its colour, the links of the cut, and the routers of a
    side."""
    paths: list[tuple[str, list[int]]] = []
    cut: set[int] = set()
    side: set[str] = set()
    for line in lines:
        words = [word for word in line if not word.startswith("service:")]
        if words[0] in ("path", "arc"):
            paths.append((COLOURS[len(paths) % len(COLOURS)], numbers_of(words[1:], most)))
        elif words[0] in ("walk", "stray", "stuck"):
            paths.append((WALK, numbers_of(words[3:], most)))
        elif words[0] == "cut":
            cut.update(numbers_of(words[1:], most))
        elif words[0] == "side":
            side.update(words[1:])
        elif words[0] == "closed":
            side.update(words[3:])
        elif words[0] == "acl-on-routed-link":
            cut.update(numbers_of(words[3:], most))
    return paths, cut, side


def is_asked(net: str, asked: Sequence[str]) -> bool:
    """Whether a prefix that is asked about lies in the network."""
    return any(ipaddress.ip_network(prefix).subnet_of(ipaddress.ip_network(net)) for prefix in asked)


def drawn(
    routers: dict[str, list[str]], links: Sequence[tuple[str, str, bool]], title: str, lines: Sequence[Sequence[str]], asked: Sequence[str]
) -> Drawing:
    """A drawing with its title below, as lines of SVG, and its width and height."""
    spots, width, height = places(list(routers))
    ways = curves(links, spots)
    paths, cut, side = marks(lines, len(links))
    out: list[str] = []
    for (way, _, _), (_, _, waypoint) in zip(ways, links):
        out.append(f'  <path class="{"waypoint" if waypoint else "link"}" d="{way}"/>')
        if waypoint:
            out.append(f'  <path class="inside" d="{way}"/>')
    for colour, path in paths:
        out += [f'  <path class="witness" stroke="{colour}" d="{ways[link - 1][0]}"/>' for link in path]
    for number, (_, x, y) in enumerate(ways, 1):
        out.append(
            f'  <circle class="number" cx="{x:.0f}" cy="{y:.0f}" r="11"/><text class="small" x="{x:.0f}" y="{y + 4:.0f}">{number}</text>'
        )
        if number in cut:
            out.append(f'  <path class="cut" d="M{x - 13:.0f} {y - 13:.0f} l26 26 m0 -26 l-26 26"/>')
    for name, nets in routers.items():
        x, y = spots[name]
        half = max(46, 4.6 * len(name))
        out.append(
            f'  <rect class="router{" side" if name in side else ""}" x="{x - half:.0f}" y="{y - 22:.0f}" width="{2 * half:.0f}" '
            'height="44" rx="9"/>'
        )
        out.append(f'  <text x="{x:.0f}" y="{y + 5:.0f}">{escape(name)}</text>')
        first = y + 38 if y > height / 2 - 1 else y - 28 - 14 * (len(nets) - 1)
        for row, net in enumerate(nets):
            mark = " asked" if is_asked(net, asked) else ""
            out.append(f'  <text class="small{mark}" x="{x:.0f}" y="{first + 14 * row:.0f}">{escape(net)}</text>')
    out.append(f'  <text class="note" x="16" y="{height + 24}">{escape(title)}</text>')
    return out, width, height + 40


def sheet(title: str, drawings: Sequence[Drawing]) -> str:
    """The SVG of drawings of one size, two in a row where they are small."""
    _, width, height = drawings[0]
    columns = 2 if len(drawings) > 1 and width <= 520 else 1
    rows = (len(drawings) + columns - 1) // columns
    full = f'width="{columns * width}" height="{rows * height}"'
    out = [
        f'<svg xmlns="http://www.w3.org/2000/svg" viewBox="0 0 {columns * width} {rows * height}" {full}>',
        f"  <title>{escape(title)}</title>", f"  <style>{STYLE}  </style>", '  <rect width="100%" height="100%" fill="#ffffff"/>',
    ]
    for number, (lines, _, _) in enumerate(drawings):
        row, column = divmod(number, columns)
        out += [f'  <g transform="translate({column * width} {row * height})">', *lines, "  </g>"]
    return "\n".join(out + ["</svg>", ""])


def title_of(number: int, policy: Policy, answer: str) -> str:
    kind = policy.kind + (f" {policy.failures}" if policy.failures is not None else "")
    return f"{number} {kind} from {policy.source} to {policy.target}: {answer}"


def network_of(routers: Routers) -> tuple[dict[str, list[str]], list[tuple[str, str, bool]]]:
    """The routers with the host networks of each, and the links by their two routers."""
    links = [(link.ends()[0][0], link.ends()[1][0], link.waypoint) for link in routers.document.links]
    nets: dict[str, list[str]] = {name: [] for name in routers.names()}
    for host in routers.hosts():
        if not host.prefix.endswith("/32"):
            nets[host.router].append(host.prefix)
    return nets, links


def of_policy(routers: Routers, number: int, policy: Policy, block: Block) -> str:
    """A drawing of one answer."""
    nets, links = network_of(routers)
    words = title_of(number, policy, block.answer) if number else ""
    asked = (policy.source, policy.target)
    return sheet(words, [drawn(nets, links, words, block.lines, asked)])


def arguments() -> argparse.ArgumentParser:
    words = commands.parser(
        "draw",
        "Prints a drawing (SVG) of a document's network: routers, links with their numbers, waypoints doubled, and "
        "host networks. With a report of verify there is a drawing for each policy that is named, or for all of "
        "them, with its two networks in bold and its witness marked: paths in cold colours, a walk in red, the links "
        "of a cut crossed out, the routers of a side shaded. It judges nothing.",
        "nothing, or the file of --out.",
        "bin/draw net.json report.txt 3 > policy-3.svg",
    )
    words.add_argument("doc", metavar="DOC", help="the document; its router files lie in its folder")
    words.add_argument("report", metavar="REPORT", nargs="?", help="a report of verify or recheck")
    words.add_argument("policies", metavar="POLICY", nargs="*", type=int, help="numbers of policies; all without them")
    words.add_argument("--out", metavar="FILE", help="write there and not to standard output")
    commands.with_force(words)
    return words


def main(words: list[str]) -> int:
    options = arguments().parse_args(words)
    document = read_document(options.doc)
    routers = Routers(document, folder_of(options.doc))
    nets, links = network_of(routers)
    title = f"{len(nets)} routers, {len(links)} links"
    drawings: list[Drawing] = []
    blocks: dict[int, Block] = {}
    if options.report:
        try:
            blocks = {block.number: block for block in read_report(commands.load(options.report))}
        except ValueError as error:
            raise Wrong(f"{options.report}: {error}") from error
    for number in options.policies or sorted(blocks):
        if number not in blocks or number > len(document.policies):
            raise Wrong(f"{options.report} has no block for policy {number}, or {options.doc} has not that policy")
        policy = document.policies[number - 1]
        drawings.append(
            drawn(
                nets, links, title_of(number, policy, blocks[number].answer), blocks[number].lines,
                (policy.source, policy.target),
            )
        )
    text = sheet(title, drawings or [drawn(nets, links, title, [], ())])
    if options.out:
        commands.save(options.out, text, options.force)
    else:
        commands.put(text)
    return commands.FINE
