"""The tables of `lrat`, `solve` and `repair`."""
import re
from pathlib import Path
from typing import Callable, Iterable

from bench import beside, broken, certificates, drops, encoding, formulas, proofs
from bench.measures import Bench, folders, tally, wrong
from bench.networks import Network
from bench.tables import Row, Table, seconds, times
from bench.timing import Run, by_turns, quotient, run, scratch, took

FEW_VARIABLES, CONFLICTS_A_SECOND = 72, 40_000
SOLVE = ["solve", "f.cnf", "--proof", "f.lrat", "--conflicts", "200000"]
REPAIR = ["repair", "net.json", "--out", ".new", "--proof", "cert", "--conflicts", "200000"]


def judged(bench: Bench) -> list[Table]:
    table = Table("`lrat`", ["proof", "lrat", "checker in C", "times"], "at most 1.6 of the checker in C")
    checker = beside.built("checker")
    for title, make in proofs.FAMILIES:
        with scratch() as folder:
            proofs.write(folder, make())
            other = {"c": [checker, "f.cnf", "f.lrat"]} if checker else {}
            runs = by_turns({"lrat": [bench.arcv, "lrat", "f.cnf", "f.lrat"]} | other, folder, bench.rounds)
            if {it.text for it in runs.values()} != {b"accepted\n"}:
                wrong(f"lrat: {title}")
            ratio = quotient(runs["lrat"], runs.get("c"))
            met = None if ratio is None else ratio <= 1.6
            cells = [title, seconds(runs["lrat"].seconds), seconds(took(runs.get("c"))), times(ratio)]
            table.rows.append(Row(cells, met, bench.profile(met, ["lrat", "f.cnf", "f.lrat"], folder)))
    return [table]


# ---- solve


def answer(program: str, ran: Run) -> str:
    """What a run of `solve` or of MiniSat found."""
    names = {0: "model", 2: "none", 3: "limit"} if program == "arcv" else {10: "model", 20: "none"}
    return "not done" if ran.status is None else names.get(ran.status, "not done")


def dropped(title: str, lines: Iterable[str]) -> drops.Log:
    """The log, of which each drop step has to follow the rule."""
    log = drops.read(lines)
    if log.faults:
        wrong(f"{title}: {log.faults[0]}")
    return log


def conflicts(ran: Run | None) -> int:
    """How many conflicts MiniSat says that it had."""
    found = re.search(rb"conflicts\s*:\s*(\d+)", ran.text) if ran else None
    return int(found.group(1)) if found else 0


def rate(count: int, ran: Run | None) -> str:
    """How many conflicts a second."""
    return f"{count / max(ran.seconds, 0.001):,.0f}" if ran and count else "-"


def compare(bench: Bench, title: str, formula: formulas.Formula, folder: Path, runs: dict[str, Run]) -> str:
    """The answer of arcv, which MiniSat has to share; its model, or its proof that there is none, is judged."""
    found = {answer(name, it) for name, it in runs.items()} - {"limit", "not done"}
    if len(found) > 1:
        wrong(f"solve: {title}: {found}")
    ours = answer("arcv", runs["arcv"])
    if ours == "model" and not formulas.is_model(formula, runs["arcv"].text):
        wrong(f"solve: the model of {title}")
    if ours == "none" and run([bench.arcv, "lrat", "f.cnf", "f.lrat"], folder, 4 * bench.seconds).text != b"accepted\n":
        wrong(f"solve: the proof of {title}")
    return ours


def read_log(title: str, folder: Path) -> drops.Log:
    """The proof that `solve` wrote; there is none where the run was cut off."""
    if not (folder / "f.lrat").exists():
        return drops.Log()
    with open(folder / "f.lrat") as lines:
        return dropped(title, lines)


def is_solved(formula: formulas.Formula, ours: Run, lemmas: int, ratio: float | None) -> bool | None:
    """Whether the target is met, where there is something to compare with."""
    if formula[0] == FEW_VARIABLES and lemmas < CONFLICTS_A_SECOND * ours.seconds:
        return False
    return None if ratio is None else ratio <= 3 or ours.seconds < 0.05


def solved_row(bench: Bench, title: str, formula: formulas.Formula, folder: Path) -> Row:
    formulas.write(folder / "f.cnf", formula)
    other = {"minisat": ["minisat", "f.cnf"]} if beside.installed("minisat") else {}
    runs = by_turns({"arcv": [bench.arcv, *SOLVE]} | other, folder, 2, 2 * bench.seconds)
    ours, theirs = runs["arcv"], runs.get("minisat")
    found, log = compare(bench, title, formula, folder, runs), read_log(title, folder)
    is_done = found in ("model", "none")
    ratio = quotient(ours, theirs) if is_done else None
    rates = [rate(len(log.added), ours), rate(conflicts(theirs), theirs)]
    cells = [title, found, seconds(ours.seconds), seconds(took(theirs)), times(ratio), *rates, str(log.drops)]
    met = is_solved(formula, ours, len(log.added), ratio) if is_done else False
    return Row(cells, met, bench.profile(met, SOLVE, folder))


def solved(bench: Bench) -> list[Table]:
    head = ["formula", "answer", "solve", "MiniSat", "times", "conflicts a second", "of MiniSat", "drop steps"]
    table = Table("`solve`", head, "at most 3 of MiniSat, where the rule of dropping allows it; 40,000 conflicts a second on 72 variables (nine things)")
    for title, formula in [*formulas.EASY, *formulas.HARD]:
        with scratch() as folder:
            table.rows.append(solved_row(bench, title, formula, folder))
    return [table]


# ---- repair


def price_of_arcv(ran: Run) -> int | None:
    found = re.match(rb"repaired (\d+)\n", ran.text)
    return int(found.group(1)) if found and ran.status == 0 else None


def price_of_z3(ran: Run) -> int | None:
    last = ran.text.split()[-1:] if ran.status == 0 else []
    return int(last[0]) if last and last[0].isdigit() else None


def price_of_clasp(ran: Run) -> int | None:
    found = re.findall(rb"^o (\d+)$", ran.text, re.MULTILINE)
    return int(found[-1]) if found and b"s OPTIMUM FOUND" in ran.text else None


PRICES: dict[str, Callable[[Run], int | None]] = {"arcv": price_of_arcv, "z3": price_of_z3, "clasp": price_of_clasp}
SOLVERS = {"z3": ["z3", "-wcnf", "-model", "f.wcnf"], "clasp": ["clasp", "--opt-strategy=usc", "f.wcnf"]}


def proved(bench: Bench, title: str, formula: encoding.Formula, folder: Path) -> int:
    """How many lemmas the certificate has. Its log is judged here over the formula made anew, as `arcv check` does by itself."""
    certificate = certificates.read(folder / "cert")
    dropped(title, certificate.log)
    if certificate.answer != "budget":
        checks = [[bench.arcv, "check", "net.json", "cert"]]
        if certificate.log:
            certificates.write_proof(certificate, formula, folder / "f.cnf", folder / "f.lrat")
            checks.append([bench.arcv, "lrat", "f.cnf", "f.lrat"])
        if any(run(it, folder, 4 * bench.seconds).text != b"accepted\n" for it in checks):
            wrong(f"the certificate of {title}")
    return certificate.lemmas


def repaired_row(bench: Bench, title: str, network: Network, folder: Path, is_met: Callable[[Run, float | None, int], bool]) -> Row:
    formula = encoding.of_policies(network)
    encoding.write_weighted(folder / "f.wcnf", formula)
    others = {name: command for name, command in SOLVERS.items() if beside.installed(name)}
    runs = by_turns({"arcv": [bench.arcv, *REPAIR]} | others, folder, min(bench.rounds, 3), bench.seconds)
    prices = {name: PRICES[name](it) for name, it in runs.items()}
    if len(set(prices.values()) - {None}) > 1:
        wrong(f"repair: {title}: {prices}")
    ours, is_done = runs["arcv"], runs["arcv"].status in (0, 2, 3)
    lemmas = proved(bench, title, formula, folder) if is_done else 0
    ratio = quotient(ours, runs.get("z3")) if prices["arcv"] is not None else None
    met = prices["arcv"] is not None and is_met(ours, ratio, lemmas)
    price = next((str(it) for it in prices.values() if it is not None), "-")
    policies = tally(run([bench.arcv, "verify", "net.json"], folder).text)
    cells = [title, policies, price, seconds(ours.seconds) if is_done else f"over {bench.seconds}"]
    cells += [seconds(took(runs.get(it))) if prices.get(it) is not None else "-" for it in SOLVERS]
    cells += [times(ratio), str(lemmas) if is_done else "-", rate(lemmas, ours)]
    return Row(cells, met, bench.profile(met, REPAIR, folder))


def is_within(ours: Run, ratio: float | None, lemmas: int) -> bool:
    return ratio is None or ratio <= 1


def is_fast(ours: Run, ratio: float | None, lemmas: int) -> bool:
    return (ours.seconds <= 2 or lemmas > 20_000) and (lemmas < 1000 or lemmas >= 20_000 * ours.seconds)


def repaired(bench: Bench) -> list[Table]:
    head = ["network", "policies", "price", "repair", "z3", "clasp", "times z3", "lemmas", "a second"]
    few = Table("`repair`, 1 to 4 broken policies", head, "at most 1 of z3")
    target = "within 2 s where at most 20,000 lemmas are needed, and 20,000 lemmas a second where 1,000 are"
    many = Table("`repair`, more broken policies, and many policies", head, target)
    for table, families, is_met in ((few, broken.FEW, is_within), (many, broken.MANY, is_fast)):
        for title, network, folder in folders(families):
            table.rows.append(repaired_row(bench, title, network, folder, is_met))
    return [few, many]
