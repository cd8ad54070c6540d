"""Small networks for tests: texts of files into routers and segments."""
from ops import answers, asking, captures, documents, exact, links, opened, routers, rules, statements
from ops.links import Net, Segment
from ops.routers import Router

TABLE = rules.table(None)


def router(name: str, *lines: str) -> Router:
    text = "\n".join(["version 15.2", f"hostname {name}", *lines, "end", ""])
    return routers.read(captures.strip(f"{name}.cfg", text.encode()), TABLE)


def face(name: str, address: str, *lines: str) -> list[str]:
    own = Net(address, strict=False)
    return [f"interface {name}", f" ip address {address.split('/')[0]} {own.netmask}", *(f" {line}" for line in lines), "!"]


def laid(*found: Router, alone: tuple[str, ...] = ()) -> list[Segment]:
    segments = links.segments(found)
    links.join_outside(found, segments, [Net(prefix) for prefix in alone])
    return segments


def opened_copy(*found: Router, policies: tuple[documents.Policy, ...], packets: str = "all", waypoints: tuple[str, ...] = ()) -> opened.OpenCopy:
    return opened.open_copy(found, laid(*found), policies, packets, waypoints)


def blocked(source: str, target: str) -> documents.Policy:
    return documents.Policy("blocked", source, target)


def reach(source: str, target: str, failures: int = 0) -> documents.Policy:
    return documents.Policy("reach", source, target, failures)


def judged(*found: Router, hosts: tuple[str, ...] = ()) -> exact.Exact:
    segments = laid(*found)
    made = exact.Exact(found, segments, TABLE)
    made.meet([segment for segment in segments if any(str(net) in hosts for net in segment.nets)])
    return made


def asked(program: str, folder: str, policies: list[documents.Policy], *found: Router, packets: str = "all", waypoints: tuple[str, ...] = (),
          alone: tuple[str, ...] = ()) -> answers.Answers:
    named = [statements.Named(f"p-{place}", policy, packets, waypoints) for place, policy in enumerate(policies, 1)]
    made = answers.Answers(found, laid(*found, alone=alone), named, asking.Asker(program, folder), TABLE, {})
    made.ask()
    return made
