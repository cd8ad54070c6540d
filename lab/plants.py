"""Faults put into the running network on purpose: each kind has to be found, by a difference that names its row."""
from copy import deepcopy
from typing import Optional

from lab.network import End, Network, cost_of, is_enabled, is_passive, list_at
from lab.program import Row
from lab.runner import Run

KINDS = ("cost", "list", "session", "failure")


class NothingToPlant(Exception):
    """The network has no place for a fault of this kind."""


def used_end(network: Network, rows: dict[str, Row]) -> Optional[End]:
    """An interface over which the trace sends packets."""
    for place, router in enumerate(network.routers):
        for number in sorted(rows[router.name].links if router.name in rows else ()):
            return network.links[number - 1].near(place)
    return None


def kept_down(network: Network) -> Optional[End]:
    """The one end of a link that alone keeps its adjacency or session down."""
    for link in network.links:
        ends = [end for end in link.ends if is_kept_down(network, end, link.far(end.router))]
        if len(ends) == 1 and not any(network.face(end).is_shut for end in link.ends):
            return ends[0]
    return None


def is_kept_down(network: Network, end: End, far: End) -> bool:
    """Whether an interface is passive, or its neighbour is shut down."""
    router, face, address = network.routers[end.router], network.face(end), network.face(far).address
    if router.protocol == "ospf":
        return is_enabled(router, face) and is_passive(router, face)
    return address is not None and address.ip in router.neighbours and router.neighbours[address.ip].is_shut


def plant_cost(network: Network, rows: dict[str, Row]) -> Optional[str]:
    """Adds one to the cost of an interface that is used."""
    end = used_end(network, rows) if network.protocol == "ospf" else None
    if end is None:
        return None
    router, face = network.routers[end.router], network.face(end)
    face.cost = cost_of(router, face) + 1
    return f"the cost of {router.name}:{face.name} is one more"


def plant_list(network: Network) -> Optional[str]:
    """Binds a list at the other side of its interface."""
    for end in network.hosts.values():
        router, face = network.routers[end.router], network.face(end)
        for side, other in (("in", "out"), ("out", "in")):
            if any(not entry.permit for entry in list_at(router, face, side)):
                face.lists[other] = face.lists.pop(side)
                return f"the list of {router.name}:{face.name} is at the wrong side"
    return None


def plant_session(network: Network) -> Optional[str]:
    """Brings an adjacency or session up that the files keep down."""
    end = kept_down(network)
    if end is None:
        return None
    router, far = network.routers[end.router], network.face(network.link_at[end].far(end.router)).address
    router.passive.append((False, end.face))
    if far and far.ip in router.neighbours:
        router.neighbours[far.ip].is_shut = False
    return f"the adjacency of {router.name}:{end.face} is not kept down"


def plant(kind: str, run: Run) -> str:
    """Puts a fault into the site of a run that is not up yet, and tells which."""
    site, told = run.site, None
    site.network = deepcopy(site.network)
    failed = sorted(next((links for links in run.sets if links), frozenset()))
    if kind == "cost":
        told = plant_cost(site.network, next(iter(run.rows(frozenset()).values()), {}))
    elif kind == "list":
        told = plant_list(site.network)
    elif kind == "session":
        told = plant_session(site.network)
    elif failed:
        site.unfailing = frozenset(failed[:1])
        told = f"link {failed[0]} never fails"
    if told is None:
        raise NothingToPlant(f"there is no place for a fault of the kind {kind}")
    return told
