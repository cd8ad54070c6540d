"""A router id that another router may take by itself: it is no refusal, and under OSPF there are no routes between the two."""
from ipaddress import IPv4Address
from typing import Iterator

from lab.network import read_network
from lab.settings import Router


def clashes(routers: list[Router]) -> Iterator[tuple[Router, Router, IPv4Address]]:
    """Each router whose id is set, with one that sets none and has this id among its addresses, the highest of which it takes."""
    for router in routers:
        for other in routers:
            addresses = {face.address.ip for face in other.interfaces.values() if face.address}
            if other.router_id is None and router.router_id in addresses:
                yield router, other, router.router_id


def warnings(document: str) -> list[str]:
    """A line for each such pair of a document; none where the files cannot be read, which are none that arcv takes."""
    try:
        routers = read_network(document).routers
    except (OSError, LookupError, ValueError, TypeError, AttributeError):
        return []
    return [
        f"{router.name} sets the router id {identity}, an address of {other.name}, which sets none and may take it: set one there"
        for router, other, identity in clashes(routers)
    ]
