"""Routes of the running routers beside the rows of a trace: waiting until they stand still, and comparing."""
import json
import re
import time
from ipaddress import IPv4Network
from typing import Optional

from lab import frr
from lab.program import Row
from lab.site import Site

Rows = dict[IPv4Network, dict[str, Row]]
Hops = dict[tuple[int, IPv4Network], frozenset[int]]
STEP, STILL, FIRM, PATIENCE = 0.1, 0.4, 20.0, 120.0


def hops_now(site: Site, hosts: list[IPv4Network]) -> Hops:
    """The links over which the kernel of each router sends what goes to each host network of another router."""
    network, found = site.network, {}
    keys = {host: (host.network_address.packed, host.prefixlen) for host in hosts}
    for place, kernel in enumerate(site.kernels):
        routes = kernel.routes()
        for host, key in keys.items():
            if network.hosts[host].router != place:
                found[place, host] = frozenset(site.links.get((place, device), 0) for device in routes.get(key, ()))
    return found


def is_as_told(site: Site, place: int, hops: frozenset[int], row: Row) -> bool:
    """Whether the next hops are those of the row, or one of them where the router uses one alone."""
    if frr.has_one_path(site.network, place):
        return hops <= row.links and len(hops) == min(1, len(row.links))
    return hops == row.links


def wrong_hops(site: Site, rows: Rows, hops: Hops) -> list[tuple[int, IPv4Network]]:
    names = [router.name for router in site.network.routers]
    return [(place, host) for (place, host), links in hops.items() if not is_as_told(site, place, links, rows[host][names[place]])]


def settle(site: Site, rows: Rows) -> Hops:
    """Waits until routes stand still, longer where they are not as told: those have to stay so for long, and not for ever
    to change. Gives the routes then."""
    begun = changed = time.monotonic()
    hops: Optional[Hops] = None
    while True:
        time.sleep(STEP)
        now = time.monotonic()
        if any([kernel.drain() for kernel in site.kernels]):
            hops, changed = None, now
        elif now - changed >= STILL:
            hops = hops_now(site, list(rows)) if hops is None else hops
            if now - changed >= FIRM or not wrong_hops(site, rows, hops):
                return hops
        if now - begun >= PATIENCE:
            return hops_now(site, list(rows))


def costs_now(site: Site) -> list[dict[IPv4Network, int]]:
    """For each router the costs of the routes that are in use, or the lengths of the AS paths of the best ones."""
    if site.network.protocol == "ospf":
        return [ospf_costs(text) for text in site.ask("zebra", "show ip route ospf")]
    return [path_lengths(text) for text in site.ask("bgpd", "show bgp ipv4 unicast json")]


def ospf_costs(text: str) -> dict[IPv4Network, int]:
    lines = re.findall(r"^O\S*>\S* (\S+) \[[0-9]+/([0-9]+)\]", text, re.M)
    return {IPv4Network(prefix): int(cost) for prefix, cost in lines}


def path_lengths(text: str) -> dict[IPv4Network, int]:
    tables = json.loads(text).get("routes", {})
    best = {prefix: route for prefix, routes in tables.items() for route in routes if route.get("bestpath")}
    return {IPv4Network(prefix): len(route["path"].split()) for prefix, route in best.items()}


def words_of(cost: Optional[int], links: frozenset[int]) -> str:
    return f"{cost} via {' '.join(map(str, sorted(links)))}" if links else "none" if cost is None else str(cost)


def compare(site: Site, rows: Rows, hops: Hops) -> list[str]:
    """A line for each row whose next hops or cost are others: the router and the host network."""
    network, texts = site.network, []
    wrong = set(wrong_hops(site, rows, hops))
    for (place, router), costs in zip(enumerate(network.routers), costs_now(site)):
        for host, table in rows.items():
            end, row = network.hosts[host], table[router.name]
            if end.router == place:
                continue
            cost = costs.get(host)
            found = None if cost is None else cost - frr.own_cost(network, end)
            if (place, host) in wrong or found != row.cost:
                text = f"arcv says {words_of(row.cost, row.links)}, FRR {words_of(found, hops[place, host])}"
                texts.append(f"row {router.name} {host}: {text}")
    return texts


def compared(site: Site, rows: Rows) -> tuple[Hops, list[str]]:
    """The routes once they stand still, and what differs then. A daemon may tell costs later than the kernel routes, so that what
    differs has to do so for long."""
    begun = time.monotonic()
    while True:
        hops = settle(site, rows)
        texts = compare(site, rows, hops)
        if not texts or time.monotonic() - begun >= FIRM:
            return hops, texts
        time.sleep(1)
