"""The settings of a router in FRR's words, and its packet lists in those of nftables.

Where FRR is known to act otherwise than IOS, the translation takes IOS's side; each such place says so."""
from ipaddress import IPv4Network
from typing import Iterator

from lab.network import End, Network, cost_of, host_network, is_passive, is_point, list_at, router_id
from lab.settings import ALL_SERVICES, Interface, PacketEntry, RouteEntry, Router

HELLO, DEAD = 1, 3
MOST_PATHS = 64
SIDES = (("in", "prerouting", "iifname"), ("out", "forward", "oifname"))


def device(router: Router, face: Interface) -> str:
    """The name of an interface on Linux, by its place in the file."""
    return f"i{list(router.interfaces).index(face.name)}"


def is_on_lo(network: Network, end: End) -> bool:
    """Whether the address stands on `lo`: that of a host network that is one address alone. FRR takes a /32 on another
    interface for an unnumbered one and does not tell it."""
    host = host_network(network.routers[end.router], network.face(end))
    return end not in network.link_at and host is not None and host.prefixlen == 32


def is_alive(face: Interface) -> bool:
    """Whether the interface has its address on Linux, which would take packets to the address of one that is shut."""
    return face.address is not None and not face.is_shut


def own_cost(network: Network, end: End) -> int:
    """What FRR adds for the interface of a host network: its cost, and nothing for `lo`."""
    on_lo = network.protocol != "ospf" or is_on_lo(network, end)
    return 0 if on_lo else cost_of(network.routers[end.router], network.face(end))


def zebra_words(router: Router) -> list[str]:
    """Without groups of next hops in the kernel, which zebra 8.4.4 leaves short of a link that went down and came up."""
    return [f"hostname {router.name}", "no zebra nexthop kernel enable"]


def ospf_interface(network: Network, place: int, face: Interface) -> Iterator[str]:
    """The block of an interface. The cost is written out, since FRR rounds the bandwidth to Mbit/s and the quotient up or down."""
    router = network.routers[place]
    if not is_alive(face) or is_on_lo(network, End(place, face.name)):
        return
    yield f"interface {device(router, face)}"
    yield f" ip ospf cost {cost_of(router, face)}"
    yield f" ip ospf network {'point-to-point' if is_point(face) else 'broadcast'}"
    yield f" ip ospf hello-interval {HELLO}"
    yield f" ip ospf dead-interval {DEAD}"
    yield " ip ospf retransmit-interval 3"
    if is_passive(router, face):
        yield " ip ospf passive"


def ospf_words(network: Network, place: int) -> list[str]:
    """The words of ospfd. FRR has no `ip ospf area` beside `network`, so the former are `network` lines for the address."""
    router = network.routers[place]
    words = [line for face in router.interfaces.values() for line in ospf_interface(network, place, face)]
    words += ["router ospf", " timers throttle spf 0 50 200", " timers throttle lsa all 0", " timers lsa min-arrival 0"]
    identity = router_id(router)
    if identity is not None:
        words.append(f" ospf router-id {identity}")
    words += [f" network {prefix} area {router.area}" for prefix in router.networks]
    for face in router.interfaces.values():
        if face.has_area and is_alive(face) and face.address and not any(face.address.ip in prefix for prefix in router.networks):
            words.append(f" network {face.address.ip}/32 area {router.area}")
    return words


def route_line(name: str, sequence: int, entry: RouteEntry) -> str:
    """An entry of a prefix list. FRR has no `ge` equal to the length, which says nothing."""
    length = entry.prefix.prefixlen
    bounds = f" ge {entry.low}" if entry.low > length else ""
    bounds += f" le {entry.high}" if entry.high > length else ""
    return f"ip prefix-list {name} seq {sequence} {'permit' if entry.permit else 'deny'} {entry.prefix}{bounds}"


def bgp_words(network: Network, place: int) -> list[str]:
    """The words of bgpd. A prefix list that does not stand is not bound, since FRR's would deny."""
    router = network.routers[place]
    words = [
        route_line(name, 5 * number, entry)
        for name, entries in router.route_lists.items()
        for number, entry in enumerate(entries, 1)
    ]
    words += [
        f"router bgp {router.number}", " no bgp ebgp-requires-policy", " bgp network import-check",
        " bgp bestpath as-path multipath-relax", " timers bgp 20 60",
    ]
    identity = router_id(router)
    if identity is not None:
        words.append(f" bgp router-id {identity}")
    for address, neighbour in router.neighbours.items():
        lines = (f"remote-as {neighbour.remote_as}", "timers connect 1", "advertisement-interval 0")
        words += [f" neighbor {address} {line}" for line in lines]
        if neighbour.is_shut:
            words.append(f" neighbor {address} shutdown")
    words += [" address-family ipv4 unicast", f"  maximum-paths {min(router.maximum_paths or 1, MOST_PATHS)}"]
    words += [f"  network {prefix}" for prefix in router.networks]
    for address, neighbour in router.neighbours.items():
        if neighbour.prefix_list in router.route_lists:
            words.append(f"  neighbor {address} prefix-list {neighbour.prefix_list} in")
    return words + [" exit-address-family"]


def has_one_path(network: Network, place: int) -> bool:
    """Whether the router uses one of several equally short ways alone."""
    return network.protocol == "bgp" and (network.routers[place].maximum_paths or 1) < 2


def nft_prefix(word: str, prefix: IPv4Network) -> str:
    return f"ip {word} {prefix} " if prefix.prefixlen else ""


def nft_rule(entry: PacketEntry) -> str:
    """An entry of an ACL as a rule."""
    services = ""
    if entry.services != ALL_SERVICES:
        protocol, (low, high) = entry.services[0] >> 16, (service & 0xFFFF for service in entry.services)
        services = f"ip protocol {protocol} "
        if (low, high) != (0, 0xFFFF):
            services += f"{'tcp' if protocol == 6 else 'udp'} dport {low}-{high} "
    return nft_prefix("saddr", entry.source) + nft_prefix("daddr", entry.target) + services + ("accept" if entry.permit else "drop")


def nft_words(network: Network, place: int) -> list[str]:
    """The rules of a router: an ACL inbound sees all that comes in, its own address's packets too; one outbound sees what is
    forwarded, and not what the router sends itself, as on IOS."""
    router = network.routers[place]
    words = ["table ip lab {"]
    for number, entries in enumerate(router.packet_lists.values()):
        words += [f" chain l{number} {{", *(f"  {nft_rule(entry)}" for entry in entries), "  drop", " }"]
    numbers = {name: number for number, name in enumerate(router.packet_lists)}
    for side, hook, word in SIDES:
        words += [f" chain {side}bound {{", f"  type filter hook {hook} priority 0; policy accept;"]
        for face in router.interfaces.values():
            if list_at(router, face, side):
                words.append(f"  {word} {device(router, face)} jump l{numbers[face.lists[side]]}")
        words.append(" }")
    return words + ["}"]
