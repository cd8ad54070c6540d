"""Random networks in the language that arcv reads: router files and a document, drawn from a seed."""
import json
import os
from dataclasses import dataclass, field
from ipaddress import IPv4Address, IPv4Network
from random import Random
from typing import Optional

KINDS = ("GigabitEthernet", "GigabitEthernet", "FastEthernet", "Serial", "TenGigabitEthernet")
SERVICES = (
    "tcp {} {} eq 22", "tcp {} {} eq www", "tcp {} {} range 135 139", "udp {} {} eq domain", "udp {} {}", "icmp {} {}", "47 {} {}",
)
SIZES = (3, 3, 4, 4, 5, 5, 6, 7, 8, 10)
ASKED = (("tcp", 22), ("tcp", 443), ("tcp", None), ("udp", 53), ("icmp", None), (47, None))


@dataclass
class Face:
    """An interface of a draft: its name, address and lines, and the link that it is an end of, if it is one."""
    name: str
    address: IPv4Address
    prefix: IPv4Network
    link: Optional[int] = None
    lines: list[str] = field(default_factory=list)


@dataclass
class Draft:
    """A router of a draft."""
    name: str
    faces: list[Face] = field(default_factory=list)
    process: list[str] = field(default_factory=list)
    lists: list[str] = field(default_factory=list)

    def add(self, kind: str, address: IPv4Address, prefix: IPv4Network, link: Optional[int] = None) -> Face:
        number = sum(face.name.startswith(kind) for face in self.faces)
        face = Face(f"{kind}{number}" if kind == "Loopback" else f"{kind}0/{number}", address, prefix, link)
        self.faces.append(face)
        return face


@dataclass(frozen=True)
class Kind:
    """What is drawn: the protocol, and whether routers use several equally short ways under eBGP."""
    protocol: str
    has_many_paths: bool = True


def wildcard(prefix: IPv4Network) -> str:
    return f"{prefix.network_address} {prefix.hostmask}"


class Drawing:
    """One network that is being drawn."""

    def __init__(self, kind: Kind, draw: Random) -> None:
        self.kind, self.draw = kind, draw
        self.routers = [Draft(f"r{number}") for number in range(1, draw.choice(SIZES) + 1)]
        self.links: list[tuple[int, int]] = []
        self.hosts: list[IPv4Network] = []

    def chance(self, share: float) -> bool:
        return self.draw.random() < share

    def draw_links(self) -> None:
        """A tree and some links more, some of them parallel to others."""
        count, draw = len(self.routers), self.draw
        self.links = [(draw.randrange(place), place) for place in range(1, count)]
        for _ in range(draw.randint(1, count)):
            one, other = draw.sample(range(count), 2)
            self.links.append(draw.choice(self.links) if self.chance(0.15) else (one, other))
        for number, ends in enumerate(self.links, 1):
            self.draw_link(number, ends)

    def draw_link(self, number: int, ends: tuple[int, int]) -> None:
        """The two interfaces of a link."""
        kind = self.draw.choice(KINDS)
        prefix = IPv4Network((f"10.200.{number}.0", self.draw.choice((30, 30, 29))))
        network_type = self.draw.choice(("point-to-point", "point-to-point", "broadcast", None))
        for place, address in zip(ends, prefix.hosts()):
            face = self.routers[place].add(kind, address, prefix, number)
            if network_type:
                face.lines.append(f"ip ospf network {network_type}")
            if self.chance(0.03):
                face.lines.append("shutdown")
            if self.kind.protocol == "ospf":
                self.draw_cost(face)

    def draw_cost(self, face: Face) -> None:
        if self.chance(0.5):
            face.lines.append(f"ip ospf cost {self.draw.choice((1, 1, 2, 5, 10, 10, 20, 100))}")
        elif self.chance(0.3):
            face.lines.append(f"bandwidth {self.draw.choice((2048, 30000, 60000, 512000))}")

    def draw_hosts(self) -> None:
        """The host networks, at interfaces and loopbacks: none at some routers, but one at each of the first three."""
        for place, router in enumerate(self.routers, 1):
            for number in range(self.draw.choice((1, 1, 2) if place < 4 else (0, 1, 1, 1, 2))):
                prefix = IPv4Network((f"10.{place}.{number}.0", self.draw.choice((24, 24, 26, 28))))
                face = router.add("GigabitEthernet", prefix[self.draw.choice((1, 1, 5))], prefix)
                if self.chance(0.04):
                    face.lines.append("shutdown")
                self.hosts.append(prefix)
            if self.chance(0.3):
                prefix = IPv4Network(f"192.168.{place}.{self.draw.randrange(1, 200)}/32")
                router.add("Loopback", prefix[0], prefix)
                self.hosts.append(prefix)

    def draw_ospf(self) -> None:
        """The OSPF process of each router."""
        for place, router in enumerate(self.routers, 1):
            router.process.append("router ospf 1")
            if self.chance(0.4):
                router.process.append(f" router-id 172.31.0.{place}")
            if self.chance(0.3):
                router.process.append(f" auto-cost reference-bandwidth {self.draw.choice((1000, 10000))}")
            self.draw_passive(router)
            if self.chance(0.2):
                for face in router.faces:
                    if self.chance(0.97):
                        face.lines.append("ip ospf 1 area 0")
            elif self.chance(0.6):
                router.process.append(" network 0.0.0.0 255.255.255.255 area 0")
            else:
                router.process += [f" network {wildcard(face.prefix)} area 0" for face in router.faces if self.chance(0.97)]

    def draw_passive(self, router: Draft) -> None:
        """Passive interfaces: those with hosts mostly, and few of links."""
        shares = {face.name: 0.04 if face.link else 0.5 for face in router.faces}
        if self.chance(0.2):
            router.process.append(" passive-interface default")
            router.process += [f" no passive-interface {name}" for name, share in shares.items() if not self.chance(share)]
        else:
            router.process += [f" passive-interface {name}" for name, share in shares.items() if self.chance(share)]

    def draw_bgp(self) -> None:
        """The BGP process of each router, with the prefix lists of its neighbours."""
        for place, router in enumerate(self.routers):
            router.process.append(f"router bgp {65001 + place}")
            router.process.append(f" bgp router-id 172.31.0.{place + 1}")
            if self.kind.has_many_paths:
                router.process.append(" maximum-paths 16")
            self.draw_route_lists(router)
            for face in router.faces:
                if face.link:
                    self.draw_neighbour(router, place, face)
                elif self.chance(0.95):
                    router.process.append(f" network {face.prefix.network_address} mask {face.prefix.netmask}")

    def draw_neighbour(self, router: Draft, place: int, face: Face) -> None:
        """The neighbour at the far end of a link, in the right AS but for few."""
        ends = self.links[(face.link or 0) - 1]
        there = ends[1] if place == ends[0] else ends[0]
        far = next(end for end in self.routers[there].faces if end.link == face.link)
        number = 65001 + there
        router.process.append(f" neighbor {far.address} remote-as {number + 100 if self.chance(0.01) else number}")
        if self.chance(0.04):
            router.process.append(f" neighbor {far.address} shutdown")
        if self.chance(0.4):
            router.process.append(f" neighbor {far.address} prefix-list {self.draw.choice(('PL-1', 'PL-2', 'PL-3'))} in")

    def draw_route_lists(self, router: Draft) -> None:
        """Two prefix lists; a third one is named and does not stand."""
        for name in ("PL-1", "PL-2"):
            for number in range(1, self.draw.randint(2, 4)):
                host = self.draw.choice(self.hosts)
                wide = self.chance(0.3)
                bounds = self.draw.choice((" le 32", " ge 24", " ge 20 le 28")) if wide else ""
                prefix = IPv4Network((host.network_address, 16), strict=False) if wide else host
                answer = self.draw.choice(("deny", "deny", "permit"))
                router.lists.append(f"ip prefix-list {name} seq {5 * number} {answer} {prefix}{bounds}")
            if self.chance(0.85):
                router.lists.append(f"ip prefix-list {name} seq 50 permit 0.0.0.0/0 le 32")

    def draw_packet_lists(self) -> None:
        """ACLs, bound at some interfaces, at links more rarely."""
        for router in self.routers:
            bound = []
            for face in router.faces:
                for side in ("in", "out"):
                    if self.chance(0.05 if face.link else 0.2):
                        name = self.draw.choice(("LIST-1", "110", "20"))
                        face.lines.append(f"ip access-group {name} {side}")
                        bound.append(name)
            for name in sorted(set(bound)):
                if self.chance(0.95):
                    router.lists += self.packet_list(name)

    def packet_list(self, name: str) -> list[str]:
        """The lines of an ACL: some entries, and mostly a last one that permits all."""
        ending = ["permit ip any any"] if self.chance(0.9) else []
        if name == "20":
            host = self.draw.choice(self.hosts)
            return [f"access-list 20 {self.draw.choice(('deny', 'permit'))} {wildcard(host)}", "access-list 20 permit any"]
        entries = [self.packet_entry() for _ in range(self.draw.randint(1, 4))] + ending
        if name.isdigit():
            return [f"access-list {name} {entry}" for entry in entries]
        return [f"ip access-list extended {name}", *(f" {10 * number} {entry}" for number, entry in enumerate(entries, 1)), "!"]

    def packet_entry(self) -> str:
        """An entry of an extended ACL."""
        ends = [self.end(self.draw.choice(self.hosts)) for _ in range(2)]
        form = self.draw.choice(SERVICES) if self.chance(0.5) else "ip {} {}"
        return f"{self.draw.choice(('deny', 'deny', 'permit'))} {form.format(*ends)}"

    def end(self, host: IPv4Network) -> str:
        """SRC or DST: a host network, a part of it, one host, or any."""
        if self.chance(0.15):
            return "any"
        if self.chance(0.15):
            return f"host {host[self.draw.randrange(host.num_addresses)]}"
        part = next(iter(host.subnets())) if host.prefixlen < 31 and self.chance(0.2) else host
        return f"host {part[0]}" if part.prefixlen == 32 else wildcard(part)

    def policies(self) -> list[dict[str, object]]:
        """Six policies between host networks, some on services."""
        found = []
        for _ in range(6):
            source, target = self.draw.sample(self.hosts, 2)
            policy: dict[str, object] = {"kind": self.draw.choice(("reach", "reach", "reach", "blocked", "through"))}
            policy |= {"from": str(source), "to": str(target)}
            if policy["kind"] == "reach":
                policy["failures"] = self.draw.choice((0, 0, 1, 1, 2))
            if self.chance(0.35):
                proto, port = self.draw.choice(ASKED)
                policy |= {"proto": proto} | ({} if port is None else {"port": port})
            found.append(policy)
        return found

    def document(self) -> dict[str, object]:
        """The document, with waypoints at some links."""
        links = []
        for number, ends in enumerate(self.links, 1):
            faces = [next(face for face in self.routers[place].faces if face.link == number) for place in ends]
            a, b = (f"{self.routers[place].name}:{face.name}" for place, face in zip(ends, faces))
            links.append({"a": a, "b": b} | ({"waypoint": True} if self.chance(0.25) else {}))
        files = [f"{router.name}.cfg" for router in self.routers]
        return {"version": 2, "routers": files, "links": links, "policies": self.policies()}


def text_of(router: Draft) -> str:
    """The file of a router."""
    lines = [f"hostname {router.name}", "!"]
    for face in router.faces:
        lines += [f"interface {face.name}", f" ip address {face.address} {face.prefix.netmask}"]
        lines += [*(f" {line}" for line in face.lines), "!"]
    return "\n".join([*lines, *router.lists, *router.process, "!", "end", ""])


def write_network(kind: Kind, seed: str, folder: str) -> None:
    """Draws a network and writes its files and its document, `net.json`, into a folder."""
    drawing = Drawing(kind, Random(seed))
    drawing.draw_links()
    drawing.draw_hosts()
    (drawing.draw_ospf if kind.protocol == "ospf" else drawing.draw_bgp)()
    drawing.draw_packet_lists()
    os.makedirs(folder, exist_ok=True)
    texts = {f"{router.name}.cfg": text_of(router) for router in drawing.routers}
    texts["net.json"] = json.dumps(drawing.document(), indent=1) + "\n"
    for name, text in texts.items():
        with open(os.path.join(folder, name), "w") as file:
            file.write(text)
