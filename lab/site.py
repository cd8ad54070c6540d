"""A network brought up: a namespace a router, its links, its daemons, and the hosts beside it in a namespace of their own.

No address of the link layer is ever asked for: every device has one and the same, so that what a router sends out at one end of a
link is taken at the other."""
import os
import shutil
import socket
import subprocess
import time
from concurrent.futures import ThreadPoolExecutor
from contextlib import ExitStack
from ipaddress import IPv4Interface
from typing import Iterable

from lab import frr
from lab.kernel import Kernel, inside
from lab.network import End, Link, Network, list_at
from lab.spaces import Spaces, batch

DAEMONS = "/usr/lib/frr"
HARDWARE = "02:00:00:00:00:01"
HOSTS = "hosts"
LOCALHOST = IPv4Interface("127.0.0.1/8")
SWITCHES = {
    "net/ipv6/conf/all/disable_ipv6": 1, "net/ipv6/conf/default/disable_ipv6": 1, "net/ipv4/ip_forward": 1,
    "net/ipv4/conf/all/rp_filter": 0, "net/ipv4/conf/default/rp_filter": 0, "net/ipv4/conf/all/accept_local": 1,
    "net/ipv4/conf/default/accept_local": 1, "net/ipv4/conf/all/send_redirects": 0, "net/ipv4/conf/default/send_redirects": 0,
    "net/ipv4/fib_multipath_hash_policy": 1, "net/ipv4/icmp_ratelimit": 0, "net/ipv4/icmp_echo_ignore_all": 1,
}
START_SECONDS, BESIDE = 60, 8


class Site:
    """A network that runs. `failed` is the set of links that are down now; those in `unfailing`, where a plant put them, never
    are."""

    def __init__(self, spaces: Spaces, network: Network) -> None:
        self.spaces, self.network = spaces, network
        self.parts = [f"{place}" for place in range(len(network.routers))]
        self.kernels: list[Kernel] = []
        self.links = {(end.router, self.device(end)): link.number for end, link in network.link_at.items()}
        self.failed: frozenset[int] = frozenset()
        self.unfailing: frozenset[int] = frozenset()

    def space(self, place: int) -> str:
        return self.spaces.name(self.parts[place])

    def device(self, end: End) -> str:
        return frr.device(self.network.routers[end.router], self.network.face(end))

    def host_device(self, end: End) -> str:
        """The device in the namespace of hosts that lies opposite an interface."""
        return f"h{end.router}{self.device(end)}"

    def up(self) -> None:
        """Brings everything up; routes come later."""
        self.spaces.open([*self.parts, HOSTS])
        for part in [*self.parts, HOSTS]:
            with inside(self.spaces.name(part)):
                for switch, value in SWITCHES.items():
                    with open(f"/proc/sys/{switch}", "w") as file:
                        file.write(str(value))
        self.join()
        self.kernels = [Kernel(self.space(place)) for place in range(len(self.parts))]
        with ThreadPoolExecutor(BESIDE) as pool:
            list(pool.map(self.set_up, range(len(self.parts))))

    def set_up(self, place: int) -> None:
        """Brings one router up."""
        self.address(place)
        self.filter(place)
        self.begin(place, "zebra", frr.zebra_words(self.network.routers[place]))
        self.await_socket(place, "zserv")
        words = frr.ospf_words if self.network.protocol == "ospf" else frr.bgp_words
        daemon = "ospfd" if self.network.protocol == "ospf" else "bgpd"
        self.begin(place, daemon, words(self.network, place))
        self.await_socket(place, f"{daemon}.vty")

    def down(self) -> None:
        for kernel in self.kernels:
            kernel.close()
        self.kernels = []
        self.spaces.close()

    def join(self) -> None:
        """Makes the links, and a wire to the hosts for each interface with a host network."""
        hosts, lines = self.spaces.name(HOSTS), []
        for link in self.network.links:
            a, b = ((self.device(end), self.space(end.router)) for end in link.ends)
            lines.append(wire(a, b))
        for end in self.network.hosts.values():
            lines.append(wire((self.device(end), self.space(end.router)), (self.host_device(end), hosts)))
        batch(lines)
        batch((f"link set {self.host_device(end)} up" for end in self.network.hosts.values()), hosts)

    def address(self, place: int) -> None:
        """Addresses the interfaces of a router, and takes up those that are up."""
        router, kernel = self.network.routers[place], self.kernels[place]
        kernel.turn("lo", True)
        kernel.address("lo", LOCALHOST, False)
        for face in router.interfaces.values():
            end = End(place, face.name)
            if face.address and frr.is_alive(face) and self.device(end) in kernel.numbers:
                if frr.is_on_lo(self.network, end):
                    kernel.address("lo", IPv4Interface(face.address.ip))
                else:
                    kernel.address(self.device(end), face.address)
                kernel.turn(self.device(end), True)

    def filter(self, place: int) -> None:
        """Hands the packet lists of a router that are bound to nftables."""
        router = self.network.routers[place]
        if not any(list_at(router, face, side) for face in router.interfaces.values() for side in face.lists):
            return
        text = "\n".join(frr.nft_words(self.network, place))
        with inside(self.space(place)):
            done = subprocess.run(["nft", "-f", "-"], input=text, text=True, capture_output=True)
        if done.returncode != 0:
            raise OSError(f"nft: {done.stderr.strip()}")

    def folder(self, place: int) -> str:
        return os.path.join(self.spaces.site, self.parts[place])

    def begin(self, place: int, daemon: str, words: Iterable[str]) -> None:
        """Starts a daemon of FRR with these words."""
        folder = self.folder(place)
        os.makedirs(folder, exist_ok=True)
        with open(os.path.join(folder, f"{daemon}.conf"), "w") as file:
            file.write("\n".join([*words, ""]))
        for name in (folder, os.path.join(folder, f"{daemon}.conf")):
            shutil.chown(name, "frr", "frr")
        command = [
            os.path.join(DAEMONS, daemon), "-f", f"{folder}/{daemon}.conf", "-i", f"{folder}/{daemon}.pid", "-z", f"{folder}/zserv",
            "--vty_socket", folder, "-A", "127.0.0.1", "-P", "0",
        ]
        self.spaces.start(self.parts[place], command)

    def await_socket(self, place: int, name: str) -> None:
        """Waits until a daemon listens."""
        path, deadline = os.path.join(self.folder(place), name), time.monotonic() + START_SECONDS
        while not os.path.exists(path):
            dead = self.spaces.dead()
            if dead or time.monotonic() > deadline:
                raise OSError(f"{dead or path} does not run; see {self.spaces.site}/log")
            time.sleep(0.02)

    def fail(self, failed: frozenset[int]) -> None:
        """Takes just these links down, at both ends at once, and all others up."""
        failed -= self.unfailing
        for link in self.network.links:
            if (link.number in failed) != (link.number in self.failed):
                self.turn(link, link.number not in failed)
        self.failed = failed

    def turn(self, link: Link, is_up: bool) -> None:
        for end in link.ends:
            if frr.is_alive(self.network.face(end)):
                self.kernels[end.router].turn(self.device(end), is_up)

    def ask(self, daemon: str, command: str) -> list[str]:
        """What this daemon of each router answers to a command; all are asked before the first is heard."""
        with ExitStack() as stack:
            lines = [stack.enter_context(socket.socket(socket.AF_UNIX)) for _ in self.parts]
            for place, line in enumerate(lines):
                line.settimeout(START_SECONDS)
                line.connect(os.path.join(self.folder(place), f"{daemon}.vty"))
                line.sendall(command.encode() + b"\0")
            answers = [heard(line) for line in lines]
        return answers


def heard(line: socket.socket) -> str:
    """One answer of a daemon, which three zeros and a status end."""
    answer = b""
    while answer[-4:-1] != b"\0\0\0":
        piece = line.recv(1 << 16)
        if not piece:
            raise OSError("a daemon of FRR broke off")
        answer += piece
    return answer[:-4].decode()


def wire(one: tuple[str, str], other: tuple[str, str]) -> str:
    """The words of `ip` for a pair of devices, each in its namespace."""
    (a, at), (b, there) = one, other
    front = f"link add name {a} netns {at} address {HARDWARE} arp off type veth peer name {b} netns {there}"
    return f"{front} address {HARDWARE} arp off"
