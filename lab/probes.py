"""Packets that are sent from the hosts of a network, and where each is seen on its way."""
import ctypes
import select
import socket
import struct
import time
from collections import Counter
from dataclasses import dataclass, field
from ipaddress import IPv4Address
from typing import Iterable, Optional

from lab.kernel import inside
from lab.network import End
from lab.site import HARDWARE, HOSTS, Site

ETH_P_IP, SO_ATTACH_FILTER = 0x0800, 26
MARK, TIME_TO_LIVE, SOURCE_PORT = 0x10, 32, 40000
MAGIC = b"arcv-lab"
HEADERS = {1: 8, 6: 20, 17: 8}
QUIET, LONGEST = 0.15, 3.0


@dataclass(frozen=True)
class Packet:
    """A packet of the model: two addresses and a service, the protocol times 65,536 plus the port."""
    source: IPv4Address
    target: IPv4Address
    service: int

    def __str__(self) -> str:
        protocol, port = self.service >> 16, self.service & 0xFFFF
        return f"{self.source} to {self.target} protocol {protocol}" + (f" port {port}" if protocol in (6, 17) else "")


@dataclass
class Sighting:
    """Where one packet was seen: the interfaces of routers at which it came in, those behind which hosts got it, and the
    routers that took it as their own."""
    arrivals: Counter[End] = field(default_factory=Counter)
    handed: Counter[End] = field(default_factory=Counter)
    taken: Counter[int] = field(default_factory=Counter)


def checksum(data: bytes) -> int:
    """The checksum of RFC 1071."""
    total: int = sum(struct.unpack(f"!{len(data) // 2}H", data))
    total = (total & 0xFFFF) + (total >> 16)
    return ~((total & 0xFFFF) + (total >> 16)) & 0xFFFF


def body_of(packet: Packet, load: bytes) -> bytes:
    """What follows the IP header: an echo request, a SYN, a datagram, or for other protocols the load alone."""
    protocol, port = packet.service >> 16, packet.service & 0xFFFF
    pseudo = packet.source.packed + packet.target.packed
    if protocol == 1:
        head = struct.pack("!BBHHH", 8, 0, 0, 1, 1)
        return struct.pack("!BBHHH", 8, 0, checksum(head + load), 1, 1) + load
    if protocol == 17:
        length = 8 + len(load)
        head = struct.pack("!HHHH", SOURCE_PORT, port, length, 0)
        value = checksum(pseudo + struct.pack("!HH", 17, length) + head + load)
        return struct.pack("!HHHH", SOURCE_PORT, port, length, value or 0xFFFF) + load
    if protocol == 6:
        head = struct.pack("!HHIIBBHHH", SOURCE_PORT, port, 1, 0, 0x50, 2, 1024, 0, 0)
        value = checksum(pseudo + struct.pack("!HH", 6, 20 + len(load)) + head + load)
        return struct.pack("!HHIIBBHHH", SOURCE_PORT, port, 1, 0, 0x50, 2, 1024, value, 0) + load
    return load


def bytes_of(packet: Packet, number: int) -> bytes:
    """The packet with a number in its load by which it is known again."""
    body = body_of(packet, MAGIC + struct.pack("!Q", number))
    front = struct.pack("!BBHHHBB", 0x45, MARK, 20 + len(body), number & 0xFFFF, 0, TIME_TO_LIVE, packet.service >> 16)
    ends = packet.source.packed + packet.target.packed
    return front + struct.pack("!H", checksum(front + b"\0\0" + ends)) + ends + body


def number_of(data: bytes) -> Optional[int]:
    """The number of a packet of ours, or None for any other."""
    if len(data) < 36 or data[0] != 0x45:
        return None
    load = data[20 + HEADERS.get(data[9], 0):]
    return int.from_bytes(load[8:16], "big") if load.startswith(MAGIC) else None


def keep_marked(line: socket.socket) -> None:
    """Lets a socket take packets with our mark alone, so that it does not fill up with those of the protocols."""
    code = [(0x30, 0, 0, 1), (0x15, 0, 1, MARK), (0x06, 0, 0, 0x40000), (0x06, 0, 0, 0)]
    program = ctypes.create_string_buffer(b"".join(struct.pack("HBBI", *step) for step in code))
    line.setsockopt(socket.SOL_SOCKET, SO_ATTACH_FILTER, struct.pack("HL", len(code), ctypes.addressof(program)))
    line.setsockopt(socket.SOL_SOCKET, socket.SO_RCVBUF, 1 << 22)
    line.setblocking(False)


class Probes:
    """The sockets by which packets are sent and seen in a site."""

    def __init__(self, site: Site, protocols: Iterable[int]) -> None:
        self.site, self.number = site, 1
        network = site.network
        self.ends = {(end.router, site.device(end)): end for end in [*network.link_at, *network.hosts.values()]}
        self.behind = {site.host_device(end): end for end in network.hosts.values()}
        self.lines: dict[socket.socket, tuple[str, int]] = {}
        for place in range(len(network.routers)):
            with inside(site.space(place)):
                self.watch("arrival", place, socket.socket(socket.AF_PACKET, socket.SOCK_DGRAM, socket.htons(ETH_P_IP)))
                for protocol in sorted(protocols):
                    self.watch("own", place, socket.socket(socket.AF_INET, socket.SOCK_RAW, protocol))
        with inside(site.spaces.name(HOSTS)):
            self.watch("host", -1, socket.socket(socket.AF_PACKET, socket.SOCK_DGRAM, socket.htons(ETH_P_IP)))
            self.hosts = socket.socket(socket.AF_PACKET, socket.SOCK_RAW, 0)
        self.poll = select.epoll()
        self.by_handle = {line.fileno(): line for line in self.lines}
        for handle in self.by_handle:
            self.poll.register(handle, select.EPOLLIN)

    def watch(self, kind: str, place: int, line: socket.socket) -> None:
        keep_marked(line)
        self.lines[line] = (kind, place)

    def __enter__(self) -> "Probes":
        return self

    def __exit__(self, *_: object) -> None:
        self.poll.close()
        for line in [*self.lines, self.hosts]:
            line.close()

    def send(self, packets: list[tuple[Packet, End]]) -> list[Sighting]:
        """Sends packets, each into an interface as from a host behind it, and tells where each was seen."""
        first = self.number
        seen = {first + place: Sighting() for place in range(len(packets))}
        self.number += len(packets)
        address = bytes.fromhex(HARDWARE.replace(":", ""))
        self.gather({}, 0.0)
        for place, (packet, end) in enumerate(packets):
            frame = address + address + struct.pack("!H", ETH_P_IP) + bytes_of(packet, first + place)
            self.hosts.sendto(frame, (self.site.host_device(end), ETH_P_IP))
        self.gather(seen, QUIET)
        return [seen[first + place] for place in range(len(packets))]

    def gather(self, seen: dict[int, Sighting], quiet: float) -> None:
        """Takes what was seen until nothing comes for a while."""
        deadline = time.monotonic() + LONGEST
        while time.monotonic() < deadline:
            ready = self.poll.poll(quiet)
            if not ready:
                return
            for handle, _ in ready:
                self.take(self.by_handle[handle], seen)

    def take(self, line: socket.socket, seen: dict[int, Sighting]) -> None:
        """Takes what lies at one socket."""
        kind, place = self.lines[line]
        while True:
            try:
                data, source = line.recvfrom(4096)
            except (BlockingIOError, InterruptedError):
                return
            sighting = seen.get(number_of(data) or 0)
            if sighting is None:
                continue
            if kind == "own":
                sighting.taken[place] += 1
            elif kind == "host":
                sighting.handed[self.behind[source[0]]] += 1
            elif (place, source[0]) in self.ends:
                sighting.arrivals[self.ends[place, source[0]]] += 1
