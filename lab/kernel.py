"""What is asked of the kernel inside a network namespace: sockets there, routes, and links up or down."""
import ctypes
import errno
import fcntl
import os
import socket
import struct
from contextlib import contextmanager
from ipaddress import IPv4Interface
from typing import Iterator

CLONE_NEWNET = 0x40000000
SIOCGIFFLAGS, SIOCSIFFLAGS, IFF_UP = 0x8913, 0x8914, 1
RTM_NEWROUTE, RTM_GETROUTE, NLMSG_DONE, NLM_F_DUMP = 24, 26, 3, 0x301
RTM_NEWADDR, RTM_DELADDR, NLMSG_ERROR, NLM_F_MAKE, NLM_F_TAKE = 20, 21, 2, 0x605, 0x5
IFA_ADDRESS, IFA_LOCAL = 1, 2
RTA_DST, RTA_OIF, RTA_MULTIPATH = 1, 4, 9
MAIN_TABLE, UNICAST, ROUTE_GROUP = 254, 1, 0x40
Prefix = tuple[bytes, int]
LIBC = ctypes.CDLL(None, use_errno=True)


@contextmanager
def inside(name: str) -> Iterator[None]:
    """What is opened in this block is opened in the namespace of this name, and stays there."""
    home = os.open("/proc/self/ns/net", os.O_RDONLY)
    there = os.open(f"/run/netns/{name}", os.O_RDONLY)
    try:
        enter(there)
        yield
    finally:
        enter(home)
        os.close(home)
        os.close(there)


def enter(handle: int) -> None:
    if LIBC.setns(handle, CLONE_NEWNET) != 0:
        raise OSError(ctypes.get_errno(), "setns")


def attributes(data: bytes) -> dict[int, bytes]:
    """The attributes of a netlink message by their types."""
    found, at = {}, 0
    while at + 4 <= len(data):
        length, kind = struct.unpack_from("=HH", data, at)
        found[kind] = data[at + 4 : at + length]
        at += max(4, length + 3 & ~3)
    return found


def interfaces_of(parts: dict[int, bytes]) -> frozenset[int]:
    """The numbers of the interfaces over which a route leads."""
    if RTA_OIF in parts:
        return frozenset(struct.unpack("=I", parts[RTA_OIF]))
    hops, data, at = set(), parts.get(RTA_MULTIPATH, b""), 0
    while at + 8 <= len(data):
        length, _, _, number = struct.unpack_from("=HBBi", data, at)
        hops.add(number)
        at += max(8, length + 3 & ~3)
    return frozenset(hops)


class Kernel:
    """The kernel's side of one namespace."""

    def __init__(self, name: str) -> None:
        with inside(name):
            self.routes_socket = socket.socket(socket.AF_NETLINK, socket.SOCK_RAW, 0)
            self.changes = socket.socket(socket.AF_NETLINK, socket.SOCK_RAW | socket.SOCK_NONBLOCK, 0)
            self.changes.bind((0, ROUTE_GROUP))
            self.control = socket.socket(socket.AF_INET, socket.SOCK_DGRAM)
            self.names = dict(socket.if_nameindex())
        self.numbers = {device: number for number, device in self.names.items()}

    def close(self) -> None:
        for line in (self.routes_socket, self.changes, self.control):
            line.close()

    def drain(self) -> bool:
        """Takes what the kernel told of changes of routes, and tells whether it did."""
        has_changed = False
        while True:
            try:
                self.changes.recv(1 << 16)
            except BlockingIOError:
                return has_changed
            except OSError as error:
                if error.errno != errno.ENOBUFS:
                    raise
            has_changed = True

    def routes(self) -> dict[Prefix, frozenset[str]]:
        """The routes of the main table by address and length: the devices over which each leads."""
        request = struct.pack("=IHHIIBBBBBBBBI", 28, RTM_GETROUTE, NLM_F_DUMP, 1, 0, socket.AF_INET, 0, 0, 0, 0, 0, 0, 0, 0)
        self.routes_socket.send(request)
        found: dict[Prefix, frozenset[str]] = {}
        while True:
            data, at = self.routes_socket.recv(1 << 18), 0
            while at + 16 <= len(data):
                length, kind = struct.unpack_from("=IH", data, at)
                if kind == NLMSG_DONE:
                    return found
                if kind == RTM_NEWROUTE:
                    self.take(data[at + 16 : at + length], found)
                at += length + 3 & ~3

    def take(self, body: bytes, found: dict[Prefix, frozenset[str]]) -> None:
        """Takes one route of a dump."""
        length, table, kind = body[1], body[4], body[7]
        parts = attributes(body[12:])
        if table == MAIN_TABLE and kind == UNICAST:
            found[parts.get(RTA_DST, bytes(4)), length] = frozenset(self.names[number] for number in interfaces_of(parts))

    def address(self, device: str, address: IPv4Interface, is_there: bool = True) -> None:
        """Gives an address to a device, or takes it away."""
        mine = b"".join(struct.pack("=HH", 8, kind) + address.ip.packed for kind in (IFA_LOCAL, IFA_ADDRESS))
        body = struct.pack("=BBBBI", socket.AF_INET, address.network.prefixlen, 0, 0, self.numbers[device]) + mine
        kind, flags = (RTM_NEWADDR, NLM_F_MAKE) if is_there else (RTM_DELADDR, NLM_F_TAKE)
        self.routes_socket.send(struct.pack("=IHHII", 16 + len(body), kind, flags, 2, 0) + body)
        answer = self.routes_socket.recv(1 << 12)
        error = struct.unpack_from("=i", answer, 16)[0]
        if struct.unpack_from("=H", answer, 4)[0] == NLMSG_ERROR and error:
            raise OSError(-error, f"{device} {address}: {os.strerror(-error)}")

    def turn(self, device: str, is_up: bool) -> None:
        """Takes a device up or down."""
        request = struct.pack("16sH14x", device.encode(), 0)
        flags = struct.unpack("16sH14x", fcntl.ioctl(self.control, SIOCGIFFLAGS, request))[1]
        flags = flags | IFF_UP if is_up else flags & ~IFF_UP
        fcntl.ioctl(self.control, SIOCSIFFLAGS, struct.pack("16sH14x", device.encode(), flags))
