"""Names of protocols and ports as Cisco IOS prints them in entries of lists."""

PROTOCOLS = {
    "ahp": 51, "eigrp": 88, "esp": 50, "gre": 47, "icmp": 1, "igmp": 2, "ipinip": 4, "nos": 94, "ospf": 89, "pcp": 108,
    "pim": 103, "sctp": 132, "tcp": 6, "udp": 17,
}
WRITTEN = {1: "icmp", 2: "igmp", 6: "tcp", 17: "udp", 47: "gre", 50: "esp", 89: "ospf"}
TCP = {
    "ftp-data": 20, "ftp": 21, "telnet": 23, "smtp": 25, "domain": 53, "www": 80, "pop3": 110, "bgp": 179, "chargen": 19,
    "cmd": 514, "daytime": 13, "discard": 9, "echo": 7, "exec": 512, "finger": 79, "gopher": 70, "hostname": 101, "ident": 113,
    "irc": 194, "klogin": 543, "kshell": 544, "login": 513, "lpd": 515, "msrpc": 135, "nntp": 119, "pim-auto-rp": 496,
    "pop2": 109, "sunrpc": 111, "syslog": 514, "tacacs": 49, "talk": 517, "time": 37, "uucp": 540, "whois": 43,
}
UDP = {
    "domain": 53, "bootps": 67, "bootpc": 68, "tftp": 69, "ntp": 123, "snmp": 161, "snmptrap": 162, "syslog": 514, "biff": 512,
    "discard": 9, "dnsix": 195, "echo": 7, "isakmp": 500, "mobile-ip": 434, "nameserver": 42, "netbios-dgm": 138,
    "netbios-ns": 137, "netbios-ss": 139, "non500-isakmp": 4500, "pim-auto-rp": 496, "rip": 520, "sunrpc": 111, "tacacs": 49,
    "talk": 517, "time": 37, "who": 513, "xdmcp": 177,
}
PORTS = {6: TCP, 17: UDP}
LAST = 65535
Ranges = tuple[tuple[int, int], ...]
ALL: Ranges = ((0, LAST),)


def protocol(word: str) -> int | None:
    """The number of a protocol; 256 for `ip`, which stands for all of them; None where the word is not known."""
    if word == "ip":
        return 256
    if word.isdigit():
        return int(word) if 0 < int(word) < 256 else None
    return PROTOCOLS.get(word)


def port(number: int, word: str) -> int | None:
    """The number of a port of a protocol, or None where the word is not known."""
    if word.isdigit():
        return int(word) if int(word) <= LAST else None
    return PORTS.get(number, {}).get(word)


def ranges_of(number: int, words: tuple[str, ...]) -> tuple[Ranges, int] | None:
    """The ports that words such as `gt 1023` name, and how many words that takes; None where they are not read."""
    kind = words[0]
    found = []
    for word in words[1:3] if kind == "range" else words[1:]:
        value = port(number, word)
        if value is None:
            break
        found.append(value)
        if kind in ("gt", "lt"):
            break
    if not found or (kind == "range" and (len(found) != 2 or found[0] > found[1])):
        return None
    if kind == "range":
        return ((found[0], found[1]),), 3
    if kind == "gt":
        return between(found[0] + 1, LAST), 2
    if kind == "lt":
        return between(0, found[0] - 1), 2
    singles = tuple((value, value) for value in sorted(set(found)))
    return (singles if kind == "eq" else without(singles)), 1 + len(found)


def between(first: int, last: int) -> Ranges:
    return ((first, last),) if first <= last else ()


def without(ranges: Ranges) -> Ranges:
    """The ports that are in none of these ranges, which rise."""
    found: list[tuple[int, int]] = []
    begin = 0
    for first, last in ranges:
        found += between(begin, first - 1)
        begin = last + 1
    return tuple(found) + between(begin, LAST)
