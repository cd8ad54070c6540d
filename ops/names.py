"""The map of a copy: what its routers, interfaces, lists and links are in the network, and the names that networks have."""
import ipaddress
import json
import re
from dataclasses import asdict, dataclass, field

READ = re.compile(r"(Ethernet|FastEthernet|GigabitEthernet|TenGigabitEthernet|Serial|Loopback)(0|[1-9][0-9]*)(/(0|[1-9][0-9]*))*")
SLOTS = {"Vlan": 101, "GigabitEthernet.": 102, "Port-channel": 103, "Tunnel": 104, "TenGigabitEthernet.": 105, "FastEthernet.": 106,
         "Port-channel.": 107, "BVI": 108, "Dialer": 109, "Multilink": 110, "TwentyFiveGigE": 111, "FortyGigabitEthernet": 112,
         "HundredGigE": 113, "Serial": 114, "Ethernet.": 115, "BDI": 116, "Virtual-Template": 117, "Loopback": 118}


@dataclass
class CopyMap:
    """What the parts of a copy are in the network. Each member may be missing in the text that is read."""
    kind: str = "exact"
    packets: str = "all"
    policies: list[str] = field(default_factory=list)
    files: dict[str, str] = field(default_factory=dict)
    routers: dict[str, str] = field(default_factory=dict)
    real: dict[str, str | None] = field(default_factory=dict)
    interfaces: dict[str, str] = field(default_factory=dict)
    lists: dict[str, str] = field(default_factory=dict)
    links: list[str] = field(default_factory=list)
    networks: dict[str, str] = field(default_factory=dict)

    def router(self, name: str) -> str:
        return self.routers.get(name, name)

    def interface(self, router: str, name: str) -> str:
        return self.interfaces.get(f"{router}:{name}", name)

    def list_name(self, router: str, name: str) -> str:
        return self.lists.get(f"{router}:{name}", name)

    def link(self, number: int) -> str:
        return self.links[number - 1] if 0 < number <= len(self.links) else f"link {number}"

    def network(self, prefix: str) -> str:
        if prefix in self.networks:
            return f"{self.networks[prefix]} ({prefix})"
        try:
            inner = ipaddress.IPv4Network(prefix)
        except ValueError:
            return prefix
        wider = [outer for outer in map(ipaddress.IPv4Network, self.networks) if inner.subnet_of(outer)]
        return f"{prefix} of {self.networks[str(max(wider, key=lambda net: net.prefixlen))]}" if wider else prefix

    def policy(self, number: int) -> str:
        return self.policies[number - 1] if 0 < number <= len(self.policies) else ""

    def text(self) -> str:
        return json.dumps({"version": 1, **asdict(self)}, indent=1) + "\n"


def is_read(name: str) -> bool:
    """Whether arcv reads an interface of this name."""
    return len(name) <= 64 and READ.fullmatch(name) is not None


def free_name(name: str, is_link_end: bool) -> str:
    """The name of an interface on a copy: its own where arcv reads it there, else one by its kind and numbers."""
    if is_read(name) and not (is_link_end and name.startswith("Loopback")):
        return name
    kind = re.sub(r"[0-9/.:]+$", "", name) + ("." if "." in name else "")
    numbers = [str(int(number)) for number in re.findall(r"[0-9]+", name)] or ["0"]
    slot = SLOTS.get(kind) or 200 + sum(ord(letter) * (place + 1) for place, letter in enumerate(kind)) % 800
    return f"Ethernet{slot}/" + "/".join(numbers)


class Free:
    """Names of one router's interfaces, each other than those before."""

    def __init__(self) -> None:
        self.taken: set[str] = set()

    def take(self, name: str, is_link_end: bool = False) -> str:
        found = free_name(name, is_link_end)
        while found in self.taken:
            found = found.replace("Ethernet", "Ethernet1", 1) if found.startswith("Ethernet") else f"Ethernet99/{len(self.taken)}"
        self.taken.add(found)
        return found


def clean(text: str) -> str:
    """Text as a name of arcv may be."""
    return re.sub(r"[^A-Za-z0-9_.-]", "-", text)[:64] or "unnamed"
