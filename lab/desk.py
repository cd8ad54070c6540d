"""The files of a document laid into a folder of the run, the program that is asked, and what a machine must have."""
import json
import os
import shutil
import subprocess
from typing import Optional

from lab.program import Program, Refused

TOP = os.path.dirname(os.path.dirname(os.path.abspath(__file__)))
COMMANDS = ("ip", "nft")
DAEMONS = ("zebra", "ospfd", "bgpd")


def missing() -> Optional[str]:
    """What the lab lacks on this machine, or None."""
    if os.uname().sysname != "Linux" or os.geteuid() != 0:
        return "it needs root on Linux"
    for name in COMMANDS:
        if not shutil.which(name):
            return f"there is no {name}"
    for name in DAEMONS:
        if not os.access(f"/usr/lib/frr/{name}", os.X_OK):
            return "FRRouting is not installed"
    tried = subprocess.run(["unshare", "-n", "true"], capture_output=True)
    return None if tried.returncode == 0 else "it may make no network namespaces"


def built() -> str:
    """The program of bin/arcv, which proves and builds it where it has to be."""
    ended = subprocess.run([os.path.join(TOP, "bin", "arcv")], stdout=subprocess.DEVNULL)
    program = os.path.join(TOP, ".built", "arcv")
    if ended.returncode != 4 or not os.access(program, os.X_OK):
        raise Refused(f"bin/arcv ended with {ended.returncode}; name a built program with --arcv")
    return program


def lay(path: str, folder: str) -> str:
    """Lays copies of a document's router files into a new folder, with numbers before their names, and the document that names
    them so. Files of a folder `quiet` that are not there are made by bin/quiet. Gives the document's name."""
    os.makedirs(folder)
    home = os.path.dirname(os.path.abspath(path))
    with open(path, encoding="utf-8") as file:
        document = json.load(file)
    names = []
    for number, name in enumerate(document["routers"], 1):
        source = os.path.join(home, name)
        if not os.path.exists(source) and os.path.basename(os.path.dirname(source)) == "quiet":
            source = quieted(source, folder)
        names.append(f"{number}-{os.path.basename(name)}")
        shutil.copyfile(source, os.path.join(folder, names[-1]))
    write_document({**document, "routers": names}, folder, "net.json")
    return "net.json"


def quieted(source: str, folder: str) -> str:
    """The copy that bin/quiet makes of the file beside the folder `quiet`."""
    original = os.path.join(os.path.dirname(os.path.dirname(source)), os.path.basename(source))
    to = os.path.join(folder, "quiet")
    subprocess.run([os.path.join(TOP, "bin", "quiet"), "--to", to, original], check=True, stdout=subprocess.DEVNULL)
    return os.path.join(to, os.path.basename(source))


def write_document(document: dict[str, object], folder: str, name: str) -> None:
    with open(os.path.join(folder, name), "w", encoding="utf-8") as file:
        json.dump(document, file)


def repaired(program: Program, document: str) -> Optional[str]:
    """The document that names the patched files after a repair, or None where there is no repair."""
    status, wrote = program.repair(document, ".new", "certificate")
    if status != 0:
        return None
    with open(os.path.join(program.folder, document), encoding="utf-8") as file:
        old = json.load(file)
    names = [f"{name}.new" if f"{name}.new" in wrote else name for name in old["routers"]]
    write_document({**old, "routers": names}, program.folder, "after.json")
    return "after.json"
