"""What a router file says of lists that are bound and of adjacencies, whatever lists and numbers are called."""
from ops.ios import Block
from ops.lists import blocks_of, lists_of, normal, split


def _passive(block: Block, faces: list[str]) -> dict[tuple[str, ...], object]:
    """Which interfaces are passive: the last line says it that names one or the default."""
    found: dict[tuple[str, ...], object] = dict.fromkeys([(" ".join(block.head.words), face) for face in faces], False)
    for line in block.lines:
        words = line.words
        positive = words[1:] if words[0] == "no" else words
        if positive[0] == "passive-interface":
            for head, face in list(found):
                if positive[1] in ("default", face):
                    found[head, face] = words[0] != "no"
    return found


def meaning(text: str) -> dict[tuple[str, ...], object]:
    """The entries of the list at each place, those that never act left out, and whether each adjacency that a line
    names is there."""
    blocks = blocks_of(split(text))
    lists = lists_of(blocks)
    faces = [" ".join(block.head.words[1:]) for block in blocks if block.begins("interface")]
    found: dict[tuple[str, ...], object] = {}

    def entries(prefix: bool, name: str) -> list[tuple[str, ...]]:
        listed = lists.get((prefix, name))
        seen: dict[tuple[str, ...], tuple[str, ...]] = {}
        for entry in listed.entries if listed else []:
            words = normal(listed.kind, entry.words) if listed else ()
            seen.setdefault(words[1:] if prefix else words, words)
        return list(seen.values())

    for block in blocks:
        head = " ".join(block.head.words)
        if block.begins("router", "ospf"):
            found.update(_passive(block, faces))
        for line in block.lines:
            words = line.words
            positive = words[1:] if words[0] == "no" else words
            if block.begins("interface") and words[:2] == ("ip", "access-group"):
                found[head, words[-1]] = entries(False, words[2])
            elif block.begins("router") and words[2:3] == ("prefix-list",):
                found[head, words[1], words[-1]] = entries(True, words[3])
            elif block.begins("router", "bgp") and positive[2:] == ("shutdown",):
                found[head, positive[1], "down"] = words[0] != "no"
    return {key: value for key, value in found.items() if value is not False}
