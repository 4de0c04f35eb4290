"""The layers of crates.txt, and the drawing of them in docs/ARCHITECTURE.md."""
import re
import textwrap

from testing.run import TOP

# How wide the drawing is, and the names of its layers.
WIDTH, MARGIN = 100, 18


def layers():
    """The layers, the lowest first: of each its name, and its crates with what they depend on."""
    found = []
    with open(f"{TOP}/crates.txt", encoding="utf-8") as it:
        for block in it.read().split("\n\n")[1:]:
            title, *lines = block.strip().split("\n")
            crates = {line.split(":")[0].split()[0]: line.split(":")[1].split() for line in lines}
            found.append((re.split("[:,]", title.lstrip("# "))[0], crates))
    return found


def drawing():
    """The layers with their crates, the highest first."""
    room = " " * MARGIN
    rows = (textwrap.fill(" ".join(crates), WIDTH, initial_indent=f"{name:{MARGIN}}", subsequent_indent=room)
            for name, crates in reversed(layers()))
    return "\n".join(rows) + "\n"


def drawn():
    """ARCHITECTURE draws the layers as they are."""
    with open(f"{TOP}/docs/ARCHITECTURE.md", encoding="utf-8") as it:
        block = it.read().split("```text\n")[1].split("```")[0]
    return None if block == drawing() else "write what tools/layers prints into docs/ARCHITECTURE.md"


def ordered():
    """A crate depends on crates before it alone."""
    below, wrong = set(), []
    named = {crate for _, crates in layers() for crate in crates}
    for _, crates in layers():
        for crate, needed in crates.items():
            wrong += [f"{crate} depends on {it}, which comes later" for it in needed if it in named - below]
            below.add(crate)
    return "; ".join(wrong) or None


def cases():
    return [("layers: drawing", drawn), ("layers: order", ordered)]
