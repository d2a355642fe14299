"""What the scripts of this folder read of the repository: its crates, what they stand on, and what their heads say."""

import dataclasses
import pathlib
import re

ROOT = pathlib.Path(__file__).resolve().parent.parent
LAYERS = ("outside", "chips", "language", "meaning", "decision", "artefacts", "answers", "program", "tests")


def crates_listed(root):
    """The crates of crates.txt in its order, each with those of the repository that it stands on."""
    lines = [line.partition("#")[0] for line in (root / "crates.txt").read_text(encoding="utf-8").splitlines()]
    rows = [line.partition(":") for line in lines if line.strip()]
    named = {name.split()[0]: libraries.split() for name, _, libraries in rows}
    return {name: [it for it in libraries if it in named] for name, libraries in named.items()}


def all_below(crates, name):
    """Every crate that a crate stands on, directly or not, each after those that it stands on."""
    found = []

    def visit(crate):
        for library in crates[crate]:
            if library not in found:
                visit(library)
                found.append(library)

    visit(name)
    return found


def directly_below(crates, name):
    """The crates that a crate stands on, without those that one of these stands on."""
    indirect = {below for library in crates[name] for below in all_below(crates, library)}
    return [it for it in crates[name] if it not in indirect]


@dataclasses.dataclass
class Head:
    """What a crate says of itself at its head: what it is, its layer, its promise in paragraphs, and the calls that promise it."""

    crate: str
    about: str
    layer: str
    promise: list
    contracts: str


def head_of(root, crate):
    """Reads the `//!` lines of a crate: a first paragraph that ends with its layer, the promise, and a line of contracts."""
    source = root / "crates" / crate / "src"
    file = source / "lib.rt" if (source / "lib.rt").is_file() else source / "main.rt"
    lines = [line[3:].strip() for line in file.read_text(encoding="utf-8").splitlines() if line.startswith("//!")]
    first, *rest = [" ".join(it.split()) for it in "\n".join(lines).split("\n\n")]
    layer = re.search(r"\s*Layer: (\w+)\.$", first)
    if layer is None:
        raise SystemExit(f"{file.relative_to(root)}: the first paragraph of //! does not end with 'Layer: NAME.'")
    contracts = [it.removeprefix("Contracts: ") for it in rest if it.startswith("Contracts: ")]
    promise = [it for it in rest if not it.startswith("Contracts: ")]
    return Head(crate, first[: layer.start()], layer[1], promise, " ".join(contracts))


def heads_by_layer(root):
    """The heads of all crates, lowest layer first, and in the order of crates.txt within a layer."""
    heads = [head_of(root, crate) for crate in crates_listed(root)]
    for head in heads:
        if head.layer not in LAYERS:
            raise SystemExit(f"crates/{head.crate}: no layer '{head.layer}'; there are {', '.join(LAYERS)}")
    return sorted(heads, key=lambda it: LAYERS.index(it.layer))
