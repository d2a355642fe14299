#!/usr/bin/env python3
"""Fills the parts of the docs that say again what each crate says at its head (`//!` in its lib.rt or main.rt).

usage: tools/promises.py            fills them
       tools/promises.py --check    compares them, and ends with status 1 where one differs

Such a part stands between a line `<!-- made by tools/promises.py: PART -->` and a line `<!-- end -->`.
"""

import re
import sys

from repository import ROOT, crates_listed, directly_below, heads_by_layer


def table_of_crates(root):
    """A row for each crate: its layer, where it begins, its name, the crates that it stands on directly, and what it is."""
    crates, layer = crates_listed(root), None
    rows = ["| Layer | Crate | Stands on | What it is |", "|---|---|---|---|"]
    for head in heads_by_layer(root):
        below = ", ".join(f"`{name}`" for name in directly_below(crates, head.crate))
        name = f"`{head.crate}`" if head.layer == "tests" else f"[`{head.crate}`](proofs.md#{head.crate})"
        rows.append(f"| {'' if head.layer == layer else head.layer} | {name} | {below} | {head.about} |")
        layer = head.layer
    return rows


def promises_of_crates(root):
    """A section for each crate but those of tests: what it is, the promise, and the contracts that hold it."""
    rows = []
    for head in heads_by_layer(root):
        if head.layer != "tests":
            sections = [f"### `{head.crate}`", head.about, *head.promise]
            sections += [f"By the contracts of: {head.contracts}"] if head.contracts else []
            rows += [line for section in sections for line in (section, "")]
    return rows[:-1]


PARTS = {
    "crates": ("docs/architecture.md", table_of_crates),
    "promises": ("docs/proofs.md", promises_of_crates),
}


def filled(text, part, rows):
    """A page's text with these lines in one of its parts."""
    marks = re.escape(f"<!-- made by tools/promises.py: {part} -->\n"), re.escape("<!-- end -->\n")
    pattern = re.compile(f"({marks[0]}).*?({marks[1]})", re.DOTALL)
    if len(pattern.findall(text)) != 1:
        raise SystemExit(f"the marks of the part '{part}' stand not once on its page")
    return pattern.sub(lambda found: found[1] + "\n" + "\n".join(rows) + "\n\n" + found[2], text)


def main(words, root=ROOT):
    """Fills or compares the parts, and returns the exit status."""
    if words not in ([], ["--check"]):
        print(__doc__)
        return 2
    status = 0
    for part, (page, rows) in PARTS.items():
        old = (root / page).read_text(encoding="utf-8")
        new = filled(old, part, rows(root))
        if not words:
            (root / page).write_text(new, encoding="utf-8")
        elif new != old:
            print(f"{page}: the part '{part}' is not what the heads of the crates say: run tools/promises.py")
            status = 1
    return status


if __name__ == "__main__":
    sys.exit(main(sys.argv[1:]))
