#!/usr/bin/env python3
"""Makes docs/definitions.md from the comments of crates/*/specs/*.antt.

usage: tools/definitions.py            writes the page
       tools/definitions.py --check    compares it, and ends with status 1 where it differs

A module's first comment tells what it is about; the comment right above a public definition tells what it means.
Modules come in the order of specs/Lib.antt, crates by layer. A definition with no comment is refused.
"""

import re
import sys

from repository import ROOT, heads_by_layer

PAGE = "docs/definitions.md"
INTRODUCTION = """\
# Definitions

What the contracts rest on. Each definition stands in `crates/CRATE/specs/MODULE.antt`, each name once in its module, \
and is cited by every crate above. A module says where its rules come from: a data sheet, as restated in \
[machine.md](machine.md), or this project's own choice.

This page is made from the comments of these files by `tools/definitions.py`.
"""
MODULE = re.compile(r"pub mod (\w+)$")
DEFINITION = re.compile(r"(?:abbrev |unfoldable )?pub (?:record |data )?(?!mod |use )(\S+)")


def comment_of(lines):
    """The text of the comment lines that a list ends with, in one line."""
    text = []
    for line in reversed(lines):
        if not line.startswith("-- "):
            break
        text.insert(0, line[3:].strip())
    return " ".join(text)


def about_module(lines):
    """The comment that a file opens with."""
    code = next((number for number, line in enumerate(lines) if not line.startswith("-- ")), len(lines))
    return comment_of(lines[:code])


def definitions_of(lines):
    """Each public definition of a file's lines with the comment right above it."""
    for number, line in enumerate(lines):
        found = DEFINITION.match(line)
        if found:
            yield found[1], comment_of(lines[:number])


def as_sentence(text):
    """A comment as a cell of a table: it begins with a capital letter, and a bar does not end the cell."""
    text = text.replace("|", "\\|")
    return text[:1].upper() + text[1:]


def section_of_module(file, lacking):
    """The part of the page on one module; the definitions with no comment are added to `lacking`."""
    lines = file.read_text(encoding="utf-8").splitlines()
    rows = list(definitions_of(lines))
    lacking += [f"{file}: {name} has no comment" for name, meaning in rows if not meaning]
    if not rows:
        return ""
    table = [f"| `{name}` | {as_sentence(meaning)} |" for name, meaning in rows]
    return "\n".join([f"### {file.stem}\n", about_module(lines), "", "| Definition | Meaning |", "|---|---|", *table, ""])


def modules_of(specs):
    """The files of a folder specs/, in the order in which its Lib.antt names them."""
    if not (specs / "Lib.antt").is_file():
        return []
    named = (MODULE.match(line) for line in (specs / "Lib.antt").read_text(encoding="utf-8").splitlines())
    return [specs / f"{found[1]}.antt" for found in named if found]


def page(root):
    """The whole page, and what is wrong with the comments that it is made from."""
    lacking, sections, crates = [], [], []
    for head in heads_by_layer(root):
        modules = modules_of(root / "crates" / head.crate / "specs")
        if modules:
            crates.append(f"[`{head.crate}`](#{head.crate})")
            sections.append(f"## `{head.crate}`\n\n{head.about}\n")
            sections += [section for file in modules if (section := section_of_module(file, lacking))]
    return "\n".join([INTRODUCTION, f"By crate: {', '.join(crates)}.\n", *sections]), lacking


def main(words, root=ROOT):
    """Writes or compares the page, and returns the exit status."""
    text, lacking = page(root)
    for row in lacking:
        print(row)
    if words == ["--check"]:
        if (root / PAGE).read_text(encoding="utf-8") != text:
            print(f"{PAGE} is not what the comments of specs/ say: run tools/definitions.py")
            return 1
    elif not words:
        (root / PAGE).write_text(text, encoding="utf-8")
    else:
        print(__doc__)
        return 2
    return 1 if lacking else 0


if __name__ == "__main__":
    sys.exit(main(sys.argv[1:]))
