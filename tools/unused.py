#!/usr/bin/env python3
"""Lists definitions, lemmas and public functions that nothing uses.

usage: tools/unused.py

Used is what code, contracts, the proofs of functions or the contracts at a crate's head name, and what such a
definition or lemma names in turn. It is a search of words, so a name that stands for two things counts as used where
one of them is. tools/unused.txt has what may stay, a line for each name or whole module: CRATE NAME: why.
Exit status: 1 where a line is listed.
"""

import collections
import re
import sys

from repository import ROOT, crates_listed, head_of

ALLOWED = "tools/unused.txt"
WORD = re.compile(r"[^\W\d]\w*(?:-\w+)*")
DECLARED = re.compile(r"(?:abbrev |unfoldable )?(?:pub )?(?:record |data )?(?!use\b|mod\b)([^\W\d][\w-]*)(?= .*(?::|where)(?: |$)| ?$)")
RULESET = re.compile(r"(?:pub )?ruleset ([\w-]+) =")
IMPORT = re.compile(r"^ *(?:pub )?(?:ghost )?use [^;{\n]*(?:\{[^}]*\})?[^\n]*\n", re.MULTILINE)
FUNCTION = re.compile(r"^ *pub (?:const )?fn (\w+)", re.MULTILINE)
OF_FUNCTIONS = ("Answers.antt", "Invariants.antt", "Proof.antt")

Block = collections.namedtuple("Block", "crate module name words")


def words_of(text):
    """The names that a text has."""
    return set(WORD.findall(text))


def without_comments(text, mark):
    """A text without its comments and imports."""
    return IMPORT.sub("", re.sub(rf"{mark}.*", "", text))


def name_declared(line, before):
    """The name that a line of a file declares, or none: it stands at the line's start, with its type, or names a ruleset."""
    found = None if line.startswith(" ") else RULESET.match(line) or DECLARED.match(line)
    return found[1] if found and found[1] not in (before, "unfolding", "module") else None


def parts_of(lines):
    """A file cut at each `module .. where`: the names in that head, none outside, and the lines as if they stood outside."""
    parts, head = [(set(), [])], None
    for line in lines:
        if line.startswith("module "):
            head = []
        if head is not None:
            head.append(line)
            if line.endswith("where"):
                parts.append((words_of("\n".join(head)), []))
                head = None
            continue
        if parts[-1][0] and line and not line.startswith(" "):
            parts.append((set(), []))
        parts[-1][1].append(line[2:] if parts[-1][0] else line)
    return parts


def cut(lines):
    """Lines cut at what they declare: each name with the names in it, and none for what stands before the first."""
    name, block = None, []
    for line in lines:
        declared = name_declared(line, name)
        if declared:
            yield name, words_of("\n".join(block))
            name, block = declared, []
        block.append(line)
    yield name, words_of("\n".join(block))


def blocks_of(crate, module, text):
    """A file of definitions or lemmas, cut at what it declares, each with the names in it and in the head around it."""
    return [
        Block(crate, module, name, words | head)
        for head, lines in parts_of(without_comments(text, "--").splitlines())
        for name, words in cut(lines) if name
    ]


def sources(root, crate, ending):
    """The files of a crate with this ending, outside what is built."""
    folder = root / "crates" / crate
    return [file for part in ("src", "specs", "proofs") for file in sorted((folder / part).rglob(f"*{ending}"))]


def read(root):
    """All blocks, the public functions of each crate, the names in code and heads, and those in the proofs of functions."""
    blocks, functions, code, proofs = [], [], set(), set()
    for crate in crates_listed(root):
        code |= words_of(head_of(root, crate).contracts)
        for file in sources(root, crate, ".rt"):
            text = without_comments(file.read_text(encoding="utf-8"), "//")
            functions += [(crate, name) for name in FUNCTION.findall(text)]
            code |= words_of(re.sub(r"\bfn \w+", "", text))
        for file in sources(root, crate, ".antt"):
            text = file.read_text(encoding="utf-8")
            if file.name in OF_FUNCTIONS:
                proofs |= words_of(without_comments(text, "--"))
            elif file.name != "Lib.antt":
                blocks += blocks_of(crate, file.stem, text)
    return blocks, functions, code, proofs


def unused(root):
    """Each crate, module and name that nothing uses; a function has no module."""
    blocks, functions, code, proofs = read(root)
    named = collections.defaultdict(list)
    for block in blocks:
        named[block.name].append(block)
    used, new = set(), code | proofs
    while new:
        used |= new
        new = set().union(*(block.words for name in new for block in named[name])) - used
    lost = [(crate, None, name) for crate, name in functions if name not in code and name != "main"]
    return lost + [(block.crate, block.module, block.name) for block in blocks if block.name not in used]


def allowed(root):
    """The rows of the list of what may stay, each with its reason."""
    lines = (root / ALLOWED).read_text(encoding="utf-8").splitlines() if (root / ALLOWED).is_file() else []
    rows = [line.partition(": ") for line in lines if line and not line.startswith("#")]
    return {tuple(row.split()): why for row, _, why in rows}


def main(root=ROOT):
    """Prints what is unused and not allowed, and what the list allows for nothing, and returns the exit status."""
    found, stay = unused(root), allowed(root)
    may_stay = {(crate, word) for crate, module, name in found for word in (module, name)}
    rows = [f"{crate} {name}: nothing uses it" for crate, module, name in found if not {(crate, module), (crate, name)} & set(stay)]
    rows += [f"{' '.join(row)}: all of it is used, or it is not there: leave it out of {ALLOWED}" for row in stay if row not in may_stay]
    print("\n".join(rows) if rows else "all is used")
    return 1 if rows else 0


if __name__ == "__main__":
    sys.exit(main())
