#!/usr/bin/env python3
"""Looks whether each link among the repository's pages leads to a file and a heading that are there.

usage: tools/links.py

Links to other sites are not followed. Exit status: 1 where a link leads nowhere, with a line for each.
"""

import collections
import re
import sys

from repository import ROOT

LINK = re.compile(r"\]\(([^)\s]+)\)")
HEADING = re.compile(r"#{1,6} (.*)")


def text_without_code(page):
    """The lines of a page without those of blocks of code."""
    lines, in_block = [], False
    for line in page.read_text(encoding="utf-8").splitlines():
        if line.startswith("```"):
            in_block = not in_block
        elif not in_block and not line.startswith("    "):
            lines.append(line)
    return lines


def anchor_of(heading):
    """The anchor that a page shows for a heading: its words in small letters, joined by hyphens."""
    shown = re.sub(r"\[([^]]*)\]\([^)]*\)", r"\1", heading)
    return re.sub(r"[^\w\- ]", "", shown.lower()).replace(" ", "-")


def anchors_of(page):
    """The anchors of all headings of a page; a second one of the same words ends in -1, and so on."""
    found, seen = [], collections.Counter()
    for line in text_without_code(page):
        heading = HEADING.fullmatch(line)
        if heading:
            anchor = anchor_of(heading[1].strip())
            found.append(f"{anchor}-{seen[anchor]}" if seen[anchor] else anchor)
            seen[anchor] += 1
    return found


def fault_of(page, target):
    """What is wrong with a link of a page, or none."""
    path, _, anchor = target.partition("#")
    file = page.parent / path if path else page
    if not file.exists():
        return "no such file"
    if anchor and anchor not in anchors_of(file):
        return "no such heading"
    return None


def pages(root):
    """The repository's pages: those at the top, and in docs, examples and bench."""
    return [page for folder in (".", "docs", "examples", "bench") for page in sorted((root / folder).glob("*.md"))]


def main(root=ROOT):
    """Prints a line for each link that leads nowhere, and returns the exit status."""
    status = 0
    for page in pages(root):
        for target in LINK.findall("\n".join(text_without_code(page))):
            fault = None if re.match(r"\w+:", target) else fault_of(page, target)
            if fault:
                print(f"{page.relative_to(root)}: {target}: {fault}")
                status = 1
    return status


if __name__ == "__main__":
    sys.exit(main())
