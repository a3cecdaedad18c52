#!/usr/bin/env python3
"""Writes the line counts into docs/AUDIT.md: the last cell of every table whose last column is called Lines.

    checks/lines.py            writes the counts
    checks/lines.py --check    says whether they are right (status 1 if not)

The first cell of a row names files: the first by its path below the folder that the table's head gives in brackets, or else below the
repository's root, further ones by names in the same folder. Counted are lines that are neither blank nor imports.
"""
import os
import re

import pages

ROOT = os.path.dirname(os.path.dirname(os.path.abspath(__file__)))
PAGE = os.path.join(ROOT, "docs", "AUDIT.md")


def count(path):
    """The lines of a file of definitions, without blank and import lines."""
    with open(path + ".antt", encoding="utf-8") as file:
        return sum(1 for line in file if line.strip() and not line.startswith("use "))


def named(cell, folder):
    """The files that the first cell of a row names."""
    first, *others = [name.strip() for name in cell.split(",")]
    path = os.path.join(ROOT, folder, first)
    return [path] + [os.path.join(os.path.dirname(path), name) for name in others]


def counted(text):
    """The page with the counts of today."""
    lines, folder, total = [], None, 0
    for line in text.split("\n"):
        cells = [cell.strip() for cell in line.split("|")[1:-1]]
        if cells and cells[-1] == "Lines":
            within = re.search(r"\((.*)\)", cells[0])
            folder, total = within.group(1) if within else "", 0
        elif not cells:
            folder = None
        elif folder is not None and not set(cells[-1]) <= set("- "):
            if cells[0] == "together":
                number = total
            else:
                number = sum(count(path) for path in named(cells[0], folder))
                total += number
            line = line[: line[:-1].rstrip().rindex("|")] + f"| {number:,} |"
        lines.append(line)
    return "\n".join(lines)


if __name__ == "__main__":
    pages.run(PAGE, counted, __doc__)
