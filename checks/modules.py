#!/usr/bin/env python3
"""Writes docs/MODULES.md: every module of the crates with the first sentence of its first comment.

    checks/modules.py            writes the page
    checks/modules.py --check    says whether the page is as it would be written (status 1 if not)
"""
import os
import re
import sys

import pages

ROOT = os.path.dirname(os.path.dirname(os.path.abspath(__file__)))
PAGE = os.path.join(ROOT, "docs", "MODULES.md")
PARTS = (
    ("src", "Code"),
    ("specs", "Definitions"),
    ("proofs", "Proofs"),
)
HEAD = """# Modules

Every file of the crates, with the first sentence of its first comment. Made by `checks/modules.py`; `cargo test` in rust/ compares it.
Files that only list other files are left out. What is written of the proof of a function F stands in the folder `proofs/F`, as
Invariants.antt, Answers.antt or Proof.antt: such a file is listed where it has a comment, and functions with none of these are counted.
A function with no such folder is proved by the kit alone.
"""
# What a function's folder may have.
OF_FUNCTIONS = ("Answers.antt", "Invariants.antt", "Proof.antt")


def crates():
    """The crates in the order of crates.txt."""
    with open(os.path.join(ROOT, "crates.txt"), encoding="utf-8") as file:
        lines = (line.split("#")[0].strip() for line in file)
        return [line.split(":")[0].split()[0] for line in lines if line]


def files(folder):
    """The paths below a folder, in order, a file before the folder of its name."""
    found = []
    for place, folders, names in os.walk(folder):
        folders.sort()
        found += [os.path.join(place, name) for name in names if name.endswith((".rt", ".antt"))]
    return sorted(found, key=lambda path: os.path.splitext(path)[0].split(os.sep))


def sentence(path):
    """The first sentence of the comment at a file's top, or nothing. Settings of a whole crate, `#![..]`, may stand above it."""
    words = []
    with open(path, encoding="utf-8") as file:
        for line in file:
            if not words and (not line.strip() or line.startswith("#![")):
                continue
            comment = re.match(r"(?:--|//) ?(.*)", line)
            if not comment or (words and not comment.group(1).strip()):
                break
            words.append(comment.group(1).strip())
    text = " ".join(words)
    return text.split(". ")[0].rstrip(".:")


def lists_only(path):
    """Whether a file has nothing but `pub mod` lines."""
    with open(path, encoding="utf-8") as file:
        return all(re.match(r"(pub )?mod \w+;?$", line.strip()) for line in file if line.strip())


def part(crate, folder, title):
    """The lines of one folder of a crate."""
    top = os.path.join(ROOT, "crates", crate, folder)
    lines, listed, bare = [], set(), set()
    for path in files(top):
        name = os.path.splitext(os.path.relpath(path, top))[0]
        function = os.path.dirname(name) if folder == "proofs" and os.path.basename(path) in OF_FUNCTIONS else ""
        text = sentence(path)
        if text:
            lines.append(f"| {name} | {text} |")
            listed.add(function)
        elif function:
            bare.add(function)
        elif not lists_only(path):
            sys.exit(f"{os.path.relpath(path, ROOT)}: no comment at its top")
    if further := len(bare - listed):
        what = "further proofs of functions" if further > 1 else "further proof of a function"
        lines.append(f"| F | {further} {what} |")
    return ["", f"| {title}: {folder}/ | |", "|---|---|"] + lines if lines else []


def page():
    """The whole page."""
    lines = [HEAD.rstrip("\n")]
    for crate in crates():
        lines += ["", f"## {crate}"]
        for folder, title in PARTS:
            lines += part(crate, folder, title)
    return "\n".join(lines) + "\n"


if __name__ == "__main__":
    pages.run(PAGE, lambda _: page(), __doc__)
