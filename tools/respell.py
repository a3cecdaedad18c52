#!/usr/bin/env python3
"""Brings this repository's own names in specs/, proofs/ and clauses to Rattle's spelling, once, behind port.py.

usage: tools/respell.py [FOLDER]       FOLDER has crates/; by default the repository that this script is of

respell.tsv, beside this script, has a row for each name: the old one, a tab, the new one. Functions, lemmas, fields and constructors get
snake case; a dash stays where it joins two names, as in sign_extend-lt; a lemma that would get its function's name gets _lem. Mnemonics and
registers keep the manuals' capitals. Functions of src/, exported names, strings, inputs and outputs are no rows and stay.

Whole words turn: in .antt files the code, in .rt files what is no string, in comments what stands between backquotes or is in camel case.
A file in which two names would become one is named, and nothing is written.
"""

import collections
import pathlib
import re
import sys

HERE = pathlib.Path(__file__).resolve().parent
WORD = re.compile(r'[^\s(){}.;,@"«»]+')
STRING = re.compile(r'"(?:[^"\\\n]|\\.)*"')
CODE_SPAN = re.compile(r"`[^`\n]*`")
CAMEL = re.compile(r"\b[a-z]\w*[A-Z]\w*\b")
BRANCH = re.compile(r"[^\s(){}.;,@\"«»`:'’]+'*")


def table():
    rows = (HERE / "respell.tsv").read_text(encoding="utf-8").splitlines()
    return dict(row.split("\t") for row in rows)


def turned(names, text):
    return WORD.sub(lambda m: names.get(m[0], m[0]), text)


def turned_comment(names, text):
    text = CODE_SPAN.sub(lambda m: BRANCH.sub(lambda w: names.get(w[0], w[0]), m[0]), text)
    return CAMEL.sub(lambda m: names.get(m[0], m[0]), text)


def outside_strings(names, text):
    parts, at = [], 0
    for m in STRING.finditer(text):
        parts += [turned(names, text[at : m.start()]), m[0]]
        at = m.end()
    return "".join(parts) + turned(names, text[at:])


def line_of(names, line, sign):
    m = re.search(r"(?<!\S)" + sign + ".*", line)
    if not m:
        return outside_strings(names, line)
    return outside_strings(names, line[: m.start()]) + turned_comment(names, m[0]) + line[m.end() :]


def fallen_together(names, text):
    """In a .rt file a definition may be called as the function that it describes: clauses do not see functions. So may a module's path."""
    old = collections.defaultdict(set)
    for word in WORD.findall(re.sub(r"(?m)^use [\w.·+]+", "", text)):
        old[names.get(word, word)].add(word)
    return {new: words for new, words in old.items() if len(words) > 1}


def main(argv):
    root = pathlib.Path(argv[0]) if argv else HERE.parent
    names, new, bad = table(), {}, []
    for path in sorted(root.glob("crates/*/*/**/*")):
        sign = {".antt": "--", ".rt": "//"}.get(path.suffix)
        if sign is None or "out" in path.parts or not path.is_file():
            continue
        text = path.read_text(encoding="utf-8")
        code = "\n".join(re.sub(r"(?<!\S)" + sign + ".*", "", l) for l in text.splitlines())
        if path.suffix == ".antt":
            bad += [f"{path}: {n}: {' '.join(sorted(w))}" for n, w in fallen_together(names, code).items()]
        new[path] = "".join(line_of(names, l, sign) for l in text.splitlines(keepends=True))
    if bad:
        print("\n".join(bad))
        return 1
    for path, text in new.items():
        path.write_text(text, encoding="utf-8")
    return 0


if __name__ == "__main__":
    raise SystemExit(main(sys.argv[1:]))
