#!/usr/bin/env python3
"""The compressed halfwords (Q-7), expanded by GNU binutils, and who says the same. The gate runs it with --written.

    checks/compressed.py [ORACLE] [--spoil]     compares
    checks/compressed.py --written [--spoil]    compares the definition with the table as it is written: needs no binutils
    checks/compressed.py --write                writes rust/tests/suite/rv64c.txt

Without --written it needs riscv64-linux-gnu-objdump, -as and -objcopy (Debian: binutils-riscv64-linux-gnu). objdump names each of the 49,152 halfwords whose low
two bits are not 3; the name is rewritten to the base instruction that the RISC-V manual's chapter "C" has for it (`BASE` below), and that is
assembled for RV64 without compressed instructions. What objdump does not name is reserved, and so is 6101 (C.ADDI16SP with immediate 0),
which it names.

1. The table: the words without loads, stores, floating point and EBREAK have to be those of rust/tests/suite/rv64c.txt.
2. The definition: crates/agreement/specs/Riscv/Compressed.antt, which is read here, has to expand every halfword to the same word, loads, stores,
   floating point and EBREAK among them, or to none.
3. The translator, where ORACLE is given: the program that replies.py asks. The program replay (`rt run < stdin` in crates/replay leaves it in
   out/) translates each halfword, alone and, on both sides of 2^64, behind C.NOP. Its replies have to be what replies.py makes of the
   original's: by the table's words for the halfwords in line, and by the helper's block for all others.

With --written the definition has to expand each halfword of the table to the table's word, and any other to none, or to a load, a store,
floating point or EBREAK.

With --spoil each part is given something else (a word of the table, two bits of an immediate exchanged, a byte of a reply), and must notice.
Exit code 0 where all agrees (with --spoil: where every part noticed), else 1.
"""
import argparse
import collections
import os
import re
import struct
import subprocess
import sys
import tempfile

import halfwords
import replies

DEFINITION = os.path.join(halfwords.ROOT, "crates", "agreement", "specs", "Riscv", "Compressed.antt")
REPLAY = os.path.join(replies.REPLAY, "out", "replay")
ALL = [h for h in range(1 << 16) if h & 3 != 3]

HEAD = """\
# The compressed halfwords that are translated in line, and the word that each expands to, made without this repository's code: GNU objdump
# {objdump} names every halfword whose low two bits are not 3, its name is rewritten to the base instruction that the RISC-V manual's chapter "C" has
# for it, and GNU as assembles that for RV64IM. Left out are loads and stores, floating point, C.EBREAK, what objdump does not name, and 6101,
# which it names and the manual reserves (C.ADDI16SP with immediate 0). {straight:,} words are straight, {ending:,} end a block.
"""

# ---- the words by binutils

# Behind the name without "c.": how the base instruction is written. {0} is the first operand, {t} the distance to the last one, an address.
TO_ITSELF = "{name} {0}, {0}, {1}"
BASE = {
    **dict.fromkeys(("addi", "addiw", "andi", "slli", "srli", "srai", "add", "sub", "xor", "or", "and", "addw", "subw"), TO_ITSELF),
    "nop": "addi x0, x0, {0}",
    "slli64": "slli {0}, {0}, 0",
    "srli64": "srli {0}, {0}, 0",
    "srai64": "srai {0}, {0}, 0",
    "li": "addi {0}, x0, {1}",
    "lui": "lui {0}, {1}",
    "addi16sp": "addi x2, x2, {1}",
    "addi4spn": "addi {0}, x2, {2}",
    "mv": "add {0}, x0, {1}",
    "j": "jal x0, . + ({t})",
    "beqz": "beq {0}, x0, . + ({t})",
    "bnez": "bne {0}, x0, . + ({t})",
    "jr": "jalr x0, 0({0})",
    "jalr": "jalr x1, 0({0})",
}
# Those that are not in line.
ACCESSES = ("lw", "ld", "sw", "sd", "fld", "fsd")
BY_HELPER = {"ebreak": "ebreak", **{name + by: name + " {0}, {1}" for name in ACCESSES for by in ("", "sp")}}
RESERVED_BUT_NAMED = 0x6101


def disassembled(folder):
    """Halfword, name and operands, and the address at which it stood."""
    flat = os.path.join(folder, "halfwords")
    with open(flat, "wb") as file:
        file.write(struct.pack(f"<{len(ALL)}H", *ALL))
    command = ["riscv64-linux-gnu-objdump", "-b", "binary", "-m", "riscv:rv64", "-M", "no-aliases,numeric", "-D", flat]
    text = subprocess.run(command, stdout=subprocess.PIPE, text=True, check=True).stdout
    lines = re.findall(r"^\s*([0-9a-f]+):\t([0-9a-f]{4})\s+(\S+)[ \t]*([^<#\n]*)", text, re.M)
    if [int(line[1], 16) for line in lines] != ALL:
        sys.exit("objdump skipped a halfword")
    for at, halfword, name, operands in lines:
        yield int(halfword, 16), name, [operand.strip() for operand in operands.split(",")], int(at, 16)


def base(name, operands, at):
    """The base instruction as text."""
    distance = 0
    if name in ("j", "beqz", "bnez"):
        distance = (int(operands[-1], 16) - at + 2 ** 63) % 2 ** 64 - 2 ** 63
    if name == "lui":
        operands[1] = str(int(operands[1], 0) % 2 ** 20)
    if name == "nop" and operands == [""]:
        operands = ["0"]
    return (BASE | BY_HELPER)[name].format(*operands, name=name, t=distance)


def assembled(folder, lines):
    source, made, flat = (os.path.join(folder, name) for name in ("words.s", "words.o", "words"))
    with open(source, "w", encoding="ascii") as file:
        file.write(".option norelax\n" + "\n".join(lines) + "\n")
    subprocess.run(["riscv64-linux-gnu-as", "-march=rv64imfd", source, "-o", made], check=True)
    subprocess.run(["riscv64-linux-gnu-objcopy", "-O", "binary", "-j", ".text", made, flat], check=True)
    with open(flat, "rb") as file:
        return [word for (word,) in struct.iter_unpack("<I", file.read())]


def by_binutils():
    """The word of each halfword that is not reserved, and those of them that are in line."""
    names, texts = {}, {}
    with tempfile.TemporaryDirectory() as folder:
        for halfword, name, operands, at in disassembled(folder):
            if name.startswith("c.") and name != "c.unimp" and halfword != RESERVED_BUT_NAMED:
                names[halfword] = name[2:]
                texts[halfword] = base(name[2:], operands, at)
        words = dict(zip(texts, assembled(folder, texts.values()), strict=True))
    return words, {h: word for h, word in words.items() if names[h] in BASE}


def table(in_line):
    said = subprocess.run(["riscv64-linux-gnu-objdump", "--version"], stdout=subprocess.PIPE, text=True, check=True).stdout
    ending = sum(map(halfwords.ends, in_line.values()))
    head = HEAD.format(objdump=re.search(r"(\d+\.\d+[\d.]*)$", said.splitlines()[0])[1], straight=len(in_line) - ending, ending=ending)
    return head + "".join(f"{h:04x} {word:08x}\n" for h, word in in_line.items())


# ---- the definition: its formulas are made Python's, and computed

TOKEN = re.compile(r"\s*(0x[0-9A-Fa-f]+|\d+|&&|[∷∶+\-*^()\[\].]|[A-Za-z][\w′]*)")
# How tight an infix holds, whether to its right, and what it is in Python.
INFIX = {"&&": (1, 0, "({} and {})"), "∷": (2, 1, "[{}] + {}"), "+": (3, 0, "({} + {})"), "-": (3, 0, "max({} - {}, 0)"),
         "*": (4, 0, "({} * {})"), "^": (5, 1, "{} ** {}"), "∶": (6, 0, "stretch({}, {})")}


class Reader:
    """An expression of the definition as Python's. `of_h`: the names that are functions of the halfword h."""

    def __init__(self, text, of_h):
        self.tokens, self.of_h = TOKEN.findall(text), of_h
        if "".join(self.tokens) != re.sub(r"\s", "", text):
            sys.exit(f"cannot read {text}")

    def atom(self):
        token = self.tokens.pop(0)
        if token in ("(", "["):
            inner = self.infix(0) if token == "(" else "[]"
            self.tokens.pop(0)
            return inner
        while self.tokens[:1] == ["."]:
            token += self.tokens.pop(0) + self.tokens.pop(0)
        return token + "(h)" if token in self.of_h else token

    def applied(self):
        name, operands = self.atom(), []
        while self.tokens and self.tokens[0] not in INFIX and self.tokens[0] not in ")]":
            operands.append(self.atom())
        if name == "row":
            operands[2] = "lambda: " + operands[2]
        return f"{name}({', '.join(operands)})" if operands else name

    def infix(self, least):
        left = self.applied()
        while self.tokens and self.tokens[0] in INFIX and INFIX[self.tokens[0]][0] >= least:
            level, right, form = INFIX[self.tokens.pop(0)]
            left = form.format(left, self.infix(level + 1 - right))
        return left


Stretch = collections.namedtuple("Stretch", "high low")


def bits(high, low, number):
    return number >> low & (1 << high + 1 - low) - 1


def sign_extend(width, number):
    return number + (number >> width - 1) * (2 ** 64 - 2 ** width)


# What other files define, and the two records; then the definitions that are no formulas: `expansion` below finds the row that fits.
GIVEN = {"bits": bits, "sign_extend": sign_extend, "suc": lambda n: n + 1, "true": True, "not_": lambda b: not b, "eqb": lambda a, b: a == b,
         "stretch": Stretch, "row": lambda three, asks, word: (three, asks, word)}
NO_FORMULAS = ("◌∶◌", "row", "find", "expansion_by", "expansion")


def python_name(text):
    """Names that Python has for itself, or cannot spell, otherwise."""
    return re.sub(r"\b(not|or|and)\b", r"\1_", text).replace("′", "_3")


def definition(text):
    """The expansion of each halfword, none where no row fits."""
    text = python_name(re.sub(r"(\n?[ \t]*--.*)|\n(?=\n)", "", text) + "\n")
    begins = r" *(?:abbrev|unfoldable|pub|infix|module)\b"
    found = re.findall(rf"^( *)(?:abbrev|unfoldable) pub (\S+) :.*\n((?:(?!{begins}).*\n)+)", text, re.M)
    of_h, scope = {name for indent, name, _ in found if indent}, dict(GIVEN)
    for indent, name, body in found:
        left, right = body.split("=", 1)
        operands = ", ".join(left.split()[1:])
        if name == "drawn":
            # By recursion on the list, whose front and rest are s and ss.
            right = Reader(body.split("=")[-1], ()).infix(0)
            exec(f"def drawn(top, stretches, h):\n    if not stretches:\n        return 0\n    s, *ss = stretches\n    return {right}", scope)
        elif name not in NO_FORMULAS:
            right = Reader(right, of_h if indent else ()).infix(0)
            exec(f"{name} = {'lambda h: ' if indent else ''}{f'lambda {operands}: ' if operands else ''}{right}", scope)
    return {h: expansion(scope[f"quadrant_{h & 3}"](h), h) for h in ALL}


def expansion(quadrant, h):
    fitting = [word for three, asks, word in quadrant if three == h >> 13 and asks]
    if len(fitting) > 1:
        sys.exit(f"two rows fit {h:04x}")
    return fitting[0]() if fitting else None


# ---- the parts: what was compared, and what differs

def said(word):
    return "none" if word is None else f"{word:08x}"


def differences(words, others):
    return [f"{h:04x}: {said(words.get(h))}, not {said(others.get(h))}" for h in ALL if words.get(h) != others.get(h)]


def compare_table(in_line, spoil):
    written = halfwords.in_line()
    if spoil:
        written[0x0001] ^= 1 << 20
    ending = sum(map(halfwords.ends, in_line.values()))
    return f"table: {len(in_line)} halfwords in line, {len(in_line) - ending} straight and {ending} ending", differences(written, in_line)


def defined(spoil):
    with open(DEFINITION, encoding="utf-8") as file:
        text = file.read()
    if spoil:
        text = text.replace("bit 4 ∷ bit 6 ∷ 8 ∶ 7 ∷ bit 5", "bit 4 ∷ bit 5 ∷ 8 ∶ 7 ∷ bit 6")
    return definition(text)


def compare_definition(words, spoil):
    return f"definition: {len(words)} halfwords with a word, {len(ALL) - len(words)} reserved", differences(defined(spoil), words)


def compare_written(spoil):
    """The definition's words with the table's: LOAD, LOAD_FP, STORE, STORE_FP and SYSTEM (EBREAK) do not stand in the table."""
    words, table = defined(spoil), halfwords.in_line()
    in_line = {h: word for h, word in words.items() if word is not None and word & 0x7F not in (0x03, 0x07, 0x23, 0x27, 0x73)}
    return f"definition: {len(in_line)} halfwords in line, {len(ALL) - len(in_line)} others", differences(in_line, table)


def compare_translator(oracle, spoil):
    """Behind C.NOP at 2^64 - 4, so that what follows the halfword stands at 0."""
    forms = "T 80000000 64 aaaa bbbb 4099 {:04x}", "T fffffffffffffffc 64 aaaa bbbb 4099 0001,{:04x}"
    lines = [form.format(h) for form in forms for h in ALL]
    table = halfwords.in_line()
    wanted, answers = replies.translations(oracle, lines, table), replies.answered(REPLAY, lines)
    if spoil:
        answers[0] += "0"
    wrong = [f"{line}: {answer}, not {want}" for line, answer, want in zip(lines, answers, wanted) if answer != want]
    return f"translator: {len(table)} halfwords in line, {len(ALL) - len(table)} by the helper, each in two blocks", wrong


def main():
    parser = argparse.ArgumentParser(description=__doc__, formatter_class=argparse.RawDescriptionHelpFormatter)
    parser.add_argument("oracle", nargs="?")
    parser.add_argument("--write", action="store_true")
    parser.add_argument("--written", action="store_true")
    parser.add_argument("--spoil", action="store_true")
    options = parser.parse_args()
    if options.written:
        parts = [compare_written(options.spoil)]
    else:
        words, in_line = by_binutils()
        if options.write:
            with open(halfwords.TABLE, "w", encoding="ascii") as file:
                file.write(table(in_line))
            return 0
        parts = [compare_table(in_line, options.spoil), compare_definition(words, options.spoil)]
        if options.oracle:
            parts.append(compare_translator(options.oracle, options.spoil))
    for compared, wrong in parts:
        print(f"{compared}: {len(wrong)} differ" + "".join(f"\n    {line[:160]}" for line in wrong[:0 if options.spoil else 5]))
    return 1 if any(bool(wrong) != options.spoil for _, wrong in parts) else 0


if __name__ == "__main__":
    sys.exit(main())
