"""The compressed halfwords that request Q-7 translates in line, by the table rust/tests/suite/rv64c.txt, which compressed.py makes with GNU
binutils alone; and the offsets in words of jumps and branches, by the manual's "Immediate Encoding Variants".
"""
import os

ROOT = os.path.dirname(os.path.dirname(os.path.abspath(__file__)))
TABLE = os.path.join(ROOT, "rust", "tests", "suite", "rv64c.txt")
BRANCH, JALR, JAL = 0x63, 0x67, 0x6F


def in_line():
    """The word that each halfword in line expands to."""
    with open(TABLE, encoding="ascii") as file:
        rows = [line.split(" ") for line in file if not line.startswith("#")]
    return {int(halfword, 16): int(word, 16) for halfword, word in rows}


def ends(word):
    """Whether the word of a halfword in line ends its block."""
    return word & 0x7F in (BRANCH, JALR, JAL)


def size(halfword):
    """The bytes of the instruction whose first halfword this is: the manual's "Base Instruction-Length Encoding"."""
    return 4 if halfword & 3 == 3 else 2


def offset_b(word):
    """A branch's offset, of 13 bits with the sign."""
    return word >> 31 << 12 | (word >> 7 & 1) << 11 | (word >> 25 & 63) << 5 | (word >> 8 & 15) << 1


def offset_j(word):
    """JAL's offset, of 21 bits with the sign."""
    return word >> 31 << 20 | (word >> 12 & 255) << 12 | (word >> 20 & 1) << 11 | (word >> 21 & 1023) << 1


def with_offset_b(word, offset):
    bits = (offset >> 12 & 1) << 31 | (offset >> 5 & 63) << 25 | (offset >> 1 & 15) << 8 | (offset >> 11 & 1) << 7
    return word & 0x01FFF07F | bits


def with_offset_j(word, offset):
    bits = (offset >> 20 & 1) << 31 | (offset >> 1 & 1023) << 21 | (offset >> 11 & 1) << 20 | (offset >> 12 & 255) << 12
    return word & 0xFFF | bits
