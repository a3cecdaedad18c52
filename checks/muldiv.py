"""The host code of the eleven words of request Q-2, written down by hand as text. Nothing of it is taken from this repository's code.

Between a word's two loads (rs1 into R10, rs2 into R11) and its store of R10 stands its *body*, below an instruction a line as objdump reads
it and GNU as takes it; a jump names how many bytes behind it it skips. outsiders.py compares it with what objdump reads of blocks, and
replies.py has `as` make bytes of it.
"""
import subprocess
import tempfile

OP, OP_32 = 0x33, 0x3B

# An unsigned division by R11, or R11D, which is skipped where that is 0; {d} is the letter of 32 bits.
UNSIGNED = """
    and r11{d},r11{d}
    je +8
    mov rax,r10
    xor edx,edx
    div r11{d}
"""
# A signed one, which is skipped where RCX, the divisor plus 1, is 0 or 1.
SIGNED_64 = """
    cmp rcx,0x2
    jb +8
    mov rax,r10
    cqo
    idiv r11
"""
SIGNED_32 = """
    cmp rcx,0x2
    jb +7
    mov rax,r10
    cdq
    idiv r11d
"""
# What the manual gives where the division is skipped: the quotient a * b - (b + 1) and the remainder a * (b + 1), b being 0 or -1.
SIGNED_QUOTIENT = """
    mov rcx,r11
    add rcx,0x1
    mov rax,r10
    imul rax,r11
    sub rax,rcx
"""
SIGNED_REMAINDER = """
    mov rcx,r11
    add rcx,0x1
    mov rdx,r10
    imul rdx,rcx
"""
ALL_ONES = "or rax,0xffffffffffffffff\n"
DIVIDEND = "mov rdx,r10\n"
FROM_RAX, FROM_RDX = "mov r10,rax\n", "mov r10,rdx\n"
A, B = "movsxd r10,r10d\n", "movsxd r11,r11d\n"

# By opcode and funct3, funct7 being 1.
BODIES = {
    (OP, 1): ("MULH", "mov rax,r10\n imul r11\n mov r10,rdx"),
    (OP, 2): ("MULHSU", "mov rax,r10\n mul r11\n sar r10,0x3f\n imul r10,r11\n add r10,rdx"),
    (OP, 3): ("MULHU", "mov rax,r10\n mul r11\n mov r10,rdx"),
    (OP, 4): ("DIV", SIGNED_QUOTIENT + SIGNED_64 + FROM_RAX),
    (OP, 5): ("DIVU", ALL_ONES + UNSIGNED.format(d="") + FROM_RAX),
    (OP, 6): ("REM", SIGNED_REMAINDER + SIGNED_64 + FROM_RDX),
    (OP, 7): ("REMU", DIVIDEND + UNSIGNED.format(d="") + FROM_RDX),
    (OP_32, 4): ("DIVW", A + B + SIGNED_QUOTIENT + SIGNED_32 + FROM_RAX + A),
    (OP_32, 5): ("DIVUW", ALL_ONES + UNSIGNED.format(d="d") + FROM_RAX + A),
    (OP_32, 6): ("REMW", A + B + SIGNED_REMAINDER + SIGNED_32 + FROM_RDX + A),
    (OP_32, 7): ("REMUW", DIVIDEND + UNSIGNED.format(d="d") + FROM_RDX + A),
}


def key(word):
    """Opcode and funct3 of one of the eleven, or nothing."""
    row = word & 0x7F, word >> 12 & 7
    return row if word >> 25 == 1 and row in BODIES else None


def instructions(row):
    """The body as a list of instructions."""
    return [line.strip() for line in BODIES[row][1].splitlines() if line.strip()]


def for_assembler(instruction):
    """A jump's target is named from the jump's own first byte there; a short jump has two bytes."""
    name, *operand = instruction.split(" ")
    return f"{name} .+{int(operand[0]) + 2}" if operand and operand[0].startswith("+") else instruction


def assembled(row):
    """The body's bytes as GNU as writes them."""
    text = "".join(line + "\n" for line in [".intel_syntax noprefix", *map(for_assembler, instructions(row))])
    with tempfile.NamedTemporaryFile() as made, tempfile.NamedTemporaryFile() as binary:
        subprocess.run(["as", "--64", "-o", made.name], input=text, check=True, text=True)
        subprocess.run(["objcopy", "-O", "binary", "-j", ".text", made.name, binary.name], check=True)
        return binary.read()
