#!/usr/bin/env python3
"""What the Intel SDM says of the host instructions that request Q-2 adds, compared with this processor. Not part of the gate.

    checks/processor.py [--seed N] [--number N] [--spoil]

MUL, IMUL, DIV and IDIV of one operand at 64 and 32 bits, CQO, CDQ, and the conditional jumps forward: each is executed by itself on this
processor, with registers and flags of every sort, and compared with what its page in the SDM's volume 2 says, written out below by hand:
RAX, RCX, RDX, R8 to R11, the flags that the page defines, and #DE, which Linux makes SIGFPE, with everything as before. The model in
crates/agreement/specs/X86 is not asked here: it and this script have the same pages as their source, and no word in common. measured.py
asks the model.

Needs x86-64 Linux, GNU as and objcopy (binutils). --number is how many random cases there are for each form and operand, besides all
triples of corners with R11 as the operand. With --spoil, DIV is executed where IDIV is expected, which must be noticed. Exit code 0 where
all agrees (with --spoil: where the change was noticed), else 1.
"""
import argparse
import ctypes
import mmap
import random
import signal
import struct
import subprocess
import sys
import tempfile

from outsiders import CORNERS

REGISTERS = ("rax", "rcx", "rdx", "r8", "r9", "r10", "r11")
LOW = {"rax": "eax", "rcx": "ecx", "rdx": "edx", "r8": "r8d", "r9": "r9d", "r10": "r10d", "r11": "r11d"}
CF, PF, AF, ZF, SF, OF = (1 << bit for bit in (0, 2, 4, 6, 7, 11))
STATUS = CF | PF | AF | ZF | SF | OF

# A record of a case: flags and registers before, the same after, and whether there was a fault; the code below goes through many of them.
# In its hole stands what is tried; behind a fault it goes on at its 16th byte.
RECORD = 8 * (1 + len(REGISTERS)) * 2 + 8
HOLE = 160
CODE = f"""
    .intel_syntax noprefix
    jmp begin
    .balign 16
    mov qword ptr [rbx+{RECORD - 8}], 1
    jmp after
begin:
    push rbx
    push rbp
    mov rbx, rdi
    mov rbp, rsi
next:
    mov qword ptr [rbx+{RECORD - 8}], 0
    push qword ptr [rbx]
    popfq
{"".join(f"    mov {name}, [rbx+{8 + 8 * k}]" + chr(10) for k, name in enumerate(REGISTERS))}
    .fill {HOLE}, 1, 0x90
after:
    pushfq
    pop qword ptr [rbx+64]
{"".join(f"    mov [rbx+{72 + 8 * k}], {name}" + chr(10) for k, name in enumerate(REGISTERS))}
    add rbx, {RECORD}
    dec rbp
    jnz next
    pop rbp
    pop rbx
    ret
"""


def assembled(text):
    with tempfile.NamedTemporaryFile() as made, tempfile.NamedTemporaryFile() as binary:
        subprocess.run(["as", "--64", "-o", made.name], input=text, check=True, text=True)
        subprocess.run(["objcopy", "-O", "binary", "-j", ".text", made.name, binary.name], check=True)
        return binary.read()


class Action(ctypes.Structure):
    """struct sigaction of glibc."""
    _fields_ = [("handler", ctypes.c_void_p), ("mask", ctypes.c_uint64 * 16), ("flags", ctypes.c_int), ("restorer", ctypes.c_void_p)]


class Processor:
    """Executes what is put into the hole, once for each case."""

    def __init__(self):
        self.memory = mmap.mmap(-1, 8192, prot=mmap.PROT_READ | mmap.PROT_WRITE | mmap.PROT_EXEC)
        self.held = ctypes.c_char.from_buffer(self.memory)
        at = ctypes.addressof(self.held)
        code = assembled(CODE)
        self.memory[:len(code)] = code
        self.hole = code.index(b"\x90" * HOLE)
        self.enter = ctypes.CFUNCTYPE(None, ctypes.c_void_p, ctypes.c_uint64)(at)
        # The handler of SIGFPE: RIP in the context that it is given (the 17th register, behind 40 bytes) becomes the 16th byte of the code.
        handler = assembled(f".intel_syntax noprefix\n movabs rax, {at + 16}\n mov [rdx+{40 + 16 * 8}], rax\n ret\n")
        self.memory[4096:4096 + len(handler)] = handler
        action = Action(at + 4096, flags=4)  # SA_SIGINFO
        if ctypes.CDLL(None).sigaction(int(signal.SIGFPE), ctypes.byref(action), None):
            sys.exit("sigaction failed")

    def run(self, tried, cases):
        """Flags, registers and fault after each case; flags and registers before are given."""
        self.memory[self.hole:self.hole + HOLE] = tried.ljust(HOLE, b"\x90")
        records = b"".join(struct.pack("<8Q72x", flags | 2, *registers) for flags, registers in cases)
        buffer = ctypes.create_string_buffer(records, len(records))
        self.enter(ctypes.addressof(buffer), len(cases))
        for record in struct.iter_unpack("<64x9Q", buffer.raw):
            yield record[0] & STATUS, record[1:8], record[8]


# ---- what the SDM says

def signed(value, width):
    return value - (1 << width) if value >> width - 1 & 1 else value


def product(name, width, a, b):
    """MUL and IMUL: the halves of the product, and whether CF and OF are set: whether the upper half is more than 0 (MUL) or more than the
    lower half's sign (IMUL)."""
    mask = (1 << width) - 1
    if name == "mul":
        whole = a * b
        return whole & mask, whole >> width, whole > mask
    whole = signed(a, width) * signed(b, width)
    return whole & mask, whole >> width & mask, whole != signed(whole & mask, width)


def quotient(name, width, dividend, divisor):
    """DIV and IDIV: quotient and remainder, or nothing for #DE: the divisor is 0, or the quotient does not fit the register. IDIV cuts the
    quotient towards 0, and the remainder has the dividend's sign."""
    mask = (1 << width) - 1
    if divisor == 0:
        return None
    if name == "div":
        result, rest = divmod(dividend, divisor)
        return (result, rest) if result <= mask else None
    dividend, divisor = signed(dividend, 2 * width), signed(divisor, width)
    result = abs(dividend) // abs(divisor) * (1 if (dividend < 0) == (divisor < 0) else -1)
    if not -(1 << width - 1) <= result < 1 << width - 1:
        return None
    return result & mask, dividend - result * divisor & mask


def expected(name, width, operand, flags, registers):
    """Flags and which of them are defined, registers, fault."""
    mask = (1 << width) - 1
    rax, rdx, after = registers[0] & mask, registers[2] & mask, list(registers)
    if name in ("mul", "imul"):
        after[0], after[2], over = product(name, width, rax, registers[REGISTERS.index(operand)] & mask)
        return (CF | OF if over else 0), CF | OF, tuple(after), 0
    if name in ("div", "idiv"):
        both = quotient(name, width, rdx << width | rax, registers[REGISTERS.index(operand)] & mask)
        if both is None:
            return flags, STATUS, tuple(registers), 1
        after[0], after[2] = both
        return 0, 0, tuple(after), 0
    after[2] = mask if rax >> width - 1 else 0  # CQO and CDQ: no flag is affected
    return flags, STATUS, tuple(after), 0


# Condition code, and whether it holds.
CONDITIONS = {
    "b": (0x2, lambda flags: flags & CF),
    "ae": (0x3, lambda flags: not flags & CF),
    "e": (0x4, lambda flags: flags & ZF),
    "ne": (0x5, lambda flags: not flags & ZF),
    "l": (0xC, lambda flags: bool(flags & SF) != bool(flags & OF)),
    "ge": (0xD, lambda flags: bool(flags & SF) == bool(flags & OF)),
}


# ---- cases

def value(rng):
    if rng.random() < .4:
        return rng.choice(CORNERS)
    return rng.getrandbits(64) >> rng.choice((0, 0, 0, 1, 8, 31, 32, 33, 48))


def around(rng):
    """Registers, all at random."""
    return [value(rng) for _ in REGISTERS]


def dividing(rng, name, width, operand):
    """Registers whose quotient fits more often than not, or just does not."""
    registers = around(rng)
    k = REGISTERS.index(operand)
    divisor = registers[k] & (1 << width) - 1
    if operand in ("rax", "rdx") or divisor == 0:
        return registers
    sign = name == "idiv"
    limits = (-(1 << width - 1), (1 << width - 1) - 1) if sign else (0, (1 << width) - 1)
    result = rng.choice((limits[0], limits[1], limits[0] - 1, limits[1] + 1, rng.randint(*limits), rng.randint(*limits)))
    by = signed(divisor, width) if sign else divisor
    rest = rng.randrange(abs(by)) * (-1 if sign and result * by < 0 else 1)
    dividend = result * by + rest & (1 << 2 * width) - 1
    above = rng.getrandbits(32) << 32 if width == 32 else 0
    registers[0] = dividend & (1 << width) - 1 | above
    registers[2] = dividend >> width | above
    return registers


def cases(rng, name, width, operand, number):
    """Registers of every sort for one form: all triples of corners for R11, then random ones."""
    if operand == "r11":
        for rax in CORNERS:
            for rdx in CORNERS:
                for by in CORNERS:
                    registers = around(rng)
                    registers[0], registers[2], registers[6] = rax, rdx, by
                    yield rng.getrandbits(12) & STATUS, registers
    for _ in range(number):
        registers = dividing(rng, name, width, operand) if name in ("div", "idiv") else around(rng)
        yield rng.getrandbits(12) & STATUS, registers


class Disagreement(Exception):
    pass


def compare(processor, name, width, operand, tried, all_cases):
    """How many cases, and how many faults, of one form."""
    faults = 0
    for (flags, registers), found in zip(all_cases, processor.run(tried, all_cases)):
        want_flags, defined, want, fault = expected(name, width, operand, flags, registers)
        if (found[0] & defined, tuple(found[1]), found[2]) != (want_flags & defined, want, fault):
            shown = [hex(x) for x in registers], [hex(x) for x in found[1]], [hex(x) for x in want]
            raise Disagreement(f"{name} {width} {operand}: flags {flags:#x}, before, found, wanted {shown}, fault {found[2]}, {fault}")
        faults += fault
    return len(all_cases), faults


def check_arithmetic(processor, rng, number, spoil):
    total = 0
    for name in ("mul", "imul", "div", "idiv"):
        for width in (64, 32):
            tried = faults = 0
            for operand in REGISTERS:
                register = operand if width == 64 else LOW[operand]
                executed = "div" if spoil and name == "idiv" else name
                code = assembled(f".intel_syntax noprefix\n {executed} {register}\n")
                counts = compare(processor, name, width, operand, code, list(cases(rng, name, width, operand, number)))
                tried, faults = tried + counts[0], faults + counts[1]
            print(f"{name}, {width} bits: {tried} cases, {faults} of them faults, as the SDM says")
            total += tried
    for name, width in (("cqo", 64), ("cdq", 32)):
        code = assembled(f".intel_syntax noprefix\n {name}\n")
        tried, _ = compare(processor, name, width, None, code, list(cases(rng, name, width, "r11", number)))
        print(f"{name}: {tried} cases, as the SDM says")
        total += tried
    return total


def check_jumps(processor, rng):
    """Every condition, displacement and setting of the six flags. Behind the bytes that are skipped stands MOV EAX, which with the last of
    them, 41, before it is MOV R8D; one byte further on there are NOPs."""
    put = 0x90909090
    settings = [sum(bit for k, bit in enumerate((CF, PF, AF, ZF, SF, OF)) if n >> k & 1) for n in range(64)]
    total = 0
    for name, (code, holds) in CONDITIONS.items():
        for skipped in range(128):
            between = b"\x90" * (skipped - 1) + b"\x41" if skipped else b""
            tried = bytes([0x70 + code, skipped]) + between + b"\xb8" + struct.pack("<I", put)
            all_cases = [(flags, around(rng)) for flags in settings]
            for (flags, registers), (after, found, fault) in zip(all_cases, processor.run(tried, all_cases)):
                want = list(registers)
                want[0 if holds(flags) or not skipped else 3] = put
                if (after, list(found), fault) != (flags, want, 0):
                    raise Disagreement(f"j{name} +{skipped}, flags {flags:#x}")
                total += 1
    print(f"jumps: {len(CONDITIONS)} conditions, 128 displacements, 64 settings of the flags: {total} cases, as the SDM says")
    return total


def main():
    parser = argparse.ArgumentParser(description=__doc__, formatter_class=argparse.RawDescriptionHelpFormatter)
    parser.add_argument("--seed", type=int, default=1)
    parser.add_argument("--number", type=int, default=3000)
    parser.add_argument("--spoil", action="store_true")
    options = parser.parse_args()
    rng = random.Random(options.seed)
    processor = Processor()
    try:
        total = check_arithmetic(processor, rng, options.number, options.spoil) + check_jumps(processor, rng)
    except Disagreement as disagreement:
        print(f"DISAGREES: {disagreement}")
        return 0 if options.spoil else 1
    print(f"{total} single instructions")
    return 1 if options.spoil else 0


if __name__ == "__main__":
    sys.exit(main())
