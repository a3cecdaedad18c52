#!/usr/bin/env python3
"""How sharp the tests of rust/ are: changes of one bit in the compiled translator, tried one by one. Not part of the gate.

    checks/mutants.py [--seed N] [--number N]

Builds the tests of rust/ (cargo, `rt`), copies their program, changes one bit in a function of the archive, and runs the tests: some
must fail, or the program end by a fault or hang. A change that no test notices is printed with the instruction it stands in, to be read:
there are bits that change nothing, such as unused bits of a prefix, upper bits of a shift count, or padding. Those that have been read
and found harmless are listed in HARMLESS, by the instruction that they stand in, and pass. Needs nm, readelf and objdump (binutils). The
damaged code runs in a process of its own with nothing but this user's rights, or nobody's where this is root. How far it is goes to
standard error.

The exit code is 0 where every change was noticed or is listed, else 1.
"""

import argparse
import json
import os
import random
import re
import subprocess
import sys
import tempfile
import time

ROOT = os.path.dirname(os.path.dirname(os.path.abspath(__file__)))
ARCHIVE = os.path.join(ROOT, "crates", "capi", "out", "libcapi.a")

NOBODY = 65534

# Quick and sharp ones first: the first failure is enough.
PARTS = ["cases", "every_", "placing", "index", "drops", "buckets", "sorts", "entered", "random_requests", "kinds"]

# Changes that no caller can see, read one by one: function, place of the byte, bit; the instruction as objdump has it without addresses,
# and why. Where the compiler writes other code, an entry fits no more, and what is then not noticed has to be read anew. These were read
# in the code of request Q-7, 300 changes of seed 1; those of functions that are as they were in Q-6's stay.
OVERLAP = "only code and store that overlap come here, and these can't be lent"
NULL_IS_EMPTY = "0 is shifted: a pointer of NULL has length 0, with which nothing comes here"
HARMLESS = {
    ("emuko_translate", 0x065, 0): ("add %rdi,%r8", "0 is added, to R9 instead; a pointer of NULL has length 0, with which nothing comes here"),
    ("emuko_translate", 0x0B0, 0): ("test %al,%al", "TEST of EAX; kind::word_kind has set all of it, to 0 to 3"),
    ("emuko_translate", 0x22A, 7): ("and $0xfe000000,%esi", "bits 0 to 12 of ESI are 0: SHL by 19 and SAR by 6 stand before it"),
    ("emuko_translate", 0x280, 0): ("and $0xfe000000,%ecx", "bits 0 to 12 of ECX are 0: SHL by 19 and SAR by 6 stand before it"),
    ("emuko_translate", 0x2E4, 4): ("shr $0x5,%ecx", "SAR; ECX is a halfword, and its bit 31 is 0"),
    ("emuko_translate", 0xAD6, 5): ("mov %r11w,0xc(%rbp,%rdi,1)", "a store of four bytes; the block goes on at the last two, and rewrites them"),
    ("emuko_translate", 0xAD6, 6): ("mov %r11w,0xc(%rbp,%rdi,1)", "a store of four bytes; the block goes on at the last two, and rewrites them"),
    ("emuko_translate", 0xEF2, 0): ("mov %cl,0x23(%rbp,%rdi,1)", "a store of four bytes, of which the next two stores rewrite the last three"),
    ("emuko_translate", 0xF96, 1): ("je emuko_translate", "JBE, which is the same here: the TEST before it clears the carry"),
    ("emuko_translate", 0xFE3, 7): ("and $0x100000,%edx", "EDX is a word shifted right by 11: its bit 31 is 0"),
    ("emuko_translate", 0x1066, 2): ("shr $0x20,%rdx", "REX.R, which extends a register in the ModRM byte; a digit stands there"),
    ("emuko_translate", 0x1069, 7): ("shr $0x20,%rdx", "a shift count of 64 bits: 0xa0 shifts as 0x20"),
    ("emuko_translate", 0x10FD, 3): ("mov %edx,%ecx", "of EBX, which is the same as EDX on both ways to here"),
    ("emuko_translate", 0x123D, 3): ("mov %eax,%r10d", "MOV of RAX, whose upper half is 0: INC of EAX stands before it"),
    ("kind::word_kind", 0x038, 0): ("xor %edx,%edx", "XOR of DL; EAX and ESI are 0 here, and give kind 0 whatever RDX is"),
    ("emuko_word_kind", 0x008, 4): ("movzbl %al,%eax", "to EDX, which no caller reads; kind::word_kind has set all of EAX"),
    ("emuko_expand", 0x075, 0): ("or %edx,%eax", "OR of DL to AL; both registers are below 8"),
    ("emuko_expand", 0x0BF, 5): ("shl $0x12,%edx", "ROL of a halfword; it differs in bits 0 and 1, which the AND behind it clears"),
    ("emuko_expand", 0x305, 4): ("shl $0x13,%eax", "digit 6 in the place of 4, which this processor takes for SHL too"),
    ("emuko_place", 0x007, 2): ("push %r12", "REX.R, which extends a register in the ModRM byte; there is none"),
    ("emuko_place", 0x040, 4): ("setb %bpl", "a bit of the ModRM byte's digit, which SETcc does not use"),
    ("emuko_place", 0x070, 2): ("pop %r13", "REX.R, which extends a register in the ModRM byte; there is none"),
    ("emuko_place", 0x0A9, 7): ("mov %rbx,0x10(%rsp)", OVERLAP),
    ("emuko_place", 0x0B3, 5): ("jb emuko_place", OVERLAP),
    ("emuko_place", 0x0CD, 7): ("xor %edi,%edi", OVERLAP),
    ("emuko_place", 0x0F9, 6): ("mov %bl,0x0(%rbp,%r14,1)", OVERLAP),
    ("emuko_place", 0x0FA, 0): ("inc %r12", OVERLAP),
    ("emuko_place", 0x100, 7): ("cmp %r14,%r13", OVERLAP),
    ("emuko_place", 0x132, 0): ("add %r12,%r11", OVERLAP),
    ("emuko_place", 0x14D, 1): ("xor %edi,%edi", OVERLAP),
    ("emuko_place", 0x14D, 7): ("xor %edi,%edi", OVERLAP),
    ("emuko_place", 0x154, 4): ("mov 0x8(%rsp),%rbp", OVERLAP),
    ("emuko_place", 0x155, 4): ("mov 0x8(%rsp),%rbp", OVERLAP),
    ("emuko_place", 0x16F, 7): ("movzbl -0x2(%rsi,%rdi,1),%r8d", OVERLAP),
    ("emuko_place", 0x185, 1): ("movzbl (%rsi,%rdi,1),%r8d", OVERLAP),
    ("emuko_place", 0x189, 0): ("mov %r8b,(%rcx,%rdi,1)", OVERLAP),
    ("emuko_place", 0x18E, 5): ("cmp %rdi,%rdx", OVERLAP),
    ("emuko_place", 0x19D, 6): ("cmp $0x20,%rdx", OVERLAP),
    ("emuko_place", 0x1AF, 2): ("add $0x10,%r12", OVERLAP),
    ("emuko_place", 0x1B4, 3): ("add %r15,%r14", OVERLAP),
    ("emuko_place", 0x1BB, 3): ("add $0x10,%r14", OVERLAP),
    ("emuko_place", 0x1CB, 0): ("movups %xmm0,-0x10(%r14,%r13,1)", OVERLAP),
    ("emuko_place", 0x1DB, 1): ("cmp %r13,%rdi", OVERLAP),
    ("emuko_place", 0x1F1, 0): ("mov %rdx,%rdi", OVERLAP),
    ("emuko_place", 0x1F3, 3): ("and $0xfffffffffffffffc,%rdi", OVERLAP),
    ("emuko_place", 0x1F4, 2): ("and $0xfffffffffffffffc,%rdi", OVERLAP),
    ("emuko_place", 0x1FB, 7): ("sub %r12,%r13", OVERLAP),
    ("emuko_place", 0x1FF, 6): ("lea (%r11,%r12,1),%rbp", OVERLAP),
    ("emuko_place", 0x209, 0): ("add %r9,%r12", OVERLAP),
    ("emuko_place", 0x20A, 0): ("add %r15,%r12", OVERLAP),
    ("emuko_place", 0x227, 3): ("mov %ebx,(%r12,%r14,1)", OVERLAP),
    ("emuko_place", 0x22B, 3): ("add $0x4,%r14", OVERLAP),
    ("emuko_place", 0x23C, 0): ("jmp emuko_place", OVERLAP),
    ("emuko_index_find", 0x013, 4): ("shl $0xc,%edi", NULL_IS_EMPTY),
    ("emuko_index_empty", 0x040, 3): ("movl $0x0,-0x188(%r9)", "a store of eight bytes: the four behind the mark belong to no field"),
    ("emuko_index_empty", 0x087, 2): ("movl $0x0,(%r9)", "REX.R, which extends a register in the ModRM byte; a digit stands there"),
    ("emuko_index_drop", 0x015, 3): ("add %rax,%rdi", "OR of 0; a pointer of NULL has length 0, with which nothing comes here"),
    ("emuko_index_drop", 0x06C, 1): ("je emuko_index_drop", "JBE, which is the same here: the AND before it clears the carry"),
    ("emuko_index_drop", 0x070, 0): ("xor %eax,%eax", "XOR of AL; only length 0 comes here, and RAX is 0 since place 0"),
}


def harmless(name, place, bit, text, code, byte):
    """Why a change is known to be harmless, or nothing."""
    index = re.search(r"\([^()]*,[^()]*\)", text)
    if re.match(r"((data16|cs) )*nop", text):
        return "padding"
    if not index and byte == 0 and code[0] >> 4 == 4 and bit == 1:
        return "REX.X, which extends an index register; there is none"
    if not index and "(%rsp)" in text and code[byte] == 0x24 and bit >= 6:
        return "the scale of an index register; there is none"
    listed, why = HARMLESS.get((name, place, bit), (None, None))
    return why if listed == text else None


def output(*command, **options):
    return subprocess.run(command, stdout=subprocess.PIPE, text=True, check=True, **options).stdout


def test_program():
    lines = output("cargo", "test", "--offline", "--test", "suite", "--no-run", "--message-format=json", cwd=os.path.join(ROOT, "rust"))
    for line in lines.splitlines():
        message = json.loads(line)
        if message.get("executable") and message["target"]["name"] == "suite":
            return message["executable"]
    sys.exit("cargo has built no tests")


def functions(program):
    """Name, offset in the file, and length of each function of the archive."""
    names = {line.split(" ", 2)[2] for line in output("nm", ARCHIVE).splitlines() if re.match(r"[0-9a-f]+ [Tt] ", line)}
    text = re.search(r"\] \.text\s+PROGBITS\s+(\w+) (\w+)", output("readelf", "-SW", program))
    shift = int(text[2], 16) - int(text[1], 16)
    found = []
    for line in output("nm", "-S", program).splitlines():
        match = re.match(r"([0-9a-f]+) ([0-9a-f]+) [Tt] (.*)", line)
        if match and match[3] in names:
            found.append((match[3], int(match[1], 16) + shift, int(match[2], 16)))
    return found


def noticed(program):
    rights = {"user": NOBODY, "group": NOBODY, "extra_groups": []} if os.geteuid() == 0 else {}
    for part in PARTS:
        # What the papers say of the repository has nothing to do with the translator.
        command, nothing = [program, "--test-threads=1", "--skip", "papers", part], subprocess.DEVNULL
        try:
            run = subprocess.run(command, stdout=nothing, stderr=nothing, timeout=120, start_new_session=True, **rights)
        except subprocess.TimeoutExpired:
            return True
        if run.returncode != 0:
            return True
    return False


def instruction(name, place):
    """The instruction of the archive that this byte of a function stands in: its text, its bytes, and which of them it is."""
    text, code, byte = "?", b"\0", 0
    for line in output("objdump", "-d", "-w", f"--disassemble={name}", ARCHIVE).splitlines():
        match = re.match(r"\s+([0-9a-f]+):\t((?:[0-9a-f]{2} )+)\s*\t?(.*)", line)
        if match and int(match[1], 16) <= place:
            text, code, byte = " ".join(match[3].split()), bytes.fromhex(match[2]), place - int(match[1], 16)
    return re.sub(r"[0-9a-f]+ <(\S+?)(\+0x[0-9a-f]+)?>", r"\1", text), code, byte


def changed_bits(data, all_functions, rng, number):
    """So many changes: function, byte and bit, and the program with the change."""
    for _ in range(number):
        name, at, length = rng.choices(all_functions, weights=[f[2] for f in all_functions])[0]
        place, bit = rng.randrange(length), rng.randrange(8)
        mutant = bytearray(data)
        mutant[at + place] ^= 1 << bit
        yield name, place, bit, mutant


def main():
    parser = argparse.ArgumentParser(description=__doc__, formatter_class=argparse.RawDescriptionHelpFormatter)
    parser.add_argument("--seed", type=int, default=1)
    parser.add_argument("--number", type=int, default=50)
    options = parser.parse_args()
    program = test_program()
    all_functions = functions(program)
    if not all_functions:
        sys.exit("the tests' program has no function of the archive")
    data = open(program, "rb").read()
    rng = random.Random(options.seed)
    tried = missed = known = 0
    shown = time.monotonic()
    with tempfile.TemporaryDirectory() as folder:
        os.chmod(folder, 0o755)
        changed = os.path.join(folder, "suite")
        with open(changed, "wb") as file:
            file.write(data)
        os.chmod(changed, 0o755)
        if noticed(changed):
            sys.exit("the tests fail without any change")
        for name, place, bit, mutant in changed_bits(data, all_functions, rng, options.number):
            with open(changed, "wb") as file:
                file.write(mutant)
            tried += 1
            if not noticed(changed):
                text, code, byte = instruction(name, place)
                why = harmless(name, place, bit, text, code, byte)
                if why:
                    known += 1
                    print(f"harmless: {name}: {text}, byte {byte}, bit {bit}: {why}", flush=True)
                else:
                    missed += 1
                    print(f"not noticed: {name}, at {place:#x}: {text}, byte {byte}, bit {bit}", flush=True)
            if time.monotonic() - shown > 20:
                shown = time.monotonic()
                print(f"{tried} of {options.number} tried", file=sys.stderr, flush=True)
    print(f"{tried} changes, {tried - missed - known} noticed, {known} known to be harmless")
    return 1 if missed else 0


if __name__ == "__main__":
    sys.exit(main())
