#!/usr/bin/env python3
"""The x86 model itself against this processor, for the host instructions of request Q-2's words. Not part of the gate.

    checks/measured.py [--seed N] [--number N] [--spoil]

Single instructions are executed on this processor, with registers and flags of every sort: each one that stands in the eleven words' host
code (muldiv.py), MUL, IMUL, DIV and IDIV of other registers, and the conditional jumps. What came out is written as vectors into a copy of
the crate agreement, and `rt check` computes them: the model of specs/X86 fetches and decodes the bytes that GNU as wrote, and must have the
same RAX, RCX, RDX, R10, R11 and RIP afterwards, the same flags where the SDM defines them, and no next state where there was SIGFPE.

Needs x86-64 Linux, `rt` on the PATH, GNU as and objcopy (binutils). --number is how many vectors there are for each instruction. With
--spoil one bit of one vector is changed, and the check must fail. Exit code 0 where it is as it should be, else 1.
"""
import argparse
import os
import random
import shutil
import struct
import subprocess
import sys
import tempfile

import muldiv
import processor
from processor import AF, CF, OF, PF, REGISTERS, SF, STATUS, ZF

ROOT = os.path.dirname(os.path.dirname(os.path.abspath(__file__)))
CRATE = os.path.join(ROOT, "crates", "agreement")
SEEN = [REGISTERS.index(name) for name in ("rax", "rcx", "rdx", "r10", "r11")]
# So many vectors are computed by one declaration.
CHUNK = 200

# The module's beginning; `kind` says which flags are compared: 0 none, 1 CF and OF, 2 all, 3 all but AF, 4 all but AF and OF.
HEAD = """-- Measured on a processor.
use Rattle.std.proofs.Common.{◌≡◌, ℕ, Bool, true, false, cond, not, ◌&&◌, eqb, List, [], ◌∷◌, refl}
use Rattle.std.proofs.Math.Option.{Option, none, some}
use Rattle.agreement.specs.X86.Decode.{alu_of, cc_of, decode, imm, loaded, memory, modrm, moved, mul_div_of, on_reg, only, opcode1}
use Rattle.agreement.specs.X86.Decode.{opcode_0f, pick, shift_of, width_of}
use Rattle.agreement.specs.X86.Execute.{accesses, division_faults, exec, faults}
use Rattle.agreement.specs.X86.Flags.{add_flags, alu_flags, alu_value, as_bits, as_signed, even_ones, holds, imul_flags, logic_flags}
use Rattle.agreement.specs.X86.Flags.{ones, sext, shift_flags, shift_overflow, shifted, shifted_out, smul_flags, sub_flags, umul_flags}
use Rattle.agreement.specs.X86.Memory.{nth}
use Rattle.agreement.specs.X86.State.{Flags, State}
use Rattle.agreement.specs.X86.Step.{all, cut, did, fetched, next, past, step}

abbrev f : Bool → Bool → Bool → Bool → Bool → Bool → Flags
f c p a z s o = record { cf = c; pf = p; af = a; zf = z; sf = s; of = o }

-- flags, RIP and registers
record Seen : Type 0 where
  flags : Flags
  rip : ℕ
  regs : List ℕ

abbrev seen : Flags → ℕ → List ℕ → Seen
seen g n r = record { flags = g; rip = n; regs = r }

record Measured : Type 0 where
  bytes : List ℕ
  kind : ℕ
  before : Seen
  after : Option Seen

abbrev m : List ℕ → ℕ → Seen → Option Seen → Measured
m b k s t = record { bytes = b; kind = k; before = s; after = t }

abbrev same : Bool → Bool → Bool
same a b = cond a b (not b)

abbrev same_flags : ℕ → Flags → Flags → Bool
same_flags k a b = cond (eqb k 0) true (same a.cf b.cf && (cond (eqb k 4) true (same a.of b.of)
    && cond (eqb k 1) true (same a.pf b.pf && (cond (eqb k 2) (same a.af b.af) true
    && (same a.zf b.zf && same a.sf b.sf)))))

-- RAX, RCX, RDX, R10, R11 by number; the others do not occur
abbrev place : ℕ → ℕ
place r = cond (eqb r 10) 3 (cond (eqb r 11) 4 r)

abbrev agrees : Measured → Bool
agrees v = by (step (λ s. f false false false false false false)
    (record { fetch = λ a. true; read = λ a. false; write = λ a. false })
    (record { regs = λ r. nth v.before.regs (place r); flags = v.before.flags; rip = 0; mem = nth v.bytes })) v.after
  where
    by : Option (State × List ℕ) → Option Seen → Bool
    by none none = true
    by none (some t) = false
    by (some s) none = false
    by (some s) (some t) = same_flags v.kind s.0.flags t.flags && (eqb s.0.rip t.rip
        && (eqb (s.0.regs 0) (nth t.regs 0) && (eqb (s.0.regs 1) (nth t.regs 1) && (eqb (s.0.regs 2) (nth t.regs 2)
        && (eqb (s.0.regs 10) (nth t.regs 3) && eqb (s.0.regs 11) (nth t.regs 4))))))

abbrev all_agree : List Measured → Bool
all_agree [] = true
all_agree (v ∷ vs) = agrees v && all_agree vs
"""
UNFOLDING = ("unfolding step did past next cut fetched all decode pick only opcode1 opcode_0f modrm mul_div_of alu_of cc_of shift_of imm "
             "moved memory loaded on_reg width_of accesses nth faults division_faults as_signed as_bits exec umul_flags smul_flags sext "
             "alu_value alu_flags add_flags sub_flags logic_flags even_ones ones shifted shift_flags shifted_out shift_overflow "
             "imul_flags holds")


def kind(name):
    """Which flags the SDM defines behind an instruction, by its name; the one shift is by 63."""
    return {"div": 0, "idiv": 0, "mul": 1, "imul": 1, "and": 3, "or": 3, "xor": 3, "sar": 4}.get(name, 2)


def texts():
    """The instructions but for jumps."""
    found = [text for row in muldiv.BODIES for text in muldiv.instructions(row)]
    for name in ("mul", "imul", "div", "idiv"):
        for register in ("r11", "rcx", "rax", "rdx"):
            found += [f"{name} {register}", f"{name} {processor.LOW[register]}"]
    return [text for text in dict.fromkeys(found) if not text.startswith("j")]


def numbers(values):
    return " ∷ ".join(hex(value) for value in values) + " ∷ []"


def seen(flags, rip, registers):
    bits = " ".join("true" if flags & bit else "false" for bit in (CF, PF, AF, ZF, SF, OF))
    return f"(seen (f {bits}) {rip} ({numbers(registers[k] for k in SEEN)}))"


def vector(code, kind_of_flags, before, after):
    """`before`: flags and registers; `after`: flags, RIP and registers, or nothing for a fault."""
    flags, registers = before
    found = f"(some {seen(*after)})" if after else "none"
    return f"m ({numbers(code)}) {kind_of_flags} {seen(flags, 0, registers)} {found}"


def of_instructions(host, rng, number):
    for text in texts():
        name, _, operand = text.partition(" ")
        code = processor.assembled(f".intel_syntax noprefix\n {text}\n")
        cases = []
        for _ in range(number):
            registers = processor.around(rng)
            if name in ("div", "idiv") and rng.random() < .8:
                width = 64 if operand in REGISTERS else 32
                wide = operand if width == 64 else next(key for key, low in processor.LOW.items() if low == operand)
                registers = processor.dividing(rng, name, width, wide)
            cases.append((rng.getrandbits(12) & STATUS, registers))
        for case, (flags, registers, fault) in zip(cases, host.run(code, cases)):
            yield vector(code, kind(name), case, None if fault else (flags, len(code), registers))


def of_jumps(host, rng):
    """Whether a jump was taken is seen by what stands behind it: processor.py, check_jumps."""
    settings = [sum(bit for k, bit in enumerate((CF, PF, AF, ZF, SF, OF)) if n >> k & 1) for n in range(64)]
    for code, _ in processor.CONDITIONS.values():
        for skipped in (1, 2, 3, 7, 8, 15, 16, 31, 63, 64, 100, 126, 127):
            jump = bytes([0x70 + code, skipped])
            cases = [(flags, processor.around(rng)) for flags in settings]
            behind = b"\x90" * (skipped - 1) + b"\x41\xb8" + struct.pack("<I", 0x90909090)
            for case, (flags, registers, _) in zip(cases, host.run(jump + behind, cases)):
                taken = registers[3] == case[1][3]
                yield vector(jump, 2, case, (flags, 2 + skipped if taken else 2, case[1]))


def module(vectors):
    text = HEAD
    for k in range(0, len(vectors), CHUNK):
        name = f"measured{k // CHUNK}"
        part = "\n    ∷ ".join(vectors[k:k + CHUNK])
        text += f"\n{name} : List Measured\n{name} =\n    {part} ∷ []\n"
        text += f"\n{name}_agree : all_agree {name} ≡ true\n{UNFOLDING} {name}\n{name}_agree = refl\n"
    return text


def spoiled(text):
    """A vector with another last number, which is R11 afterwards."""
    front, _, last = text.rpartition("0x")
    digits, _, behind = last.partition(" ")
    return f"{front}{hex(int(digits, 16) ^ 1)} {behind}"


def proved(text):
    """Whether the crate is proved with this module in it, and what `rt` said."""
    with tempfile.TemporaryDirectory() as root:
        with open(os.path.join(root, "crates.txt"), "w", encoding="utf-8") as file:
            file.write("agreement:\n")
        crate = os.path.join(root, "crates", "agreement")
        # With what an earlier check kept in out/, so that little more than the module is checked.
        shutil.copytree(CRATE, crate)
        with open(os.path.join(crate, "proofs", "Checks", "Measured.antt"), "w", encoding="utf-8") as file:
            file.write(text)
        with open(os.path.join(crate, "proofs", "Checks.antt"), "a", encoding="utf-8") as file:
            file.write("pub mod Measured\n")
        run = subprocess.run(["rt", "check"], cwd=crate, stdout=subprocess.PIPE, stderr=subprocess.STDOUT, text=True, check=False)
    return run.returncode == 0 and "logic=proved" in run.stdout, run.stdout


def main():
    parser = argparse.ArgumentParser(description=__doc__, formatter_class=argparse.RawDescriptionHelpFormatter)
    parser.add_argument("--seed", type=int, default=1)
    parser.add_argument("--number", type=int, default=200)
    parser.add_argument("--spoil", action="store_true")
    options = parser.parse_args()
    rng, host = random.Random(options.seed), processor.Processor()
    vectors = list(of_instructions(host, rng, options.number)) + list(of_jumps(host, rng))
    faults = sum(text.endswith(" none") for text in vectors)
    if options.spoil:
        k = next(k for k, text in enumerate(vectors) if not text.endswith(" none"))
        vectors[k] = spoiled(vectors[k])
    good, said = proved(module(vectors))
    print(f"{len(vectors)} vectors of {len(texts())} instructions and 6 jumps, {faults} of them faults: "
          + ("as the model has them" if good else "NOT as the model has them"))
    if not good and not options.spoil:
        print("\n".join(line for line in said.splitlines() if "error" in line)[:2000])
    return 0 if good != options.spoil else 1


if __name__ == "__main__":
    sys.exit(main())
