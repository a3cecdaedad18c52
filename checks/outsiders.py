#!/usr/bin/env python3
"""Blocks read by objdump and compared with qemu-riscv64: what others say of the definitions. Not part of the gate.

    checks/outsiders.py [--seed N] [--blocks N] [--runs N] [--programs N] [--pairs N] [--jumps N] [--spoil]

Needs the programs translate and, for the second and third part, replay (`rt run < stdin` in crates/translate and in crates/replay leaves each
in that folder's out/), objdump (binutils) for the first part, and an x86-64 Linux with qemu-riscv64 (Debian: qemu-user) for the others;
QEMU_RISCV64 may name the latter. A part whose tool is missing, or of which no run is asked for, is skipped and says so.

In the first three parts the runs are of words, of compressed halfwords that are translated in line, and of both. What such a halfword
expands to says GNU binutils' table (halfwords.py).

1. objdump: random runs are translated, and objdump reads the blocks. Instruction boundaries must meet every block's start and
   end, nothing may be (bad), opening and closing must be document 01's, and between them every instruction must be the one
   that the word's row in the table below says (the rest of M has its own, muldiv.py), operands included. A jump's target is read as
   the number of bytes that it skips.
2. qemu: random straight runs, with or without a jump, a branch or FENCE.I at the end, are translated at 0x80000000 or two bytes behind and
   entered on this processor. The same bytes stand in the memory of a RISC-V program under qemu-riscv64, which is led through them by
   single steps over its debugger's port. All registers and the pc must be the same after the block's count of steps.
3. changed code: random loops that store a word or two halfwords over a word or two halfwords of their own, then have FENCE.I, are run block
   by block on this processor, and by single steps under qemu. Blocks are kept by their pc, and all are dropped behind a FENCE.I. The
   store, which is a helper's in a block, is done here. All registers and the pc must be the same after the last step.
4. pairs: a block of the thirteen words of M is entered on this processor with pairs of operands, all pairs of corners first, then random
   ones with corners often. A RISC-V program of the same words computes all of them under qemu-riscv64. Every result must be the same.
5. jumps: words of JALR's opcode with each funct3 are executed by a RISC-V program under qemu-riscv64, one to a program. The word must be
   translated where qemu jumps, and not be taken where qemu ends the program by an illegal instruction: then it has no block by itself, and
   the block of ADDI with it behind is that of ADDI alone.

With --spoil, each part changes one thing (a byte of a block, a halfword of a run, that blocks are dropped, a word of M, a funct3) and must
notice it by itself.

Ends with exit code 0 where no part found a disagreement (with --spoil: where every part found one), 1 where some part did (did not),
2 where nothing could be checked.
"""

import argparse
import ctypes
import itertools
import mmap
import os
import platform
import random
import re
import shutil
import signal
import socket
import struct
import subprocess
import sys
import tempfile
import time

import halfwords
import muldiv
from replies import is_fence_i

ROOT = os.path.dirname(os.path.dirname(os.path.abspath(__file__)))
TRANSLATE = os.path.join(ROOT, "crates", "translate", "out", "translate")
REPLAY = os.path.join(ROOT, "crates", "replay", "out", "replay")
START = 0x80000000
M64 = (1 << 64) - 1
IN_LINE = halfwords.in_line()


class Disagreement(Exception):
    pass


def demand(condition, *what):
    if not condition:
        raise Disagreement(" ".join(str(x) for x in what))


# ---- words

IMM = {0: "add", 2: "slti", 3: "sltiu", 4: "xor", 6: "or", 7: "and"}
OP = {(0, 0): "add", (32, 0): "sub", (0, 1): "shl", (0, 2): "slt", (0, 3): "sltu", (0, 4): "xor", (0, 5): "shr", (32, 5): "sar",
      (0, 6): "or", (0, 7): "and", (1, 0): "imul"}
OP32 = {(0, 0): "add", (32, 0): "sub", (0, 1): "shl", (0, 5): "shr", (32, 5): "sar", (1, 0): "imul"}
BRANCH = {0: "e", 1: "ne", 4: "l", 5: "ge", 6: "b", 7: "ae"}


class Words:
    """Random words by sort, and compressed halfwords, each once in a random order before any again. `share`: how many are of these."""

    def __init__(self, rng):
        self.rng = rng
        ordered = lambda some: itertools.cycle(rng.sample(some, len(some)))
        self.short_straight = ordered([h for h, word in IN_LINE.items() if not halfwords.ends(word)])
        self.short_ending = ordered([h for h, word in IN_LINE.items() if halfwords.ends(word)])
        self.short_others = ordered([h for h in range(1 << 16) if halfwords.size(h) == 2 and h not in IN_LINE])

    def mixed(self, share):
        return next(self.short_straight) if self.rng.random() < share else self.straight()

    def mixed_ending(self, share):
        return next(self.short_ending) if self.rng.random() < share else self.ending()

    def register(self):
        return self.rng.choice((0, 1, 15, 16, 31)) if self.rng.random() < .3 else self.rng.randrange(32)

    def word(self, opcode, funct3, upper):
        return upper << 20 | self.register() << 15 | funct3 << 12 | self.register() << 7 | opcode

    def twelve(self):
        return self.rng.choice((0, 1, 0x7FF, 0x800, 0xFFF)) if self.rng.random() < .3 else self.rng.randrange(4096)

    def rest_of_m(self):
        opcode, funct3 = self.rng.choice(tuple(muldiv.BODIES))
        return self.word(opcode, funct3, 1 << 5 | self.register())

    def straight(self):
        rng = self.rng
        sort = rng.randrange(11)
        if sort > 8:
            return self.rest_of_m()
        if sort == 0:
            return rng.randrange(1 << 20) << 12 | self.register() << 7 | rng.choice((0x37, 0x17))
        if sort in (1, 2):
            return self.word(0x13, rng.choice(tuple(IMM)), self.twelve())
        if sort == 3:
            funct3, six = rng.choice(((1, 0), (5, 0), (5, 0x10)))
            return self.word(0x13, funct3, six << 6 | rng.randrange(64))
        if sort == 4:
            return self.word(0x1B, 0, self.twelve())
        if sort == 5:
            funct3, seven = rng.choice(((1, 0), (5, 0), (5, 32)))
            return self.word(0x1B, funct3, seven << 5 | rng.randrange(32))
        if sort in (6, 7):
            opcode, rows = rng.choice(((0x33, OP), (0x3B, OP32)))
            seven, funct3 = rng.choice(tuple(rows))
            return self.word(opcode, funct3, seven << 5 | self.register())
        return self.word(0x0F, 0, self.twelve())

    def fence_i(self):
        return self.word(0x0F, 1, self.twelve())

    def ending(self):
        rng = self.rng
        sort = rng.randrange(4)
        if sort == 0:
            return rng.randrange(1 << 20) << 12 | self.register() << 7 | 0x6F
        if sort == 1:
            return self.word(0x67, 0, self.twelve())
        if sort == 2:
            return self.fence_i()
        return self.word(0x63, rng.choice(tuple(BRANCH)), rng.randrange(4096))

    def memory(self):
        opcode, most = self.rng.choice(((0x03, 7), (0x23, 4)))
        return self.word(opcode, self.rng.randrange(most), self.twelve())

    def refused(self):
        rng = self.rng
        return rng.choice((
            self.word(0x33, rng.choice((1, 2, 3, 4, 6, 7)), 32 << 5 | self.register()),
            self.word(0x33, rng.randrange(8), rng.randrange(2, 32) << 5 | self.register()),
            self.word(0x3B, rng.choice((2, 3, 4, 6, 7)), self.register()),
            self.word(0x3B, rng.choice((1, 2, 3)), 1 << 5 | self.register()),
            self.word(0x13, 1, rng.randrange(1, 64) << 6 | rng.randrange(64)),
            self.word(0x1B, rng.choice((2, 3, 4, 6, 7)), self.twelve()),
            self.word(0x63, rng.choice((2, 3)), self.twelve()),
            self.word(0x67, rng.randrange(1, 8), self.twelve()),
            self.word(0x0F, rng.randrange(2, 8), self.twelve()),
            self.word(0x03, 7, self.twelve()),
            self.word(0x73, rng.randrange(8), self.twelve()),
            self.word(0x2F, rng.choice((2, 3)), self.twelve()),
        ))


def code_of(instructions):
    """The bytes of words and compressed halfwords."""
    return b"".join(i.to_bytes(halfwords.size(i), "little") for i in instructions)


def instructions_of(code):
    """The words and compressed halfwords of bytes."""
    at = 0
    while at < len(code):
        yield int.from_bytes(code[at:at + halfwords.size(code[at])], "little")
        at += halfwords.size(code[at])


def short_ones(instructions):
    return sum(i in IN_LINE for i in instructions)


def elf(base, data, memory):
    """A RISC-V program as an ELF file: the data at base, and zeros behind it in so much memory."""
    header = struct.pack("<16sHHIQQQIHHHHHH", b"\x7fELF\x02\x01\x01", 2, 243, 1, base, 64, 0, 0, 64, 56, 1, 0, 0, 0)
    segment = struct.pack("<IIQQQQQQ", 1, 7, 0x1000, base, base, len(data), memory, 0x1000)
    return (header + segment).ljust(0x1000, b"\0") + data


def under_qemu(program, file):
    """What a RISC-V program writes under qemu-riscv64, and its exit status."""
    with tempfile.TemporaryDirectory() as folder:
        name = os.path.join(folder, "program")
        with open(name, "wb") as at:
            at.write(file)
        os.chmod(name, 0o700)
        ran = subprocess.run([program, name], stdout=subprocess.PIPE, stderr=subprocess.DEVNULL)
    return ran.stdout, ran.returncode


def translate(code):
    """The block of up to 256 bytes of code at 0x80000000, empty where refused."""
    return subprocess.run([TRANSLATE], input=code, stdout=subprocess.PIPE, check=True).stdout


# How many of a run's instructions are halfwords.
SHARES = (0, .5, 1)

# ---- what objdump is to read

OPENING = ["push rbx", "push rbp", "push r12", "push r13", "push r14", "push r15", "sub rsp,0x8", "mov rbx,rdi", "mov r12,rsi",
           "mov r13,rdx", "mov r14,rcx", "mov r15,r8", "mov rbp,r9"]
CLOSING = ["add rsp,0x8", "pop r15", "pop r14", "pop r13", "pop r12", "pop rbp", "pop rbx", "ret"]


def destination(instruction):
    return IN_LINE.get(instruction, instruction) >> 7 & 31


def signed(value, width):
    value &= (1 << width) - 1
    return value - (1 << width) if value >> (width - 1) else value


def number(value):
    return hex(value & M64)


def load(host, register):
    return f"mov {host},QWORD PTR [rbx+{hex(8 * register)}]"


def store(register, host):
    return [f"mov QWORD PTR [rbx+{hex(8 * register)}],{host}"] if register else []


def upper_immediate(word, pc, _behind):
    """LUI and AUIPC."""
    value = signed(word & 0xFFFFF000, 32) + (pc if word & 0x7F == 0x17 else 0)
    rd = destination(word)
    return ([f"movabs r10,{number(value)}"] + store(rd, "r10") if rd else []), "on"


def jump(word, pc, behind):
    """JAL and JALR."""
    if word & 0x7F == 0x67 and word >> 12 & 7:
        return [], "refused"
    rd = destination(word)
    if word & 0x7F == 0x6F:
        link = [f"movabs r10,{number(behind)}"] + store(rd, "r10") if rd else []
        return link + [f"movabs rax,{number(pc + signed(halfwords.offset_j(word), 21))}"], "ends"
    link = [f"movabs r11,{number(behind)}"] + store(rd, "r11") if rd else []
    target = [load("r10", word >> 15 & 31), f"add r10,{number(signed(word >> 20, 12))}", f"and r10,{number(-2)}"]
    return target + link + ["mov rax,r10"], "ends"


def branch(word, pc, behind):
    text = [load("r10", word >> 15 & 31), load("r11", word >> 20 & 31), "cmp r10,r11"]
    condition = BRANCH.get(word >> 12 & 7)
    if condition is None:
        return text, "refused"
    target = number(pc + signed(halfwords.offset_b(word), 13))
    return text + [f"movabs r11,{number(behind)}", f"movabs rax,{target}", f"cmov{condition} r11,rax", "mov rax,r11"], "ends"


def set_less(condition):
    return [f"set{condition} al", "movzx r10,al"]


def immediate(word, _pc, _behind):
    """OP_IMM and OP_IMM_32."""
    funct3, i, text = word >> 12 & 7, number(signed(word >> 20, 12)), [load("r10", word >> 15 & 31)]
    if word & 0x7F == 0x1B:
        shift = {(1, 0): "shl", (5, 0): "shr", (5, 32): "sar"}.get((funct3, word >> 25))
        if funct3 == 0:
            text += [f"add r10,{i}"]
        elif shift:
            text += [f"{shift} r10d,{hex(word >> 20 & 31)}"]
        else:
            return text, "refused"
        return text + ["movsxd r10,r10d"] + store(destination(word), "r10"), "on"
    shift = {(1, 0): "shl", (5, 0): "shr", (5, 16): "sar"}.get((funct3, word >> 26))
    if funct3 in (2, 3):
        text += [f"cmp r10,{i}"] + set_less("l" if funct3 == 2 else "b")
    elif funct3 in IMM:
        text += [f"{IMM[funct3]} r10,{i}"]
    elif shift:
        text += [f"{shift} r10,{hex(word >> 20 & 63)}"]
    else:
        return text, "refused"
    return text + store(destination(word), "r10"), "on"


def registers(word, _pc, _behind):
    """OP and OP_32."""
    wide = word & 0x7F == 0x33
    text = [load("r10", word >> 15 & 31), load("r11", word >> 20 & 31)]
    result = store(destination(word), "r10")
    if muldiv.key(word):
        return text + muldiv.instructions(muldiv.key(word)) + result, "on"
    name = (OP if wide else OP32).get((word >> 25, word >> 12 & 7))
    if name is None:
        return text, "refused"
    a, b = ("r10", "r11") if wide else ("r10d", "r11d")
    if name in ("shl", "shr", "sar"):
        text += ["mov rcx,r11"] + ([] if wide else ["and rcx,0x1f"]) + [f"{name} {a},cl"]
    elif name in ("slt", "sltu"):
        text += ["cmp r10,r11"] + set_less("l" if name == "slt" else "b")
    else:
        text += [f"{name} {a},{b}"]
    return text + ([] if wide else ["movsxd r10,r10d"]) + result, "on"


FAMILIES = {0x37: upper_immediate, 0x17: upper_immediate, 0x6F: jump, 0x67: jump, 0x63: branch, 0x13: immediate, 0x1B: immediate,
            0x33: registers, 0x3B: registers}


def host_instructions(word, pc, behind):
    """The host instructions of a word, of which another stands behind at that address, and 'on', 'ends' (RAX is set by them), 'stops' (by
    the block's end), 'helper' or 'refused'."""
    opcode, funct3 = word & 0x7F, word >> 12 & 7
    if opcode in FAMILIES:
        return FAMILIES[opcode](word, pc, behind)
    if opcode == 0x0F and funct3 < 2:
        return [], "stops" if funct3 == 1 else "on"
    if opcode == 0x03 and funct3 < 7 or opcode == 0x23 and funct3 < 4:
        return [], "helper"
    return [], "refused"


def helper_end(instruction, pc, earlier):
    return (["mov rdi,r12", "mov rsi,r13", "mov rdx,r14", f"movabs rcx,{number(instruction)}", f"movabs r8,{number(pc)}", "movabs rax,0x0",
             "call rax"] + ([f"add rdx,{hex(earlier)}"] if earlier else []) + CLOSING)


def expected(code):
    """The instructions of a block, or nothing where the first word is refused."""
    text, pc, count, at, rax = list(OPENING), START, 0, 0, False
    while count < 64 and at + 2 <= len(code):
        low = struct.unpack_from("<H", code, at)[0]
        size = halfwords.size(low)
        if size == 2 and low not in IN_LINE:
            return text + helper_end(low, pc, count)
        if at + size > len(code):
            break
        word = IN_LINE[low] if size == 2 else struct.unpack_from("<I", code, at)[0]
        more, flow = host_instructions(word, pc, pc + size)
        text += more
        if flow == "helper":
            return text + helper_end(word, pc, count)
        if flow == "refused":
            break
        pc, at, count = pc + size, at + size, count + 1
        if flow in ("ends", "stops"):
            rax = flow == "ends"
            break
    if count == 0:
        return []
    return text + ([] if rax else [f"movabs rax,{number(pc)}"]) + [f"movabs rdx,{hex(count)}"] + CLOSING


def disassembled(data):
    """Place, length and text of each instruction, as objdump reads them; jumps relative."""
    with tempfile.NamedTemporaryFile() as file:
        file.write(data)
        file.flush()
        output = subprocess.run(["objdump", "-D", "-z", "-w", "-b", "binary", "-m", "i386:x86-64", "-M", "intel", file.name],
                                stdout=subprocess.PIPE, check=True, text=True).stdout
    result = []
    for line in output.splitlines():
        match = re.match(r"\s*([0-9a-f]+):\t((?:[0-9a-f]{2} )+)\s*\t?(.*)$", line)
        if match:
            place, length = int(match[1], 16), len(match[2].split())
            result.append((place, length, relative(" ".join(match[3].split()), place + length)))
    return result


def relative(text, behind):
    """A jump's text with the number of bytes that it skips in the place of its target; others as they are."""
    match = re.fullmatch(r"(j\w+) 0x([0-9a-f]+)", text)
    return f"{match[1]} {int(match[2], 16) - behind:+}" if match else text


def run_for_objdump(words):
    rng = words.rng
    share, end = rng.choice(SHARES), rng.randrange(8)
    if end == 0:
        return code_of(next(words.short_straight) for _ in range(rng.randrange(65, 128)))
    run = [words.mixed(share) for _ in range(rng.choice((0, 1, 1, 2, 4, 16, 63, 64)))]
    if end == 1:
        return code_of(run[:63] + [words.mixed_ending(share)])
    if end == 2:
        return code_of(run[:63] + [words.memory()])
    if end == 3:
        return code_of(run[:63] + [words.refused()])
    if end == 4:
        return code_of(run[:63] + [next(words.short_others)])
    if end == 5:
        return code_of(run[:62] + [words.fence_i(), words.mixed(share)])
    if end == 6:
        return code_of(run[:63]) + struct.pack("<H", 0x0093)
    return code_of(run)


def check_objdump(words, number_of_runs, spoil):
    blocks, data, refused = [], bytearray(), 0
    for code in (run_for_objdump(words) for _ in range(number_of_runs)):
        block = translate(code)
        want = expected(code)
        demand(bool(block) == bool(want), "refused or not:", code.hex())
        if block:
            blocks.append((code, len(data), len(block), want))
            data += block
        else:
            refused += 1
    if spoil and blocks:
        _, at, length, _ = blocks[len(blocks) // 2]
        data[at + length // 2] ^= 1
    by_place = {place: (length, text) for place, length, text in disassembled(bytes(data))} if blocks else {}
    instructions = rest = short = 0
    for code, at, length, want in blocks:
        place, texts = at, []
        while place < at + length:
            demand(place in by_place, f"no instruction begins at {place - at} of the block of {code.hex()}")
            size, text = by_place[place]
            demand("(bad)" not in text, f"bad instruction at {place - at} of the block of {code.hex()}")
            texts.append(text)
            place += size
        demand(place == at + length, "the last instruction goes beyond the block of", code.hex())
        for k, (is_text, want_text) in enumerate(zip(texts, want)):
            demand(is_text == want_text, f"instruction {k} of the block of {code.hex()}: {is_text}, not {want_text}")
        demand(len(texts) == len(want), "number of instructions of the block of", code.hex())
        instructions += len(texts)
        rest += sum(bool(re.fullmatch(r"(mul|imul|div|idiv) \w+", text)) for text in texts)
        short += short_ones(instructions_of(code))
    print(f"objdump: {len(blocks)} blocks, {len(data)} bytes, {instructions} instructions as expected, {rest} words of the rest of M among "
          f"them; {short} compressed halfwords in line in their runs; {refused} runs refused")


# ---- blocks entered on this processor

class Result(ctypes.Structure):
    _fields_ = [("pc", ctypes.c_uint64), ("count", ctypes.c_uint64)]


class Processor:
    def __init__(self):
        self.memory = mmap.mmap(-1, 8192, prot=mmap.PROT_READ | mmap.PROT_WRITE | mmap.PROT_EXEC)
        self.held = ctypes.c_char.from_buffer(self.memory)
        kind = ctypes.CFUNCTYPE(Result, ctypes.c_void_p, *[ctypes.c_uint64] * 5)
        self.enter = kind(ctypes.addressof(self.held))

    def run(self, block, registers):
        """Registers, pc and count after the block. It must have no helper end: the program's helpers are 0."""
        self.memory[:len(block)] = block
        slots = (ctypes.c_uint64 * 32)(*registers)
        result = self.enter(ctypes.addressof(slots), 1, 2, 3, 4, 5)
        return list(slots), result.pc, result.count


class Qemu:
    """A RISC-V program under qemu-riscv64, led over its debugger's port: a page for the code, a page with a loop that copies, and a page
    to copy from. qemu lets the debugger write no page that it has translated code from, but it lets the program do so."""

    COPY, FROM = START + 0x1000, START + 0x2000
    LOOP = [
        0x00033283,  # LD x5, 0(x6)
        0x0053B023,  # SD x5, 0(x7)
        0x00830313,  # ADDI x6, x6, 8
        0x00838393,  # ADDI x7, x7, 8
        0xFFC318E3,  # BNE x6, x28, -16
        0x00100073,  # EBREAK
    ]

    def __init__(self, program):
        self.folder = tempfile.TemporaryDirectory()
        name = os.path.join(self.folder.name, "pages")
        pages = bytes(0x1000) + code_of(self.LOOP).ljust(0x1000, b"\0") + bytes(0x1000)
        with open(name, "wb") as file:
            file.write(elf(START, pages, len(pages)))
        os.chmod(name, 0o700)
        with socket.socket() as probe:
            probe.bind(("127.0.0.1", 0))
            port = probe.getsockname()[1]
        self.process = subprocess.Popen([program, "-g", str(port), name], stdin=subprocess.DEVNULL)
        self.socket = self.connect(port)
        self.socket.setsockopt(socket.IPPROTO_TCP, socket.TCP_NODELAY, 1)
        self.buffer = b""
        self.ask("?")

    def connect(self, port):
        for _ in range(200):
            try:
                return socket.create_connection(("127.0.0.1", port), 30)
            except ConnectionRefusedError:
                if self.process.poll() is not None:
                    raise RuntimeError("qemu ended")
                time.sleep(.05)
        raise RuntimeError("qemu does not listen")

    def ask(self, command):
        data = command.encode()
        self.socket.sendall(b"$%s#%02x" % (data, sum(data) & 255))
        while True:
            match = re.search(rb"\$([^#]*)#..", self.buffer)
            if match:
                self.buffer = self.buffer[match.end():]
                self.socket.sendall(b"+")
                return match[1].decode()
            more = self.socket.recv(65536)
            if not more:
                raise RuntimeError("qemu closed the connection")
            self.buffer += more

    def set(self, registers, pc):
        demand(self.ask("G" + struct.pack("<33Q", *registers, pc).hex()) == "OK", "qemu does not take the registers")

    def run(self, instructions, registers, count, start=START):
        """Registers and pc after so many single steps through the instructions, which stand at the start."""
        code = bytes(start - START) + code_of(instructions)
        code += bytes(-len(code) % 8)
        demand(self.ask(f"M{self.FROM:x},{len(code):x}:{code.hex()}") == "OK", "qemu does not take the code")
        copying = [0] * 32
        copying[6], copying[7], copying[28] = self.FROM, START, self.FROM + len(code)
        self.set(copying, self.COPY)
        demand(self.ask("c").startswith("T05"), "qemu did not copy the code")
        self.set(registers, start)
        for _ in range(count):
            reply = self.ask("s")
            demand(reply.startswith("T05"), "qemu did not step:", reply, code.hex())
        numbers = struct.unpack_from("<33Q", bytes.fromhex(self.ask("g")))
        return list(numbers[:32]), numbers[32]

    def close(self):
        self.socket.close()
        self.process.kill()
        self.process.wait()
        self.folder.cleanup()


class Replay:
    """The program replay, which translates at any start."""

    def __init__(self):
        self.process = subprocess.Popen([REPLAY], stdin=subprocess.PIPE, stdout=subprocess.PIPE, text=True)

    def translate(self, start, run):
        """The block of these instructions at the start."""
        text = ",".join(f"{halfword:04x}" for (halfword,) in struct.iter_unpack("<H", code_of(run)))
        self.process.stdin.write(f"T {start:x} 64 0 0 4099 {text}\n")
        self.process.stdin.flush()
        reply = self.process.stdout.readline().split()
        demand(reply[0] == "block" and len(reply) == 5, "reply", *reply)
        demand(int(reply[4]) == len(code_of(run[:int(reply[2])])), "span", *reply)
        return bytes.fromhex(reply[3])

    def close(self):
        self.process.stdin.close()
        self.process.stdout.close()
        self.process.wait()


CORNERS = tuple(value & M64 for value in (
    0, 1, 2, 3, 7, -1, -2, -3, -7, 31, 32, 63, 64, (1 << 31) - 1, 1 << 31, (1 << 31) + 1, -(1 << 31), -(1 << 31) - 1, (1 << 32) - 1,
    1 << 32, (1 << 32) + 1, -(1 << 32), (1 << 62) - 1, (1 << 63) - 1, 1 << 63, (1 << 63) + 1))


def value(rng):
    """A corner, one of 32 bits with anything above it, or anything."""
    sort = rng.random()
    if sort < .35:
        return rng.choice(CORNERS)
    if sort < .5:
        return rng.choice(CORNERS) & 0xFFFFFFFF | rng.getrandbits(32) << 32
    return rng.getrandbits(64) >> rng.choice((0, 0, 1, 16, 32, 33, 48))


def values(rng):
    return [0] + [value(rng) for _ in range(31)]


def run_for_qemu(words):
    share = words.rng.choice(SHARES)
    run = [words.mixed(share) for _ in range(words.rng.choice((1, 1, 2, 3, 8, 20, 64)))]
    return run[:63] + [words.mixed_ending(share)] if words.rng.random() < .6 else run


def check_qemu(program, words, number_of_runs, spoil):
    rng = words.rng
    processor, qemu, replay = Processor(), Qemu(program), Replay()
    steps = rest = 0
    short = set()
    try:
        for k in range(number_of_runs):
            run, start = run_for_qemu(words), START + rng.choice((0, 2))
            registers = values(rng)
            spoiled = spoil and k == number_of_runs // 2
            if spoiled:
                run = [0x6F85]  # C.LUI x31, 1
            block = replay.translate(start, run)
            slots, pc, count = processor.run(block, registers)
            demand(count == len(run), "count", count, "of", code_of(run).hex())
            led = [0x6F89] if spoiled else run
            after, at = qemu.run(led, registers, count, start)
            others = [(i, hex(a), hex(b)) for i, (a, b) in enumerate(zip(slots, after)) if a != b]
            demand(not others, "registers after", hex(start), code_of(run).hex(), others)
            demand(pc == at, "pc after", hex(start), code_of(run).hex(), hex(pc), hex(at))
            steps += count
            rest += sum(bool(muldiv.key(word)) for word in run)
            short.update(i for i in run if i in IN_LINE)
    finally:
        replay.close()
        qemu.close()
    print(f"qemu: {number_of_runs} blocks, {steps} single steps, {rest} of them words of the rest of M, {len(short)} different compressed "
          "halfwords; registers and pc the same")


# ---- code that changes

ADDRESS, STORED, LEFT = 5, 6, 7  # registers: the code's address, the word that is stored, how many rounds are left
KEPT_REGISTERS = (ADDRESS, STORED, LEFT)


def is_store(word):
    return word & 0x7F == 0x23


def store_word(offset):
    """SW of STORED to ADDRESS + offset."""
    return (offset >> 5) << 25 | STORED << 20 | ADDRESS << 15 | 2 << 12 | (offset & 31) << 7 | 0x23


def store_offset(word):
    return word >> 25 << 5 | word >> 7 & 31


def bne_back(rs1, rs2, length):
    """BNE over so many bytes back."""
    return halfwords.with_offset_b(rs2 << 20 | rs1 << 15 | 1 << 12 | 0x63, -length)


def changing_loop(words, spoil):
    """A loop, and the four bytes that it stores over four of its own. These stand in front of the store or behind the FENCE.I: between
    them the manual leaves open which of the two are fetched. All but a first halfword, if there is one, is in fours."""
    rng = words.rng

    def straight(share):
        while True:
            instruction = words.mixed(share)
            if destination(instruction) not in KEPT_REGISTERS:
                return instruction

    def four():
        return [straight(1), straight(1)] if rng.random() < .5 else [straight(0)]

    first = [straight(1)] if rng.random() < .5 else []
    front, between, behind = ([four() for _ in range(rng.randrange(least, 8))] for least in (1, 0, 1))
    new = four()
    if spoil:
        front, between, behind, new = [[0x5A5A5FB7]], [], [], [0x12345FB7]  # LUI x31
    first_behind = len(front) + 1 + len(between) + 1
    changed = rng.choice([*range(len(front)), *range(first_behind, first_behind + len(behind))])
    offset = len(code_of(first)) + 4 * changed
    loop = first + sum(front + [[store_word(offset)]] + between + [[words.fence_i()]] + behind, [])
    loop.append(0xFFF38393)  # ADDI x7, x7, -1
    return loop + [bne_back(LEFT, 0, len(code_of(loop)))], int.from_bytes(code_of(new), "little")


def run_by_blocks(replay, processor, loop, registers, drops):
    """Registers, pc, steps and entries of a loop run to its end. Blocks are kept by pc; `drops`: none is kept behind a FENCE.I."""
    code, kept = bytearray(code_of(loop)), {}
    pc, steps, entries = START, 0, 0
    while START <= pc < START + len(code):
        rest = list(instructions_of(code[pc - START:]))
        if is_store(rest[0]):
            at = registers[ADDRESS] + store_offset(rest[0]) - START
            code[at:at + 4] = registers[STORED].to_bytes(4, "little")
            pc, steps = pc + 4, steps + 1
            continue
        if pc not in kept:
            until = next((k for k, i in enumerate(rest) if is_store(i)), len(rest))
            kept[pc] = replay.translate(pc, rest[:until])
        registers, pc, count = processor.run(kept[pc], registers)
        steps, entries = steps + count, entries + 1
        if drops and is_fence_i(rest[count - 1]):
            kept.clear()
    return registers, pc, steps, entries


def check_changed_code(program, words, number_of_programs, spoil):
    rng = words.rng
    processor, qemu, replay = Processor(), Qemu(program), Replay()
    steps = entries = short = 0
    try:
        for k in range(number_of_programs):
            spoiled = spoil and k == number_of_programs // 2
            loop, new = changing_loop(words, spoiled)
            registers = values(rng)
            registers[ADDRESS], registers[STORED], registers[LEFT] = START, new, rng.randrange(2, 4)
            after, pc, more, entered = run_by_blocks(replay, processor, loop, registers, not spoiled)
            led, at = qemu.run(loop, registers, more)
            others = [(i, hex(a), hex(b)) for i, (a, b) in enumerate(zip(after, led)) if a != b]
            demand(not others, "registers after", code_of(loop).hex(), hex(new), others)
            demand(pc == at, "pc after", code_of(loop).hex(), hex(new), hex(pc), hex(at))
            steps, entries, short = steps + more, entries + entered, short + short_ones(loop)
    finally:
        replay.close()
        qemu.close()
    print(f"changed code: {number_of_programs} programs with {short} compressed halfwords, {entries} entries of blocks, {steps} single steps, "
          "registers and pc the same")


# ---- pairs of operands for the words of M

# MUL and MULW, then the rest; their funct7 is 1.
M = ((muldiv.OP, 0), (muldiv.OP_32, 0), *muldiv.BODIES)
NAMES = ("MUL", "MULW", *(name for name, _ in muldiv.BODIES.values()))


def m_word(row, rd, rs1, rs2):
    opcode, funct3 = row
    return 1 << 25 | rs2 << 20 | rs1 << 15 | funct3 << 12 | rd << 7 | opcode


def lui_addi(rd, value):
    """A number below 2^31 in two words."""
    upper = value + 0x800 >> 12
    return [upper << 12 | rd << 7 | 0x37, (value - (upper << 12) & 0xFFF) << 20 | rd << 15 | rd << 7 | 0x13]


def addi(rd, rs1, i):
    return (i & 0xFFF) << 20 | rs1 << 15 | rd << 7 | 0x13


def store_double(rs2, offset, rs1):
    return offset >> 5 << 25 | rs2 << 20 | rs1 << 15 | 3 << 12 | (offset & 31) << 7 | 0x23


def program_of_pairs(pairs):
    """A RISC-V program, as an ELF file: all words of M of each pair, written to standard output."""
    base, code_size = 0x10000, 0x1000
    at_pairs, ecall = base + code_size, 0x00000073
    at_results = at_pairs + 16 * len(pairs)
    length = 8 * len(M) * len(pairs)
    # x5, x7: the pair and its results; x6: the pairs' end; x11, x12: the operands
    code = lui_addi(5, at_pairs) + lui_addi(6, at_results) + lui_addi(7, at_results)
    loop = [0x0002B583, 0x0082B603]  # LD x11, 0(x5); LD x12, 8(x5)
    for k, row in enumerate(M):
        loop += [m_word(row, 13, 11, 12), store_double(13, 8 * k, 7)]
    loop += [addi(5, 5, 16), addi(7, 7, 8 * len(M))]
    code += loop + [bne_back(5, 6, len(code_of(loop)))]
    # write(1, results, length) until nothing is left, then exit(0)
    code += lui_addi(8, at_results) + lui_addi(9, length)
    write = [addi(17, 0, 64), addi(10, 0, 1), addi(11, 8, 0), addi(12, 9, 0), ecall, 0x00A40433, 0x40A484B3]  # x8 += x10; x9 -= x10
    code += write + [bne_back(9, 0, len(code_of(write))), addi(17, 0, 93), addi(10, 0, 0), ecall]
    data = code_of(code).ljust(code_size, b"\0") + b"".join(struct.pack("<QQ", *pair) for pair in pairs)
    return elf(base, data, len(data) + length)


def results_by_qemu(program, pairs):
    data, status = under_qemu(program, program_of_pairs(pairs))
    if status:
        sys.exit(f"qemu ended with {status}")
    demand(len(data) == 8 * len(M) * len(pairs), "qemu wrote", len(data), "bytes")
    return list(struct.iter_unpack(f"<{len(M)}Q", data))


def pairs_of_operands(rng, number_of_pairs):
    corners = list(CORNERS)
    corners += [corner & 0xFFFFFFFF | rng.getrandbits(32) << 32 for corner in CORNERS]
    corners += [corner ^ M64 << 32 & M64 for corner in CORNERS]
    pairs = [(a, b) for a in corners for b in corners]
    return pairs + [(value(rng), value(rng)) for _ in range(number_of_pairs)]


def check_pairs(program, rng, number_of_pairs, spoil):
    pairs = pairs_of_operands(rng, number_of_pairs)
    run = [m_word(row, 5 + k, 1, 2) for k, row in enumerate(M)]
    if spoil:
        run[M.index((muldiv.OP, 4))] ^= 1 << 12  # DIVU for DIV
    processor = Processor()
    block = translate(code_of(run))
    processor.memory[:len(block)] = block
    slots = (ctypes.c_uint64 * 32)()
    at = ctypes.addressof(slots)
    for (a, b), want in zip(pairs, results_by_qemu(program, pairs)):
        slots[1], slots[2] = a, b
        result = processor.enter(at, 1, 2, 3, 4, 5)
        found = tuple(slots[5:5 + len(M)])
        demand(result.count == len(M) and (slots[0], slots[1], slots[2]) == (0, a, b), "count or operands of", hex(a), hex(b))
        if found != want:
            others = [(name, hex(x), hex(y)) for name, x, y in zip(NAMES, found, want) if x != y]
            demand(False, "operands", hex(a), hex(b), "block and qemu:", others)
    divided = sum(b in (0, M64) or b & 0xFFFFFFFF in (0, 0xFFFFFFFF) for _, b in pairs)
    print(f"pairs: {len(pairs)} pairs of operands, {divided} of them with a divisor of 0 or -1 at some width; {len(M)} words of M each, "
          f"{len(M) * len(pairs)} results the same")


# ---- JALR's opcode with each funct3

def program_of_jump(word):
    """A RISC-V program, as an ELF file: the word, whose rs1 is not x0, and 0 as exit status where it jumps to rs1 + imm; 1 behind it."""
    base, ecall = 0x10000, 0x00000073
    leave = lambda status: [addi(17, 0, 93), addi(10, 0, status), ecall]
    at_target = base + 0x100
    code = lui_addi(word >> 15 & 31, at_target - signed(word >> 20, 12)) + [word] + leave(1)
    return elf(base, code_of(code).ljust(at_target - base, b"\0") + code_of(leave(0)), 0x1000)


def check_jumps(program, words, number_of_jumps, spoil):
    front = [0x00500093]  # ADDI x1, x0, 5
    alone = translate(code_of(front))
    counts = {True: 0, False: 0}
    for k in range(number_of_jumps):
        word = words.word(0x67, k % 8, words.twelve())
        if not word >> 15 & 31:
            word |= 1 << 15
        executed = word
        if spoil and k == number_of_jumps // 2:
            executed = word & ~(7 << 12) if k % 8 else word | 1 << 12
        _, status = under_qemu(program, program_of_jump(executed))
        if status not in (0, -signal.SIGILL):
            sys.exit(f"qemu ended with {status} at {executed:#x}")
        jumps = status == 0
        demand(bool(translate(code_of([word]))) == jumps, "refused or not:", hex(word))
        demand((translate(code_of(front + [word])) != alone) == jumps, "bytes of it or not:", hex(word))
        counts[jumps] += 1
    print(f"jumps: {counts[True]} words jump under qemu and are translated; {counts[False]} are illegal there, are not taken here, and leave no byte")


def number_of_runs(text):
    number = int(text)
    if number < 0:
        raise argparse.ArgumentTypeError(f"{number} is less than 0")
    return number


def skipped(name, why):
    print(f"{name}: skipped, {why}")


def parts(options):
    """Name and check of each part that can be run; what is skipped is said."""
    found = []
    if options.blocks == 0:
        skipped("objdump", "no run is asked for")
    elif not shutil.which("objdump"):
        skipped("objdump", "it is not installed (Debian: binutils)")
    else:
        found.append(("objdump", lambda: check_objdump(Words(random.Random(options.seed)), options.blocks, options.spoil)))
    qemu = os.environ.get("QEMU_RISCV64") or shutil.which("qemu-riscv64")
    here = (platform.system(), platform.machine()) == ("Linux", "x86_64")
    missing = None if qemu else "qemu-riscv64 is not installed (Debian: qemu-user)"
    missing = missing if here else "blocks can be entered on x86-64 Linux only"
    no_replay = None if os.access(REPLAY, os.X_OK) else "crates/replay/out/replay is not there: `rt run < stdin` in crates/replay builds it"
    if options.runs == 0 or missing or no_replay:
        skipped("qemu", missing or no_replay or "no run is asked for")
    else:
        found.append(("qemu", lambda: check_qemu(qemu, Words(random.Random(options.seed + 1)), options.runs, options.spoil)))
    if options.programs == 0 or missing or no_replay:
        skipped("changed code", missing or no_replay or "no program is asked for")
    else:
        words = Words(random.Random(options.seed + 2))
        found.append(("changed code", lambda: check_changed_code(qemu, words, options.programs, options.spoil)))
    if options.pairs == 0 or missing:
        skipped("pairs", missing or "none is asked for")
    else:
        found.append(("pairs", lambda: check_pairs(qemu, random.Random(options.seed + 3), options.pairs, options.spoil)))
    if options.jumps == 0 or missing:
        skipped("jumps", missing or "none is asked for")
    else:
        found.append(("jumps", lambda: check_jumps(qemu, Words(random.Random(options.seed + 4)), options.jumps, options.spoil)))
    return found


def main():
    parser = argparse.ArgumentParser(description=__doc__, formatter_class=argparse.RawDescriptionHelpFormatter)
    parser.add_argument("--seed", type=int, default=1)
    parser.add_argument("--blocks", type=number_of_runs, default=1000, help="runs for objdump")
    parser.add_argument("--runs", type=number_of_runs, default=1000, help="runs for qemu")
    parser.add_argument("--programs", type=number_of_runs, default=200, help="loops that change their code, for qemu")
    parser.add_argument("--pairs", type=number_of_runs, default=100000, help="random pairs of operands for M, besides the corners")
    parser.add_argument("--jumps", type=number_of_runs, default=400, help="words of JALR's opcode, for qemu")
    parser.add_argument("--spoil", action="store_true", help="change one thing in each part, which must be noticed")
    options = parser.parse_args()
    if not os.access(TRANSLATE, os.X_OK):
        print("crates/translate/out/translate is not there: `rt run < stdin` in crates/translate builds it")
        return 2
    asked = parts(options)
    wrong = 0
    for name, part in asked:
        try:
            part()
            if options.spoil:
                wrong += 1
                print(f"{name}: the change was NOT NOTICED")
        except Disagreement as disagreement:
            if options.spoil:
                print(f"{name}: the change was noticed: {disagreement}")
            else:
                wrong += 1
                print(f"{name}: DISAGREES: {disagreement}")
    if not asked:
        return 2
    return 1 if wrong else 0


if __name__ == "__main__":
    sys.exit(main())
