#!/usr/bin/env python3
"""The replies that replay has to give, asked of the original Rust. Not part of the gate.

    checks/replies.py ORACLE              compares crates/replay/stdout with what the original says
    checks/replies.py ORACLE --write      writes it
    checks/replies.py ORACLE --changes    prints docs/changes/Q-7-replies.txt: the replies that request Q-7 changed

ORACLE is a program over the original Rust that answers the request lines of crates/replay/stdin on its standard input, a line each; it
is not in this repository. (`cargo test` in rust/, module `linked`, compares the same replies with rust/original, which is.) Needs GNU as
and objcopy (binutils). Nothing of this repository's code is asked or read.

FENCE.I (Q-1) ends its block here, and in the original the block goes on behind it. So the original is asked for the run cut behind its
first FENCE.I: it finds no further halfword there and ends its block. Where the block ends before that word, nothing that is cut off is
looked at, and the reply is that of the whole run.

The rest of M (Q-2) the original does not take. So it is asked for the run with ADD of the same registers in the place of each of these
eleven words, a straight word with the same two loads and the same store. Its reply says everything but what stands between loads and
store; there it has the three bytes of ADD R10, R11, which are replaced by the word's body: muldiv.py's text, made bytes by GNU as. Where in
a block they stand, the original says too: a word begins where the block of the words before it, asked for by itself, has its end.

JALR with funct3 1 to 7 (Q-6), which the manual reserves, the original takes as JALR. So it is asked for the run with ECALL in the place of
each of these words: that it does not take, and has no byte of it. Its reply says everything but, in number 4, the word itself.

A compressed halfword that is translated in line (Q-7) the original leaves to a helper. So it is asked for the run with the word in its place
that GNU binutils expand it to (halfwords.py). Such a run is longer, and is begun so many bytes earlier that the block's last instruction ends
where it ends in the line's run. So the next pc, a helper's pc, a jump's link and what a branch falls through to are right. The word for a
halfword that jumps or branches begins two bytes before the halfword's place, and its offset is two more: so its target is right too. How
many instructions the block has the original says beforehand, asked for the same run at the line's start. AUIPC with a halfword behind it in
its block stands elsewhere than in the line's run: the difference is added to its constant.

How many bytes a block spans (Q-5) the original does not say. Its reply says how many instructions the block has, and the run's halfwords how
long each is, by the manual's "Base Instruction-Length Encoding".

Number 5, which the original has not, goes by 4,099 bytes.

Lines to the index of blocks (Q-4, Q-5), in whose place the original has a map, are answered by index.py.

Lines that are no request are not asked: replay answers them by itself.
"""
import os
import re
import subprocess
import sys

import halfwords
import index
import muldiv

ROOT = os.path.dirname(os.path.dirname(os.path.abspath(__file__)))
REPLAY = os.path.join(ROOT, "crates", "replay")
BAD = "bad request"

HEX = "[0-9a-fA-F]{1,16}"
TRANSLATION = re.compile(rf"T {HEX} (\d+) {HEX} {HEX} (\d+) (?:-|[0-9a-fA-F]{{4}}(?:,[0-9a-fA-F]{{4}})*)")
PLACING = re.compile(r"P (\d+) (\d+) (\d+)")
DECODING = re.compile(r"D [0-9a-fA-F]{1,8}")
# The greatest line, the greatest length of lent bytes, and the longest run that replay takes.
LINE, LENT, RUN = 8192, 65536, 2048
# The greatest length of a block. Bytes of a block's opening, of its end (RAX, RDX, closing), of two loads; ADD R10, R11, and what stands in
# MOV R10 before its constant.
GREATEST = 4099
OPENING, END, LOADS = 32, 35, 14
ADD, MOV_R10 = bytes.fromhex("4d01da"), bytes.fromhex("49ba")
# Lines of stdin that came with Q-7.
NEW = range(3676, 3866)
# The word that stands in for a reserved JALR.
ECALL = 0x00000073


def is_request(line):
    if len(line) > LINE:
        return False
    if match := TRANSLATION.fullmatch(line):
        return int(match[1]) < 1 << 32 and int(match[2]) <= LENT and line.count(",") < RUN
    if match := PLACING.fullmatch(line):
        return int(match[1]) < 1 << 64 and int(match[2]) <= LENT and int(match[3]) <= LENT
    return bool(DECODING.fullmatch(line))


def is_fence_i(word):
    return word & 0x7F == 0x0F and word >> 12 & 7 == 1


def is_reserved_jalr(word):
    return word & 0x7F == 0x67 and word >> 12 & 7 != 0


def is_auipc(word):
    """One that has a constant: not to x0."""
    return word & 0x7F == 0x17 and word >> 7 & 31 != 0


def instructions(run, in_line):
    """The halfwords and the word of each instruction of a run. The word is none for a helper's halfword and where the upper half is missing;
    behind such a one nothing is looked at, and nothing behind FENCE.I."""
    at, word = 0, 0
    while at < len(run) and word is not None and not is_fence_i(word):
        piece = run[at:at + halfwords.size(run[at]) // 2]
        word = piece[1] << 16 | piece[0] if len(piece) == 2 else in_line.get(piece[0])
        yield piece, word
        at += len(piece)


def for_word(word):
    """ADD with rd, rs1 and rs2 of a word, for one of the eleven; ECALL for a reserved JALR; the word itself for all others."""
    if muldiv.key(word):
        return word & 0x01FF8F80 | muldiv.OP
    return ECALL if is_reserved_jalr(word) else word


def for_halfword(word):
    """The word of a halfword in line, two bytes before its place: the offset of a jump or branch is two more."""
    if word & 0x7F == halfwords.BRANCH:
        return halfwords.with_offset_b(word, halfwords.offset_b(word) + 2)
    if word & 0x7F == halfwords.JAL:
        return halfwords.with_offset_j(word, halfwords.offset_j(word) + 2)
    return word


def stand_in(piece, word):
    """The halfwords that the original is asked for in the place of an instruction."""
    if word is None:
        return piece
    word = for_word(word) if len(piece) == 2 else for_halfword(word)
    return [word & 0xFFFF, word >> 16]


def length(pieces):
    return 2 * sum(map(len, pieces))


class Translation:
    """A T line: its fields, the instructions of its run and their words, and what stands in for them."""

    def __init__(self, line, in_line):
        _, start, self.limit, self.helper16, self.helper_mem, output, run = line.split(" ")
        self.start, self.output = int(start, 16), int(output)
        read = list(instructions([] if run == "-" else [int(field, 16) for field in run.split(",")], in_line))
        self.pieces, self.words = [piece for piece, _ in read], [word for _, word in read]
        self.stand_ins = [stand_in(piece, word) for piece, word in read]

    def longer(self, count):
        """By how many bytes the stand-ins for the first instructions are longer than these."""
        return length(self.stand_ins[:count]) - length(self.pieces[:count])

    def of_block(self, count):
        """The request for a block that has so many instructions."""
        return self.request(self.start - self.longer(count), self.limit, self.stand_ins)

    def front(self, count):
        """The request for the first instructions alone; none for none."""
        return self.request(self.start, count, self.stand_ins[:count]) if count else None

    def request(self, start, limit, pieces):
        """By an output that is long enough for the original's blocks; number 5 is this side's."""
        text = ",".join(f"{halfword:04x}" for piece in pieces for halfword in piece) or "-"
        return f"T {start % (1 << 64):x} {limit} {self.helper16} {self.helper_mem} {LENT} {text}"

    def changes(self, count):
        """What has other bytes in a block of so many instructions than its stand-in: the request whose block ends where it begins, and its
        row, or what is added to its constant."""
        for index, word in enumerate(self.words[:count]):
            if word is None:
                return
            if muldiv.key(word):
                yield self.front(index), muldiv.key(word)
            elif is_auipc(word) and self.longer(count) != self.longer(index):
                yield self.front(index), self.longer(count) - self.longer(index)


def answered(oracle, requests):
    text = "".join(request + "\n" for request in requests)
    replies = subprocess.run([oracle], input=text, stdout=subprocess.PIPE, check=True, text=True).stdout.splitlines()
    if len(replies) != len(requests):
        sys.exit(f"{len(requests)} requests, but {len(replies)} replies")
    return replies


def counted(reply):
    return int(reply.split(" ")[2]) if reply.startswith("block") else 0


def fronts(data, change, bodies):
    """What the bytes of a stand-in begin with, and what those of the instruction begin with."""
    if isinstance(change, int):
        constant = data[len(MOV_R10):][:8]
        changed = (int.from_bytes(constant, "little") + change) % (1 << 64)
        return MOV_R10 + constant, MOV_R10 + changed.to_bytes(8, "little")
    return data[:LOADS] + ADD, data[:LOADS] + bodies[change]


def with_changes(reply, changes, bodies):
    """A block with stand-ins, given where they begin and what changes: what it is without them."""
    data, put, copied = bytes.fromhex(reply.split(" ")[3]), b"", 0
    for at, change in changes:
        old, new = fronts(data[at:], change, bodies)
        if not data.startswith(old, at):
            sys.exit(f"no stand-in at {at} of {reply}")
        put += data[copied:at] + new
        copied = at + len(old)
    put += data[copied:]
    return f"block {len(put)} {counted(reply)} {put.hex()}"


def translations(oracle, lines, in_line):
    """The replies to translations' lines, these halfwords being in line."""
    asked = [Translation(line, in_line) for line in lines]
    counts = [counted(reply) for reply in answered(oracle, [t.of_block(0) for t in asked])]
    stood_in = answered(oracle, [t.of_block(count) for t, count in zip(asked, counts)])
    changes = [list(t.changes(count)) for t, count in zip(asked, counts)]
    requests = [request for some in changes for request, _ in some if request]
    lengths = iter([int(reply.split(" ")[1]) - END for reply in answered(oracle, requests)])
    bodies = {row: muldiv.assembled(row) for row in muldiv.BODIES}
    replies = []
    for t, count, reply, some in zip(asked, counts, stood_in, changes):
        places = [(next(lengths) if request else OPENING, change) for request, change in some]
        if counted(reply) != count:
            sys.exit(f"{count} instructions at the start itself: {reply}")
        if count:
            reply = f"{with_changes(reply, places, bodies)} {length(t.pieces[:count])}" if t.output >= GREATEST else "5"
        elif reply == f"4 {ECALL:08x}":
            reply = f"4 {t.words[0]:08x}"
        replies.append(reply)
    return replies


HEADING = """\
Replies of crates/replay that Q-7 changed, those to runs whose block met a compressed halfword that is translated in line. These {number} follow:
line of stdin, old reply, new reply; for a block its length, count and span. Lines 1 to 3400 are the corpus; lines {first} to {last} are new, with
no old reply.

The old reply is the original Rust's, to the run cut behind a FENCE.I, with ADD in the place of each word of the rest of M and ECALL in the place
of each reserved JALR. The new one is the original Rust's to the same with a word besides in the place of each such halfword, by GNU binutils'
table, begun so many bytes earlier that the block's last instruction ends where it does in the line's run; to AUIPC's constant is added by how
much it stands elsewhere. All by checks/replies.py, which shares no code with this port; the whole bytes are in crates/replay/stdout.

"""


def told(reply):
    """A block without its bytes."""
    fields = reply.split(" ")
    return " ".join(fields[:3] + fields[4:]) if fields[0] == "block" else reply


def changes(oracle, lines):
    """A row for each translation that has another reply than before."""
    asked = [(k + 1, line) for k, line in enumerate(lines) if line.startswith("T ") and is_request(line)]
    texts = [line for _, line in asked]
    before, after = translations(oracle, texts, {}), translations(oracle, texts, halfwords.in_line())
    return [f"{k}: {told(old)} -> {told(new)}" for (k, _), old, new in zip(asked, before, after) if old != new and k not in NEW]


def replies_to(oracle, lines):
    """The reply to each line, and how many of the lines the original was asked for."""
    asked = [k for k, line in enumerate(lines) if is_request(line)]
    runs = [k for k in asked if lines[k].startswith("T ")]
    others = [k for k in asked if not lines[k].startswith("T ")]
    judges = index.Judges()
    replies = [judges.reply(line) if line.startswith("I ") else BAD for line in lines]
    translated = translations(oracle, [lines[k] for k in runs], halfwords.in_line())
    for some, said in [(others, answered(oracle, [lines[k] for k in others])), (runs, translated)]:
        for k, reply in zip(some, said):
            replies[k] = reply
    return replies, len(asked)


def main():
    if len(sys.argv) not in (2, 3) or sys.argv[2:] not in ([], ["--write"], ["--changes"]):
        sys.exit(__doc__)
    with open(os.path.join(REPLAY, "stdin"), encoding="ascii") as file:
        lines = file.read().removesuffix("\n").split("\n")
    if sys.argv[2:] == ["--changes"]:
        rows = changes(sys.argv[1], lines)
        print(HEADING.format(number=len(rows), first=NEW[0], last=NEW[-1]) + "\n".join(rows))
        return 0
    replies, asked = replies_to(sys.argv[1], lines)
    blocks = sum(reply.startswith("block") for reply in replies)
    print(f"{len(lines)} lines, {asked} of them asked of the original; {blocks} replies are blocks")
    text = "".join(reply + "\n" for reply in replies)
    path = os.path.join(REPLAY, "stdout")
    if sys.argv[2:]:
        with open(path, "w", encoding="ascii") as file:
            file.write(text)
        return 0
    with open(path, encoding="ascii") as file:
        same = file.read() == text
    print("crates/replay/stdout is " + ("this" if same else "OTHER THAN THIS"))
    return 0 if same else 1


if __name__ == "__main__":
    sys.exit(main())
