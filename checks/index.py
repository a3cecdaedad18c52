#!/usr/bin/env python3
"""The index of blocks (Q-4, Q-5), held against the request's text. The gate runs it with --written, and the program on the lines of
crates/replay.

    checks/index.py                 the table below, the lines of crates/replay, and 200,000 random lines asked of the program replay
    checks/index.py --written       the table below and the lines and replies that crates/replay has: needs no program
    checks/index.py --lines N       so many random lines
    checks/index.py --spoil         every reply that the program gives is changed, and each must be noticed
    checks/index.py --write         writes the I lines of crates/replay/stdin and stdout anew

The original Rust keeps a map, which has no entries and is never full, so the judges are a table of replies typed by hand from the request's text; `Entries`, which does
what the text says to a list; and, where a slice began with none in use and was written by inserts, drops and empties alone, a dictionary,
which has neither slots nor marks. Nothing of this repository's code is read. `rt run < stdin` in crates/replay leaves the program at out/replay.
"""
import os
import random
import re
import subprocess
import sys

ROOT = os.path.dirname(os.path.dirname(os.path.abspath(__file__)))
REPLAY = os.path.join(ROOT, "crates", "replay")
PROGRAM = os.path.join(REPLAY, "out", "replay")
BAD = "bad request"
MOST = 64
# There are so many addresses. Ranges of so few bytes are compared address by address too.
ADDRESSES, FEW = 1 << 64, 300

# Lines and replies, from the request's text.
TABLE = """\
I show >
I find 0 0 > none
I insert 0 0 0 0 0 0 > 8
I drop 0 18446744073709551615 > dropped 0
I empty > mark 0
I new 0 > ok
I find 0 0 > none
I insert 1 2 3 4 5 6 > 8
I drop 0 18446744073709551615 > dropped 0
I show >
I new 3 > ok
I show > 0,0,0,0,0,0,0 0,0,0,0,0,0,0 0,0,0,0,0,0,0
I find 0 0 > none
I drop 0 18446744073709551615 > dropped 0
I insert 8000000000080000 80000000 64 3 123 12 > at 0
I find 8000000000080000 80000000 > found 1,8000000000080000,80000000,64,3,123,12
I find 8000000000080001 80000000 > none
I find 8000000000080000 80000004 > none
I find 80000000 8000000000080000 > none
I insert 8000000000080000 80000004 188 1 81 4 > at 1
I insert 8000000000080001 80000000 272 64 1404 256 > at 2
I show > 1,8000000000080000,80000000,64,3,123,12 1,8000000000080000,80000004,188,1,81,4 1,8000000000080001,80000000,272,64,1404,256
I insert 8000000000080001 80000004 1676 1 81 4 > 8
I show > 1,8000000000080000,80000000,64,3,123,12 1,8000000000080000,80000004,188,1,81,4 1,8000000000080001,80000000,272,64,1404,256
I insert 8000000000080000 80000004 400 2 102 8 > at 1
I find 8000000000080000 80000004 > found 1,8000000000080000,80000004,400,2,102,8
I empty > mark 0
I show > 0,8000000000080000,80000000,64,3,123,12 0,8000000000080000,80000004,400,2,102,8 0,8000000000080001,80000000,272,64,1404,256
I find 8000000000080000 80000000 > none
I insert 8000000000080001 80000000 8 9 10 11 > at 0
I show > 1,8000000000080001,80000000,8,9,10,11 0,8000000000080000,80000004,400,2,102,8 0,8000000000080001,80000000,272,64,1404,256
I new 4 > ok
I set 1 1 a b 1 2 21 22 > ok
I set 3 1 a b 3 4 23 24 > ok
I find a b > found 1,a,b,1,2,21,22
I insert a b 5 6 25 26 > at 1
I show > 0,0,0,0,0,0,0 1,a,b,5,6,25,26 0,0,0,0,0,0,0 1,a,b,3,4,23,24
I set 1 0 a b 5 6 25 26 > ok
I find a b > found 1,a,b,3,4,23,24
I insert a b 7 8 27 28 > at 3
I insert a c 9 10 29 30 > at 0
I insert b b 11 12 31 32 > at 1
I insert b c 13 14 33 34 > at 2
I insert c c 15 16 35 36 > 8
I insert a b 17 18 37 38 > at 3
I show > 1,a,c,9,10,29,30 1,b,b,11,12,31,32 1,b,c,13,14,33,34 1,a,b,17,18,37,38
I new 2 > ok
I set 0 0 7 7 7 7 7 7 > ok
I find 7 7 > none
I insert 7 7 8 8 8 8 > at 0
I new 2 > ok
I set 0 7 1 2 3 4 5 6 > ok
I set 1 4294967295 5 6 7 8 9 10 > ok
I insert 1 2 30 40 50 60 > at 0
I insert 5 6 70 80 90 100 > at 1
I insert 1 6 0 0 0 0 > 8
I show > 7,1,2,30,40,50,60 4294967295,5,6,70,80,90,100
I empty > mark 0
I show > 0,1,2,30,40,50,60 0,5,6,70,80,90,100
I insert ffffffffffffffff ffffffffffffffff 18446744073709551615 4294967295 18446744073709551614 18446744073709551613 > at 0
I find ffffffffffffffff ffffffffffffffff > found 1,ffffffffffffffff,ffffffffffffffff,18446744073709551615,4294967295,18446744073709551614,18446744073709551613
I find ffffffffffffffff FFFFFFFFFFFFFFFF > found 1,ffffffffffffffff,ffffffffffffffff,18446744073709551615,4294967295,18446744073709551614,18446744073709551613
I set 2 1 0 0 0 0 0 0 > bad request
I set 1 4294967296 0 0 0 0 0 0 > bad request
I insert 0 0 0 4294967296 0 0 > bad request
I insert 10000000000000000 0 0 0 0 0 > bad request
I insert 0 0 18446744073709551616 0 0 0 > bad request
I insert 0 0 0 0 18446744073709551616 0 > bad request
I insert 0 0 0 0 0 18446744073709551616 > bad request
I insert 0 0 0 0 > bad request
I insert 0 0 0 0 0 > bad request
I insert 0 0 0 0 0 0 0 > bad request
I insert 0 0 0 0 a 0 > bad request
I insert 0 0 0 0 0 a > bad request
I new 65 > bad request
I new > bad request
I news 1 > bad request
I new 1 1 > bad request
I find 0 > bad request
I find 0  0 > bad request
I find 0 g > bad request
I drop > bad request
I drop 0 > bad request
I drop 0 0 0 > bad request
I drop 0 a > bad request
I drop g 1 > bad request
I drop 0  1 > bad request
I drop 0 -1 > bad request
I drop 0 18446744073709551616 > bad request
I drop 10000000000000000 1 > bad request
I drops 0 1 > bad request
I empty 0 > bad request
I shows > bad request
I insert 0 0 a 0 0 0 > bad request
I set 0 1 0 0 0 > bad request
I set 0 1 0 0 0 0 0 > bad request
i show > bad request
i drop 0 18446744073709551615 > bad request
I show > 1,ffffffffffffffff,ffffffffffffffff,18446744073709551615,4294967295,18446744073709551614,18446744073709551613 0,5,6,70,80,90,100
I new 2 > ok
I insert 1 80000000 64 2 102 8 > at 0
I drop 7fffffff 1 > dropped 0
I drop 80000008 1 > dropped 0
I drop 80000008 18446744073709551608 > dropped 0
I drop 7ffffff0 16 > dropped 0
I drop 80000004 0 > dropped 0
I drop 80000000 0 > dropped 0
I find 1 80000000 > found 1,1,80000000,64,2,102,8
I drop 7ffffff0 17 > dropped 1
I drop 7ffffff0 17 > dropped 0
I find 1 80000000 > none
I show > 0,1,80000000,64,2,102,8 0,0,0,0,0,0,0
I insert 1 80000000 64 2 102 8 > at 0
I drop 80000007 1 > dropped 1
I insert 1 80000000 64 2 102 8 > at 0
I drop 80000003 2 > dropped 1
I insert 1 80000000 64 2 102 8 > at 0
I drop 70000000 4294967296 > dropped 1
I insert 1 80000000 64 2 102 8 > at 0
I drop 80000008 18446744073709551609 > dropped 1
I new 2 > ok
I insert 1 fffffffffffffffc 64 2 102 8 > at 0
I drop 4 1 > dropped 0
I drop fffffffffffffffb 1 > dropped 0
I drop 4 18446744073709551608 > dropped 0
I drop 3 1 > dropped 1
I insert 1 fffffffffffffffc 64 2 102 8 > at 0
I drop 4 18446744073709551609 > dropped 1
I insert 1 fffffffffffffffc 64 2 102 8 > at 0
I drop FFFFFFFFFFFFFFFB 2 > dropped 1
I insert 1 fffffffffffffffc 64 2 102 8 > at 0
I drop ffffffffffffffff 1 > dropped 1
I insert 1 fffffffffffffffc 64 2 102 8 > at 0
I drop 0 1 > dropped 1
I insert 1 0 64 1 81 4 > at 0
I drop fffffffffffffff0 16 > dropped 0
I drop 4 18446744073709551612 > dropped 0
I drop fffffffffffffff0 17 > dropped 1
I insert 1 0 64 1 81 4 > at 0
I drop 4 18446744073709551613 > dropped 1
I new 5 > ok
I insert 1 80000000 1 1 1 1 > at 0
I insert 1 7fffffff 2 1 1 1 > at 1
I insert 1 80000001 3 1 1 1 > at 2
I insert 2 80000000 4 1 1 2 > at 3
I insert 2 7fffffff 5 1 1 2 > at 4
I drop 80000001 18446744073709551615 > dropped 4
I show > 1,1,80000000,1,1,1,1 0,1,7fffffff,2,1,1,1 0,1,80000001,3,1,1,1 0,2,80000000,4,1,1,2 0,2,7fffffff,5,1,1,2
I drop 80000000 18446744073709551615 > dropped 1
I new 2 > ok
I insert 1 10 64 1 81 18446744073709551615 > at 0
I drop f 1 > dropped 0
I drop f 0 > dropped 0
I drop e 1 > dropped 1
I insert 1 10 64 1 81 18446744073709551615 > at 0
I drop f 2 > dropped 1
I insert 1 10 64 1 81 18446744073709551615 > at 0
I drop 10 18446744073709551615 > dropped 1
I insert 1 10 64 1 81 18446744073709551615 > at 0
I drop 11 18446744073709551615 > dropped 1
I insert 1 10 64 1 81 1 > at 0
I drop a 1 > dropped 0
I drop 10 1 > dropped 1
I insert 1 a 64 1 81 1 > at 0
I drop 0 10 > dropped 0
I drop 0 11 > dropped 1
I new 2 > ok
I insert 1 80000000 64 1 81 0 > at 0
I drop 80000000 1 > dropped 0
I drop 0 18446744073709551615 > dropped 0
I drop 7fffffff 18446744073709551615 > dropped 0
I drop 80000000 0 > dropped 0
I insert 1 80000000 64 1 81 4 > at 0
I find 1 80000000 > found 1,1,80000000,64,1,81,4
I drop 80000000 1 > dropped 1
I insert 1 80000000 64 2 102 8 > at 0
I insert 1 80000000 200 1 81 4 > at 0
I drop 80000004 4 > dropped 0
I find 1 80000000 > found 1,1,80000000,200,1,81,4
I insert 1 80000000 64 2 102 8 > at 0
I drop 80000004 4 > dropped 1
I new 8 > ok
I set 0 7 a 80000000 1 2 3 8 > ok
I set 1 1 b 80000004 4 5 6 8 > ok
I set 2 0 a 80000000 7 8 9 8 > ok
I set 3 4294967295 a 80000000 10 11 12 8 > ok
I set 4 1 ffffffffffffffff 7ffffffc 13 14 15 8 > ok
I set 5 1 a 7ffffffc 16 17 18 4 > ok
I set 6 2 a 80000000 19 20 21 0 > ok
I set 7 256 0 7fffff00 22 23 24 18446744073709551615 > ok
I drop 80000002 2 > dropped 4
I show > 0,a,80000000,1,2,3,8 1,b,80000004,4,5,6,8 0,a,80000000,7,8,9,8 0,a,80000000,10,11,12,8 0,ffffffffffffffff,7ffffffc,13,14,15,8 1,a,7ffffffc,16,17,18,4 2,a,80000000,19,20,21,0 0,0,7fffff00,22,23,24,18446744073709551615
I find a 80000000 > found 2,a,80000000,19,20,21,0
I drop 80000002 2 > dropped 0
I insert c 80000000 25 26 27 28 > at 0
I insert a 80000000 29 30 31 32 > at 6
I insert d 80000000 33 34 35 36 > at 2
I drop 8000001b 1 > dropped 3
I drop 0 18446744073709551615 > dropped 2
I show > 0,c,80000000,25,26,27,28 0,b,80000004,4,5,6,8 0,d,80000000,33,34,35,36 0,a,80000000,10,11,12,8 0,ffffffffffffffff,7ffffffc,13,14,15,8 0,a,7ffffffc,16,17,18,4 0,a,80000000,29,30,31,32 0,0,7fffff00,22,23,24,18446744073709551615
"""

HEX, NUMBER = "([0-9a-fA-F]+)", "([0-9]+)"
FORMS = {
    "new": rf"I new {NUMBER}",
    "set": rf"I set {NUMBER} {NUMBER} {HEX} {HEX} {NUMBER} {NUMBER} {NUMBER} {NUMBER}",
    "insert": rf"I insert {HEX} {HEX} {NUMBER} {NUMBER} {NUMBER} {NUMBER}",
    "find": rf"I find {HEX} {HEX}",
    "drop": rf"I drop {HEX} {NUMBER}",
    "empty": "I empty",
    "show": "I show",
}
# The fields of each form: how many bits, and whether hexadecimal. A block is satp, pc, offset, count, length, span.
BLOCK = [(64, True), (64, True), (64, False), (32, False), (64, False), (64, False)]
WIDTHS = {
    "new": [(64, False)],
    "set": [(64, False), (32, False), *BLOCK],
    "insert": BLOCK,
    "find": [(64, True), (64, True)],
    "drop": [(64, True), (64, False)],
    "empty": [],
    "show": [],
}


def parsed(line):
    """The line's word and numbers; None where it is no request."""
    for word, form in FORMS.items():
        if match := re.fullmatch(form, line, re.ASCII):
            numbers = [int(text, 16 if base else 10) for text, (_, base) in zip(match.groups(), WIDTHS[word])]
            if all(n < 1 << bits for n, (bits, _) in zip(numbers, WIDTHS[word])):
                return word, numbers
    return None


def shown(entry):
    use, satp, pc, *block = entry
    return ",".join([f"{use},{satp:x},{pc:x}", *map(str, block)])


def pieces(first, n):
    """The n addresses from the first on, of which one after the last address is 0: as ranges of integers, two at most, ends not included."""
    end = first + n
    ranges = [(first, min(end, ADDRESSES)), (0, end - ADDRESSES)]
    return [(low, high) for low, high in ranges if low < high]


def have_common(one, other):
    """Whether two ranges, each a first address and how many, have a common address."""
    common = any(max(a, c) < min(b, d) for a, b in pieces(*one) for c, d in pieces(*other))
    if max(one[1], other[1]) <= FEW:
        first, second = ({(start + k) % ADDRESSES for k in range(n)} for start, n in (one, other))
        if common == first.isdisjoint(second):
            sys.exit(f"ranges and sets of addresses differ: {one}, {other}")
    return common


class Entries:
    """A list of [use, satp, pc, offset, count, length, span], and the request's text."""

    def __init__(self):
        self.entries = []

    def holding(self, satp, pc):
        return [k for k, e in enumerate(self.entries) if e[0] != 0 and (e[1], e[2]) == (satp, pc)]

    def new(self, n):
        if n > MOST:
            return BAD
        self.entries = [[0] * 7 for _ in range(n)]
        return "ok"

    def set(self, slot, *entry):
        if slot >= len(self.entries):
            return BAD
        self.entries[slot] = list(entry)
        return "ok"

    def insert(self, satp, pc, *block):
        free = [k for k, e in enumerate(self.entries) if e[0] == 0]
        slots = self.holding(satp, pc) or free
        if not slots:
            return "8"
        mark = self.entries[slots[0]][0] or 1
        self.entries[slots[0]] = [mark, satp, pc, *block]
        return f"at {slots[0]}"

    def find(self, satp, pc):
        slots = self.holding(satp, pc)
        return "found " + shown(self.entries[slots[0]]) if slots else "none"

    def drop(self, address, n):
        touched = [e for e in self.entries if e[0] != 0 and have_common((e[2], e[6]), (address, n))]
        for entry in touched:
            entry[0] = 0
        return f"dropped {len(touched)}"

    def empty(self):
        for entry in self.entries:
            entry[0] = 0
        return "mark 0"

    def show(self):
        return " ".join(map(shown, self.entries))


class History:
    """What was last inserted for a key since it was last freed: known of a slice that was not set by hand."""

    def __init__(self):
        self.room, self.known = 0, {}

    def reply(self, word, numbers):
        if word == "set":
            self.known = None
        elif word == "new" and numbers[0] <= MOST:
            self.room, self.known = numbers[0], {}
        elif self.known is None:
            pass
        elif word == "empty":
            self.known = {}
        elif word == "insert":
            key = tuple(numbers[:2])
            if key not in self.known and len(self.known) == self.room:
                return "8"
            self.known[key] = numbers[2:]
            return "at"
        elif word == "find":
            key = tuple(numbers)
            return "found " + shown([1, *key, *self.known[key]]) if key in self.known else "none"
        elif word == "drop":
            left = {key: block for key, block in self.known.items() if not have_common((key[1], block[-1]), numbers)}
            dropped = len(self.known) - len(left)
            self.known = left
            return f"dropped {dropped}"
        return None


class Judges:
    def __init__(self):
        self.entries, self.history, self.by_both = Entries(), History(), 0

    def reply(self, line):
        request = parsed(line)
        if request is None:
            return BAD
        word, numbers = request
        reply = getattr(self.entries, word)(*numbers)
        other = self.history.reply(word, numbers)
        if other is not None:
            self.by_both += 1
            if not reply.startswith(other) or word != "insert" and reply != other:
                sys.exit(f"the judges differ: {line}: {reply}, {other}")
        return reply


class Lines:
    """Random lines: few keys, so that they meet again, and writes about them; slices that are filled by hand now and then; lines that
    are no request."""

    def __init__(self, seed):
        self.random = random.Random(seed)
        self.room = 0
        self.renew()

    def renew(self):
        r = self.random
        self.halves = [0, 1, (1 << 64) - 1, 1 << 63] + [r.getrandbits(r.choice([3, 16, 40, 64])) for _ in range(r.randint(1, 8))]
        self.last = 0, 0

    def key(self):
        """Now and then the key that the line before it had."""
        r = self.random
        if r.random() < 0.7:
            self.last = r.choice(self.halves), r.choice(self.halves)
        satp, pc = self.last
        return f"{satp:x} {pc:x}"

    def block(self):
        r = self.random
        offset, length = (r.choice([r.getrandbits(64), r.randrange(4096)]) for _ in range(2))
        return f"{offset} {r.choice([r.getrandbits(32), r.randrange(65)])} {length} {self.bytes()}"

    def bytes(self):
        """How many a block spans or a write has: most of them few."""
        r = self.random
        many = r.choice([(1 << 64) - 1, (1 << 64) - r.randrange(1, 20), r.getrandbits(64)])
        return r.choice([0, 1, r.randrange(1, 20), r.randrange(1, 20), 2 * r.randrange(129), r.randrange(300), r.randrange(300), many])

    def drop(self):
        """A write about the last key's pc or one of the halves, and so about 2^64 too."""
        r = self.random
        near, reach = r.choice([self.last[1], r.choice(self.halves)]), r.choice([3, 20, 300])
        return f"I drop {(near + r.randint(-reach, reach)) % (1 << 64):x} {self.bytes()}"

    def new(self):
        self.room = self.random.choice([0, 1, 2, 3, 4, 5, 8, 13, 64])
        if self.random.random() < 0.3:
            self.renew()
        return f"I new {self.room}"

    def set(self):
        use = self.random.choice([0, 1, 1, 2, 255, 256, 65536, (1 << 32) - 1])
        return f"I set {self.random.randrange(self.room + 1)} {use} {self.key()} {self.block()}"

    def broken(self):
        line = self.line(self.random.choice([0, 0.7]))
        at = self.random.randrange(2, len(line) + 1)
        return line[:at] + self.random.choice([" ", "x", "-", "0" * 20, ""]) + line[at + self.random.randrange(2):]

    def line(self, p):
        for share, make in [(0.4, lambda: f"I insert {self.key()} {self.block()}"), (0.66, lambda: f"I find {self.key()}"),
                            (0.78, self.drop), (0.86, lambda: "I show"), (0.88, lambda: "I empty"), (0.91, self.new), (0.97, self.set)]:
            if p < share:
                return make()
        return self.broken()

    def some(self, n):
        return [self.line(self.random.random()) for _ in range(n)]


def table():
    lines = [line.split(" >", 1) for line in TABLE.splitlines()]
    return [line for line, _ in lines], [reply.strip() for _, reply in lines]


def asked(lines):
    run = subprocess.run([PROGRAM], input="\n".join(lines) + "\n", stdout=subprocess.PIPE, check=True, text=True)
    return run.stdout.removesuffix("\n").split("\n")


def differences(lines, replies, expected):
    return [f"{line}: {reply}, not {want}" for line, reply, want in zip(lines, replies, expected, strict=True) if reply != want]


def corpus():
    """The lines of crates/replay and their replies, and which of them are I lines."""
    texts = []
    for name in ("stdin", "stdout"):
        with open(os.path.join(REPLAY, name), encoding="ascii") as file:
            texts.append(file.read().removesuffix("\n").split("\n"))
    return *texts, [k for k, line in enumerate(texts[0]) if line[:2].upper() == "I "]


def write():
    """The table's lines and random ones, before the last line of stdin, which has no end."""
    lines, replies, old = corpus()
    kept = [k for k in range(len(lines)) if k not in set(old)]
    lines, replies = [lines[k] for k in kept], [replies[k] for k in kept]
    new, judges = table()[0] + Lines(4).some(900), Judges()
    answers = [judges.reply(line) for line in new]
    for name, text in [("stdin", lines[:-1] + new + lines[-1:]), ("stdout", replies[:-1] + answers + replies[-1:] + [""])]:
        with open(os.path.join(REPLAY, name), "w", encoding="ascii") as file:
            file.write("\n".join(text))
    print(f"{len(new)} I lines, {answers.count(BAD)} of them no requests")


def written():
    """Lines whose replies stand in a file: their name, they themselves, the replies."""
    lines, replies, mine = corpus()
    return [("the table", *table()), ("crates/replay", [lines[k] for k in mine], [replies[k] for k in mine])]


def compare(parts, ask, spoil):
    """Each part's lines, what is written of them, what the program says to them if it is asked, and what the judges say."""
    missed = 0
    for name, part, typed in parts:
        judge = Judges()
        expected = [judge.reply(line) for line in part]
        wrong = differences(part, typed, expected) if typed else []
        if ask:
            answers = asked(part)
            if spoil:
                answers = [answer + "0" for answer in answers]
            wrong += differences(part, answers, expected)
        print(f"{name}: {len(part)} lines, {expected.count(BAD)} of them no requests, {judge.by_both} by the dictionary too: "
              f"{len(wrong)} differ")
        print("".join(f"    {line[:200]}\n" for line in wrong[:0 if spoil else 5]), end="")
        missed += len(part) - len(wrong) if spoil else len(wrong)
    return 1 if missed else 0


def compare_all(n, spoil):
    return compare([*written(), ("random", Lines(None).some(n), None)], True, spoil)


def main():
    words = sys.argv[1:]
    if words == ["--write"]:
        write()
        return 0
    if words == ["--written"]:
        return compare(written(), False, False)
    if words[:1] == ["--lines"] and len(words) == 2:
        return compare_all(int(words[1]), False)
    if words not in ([], ["--spoil"]):
        sys.exit(__doc__)
    return compare_all(200_000, words == ["--spoil"])


if __name__ == "__main__":
    sys.exit(main())
