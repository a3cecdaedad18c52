//! The words of M entered on this processor: request Q-2's table of values, and operands at the corners, with the manual's values
//! (module `manual`).

use crate::manual::{behind, Run};
use crate::rest_of_m::M;
use crate::support::machine::{helpers, value, Machine, CORNERS};
use crate::support::random::Random;
use crate::support::words::halves;
use emuko_x64_blocks::{translate, Request, GREATEST_BLOCK, MOST_STEPS};

const START: u64 = 0x8000_0000;
const ALL_ONES: u64 = u64::MAX;
const MINUS_2_31: u64 = 0xFFFF_FFFF_8000_0000;

/// Word, rs1, rs2, rd: request Q-2's table, row by row.
const TABLE: [(&str, u64, u64, u64); 18] = [
    ("DIV", 7, 0, ALL_ONES),
    ("DIVU", 7, 0, ALL_ONES),
    ("REM", 7, 0, 7),
    ("REMU", 7, 0, 7),
    ("DIV", 1 << 63, ALL_ONES, 1 << 63),
    ("REM", 1 << 63, ALL_ONES, 0),
    ("DIV", minus(7), 2, minus(3)),
    ("REM", minus(7), 2, minus(1)),
    ("DIVUW", 0x8000_0000, 1, MINUS_2_31),
    ("DIVUW", 0x8000_0000, 0, ALL_ONES),
    ("REMUW", 0x8000_0000, 0, MINUS_2_31),
    ("DIVW", 0x1234_8000_0000, 0x5555_FFFF_FFFF, MINUS_2_31),
    ("REMW", 0x1234_8000_0000, 0x5555_FFFF_FFFF, 0),
    ("REMW", 0x8000_0000, 0, MINUS_2_31),
    ("MULH", 1 << 63, 1 << 63, 1 << 62),
    ("MULHU", ALL_ONES, ALL_ONES, ALL_ONES - 1),
    ("MULHSU", ALL_ONES, ALL_ONES, ALL_ONES),
    ("MULHSU", 1 << 63, ALL_ONES, 1 << 63),
];

/// More, by hand.
const FURTHER: [(&str, u64, u64, u64); 26] = [
    ("MUL", minus(3), 5, minus(15)),
    ("MUL", 1 << 63, 3, 1 << 63),
    ("MULW", 0x9999_7FFF_FFFF, 2, minus(2)),
    ("MULH", minus(1), 1, ALL_ONES),
    ("MULH", minus(1), minus(1), 0),
    ("MULH", 1 << 63, 2, ALL_ONES),
    ("MULHU", 1 << 63, 2, 1),
    ("MULHU", 1 << 32, 1 << 32, 1),
    ("MULHSU", 1, ALL_ONES, 0),
    ("MULHSU", 2, ALL_ONES, 1),
    ("MULHSU", minus(1), 1, ALL_ONES),
    ("DIV", 7, minus(2), minus(3)),
    ("DIV", minus(7), minus(2), 3),
    ("DIV", 1 << 63, 1, 1 << 63),
    ("DIVU", 1 << 63, ALL_ONES, 0),
    ("DIVU", ALL_ONES, 2, (1 << 63) - 1),
    ("REM", 7, minus(2), 1),
    ("REM", minus(7), minus(2), minus(1)),
    ("REMU", 1 << 63, ALL_ONES, 1 << 63),
    // The upper halves are not looked at; 2^32 is 0 here.
    ("DIVW", 0xABCD_FFFF_FFF9, 0x5555_0000_0002, minus(3)),
    ("DIVW", 7, 1 << 32, ALL_ONES),
    ("DIVW", 1 << 32, 7, 0),
    ("DIVUW", 0xABCD_FFFF_FFFF, 0x5555_0000_0002, 0x7FFF_FFFF),
    ("REMW", 0xABCD_FFFF_FFF9, 2, minus(1)),
    ("REMUW", 0xABCD_FFFF_FFFF, 0x5555_0000_0010, 15),
    ("REMUW", 0xABCD_FFFF_FFFE, 0x5555_FFFF_FFFF, minus(2)),
];

const fn minus(n: u64) -> u64 {
    0u64.wrapping_sub(n)
}

/// The word of M of this index with these registers.
fn word(which: usize, rd: u32, rs1: u32, rs2: u32) -> u32 {
    let (_, opcode, funct3) = M[which];
    1 << 25 | rs2 << 20 | rs1 << 15 | funct3 << 12 | rd << 7 | opcode
}

/// A block of such words, and the registers that it is entered with: x1 and x2 are the operands.
struct Words {
    machine: Machine,
    run: Vec<u16>,
    length: usize,
    entries: u64,
}

impl Words {
    fn new(seed: u64) -> Self {
        Words {
            machine: Machine::new(seed),
            run: Vec::new(),
            length: 0,
            entries: 0,
        }
    }

    fn translate(&mut self, words: &[u32]) {
        self.run = words.iter().flat_map(|word| halves(*word)).collect();
        let request = Request::new(START, &self.run).helpers(helpers());
        let block = translate(&request, &mut self.machine.out).unwrap();
        assert_eq!(block.count() as usize, words.len());
        self.length = block.bytes().len();
    }

    /// The slots after an entry with these operands, the others being 3 times their number; they must be the manual's.
    fn enter(&mut self, a: u64, b: u64) -> [u64; 32] {
        let mut x: [u64; 32] = std::array::from_fn(|k| 3 * k as u64);
        (x[1], x[2]) = (a, b);
        self.machine.slots().copy_from_slice(&x);
        let mut run = Run {
            x,
            pc: START,
            count: 0,
        };
        run.turn(MOST_STEPS, &self.run, GREATEST_BLOCK);
        let after = self.machine.after();
        let entered = self.machine.enter(self.length, &after);
        let found = (entered.rax, entered.rdx);
        assert_eq!(found, (run.pc, run.count), "{a:x} {b:x}");
        assert_eq!(self.machine.slots(), run.x, "{a:x} {b:x} {:x?}", self.run);
        self.entries += 1;
        run.x
    }
}

/// Each row by itself: DIV x3, x1, x2 and the like, in a block of one word. The interpreter has the same values.
#[test]
fn table_of_values() {
    let mut words = Words::new(36);
    for (name, a, b, result) in TABLE.into_iter().chain(FURTHER) {
        let which = M.iter().position(|row| row.0 == name).unwrap();
        let word = word(which, 3, 1, 2);
        assert_eq!(behind(word, a, b).0, result, "{name} {a:x} {b:x}");
        words.translate(&[word]);
        assert_eq!(words.enter(a, b)[3], result, "{name} {a:x} {b:x}");
    }
}

/// To x0 nothing is stored, and nothing faults: DIV x0, x1, x0, and every word of M with operands of every sort.
#[test]
fn to_x0() {
    let mut words = Words::new(37);
    words.translate(&[0x0200_C033]);
    words.enter(7, 2);
    for which in 0..M.len() {
        for (rs1, rs2) in [(1, 2), (1, 0), (0, 1), (0, 0)] {
            words.translate(&[word(which, 0, rs1, rs2)]);
            for (a, b) in [(7, 2), (7, 0), (1 << 63, ALL_ONES), (1 << 31, ALL_ONES)] {
                let x = words.enter(a, b);
                assert_eq!((x[0], x[1], x[2]), (0, a, b));
            }
        }
    }
}

/// Values of both operands: the corners, and each with other upper halves.
fn corners(r: &mut Random) -> Vec<u64> {
    let mut all = CORNERS.to_vec();
    for corner in CORNERS {
        all.push(r.u64() << 32 | corner & 0xFFFF_FFFF);
        all.push(corner ^ ALL_ONES << 32);
    }
    all
}

/// All words of M in one block, x5 to x17 being the destinations.
fn one_of_each() -> Vec<u32> {
    (0..13)
        .map(|which| word(which, 5 + which as u32, 1, 2))
        .collect()
}

/// Every pair of corners with every word.
#[test]
fn corner_operands() {
    let values = corners(&mut Random::new(38));
    let mut words = Words::new(38);
    words.translate(&one_of_each());
    for a in &values {
        for b in &values {
            words.enter(*a, *b);
        }
    }
    assert_eq!(words.entries, 72 * 72);
}

/// Pairs at random, corners often.
#[test]
fn random_operands() {
    let mut r = Random::new(39);
    let mut words = Words::new(39);
    words.translate(&one_of_each());
    for _ in 0..300_000 {
        let (a, b) = (value(&mut r), value(&mut r));
        words.enter(a, b);
    }
}

/// A destination that is an operand, and operands that are one register.
#[test]
fn the_same_registers() {
    let mut r = Random::new(40);
    let mut words = Words::new(40);
    for which in 0..M.len() {
        for (rd, rs1, rs2) in [(1, 1, 2), (2, 1, 2), (3, 1, 1), (1, 1, 1), (2, 2, 2)] {
            words.translate(&[word(which, rd, rs1, rs2)]);
            for corner in CORNERS {
                words.enter(corner, value(&mut r));
                words.enter(value(&mut r), corner);
            }
        }
    }
    assert_eq!(words.entries, 13 * 5 * 24 * 2);
}

/// Sixty-four times one word: of DIVW the greatest block there is.
#[test]
fn sixty_four_times() {
    let mut words = Words::new(41);
    for (which, (name, _, _)) in M.iter().enumerate() {
        let registers = |k: u32| word(which, 3 + k % 29, 1 + k % 31, 1 + (7 * k + 1) % 31);
        words.translate(&(0..64).map(registers).collect::<Vec<_>>());
        let greatest = words.length == GREATEST_BLOCK;
        assert_eq!(greatest, *name == "DIVW", "{name}: {}", words.length);
        for corner in CORNERS {
            words.enter(corner, ALL_ONES);
            words.enter(1 << 63, corner);
        }
    }
}

/// Words by themselves, without the block's opening and closing: what these save and restore is not touched, and no stack is used.
#[test]
fn without_opening_and_closing() {
    const OPENING: usize = 32;
    const END: usize = 35;
    let mut r = Random::new(42);
    let mut words = Words::new(42);
    for which in 0..M.len() {
        words.translate(&[word(which, 3, 1, 2)]);
        let machine = &mut words.machine;
        machine.out.copy_within(OPENING..words.length - END, 0);
        let length = words.length - OPENING - END + 1;
        machine.out[length - 1] = 0xC3; // RET
        for corner in CORNERS {
            for (a, b) in [(corner, value(&mut r)), (value(&mut r), corner)] {
                machine.slots().fill(0);
                machine.slots()[1..3].copy_from_slice(&[a, b]);
                machine.enter_bare(length);
                let result = behind(word(which, 3, 1, 2), a, b).0;
                assert_eq!(machine.slots()[1..4], [a, b, result]);
            }
        }
    }
}
