//! The rest of M (request Q-2): eleven words that the original Rust does not take. It is asked for the run with ADD of the same registers
//! in the place of each: a straight word too, with the same two loads and the same store. So the original says everything of a reply but
//! the bytes between loads and store, which in its block are the three of ADD and here a word's own *body*. The bodies are the table
//! below; what they do is judged by entering them (module `entered_m`), and how they read by objdump (checks/outsiders.py).

use crate::fence_i::cut;
use crate::support::random::Random;
use crate::support::requests;
use crate::support::runs::{asked, replaced, words, END};
use crate::support::words::halves;
use emuko_original::{Answer, Emuko, Original, CODE_SIZE};
use emuko_x64_blocks::{translate, Request, GREATEST_BLOCK};

const OP: u32 = 0x33;
const OP_32: u32 = 0x3B;

/// The eleven, and MUL and MULW before them, which the original takes: name, opcode, funct3. Their funct7 is 1.
pub const M: [(&str, u32, u32); 13] = [
    ("MUL", OP, 0),
    ("MULW", OP_32, 0),
    ("MULH", OP, 1),
    ("MULHSU", OP, 2),
    ("MULHU", OP, 3),
    ("DIV", OP, 4),
    ("DIVU", OP, 5),
    ("REM", OP, 6),
    ("REMU", OP, 7),
    ("DIVW", OP_32, 4),
    ("DIVUW", OP_32, 5),
    ("REMW", OP_32, 6),
    ("REMUW", OP_32, 7),
];

/// Where a word stands in M, if it is one of its.
pub fn of_m(word: u32) -> Option<usize> {
    let (opcode, funct3, funct7) = (word & 0x7F, word >> 12 & 7, word >> 25);
    let row = M.iter().position(|row| (row.1, row.2) == (opcode, funct3));
    row.filter(|_| funct7 == 1)
}

/// Which of the eleven a word is, from 0.
pub fn rest_of_m(word: u32) -> Option<usize> {
    of_m(word)?.checked_sub(2)
}

/// A word's host code between its loads and its store, in parts that words have in common. a is in R10, b in R11, and R10 becomes the result.
type Body = &'static [&'static [u8]];

const RAX_IS_A: &[u8] = &[0x4C, 0x89, 0xD0]; // mov rax, r10
const RDX_IS_A: &[u8] = &[0x4C, 0x89, 0xD2]; // mov rdx, r10
const IS_RAX: &[u8] = &[0x49, 0x89, 0xC2]; // mov r10, rax
const IS_RDX: &[u8] = &[0x49, 0x89, 0xD2]; // mov r10, rdx
const LOW_A: &[u8] = &[0x4D, 0x63, 0xD2]; // movsxd r10, r10d
const LOW_B: &[u8] = &[0x4D, 0x63, 0xDB]; // movsxd r11, r11d
const ALL_ONES: &[u8] = &[0x48, 0x83, 0xC8, 0xFF]; // or rax, -1
const MUL: &[u8] = &[0x49, 0xF7, 0xE3]; // mul r11
const IMUL: &[u8] = &[0x49, 0xF7, 0xEB]; // imul r11

/// RCX becomes b + 1, which is 0 or 1 where a signed division is left out.
const RCX_IS_B_PLUS_1: &[u8] = &[
    0x4C, 0x89, 0xD9, // mov rcx, r11
    0x48, 0x83, 0xC1, 0x01, // add rcx, 1
];
/// The quotient where the division is left out: -a where b is -1, and -1 where b is 0.
const QUOTIENT_WITHOUT: &[u8] = &[
    0x4C, 0x89, 0xD0, // mov rax, r10
    0x49, 0x0F, 0xAF, 0xC3, // imul rax, r11
    0x48, 0x29, 0xC8, // sub rax, rcx
];
/// The remainder there: 0 where b is -1, and a where b is 0.
const REMAINDER_WITHOUT: &[u8] = &[
    0x4C, 0x89, 0xD2, // mov rdx, r10
    0x48, 0x0F, 0xAF, 0xD1, // imul rdx, rcx
];
const SIGNED_64: &[u8] = &[
    0x48, 0x83, 0xF9, 0x02, // cmp rcx, 2
    0x72, 0x08, // jb over the division
    0x4C, 0x89, 0xD0, // mov rax, r10
    0x48, 0x99, // cqo
    0x49, 0xF7, 0xFB, // idiv r11
];
const SIGNED_32: &[u8] = &[
    0x48, 0x83, 0xF9, 0x02, // cmp rcx, 2
    0x72, 0x07, // jb over the division
    0x4C, 0x89, 0xD0, // mov rax, r10
    0x99, // cdq
    0x41, 0xF7, 0xFB, // idiv r11d
];
const UNSIGNED_64: &[u8] = &[
    0x4D, 0x21, 0xDB, // and r11, r11
    0x74, 0x08, // je over the division
    0x4C, 0x89, 0xD0, // mov rax, r10
    0x31, 0xD2, // xor edx, edx
    0x49, 0xF7, 0xF3, // div r11
];
const UNSIGNED_32: &[u8] = &[
    0x45, 0x21, 0xDB, // and r11d, r11d
    0x74, 0x08, // je over the division
    0x4C, 0x89, 0xD0, // mov rax, r10
    0x31, 0xD2, // xor edx, edx
    0x41, 0xF7, 0xF3, // div r11d
];
/// The unsigned product's upper half, less b where a is negative.
const LESS_B_WHERE_A_IS_NEGATIVE: &[u8] = &[
    0x49, 0xC1, 0xFA, 0x3F, // sar r10, 63
    0x4D, 0x0F, 0xAF, 0xD3, // imul r10, r11
    0x49, 0x01, 0xD2, // add r10, rdx
];

const MULH: Body = &[RAX_IS_A, IMUL, IS_RDX];
const MULHSU: Body = &[RAX_IS_A, MUL, LESS_B_WHERE_A_IS_NEGATIVE];
const MULHU: Body = &[RAX_IS_A, MUL, IS_RDX];
const DIV: Body = &[RCX_IS_B_PLUS_1, QUOTIENT_WITHOUT, SIGNED_64, IS_RAX];
const DIVU: Body = &[ALL_ONES, UNSIGNED_64, IS_RAX];
const REM: Body = &[RCX_IS_B_PLUS_1, REMAINDER_WITHOUT, SIGNED_64, IS_RDX];
const REMU: Body = &[RDX_IS_A, UNSIGNED_64, IS_RDX];
#[rustfmt::skip]
const DIVW: Body = &[LOW_A, LOW_B, RCX_IS_B_PLUS_1, QUOTIENT_WITHOUT, SIGNED_32, IS_RAX, LOW_A];
const DIVUW: Body = &[ALL_ONES, UNSIGNED_32, IS_RAX, LOW_A];
#[rustfmt::skip]
const REMW: Body = &[LOW_A, LOW_B, RCX_IS_B_PLUS_1, REMAINDER_WITHOUT, SIGNED_32, IS_RDX, LOW_A];
const REMUW: Body = &[RDX_IS_A, UNSIGNED_32, IS_RDX, LOW_A];

/// In the order of the eleven.
const BODIES: [Body; 11] = [
    MULH, MULHSU, MULHU, DIV, DIVU, REM, REMU, DIVW, DIVUW, REMW, REMUW,
];

/// ADD R10, R11: the body of the word that stands in for the eleven.
const ADD: [u8; 3] = [0x4D, 0x01, 0xDA];
const OPENING: usize = 32;
const LOADS: usize = 14;

/// ADD with rd, rs1 and rs2 of a word, for one of the eleven.
pub fn stand_in(word: u32) -> Option<u32> {
    rest_of_m(word).map(|_| word & 0x01FF_8F80 | OP)
}

/// The index of the run's first word that is one of the eleven.
pub fn first_of_the_rest(halfwords: &[u16]) -> Option<usize> {
    words(halfwords).position(|word| rest_of_m(word).is_some())
}

/// `bytes` is the original's block of so many instructions of the run with stand-ins; each stand-in's body becomes that of the word it
/// stands for. How long the words are, and so where the bodies stand, the original says too.
pub fn put_bodies(original: &Original, halfwords: &[u16], count: u32, bytes: &mut Vec<u8>) {
    if first_of_the_rest(halfwords).is_none_or(|first| first >= count as usize) {
        return;
    }
    let (mut put, mut emitted) = (Vec::with_capacity(GREATEST_BLOCK), Vec::new());
    let (mut at, mut copied) = (OPENING, 0);
    for word in words(halfwords).take(count as usize) {
        if let Some(which) = rest_of_m(word) {
            assert_eq!(bytes[at + LOADS..][..ADD.len()], ADD);
            put.extend_from_slice(&bytes[copied..at + LOADS]);
            put.extend(BODIES[which].concat());
            copied = at + LOADS + ADD.len();
        }
        original.kind(stand_in(word).unwrap_or(word), &mut emitted);
        at += emitted.len();
    }
    put.extend_from_slice(&bytes[copied..]);
    *bytes = put;
}

/// Ours, of a block.
fn ours(start: u64, limit: u32, run: &[u16]) -> Vec<u8> {
    let mut out = [0; GREATEST_BLOCK];
    let block = translate(&Request::new(start, run).limit(limit), &mut out).unwrap();
    block.bytes().to_vec()
}

/// What stand-ins do to the original's own answers. Nothing where the block ends before the first of the eleven. Where that is met, the
/// original refuses it: as the first word by number 4, and else its block ends there, with the two loads left, of which both the block
/// with stand-ins and ours are a continuation.
#[test]
fn stand_ins_where_met_and_where_not() {
    let mut r = Random::new(61);
    let mut original = Original::new(CODE_SIZE);
    let (mut met, mut met_first, mut not_met) = (0, 0, 0);
    while met < 10_000 || met_first < 5_000 || not_met < 5_000 {
        let run = cut(&requests::run(&mut r)).to_vec();
        let (start, limit) = (requests::start(&mut r), requests::limit(&mut r));
        let Some(first) = first_of_the_rest(&run) else {
            assert_eq!(replaced(&run, stand_in), run);
            continue;
        };
        let (whole, whole_bytes) = asked(&mut original, start, limit, &run);
        let (answer, bytes) = asked(&mut original, start, limit, &replaced(&run, stand_in));
        match answer {
            Answer::Block(_) if first == 0 => {
                let word = words(&run).next().unwrap();
                assert_eq!(whole, Answer::NotTaken(word), "{run:x?}");
                met_first += 1;
            }
            Answer::Block(count) if first < count as usize => {
                assert_eq!(whole, Answer::Block(first as u32), "{run:x?}");
                let front = &whole_bytes[..whole_bytes.len() - END];
                assert!(bytes.starts_with(front), "{run:x?}");
                assert!(ours(start, limit, &run).starts_with(front), "{run:x?}");
                met += 1;
            }
            _ => {
                assert_eq!((answer, bytes), (whole, whole_bytes), "{run:x?}");
                not_met += 1;
            }
        }
    }
}

/// Stand-ins by hand.
#[test]
fn stand_ins_by_hand() {
    let addi = [0x0093, 0x0050];
    let mulh = halves(0x0220_91B3); // MULH x3, x1, x2
    let add = halves(0x0020_81B3); // ADD x3, x1, x2
    let run = |parts: &[&[u16]]| parts.concat();
    assert_eq!(
        *replaced(&run(&[&addi, &mulh]), stand_in),
        run(&[&addi, &add])
    );
    let nop = [0x0001];
    assert_eq!(
        *replaced(&run(&[&nop, &mulh]), stand_in),
        run(&[&nop, &add])
    );
    // REMUW x31, x30, x29; DIVW x0, x0, x0
    assert_eq!(
        *replaced(&halves(0x03DF_7FBB), stand_in),
        halves(0x01DF_0FB3)
    );
    assert_eq!(
        *replaced(&halves(0x0200_403B), stand_in),
        halves(0x0000_0033)
    );
    // MUL, MULW; OP_32 with funct3 1, 2, 3; funct7 0, 2 and 0x21; behind a halfword that a helper executes; in two words' halves; half a
    // word.
    for whole in [
        halves(0x0220_81B3).to_vec(),
        halves(0x0220_81BB).to_vec(),
        halves(0x0220_91BB).to_vec(),
        halves(0x0220_A1BB).to_vec(),
        halves(0x0220_B1BB).to_vec(),
        halves(0x0020_C1B3).to_vec(),
        halves(0x0420_C1B3).to_vec(),
        halves(0x4220_C1B3).to_vec(),
        run(&[&[0x4108, 0x4108], &mulh]),
        run(&[&[0x0093], &mulh, &[0x0000]]),
        run(&[&addi, &mulh[..1]]),
    ] {
        assert_eq!(*replaced(&whole, stand_in), whole);
    }
    assert_eq!(M.iter().filter(|row| row.1 == OP).count(), 8);
}

/// The bodies' lengths, as request Q-2's words are long: 14 bytes of loads before them, 7 of a store behind them.
#[test]
fn lengths_of_bodies() {
    let lengths = BODIES.map(|body| body.concat().len());
    assert_eq!(lengths, [9, 17, 9, 34, 20, 31, 19, 42, 23, 39, 22]);
    for ((_, opcode, funct3), length) in M[2..].iter().zip(lengths) {
        // rd, rs1, rs2 are x3, x1, x2; then x0 in the place of x3.
        let word = 0x0220_8180 | funct3 << 12 | opcode;
        assert_eq!(ours(0, 1, &halves(word)).len(), 67 + 14 + length + 7);
        let to_x0 = word & !(31 << 7);
        assert_eq!(ours(0, 1, &halves(to_x0)).len(), 67 + 14 + length);
    }
}
