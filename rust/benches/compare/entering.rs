//! Blocks entered: sixty-four times a word of M, beside the same sixty-four operations compiled by rustc, zero divisors and overflow seen
//! to there too. Both load two slots and store one for each, the same slots with the same numbers in the same order.

use crate::runs::{halves, START};
use crate::support::mapped::executable;
use crate::support::random::Random;
use crate::time::{heading_beside, row};
use emuko_x64_blocks::{block_fn, translate, BlockResult, CodeStore, Request, GREATEST_BLOCK};
use std::hint::black_box;
use std::ptr::null_mut;

const WORDS: usize = 64;

/// How words depend on each other: not at all; each on the last one's result, by its second operand; the same by its first.
const APART: usize = 0;
const BY_DIVISOR: usize = 1;
const BY_DIVIDEND: usize = 2;

/// Destination and operands of word k: one of x24 to x31, one of x1 to x15 and one of x16 to x23, or the last destination.
const fn registers(pattern: usize, k: usize) -> (usize, usize, usize) {
    let last = 24 + (k + 7) % 8;
    let (rd, rs1, rs2) = (24 + k % 8, 1 + k % 15, 16 + k % 8);
    match pattern {
        BY_DIVISOR if k > 0 => (rd, rs1, last),
        BY_DIVIDEND if k > 0 => (rd, last, rs2),
        _ => (rd, rs1, rs2),
    }
}

/// Word k on slots. The accesses are volatile, so that none is left out, kept in a register or done for several words at once.
///
/// # Safety
///
/// 32 slots stand at `x`.
#[inline(always)]
unsafe fn compiled<const PATTERN: usize, const K: usize>(
    x: *mut u64,
    operation: impl Fn(u64, u64) -> u64,
) {
    let (rd, rs1, rs2) = const { registers(PATTERN, K) };
    // SAFETY: As above.
    unsafe {
        let (a, b) = (x.add(rs1).read_volatile(), x.add(rs2).read_volatile());
        x.add(rd).write_volatile(operation(a, b));
    }
}

/// A function of the sixty-four operations, one behind the other as in a block, and their pattern.
macro_rules! sixty_four {
    ($name:ident, $pattern:ident) => {
        sixty_four!($name, $pattern, 0 8 16 24 32 40 48 56)
    };
    ($name:ident, $pattern:ident, $($k:literal)*) => {{
        #[inline(never)]
        fn all(x: &mut [u64; 32]) {
            let x = x.as_mut_ptr();
            // SAFETY: There are 32 slots.
            unsafe { $(
                compiled::<$pattern, { $k }>(x, operations::$name);
                compiled::<$pattern, { $k + 1 }>(x, operations::$name);
                compiled::<$pattern, { $k + 2 }>(x, operations::$name);
                compiled::<$pattern, { $k + 3 }>(x, operations::$name);
                compiled::<$pattern, { $k + 4 }>(x, operations::$name);
                compiled::<$pattern, { $k + 5 }>(x, operations::$name);
                compiled::<$pattern, { $k + 6 }>(x, operations::$name);
                compiled::<$pattern, { $k + 7 }>(x, operations::$name);
            )* }
        }
        Compiled { pattern: $pattern, all }
    }};
}

#[derive(Clone, Copy)]
struct Compiled {
    pattern: usize,
    all: fn(&mut [u64; 32]),
}

/// The words' values as one would write them in Rust.
mod operations {
    pub fn mulh(a: u64, b: u64) -> u64 {
        ((i128::from(a as i64) * i128::from(b as i64)) >> 64) as u64
    }

    pub fn mulhsu(a: u64, b: u64) -> u64 {
        ((i128::from(a as i64) * i128::from(b)) >> 64) as u64
    }

    pub fn mulhu(a: u64, b: u64) -> u64 {
        ((u128::from(a) * u128::from(b)) >> 64) as u64
    }

    pub fn div(a: u64, b: u64) -> u64 {
        if b == 0 {
            u64::MAX
        } else {
            (a as i64).wrapping_div(b as i64) as u64
        }
    }

    pub fn divu(a: u64, b: u64) -> u64 {
        a.checked_div(b).unwrap_or(u64::MAX)
    }

    pub fn rem(a: u64, b: u64) -> u64 {
        if b == 0 {
            a
        } else {
            (a as i64).wrapping_rem(b as i64) as u64
        }
    }

    pub fn remu(a: u64, b: u64) -> u64 {
        a.checked_rem(b).unwrap_or(a)
    }

    pub fn divw(a: u64, b: u64) -> u64 {
        let (a, b) = (a as i32, b as i32);
        (if b == 0 { -1 } else { a.wrapping_div(b) }) as u64
    }

    pub fn divuw(a: u64, b: u64) -> u64 {
        (a as u32).checked_div(b as u32).unwrap_or(u32::MAX) as i32 as u64
    }

    pub fn remw(a: u64, b: u64) -> u64 {
        let (a, b) = (a as i32, b as i32);
        (if b == 0 { a } else { a.wrapping_rem(b) }) as u64
    }

    pub fn remuw(a: u64, b: u64) -> u64 {
        (a as u32).checked_rem(b as u32).unwrap_or(a as u32) as i32 as u64
    }
}

/// Slots with operands as usual, no divisor being 0 or -1: dividends of 63 bits and divisors of 31, of either sign, or both positive and
/// of 31 and 15.
fn slots(narrow: bool) -> [u64; 32] {
    let mut r = Random::new(90);
    let mut x = [0; 32];
    let mut number = |bits: u32| {
        let magnitude = (r.u64() >> (64 - bits) | 2) as i64;
        let negative = !narrow && r.percent(50);
        (if negative { -magnitude } else { magnitude }) as u64
    };
    x[1..16].fill_with(|| number(if narrow { 31 } else { 63 }));
    x[16..24].fill_with(|| number(if narrow { 15 } else { 31 }));
    x
}

/// Enters the block that stands there.
fn enter(code: &[u8], x: &mut [u64; 32]) -> BlockResult {
    let none = null_mut();
    // SAFETY: `entered` passes a whole block in executable memory, which has no helper end.
    unsafe { block_fn(code.as_ptr())(x.as_mut_ptr(), none, none, none, none, none) }
}

/// No destination is 0 or -1 where it is a divisor, at either width.
fn as_usual(x: &[u64; 32], pattern: usize) -> bool {
    let unusual = |register: &u64| matches!(*register as i32, 0 | -1);
    pattern != BY_DIVISOR || !x[24..].iter().any(unusual)
}

/// A row: the block of sixty-four times the word, opcode and funct3 given, and the compiled function.
fn entered(name: &str, (opcode, funct3): (u32, u32), narrow: bool, compiled: Compiled) {
    let word = |k: usize| {
        let (rd, rs1, rs2) = registers(compiled.pattern, k);
        1 << 25 | (rs2 as u32) << 20 | (rs1 as u32) << 15 | funct3 << 12 | (rd as u32) << 7 | opcode
    };
    let run = halves(&(0..WORDS).map(word).collect::<Vec<_>>());
    let mut out = [0; GREATEST_BLOCK];
    let block = translate(&Request::new(START, &run), &mut out).unwrap();
    let mut store = CodeStore::new(executable(8192));
    let offset = store.place(block.bytes()).unwrap().offset;
    let code = &store.bytes()[offset..];

    let (mut ours, mut theirs) = (slots(narrow), slots(narrow));
    assert_eq!(enter(code, &mut ours).executed, WORDS as u64);
    (compiled.all)(&mut theirs);
    assert_eq!(ours, theirs, "{name}");
    assert!(as_usual(&ours, compiled.pattern), "{name}");
    row(
        name,
        WORDS,
        || {
            black_box(enter(black_box(code), black_box(&mut ours)));
        },
        || black_box(compiled.all)(black_box(&mut theirs)),
    );
}

pub fn rows() {
    /// Rows of words by name, opcode, funct3 and function.
    macro_rules! rows {
        ($title:literal, $what:literal, $narrow:literal, $pattern:ident: $($word:literal $opcode:literal $funct3:literal $name:ident)*) => {
            heading_beside($title, "rustc's, ns");
            $(entered(
                concat!($word, $what),
                ($opcode, $funct3),
                $narrow,
                sixty_four!($name, $pattern),
            );)*
        };
    }
    rows!("entering 64 words, one word", " entered", false, APART:
        "DIV" 0x33 4 div
        "DIVU" 0x33 5 divu
        "REM" 0x33 6 rem
        "REMU" 0x33 7 remu
        "DIVW" 0x3B 4 divw
        "DIVUW" 0x3B 5 divuw
        "REMW" 0x3B 6 remw
        "REMUW" 0x3B 7 remuw
        "MULH" 0x33 1 mulh
        "MULHSU" 0x33 2 mulhsu
        "MULHU" 0x33 3 mulhu);
    rows!("numbers below 2^31, one word", " entered, narrow", true, APART:
        "DIV" 0x33 4 div
        "DIVU" 0x33 5 divu
        "REM" 0x33 6 rem
        "REMU" 0x33 7 remu);
    rows!("each by the last one's result", " entered, in a chain", false, BY_DIVISOR:
        "DIV" 0x33 4 div);
    rows!("each of the last one's result", " entered, in a chain", false, BY_DIVIDEND:
        "REM" 0x33 6 rem
        "REMUW" 0x3B 7 remuw);
}
