//! Guest instructions of every sort that document 01 and the requests name.

use crate::support::random::Random;

/// What stands in bits 31 to 20 of a word besides its registers.
#[derive(Clone, Copy)]
enum Top {
    /// An immediate of twelve bits, or any other fields.
    Any,
    /// Bits 31 to 26 are these, a shift amount of six bits below.
    Six(u32),
    /// Bits 31 to 25 are these, a register or a shift amount of five bits below.
    Seven(u32),
}

use Top::{Any, Seven, Six};

const JALR: u32 = 0x67;
const BRANCH: u32 = 0x63;
const OP_IMM: u32 = 0x13;
const OP_IMM_32: u32 = 0x1B;
const OP: u32 = 0x33;
const OP_32: u32 = 0x3B;
const MISC_MEM: u32 = 0x0F;
const LOAD: u32 = 0x03;
const STORE: u32 = 0x23;

/// The words that the original Rust translates and that do not end a block, by opcode and funct3; LUI and AUIPC stand first and have no
/// funct3.
const STRAIGHT: [(u32, u32, Top); 33] = [
    (0x37, 0, Any),
    (0x17, 0, Any),
    (OP_IMM, 0, Any),
    (OP_IMM, 2, Any),
    (OP_IMM, 3, Any),
    (OP_IMM, 4, Any),
    (OP_IMM, 6, Any),
    (OP_IMM, 7, Any),
    (OP_IMM, 1, Six(0)),
    (OP_IMM, 5, Six(0)),
    (OP_IMM, 5, Six(0x10)),
    (OP_IMM_32, 0, Any),
    (OP_IMM_32, 1, Seven(0)),
    (OP_IMM_32, 5, Seven(0)),
    (OP_IMM_32, 5, Seven(0x20)),
    (OP, 0, Seven(0)),
    (OP, 1, Seven(0)),
    (OP, 2, Seven(0)),
    (OP, 3, Seven(0)),
    (OP, 4, Seven(0)),
    (OP, 5, Seven(0)),
    (OP, 6, Seven(0)),
    (OP, 7, Seven(0)),
    (OP, 0, Seven(0x20)),
    (OP, 5, Seven(0x20)),
    (OP, 0, Seven(1)),
    (OP_32, 0, Seven(0)),
    (OP_32, 1, Seven(0)),
    (OP_32, 5, Seven(0)),
    (OP_32, 0, Seven(0x20)),
    (OP_32, 5, Seven(0x20)),
    (OP_32, 0, Seven(1)),
    (MISC_MEM, 0, Any),
];

/// The rest of M, which is translated since request Q-2: opcode and funct3, funct7 being 1.
const REST_OF_M: [(u32, u32); 11] = [
    (OP, 1),
    (OP, 2),
    (OP, 3),
    (OP, 4),
    (OP, 5),
    (OP, 6),
    (OP, 7),
    (OP_32, 4),
    (OP_32, 5),
    (OP_32, 6),
    (OP_32, 7),
];

/// Opcodes of which no word is translated: SYSTEM, AMO, floating point, those kept for other uses, and those of longer instructions.
const NEVER: [u32; 20] = [
    0x73, 0x2F, 0x07, 0x27, 0x43, 0x47, 0x4B, 0x4F, 0x53, 0x0B, 0x2B, 0x5B, 0x7B, 0x57, 0x77, 0x6B,
    0x1F, 0x3F, 0x5F, 0x7F,
];

fn register(r: &mut Random) -> u32 {
    if r.percent(40) {
        r.one_of(&[0, 1, 2, 15, 16, 31])
    } else {
        r.below(32) as u32
    }
}

/// Destination and two sources, often the same ones.
fn registers(r: &mut Random) -> (u32, u32, u32) {
    let (a, b, c) = (register(r), register(r), register(r));
    match r.below(10) {
        0 => (b, b, c),
        1 => (c, b, c),
        2 => (a, b, b),
        3 => (b, b, b),
        _ => (a, b, c),
    }
}

fn twelve(r: &mut Random) -> u32 {
    if r.percent(40) {
        r.one_of(&[0, 1, 2, 31, 32, 63, 64, 0x7FF, 0x800, 0x801, 0xFFE, 0xFFF])
    } else {
        r.below(1 << 12) as u32
    }
}

fn word(r: &mut Random, opcode: u32, funct3: u32, top: Top) -> u32 {
    let (rd, rs1, rs2) = registers(r);
    let upper = match top {
        Any => twelve(r),
        Six(six) => {
            let any = r.below(64) as u32;
            six << 6 | r.one_of(&[0, 1, 31, 32, 63, any])
        }
        Seven(seven) => seven << 5 | rs2,
    };
    upper << 20 | rs1 << 15 | funct3 << 12 | rd << 7 | opcode
}

fn upper_word(r: &mut Random, opcode: u32) -> u32 {
    let twenty = if r.percent(40) {
        r.one_of(&[0, 1, 0x7FFFF, 0x80000, 0x80001, 0xFFFFF])
    } else {
        r.below(1 << 20) as u32
    };
    twenty << 12 | register(r) << 7 | opcode
}

/// A word that the original translates, and that does not end the block.
pub fn straight_in_the_original(r: &mut Random) -> u32 {
    let (opcode, funct3, top) = r.one_of(&STRAIGHT);
    match opcode {
        0x37 | 0x17 => upper_word(r, opcode),
        _ => word(r, opcode, funct3, top),
    }
}

/// One of the eleven words of request Q-2.
pub fn rest_of_m(r: &mut Random) -> u32 {
    let (opcode, funct3) = r.one_of(&REST_OF_M);
    word(r, opcode, funct3, Seven(1))
}

/// A word of M: the eleven, MUL or MULW.
pub fn of_m(r: &mut Random) -> u32 {
    match r.below(13) {
        0 => word(r, OP, 0, Seven(1)),
        1 => word(r, OP_32, 0, Seven(1)),
        _ => rest_of_m(r),
    }
}

/// A word that is translated and does not end the block.
pub fn straight(r: &mut Random) -> u32 {
    if r.percent(25) {
        rest_of_m(r)
    } else {
        straight_in_the_original(r)
    }
}

/// FENCE.I, whatever its other fields.
pub fn fence_i(r: &mut Random) -> u32 {
    word(r, MISC_MEM, 1, Any)
}

/// A word that is translated and ends the block.
pub fn ending(r: &mut Random) -> u32 {
    if r.percent(20) {
        fence_i(r)
    } else {
        jump(r)
    }
}

/// A jump or branch.
pub fn jump(r: &mut Random) -> u32 {
    match r.below(4) {
        0 => upper_word(r, 0x6F),
        1 => word(r, JALR, 0, Any),
        _ => {
            let funct3 = r.one_of(&[0, 1, 4, 5, 6, 7]);
            let seven = r.below(128) as u32;
            word(r, BRANCH, funct3, Seven(seven))
        }
    }
}

/// JALR's opcode with a reserved funct3, which is not taken since request Q-6.
pub fn reserved_jalr(r: &mut Random) -> u32 {
    let funct3 = 1 + r.below(7) as u32;
    word(r, JALR, funct3, Any)
}

/// A load or store that ends the block by a helper.
pub fn memory(r: &mut Random) -> u32 {
    if r.percent(60) {
        let funct3 = r.below(7) as u32;
        word(r, LOAD, funct3, Any)
    } else {
        let funct3 = r.below(4) as u32;
        word(r, STORE, funct3, Any)
    }
}

/// A compressed halfword, of any sort: its low two bits are not 3.
pub fn halfword(r: &mut Random) -> u16 {
    let low = r.below(3) as u16;
    if r.percent(10) {
        return low;
    }
    (r.u32() as u16) & !3 | low
}

/// A number below n that is none of these.
fn other(r: &mut Random, n: u64, but: &[u32]) -> u32 {
    loop {
        let k = r.below(n) as u32;
        if !but.contains(&k) {
            return k;
        }
    }
}

/// A word of OP or OP_32 that is not taken: it leaves its two loads.
fn not_taken_op(r: &mut Random) -> u32 {
    match r.below(5) {
        // A funct7 of no row.
        0 => {
            let funct3 = r.below(8) as u32;
            let seven = other(r, 128, &[0, 1, 0x20]);
            word(r, OP, funct3, Seven(seven))
        }
        1 => {
            let funct3 = r.one_of(&[1, 2, 3, 4, 6, 7]);
            word(r, OP, funct3, Seven(0x20))
        }
        2 => {
            let funct3 = r.below(8) as u32;
            let seven = other(r, 128, &[0, 1, 0x20]);
            word(r, OP_32, funct3, Seven(seven))
        }
        3 => {
            let funct3 = r.one_of(&[2, 3, 4, 6, 7]);
            let seven = r.one_of(&[0, 0x20]);
            word(r, OP_32, funct3, Seven(seven))
        }
        // M has no W forms of MULH, MULHSU and MULHU.
        _ => {
            let (funct3, seven) = r.one_of(&[(1, 1), (2, 1), (3, 1), (1, 0x20)]);
            word(r, OP_32, funct3, Seven(seven))
        }
    }
}

/// A word of OP_IMM or OP_IMM_32 that is not taken: it leaves its load.
fn not_taken_immediate(r: &mut Random) -> u32 {
    match r.below(4) {
        0 => {
            let six = other(r, 64, &[0]);
            word(r, OP_IMM, 1, Six(six))
        }
        1 => {
            let six = other(r, 64, &[0, 0x10]);
            word(r, OP_IMM, 5, Six(six))
        }
        2 => {
            let (funct3, but) = r.one_of(&[(1, [0, 0]), (5, [0, 0x20])]);
            let seven = other(r, 128, &but);
            word(r, OP_IMM_32, funct3, Seven(seven))
        }
        _ => {
            let funct3 = r.one_of(&[2, 3, 4, 6, 7]);
            word(r, OP_IMM_32, funct3, Any)
        }
    }
}

/// A word that is not taken, of any sort.
pub fn not_taken(r: &mut Random) -> u32 {
    match r.below(14) {
        0..=4 => not_taken_op(r),
        5..=8 => not_taken_immediate(r),
        9 => {
            let funct3 = r.one_of(&[2, 3]);
            word(r, BRANCH, funct3, Any)
        }
        10 => {
            let funct3 = 2 + r.below(6) as u32;
            word(r, MISC_MEM, funct3, Any)
        }
        11 => {
            let (opcode, funct3) =
                r.one_of(&[(LOAD, 7), (STORE, 4), (STORE, 5), (STORE, 6), (STORE, 7)]);
            word(r, opcode, funct3, Any)
        }
        12 => reserved_jalr(r),
        _ => {
            let opcode = r.one_of(&NEVER);
            r.u32() << 7 | opcode
        }
    }
}

/// The two halfwords of a word, as they stand in memory.
pub fn halves(word: u32) -> [u16; 2] {
    [word as u16, (word >> 16) as u16]
}
