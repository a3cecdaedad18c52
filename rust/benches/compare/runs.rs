//! The runs of words that are translated.

use crate::support::random::Random;
use crate::support::words;

pub const START: u64 = 0x8000_0000;

/// One run, translated again and again.
pub struct Case {
    pub name: &'static str,
    pub run: Vec<u16>,
    /// The block's count, 0 where the first word is refused.
    pub count: u32,
}

pub fn halves(words: &[u32]) -> Vec<u16> {
    words.iter().flat_map(|word| words::halves(*word)).collect()
}

/// What the mixes are made of.
const UNIT: [u32; 16] = [
    0x0050_0093, // ADDI x1, x0, 5
    0x0020_81B3, // ADD x3, x1, x2
    0x4030_8233, // SUB x4, x1, x3
    0x0041_F2B3, // AND x5, x3, x4
    0x00A2_E313, // ORI x6, x5, 10
    0x00C3_1393, // SLLI x7, x6, 12
    0x0073_D413, // SRLI x8, x7, 7
    0x1234_5537, // LUI x10, 0x12345
    0x0000_0597, // AUIPC x11, 0
    0x0015_861B, // ADDIW x12, x11, 1
    0x00C5_063B, // ADDW x12, x10, x12
    0x00B6_2733, // SLT x14, x12, x11
    0x02E7_87B3, // MUL x15, x15, x14
    0x0FF7_F813, // ANDI x16, x15, 255
    0x0018_3893, // SLTIU x17, x16, 1
    0x0000_000F, // FENCE
];

pub fn cases() -> Vec<Case> {
    let bne = 0xFE20_9CE3; // BNE x1, x2, -8
    let ld = 0x0000_B083; // LD x1, 0(x1)
    let fence_i = 0x0000_100F; // with nothing behind it, which the original would take into its block
    let refused = 0x4020_C1B3; // funct7 0x20 on funct3 4 of OP
    let mut long = UNIT.repeat(4);
    long[63] = bne;
    let mut short = UNIT.to_vec();
    short[15] = bne;
    let case = |name, words: &[u32], count| Case {
        name,
        run: halves(words),
        count,
    };
    vec![
        case("64 x SLLW", &[0x0020_91BB; 64], 64),
        case("64-word mix", &long, 64),
        case("16-word mix", &short, 16),
        case("a load alone, by a helper", &[ld], 1),
        case("8 words and a load", &[&UNIT[..8], &[ld]].concat(), 9),
        case(
            "15 words and FENCE.I",
            &[&UNIT[..15], &[fence_i]].concat(),
            16,
        ),
        case("a refused word of OP first", &[refused], 0),
    ]
}

/// Sixty-four times a word that the original does not take, x3, x1 and x2 being its registers: the last makes the greatest block.
pub fn rest_of_m() -> Vec<Case> {
    let case = |name, word| Case {
        name,
        run: halves(&[word; 64]),
        count: 64,
    };
    vec![
        case("64 x DIV", 0x0220_C1B3),
        case("64 x REMUW", 0x0220_F1BB),
        case("64 x MULH", 0x0220_91B3),
        case("64 x DIVW", 0x0220_C1BB),
    ]
}

/// Different runs of so many words, each ended by a jump or branch. In turn they are more than a branch predictor learns. The original
/// takes all of these words.
pub fn varied(number: usize, words: usize, seed: u64) -> Vec<Vec<u16>> {
    let mut r = Random::new(seed);
    let mut run = || {
        let straight = words::straight_in_the_original;
        let mut run: Vec<u32> = (1..words).map(|_| straight(&mut r)).collect();
        run.push(words::jump(&mut r));
        halves(&run)
    };
    (0..number).map(|_| run()).collect()
}
