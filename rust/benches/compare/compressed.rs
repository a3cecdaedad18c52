//! Runs of compressed instructions beside the same words uncompressed, both by this crate: request Q-7 wants a word in at most 1.2 times the
//! time.

use crate::runs::{halves, START};
use crate::support::random::Random;
use crate::support::words;
use crate::time::{heading_beside, row};
use emuko_x64_blocks::{expansion, translate, word_kind, Request, Run, WordKind, GREATEST_BLOCK};
use std::convert::Infallible;
use std::hint::black_box;

const KINDS: [(&str, u16); 6] = [
    ("C.SLLI", 0x0532), // C.SLLI a0, 12
    ("C.MV", 0x852E),   // C.MV a0, a1
    ("C.ADDI", 0x0505), // C.ADDI a0, 1
    ("C.LI", 0x4515),   // C.LI a0, 5
    ("C.LUI", 0x757D),  // C.LUI a0, 0xFFFFF
    ("C.AND", 0x8D6D),  // C.AND a0, a1
];

/// Words between which the compressed instructions of a mixed run stand.
const WORDS: [u32; 8] = [
    0x0050_0093, // ADDI x1, x0, 5
    0x0020_81B3, // ADD x3, x1, x2
    0x4030_8233, // SUB x4, x1, x3
    0x00A2_E313, // ORI x6, x5, 10
    0x1234_5537, // LUI x10, 0x12345
    0x00C5_063B, // ADDW x12, x10, x12
    0x00B6_2733, // SLT x14, x12, x11
    0x02E7_87B3, // MUL x15, x15, x14
];

/// A run with compressed instructions, and the same with words alone.
struct Pair {
    compressed: Vec<u16>,
    words: Vec<u16>,
}

impl Pair {
    /// Both make the same block, where what follows the last instruction has the same address.
    fn new(compressed: Vec<u16>) -> Self {
        let words = uncompressed(&compressed);
        let shorter = 2 * (words.len() - compressed.len()) as u64;
        let (mut out, mut other) = ([0; GREATEST_BLOCK], [0; GREATEST_BLOCK]);
        let block = translate(&Request::new(START + shorter, &compressed), &mut out).unwrap();
        let expected = translate(&Request::new(START, &words), &mut other).unwrap();
        assert_eq!(block.count() as usize, words.len() / 2);
        assert_eq!(block.count(), expected.count());
        assert!(block.bytes() == expected.bytes());
        Pair { compressed, words }
    }
}

/// The run with its words, whatever their size, as 32 bits each.
fn uncompressed(run: &[u16]) -> Vec<u16> {
    let (mut words, mut rest) = (Vec::new(), run);
    while let [low, ..] = *rest {
        let length = match expansion(low) {
            Some(word) => {
                words.extend(halves(&[word]));
                1
            }
            None => {
                words.extend(&rest[..2]);
                2
            }
        };
        rest = &rest[length..];
    }
    words
}

/// So many instructions, of which the second, the fourth and so on are words if some are to be.
fn of_six_kinds(number: usize, all_compressed: bool) -> Vec<u16> {
    let mut run = Vec::new();
    for k in 0..number {
        match k % 2 {
            1 if !all_compressed => run.extend(halves(&[WORDS[k / 2 % WORDS.len()]])),
            _ => run.push(KINDS[k % KINDS.len()].1),
        }
    }
    run
}

/// Different runs, of any compressed instructions behind which a block goes on. In turn they are more than a branch predictor learns. AUIPC,
/// whose value depends on its place, is not among the words.
fn varied(number: usize, instructions: usize, chances: u64) -> Vec<Pair> {
    let mut r = Random::new(120 + chances);
    let mut instruction = |run: &mut Vec<u16>| loop {
        let (half, word) = (r.u32() as u16, words::straight_in_the_original(&mut r));
        let straight = expansion(half).map(word_kind) == Some(WordKind::Straight);
        match r.percent(chances) {
            true if straight => return run.push(half),
            false if word & 0x7F != 0x17 => return run.extend(halves(&[word])),
            _ => {}
        }
    };
    let mut pair = || {
        let mut run = Vec::new();
        (0..instructions).for_each(|_| instruction(&mut run));
        Pair::new(run)
    };
    (0..number).map(|_| pair()).collect()
}

/// Translates a run.
fn translated(run: &[u16], out: &mut [u8]) {
    let _ = black_box(translate(&Request::new(START, black_box(run)), out));
}

/// Fetches a run halfword by halfword, and translates it.
fn fetched(code: &[u16], out: &mut [u8]) {
    let mut run = Run::new();
    let fetch = |address: u64| {
        let index = (address - START) as usize / 2;
        // Behind the run stands what a helper executes.
        Ok::<u16, Infallible>(black_box(code).get(index).copied().unwrap_or(0))
    };
    let Ok(()) = run.fetch(START, 64, fetch);
    translated(&run, out);
}

/// A row of runs in turn.
fn beside(name: &str, pairs: &[Pair], once: fn(&[u16], &mut [u8])) {
    let (mut out, mut other) = (vec![0; GREATEST_BLOCK], vec![0; GREATEST_BLOCK]);
    row(
        name,
        pairs.len(),
        || {
            pairs
                .iter()
                .for_each(|pair| once(&pair.compressed, &mut out))
        },
        || pairs.iter().for_each(|pair| once(&pair.words, &mut other)),
    );
}

pub fn rows() {
    let one = |run| vec![Pair::new(run)];
    let runs = [
        ("64 of six kinds, compressed", one(of_six_kinds(64, true))),
        ("64, half of them compressed", one(of_six_kinds(64, false))),
        ("512 runs of 16, compressed", varied(512, 16, 100)),
        ("512 runs of 16, half compressed", varied(512, 16, 50)),
    ];
    heading_beside("translating", "as words, ns");
    for (name, halfword) in KINDS {
        let pairs = one(vec![halfword; 64]);
        beside(&format!("64 x {name}, compressed"), &pairs, translated);
    }
    for (name, pairs) in &runs {
        beside(name, pairs, translated);
    }
    heading_beside("fetching and translating", "as words, ns");
    for (name, pairs) in &runs {
        beside(name, pairs, fetched);
    }
}
