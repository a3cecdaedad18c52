//! Random requests, and outputs whose bytes tell where they stand.

use crate::compressed;
use crate::support::random::Random;
use crate::support::runs::instructions;
use crate::support::words;
use emuko_original::Asked;
use emuko_x64_blocks::{Helpers, Request, GREATEST_BLOCK};

/// What the original is asked for by a request of this crate.
pub fn of_the_original<'a>(request: &Request<'a>) -> Asked<'a> {
    Asked {
        start: request.start,
        limit: request.limit,
        halfwords: request.halfwords,
        helpers: [request.helpers.halfword, request.helpers.memory],
    }
}

pub struct Wanted {
    pub start: u64,
    pub limit: u32,
    /// The run is what stands behind the first `skipped` ones, so that it begins at any address.
    pub halfwords: Vec<u16>,
    pub skipped: usize,
    pub helpers: Helpers,
    pub output: usize,
}

impl Wanted {
    /// A translation that a line of the corpus asks for: T, start, limit, the helpers, the output's length, the run.
    pub fn of_line(line: &str) -> Option<Self> {
        let fields: Vec<&str> = line.split(' ').collect();
        let ["T", start, limit, helper16, helper_mem, output, run] = fields[..] else {
            return None;
        };
        let hex = |field: &str| u64::from_str_radix(field, 16).ok();
        let halfwords = match run {
            "-" => Some(Vec::new()),
            _ => run.split(',').map(|half| Some(hex(half)? as u16)).collect(),
        };
        Some(Wanted {
            start: hex(start)?,
            limit: limit.parse().ok()?,
            halfwords: halfwords?,
            skipped: 0,
            helpers: Helpers {
                halfword: hex(helper16)?,
                memory: hex(helper_mem)?,
            },
            output: output.parse().ok()?,
        })
    }

    pub fn request(&self) -> Request<'_> {
        Request::new(self.start, &self.halfwords[self.skipped..])
            .limit(self.limit)
            .helpers(self.helpers)
    }
}

/// A run of halfwords: straight words, compressed ones among them in some, then an end of any sort; some with a FENCE.I between the
/// instructions.
pub fn run(r: &mut Random) -> Vec<u16> {
    let mut run = run_to_an_end(r);
    if r.percent(15) {
        let before = r.below(instructions(&run).count() as u64 + 1) as usize;
        let last = instructions(&run).take(before).last();
        let at = last.map_or(0, |(at, _)| at.end);
        run.splice(at..at, words::halves(words::fence_i(r)));
    }
    run
}

fn run_to_an_end(r: &mut Random) -> Vec<u16> {
    let mut run = match r.below(20) {
        0 => return (0..r.below(140)).map(|_| r.u32() as u16).collect(),
        1 => {
            let words = r.below(70);
            return (0..words)
                .flat_map(|_| words::halves(r.u32() | 3))
                .collect();
        }
        2 => the_same_word(r),
        3 => the_rest_of_m(r),
        4..=9 => mixed(r),
        _ => straight_words(r),
    };
    end(r, &mut run);
    // What stands behind the end must not matter, and behind no end it goes on.
    if r.percent(30) {
        for _ in 0..r.below(6) {
            run.push(r.u32() as u16);
        }
    }
    run
}

/// A long word again and again: DIVW alone reaches the greatest length, and SLLW, SRLW and SRAW are the longest of the original's.
fn the_same_word(r: &mut Random) -> Vec<u16> {
    let word = r.one_of(&[0x0220_C1BB, 0x0020_91BB, 0x0020_D1BB, 0x4020_D1BB]);
    words::halves(word).repeat(60 + r.below(8) as usize)
}

/// Registers that lists of turns begin with the most negative number in, and with -1: their quotient overflows.
pub const OVERFLOW: [usize; 2] = [29, 30];

/// Words of M whose results go to three registers, so that the values of the others stay operands; a fifth of them have those above.
fn the_rest_of_m(r: &mut Random) -> Vec<u16> {
    const RD: u32 = 31 << 7;
    const RS1_RS2: u32 = 31 << 15 | 31 << 20;
    let to = [28, 31, r.below(32) as u32];
    let longest = r.one_of(&[4, 16, 66]);
    let words = 1 + r.below(longest);
    let mut word = || {
        let word = words::of_m(r) & !RD | r.one_of(&to) << 7;
        if r.percent(20) {
            let [rs1, rs2] = OVERFLOW.map(|register| register as u32);
            word & !RS1_RS2 | rs1 << 15 | rs2 << 20
        } else {
            word
        }
    };
    (0..words).flat_map(|_| words::halves(word())).collect()
}

/// Straight words, in every second run none but the original's.
fn straight_words(r: &mut Random) -> Vec<u16> {
    let word = r.one_of(&[words::straight, words::straight_in_the_original]);
    let longest = r.one_of(&[1, 2, 4, 8, 16, 66, 70]);
    (0..r.below(longest))
        .flat_map(|_| words::halves(word(r)))
        .collect()
}

/// Straight words and compressed instructions, few of these, most or all.
fn mixed(r: &mut Random) -> Vec<u16> {
    let (longest, chances) = (r.one_of(&[2, 8, 16, 66, 70]), r.one_of(&[10, 50, 90, 100]));
    let mut run = Vec::new();
    for _ in 0..r.below(longest) {
        if r.percent(chances) {
            run.push(compressed::straight(r));
        } else {
            run.extend(words::halves(words::straight(r)));
        }
    }
    run
}

/// What stands behind straight words.
fn end(r: &mut Random, run: &mut Vec<u16>) {
    match r.below(14) {
        0..=2 => run.extend(words::halves(words::ending(r))),
        3..=4 => run.extend(words::halves(words::memory(r))),
        5..=6 => run.push(compressed::by_helper(r)),
        7..=8 => run.extend(words::halves(words::not_taken(r))),
        // A word without its second halfword.
        9 => run.push(r.u32() as u16 | 3),
        10..=11 => run.push(compressed::ending(r)),
        _ => {}
    }
}

pub fn start(r: &mut Random) -> u64 {
    match r.below(20) {
        0 => r.u64() | 1,
        1 => r.one_of(&[1, u64::MAX, 0x8000_0001]),
        2..=5 => 0u64.wrapping_sub(2 * r.below(160)),
        6 => r.one_of(&[0, 2, 1 << 63, (1 << 63) - 2]),
        7..=12 => r.u64() & !1,
        _ => 0x8000_0000,
    }
}

pub fn limit(r: &mut Random) -> u32 {
    match r.below(20) {
        0 => 0,
        1..=7 => 1 + r.below(65) as u32,
        8 => r.one_of(&[1, 2, 63, 64, 65]),
        9 => r.u32() | 64,
        10 => u32::MAX,
        _ => 64,
    }
}

pub fn wanted(r: &mut Random) -> Wanted {
    let helpers = Helpers {
        halfword: r.u64(),
        memory: r.u64(),
    };
    let output = match r.below(20) {
        // 2,243 was enough for every block before request Q-2, and is for the original's.
        0 => r.one_of(&[0, 1, 67, 2242, 2243, GREATEST_BLOCK - 1]),
        1 => r.below(GREATEST_BLOCK as u64) as usize,
        2..=5 => GREATEST_BLOCK + r.below(600) as usize,
        _ => GREATEST_BLOCK,
    };
    let skipped = r.below(8) as usize;
    let mut halfwords: Vec<u16> = (0..skipped).map(|_| r.u32() as u16).collect();
    halfwords.extend(run(r));
    Wanted {
        start: start(r),
        limit: limit(r),
        halfwords,
        skipped,
        helpers,
        output,
    }
}

/// The greatest length lent.
const LONGEST: usize = 8320;
/// Bytes on both sides of what is lent, at least.
const MARGIN: usize = 64;
/// What is lent begins at as many different places.
const PLACES: usize = 256;

/// Bytes to lend a part of, each time from the next place on. Before each use they are set to a pattern in which no two places near each
/// other can be confused; after it, all but what was to be written must still be that pattern.
pub struct Lent {
    bytes: Vec<u8>,
    pattern: Vec<u8>,
    place: usize,
}

impl Lent {
    pub fn new(seed: u64) -> Self {
        let mut r = Random::new(seed);
        let all = LONGEST + PLACES + 2 * MARGIN;
        let pattern: Vec<u8> = (0..all).map(|_| r.u32() as u8).collect();
        Lent {
            bytes: pattern.clone(),
            pattern,
            place: MARGIN,
        }
    }

    pub fn lend(&mut self, length: usize) -> &mut [u8] {
        self.bytes.copy_from_slice(&self.pattern);
        self.place = MARGIN + (self.place - MARGIN + 1) % PLACES;
        &mut self.bytes[self.place..self.place + length]
    }

    /// Whether exactly these bytes have been written, at this offset of what was lent. Bytes that were written as they had been cannot be
    /// told from bytes not written.
    pub fn holds(&self, offset: usize, written: &[u8]) -> bool {
        let from = self.place + offset;
        let to = from + written.len();
        self.bytes[..from] == self.pattern[..from]
            && self.bytes[from..to] == *written
            && self.bytes[to..] == self.pattern[to..]
    }
}
