//! Random requests: replies and every byte of the output against the original Rust, whose run is cut behind a FENCE.I and has stand-ins
//! (module `judged`).

use crate::compressed;
use crate::fence_i::instructions_to_fence_i;
use crate::reserved_jalr::{ends_block, first_reserved};
use crate::rest_of_m::first_of_the_rest;
use crate::spans;
use crate::support::judged::judged;
use crate::support::random::Random;
use crate::support::requests::{self, Lent, Wanted};
use crate::support::runs::instructions;
use crate::support::words::{self, halves};
use emuko_original::{Answer, Emuko, Original, CODE_SIZE};
use emuko_x64_blocks::{translate, Refusal, Request, GREATEST_BLOCK};

/// Length, count and span of a block.
#[derive(Clone, Copy, Debug, PartialEq, Eq)]
pub struct Size {
    pub length: usize,
    pub count: u32,
    pub span: u64,
}

/// The original, and what a comparison needs again and again.
pub struct Comparison {
    original: Original,
    bytes: Vec<u8>,
    lent: Lent,
}

impl Comparison {
    pub fn new(seed: u64) -> Self {
        Comparison {
            original: Original::new(CODE_SIZE),
            bytes: Vec::new(),
            lent: Lent::new(seed),
        }
    }

    /// What the original says to a request, asked as above, and the span of as many instructions as it counts; its block's bytes are then
    /// in `self.bytes`.
    fn expected(&mut self, request: &Request, output: usize) -> Result<Size, Refusal> {
        let asked = requests::of_the_original(request);
        let answer = judged(&mut self.original, asked, &mut self.bytes);
        match answer {
            // Document 01 adds number 5 and tests it last. It goes by the greatest block of all, not by this one.
            Answer::Block(_) if output < GREATEST_BLOCK => Err(Refusal::OutputTooShort),
            Answer::Block(count) => Ok(Size {
                length: self.bytes.len(),
                count,
                span: spans::of(request.halfwords, count),
            }),
            Answer::LimitZero => Err(Refusal::LimitZero),
            Answer::OddStart(start) => Err(Refusal::OddStart(start)),
            Answer::Missing(index) => Err(Refusal::MissingHalfword(index.try_into().unwrap())),
            Answer::NotTaken(word) => Err(Refusal::NotTaken(word)),
        }
    }

    /// Asks both and compares; gives the reply.
    pub fn reply(&mut self, request: &Request, output: usize) -> Result<Size, Refusal> {
        let expected = self.expected(request, output);
        let reply = translate(request, self.lent.lend(output)).map(|block| Size {
            length: block.bytes().len(),
            count: block.count(),
            span: block.span(),
        });
        assert_eq!(reply, expected, "{request:x?}, output {output}");
        let written = match reply {
            Ok(_) => &self.bytes[..],
            Err(_) => &[],
        };
        assert!(
            self.lent.holds(0, written),
            "wrong bytes: {request:x?}, output {output}"
        );
        reply
    }

    /// What becomes of a word by the original's own matches, in which FENCE.I is straight, the rest of M is not taken and JALR has any funct3.
    pub fn kind(&mut self, word: u32) -> u32 {
        self.original.kind(word, &mut self.bytes)
    }

    fn wanted(&mut self, wanted: &Wanted) -> Result<Size, Refusal> {
        self.reply(&wanted.request(), wanted.output)
    }
}

/// How often each reply was seen, so that a generator which loses a kind is noticed.
#[derive(Debug)]
struct Seen {
    counts: [u32; 65],
    greatest: u32,
    /// Blocks of 2,243 bytes, the original's greatest.
    original_greatest: u32,
    refusals: [u32; 6],
    missing: [u32; 2],
    /// Blocks that a FENCE.I has ended: with less behind it than a word, and with more.
    by_fence_i: [u32; 2],
    /// Blocks that hold none of the rest of M, have one of it as their first word, and have one behind others.
    rest_of_m: [u32; 3],
    /// JALR's opcode with a reserved funct3: as the first word, and where it ends a block.
    reserved_jalr: [u32; 2],
    compressed: Compressed,
}

/// Blocks with compressed instructions in line.
#[derive(Debug, Default)]
struct Compressed {
    /// Straight ones in blocks that have words too, in blocks that have none, and sixty-four in a block.
    straight: [u32; 3],
    /// Blocks that one ends: as the only instruction, behind compressed ones alone, and behind words too.
    ending: [u32; 3],
    /// Behind which stands a load or store of 32 bits, or a halfword, that a helper executes.
    by_helper: [u32; 2],
    /// Among which AUIPC stands.
    auipc: u32,
}

impl Compressed {
    /// Adds a block of so many instructions.
    fn add(&mut self, halfwords: &[u16], count: usize) {
        let block: Vec<_> = instructions(halfwords).take(count).collect();
        let in_line = block.iter().filter(|(at, _)| at.len() == 1).count();
        if in_line == 0 {
            return;
        }
        // A halfword that a helper executes is counted, and is none of these.
        self.by_helper[1] += (block.len() < count) as u32;
        let (last, word) = block.last().unwrap();
        self.by_helper[0] += [0x03, 0x23].contains(&(word & 0x7F)) as u32;
        self.auipc += block.iter().any(|(_, word)| word & 0x7F == 0x17) as u32;
        let words = block.len() - in_line;
        if last.len() == 1 && compressed::ends(*word) {
            let which = if words > 0 { 2 } else { (count > 1) as usize };
            self.ending[which] += 1;
        } else {
            let which = if words > 0 {
                0
            } else {
                1 + (in_line == 64) as usize
            };
            self.straight[which] += 1;
        }
    }
}

impl Seen {
    fn new() -> Self {
        Seen {
            counts: [0; 65],
            greatest: 0,
            original_greatest: 0,
            refusals: [0; 6],
            missing: [0; 2],
            by_fence_i: [0; 2],
            rest_of_m: [0; 3],
            reserved_jalr: [0; 2],
            compressed: Compressed::default(),
        }
    }

    fn add(&mut self, halfwords: &[u16], limit: u32, reply: Result<Size, Refusal>) {
        match reply {
            Ok(block) => {
                self.counts[block.count as usize] += 1;
                let count = block.count as usize;
                if instructions_to_fence_i(halfwords) == Some(count) {
                    let behind = halfwords.len() - block.span as usize / 2;
                    self.by_fence_i[(behind > 1) as usize] += 1;
                }
                self.compressed.add(halfwords, count);
                let which = match first_of_the_rest(halfwords) {
                    Some(0) => 1,
                    Some(first) if first < count => 2,
                    _ => 0,
                };
                self.rest_of_m[which] += 1;
                self.reserved_jalr[1] += ends_block(halfwords, count, limit) as u32;
                self.greatest += (block.length == GREATEST_BLOCK) as u32;
                self.original_greatest += (block.length == 2243) as u32;
            }
            Err(refusal) => {
                self.refusals[refusal.number() as usize] += 1;
                match refusal {
                    Refusal::MissingHalfword(index) => self.missing[index as usize] += 1,
                    Refusal::NotTaken(_) => {
                        let first = first_reserved(halfwords) == Some(0);
                        self.reserved_jalr[0] += first as u32;
                    }
                    _ => {}
                }
            }
        }
    }
}

fn random_requests(seed: u64, number: u32) {
    let mut r = Random::new(seed);
    let mut comparison = Comparison::new(seed);
    let mut seen = Seen::new();
    for _ in 0..number {
        let wanted = requests::wanted(&mut r);
        let reply = comparison.wanted(&wanted);
        let request = wanted.request();
        seen.add(request.halfwords, request.limit, reply);
    }
    println!("{seen:?}");
    assert!(seen.counts[1..].iter().all(|n| *n > 0), "{seen:?}");
    assert!(seen.greatest > 100 && seen.original_greatest > 100);
    assert!(seen.refusals[1..].iter().all(|n| *n > 1000), "{seen:?}");
    assert!(seen.missing.iter().all(|n| *n > 100), "{seen:?}");
    assert!(seen.by_fence_i.iter().all(|n| *n > 20_000), "{seen:?}");
    assert!(seen.rest_of_m.iter().all(|n| *n > 50_000), "{seen:?}");
    assert!(seen.reserved_jalr.iter().all(|n| *n > 1_000), "{seen:?}");
    let Compressed {
        straight,
        ending,
        by_helper,
        auipc,
    } = seen.compressed;
    let compressed = [&straight[..], &ending, &by_helper, &[auipc]].concat();
    assert!(compressed.iter().all(|n| *n > 500), "{seen:?}");
}

#[test]
fn random_requests_first_seed() {
    random_requests(1, 1_000_000);
}

#[test]
fn random_requests_second_seed() {
    random_requests(2, 1_000_000);
}

/// So many straight instructions, of which about so many out of a hundred are compressed, then an end by its number: the first five count.
fn run_to(r: &mut Random, instructions: u32, chances: u64, end: u32) -> Vec<u16> {
    let mut run = Vec::new();
    for _ in 0..instructions {
        if r.percent(chances) {
            run.push(compressed::straight(r));
        } else {
            run.extend(halves(words::straight(r)));
        }
    }
    match end {
        0 => run.extend(halves(words::ending(r))),
        1 => run.extend(halves(words::memory(r))),
        // Something behind it, which is no more of the block.
        2 => run.extend([compressed::by_helper(r), 0x0001]),
        3 => run.extend([compressed::ending(r), 0x0001]),
        4 => {
            run.extend(halves(words::fence_i(r)));
            run.extend(halves(words::straight(r)));
        }
        5 => run.extend(halves(words::not_taken(r))),
        6 => run.push(0x0093),
        _ => {}
    }
    run
}

/// Every end at every count: n straight instructions, words or compressed ones or both, then each sort of end, under limits below, at and
/// above what is there.
#[test]
fn every_end_at_every_count() {
    let mut r = Random::new(3);
    let mut comparison = Comparison::new(3);
    let mut requests = 0;
    for (n, chances) in (0..=65).flat_map(|n| [(n, 0), (n, 50), (n, 100)]) {
        for end in 0..8 {
            for limit in [n.max(1) - 1, n, n + 1, 64, 65] {
                let halfwords = run_to(&mut r, n, chances, end);
                let wanted = Wanted {
                    start: requests::start(&mut r) & !1,
                    limit,
                    halfwords,
                    skipped: 0,
                    helpers: Default::default(),
                    output: GREATEST_BLOCK,
                };
                let reply = comparison.wanted(&wanted);
                // An end counts where a helper or a word takes it, and where the limit lets it be reached.
                let taken = n + (end < 5) as u32;
                match reply {
                    Ok(block) => assert_eq!(block.count, taken.min(limit).min(64)),
                    Err(refusal) => {
                        assert!(limit == 0 || taken == 0, "{refusal}: {n} {end} {limit}")
                    }
                }
                requests += 1;
            }
        }
    }
    assert_eq!(requests, 66 * 3 * 8 * 5);
}

/// Every length of the output below the greatest block is refused, and none above it, whatever the block's length: ADDI alone, and the
/// original's greatest block, which an output of 2,243 bytes would hold.
#[test]
fn every_output_length() {
    let mut comparison = Comparison::new(4);
    let mut lengths = 0;
    for (word, words, length) in [(0x0050_0093, 1, 88), (0x0020_91BB, 64, 2243)] {
        let run = halves(word).repeat(words);
        let request = Request::new(0x8000_0000, &run);
        for output in 0..GREATEST_BLOCK {
            let reply = comparison.reply(&request, output);
            assert_eq!(reply, Err(Refusal::OutputTooShort));
            lengths += 1;
        }
        for output in GREATEST_BLOCK..GREATEST_BLOCK + 300 {
            let reply = comparison.reply(&request, output);
            let (count, span) = (words as u32, 4 * words as u64);
            let size = Size {
                length,
                count,
                span,
            };
            assert_eq!(reply, Ok(size));
            lengths += 1;
        }
    }
    assert_eq!(lengths, 2 * (4099 + 300));
}
