//! The first word's kind: taken, not taken or by a helper, and the block's bytes, against the original Rust. Of the 2^32 words all
//! values of opcode, funct3 and funct7 are tried with each register field at its limits, and every halfword.
//! Of another kind than in the original are FENCE.I (request Q-1), the rest of M and JALR's opcode with funct3 1 to 7.

use crate::against_original::{Comparison, Size};
use crate::compressed::in_line;
use crate::fence_i::is_fence_i;
use crate::reserved_jalr::is_reserved_jalr;
use crate::rest_of_m::rest_of_m;
use crate::support::random::Random;
use crate::support::words;
use emuko_x64_blocks::{expansion, word_kind, Helpers, Refusal, Request, WordKind, GREATEST_BLOCK};

const LIMITS: [u32; 5] = [0, 1, 15, 16, 31];
const HELPERS: Helpers = Helpers {
    halfword: 0x1122_3344_5566_7788,
    memory: 0x99AA_BBCC_DDEE_FF00,
};

/// The word's kind, as the original's matches have it, but for FENCE.I, which is straight there and ends its block here, for the rest
/// of M, which is not taken there and straight here, and for JALR with a reserved funct3, which ends its block there and is not taken here;
/// the translation of the word alone tells whether it is taken.
fn kind(comparison: &mut Comparison, start: u64, word: u32) -> WordKind {
    let kind = word_kind(word);
    let original = comparison.kind(word);
    if is_fence_i(word) {
        assert_eq!(original, WordKind::Straight as u32, "{word:08x}");
        assert_eq!(kind, WordKind::Ending, "{word:08x}");
    } else if rest_of_m(word).is_some() {
        assert_eq!(original, WordKind::NotTaken as u32, "{word:08x}");
        assert_eq!(kind, WordKind::Straight, "{word:08x}");
    } else if is_reserved_jalr(word) {
        assert_eq!(original, WordKind::Ending as u32, "{word:08x}");
        assert_eq!(kind, WordKind::NotTaken, "{word:08x}");
    } else {
        assert_eq!(kind as u32, original, "{word:08x}");
    }
    let taken = taken(comparison, start, word);
    assert_eq!(taken, kind != WordKind::NotTaken, "{word:08x}");
    kind
}

/// Whether a first word is taken.
fn taken(comparison: &mut Comparison, start: u64, word: u32) -> bool {
    let run = words::halves(word);
    let request = Request::new(start, &run).limit(1).helpers(HELPERS);
    match comparison.reply(&request, GREATEST_BLOCK) {
        Ok(Size { count, .. }) => {
            assert_eq!(count, 1);
            true
        }
        Err(refusal) => {
            assert_eq!(refusal, Refusal::NotTaken(word));
            false
        }
    }
}

/// All words of these opcodes with register fields at their limits: how many there are of each kind.
fn by_field(opcodes: impl Iterator<Item = u32>, seed: u64) -> [u32; 4] {
    let mut comparison = Comparison::new(seed);
    let mut count = [0; 4];
    for opcode in opcodes {
        for upper in 0..1024 {
            let (funct3, funct7) = (upper % 8, upper / 8);
            for rs2 in LIMITS {
                for rs1 in LIMITS {
                    for rd in LIMITS {
                        let word =
                            funct7 << 25 | rs2 << 20 | rs1 << 15 | funct3 << 12 | rd << 7 | opcode;
                        count[kind(&mut comparison, 0x8000_0000, word) as usize] += 1;
                    }
                }
            }
        }
    }
    count
}

/// The opcodes of 32-bit words, whose low two bits are 3.
fn opcodes() -> impl Iterator<Item = u32> {
    (0..128).filter(|opcode| opcode & 3 == 3)
}

/// The two halves of a test, for two cores, and their sums.
fn in_two<const N: usize>(
    first: impl FnOnce() -> [u32; N],
    second: impl FnOnce() -> [u32; N] + Send + 'static,
) -> [u32; N] {
    let second = std::thread::spawn(second);
    let first = first();
    let second = second.join().unwrap();
    std::array::from_fn(|k| first[k] + second[k])
}

/// What document 01 and the requests make of these words, counted by hand from their lists.
#[test]
fn words_by_field() {
    let count = in_two(
        || by_field(opcodes().take(16), 20),
        || by_field(opcodes().skip(16), 21),
    );
    // Pairs of funct3 and funct7, out of 1,024 for each opcode. Straight: LUI and AUIPC all; 1 funct3 of 8 is FENCE, 6 of OP_IMM,
    // 1 of OP_IMM_32; the shifts of OP_IMM, whose six upper bits leave two funct7 each; 3 exact ones of OP_IMM_32; OP has ten base
    // words and all eight of M, OP_32 five and five.
    let straight = 2 * 1024 + (1 + 6 + 1) * 128 + 3 * 2 + 3 + (10 + 8) + (5 + 5);
    // JAL all, JALR 1 funct3 of 8, branches 6, FENCE.I 1; loads 7, stores 4.
    let ending = 1024 + (1 + 6 + 1) * 128;
    let memory = (7 + 4) * 128;
    let not_taken = 32 * 1024 - straight - ending - memory;
    let pairs = [not_taken, straight, ending, memory];
    assert_eq!(count, pairs.map(|pairs| pairs * 125));
}

/// Every first word whatever, with `all_halfwords`: 2^30 words whose low two bits are 3, each with all its bytes.
#[test]
#[ignore = "takes minutes; cargo test --offline -- --ignored"]
fn every_word() {
    let part = |first: u32, seed: u64| {
        let mut comparison = Comparison::new(seed);
        let mut count = [0; 4];
        for word in (first..first + (1 << 29)).map(|k| k << 2 | 3) {
            count[kind(&mut comparison, 0x8000_0000, word) as usize] += 1;
        }
        count
    };
    let count = in_two(|| part(0, 25), move || part(1 << 29, 26));
    // For each opcode there are 2^25 words, 2^22 for one funct3 and 2^15 for a funct7 besides; the shifts that have six upper bits
    // fixed are 2^16. The numbers are those of `words_by_field`.
    let straight = (2 << 25) + ((1 + 6 + 1) << 22) + (3 << 16) + ((3 + 18 + 10) << 15);
    let ending = (1 << 25) + ((1 + 6 + 1) << 22);
    let memory = (7 + 4) << 22;
    assert_eq!(count[1..], [straight, ending, memory]);
    assert_eq!(count.iter().sum::<u32>(), 1 << 30);
}

/// A word whose low two bits are not 3 is none.
#[test]
fn no_words() {
    let mut r = Random::new(27);
    for _ in 0..1_000_000 {
        let word = r.u32() & !3 | r.below(3) as u32;
        assert_eq!(word_kind(word), WordKind::NotTaken, "{word:08x}");
    }
}

/// What becomes of a halfword: the word that it is translated as is the table's, and of the kind that the original has for that word; none
/// where a helper executes it, and where it is the first of a word.
fn kind_of_halfword(comparison: &mut Comparison, low: u16) -> Option<WordKind> {
    let word = expansion(low);
    assert_eq!(word, in_line(low), "{low:04x}");
    let kind = word_kind(word?);
    assert_eq!(kind as u32, comparison.kind(word?), "{low:04x}");
    Some(kind)
}

/// Every first halfword, alone and with a halfword behind it. How many are of each sort is counted by request Q-7.
#[test]
fn all_halfwords() {
    let mut comparison = Comparison::new(22);
    let (mut straight, mut ending, mut by_helper) = (0, 0, 0);
    for low in 0..=u16::MAX {
        let kind = kind_of_halfword(&mut comparison, low);
        let run = [low, 0xFFFF];
        for run in [&run[..1], &run[..]] {
            let request = Request::new(0x8000_0000, run).helpers(HELPERS);
            let reply = comparison.reply(&request, GREATEST_BLOCK);
            if low & 3 != 3 {
                let Size { count, span, .. } = reply.unwrap();
                assert_eq!((count, span), (1, 2), "{low:04x}");
            } else if run.len() == 1 {
                assert_eq!(reply, Err(Refusal::MissingHalfword(1)));
            }
        }
        match kind {
            Some(WordKind::Straight) => straight += 1,
            Some(WordKind::Ending) => ending += 1,
            Some(kind) => panic!("{low:04x} {kind:?}"),
            None => by_helper += (low & 3 != 3) as u32,
        }
    }
    assert_eq!((straight, ending), (16_088, 6_206));
    assert_eq!(by_helper, 3 * 16_384 - 16_088 - 6_206);
}

/// Words with all fields random, at random starts.
#[test]
fn random_words() {
    let mut r = Random::new(23);
    let mut comparison = Comparison::new(23);
    let mut count = 0;
    for _ in 0..500_000 {
        let (word, start) = (r.u32() | 3, r.u64() & !1);
        let kind = kind(&mut comparison, start, word);
        count += (kind != WordKind::NotTaken) as u32;
    }
    assert!((100_000..400_000).contains(&count), "{count}");
}

/// Words of each sort of the lists.
#[test]
fn sorts_of_words() {
    let mut r = Random::new(24);
    let mut comparison = Comparison::new(24);
    for _ in 0..100_000 {
        let start = r.u64() & !1;
        let mut of_kind = |word: u32, expected: WordKind| {
            assert_eq!(kind(&mut comparison, start, word), expected, "{word:08x}");
        };
        of_kind(words::straight(&mut r), WordKind::Straight);
        of_kind(words::of_m(&mut r), WordKind::Straight);
        of_kind(words::ending(&mut r), WordKind::Ending);
        of_kind(words::fence_i(&mut r), WordKind::Ending);
        of_kind(words::memory(&mut r), WordKind::MemoryHelper);
        of_kind(words::not_taken(&mut r), WordKind::NotTaken);
        let word = words::halfword(&mut r) as u32;
        assert!(taken(&mut comparison, start, word), "{word:08x}");
    }
}
