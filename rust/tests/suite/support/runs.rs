//! Runs of halfwords as instructions, runs with other words in them, and what the original Rust answers to a run.

use crate::compressed::in_line;
use crate::support::words::halves;
use emuko_original::{Answer, Asked, Emuko, Original};
use std::borrow::Cow;
use std::ops::Range;

/// The bytes of a block's end where it goes on: RAX, RDX, the closing.
pub const END: usize = 10 + 10 + 15;

/// The instructions of a run, up to a halfword that a helper executes, behind which no block goes on, or that is missing: where the
/// halfwords of each stand, and its word, which for a compressed one is the word that it expands to.
pub fn instructions(halfwords: &[u16]) -> impl Iterator<Item = (Range<usize>, u32)> + '_ {
    let mut end = 0;
    std::iter::from_fn(move || {
        let (at, low) = (end, *halfwords.get(end)?);
        let word = match low & 3 {
            3 => u32::from(*halfwords.get(at + 1)?) << 16 | u32::from(low),
            _ => in_line(low)?,
        };
        end += if low & 3 == 3 { 2 } else { 1 };
        Some((at..end, word))
    })
}

/// The words of these instructions.
pub fn words(halfwords: &[u16]) -> impl Iterator<Item = u32> + '_ {
    instructions(halfwords).map(|(_, word)| word)
}

/// The run with another word in the place of each instruction that has one, by its number of halfwords and its word.
pub fn rewritten(halfwords: &[u16], other: impl Fn(usize, u32) -> Option<u32>) -> Cow<'_, [u16]> {
    let (mut run, mut copied) = (Vec::new(), 0);
    for (at, word) in instructions(halfwords) {
        if let Some(other) = other(at.len(), word) {
            run.extend(&halfwords[copied..at.start]);
            run.extend(halves(other));
            copied = at.end;
        }
    }
    if copied == 0 {
        return Cow::Borrowed(halfwords);
    }
    run.extend(&halfwords[copied..]);
    Cow::Owned(run)
}

/// The same by the word alone.
pub fn replaced(halfwords: &[u16], other: impl Fn(u32) -> Option<u32>) -> Cow<'_, [u16]> {
    rewritten(halfwords, |_, word| other(word))
}

/// The original's answer and bytes.
pub fn asked(original: &mut Original, start: u64, limit: u32, run: &[u16]) -> (Answer, Vec<u8>) {
    let mut bytes = Vec::new();
    let asked = Asked {
        start,
        limit,
        halfwords: run,
        helpers: [1, 2],
    };
    let answer = original.translate(asked, &mut bytes);
    (answer, bytes)
}
