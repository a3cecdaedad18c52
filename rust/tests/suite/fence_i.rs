//! FENCE.I ends its block here, and in the original Rust the block goes on behind it. The original is therefore asked for the run cut
//! behind its first FENCE.I, where it finds no further halfword, or for no more words than lead there.

use crate::support::random::Random;
use crate::support::requests;
use crate::support::runs::{asked, instructions, words, END};
use emuko_original::{Answer, Emuko, Original, CODE_SIZE};

/// By opcode and funct3, whatever the other fields.
pub fn is_fence_i(word: u32) -> bool {
    word & 0x7F == 0x0F && word >> 12 & 7 == 1
}

/// How many instructions lead to the first FENCE.I of a run, that word included. A halfword that a helper executes ends every block, so
/// none is sought behind one; one that stands behind another end is never met, and then the number does not matter.
pub fn instructions_to_fence_i(halfwords: &[u16]) -> Option<usize> {
    let found = words(halfwords).position(is_fence_i);
    found.map(|before| before + 1)
}

/// The run up to its first FENCE.I, that word included, or all of it.
pub fn cut(halfwords: &[u16]) -> &[u16] {
    let found = instructions(halfwords).find(|(_, word)| is_fence_i(*word));
    match found {
        Some((at, _)) => &halfwords[..at.end],
        None => halfwords,
    }
}

/// The limit by which a block ends behind its first FENCE.I, if not before.
pub fn limit_to_fence_i(halfwords: &[u16], limit: u32) -> u32 {
    match instructions_to_fence_i(halfwords) {
        Some(words) => limit.min(words as u32),
        None => limit,
    }
}

/// What the cut does to the original's answers. Nothing where the block ends before the FENCE.I; where it is met, the block is the front
/// of what it was, behind which RAX, RDX and the closing follow. A limit does the same as the cut.
#[test]
fn cut_where_met_and_where_not() {
    let mut r = Random::new(60);
    let mut original = Original::new(CODE_SIZE);
    let (mut met, mut not_met) = (0, 0);
    while met < 5_000 || not_met < 5_000 {
        let (run, start, limit) = (
            requests::run(&mut r),
            requests::start(&mut r),
            requests::limit(&mut r),
        );
        let Some(words) = instructions_to_fence_i(&run) else {
            assert_eq!(cut(&run), run);
            continue;
        };
        let (whole, whole_bytes) = asked(&mut original, start, limit, &run);
        let (answer, bytes) = asked(&mut original, start, limit, cut(&run));
        let by_limit = limit_to_fence_i(&run, limit);
        assert_eq!(
            asked(&mut original, start, by_limit, &run),
            (answer, bytes.clone())
        );
        match whole {
            Answer::Block(count) if count as usize >= words => {
                assert_eq!(answer, Answer::Block(words as u32), "{run:x?}");
                assert!(whole_bytes.starts_with(&bytes[..bytes.len() - END]));
                met += 1;
            }
            _ => {
                assert_eq!((answer, bytes), (whole, whole_bytes), "{run:x?}");
                not_met += 1;
            }
        }
    }
}

/// The cut by hand.
#[test]
fn cut_by_hand() {
    let fence_i = [0x100F, 0x0000];
    let addi = [0x0093, 0x0050];
    let run = |parts: &[&[u16]]| parts.concat();
    assert!(cut(&[]).is_empty());
    assert_eq!(cut(&run(&[&fence_i, &addi])), fence_i);
    assert_eq!(
        cut(&run(&[&addi, &fence_i, &addi, &fence_i])),
        run(&[&addi, &fence_i])
    );
    // Behind a compressed instruction, and two of them.
    for nops in [&[0x0001][..], &[0x0001, 0x0001]] {
        assert_eq!(cut(&run(&[nops, &fence_i, &addi])), run(&[nops, &fence_i]));
    }
    // Half of the word; FENCE, and funct3 2; behind a halfword that a helper executes; in another word's upper half.
    for whole in [
        vec![0x100F],
        run(&[&addi, &fence_i[..1]]),
        vec![0x000F, 0x1000, 0x200F, 0x0000],
        run(&[&[0x4108], &fence_i]),
        run(&[&[0x4108, 0x4108], &fence_i]),
        run(&[&[0x0001, 0x4108], &fence_i]),
        vec![0x0093, 0x100F, 0x0013, 0x0000],
    ] {
        assert_eq!(cut(&whole), whole);
    }
    let other_fields = [0x9F8F, 0xFFFF];
    assert_eq!(cut(&run(&[&other_fields, &addi])), other_fields);
}
