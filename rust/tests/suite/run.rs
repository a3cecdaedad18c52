//! Runs fetched no further than a translation needs: they are translated as all that could have been fetched.

use crate::compressed::in_line;
use crate::fence_i::{cut, instructions_to_fence_i};
use crate::support::random::Random;
use crate::support::requests;
use emuko_x64_blocks::{translate, word_kind, Refusal, Request, Run, WordKind, GREATEST_BLOCK};

/// The halfwords asked for, by index, and the run; or the index of the one in the first instruction that is missing.
fn fetched(run: &mut Run, request: &Request) -> (Vec<u64>, Result<(), u64>) {
    let mut asked = Vec::new();
    let result = run.fetch(request.start, request.limit, |address| {
        let index = address.wrapping_sub(request.start) / 2;
        asked.push(index);
        request.halfwords.get(index as usize).copied().ok_or(index)
    });
    (asked, result)
}

/// None is asked for behind a FENCE.I; whether one was what ended the fetching of a longer run.
fn ended_by_fence_i(request: &Request, asked: usize) -> bool {
    if instructions_to_fence_i(request.halfwords).is_none() {
        return false;
    }
    let until = cut(request.halfwords).len();
    assert!(asked <= until, "{request:x?}");
    asked == until && until < request.halfwords.len()
}

/// How many halfwords a translation looks at, those that are missing included: of at most so many instructions the next only where the last
/// is straight, a compressed one by the word of the table. Which words are straight is the library's answer, which module kinds compares with
/// the original's.
pub fn needed(halfwords: &[u16], limit: u32) -> usize {
    let mut at = 0;
    for _ in 0..limit.min(64) {
        let Some(&low) = halfwords.get(at) else {
            return at + 1;
        };
        let word = match (low & 3, halfwords.get(at + 1)) {
            (3, None) => return at + 2,
            (3, Some(&high)) => Some(u32::from(high) << 16 | u32::from(low)),
            _ => in_line(low),
        };
        at += if low & 3 == 3 { 2 } else { 1 };
        if word.map(word_kind) != Some(WordKind::Straight) {
            break;
        }
    }
    at
}

#[test]
fn translated_as_the_whole() {
    let mut r = Random::new(45);
    // One run for all: nothing of the last one may be left.
    let mut run = Run::new();
    let (mut out, mut expected_out) = ([0; GREATEST_BLOCK], [0; GREATEST_BLOCK]);
    let (mut shorter, mut missing, mut by_fence_i, mut compressed) = (0, 0, 0, 0);
    for _ in 0..200_000 {
        let wanted = requests::wanted(&mut r);
        let request = wanted.request();
        let expected = translate(&request, &mut expected_out);
        let (asked, result) = fetched(&mut run, &request);
        // One after the other from the start on, each once, and none but those that are needed.
        assert!(asked.iter().copied().eq(0..asked.len() as u64));
        if request.start % 2 == 0 {
            assert_eq!(asked.len(), needed(request.halfwords, request.limit));
        }
        by_fence_i += ended_by_fence_i(&request, asked.len()) as u32;
        match result {
            Err(index) => {
                let refusal = Refusal::MissingHalfword(index as u8);
                assert_eq!(expected, Err(refusal), "{request:x?}");
                missing += 1;
            }
            Ok(()) => {
                assert_eq!(*run, request.halfwords[..run.len()]);
                // At most one more was asked for, and was not there.
                assert!(asked.len() - run.len() <= 1);
                let part = Request::new(request.start, &run)
                    .limit(request.limit)
                    .helpers(request.helpers);
                assert_eq!(translate(&part, &mut out), expected, "{request:x?}");
                let fewer = run.len() < request.halfwords.len();
                shorter += fewer as u32;
                let in_line = run[..].first().is_some_and(|low| in_line(*low).is_some());
                compressed += (fewer && in_line) as u32;
            }
        }
    }
    println!("{shorter} {missing} {by_fence_i} {compressed}");
    assert!(shorter > 50_000 && missing > 500);
    assert!(by_fence_i > 5_000 && compressed > 10_000);
}

/// How many halfwords are fetched, one behind the other.
fn length(start: u64, limit: u32, code: &[u16]) -> Result<usize, ()> {
    let (mut run, mut k) = (Run::new(), 0);
    let fetch = |address: u64| {
        assert_eq!(address, start.wrapping_add(2 * k as u64));
        k += 1;
        code.get(k - 1).copied().ok_or(())
    };
    run.fetch(start, limit, fetch).map(|()| run.len())
}

/// The limit, and addresses that go on from 2^64 - 1 to 0.
#[test]
fn ends_of_runs() {
    let fences = [0x000F, 0x0000].repeat(70);
    assert_eq!(length(0, 0, &fences), Ok(0));
    assert_eq!(length(1, 64, &fences), Ok(0));
    assert_eq!(length(0, 1, &fences), Ok(2));
    assert_eq!(length(0, 63, &fences), Ok(126));
    assert_eq!(length(0, 64, &fences), Ok(128));
    assert_eq!(length(0, u32::MAX, &fences), Ok(128));
    assert_eq!(length(u64::MAX - 5, 64, &fences), Ok(128));
    // FENCE.I, whatever its other fields, and FENCE beside it.
    assert_eq!(length(0, 64, &[0x100F, 0x0000, 0x0093, 0x0050]), Ok(2));
    assert_eq!(length(0, 64, &[0x108F, 0x0000, 0x0093, 0x0050]), Ok(2));
    assert_eq!(
        length(0, 64, &[0x000F, 0x0000, 0x100F, 0x8000, 0x0001]),
        Ok(4)
    );
    assert_eq!(length(0, 64, &[0x100F, 0x0000].repeat(70)), Ok(2));
    // The rest of M is straight; its opcodes with another funct7 are not taken.
    let divided = [0xC1B3, 0x0220, 0xF1BB, 0x0220]; // DIV, REMUW x3, x1, x2
    assert_eq!(length(0, 64, &divided.repeat(35)), Ok(128));
    assert_eq!(length(0, 64, &[0xC1B3, 0x0220, 0x0001]), Ok(3));
    assert_eq!(length(0, 64, &[0xC1B3, 0x4020, 0x0001]), Ok(2));
    assert_eq!(length(0, 64, &[0x91BB, 0x0220, 0x0001]), Ok(2));
    assert_eq!(length(0, 64, &[]), Err(()));
    assert_eq!(length(0, 64, &[0x000F]), Err(()));
}

/// The same of compressed instructions.
#[test]
fn ends_of_compressed_runs() {
    // C.NOP, and what ends a block: C.LW, C.JR ra, C.BEQZ a0, C.J; two and four bytes in turn.
    let nops = [0x0001; 70];
    assert_eq!(length(0, 1, &nops), Ok(1));
    assert_eq!(length(0, 63, &nops), Ok(63));
    assert_eq!(length(0, 64, &nops), Ok(64));
    assert_eq!(length(u64::MAX - 1, 64, &nops), Ok(64));
    assert_eq!(length(0, 64, &[0x0001, 0x0001]), Ok(2));
    for end in [0x4108, 0x0000, 0x8082, 0xC111, 0xA001] {
        assert_eq!(length(0, 64, &[end, 0x0001]), Ok(1));
        assert_eq!(length(0, 64, &[0x0001, end, 0x0001]), Ok(2));
        assert_eq!(length(0, 64, &[0x000F, 0x0000, end, 0x0001]), Ok(3));
    }
    let mixed = [0x0001, 0x000F, 0x0000].repeat(40);
    assert_eq!(length(0, 3, &mixed), Ok(4));
    assert_eq!(length(0, 64, &mixed), Ok(96));
    assert_eq!(length(u64::MAX - 5, 64, &mixed), Ok(96));
    assert_eq!(length(0, 64, &[0x0001, 0x000F]), Ok(2));
    assert_eq!(length(0, 64, &[0x000F, 0x0000, 0x000F]), Ok(3));
}
