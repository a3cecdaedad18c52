//! Spans (request Q-5): how many bytes of the guest's code a block covers, beside those of as many instructions of the run as the block
//! counts. Module `against_original` does so with the original's counts, at every request that it compares; here are the request's cases,
//! every span that there is, and the corpus.

use crate::support::judged::judged;
use crate::support::random::Random;
use crate::support::requests::{self, of_the_original, Wanted};
use crate::support::words::{self, halves};
use emuko_original::{Answer, Emuko, Original, CODE_SIZE};
use emuko_x64_blocks::{translate, Refusal, Request, GREATEST_BLOCK, MOST_SPAN, MOST_STEPS};
use std::collections::BTreeSet;
use std::fs;

/// The bytes of so many instructions of a run: the low two bits of an instruction's first halfword tell whether there is a second one.
pub fn of(halfwords: &[u16], count: u32) -> u64 {
    let instruction = |at, _| at + if halfwords[at] & 3 == 3 { 2 } else { 1 };
    2 * (0..count).fold(0, instruction) as u64
}

/// Count and span of the block of a run.
fn spanned(request: &Request) -> Result<(u32, u64), Refusal> {
    let mut out = [0; GREATEST_BLOCK];
    translate(request, &mut out).map(|block| (block.count(), block.span()))
}

const START: u64 = 0x8000_0000;
const ADDI: [u16; 2] = [0x0093, 0x0050];
const LD: [u16; 2] = [0xB083, 0x0000];
const SD: [u16; 2] = [0x3023, 0x0000];
const JAL: [u16; 2] = [0x006F, 0x0000];
const FENCE_I: [u16; 2] = [0x100F, 0x0000];
/// C.NOP, which is in line, and C.LW, which a helper executes.
const HALFWORDS: [[u16; 1]; 2] = [[0x0001], [0x4108]];

/// Words that are not taken: a branch with funct3 2, OP with funct7 0x20 and funct3 4, ECALL, and JALR with funct3 1.
const NOT_TAKEN: [[u16; 2]; 4] = [
    [0x2063, 0x0000],
    [0xC1B3, 0x4020],
    [0x0073, 0x0000],
    [0x9067, 0x0000],
];

/// The request's cases, and each sort of instruction as the only one and as the last.
#[test]
fn by_hand() {
    let span = |parts: &[&[u16]]| spanned(&Request::new(START, &parts.concat())).unwrap();
    assert_eq!(span(&[&ADDI, &LD]), (2, 8));
    assert_eq!(span(&[&ADDI, &NOT_TAKEN[0]]), (1, 4));
    assert_eq!(span(&[&ADDI.repeat(64)]), (64, 256));
    assert_eq!(span(&[&ADDI.repeat(65)]), (64, 256));
    // One alone, with anything behind it.
    for last in [LD, SD, JAL, FENCE_I] {
        assert_eq!(span(&[&last]), (1, 4));
        assert_eq!(span(&[&last, &ADDI]), (1, 4));
        assert_eq!(span(&[&ADDI, &last, &HALFWORDS[0]]), (2, 8));
        assert_eq!(span(&[&ADDI.repeat(63), &last]), (64, MOST_SPAN));
        assert_eq!(span(&[&ADDI.repeat(64), &last]), (64, MOST_SPAN));
    }
    for halfword in HALFWORDS {
        assert_eq!(span(&[&halfword]), (1, 2));
        assert_eq!(span(&[&ADDI, &halfword]), (2, 6));
        assert_eq!(span(&[&ADDI.repeat(63), &halfword]), (64, 254));
        assert_eq!(span(&[&ADDI.repeat(64), &halfword]), (64, 256));
    }
    // Behind C.NOP the block goes on, behind C.LW and C.JR ra it does not; sixty-four halfwords, and more of them.
    assert_eq!(span(&[&HALFWORDS[0], &ADDI]), (2, 6));
    assert_eq!(span(&[&HALFWORDS[1], &ADDI]), (1, 2));
    assert_eq!(span(&[&HALFWORDS.concat()]), (2, 4));
    assert_eq!(span(&[&[0x8082], &ADDI]), (1, 2));
    assert_eq!(span(&[&HALFWORDS[0].repeat(64)]), (64, MOST_SPAN / 2));
    assert_eq!(span(&[&HALFWORDS[0].repeat(70)]), (64, MOST_SPAN / 2));
    assert_eq!(span(&[&[0x0001, 0x0093, 0x0050].repeat(32)]), (64, 192));
    // Not counted and not spanned, although the first two leave loads in the block; half a word; nothing.
    for word in NOT_TAKEN {
        assert_eq!(span(&[&ADDI, &ADDI, &word, &ADDI]), (2, 8));
    }
    assert_eq!(span(&[&ADDI, &ADDI[..1]]), (1, 4));
    assert_eq!(span(&[&ADDI]), (1, 4));
    assert_eq!(MOST_SPAN, 4 * u64::from(MOST_STEPS));
}

/// The limit ends the span with the block; where the run stands does not matter, also across the end of addresses.
#[test]
fn limits_and_starts() {
    let run = [&ADDI.repeat(3)[..], &HALFWORDS[1]].concat();
    for start in [0, START, 0xFFFF_FFFF_FFFF_FFFC, u64::MAX - 1] {
        for (limit, span) in [(1, 4), (2, 8), (3, 12), (4, 14), (5, 14), (u32::MAX, 14)] {
            let request = Request::new(start, &run).limit(limit);
            assert_eq!(spanned(&request), Ok((limit.min(4), span)));
        }
    }
}

/// Every span that a block can have: so many words, then each sort of end.
#[test]
fn every_span() {
    let mut r = Random::new(170);
    let mut seen = BTreeSet::new();
    for words in 0..=64 {
        let straight: Vec<u16> = (0..words)
            .flat_map(|_| halves(words::straight(&mut r)))
            .collect();
        let ends: [(Vec<u16>, u64); 6] = [
            (halves(words::ending(&mut r)).to_vec(), 4),
            (halves(words::memory(&mut r)).to_vec(), 4),
            (vec![words::halfword(&mut r)], 2),
            (halves(words::not_taken(&mut r)).to_vec(), 0),
            (vec![r.u32() as u16 | 3], 0),
            (Vec::new(), 0),
        ];
        for (end, more) in ends {
            let run = [&straight[..], &end].concat();
            let Ok((count, span)) = spanned(&Request::new(requests::start(&mut r) & !1, &run))
            else {
                assert_eq!((words, more), (0, 0), "{run:x?}");
                continue;
            };
            assert_eq!(span, MOST_SPAN.min(4 * words + more), "{run:x?}");
            assert_eq!(span, of(&run, count), "{run:x?}");
            seen.insert(span);
        }
    }
    assert!(seen.into_iter().eq((2..=MOST_SPAN).step_by(2)));
}

#[test]
fn random_requests() {
    let mut r = Random::new(171);
    let mut out = [0; GREATEST_BLOCK];
    let (mut blocks, mut with_halfwords, mut of_halfwords) = (0, 0, 0);
    for _ in 0..300_000 {
        let wanted = requests::wanted(&mut r);
        let request = wanted.request();
        let Ok(block) = translate(&request, &mut out[..]) else {
            continue;
        };
        let span = block.span();
        assert_eq!(span, of(request.halfwords, block.count()), "{request:x?}");
        assert!((2..=MOST_SPAN).contains(&span), "{request:x?}");
        let halfwords = 2 * u64::from(block.count());
        assert!((halfwords..=2 * halfwords).contains(&span), "{request:x?}");
        blocks += 1;
        with_halfwords += (span < 2 * halfwords) as u32;
        of_halfwords += (span == halfwords) as u32;
    }
    println!("{blocks} {with_halfwords} {of_halfwords}");
    assert!(blocks > 200_000 && with_halfwords > 50_000 && of_halfwords > 20_000);
}

/// The corpus's translations: the original's count, and the span of as many instructions.
#[test]
fn corpus() {
    let replay = concat!(env!("CARGO_MANIFEST_DIR"), "/../crates/replay/");
    let requests = fs::read_to_string(format!("{replay}stdin")).unwrap();
    let replies = fs::read_to_string(format!("{replay}stdout")).unwrap();
    let answered = requests.lines().zip(replies.lines());
    let asked = answered.take_while(|(_, reply)| *reply != "bad request");
    let mut original = Original::new(CODE_SIZE);
    let mut bytes = Vec::new();
    let (mut blocks, mut spans) = (0, BTreeSet::new());
    for wanted in asked.filter_map(|(request, _)| Wanted::of_line(request)) {
        let request = wanted.request();
        let run = request.halfwords;
        let answer = judged(&mut original, of_the_original(&request), &mut bytes);
        let expected = match answer {
            Answer::Block(_) if wanted.output < GREATEST_BLOCK => None,
            Answer::Block(count) => Some((count, of(run, count))),
            _ => None,
        };
        let mut out = vec![0; wanted.output];
        let block = translate(&request, &mut out).ok();
        let spanned = block.map(|block| (block.count(), block.span()));
        assert_eq!(spanned, expected, "{request:x?}");
        blocks += spanned.is_some() as u32;
        spans.extend(spanned.map(|(_, span)| span));
    }
    println!("{blocks} blocks, {} spans", spans.len());
    assert!(blocks > 2_000 && spans.len() > 64, "{blocks} {spans:?}");
    assert!(spans.contains(&2) && spans.contains(&MOST_SPAN));
}
