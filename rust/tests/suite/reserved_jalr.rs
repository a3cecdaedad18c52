//! JALR's opcode with funct3 1 to 7 (request Q-6), which the manual reserves. The original Rust takes these words as JALR; here they are not
//! taken, and leave no byte. The original is asked for the run with ECALL in the place of each: that it does not take, and its block has no
//! byte of it. So it says everything of a reply but which word number 4 names.

use crate::support::random::Random;
use crate::support::requests;
use crate::support::runs::{asked, replaced, words, END};
use crate::support::words::halves;
use emuko_original::{Answer, Emuko, Original, CODE_SIZE};
use emuko_x64_blocks::{
    rules, translate, word_kind, BlockIndex, CodeStore, Entry, NativeBlock, Refusal, Request,
    WordKind, GREATEST_BLOCK,
};

pub const ECALL: u32 = 0x0000_0073;

/// By opcode and funct3, whatever the other fields.
pub fn is_reserved_jalr(word: u32) -> bool {
    word & 0x7F == 0x67 && word >> 12 & 7 != 0
}

/// ECALL for one of them.
pub fn stand_in(word: u32) -> Option<u32> {
    is_reserved_jalr(word).then_some(ECALL)
}

/// The index of the run's first word that is one of them.
pub fn first_reserved(halfwords: &[u16]) -> Option<usize> {
    words(halfwords).position(is_reserved_jalr)
}

/// Whether one of them ends a block of so many instructions: the word behind the last is one, and the block would go on there.
pub fn ends_block(halfwords: &[u16], count: usize, limit: u32) -> bool {
    let last = words(halfwords).nth(count - 1);
    let goes_on = last.is_some_and(|last| word_kind(last) == WordKind::Straight);
    goes_on && first_reserved(halfwords) == Some(count) && count < limit.min(64) as usize
}

/// What stand-ins do to the original's own answers. Nothing where the block ends before the first of these words. Where that is met, the
/// original has it as its last word; with the stand-in it is refused as the first word, and else its block is the front of that one.
#[test]
fn stand_ins_where_met_and_where_not() {
    let mut r = Random::new(62);
    let mut original = Original::new(CODE_SIZE);
    let (mut met, mut met_first, mut not_met) = (0, 0, 0);
    while met < 2_000 || met_first < 500 || not_met < 500 {
        let run = requests::run(&mut r);
        let (start, limit) = (requests::start(&mut r), requests::limit(&mut r));
        let Some(first) = first_reserved(&run) else {
            assert_eq!(replaced(&run, stand_in), run);
            continue;
        };
        let (whole, whole_bytes) = asked(&mut original, start, limit, &run);
        let (answer, bytes) = asked(&mut original, start, limit, &replaced(&run, stand_in));
        match whole {
            Answer::Block(count) if count as usize == first + 1 => {
                if first == 0 {
                    assert_eq!(answer, Answer::NotTaken(ECALL), "{run:x?}");
                    met_first += 1;
                } else {
                    assert_eq!(answer, Answer::Block(first as u32), "{run:x?}");
                    assert!(whole_bytes.starts_with(&bytes[..bytes.len() - END]));
                    met += 1;
                }
            }
            _ => {
                assert_eq!((answer, bytes), (whole, whole_bytes), "{run:x?}");
                not_met += 1;
            }
        }
    }
}

/// An index made by the original shows its block of one instruction, of this length; emptied, it shows none.
pub fn emptied_once(pc: u64, run: &[u16], length: usize) {
    let (answer, bytes) = asked(&mut Original::new(CODE_SIZE), pc, 64, run);
    assert_eq!((answer, bytes.len()), (Answer::Block(1), length));
    let mut store = CodeStore::new([0; GREATEST_BLOCK]);
    let mut index = BlockIndex::new([Entry::default()]);
    let kept = NativeBlock {
        offset: store.place(&bytes).unwrap().offset,
        count: 1,
        length,
        span: 2 * run.len() as u64,
    };
    index.insert(0, pc, kept).unwrap();
    assert_eq!(index.find(0, pc).map(|entry| entry.block), Some(kept));
    index.empty(&mut store);
    assert_eq!((index.find(0, pc), store.mark()), (None, 0));
}

/// An index made before request Q-6 shows the original's block for such a word, and is therefore emptied once; then the word is refused.
#[test]
fn an_index_made_before() {
    let (pc, run) = (0x8000_0000, halves(0x0000_9067));
    emptied_once(pc, &run, 81);
    let mut out = [0; GREATEST_BLOCK];
    let refused = translate(&Request::new(pc, &run), &mut out).unwrap_err();
    assert_eq!(refused, Refusal::NotTaken(0x0000_9067));
    assert_eq!(rules(), 7);
}

/// Stand-ins by hand.
#[test]
fn stand_ins_by_hand() {
    let addi = [0x0093, 0x0050];
    let ecall = halves(ECALL);
    let run = |parts: &[&[u16]]| parts.concat();
    for word in [
        0x0000_9067, // funct3 1, rs1 = x1
        0x0000_A067,
        0x0000_B067,
        0x0000_C067,
        0x0000_D067,
        0x0000_E067,
        0xFFFF_FFE7, // funct3 7, all other fields ones
    ] {
        let reserved = halves(word);
        assert_eq!(*replaced(&reserved, stand_in), ecall);
        let behind = run(&[&addi, &reserved, &addi]);
        assert_eq!(*replaced(&behind, stand_in), run(&[&addi, &ecall, &addi]));
        // Behind a compressed instruction.
        let nop = [0x0001];
        let behind = run(&[&nop, &reserved]);
        assert_eq!(*replaced(&behind, stand_in), run(&[&nop, &ecall]));
        // Behind a halfword that a helper executes; in two words' halves; half a word.
        for whole in [
            run(&[&[0x4108, 0x4108], &reserved]),
            run(&[&[0x0093], &reserved, &[0x0000]]),
            run(&[&addi, &reserved[..1]]),
        ] {
            assert_eq!(*replaced(&whole, stand_in), whole);
        }
    }
    // JALR, JAL, BRANCH with funct3 1.
    for word in [0x0000_8067, 0xFFF8_8FE7, 0x0000_906F, 0x0000_9063] {
        let whole = halves(word);
        assert_eq!(*replaced(&whole, stand_in), whole);
    }
}
