//! Compressed instructions (request Q-7). Which halfwords are translated in line, and as which words, says a table made by GNU objdump and as
//! (rv64c.txt). The original Rust hands every halfword to a helper. It is asked for the run with the table's word in the place of each of
//! these, begun so that the address behind the block's last instruction is the right one: so it says everything of a reply but the span.

use crate::against_original::{Comparison, Size};
use crate::reserved_jalr::emptied_once;
use crate::spans;
use crate::support::judged::judged;
use crate::support::random::Random;
use crate::support::runs::{instructions, rewritten, words, END};
use emuko_original::{Answer, Asked, Emuko, Original, CODE_SIZE};
use emuko_x64_blocks::{expansion, rules, translate, Request, GREATEST_BLOCK};
use std::borrow::Cow;
use std::sync::OnceLock;

const AUIPC: u32 = 0x17;
const BRANCH: u32 = 0x63;
const JALR: u32 = 0x67;
const JAL: u32 = 0x6F;

/// The table's rows: halfword and word.
fn rows() -> impl Iterator<Item = (u16, u32)> {
    let lines = include_str!("rv64c.txt").lines();
    lines.filter(|line| !line.starts_with('#')).map(|line| {
        let (halfword, word) = line.split_once(' ').expect("a halfword and a word");
        let number = |text| u32::from_str_radix(text, 16).expect("hexadecimal");
        (number(halfword) as u16, number(word))
    })
}

/// The word that a halfword is translated as; none where it is the first of a word, or a helper executes it.
pub fn in_line(halfword: u16) -> Option<u32> {
    static WORDS: OnceLock<Vec<Option<u32>>> = OnceLock::new();
    let words = WORDS.get_or_init(|| {
        let mut words = vec![None; 1 << 16];
        for (halfword, word) in rows() {
            words[usize::from(halfword)] = Some(word);
        }
        words
    });
    words[usize::from(halfword)]
}

/// Whether a word of the table ends its block.
pub fn ends(word: u32) -> bool {
    [BRANCH, JALR, JAL].contains(&(word & 0x7F))
}

/// A compressed halfword of which this holds, by its word in the table.
fn such(r: &mut Random, holds: impl Fn(Option<u32>) -> bool) -> u16 {
    loop {
        let halfword = r.u32() as u16;
        if halfword & 3 != 3 && holds(in_line(halfword)) {
            return halfword;
        }
    }
}

/// A compressed instruction behind which the block goes on.
pub fn straight(r: &mut Random) -> u16 {
    such(r, |word| word.is_some_and(|word| !ends(word)))
}

/// One that ends its block, C.JR and C.JALR as often as all others.
pub fn ending(r: &mut Random) -> u16 {
    let by_register = r.percent(50);
    such(r, |word| {
        word.is_some_and(|word| ends(word) && by_register == (word & 0x7F == JALR))
    })
}

/// One that a helper executes.
pub fn by_helper(r: &mut Random) -> u16 {
    such(r, |word| word.is_none())
}

/// The index of the run's first instruction that is a compressed one.
pub fn first_in_line(halfwords: &[u16]) -> Option<usize> {
    instructions(halfwords).position(|(at, _)| at.len() == 1)
}

/// The run up to that instruction, or all of it.
pub fn before_in_line(halfwords: &[u16]) -> &[u16] {
    match instructions(halfwords).find(|(at, _)| at.len() == 1) {
        Some((at, _)) => &halfwords[..at.start],
        None => halfwords,
    }
}

/// Where the bits of an immediate stand in a word, from bit 1 on.
const IMMEDIATE_B: [u32; 12] = [8, 9, 10, 11, 25, 26, 27, 28, 29, 30, 7, 31];
const IMMEDIATE_J: [u32; 20] = [
    21, 22, 23, 24, 25, 26, 27, 28, 29, 30, 20, 12, 13, 14, 15, 16, 17, 18, 19, 31,
];

/// The word whose immediate is 2 more: one more in the number of these bits, a one being carried until it meets a zero.
fn two_more(mut word: u32, bits: &[u32]) -> u32 {
    for bit in bits {
        word ^= 1 << bit;
        if word >> bit & 1 == 1 {
            break;
        }
    }
    word
}

/// The word that stands in for a compressed instruction. Where that is a jump or a branch, the word stands two bytes before its place, so
/// that the address four bytes on is the one that follows it; its target is then two bytes further off.
fn stand_in(word: u32) -> u32 {
    match word & 0x7F {
        BRANCH => two_more(word, &IMMEDIATE_B),
        JAL => two_more(word, &IMMEDIATE_J),
        _ => word,
    }
}

/// The run with a word in the place of each compressed instruction that is translated in line.
pub fn expanded(halfwords: &[u16]) -> Cow<'_, [u16]> {
    rewritten(halfwords, |length, word| {
        (length == 1).then(|| stand_in(word))
    })
}

/// Code, and the run with words in the place of its compressed instructions, for which the original is asked.
pub struct InPlace<'a> {
    pub asked: Asked<'a>,
    pub run: &'a [u16],
}

impl InPlace<'_> {
    /// Where the run begins so that the address behind so many instructions of it is the one behind as many of the code.
    fn begun(&self, count: u32) -> u64 {
        let longer = spans::of(self.run, count) - spans::of(self.asked.halfwords, count);
        self.asked.start.wrapping_sub(longer)
    }

    /// The block of so many instructions at the most, the run beginning there.
    fn block(
        &self,
        original: &mut Original,
        start: u64,
        limit: u32,
        bytes: &mut Vec<u8>,
    ) -> Answer {
        let halfwords = self.run;
        let asked = Asked {
            start,
            limit,
            halfwords,
            ..self.asked
        };
        original.translate(asked, bytes)
    }

    /// The original's answer. What follows its block's last instruction is to stand where it does in the code: the next pc, what a jump links
    /// to, a load's own pc before it. How many instructions there are is no matter of where the run begins, so that is asked first.
    pub fn translated(&self, original: &mut Original, bytes: &mut Vec<u8>) -> Answer {
        let Asked {
            start,
            limit,
            halfwords,
            ..
        } = self.asked;
        let answer = self.block(original, start, limit, bytes);
        match answer {
            Answer::Block(count) if self.run.len() > halfwords.len() => {
                let again = self.block(original, self.begun(count), limit, bytes);
                assert_eq!(again, answer, "{halfwords:x?}");
                self.put_auipc(original, count, bytes);
            }
            _ => {}
        }
        answer
    }

    /// AUIPC alone depends on where it stands before the block's end. A block's front, up to an AUIPC, is that of the block which ends behind
    /// it, and for which it stands where it should.
    fn put_auipc(&self, original: &mut Original, count: u32, bytes: &mut [u8]) {
        let words: Vec<u32> = words(self.run).collect();
        let mut block = Vec::new();
        for count in (1..=count).rev() {
            let last = words.get(count as usize - 1);
            if last.is_some_and(|word| word & 0x7F == AUIPC) {
                self.block(original, self.begun(count), count, &mut block);
                let front = &block[..block.len() - END];
                bytes[..front.len()].copy_from_slice(front);
            }
        }
    }
}

/// The table holds each halfword once, in their order, and no other ones than compressed; its words have 32 bits. How many there are of each
/// sort is counted by request Q-7, loads and stores by the manual's figures: their quadrants and funct3, with C.LWSP and C.LDSP to x0
/// reserved.
#[test]
fn the_table() {
    let halfwords: Vec<u16> = rows().map(|(halfword, _)| halfword).collect();
    assert!(halfwords.is_sorted_by(|a, b| a < b));
    assert!(rows().all(|(halfword, word)| halfword & 3 != 3 && word & 3 == 3));
    let ending = rows().filter(|(_, word)| ends(*word)).count();
    assert_eq!((halfwords.len() - ending, ending), (16_088, 6_206));

    let others = (0..=u16::MAX).filter(|half| half & 3 != 3 && in_line(*half).is_none());
    let access = |half: &u16| match (half & 3, half >> 13) {
        (0, 1..=3 | 5..=7) | (2, 1 | 5..=7) => true,
        (2, 2 | 3) => half >> 7 & 31 != 0,
        _ => false,
    };
    let (accesses, rest): (Vec<_>, Vec<_>) = others.partition(access);
    assert_eq!((accesses.len(), rest.len()), (24_448, 2_409 + 1));
    assert!(rest.contains(&0x9002) && rest.contains(&0x0000));
}

/// A halfword of each row, by hand from the manual's figures of chapter C.
#[test]
fn expansions_by_hand() {
    let words = [
        (0x0808, 0x0101_0513), // C.ADDI4SPN a0, 16: ADDI x10, x2, 16
        (0x1505, 0xFE15_0513), // C.ADDI a0, -31
        (0x2505, 0x0015_051B), // C.ADDIW a0, 1
        (0x557D, 0xFFF0_0513), // C.LI a0, -1
        (0x7139, 0xFC01_0113), // C.ADDI16SP -64: ADDI x2, x2, -64
        (0x757D, 0xFFFF_F537), // C.LUI a0, 0xFFFFF
        (0x817D, 0x01F5_5513), // C.SRLI a0, 31
        (0x957D, 0x43F5_5513), // C.SRAI a0, 63
        (0x8905, 0x0015_7513), // C.ANDI a0, 1
        (0x8D0D, 0x40B5_0533), // C.SUB a0, a1
        (0x8D2D, 0x00B5_4533), // C.XOR a0, a1
        (0x8D4D, 0x00B5_6533), // C.OR a0, a1
        (0x8D6D, 0x00B5_7533), // C.AND a0, a1
        (0x9D0D, 0x40B5_053B), // C.SUBW a0, a1
        (0x9D2D, 0x00B5_053B), // C.ADDW a0, a1
        (0xB001, 0x801F_F06F), // C.J -2048: JAL x0, -2048
        (0xD101, 0xF005_00E3), // C.BEQZ a0, -256: BEQ x10, x0, -256
        (0xEFFD, 0x0E07_9F63), // C.BNEZ a5, 254: BNE x15, x0, 254
        (0x1506, 0x0215_1513), // C.SLLI a0, 33
        (0x8082, 0x0000_8067), // C.JR ra: JALR x0, 0(x1)
        (0x852E, 0x00B0_0533), // C.MV a0, a1: ADD x10, x0, x11
        (0x9082, 0x0000_80E7), // C.JALR ra: JALR x1, 0(x1)
        (0x952E, 0x00B5_0533), // C.ADD a0, a1
    ];
    for (halfword, word) in words {
        assert_eq!(in_line(halfword), Some(word), "{halfword:04x}");
        assert_eq!(expansion(halfword), Some(word), "{halfword:04x}");
    }
}

/// Words that stand in, by hand: targets that lie two bytes further, with a carry and past the sign, and words that stay.
#[test]
fn stand_ins_by_hand() {
    let jal = [
        (0x0000_006F, 0x0020_006F), // 0, 2
        (0xFFFF_F06F, 0x0000_006F), // -2, 0
        (0x7FE0_006F, 0x0010_006F), // 2046, 2048: from the bits of 10 to 1 to that of 11
        (0x801F_F06F, 0x803F_F06F), // -2048, -2046
    ];
    let beq = [
        (0x0005_0063, 0x0005_0163), // 0, 2
        (0xFE05_0FE3, 0x0005_0063), // -2, 0
        (0x0005_0F63, 0x0205_0063), // 30, 32: from the bits of 4 to 1 to that of 5
        (0x7E05_0F63, 0x0005_00E3), // 2046, 2048
        (0xF005_00E3, 0xF005_01E3), // -256, -254
    ];
    for (word, stands_in) in jal.into_iter().chain(beq) {
        assert_eq!(stand_in(word), stands_in, "{word:08x}");
    }
    for word in [0x0000_80E7, 0x00B0_0533, 0xFFF0_0513] {
        assert_eq!(stand_in(word), word);
    }
    // ADDI, C.BEQZ a0, 4, C.NOP; a load's halfword, behind which nothing is looked at; half a word.
    let run = [0x0093, 0x0050, 0xC111, 0x0001, 0x4108, 0x0001];
    let words = [
        0x0093, 0x0050, 0x0363, 0x0005, 0x0013, 0x0000, 0x4108, 0x0001,
    ];
    assert_eq!(*expanded(&run), words);
    assert_eq!(*expanded(&[0x0001, 0x0093]), [0x0013, 0x0000, 0x0093]);
    for run in [&run[..2], &run[4..], &[]] {
        assert!(matches!(expanded(run), Cow::Borrowed(same) if same == run));
    }
}

/// What the judge says of a run at 0x80000000: the block's length and count, and whether these numbers stand in it in this order.
fn judge(halfwords: &[u16], numbers: &[u64]) -> (usize, Answer) {
    let (mut original, mut bytes) = (Original::new(CODE_SIZE), Vec::new());
    let asked = Asked {
        start: 0x8000_0000,
        limit: 64,
        halfwords,
        helpers: [0xAAAA, 0xBBBB],
    };
    let answer = judged(&mut original, asked, &mut bytes);
    let mut rest = &bytes[..];
    for number in numbers {
        let at = rest
            .windows(8)
            .position(|window| window == number.to_le_bytes());
        rest = &rest[at.unwrap_or_else(|| panic!("{halfwords:x?}: no {number:x}")) + 8..];
    }
    (bytes.len(), answer)
}

/// The judge itself, without this crate: request Q-7's table, and addresses on both sides of compressed instructions.
#[test]
fn judged_by_hand() {
    let block = |length, count| (length, Answer::Block(count));
    let at = |offset: u64| 0x8000_0000 + offset;
    assert_eq!(judge(&[0x0001], &[at(2), 1]), block(81, 1));
    assert_eq!(judge(&[0x0093, 0x0050, 0x0001], &[at(6), 2]), block(102, 2));
    assert_eq!(judge(&[0x0005], &[at(2)]), block(81, 1));
    assert_eq!(judge(&[0x0502], &[at(2)]), block(85, 1));
    assert_eq!(judge(&[0x852E], &[at(2)]), block(91, 1));
    for halfword in [0x4108, 0x9002, 0x9C45] {
        let helper = [halfword.into(), at(0), 0xAAAA];
        assert_eq!(judge(&[halfword], &helper), block(88, 1));
    }
    assert_eq!(judge(&[0x9082], &[at(2), 1]), block(98, 1));
    // The fall-through stands before the target.
    assert_eq!(judge(&[0xC111], &[at(2), at(4), 1]), block(101, 1));
    let helper = [0x4108, at(2), 0xAAAA];
    assert_eq!(judge(&[0x0001, 0x4108], &helper), block(109, 2));
    // LD behind two of them; C.J -4; BEQ x10, x0, 8.
    let helper = [0x0000_B083, at(4), 0xBBBB];
    let ld = [0x0001, 0x852E, 0xB083, 0x0000];
    assert_eq!(judge(&ld, &helper).1, Answer::Block(3));
    let j = [0x0001, 0x0093, 0x0050, 0xBFF5];
    assert_eq!(judge(&j, &[at(2), 3]).1, Answer::Block(3));
    let beq = [0x0001, 0x0463, 0x0005];
    assert_eq!(judge(&beq, &[at(6), at(10), 2]).1, Answer::Block(2));
    // AUIPC x11, 0 before, between and behind compressed instructions.
    let auipc = [0x0597, 0x0000];
    let run = [&auipc[..], &[0x0001], &auipc, &[0x852E, 0x0001], &auipc].concat();
    let places = [at(0), at(6), at(14), at(18), 6];
    assert_eq!(judge(&run, &places).1, Answer::Block(6));
    assert_eq!(judge(&[], &[]), (0, Answer::Missing(0)));
}

/// Every compressed halfword as second instruction, behind ADDI and behind C.NOP, whole words behind it.
#[test]
fn every_halfword_as_second() {
    let mut comparison = Comparison::new(230);
    let (mut longer, mut last) = (0, 0);
    for halfword in (0..=u16::MAX).filter(|half| half & 3 != 3) {
        for front in [&[0x0093, 0x0050][..], &[0x0001]] {
            let run = [front, &[halfword, 0x0597, 0x0000, 0x8067, 0x0000]].concat();
            let reply = comparison.reply(&Request::new(0x8000_0000, &run), GREATEST_BLOCK);
            let Size { count, span, .. } = reply.unwrap();
            let front = 2 * front.len() as u64;
            match in_line(halfword) {
                // AUIPC x11, 0 and JALR x0, 0(x1).
                Some(word) if !ends(word) => {
                    assert_eq!((count, span), (4, front + 2 + 8), "{halfword:04x}");
                    longer += 1;
                }
                _ => {
                    assert_eq!((count, span), (2, front + 2), "{halfword:04x}");
                    last += 1;
                }
            }
        }
    }
    assert_eq!((longer, last), (2 * 16_088, 2 * (3 * 16_384 - 16_088)));
}

/// An index made before request Q-7 shows the original's block for C.NOP, which calls a helper, and is therefore emptied once; then there is
/// another block.
#[test]
fn an_index_made_before() {
    let (pc, run) = (0x8000_0000, [0x0001]);
    emptied_once(pc, &run, 88);
    let mut out = [0; GREATEST_BLOCK];
    let block = translate(&Request::new(pc, &run), &mut out).unwrap();
    assert_eq!((block.bytes().len(), block.span()), (81, 2));
    assert_eq!(rules(), 7);
}
