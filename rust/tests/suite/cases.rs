//! Document 01's cases and those of requests, one by one.

use crate::archive::{
    emuko_expand, emuko_place, emuko_rules, emuko_translate, emuko_word_kind, Reply,
};
use crate::support::words::halves;
use emuko_x64_blocks::{
    expansion, place, translate, word_kind, Helpers, PlaceRefusal, Refusal, Request, WordKind,
    GREATEST_BLOCK, LEAST_BLOCK, MOST_STEPS,
};

const START: u64 = 0x8000_0000;
const ADDI: [u16; 2] = [0x0093, 0x0050];
const OPENING: [u8; 32] = [
    0x53, 0x55, 0x41, 0x54, 0x41, 0x55, 0x41, 0x56, 0x41, 0x57, 0x48, 0x83, 0xEC, 0x08, 0x48, 0x89,
    0xFB, 0x49, 0x89, 0xF4, 0x49, 0x89, 0xD5, 0x49, 0x89, 0xCE, 0x4D, 0x89, 0xC7, 0x4C, 0x89, 0xCD,
];
const CLOSING: [u8; 15] = [
    0x48, 0x83, 0xC4, 0x08, 0x41, 0x5F, 0x41, 0x5E, 0x41, 0x5D, 0x41, 0x5C, 0x5D, 0x5B, 0xC3,
];

/// The block's bytes and its count.
fn translated(request: &Request) -> Result<(Vec<u8>, u32), Refusal> {
    let mut out = [0; GREATEST_BLOCK];
    let block = translate(request, &mut out)?;
    Ok((block.bytes().to_vec(), block.count()))
}

fn reply(start: u64, limit: u32, halfwords: &[u16]) -> Result<(Vec<u8>, u32), Refusal> {
    let reply = translated(&Request::new(start, halfwords).limit(limit));
    if let Ok((bytes, _)) = &reply {
        assert_eq!(bytes[..32], OPENING);
        assert_eq!(bytes[bytes.len() - 15..], CLOSING);
    }
    reply
}

/// Length and count.
fn size(halfwords: &[u16]) -> (usize, u32) {
    let (bytes, count) = reply(START, 64, halfwords).unwrap();
    (bytes.len(), count)
}

/// MOV of a number into RAX, ten bytes.
fn rax(number: u64) -> Vec<u8> {
    [&[0x48, 0xB8][..], &number.to_le_bytes()].concat()
}

fn refusal(halfwords: &[u16]) -> Refusal {
    reply(START, 64, halfwords).unwrap_err()
}

#[test]
fn limits() {
    assert_eq!(reply(START + 1, 0, &ADDI), Err(Refusal::LimitZero));
    let run = [0x91BB, 0x0020].repeat(70);
    let sixty_four = reply(START, 64, &run);
    assert_eq!(sixty_four.as_ref().unwrap().1, MOST_STEPS);
    assert_eq!(reply(START, 65, &run), sixty_four);
    assert_eq!(reply(START, u32::MAX, &run), sixty_four);
    assert_eq!(reply(START, 63, &run).unwrap().1, 63);
}

#[test]
fn odd_starts() {
    assert_eq!(
        reply(START + 1, 1, &ADDI),
        Err(Refusal::OddStart(START + 1))
    );
    assert_eq!(reply(u64::MAX, 1, &[]), Err(Refusal::OddStart(u64::MAX)));
}

#[test]
fn missing_halfwords() {
    assert_eq!(refusal(&[]), Refusal::MissingHalfword(0));
    assert_eq!(refusal(&[0x0093]), Refusal::MissingHalfword(1));
    assert_eq!(size(&[0x0001]), (81, 1));
    // After a first word a missing halfword ends the block.
    assert_eq!(size(&[0x0093, 0x0050, 0x0093]), (88, 1));
}

#[test]
fn jal_to_itself() {
    let (bytes, count) = reply(START, 64, &[0x006F, 0x0000]).unwrap();
    assert_eq!((bytes.len(), count), (67, 1));
    assert_eq!(bytes[32..42], rax(START));
    assert_eq!(LEAST_BLOCK, 67);
}

#[test]
fn fence_at_the_end_of_addresses() {
    let (bytes, count) = reply(0xFFFF_FFFF_FFFF_FFFC, 1, &[0x000F, 0x0000]).unwrap();
    assert_eq!((bytes.len(), count), (67, 1));
    assert_eq!(bytes[32..42], rax(0));
}

/// RAX, which the block's end sets: ten bytes before the ten that set RDX and the fifteen of the closing.
fn rax_at_the_end(bytes: &[u8]) -> u64 {
    let at = bytes.len() - 35;
    assert_eq!(bytes[at..at + 2], [0x48, 0xB8]);
    u64::from_le_bytes(bytes[at + 2..at + 10].try_into().unwrap())
}

/// Length, count and RAX of a block that goes on at an address.
fn end(start: u64, words: &[u32]) -> (usize, u32, u64) {
    let run: Vec<u16> = words.iter().flat_map(|word| halves(*word)).collect();
    let (bytes, count) = reply(start, 64, &run).unwrap();
    (bytes.len(), count, rax_at_the_end(&bytes))
}

/// Request Q-1: FENCE.I ends its block, which goes on at the next word; FENCE does not.
#[test]
fn fences() {
    const FENCE: u32 = 0x0000_000F;
    const FENCE_I: u32 = 0x0000_100F;
    const ADDI: u32 = 0x0050_0093;
    const SLLW: u32 = 0x01FF_1EBB; // SLLW x29, x30, x31
    let start = START;
    assert_eq!(end(start, &[FENCE_I, ADDI]), (67, 1, start + 4));
    // rd = x1; all of rd, rs1 and imm set.
    assert_eq!(end(start, &[0x0000_108F, ADDI]), (67, 1, start + 4));
    assert_eq!(end(start, &[0xFFFF_9F8F, ADDI]), (67, 1, start + 4));
    assert_eq!(end(start, &[FENCE, ADDI]), (88, 2, start + 8));
    assert_eq!(end(start, &[ADDI, FENCE_I, ADDI]), (88, 2, start + 8));
    // ADDI x0, x0, 0
    assert_eq!(end(start, &[0x0000_0013, FENCE_I]), (81, 2, start + 8));
    assert_eq!(end(0xFFFF_FFFF_FFFF_FFFC, &[FENCE_I]), (67, 1, 0));
    let greatest = [&[SLLW; 63][..], &[FENCE_I]].concat();
    assert_eq!(end(start, &greatest), (2209, 64, start + 256));
    assert_eq!(end(start, &[FENCE; 64]), (67, 64, start + 256));
    assert_eq!(end(start, &[FENCE_I; 64]), (67, 1, start + 4));
    // As where the limit is reached: not a byte differs.
    let by_limit = reply(start, 2, &[0x0093, 0x0050, 0x000F, 0x0000]);
    let by_fence_i = reply(start, 64, &[0x0093, 0x0050, 0x100F, 0x0000, 0x0001]);
    assert_eq!(by_fence_i, by_limit);
    // Its upper halfword is missing; its funct3 is 2.
    assert_eq!(refusal(&[0x100F]), Refusal::MissingHalfword(1));
    assert_eq!(size(&[0x0093, 0x0050, 0x100F]), (88, 1));
    assert_eq!(refusal(&[0x200F, 0x0000]), Refusal::NotTaken(0x0000_200F));
}

#[test]
fn addi() {
    let (bytes, count) = reply(START, 64, &ADDI).unwrap();
    assert_eq!((bytes.len(), count), (88, 1));
    let body = [
        0x4C, 0x8B, 0x93, 0x00, 0x00, 0x00, 0x00, 0x49, 0x81, 0xC2, 0x05, 0x00, 0x00, 0x00, 0x4C,
        0x89, 0x93, 0x08, 0x00, 0x00, 0x00, 0x48, 0xB8, 0x04, 0x00, 0x00, 0x80, 0x00, 0x00, 0x00,
        0x00, 0x48, 0xBA, 0x01, 0x00, 0x00, 0x00, 0x00, 0x00, 0x00, 0x00,
    ];
    assert_eq!(bytes[32..73], body);
    // ECALL behind it leaves the same block.
    let with_ecall = reply(START, 64, &[0x0093, 0x0050, 0x0073, 0x0000]);
    assert_eq!(with_ecall, Ok((bytes, 1)));
}

/// funct7 0x20 on funct3 4, which is no word of OP: its two loads stay in the block behind ADDI, and nothing of it where it is first.
#[test]
fn a_word_of_op_that_is_not_taken() {
    assert_eq!(size(&[0x0093, 0x0050, 0xC1B3, 0x4020]), (102, 1));
    assert_eq!(refusal(&[0xC1B3, 0x4020]), Refusal::NotTaken(0x4020_C1B3));
}

/// Request Q-2: the rest of M is translated. Lengths are 67, 14 for two loads, the word's own host code, 7 for the store of its result.
#[test]
fn the_rest_of_m() {
    let alone = |word: u32| size(&halves(word));
    // MULH, MULHSU, MULHU x3, x1, x2
    assert_eq!(alone(0x0220_91B3), (97, 1));
    assert_eq!(alone(0x0220_A1B3), (105, 1));
    assert_eq!(alone(0x0220_B1B3), (97, 1));
    // DIV, DIVU, REM, REMU
    assert_eq!(alone(0x0220_C1B3), (122, 1));
    assert_eq!(alone(0x0220_D1B3), (108, 1));
    assert_eq!(alone(0x0220_E1B3), (119, 1));
    assert_eq!(alone(0x0220_F1B3), (107, 1));
    // DIVW, DIVUW, REMW, REMUW
    assert_eq!(alone(0x0220_C1BB), (130, 1));
    assert_eq!(alone(0x0220_D1BB), (111, 1));
    assert_eq!(alone(0x0220_E1BB), (127, 1));
    assert_eq!(alone(0x0220_F1BB), (110, 1));
    // MUL and MULW as they were.
    assert_eq!(alone(0x0220_81B3), (92, 1));
    assert_eq!(alone(0x0220_81BB), (95, 1));
    // DIV x0, x1, x0 loads, computes and counts; only its store is left out.
    assert_eq!(alone(0x0200_C033), (115, 1));
    // Behind ADDI and before it.
    assert_eq!(end(START, &[0x0050_0093, 0x0220_91B3]), (118, 2, START + 8));
    assert_eq!(end(START, &[0x0220_91B3, 0x0050_0093]), (118, 2, START + 8));
    // OP_32 has no MULH, MULHSU, MULHU.
    for word in [0x0220_91BB, 0x0220_A1BB, 0x0220_B1BB] {
        assert_eq!(refusal(&halves(word)), Refusal::NotTaken(word));
    }
}

/// The whole block of DIV x3, x1, x2: loads, R10 divided by R11, store, end.
#[test]
fn the_bytes_of_div() {
    let (bytes, _) = reply(START, 64, &halves(0x0220_C1B3)).unwrap();
    let body = [
        0x4C, 0x8B, 0x93, 0x08, 0x00, 0x00, 0x00, 0x4C, 0x8B, 0x9B, 0x10, 0x00, 0x00,
        0x00, // loads
        0x4C, 0x89, 0xD9, 0x48, 0x83, 0xC1, 0x01, // RCX = R11 + 1
        0x4C, 0x89, 0xD0, 0x49, 0x0F, 0xAF, 0xC3, 0x48, 0x29, 0xC8, // RAX = R10 * R11 - RCX
        0x48, 0x83, 0xF9, 0x02, 0x72, 0x08, // RCX below 2 jumps over the division
        0x4C, 0x89, 0xD0, 0x48, 0x99, 0x49, 0xF7, 0xFB, // RAX = R10 / R11
        0x49, 0x89, 0xC2, // R10 = RAX
        0x4C, 0x89, 0x93, 0x18, 0x00, 0x00, 0x00, // store
    ];
    assert_eq!(bytes[32..32 + 55], body);
    assert_eq!(bytes[32 + 55..][..10], rax(START + 4));
}

/// What words that are not taken leave: 17 bytes for BRANCH, 14 for OP and OP_32, 7 for OP_IMM and OP_IMM_32, else none.
#[test]
fn left_by_words_not_taken() {
    let behind_addi = |word: u32| {
        let run = [ADDI, [word as u16, (word >> 16) as u16]].concat();
        size(&run).0 - 88
    };
    assert_eq!(behind_addi(0x0000_2063), 17);
    // OP with funct7 0x20 and with 2; OP_32 with funct7 1 and funct3 1, 2, 3, which M does not have.
    assert_eq!(behind_addi(0x4020_C1B3), 14);
    assert_eq!(behind_addi(0x0420_81B3), 14);
    assert_eq!(behind_addi(0x0220_91BB), 14);
    assert_eq!(behind_addi(0x0220_A1BB), 14);
    assert_eq!(behind_addi(0x0220_B1BB), 14);
    assert_eq!(behind_addi(0x8000_9093), 7);
    assert_eq!(behind_addi(0x0200_909B), 7);
    for word in [
        0x0000_0073,
        0x0000_200F,
        0x0000_7083,
        0x0000_4023,
        0x0000_001F,
    ] {
        assert_eq!(behind_addi(word), 0, "{word:08x}");
    }
}

/// Whether the eight bytes of a number stand in the block of a run.
fn holds(halfwords: &[u16], number: u64) -> bool {
    let (bytes, _) = reply(START, 64, halfwords).unwrap();
    bytes
        .windows(8)
        .any(|window| window == number.to_le_bytes())
}

/// Request Q-7's table: compressed instructions that go on, and which helpers execute.
#[test]
fn compressed() {
    assert_eq!(size(&[0x0001]), (81, 1)); // C.NOP
    assert_eq!(size(&[0x0093, 0x0050, 0x0001]), (102, 2));
    assert_eq!(size(&[0x0005]), (81, 1)); // C.NOP 1, a hint
    assert_eq!(size(&[0x0502]), (85, 1)); // C.SLLI a0, 0, a hint
    assert_eq!(size(&[0x852E]), (91, 1)); // C.MV a0, a1
    for halfword in [0x0001, 0x0005, 0x0502, 0x852E] {
        let (bytes, _) = reply(START, 64, &[halfword]).unwrap();
        assert_eq!(rax_at_the_end(&bytes), START + 2);
        // The next instruction, at 2 modulo 4.
        let (bytes, count) = reply(START, 64, &[halfword, 0x0093, 0x0050]).unwrap();
        assert_eq!((count, rax_at_the_end(&bytes)), (2, START + 6));
    }
    // C.LW; C.EBREAK; reserved: 100-1-11-10 in quadrant 1, C.ADDIW to x0, C.ADDI16SP 0, C.LUI 0, C.JR x0, 0x0000.
    for halfword in [
        0x4108, 0x9002, 0x9C45, 0x2001, 0x6101, 0x6281, 0x8002, 0x0000,
    ] {
        assert_eq!(size(&[halfword]), (88, 1), "{halfword:04x}");
        assert!(holds(&[halfword], halfword.into()) && !holds(&[halfword], START + 2));
        assert_eq!(expansion(halfword), None);
    }
}

/// The whole block of C.MV a0, a1, which is ADD x10, x0, x11.
#[test]
fn the_bytes_of_c_mv() {
    let (bytes, _) = reply(START, 64, &[0x852E]).unwrap();
    let body = [
        0x4C, 0x8B, 0x93, 0x00, 0x00, 0x00, 0x00, 0x4C, 0x8B, 0x9B, 0x58, 0x00, 0x00,
        0x00, // loads of x0 and x11
        0x4D, 0x01, 0xDA, // R10 += R11
        0x4C, 0x89, 0x93, 0x50, 0x00, 0x00, 0x00, // store
    ];
    assert_eq!(bytes[32..56], body);
    assert_eq!(bytes[56..66], rax(START + 2));
    let add = reply(START - 2, 64, &halves(0x00B0_0533));
    assert_eq!(add, Ok((bytes, 1)));
}

/// Compressed jumps: where the block goes on and what is linked to is two bytes behind them.
#[test]
fn compressed_jumps() {
    // C.JALR ra; C.JR ra.
    assert_eq!(size(&[0x9082]), (98, 1));
    assert!(holds(&[0x9082], START + 2) && !holds(&[0x9082], START + 4));
    assert_eq!(size(&[0x8082]), (81, 1));
    // C.BEQZ a0, 4.
    assert_eq!(size(&[0xC111]), (101, 1));
    assert!(holds(&[0xC111], START + 2) && holds(&[0xC111], START + 4));
    // C.J 0, C.J -2048: no link.
    assert_eq!(size(&[0xA001]), (67, 1));
    assert!(holds(&[0xA001], START) && holds(&[0xB001], START - 2048));
    // Behind C.NOP all of them stand two bytes further.
    assert!(holds(&[0x0001, 0x9082], START + 4));
    assert!(holds(&[0x0001, 0xC111], START + 4) && holds(&[0x0001, 0xC111], START + 6));
    assert!(holds(&[0x0001, 0xA001], START + 2));
}

#[test]
fn loads_and_stores() {
    assert_eq!(size(&[0xB083, 0x0000]), (88, 1));
    assert_eq!(refusal(&[0xF083, 0x0000]), Refusal::NotTaken(0x0000_F083));
    assert_eq!(size(&[0x3023, 0x0000]), (88, 1));
    assert_eq!(refusal(&[0x4023, 0x0000]), Refusal::NotTaken(0x0000_4023));
}

#[test]
fn shifts() {
    assert_eq!(size(&[0x9093, 0x03F0]), (85, 1));
    assert_eq!(refusal(&[0x909B, 0x0200]), Refusal::NotTaken(0x0200_909B));
}

/// JALR x0, 0(x1), and its reserved funct3, which are not taken; behind ADDI nothing is left of them, not even the load of x1.
#[test]
fn jalr() {
    assert_eq!(size(&[0x8067, 0x0000]), (81, 1));
    let (addi, count) = reply(START, 64, &ADDI).unwrap();
    assert_eq!((addi.len(), count), (88, 1));
    assert_eq!(addi[53..63], rax(START + 4));
    for funct3 in 1..8 {
        let low = 0x8067 | funct3 << 12;
        assert_eq!(refusal(&[low, 0x0000]), Refusal::NotTaken(low.into()));
        let run = [&ADDI[..], &[low, 0x0000]].concat();
        assert_eq!(reply(START, 64, &run), Ok((addi.clone(), 1)));
    }
}

/// DIVW x3, x1, x2 sixty-four times; sixty-four times SLLW is the original's greatest.
#[test]
fn the_greatest_block() {
    assert_eq!(size(&[0xC1BB, 0x0220].repeat(64)), (GREATEST_BLOCK, 64));
    assert_eq!(size(&[0xC1BB, 0x0220].repeat(70)), (GREATEST_BLOCK, 64));
    assert_eq!(GREATEST_BLOCK, 67 + 64 * 63);
    assert_eq!(GREATEST_BLOCK, 4099);
    assert_eq!(size(&[0x91BB, 0x0020].repeat(64)), (2243, 64));
    // 63 times DIVW, then a branch, a load, FENCE.I: no longer than that.
    let ends = [
        (0xFE20_9CE3, 44 + 25),
        (0x0000_B083, 41 + 7 + 15),
        (0x0000_100F, 35),
    ];
    for (word, length) in ends {
        let run = [&[0xC1BB, 0x0220].repeat(63)[..], &halves(word)].concat();
        assert_eq!(size(&run), (32 + 63 * 63 + length, 64));
    }
}

/// Number 5 goes by the greatest block of all: 2,243 and 4,098 bytes are too few for ADDI, for the greatest block of the original and for
/// the greatest of all; 4,099 are enough. The output is as before where it is refused.
#[test]
fn short_outputs() {
    let runs = [
        ADDI.to_vec(),
        [0x91BB, 0x0020].repeat(64),
        [0xC1BB, 0x0220].repeat(64),
    ];
    let mut out = [0x5A; GREATEST_BLOCK];
    for (run, length) in runs.iter().zip([88, 2243, 4099]) {
        let request = Request::new(START, run);
        for short in [0, 88, 2242, 2243, 2244, 4096, 4098] {
            let reply = translate(&request, &mut out[..short]);
            assert_eq!(reply, Err(Refusal::OutputTooShort));
        }
        assert_eq!(out, [0x5A; GREATEST_BLOCK]);
        assert_eq!(translate(&request, &mut out).unwrap().bytes().len(), length);
        out.fill(0x5A);
    }
}

#[test]
fn the_output_behind_a_block() {
    let request = Request::new(START, &ADDI);
    let mut out = [0x5A; GREATEST_BLOCK];
    let block = translate(&request, &mut out).unwrap();
    assert_eq!((block.bytes().len(), block.count()), (88, 1));
    let bytes = block.bytes().to_vec();
    assert_eq!(bytes, out[..88]);
    assert_eq!(out[88..], [0x5A; GREATEST_BLOCK - 88]);
}

/// The order of the tests: each request is refused for the first reason that holds of it.
#[test]
fn order_of_refusals() {
    let mut out = [0; 1];
    let mut first = |limit, start, halfwords: &[u16]| {
        let request = Request::new(start, halfwords).limit(limit);
        translate(&request, &mut out).unwrap_err().number()
    };
    assert_eq!(first(0, 1, &[]), 1);
    assert_eq!(first(1, 1, &[]), 2);
    assert_eq!(first(1, 0, &[]), 3);
    assert_eq!(first(1, 0, &[0x0073]), 3);
    assert_eq!(first(1, 0, &[0x0073, 0x0000]), 4);
    assert_eq!(first(1, 0, &ADDI), 5);
    // A compressed halfword needs no second one, whoever executes it.
    assert_eq!(first(1, 0, &[0x0001]), 5);
    assert_eq!(first(1, 0, &[0x4108]), 5);
}

/// A helper end in full: arguments, the pair's address, and the earlier count where it is not 0.
#[test]
fn helper_ends() {
    let helpers = Helpers {
        halfword: 0x0102_0304_0506_0708,
        memory: 0x1112_1314_1516_1718,
    };
    let end = |instruction: u64, pc: u64, helper: u64, earlier: &[u8]| {
        [
            &[0x4C, 0x89, 0xE7, 0x4C, 0x89, 0xEE, 0x4C, 0x89, 0xF2][..],
            &[0x48, 0xB9],
            &instruction.to_le_bytes(),
            &[0x49, 0xB8],
            &pc.to_le_bytes(),
            &[0x48, 0xB8],
            &helper.to_le_bytes(),
            &[0xFF, 0xD0],
            earlier,
            &CLOSING,
        ]
        .concat()
    };
    let bytes = |halfwords: &[u16]| {
        let request = Request::new(START, halfwords).helpers(helpers);
        translated(&request).unwrap().0
    };
    let halfword = end(0x4108, START, helpers.halfword, &[]);
    assert_eq!(bytes(&[0x4108])[32..], halfword);
    let load = end(0xFFF0_B083, START, helpers.memory, &[]);
    assert_eq!(bytes(&[0xB083, 0xFFF0])[32..], load);
    let earlier = [0x48, 0x81, 0xC2, 0x01, 0x00, 0x00, 0x00];
    let store = end(0x0000_3023, START + 4, helpers.memory, &earlier);
    assert_eq!(bytes(&[0x0093, 0x0050, 0x3023, 0x0000])[32 + 21..], store);
    // Behind C.NOP: 109 bytes, and the helper's pc is two bytes on.
    let halfword = end(0x4108, START + 2, helpers.halfword, &earlier);
    assert_eq!(bytes(&[0x0001, 0x4108])[32 + 14..], halfword);
    assert_eq!(bytes(&[0x0001, 0x4108]).len(), 109);
}

#[test]
fn placing() {
    let placed = |code: usize, store: usize, used: usize| {
        let reply = place(&vec![7; code], &mut vec![0; store], used);
        reply.map(|placed| (placed.offset, placed.mark))
    };
    assert_eq!(placed(67, 75, 5), Ok((8, 75)));
    assert_eq!(placed(67, 74, 5), Err(PlaceRefusal::Full));
    assert_eq!(placed(0, 5, 5), Err(PlaceRefusal::Full));
    assert_eq!(placed(0, 8, 5), Ok((8, 8)));
    assert_eq!(placed(0, 0, 0), Ok((0, 0)));
    assert_eq!(placed(0, 0, 1), Err(PlaceRefusal::MarkBeyondStore));
}

#[test]
fn numbers_and_texts() {
    let refusals = [
        Refusal::LimitZero,
        Refusal::OddStart(3),
        Refusal::MissingHalfword(1),
        Refusal::NotTaken(0x73),
        Refusal::OutputTooShort,
    ];
    let texts = [
        "the limit is 0",
        "the start, 0x3, is odd",
        "the first instruction lacks halfword 1",
        "the first word, 0x00000073, is not taken",
        "the output has fewer than 4099 bytes",
    ];
    for (k, (refusal, text)) in refusals.iter().zip(texts).enumerate() {
        assert_eq!(refusal.number() as usize, k + 1);
        assert_eq!(refusal.to_string(), text);
    }
    assert_eq!(PlaceRefusal::MarkBeyondStore.number(), 6);
    assert_eq!(PlaceRefusal::Full.number(), 7);
    let error: Box<dyn std::error::Error> = Box::new(PlaceRefusal::Full);
    assert_eq!(error.to_string(), "the store has no room for the code");
}

/// Values that a refusal does not have are 0, which only C sees: the crate's refusals have no place for them.
#[test]
fn values_that_a_reply_lacks() {
    let mut out = [0; GREATEST_BLOCK];
    let values = |reply: Reply| (reply.number, reply.first, reply.second, reply.third);
    let mut translated = |start: u64, limit: u32, run: &[u16], room: usize| {
        let (halfwords, out) = (run.as_ptr(), out.as_mut_ptr());
        // SAFETY: The lengths are those of the slices, or less.
        values(unsafe { emuko_translate(start, limit, halfwords, run.len(), 0, 0, out, room) })
    };
    assert_eq!(translated(START, 0, &ADDI, 0), (1, 0, 0, 0));
    assert_eq!(translated(START + 1, 1, &ADDI, 0), (2, START + 1, 0, 0));
    assert_eq!(translated(START, 1, &[], 0), (3, 0, 0, 0));
    assert_eq!(translated(START, 1, &ADDI[..1], 0), (3, 1, 0, 0));
    assert_eq!(translated(START, 1, &[0x0073, 0x0000], 0), (4, 0x73, 0, 0));
    assert_eq!(translated(START, 1, &ADDI, 2243), (5, 0, 0, 0));
    assert_eq!(translated(START, 1, &ADDI, 4098), (5, 0, 0, 0));
    assert_eq!(translated(START, 64, &ADDI, 4099), (0, 88, 1, 4));
    let (code, mut store) = ([7; 4], [0; 8]);
    let mut placed = |used: usize| {
        // SAFETY: As above.
        values(unsafe { emuko_place(code.as_ptr(), 4, store.as_mut_ptr(), 8, used) })
    };
    assert_eq!(placed(9), (6, 0, 0, 0));
    assert_eq!(placed(5), (7, 0, 0, 0));
    assert_eq!(placed(1), (0, 4, 8, 0));
    // SAFETY: Any number may be passed to the first; the second takes none.
    let (kind, rules) = unsafe { (emuko_word_kind(0x0000_100F), emuko_rules()) };
    assert_eq!((kind, rules), (2, 7));
    // SAFETY: As above.
    let words = [0x852E, 0x4108, 0x0000, 0x0093].map(|halfword| unsafe { emuko_expand(halfword) });
    assert_eq!(words, [0x00B0_0533, 0, 0, 0]);
}

/// The numbers of the kinds, and a word of each.
#[test]
fn kinds_of_words() {
    let kinds = [
        (0x4020_C1B3, WordKind::NotTaken),
        (0x0050_0093, WordKind::Straight),
        (0x0000_006F, WordKind::Ending),
        (0x0000_B083, WordKind::MemoryHelper),
    ];
    for (number, (word, kind)) in kinds.into_iter().enumerate() {
        assert_eq!(word_kind(word), kind);
        assert_eq!(kind as usize, number);
    }
    assert_eq!(word_kind(0x0000_000F), WordKind::Straight);
    assert_eq!(word_kind(0x0000_100F), WordKind::Ending);
    assert_eq!(word_kind(0x0220_91B3), WordKind::Straight); // MULH
    assert_eq!(word_kind(0x0220_91BB), WordKind::NotTaken);
    assert_eq!(word_kind(0x0000_8067), WordKind::Ending); // JALR x0, 0(x1)
    assert_eq!(word_kind(0x0000_9067), WordKind::NotTaken);
}
