//! Guests whose code is mostly compressed (request Q-7), entered block by block on this processor as their jumps lead: forth and back, to 2
//! modulo 4, into the middle of blocks and of instructions. After each block the interpreter (module `manual`) says what has to have come
//! out.

use crate::compressed::{self, in_line};
use crate::entered::{List, Seen as Entered};
use crate::manual;
use crate::support::machine::Machine;
use crate::support::random::Random;
use crate::support::runs::instructions;
use crate::support::words;
use emuko_x64_blocks::GREATEST_BLOCK;

/// Halfwords of code that a guest has; what stands around them cannot be fetched.
const LENGTH: usize = 150;

/// Registers that hold addresses of the code: ra, to which C.JALR links, and three more. No other instruction writes them, but what stands in
/// the middle of one.
const ADDRESSES: [usize; 4] = [1, 5, 6, 7];

struct Guest {
    base: u64,
    code: Vec<u16>,
}

/// C.JR or C.JALR by one of the registers that hold addresses.
fn by_register(r: &mut Random) -> u16 {
    let register = r.one_of(&ADDRESSES) as u16;
    r.one_of(&[0x8002, 0x9002]) | register << 7
}

/// Whether the word of an instruction writes one of the registers that hold addresses.
fn writes_address(word: u32) -> bool {
    ADDRESSES.contains(&(word as usize >> 7 & 31))
}

/// Draws until this holds.
fn until<T>(mut draw: impl FnMut() -> T, holds: impl Fn(&T) -> bool) -> T {
    loop {
        let drawn = draw();
        if holds(&drawn) {
            return drawn;
        }
    }
}

impl Guest {
    fn new(r: &mut Random) -> Self {
        let bytes = 2 * LENGTH as u64;
        let any = r.u64() & !1;
        let base = r.one_of(&[0x8000_0000, 0x8000_0002, 0u64.wrapping_sub(bytes / 2), any]);
        let mut guest = Guest {
            base,
            code: Vec::new(),
        };
        while guest.code.len() < LENGTH {
            guest.add_instruction(r);
        }
        guest.code.truncate(LENGTH);
        guest
    }

    fn add_instruction(&mut self, r: &mut Random) {
        match r.below(100) {
            0 => self.code.push(compressed::by_helper(r)),
            1 => self.code.extend(words::halves(words::memory(r))),
            2..=4 => self.code.push(by_register(r)),
            5..=9 => {
                let jump = until(|| compressed::ending(r), |jump| self.stays(&[*jump]));
                self.code.push(jump);
            }
            10..=11 => {
                let word = || words::halves(words::jump(r) & !(31 << 7));
                let jump = until(word, |jump| self.stays(jump));
                self.code.extend(jump);
            }
            12..=29 => {
                let word = until(|| words::straight(r), |word| !writes_address(*word));
                self.code.extend(words::halves(word));
            }
            _ => {
                let kept = |half: &u16| !in_line(*half).is_some_and(writes_address);
                self.code.push(until(|| compressed::straight(r), kept));
            }
        }
    }

    /// Whether there is a halfword at this address.
    fn has(&self, address: u64) -> bool {
        address % 2 == 0 && address.wrapping_sub(self.base) < 2 * LENGTH as u64
    }

    /// All halfwords from an address on.
    fn code_at(&self, address: u64) -> &[u16] {
        &self.code[address.wrapping_sub(self.base) as usize / 2..]
    }

    /// Whether a jump that is added now leads to the code, or to behind itself, with registers that are all 0 and with others that are not.
    fn stays(&self, jump: &[u16]) -> bool {
        [0, 1].into_iter().all(|value| {
            let pc = self.base.wrapping_add(2 * self.code.len() as u64);
            let mut x = [value; 32];
            x[0] = 0;
            let mut run = manual::Run { x, pc, count: 0 };
            run.turn(1, jump, GREATEST_BLOCK);
            self.has(run.pc)
        })
    }
}

/// How often each thing was seen.
#[derive(Debug, Default)]
struct Seen {
    /// Blocks that C.J ended, by where it led: forth, back.
    jumps: [u32; 2],
    /// Blocks that C.JALR ended, and those that stand where it has linked to.
    calls: u32,
    returns: u32,
    /// Blocks that stand in the middle of one that was entered before, behind its first instruction, and of an instruction of it.
    in_the_middle: u32,
    in_an_instruction: u32,
}

/// What a guest has gone through: the blocks by pc and span, and where C.JALR has linked to.
#[derive(Default)]
struct Past {
    blocks: Vec<(u64, u64)>,
    links: Vec<u64>,
}

impl Past {
    /// Adds what there is to see of the block at a pc, before it is entered.
    fn see(&self, guest: &Guest, pc: u64, seen: &mut Seen) {
        seen.returns += self.links.contains(&pc) as u32;
        let inside = |(start, span): &&(u64, u64)| {
            let into = pc.wrapping_sub(*start);
            into != 0 && into < *span
        };
        let Some((start, _)) = self.blocks.iter().find(inside) else {
            return;
        };
        seen.in_the_middle += 1;
        let into = pc.wrapping_sub(*start) as usize / 2;
        let stands = instructions(guest.code_at(*start)).any(|(at, _)| at.start == into);
        seen.in_an_instruction += !stands as u32;
    }

    /// Adds a block of this count and span that was entered at a pc and led to another one.
    fn add(
        &mut self,
        guest: &Guest,
        pc: u64,
        (count, span): (usize, u64),
        next: u64,
        seen: &mut Seen,
    ) {
        self.blocks.push((pc, span));
        let (behind, code) = (pc.wrapping_add(span), guest.code_at(pc));
        let last = instructions(code).nth(count - 1);
        match last.filter(|(at, _)| at.len() == 1) {
            Some((_, word)) if word & 0xFFF == 0x06F => {
                let back = next.wrapping_sub(behind) as i64;
                seen.jumps[back.is_negative() as usize] += 1;
            }
            Some((_, word)) if word & 0xFFF == 0x0E7 => {
                self.links.push(behind);
                seen.calls += 1;
            }
            _ => {}
        }
    }
}

/// A guest's blocks, up to where it leaves its code or meets a word that is not taken.
fn run(guest: &Guest, list: &mut List, seen: &mut Seen, entered: &mut Entered) {
    let mut past = Past::default();
    for _ in 0..60 {
        let pc = list.pc;
        if !guest.has(pc) {
            return;
        }
        past.see(guest, pc, seen);
        let block = list.turn_over(64, guest.code_at(pc), GREATEST_BLOCK, entered);
        let Some(size) = block else {
            return;
        };
        past.add(guest, pc, size, list.pc, seen);
    }
}

#[test]
fn from_block_to_block() {
    let mut machine = Machine::new(200);
    let mut r = Random::new(200);
    let (mut seen, mut entered) = (Seen::default(), Entered::default());
    for _ in 0..4_000 {
        let guest = Guest::new(&mut r);
        let mut list = List::at(&mut machine, &mut r, guest.base);
        for register in ADDRESSES {
            let by = 2 * r.below(LENGTH as u64);
            list.set(register, guest.base.wrapping_add(by));
        }
        run(&guest, &mut list, &mut seen, &mut entered);
    }
    println!("{seen:?}");
    println!("{entered:?}");
    assert!(seen.jumps.iter().all(|n| *n > 200), "{seen:?}");
    assert!(seen.calls > 5_000 && seen.returns > 500, "{seen:?}");
    assert!(seen.in_the_middle > 10_000 && seen.in_an_instruction > 1_000);
    assert!(entered.entries > 30_000 && entered.compressed > 100_000);
    assert!(entered.at_2_modulo_4 > 10_000, "{entered:?}");
}
