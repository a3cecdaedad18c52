//! Blocks kept while the guest's code changes (request Q-5): translations are inserted, writes change the code, each followed by its drop,
//! and all is emptied now and then. Whatever entry is then in use has its span unchanged, is the block of the code as it is now, made for as
//! many instructions, and does when it is entered what the manual's run of that code does, read for as many.

use crate::compressed;
use crate::drops::touches;
use crate::entered::{List, Seen as Entered};
use crate::index::{Key, SATP, START};
use crate::index_random::Indexing;
use crate::support::machine::{helpers, Machine};
use crate::support::random::Random;
use crate::support::words;
use emuko_x64_blocks::{
    translate, word_kind, Block, BlockIndex, BucketIndex, CodeStore, Entry, NativeBlock, Request,
    Run, WordKind, GREATEST_BLOCK,
};
use std::collections::{HashMap, HashSet};

/// Bytes of code that a guest has; what stands around them cannot be fetched.
const LENGTH: usize = 400;

/// Address spaces, which all have the same code at the same addresses.
const SATPS: [u64; 3] = [0, SATP, SATP ^ 1 << 44];

/// A guest's code, whose addresses may go on from 2^64 - 1 to 0.
struct Code {
    base: u64,
    bytes: Vec<u8>,
}

/// An instruction of any sort, as it stands in memory; two compressed ones; a halfword that ends a block, with anything behind it.
fn instruction(r: &mut Random) -> [u8; 4] {
    let two = |first: u16, second: u32| second << 16 | u32::from(first);
    let word = match r.below(24) {
        0 => words::ending(r),
        1 => words::memory(r),
        2 => words::not_taken(r),
        3 => two(compressed::by_helper(r), r.u32()),
        4 => two(compressed::ending(r), r.u32()),
        5..=11 => two(compressed::straight(r), compressed::straight(r).into()),
        _ => words::straight(r),
    };
    word.to_le_bytes()
}

impl Code {
    fn new(r: &mut Random) -> Self {
        let any = r.u64() & !1;
        let base = r.one_of(&[START, 0, 0u64.wrapping_sub(LENGTH as u64 / 2), any]);
        let bytes = (0..LENGTH / 4).flat_map(|_| instruction(r)).collect();
        Code { base, bytes }
    }

    /// So many bytes from an address on, as far as they are there.
    fn at(&self, address: u64, number: usize) -> &[u8] {
        let from = address.wrapping_sub(self.base).min(LENGTH as u64) as usize;
        &self.bytes[from..LENGTH.min(from + number)]
    }

    /// All halfwords from an address on.
    fn from(&self, address: u64) -> Vec<u16> {
        let halfwords = self.at(address, LENGTH).chunks_exact(2);
        halfwords
            .map(|half| u16::from_le_bytes([half[0], half[1]]))
            .collect()
    }

    /// What is written beside the code is lost.
    fn write(&mut self, address: u64, bytes: &[u8]) {
        for (k, byte) in bytes.iter().enumerate() {
            let at = address.wrapping_add(k as u64).wrapping_sub(self.base);
            if at < LENGTH as u64 {
                self.bytes[at as usize] = *byte;
            }
        }
    }

    /// An even address of the code, mostly that of an instruction.
    fn pc(&self, r: &mut Random) -> u64 {
        let half = 2 * r.percent(20) as u64;
        self.base
            .wrapping_add(4 * r.below(LENGTH as u64 / 4) + half)
    }

    /// What a guest writes somewhere in its code or beside it: an instruction, any bytes, none, or what already stands there.
    fn any_write(&self, r: &mut Random) -> (u64, Vec<u8>) {
        let (even, by) = (self.pc(r), r.below(LENGTH as u64 + 40));
        let any = self.base.wrapping_add(by).wrapping_sub(20);
        let number = r.one_of(&[1, 2, 4, 8, 8, 40]);
        match r.below(10) {
            0..=4 => (even, instruction(r).to_vec()),
            5..=7 => (
                any,
                (0..1 + r.below(number)).map(|_| r.u32() as u8).collect(),
            ),
            8 => (any, Vec::new()),
            _ => (even, self.at(even, number as usize).to_vec()),
        }
    }
}

/// A block as it was made, and the code that it was made from.
struct Made {
    /// What it spans, and the four bytes behind that, as far as they were there.
    code: Vec<u8>,
    behind: Vec<u8>,
    bytes: Vec<u8>,
    /// Loads of a word that was not taken, which stand before the block's end.
    left: usize,
}

impl Made {
    /// `run` is what was fetched for the block.
    fn new(code: &Code, pc: u64, run: &[u16], block: &Block) -> Self {
        let span = block.span() as usize;
        Made {
            code: code.at(pc, span).to_vec(),
            behind: code.at(pc.wrapping_add(span as u64), 4).to_vec(),
            bytes: block.bytes().to_vec(),
            // A whole word was fetched behind the span and did not come into the block.
            left: match &run[span / 2..] {
                [low, _, ..] => left_by(*low),
                _ => 0,
            },
        }
    }
}

/// How many bytes of loads a word leaves that is not taken, by its first halfword: two loads and a comparison, two, one.
fn left_by(low: u16) -> usize {
    match low & 0x7F {
        0x63 => 17,
        0x33 | 0x3B => 14,
        0x13 | 0x1B => 7,
        _ => 0,
    }
}

/// A word's kind, where there is a whole word.
fn kind(bytes: &[u8]) -> Option<WordKind> {
    let word = bytes.try_into().ok().map(u32::from_le_bytes)?;
    (word & 3 == 3).then(|| word_kind(word))
}

/// How often each thing was seen.
#[derive(Debug, Default)]
struct Seen {
    translated: u32,
    replaced: u32,
    emptied: u32,
    writes: u32,
    /// Blocks dropped; writes that dropped one under every satp; those that changed code and dropped none of those kept.
    dropped: usize,
    in_every_satp: u32,
    dropped_none: u32,
    /// Entries in use that were compared: all of them, those behind whose span the code has changed, those whose block ended before a word
    /// that was not taken and now is, those that have loads of such a word.
    compared: u32,
    changed_behind: u32,
    taken_now: u32,
    left: u32,
    /// Comparisons of blocks with compressed instructions.
    halfwords: u32,
}

/// What a caller keeps, and beside it what was made for each key since that was last freed.
struct Keeping {
    code: Code,
    index: Box<dyn Indexing>,
    store: CodeStore<Vec<u8>>,
    made: HashMap<Key, Made>,
}

impl Keeping {
    fn new(r: &mut Random) -> Self {
        let entries = vec![Entry::default(); 8 + r.below(56) as usize];
        let index: Box<dyn Indexing> = match r.below(3) {
            0 => Box::new(BucketIndex::new(entries, 1 + r.below(4) as usize)),
            _ => Box::new(BlockIndex::new(entries)),
        };
        Keeping {
            code: Code::new(r),
            index,
            store: CodeStore::new(vec![0; 8 * GREATEST_BLOCK]),
            made: HashMap::new(),
        }
    }

    fn empty(&mut self, seen: &mut Seen) {
        self.index.empty(&mut self.store);
        self.made.clear();
        seen.emptied += 1;
    }

    /// Places and inserts a block; none where there is no room.
    fn put(&mut self, key: Key, block: &Block) -> Option<()> {
        let offset = self.store.place(block.bytes()).ok()?.offset;
        let block = NativeBlock::new(offset, block);
        self.index.insert(key, block).ok().map(|_| ())
    }

    /// Translates the code as it is now, and keeps the block.
    fn translate(&mut self, r: &mut Random, seen: &mut Seen) {
        let key @ (_, pc) = (r.one_of(&SATPS), self.code.pc(r));
        let limit = r.one_of(&[1, 2, 3, 8, 64, 64, 64]);
        let mut run = Run::new();
        let fetch = |address| {
            let half = self.code.at(address, 2).try_into();
            half.map(u16::from_le_bytes)
        };
        if run.fetch(pc, limit, fetch).is_err() {
            return;
        }
        let mut out = [0; GREATEST_BLOCK];
        let request = Request::new(pc, &run).limit(limit).helpers(helpers());
        let Ok(block) = translate(&request, &mut out) else {
            return;
        };
        let made = Made::new(&self.code, pc, &run, &block);
        if self.put(key, &block).is_none() {
            self.empty(seen);
            self.put(key, &block).unwrap();
        }
        seen.translated += 1;
        seen.replaced += self.made.insert(key, made).is_some() as u32;
    }

    /// A write, and its drop.
    fn write(&mut self, r: &mut Random, seen: &mut Seen) {
        let (address, bytes) = self.code.any_write(r);
        let n = bytes.len() as u64;
        let before = self.code.bytes.clone();
        self.code.write(address, &bytes);
        let gone = |(satp, pc): &Key, made: &Made| {
            let span = made.code.len() as u64;
            touches(*pc, span, address, n).then_some(*satp)
        };
        let satps: HashSet<u64> = self
            .made
            .iter()
            .filter_map(|(key, made)| gone(key, made))
            .collect();
        let kept = self.made.len();
        self.made.retain(|key, made| gone(key, made).is_none());
        let number = kept - self.made.len();
        assert_eq!(self.index.drop_touched(address, n), number);
        seen.writes += 1;
        seen.dropped += number;
        seen.in_every_satp += (satps.len() == SATPS.len()) as u32;
        let none = kept > 0 && number == 0 && before != self.code.bytes;
        seen.dropped_none += none as u32;
    }

    fn in_use(&self) -> impl Iterator<Item = &Entry> {
        self.index
            .entries()
            .iter()
            .filter(|entry| entry.is_in_use())
    }

    /// The bytes of an entry's block, in the store.
    fn bytes(&self, block: NativeBlock) -> &[u8] {
        &self.store.bytes()[block.offset..][..block.length]
    }

    /// The entries in use are those of the keys that were not freed.
    fn compare(&self, seen: &mut Seen) {
        assert_eq!(self.in_use().count(), self.made.len());
        for entry in self.in_use() {
            self.compare_one(entry, &self.made[&(entry.satp, entry.pc)], seen);
        }
    }

    fn compare_one(&self, entry: &Entry, made: &Made, seen: &mut Seen) {
        let (pc, kept) = (entry.pc, entry.block);
        let span = made.code.len();
        assert_eq!(
            (kept.span, self.bytes(kept)),
            (span as u64, &made.bytes[..])
        );
        // The span is unchanged.
        assert_eq!(self.code.at(pc, span), made.code, "{entry:x?}");
        let run = self.code.from(pc);
        let request = Request::new(pc, &run).limit(kept.count).helpers(helpers());
        let mut out = [0; GREATEST_BLOCK];
        let now = translate(&request, &mut out).unwrap();
        assert_eq!((now.count(), now.span()), (kept.count, kept.span));
        compare_bytes(&made.bytes, now.bytes(), made.left);

        let behind = self.code.at(pc.wrapping_add(kept.span), 4);
        let not_taken = kind(&made.behind) == Some(WordKind::NotTaken);
        let now_taken = kind(behind).is_some_and(|kind| kind != WordKind::NotTaken);
        seen.compared += 1;
        seen.changed_behind += (behind != made.behind) as u32;
        seen.taken_now += (not_taken && now_taken) as u32;
        seen.left += (made.left > 0) as u32;
        seen.halfwords += (kept.span < 4 * u64::from(kept.count)) as u32;
    }

    /// Enters a block that is kept, with what the manual says of the code as it is now.
    fn enter(&self, r: &mut Random, machine: &mut Machine, entered: &mut Entered) {
        let entries: Vec<&Entry> = self.in_use().collect();
        if entries.is_empty() {
            return;
        }
        let Entry { pc, block, .. } = *r.one_of(&entries);
        machine.out[..block.length].copy_from_slice(self.bytes(block));
        let mut list = List::at(machine, r, pc);
        let count = u64::from(block.count);
        list.enter(
            block.length,
            count,
            block.count,
            &self.code.from(pc),
            entered,
        );
    }
}

/// The block made now is the one made then, without the loads that a word has left which was not taken: they stand before the end, which
/// sets RAX and RDX and closes.
fn compare_bytes(then: &[u8], now: &[u8], left: usize) {
    const END: usize = 10 + 10 + 15;
    assert_eq!(then.len(), now.len() + left);
    let at = match left {
        0 => now.len(),
        _ => now.len() - END,
    };
    assert!(then[..at] == now[..at], "{then:x?} {now:x?}");
    assert!(then[at + left..] == now[at..], "{then:x?} {now:x?}");
}

#[test]
fn while_code_changes() {
    let mut r = Random::new(190);
    let mut machine = Machine::new(190);
    let (mut seen, mut entered) = (Seen::default(), Entered::default());
    for _ in 0..600 {
        let mut keeping = Keeping::new(&mut r);
        for _ in 0..200 {
            match r.below(100) {
                0 => keeping.empty(&mut seen),
                1..=30 => keeping.write(&mut r, &mut seen),
                _ => keeping.translate(&mut r, &mut seen),
            }
            keeping.compare(&mut seen);
            keeping.enter(&mut r, &mut machine, &mut entered);
        }
    }
    println!("{seen:?}");
    println!("{entered:?}");
    assert!(
        seen.translated > 50_000 && seen.replaced > 1_000,
        "{seen:?}"
    );
    assert!(seen.emptied > 1_000 && seen.writes > 30_000, "{seen:?}");
    assert!(seen.dropped > 10_000 && seen.dropped_none > 10_000);
    assert!(seen.in_every_satp > 100, "{seen:?}");
    assert!(seen.compared > 1_000_000 && seen.halfwords > 100_000);
    assert!(seen.changed_behind > 20_000 && seen.taken_now > 2_000);
    assert!(seen.left > 20_000, "{seen:?}");
    assert!(entered.entries > 100_000, "{entered:?}");
    let by_helper = [entered.halfword_helpers, entered.memory_helpers];
    assert!(by_helper.iter().all(|n| *n > 10_000), "{entered:?}");
}

/// ADDI, then a branch with funct3 2, which is not taken and then becomes another ADDI: the write touches nothing, and the block is still
/// that of one instruction, with the loads and the comparison of the branch left in it. A write over the first ADDI drops it.
#[test]
fn a_word_behind_the_span() {
    let mut r = Random::new(191);
    let (addi, branch) = ([0x93, 0x00, 0x50, 0x00], [0x63, 0x20, 0x00, 0x00]);
    let mut keeping = Keeping::new(&mut r);
    keeping.code.base = START;
    keeping.code.write(START, &[addi, branch].concat());
    let mut out = [0; GREATEST_BLOCK];
    let run = keeping.code.from(START);
    let block = translate(&Request::new(START, &run), &mut out).unwrap();
    assert_eq!((block.count(), block.span()), (1, 4));
    assert_eq!(block.bytes().len(), 88 + left_by(0x2063));
    let made = Made::new(&keeping.code, START, &run, &block);
    keeping.put((SATP, START), &block).unwrap();
    keeping.made.insert((SATP, START), made);

    keeping.code.write(START + 4, &addi);
    assert_eq!(keeping.index.drop_touched(START + 4, 4), 0);
    let (mut seen, mut entered) = (Seen::default(), Entered::default());
    keeping.compare(&mut seen);
    assert_eq!((seen.compared, seen.taken_now, seen.left), (1, 1, 1));
    keeping.enter(&mut r, &mut Machine::new(191), &mut entered);
    assert_eq!(entered.entries, 1);
    assert_eq!(keeping.index.drop_touched(START + 3, 1), 1);
    assert_eq!(keeping.index.find((SATP, START)), None);
}
