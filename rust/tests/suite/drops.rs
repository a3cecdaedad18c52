//! What a write drops of an index (request Q-5): the request's cases by hand; every small write over every small span, and lists of any
//! numbers, beside sets of addresses and beside sums that cannot wrap. Module `index_random` has drops between other operations, module
//! `kept` drops in a guest whose code changes.

use crate::archive::emuko_index_drop;
use crate::index::{block, freed, used, Key, FREE, MARKS, SATP, START};
use crate::support::random::Random;
use emuko_x64_blocks::{BlockIndex, BucketIndex, CodeStore, Entry, InsertRefusal, NativeBlock};
use std::collections::HashSet;

/// Whether a write of `n` bytes from an address on touches a block that spans so many from its pc on. Both ranges go on from 2^64 - 1 to
/// 0: as ranges of numbers that have room above, they meet as they are, or with one of them moved up or down by 2^64.
pub fn touches(pc: u64, span: u64, address: u64, n: u64) -> bool {
    let [pc, span, address, n] = [pc, span, address, n].map(i128::from);
    let all = 1i128 << 64;
    [-all, 0, all].into_iter().any(|moved| {
        let address = address + moved;
        pc.max(address) < (pc + span).min(address + n)
    })
}

/// The addresses of so many bytes.
fn addresses(from: u64, number: u64) -> HashSet<u64> {
    (0..number).map(|k| from.wrapping_add(k)).collect()
}

/// A block with this span.
fn spanning(span: u64) -> NativeBlock {
    let other = span.wrapping_mul(0x9E37_79B9_7F4A_7C15);
    NativeBlock {
        offset: other as usize,
        count: (other >> 32) as u32,
        length: !other as usize,
        span,
    }
}

/// An entry in use, with the mark 1.
fn kept(satp: u64, pc: u64, span: u64) -> Entry {
    used((satp, pc), spanning(span), 1)
}

/// Entries as they stand in memory, seven words each, with numbers where no field is.
#[derive(Clone, Debug, PartialEq)]
struct InMemory(Vec<[u64; 7]>);

impl InMemory {
    fn new(entries: &[Entry]) -> Self {
        let with = |low: u32, high: u64| high << 32 | u64::from(low);
        let words = |(k, e): (usize, &Entry)| {
            let (block, beside) = (e.block, 0xA5A5_0000 + k as u64);
            [
                e.satp,
                e.pc,
                block.offset as u64,
                with(block.count, beside),
                block.length as u64,
                block.span,
                with(e.in_use, !beside & 0xFFFF_FFFF),
            ]
        };
        InMemory(entries.iter().enumerate().map(words).collect())
    }

    /// Only the mark is cleared.
    fn free(&mut self, index: usize) {
        self.0[index][6] &= !0xFFFF_FFFF;
    }

    fn drop_touched(&mut self, lent: std::ops::Range<usize>, address: u64, n: u64) -> usize {
        let lent = &mut self.0[lent];
        // SAFETY: So many entries stand there, every byte of which is written, and nothing else uses them during the call.
        unsafe { emuko_index_drop(lent.as_mut_ptr().cast(), lent.len(), address, n) }
    }
}

/// Drops from entries that stand between two more, which every write would touch. The others that must go are those in use of which
/// `dropped` says so; every byte of the memory is compared. How many went.
fn dropped(entries: &[Entry], address: u64, n: u64, dropped: impl Fn(&Entry) -> bool) -> usize {
    let beside = kept(SATP, address, u64::MAX);
    let all = [&[beside], entries, &[beside]].concat();
    let mut memory = InMemory::new(&all);
    let mut expected = memory.clone();
    let mut number = 0;
    for (k, entry) in entries.iter().enumerate() {
        if entry.is_in_use() && dropped(entry) {
            expected.free(k + 1);
            number += 1;
        }
    }
    let reply = memory.drop_touched(1..entries.len() + 1, address, n);
    assert_eq!(reply, number, "{address:x} {n:x} {entries:x?}");
    assert!(memory == expected, "{address:x} {n:x} {entries:x?}");
    number
}

/// Whether one entry is dropped by a write.
fn drops(pc: u64, span: u64, address: u64, n: u64) -> bool {
    let judged = |entry: &Entry| touches(entry.pc, entry.block.span, address, n);
    dropped(&[kept(SATP, pc, span)], address, n, judged) == 1
}

/// The request's cases.
#[test]
fn by_hand() {
    // ADDI and a word that is not taken: the block spans four bytes, and a write behind them leaves it.
    assert!(drops(START, 4, START + 3, 1));
    assert!(!drops(START, 4, START + 4, 1));
    assert!(!drops(START, 4, START - 1, 1));
    assert!(drops(START, 4, START - 1, 2));
    // Across the end of addresses, the block and the write.
    let end = 0xFFFF_FFFF_FFFF_FFFC;
    assert!(drops(end, 8, 3, 1));
    assert!(!drops(end, 8, 4, 1));
    assert!(drops(end, 8, end, 1));
    assert!(!drops(end, 8, end - 1, 1));
    let sixteen = 0xFFFF_FFFF_FFFF_FFF0;
    assert!(drops(0, 4, sixteen, 17));
    assert!(!drops(0, 4, sixteen, 16));
    // All but one byte.
    for x in [0, 1, START, u64::MAX] {
        assert!(!drops(x.wrapping_sub(1), 1, x, u64::MAX));
        assert!(drops(x.wrapping_sub(2), 2, x, u64::MAX));
        assert!(drops(x.wrapping_sub(1), 2, x, u64::MAX));
        assert!(drops(x, 1, x, u64::MAX));
        assert!(!drops(x, u64::MAX, x.wrapping_sub(1), 1));
        assert!(drops(x, u64::MAX, x.wrapping_sub(2), 2));
    }
    // No bytes, and no span: also inside one another.
    assert!(!drops(START, 256, START + 8, 0));
    assert!(!drops(START, 0, START - 8, 256));
    assert!(!drops(START, u64::MAX, START + 1, 0));
    assert!(!drops(START, 0, START + 1, u64::MAX));
    assert!(!drops(START, 0, START, 0));
}

/// The judge itself, on numbers that are none of the code's.
#[test]
fn judged_by_hand() {
    let top = u64::MAX;
    assert!(touches(0, 1, 0, 1) && touches(top, 1, top, 1) && touches(top, 2, 0, 1));
    assert!(touches(0, 1, top, 2) && touches(top, top, top - 2, 1) && touches(5, 3, 7, 1));
    assert!(!touches(0, 1, 1, 1) && !touches(0, 1, top, 1) && !touches(top, 1, 0, top));
    assert!(!touches(5, 3, 8, 1) && !touches(5, 0, 5, 1) && !touches(5, 3, 6, 0));
}

/// Every span up to 9 and every write of up to 13 bytes, from sixteen and twenty places, also across the end of addresses.
#[test]
fn every_small_write() {
    let (mut writes, mut touched) = (0, 0);
    for base in [0, START, (1 << 63) - 8, 0u64.wrapping_sub(8), u64::MAX - 40] {
        let place = |k| base.wrapping_add(k);
        let blocks = (0..16).flat_map(|k| (0..10).map(move |span| (place(k), span)));
        let sets: Vec<(Entry, HashSet<u64>)> = blocks
            .map(|(pc, span)| (kept(pc ^ span, pc, span), addresses(pc, span)))
            .collect();
        let entries: Vec<Entry> = sets.iter().map(|(entry, _)| *entry).collect();
        for from in (0..20).map(|k| place(k).wrapping_sub(2)) {
            for n in 0..14 {
                let written = addresses(from, n);
                let met = |entry: &Entry| {
                    let (_, spanned) = sets.iter().find(|(other, _)| other == entry).unwrap();
                    let met = !spanned.is_disjoint(&written);
                    assert_eq!(met, touches(entry.pc, entry.block.span, from, n));
                    met
                };
                touched += dropped(&entries, from, n, met);
                writes += entries.len();
            }
        }
    }
    assert_eq!(writes, 5 * 160 * 280);
    assert!(touched > 50_000 && touched < writes - 50_000, "{touched}");
}

/// A number of bytes, mostly small.
fn number(r: &mut Random) -> u64 {
    match r.below(10) {
        0 => 0,
        1..=4 => 1 + r.below(8),
        5..=7 => r.below(300),
        8 => 0u64.wrapping_sub(r.below(300)),
        _ => r.u64(),
    }
}

/// An address, mostly near this one.
fn near(r: &mut Random, address: u64) -> u64 {
    match r.below(8) {
        0 => r.u64(),
        1 => r.below(600).wrapping_sub(300),
        _ => address.wrapping_add(r.below(600)).wrapping_sub(300),
    }
}

/// Entries of few keys, so that keys stand in them twice, in use and not, with any marks.
fn entries(r: &mut Random, address: u64) -> Vec<Entry> {
    let keys: Vec<Key> = (0..1 + r.below(12))
        .map(|_| (r.one_of(&[0, SATP, u64::MAX]), near(r, address)))
        .collect();
    let mut entry = || {
        let entry = used(r.one_of(&keys), spanning(number(r)), r.one_of(&MARKS));
        if r.percent(25) {
            freed(entry)
        } else {
            entry
        }
    };
    (0..keys.len() * 2).map(|_| entry()).collect()
}

/// Lists of any entries and any write: numbers of 64 bits beside sums of 128, and small ones beside sets of addresses, too.
#[test]
fn random_lists() {
    let mut r = Random::new(180);
    let (mut went, mut stayed, mut twice, mut satps) = (0, 0, 0, 0);
    for _ in 0..60_000 {
        let address = near(&mut r, START);
        let (entries, n) = (entries(&mut r, address), number(&mut r));
        let written = (n < 1000).then(|| addresses(address, n));
        let judged = |entry: &Entry| {
            let (pc, span) = (entry.pc, entry.block.span);
            let touched = touches(pc, span, address, n);
            if let Some(written) = written.as_ref().filter(|_| span < 1000) {
                let mut spanned = (0..span).map(|k| pc.wrapping_add(k));
                assert_eq!(touched, spanned.any(|byte| written.contains(&byte)));
            }
            touched
        };
        let in_use: Vec<&Entry> = entries.iter().filter(|entry| entry.is_in_use()).collect();
        let number = dropped(&entries, address, n, judged);
        let gone: Vec<Key> = in_use
            .iter()
            .filter(|entry| touches(entry.pc, entry.block.span, address, n))
            .map(|entry| (entry.satp, entry.pc))
            .collect();
        went += number;
        stayed += in_use.len() - number;
        let keys: HashSet<&Key> = gone.iter().collect();
        twice += (keys.len() < gone.len()) as u32;
        let spaces: HashSet<u64> = gone.iter().map(|key| key.0).collect();
        satps += (spaces.len() == 3) as u32;
    }
    println!("{went} {stayed} {twice} {satps}");
    assert!(went > 100_000 && stayed > 100_000, "{went} {stayed}");
    assert!(twice > 5_000 && satps > 1_000, "{twice} {satps}");
}

/// Under every `satp`, twice, and with any mark; entries that are not in use keep what stands in them.
#[test]
fn every_entry_that_is_touched() {
    let touched: Vec<Entry> = MARKS
        .iter()
        .flat_map(|mark| [(*mark).into(), SATP, SATP].map(|satp| (satp, *mark)))
        .map(|(satp, mark)| used((satp, START), spanning(8), mark))
        .collect();
    let not_in_use: Vec<Entry> = touched.iter().copied().map(freed).collect();
    let apart = [kept(SATP, START + 8, 8), kept(0, START - 8, 8)];
    let entries = [&touched[..], &not_in_use, &apart].concat();
    let number = dropped(&entries, START + 7, 1, |entry| entry.pc == START);
    assert_eq!(number, 3 * MARKS.len());

    let mut index = BlockIndex::filled_elsewhere(entries.clone());
    assert_eq!(index.drop_touched(START + 7, 1), number);
    assert_eq!(index.entries()[..number], not_in_use);
    assert_eq!(index.entries()[number..], entries[number..]);
    // Those that went are not counted again.
    assert_eq!(index.drop_touched(START + 7, 1), 0);
    assert_eq!(index.drop_touched(START - 1, 10), 2);
}

/// What was dropped is not found, its entry is the first that a new key takes, and the store is as it was.
#[test]
fn dropped_and_inserted_again() {
    let mut store = CodeStore::new(vec![0xA5; 400]);
    let mut index = BlockIndex::new([FREE; 3]);
    for k in 0..3 {
        let offset = store.place(&[k as u8; 88]).unwrap().offset;
        let (pc, block) = (START + 8 * k, block(offset, 2));
        assert_eq!(index.insert(SATP, pc, block), Ok(k as usize));
    }
    let (bytes, mark) = (store.bytes().to_vec(), store.mark());
    let full = index.insert(SATP, START + 24, block(0, 1));
    assert_eq!(full, Err(InsertRefusal::Full));
    assert_eq!(index.drop_touched(START + 12, 2), 1);
    let found = [0, 8, 16].map(|by| index.find(SATP, START + by).map(|e| e.block.offset));
    assert_eq!(found, [Some(0), None, Some(176)]);
    assert_eq!((store.bytes(), store.mark()), (&bytes[..], mark));
    // The entry still has what was dropped, until another takes it.
    assert_eq!(index.entries()[1].block, block(88, 2));
    assert_eq!(index.insert(0, START, block(0, 1)), Ok(1));
    assert_eq!(
        index.insert(0, START + 4, block(0, 1)),
        Err(InsertRefusal::Full)
    );
    // An entry that is written over goes by the span that was inserted last.
    assert_eq!(index.insert(0, START, spanning(100)), Ok(1));
    assert_eq!(index.drop_touched(START + 99, 1), 1);
    assert_eq!(index.insert(0, START, spanning(100)), Ok(1));
    assert_eq!(index.insert(0, START, spanning(0)), Ok(1));
    assert_eq!(index.drop_touched(START, u64::MAX), 2);
    assert_eq!(
        index.find(0, START).map(|entry| entry.block),
        Some(spanning(0))
    );
}

/// All buckets, and what is left over behind the last whole one, as a scan of the same entries has it.
#[test]
fn in_buckets() {
    let mut r = Random::new(181);
    let mut left_over = 0;
    for _ in 0..20_000 {
        let address = near(&mut r, START);
        let (entries, n) = (entries(&mut r, address), number(&mut r));
        let size = r.below(10) as usize;
        let mut scan = BlockIndex::filled_elsewhere(entries.clone());
        let mut buckets = BucketIndex::filled_elsewhere(entries.clone(), size);
        let reply = scan.drop_touched(address, n);
        assert_eq!(buckets.drop_touched(address, n), reply);
        assert_eq!(buckets.entries(), scan.entries());
        let whole = entries.len().checked_div(size).unwrap_or(0) * size;
        let behind = entries[whole..].iter().zip(&scan.entries()[whole..]);
        left_over += behind.filter(|(before, after)| before != after).count();
    }
    assert!(left_over > 5_000, "{left_over}");
}

#[test]
fn no_entries() {
    assert_eq!(BlockIndex::new([]).drop_touched(0, u64::MAX), 0);
    assert_eq!(BucketIndex::new(Vec::new(), 8).drop_touched(0, u64::MAX), 0);
    assert_eq!(BucketIndex::new([FREE; 3], 8).drop_touched(0, u64::MAX), 0);
}

/// More than a count of eight bits has: each is dropped by its own bytes, then all at once.
#[test]
fn many_entries() {
    let filled: Vec<Entry> = (0..1000).map(|k| kept(SATP, START + 4 * k, 4)).collect();
    let mut index = BlockIndex::filled_elsewhere(filled.clone());
    for k in 0..1000 {
        assert_eq!(index.drop_touched(START + 4 * k + k % 4, 1), 1);
        let left = index.entries().iter().filter(|entry| entry.is_in_use());
        assert_eq!(left.count() as u64, 999 - k);
    }
    let mut index = BlockIndex::filled_elsewhere(filled);
    assert_eq!(index.drop_touched(START + 3, 4000 - 6), 1000);
}
