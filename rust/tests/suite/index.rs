//! The index of blocks: what request Q-4 says, one by one, with what comes out by hand. What a write drops stands in module drops.

use crate::archive::{
    emuko_index_drop, emuko_index_empty, emuko_index_find, emuko_index_insert, CodeCache,
};
use emuko_x64_blocks::{BlockIndex, BucketIndex, CodeStore, Entry, InsertRefusal, NativeBlock};

pub type Key = (u64, u64);

/// Sv39's mode, an address space's number and a page table.
pub const SATP: u64 = 8 << 60 | 5 << 44 | 0x80_001;
pub const START: u64 = 0x8000_0000;

pub const FREE: Entry = Entry {
    satp: 0,
    pc: 0,
    block: block(0, 0),
    in_use: 0,
};

/// A block with a length and a span of its own; of zeros for zeros.
pub const fn block(offset: usize, count: u32) -> NativeBlock {
    NativeBlock {
        offset,
        count,
        length: offset / 2 + count as usize,
        span: 4 * count as u64,
    }
}

/// Marks that are in use, with each byte alone and with the bit that is a sign elsewhere.
pub const MARKS: [u32; 9] = [
    1,
    2,
    7,
    255,
    0x100,
    0x7_0000,
    0x0100_0000,
    1 << 31,
    u32::MAX,
];

/// An entry in use.
pub fn used(key: Key, block: NativeBlock, in_use: u32) -> Entry {
    assert_ne!(in_use, 0);
    Entry {
        satp: key.0,
        pc: key.1,
        block,
        in_use,
    }
}

/// The same entry, not in use.
pub fn freed(entry: Entry) -> Entry {
    Entry { in_use: 0, ..entry }
}

const A: Key = (SATP, START);
const B: Key = (SATP, START + 4);
const C: Key = (0, START);

#[test]
fn a_key_twice_in_use() {
    let [first, other, second] = [
        used(A, block(8, 3), 7),
        used(B, block(64, 1), 1),
        used(A, block(128, 9), 2),
    ];
    let mut index = BlockIndex::filled_elsewhere(vec![FREE, first, other, second]);
    assert_eq!(index.find(A.0, A.1), Some(first));
    assert_eq!(index.insert(A.0, A.1, block(256, 64)), Ok(1));
    let renewed = used(A, block(256, 64), 7);
    assert_eq!(index.find(A.0, A.1), Some(renewed));
    assert_eq!(index.entries(), [FREE, renewed, other, second]);

    // Behind the first's freeing the second shows, and counts for inserting.
    let mut index = BlockIndex::filled_elsewhere(vec![FREE, freed(renewed), other, second]);
    assert_eq!(index.find(A.0, A.1), Some(second));
    assert_eq!(index.insert(A.0, A.1, block(512, 2)), Ok(3));
    let second = used(A, block(512, 2), 2);
    assert_eq!(index.entries(), [FREE, freed(renewed), other, second]);
}

#[test]
fn replaced_where_it_stands() {
    let free = freed(used(A, block(8, 3), 1));
    let mut index = BlockIndex::filled_elsewhere([free, used(A, block(64, 5), 1), FREE]);
    assert_eq!(index.insert(A.0, A.1, block(128, 6)), Ok(1));
    assert_eq!(index.entries(), [free, used(A, block(128, 6), 1), FREE]);
}

#[test]
fn a_new_key_takes_the_first_free_entry() {
    let in_use = used(B, block(8, 3), 7);
    let old = freed(used(C, block(usize::MAX, u32::MAX), 1));
    let mut index = BlockIndex::filled_elsewhere([in_use, old, in_use, FREE, in_use]);
    assert_eq!(index.find(C.0, C.1), None);
    assert_eq!(index.insert(A.0, A.1, block(64, 5)), Ok(1));
    let inserted = used(A, block(64, 5), 1);
    assert_eq!(index.entries(), [in_use, inserted, in_use, FREE, in_use]);
    assert_eq!(index.insert(C.0, C.1, block(usize::MAX, u32::MAX)), Ok(3));
    let last = used(C, block(usize::MAX, u32::MAX), 1);
    assert_eq!(index.find(C.0, C.1), Some(last));
    assert_eq!(index.entries(), [in_use, inserted, in_use, last, in_use]);
}

#[test]
fn a_full_index() {
    let mut index = BlockIndex::new([FREE; 2]);
    assert_eq!(index.insert(A.0, A.1, block(8, 1)), Ok(0));
    assert_eq!(index.insert(B.0, B.1, block(16, 2)), Ok(1));
    let refusal = index.insert(C.0, C.1, block(24, 3)).unwrap_err();
    assert_eq!((refusal, refusal.number()), (InsertRefusal::Full, 8));
    assert!(refusal.to_string().contains("no entry left"));
    let full = [used(A, block(8, 1), 1), used(B, block(16, 2), 1)];
    assert_eq!(index.entries(), full);
    assert_eq!(index.find(C.0, C.1), None);
    // A key that is there is replaced all the same.
    assert_eq!(index.insert(B.0, B.1, block(32, 4)), Ok(1));
    assert_eq!(index.entries(), [full[0], used(B, block(32, 4), 1)]);
}

#[test]
fn emptying() {
    let mut store = CodeStore::new(vec![0xA5; 200]);
    let mut index = BlockIndex::new(vec![FREE; 3]);
    for (k, key) in [A, B].into_iter().enumerate() {
        let placed = store.place(&[k as u8; 67]).unwrap();
        let inserted = index.insert(key.0, key.1, block(placed.offset, 1 + k as u32));
        assert_eq!(inserted, Ok(k));
    }
    let bytes = store.bytes().to_vec();
    assert_eq!(store.mark(), 68 + 67);
    index.empty(&mut store);
    assert_eq!((index.find(A.0, A.1), index.find(B.0, B.1)), (None, None));
    let left = [
        freed(used(A, block(0, 1), 1)),
        freed(used(B, block(68, 2), 1)),
        FREE,
    ];
    assert_eq!(index.entries(), left);
    assert_eq!(store.mark(), 0);
    assert_eq!(store.bytes(), bytes);
    // Both are filled from the front again.
    assert_eq!(store.place(&[9; 67]).unwrap().offset, 0);
    assert_eq!(index.insert(B.0, B.1, block(0, 1)), Ok(0));
    assert_eq!(index.into_entries()[1..], left[1..]);
}

/// Every mark is cleared, whatever it is and wherever it stands, and so is a store's that lies beyond it.
#[test]
fn emptying_every_mark() {
    let filled = |mark| used(B, block(7, 9), mark);
    let mut entries = MARKS.map(filled).to_vec();
    entries.insert(0, FREE);
    entries.insert(5, freed(filled(1)));
    let mut expected = entries.clone();
    expected.iter_mut().for_each(|entry| entry.in_use = 0);
    let mut store = CodeStore::with_mark([0; 4], 81);
    let mut index = BlockIndex::filled_elsewhere(&mut entries[..]);
    index.empty(&mut store);
    assert_eq!(index.entries(), expected);
    assert_eq!(store.mark(), 0);

    let mut store = CodeStore::with_mark([0; 4], 3);
    BlockIndex::new([]).empty(&mut store);
    assert_eq!(store.mark(), 0);
}

#[test]
fn no_entries() {
    let mut none = BlockIndex::new([]);
    assert_eq!(none.find(0, 0), None);
    assert_eq!(none.insert(0, 0, block(0, 0)), Err(InsertRefusal::Full));
    let mut none = BlockIndex::filled_elsewhere(Vec::new());
    assert_eq!(none.find(A.0, A.1), None);
    assert_eq!(none.insert(A.0, A.1, block(8, 1)), Err(InsertRefusal::Full));
    assert_eq!(none.entries(), []);
}

#[test]
fn every_mark_but_0_is_in_use() {
    for mark in MARKS {
        let entries = [used(A, block(8, 3), mark)];
        assert!(entries[0].is_in_use());
        let mut index = BlockIndex::filled_elsewhere(entries);
        assert_eq!(index.find(A.0, A.1), Some(entries[0]), "{mark:#x}");
        let refused = index.insert(B.0, B.1, block(64, 5));
        assert_eq!(refused, Err(InsertRefusal::Full), "{mark:#x}");
        assert_eq!(index.entries(), entries);
        assert_eq!(index.insert(A.0, A.1, block(64, 5)), Ok(0));
        assert_eq!(index.entries(), [used(A, block(64, 5), mark)]);
    }
    assert!(!FREE.is_in_use());
    assert_eq!(FREE, Entry::default());
}

#[test]
fn constructors() {
    let filled = MARKS.map(|mark| used((mark.into(), 4), block(8, 3), mark));
    let index = BlockIndex::filled_elsewhere(filled);
    assert_eq!(index.entries(), filled);
    let index = BlockIndex::new(filled);
    assert_eq!(index.entries(), filled.map(freed));
    assert!(MARKS
        .iter()
        .all(|mark| index.find(u64::from(*mark), 4).is_none()));
    let index = BucketIndex::filled_elsewhere(filled, 2);
    assert_eq!(index.entries(), filled);
    let index = BucketIndex::new(filled, 2);
    assert_eq!(index.into_entries(), filled.map(freed));
}

/// Keys that differ from one another in one bit: each is found as itself, and where it does not stand, it is new.
#[test]
fn every_bit_of_a_key() {
    let keys: Vec<Key> = std::iter::once(A)
        .chain((0..64).map(|bit| (A.0 ^ 1 << bit, A.1)))
        .chain((0..64).map(|bit| (A.0, A.1 ^ 1 << bit)))
        .chain([(A.1, A.0), (A.0 + 1, A.1 - 1), (A.0 - 1, A.1 + 1)])
        .collect();
    let mut one = BlockIndex::new([FREE]);
    one.insert(A.0, A.1, block(8, 3)).unwrap();
    let mut all = BlockIndex::new(vec![FREE; keys.len()]);
    for (k, key) in keys.iter().enumerate() {
        assert_eq!(all.find(key.0, key.1), None, "{key:x?}");
        assert_eq!(all.insert(key.0, key.1, block(k, k as u32)), Ok(k));
        if k > 0 {
            assert_eq!(one.find(key.0, key.1), None, "{key:x?}");
            let refused = one.insert(key.0, key.1, block(8, 3));
            assert_eq!(refused, Err(InsertRefusal::Full), "{key:x?}");
        }
    }
    for (k, key) in keys.iter().enumerate() {
        let shown = used(*key, block(k, k as u32), 1);
        assert_eq!(all.find(key.0, key.1), Some(shown));
    }
}

/// More entries than a count of eight bits has, each with its block.
#[test]
fn many_entries() {
    let number = 1000;
    let mut index = BlockIndex::new(vec![FREE; number]);
    for k in 0..number {
        let inserted = index.insert(SATP, START + 4 * k as u64, block(k, 1));
        assert_eq!(inserted, Ok(k));
    }
    assert_eq!(index.insert(0, 0, block(0, 1)), Err(InsertRefusal::Full));
    for k in 0..number {
        let pc = START + 4 * k as u64;
        assert_eq!(index.find(SATP, pc), Some(used((SATP, pc), block(k, 1), 1)));
    }
    index.empty(&mut CodeStore::new([]));
    assert!(!index.entries().iter().any(Entry::is_in_use));
}

/// The replies as C has them: values that are missing are 0, and where there is no entry, one of zeros is shown.
#[test]
fn replies_of_the_archive() {
    let mut entries = [FREE; 2];
    let at = entries.as_mut_ptr();
    // SAFETY: Two entries stand there, and nothing else uses them during a call.
    let find = |key: Key| unsafe { emuko_index_find(at, 2, key.0, key.1) };
    let insert = |key: Key| {
        // SAFETY: As above.
        let reply = unsafe { emuko_index_insert(at, 2, key.0, key.1, block(8, 3)) };
        [reply.number, reply.first, reply.second, reply.third]
    };
    assert_eq!(find(A), FREE);
    assert_eq!([insert(A), insert(B)], [[0, 0, 0, 0], [0, 1, 0, 0]]);
    assert_eq!([insert(C), insert(B)], [[8, 0, 0, 0], [0, 1, 0, 0]]);
    assert_eq!((find(B), find(C)), (used(B, block(8, 3), 1), FREE));
    let mut cache = CodeCache { used: 9 };
    // SAFETY: As above; the record is no one else's.
    unsafe { emuko_index_empty(at, 2, &mut cache) };
    assert_eq!((cache.used, find(A)), (0, FREE));
    // SAFETY: As above.
    let dropped = |address| unsafe { emuko_index_drop(at, 2, address, 4) };
    assert_eq!([insert(A), insert(B)], [[0, 0, 0, 0], [0, 1, 0, 0]]);
    assert_eq!([dropped(A.1), dropped(A.1), dropped(B.1)], [1, 0, 1]);
    assert_eq!((find(A), find(B)), (FREE, FREE));
}
