//! The index in buckets: which entries a key can stand in, how evenly keys are spread, and how many are refused at which load.

use crate::index::{block, Key, FREE, SATP, START};
use crate::support::random::Random;
use emuko_x64_blocks::{BucketIndex, CodeStore, Entry, InsertRefusal};
use std::collections::HashSet;

/// Whole buckets, one behind the other, and every one of them is some key's.
#[test]
fn whole_buckets() {
    let mut r = Random::new(160);
    for entries in 0..70 {
        for size in 0..12 {
            let index = BucketIndex::new(vec![FREE; entries], size);
            let buckets = entries.checked_div(size).unwrap_or(0);
            let mut seen = HashSet::new();
            for _ in 0..20 * buckets.max(1) {
                let range = index.bucket(r.u64(), r.u64());
                if buckets == 0 {
                    assert_eq!(range, 0..0);
                } else {
                    assert_eq!((range.len(), range.start % size), (size, 0));
                    assert!(range.end <= entries);
                    seen.insert(range.start);
                }
            }
            assert_eq!(seen.len(), buckets, "{entries} {size}");
        }
    }
}

#[test]
fn no_bucket() {
    for (entries, size) in [(0, 0), (0, 8), (8, 0), (7, 8), (1, usize::MAX)] {
        let mut index = BucketIndex::new(vec![FREE; entries], size);
        let reply = index.insert(SATP, START, block(8, 3));
        assert_eq!(reply, Err(InsertRefusal::Full), "{entries} {size}");
        assert_eq!(index.find(SATP, START), None);
        assert_eq!(index.entries(), vec![FREE; entries]);
        let mut store = CodeStore::with_mark([0; 4], 3);
        index.empty(&mut store);
        assert_eq!(store.mark(), 0);
    }
}

/// Pcs from START on: those whose bucket is that of START, and the others.
fn beside(index: &BucketIndex<Vec<Entry>>) -> (Vec<u64>, Vec<u64>) {
    let bucket = index.bucket(SATP, START);
    let pcs = (0..100).map(|k| START + 4 * k);
    pcs.partition(|pc| index.bucket(SATP, *pc) == bucket)
}

/// A full bucket refuses a new key although others have room; a key that is there is replaced; a key of another bucket is inserted.
#[test]
fn a_full_bucket() {
    let mut index = BucketIndex::new(vec![FREE; 27], 8);
    let bucket = index.bucket(SATP, START);
    let (pcs, others) = beside(&index);
    for (k, pc) in pcs[..8].iter().enumerate() {
        let at = bucket.start + k;
        assert_eq!(index.insert(SATP, *pc, block(k, 1)), Ok(at));
    }
    let full = index.entries().to_vec();
    let reply = index.insert(SATP, pcs[8], block(8, 1));
    assert_eq!(reply.map_err(|refusal| refusal.number()), Err(8));
    assert_eq!(
        (index.entries(), index.find(SATP, pcs[8])),
        (&full[..], None)
    );
    assert_eq!(
        index.insert(SATP, pcs[3], block(99, 7)),
        Ok(bucket.start + 3)
    );
    assert_eq!(index.find(SATP, pcs[3]).unwrap().block, block(99, 7));
    let other = others[0];
    let at = index.insert(SATP, other, block(5, 5)).unwrap();
    assert_eq!(at, index.bucket(SATP, other).start);
    // Entries that an index gave back are found by another of the same size.
    let again = BucketIndex::filled_elsewhere(index.into_entries(), 8);
    assert_eq!(again.find(SATP, other).unwrap().block, block(5, 5));
    assert_eq!(again.find(SATP, pcs[7]).unwrap().block, block(7, 1));
}

/// Entries behind the last whole bucket are not used, but emptied with the others.
#[test]
fn what_is_left_over() {
    let last = Entry { in_use: 7, ..FREE };
    let mut index = BucketIndex::filled_elsewhere([FREE, FREE, FREE, FREE, last], 2);
    let inserted = (0..100).filter(|k| index.insert(0, 4 * k, block(1, 1)).is_ok());
    assert_eq!(inserted.count(), 4);
    assert_eq!(index.entries()[4], last);
    assert_eq!(index.find(0, 0).map(|entry| entry.pc), Some(0));
    index.empty(&mut CodeStore::new([0; 4]));
    assert!(index.entries().iter().all(|entry| !entry.is_in_use()));
}

/// Starts of blocks: one to sixteen words from each other.
fn starts(satp: u64, from: u64, number: u64, r: &mut Random) -> Vec<Key> {
    let mut pc = from;
    let mut start = || {
        pc += 4 * (1 + r.below(16));
        (satp, pc)
    };
    (0..number).map(|_| start()).collect()
}

/// Keys as guests have them, and some that are more regular than that: so many of each.
fn keys(number: u64) -> Vec<(&'static str, Vec<Key>)> {
    let mut r = Random::new(161);
    let all = |key: &dyn Fn(u64) -> Key| (0..number).map(key).collect::<Vec<_>>();
    let kernel = 0xFFFF_FFFF_8000_0000;
    let mut spaces = Vec::new();
    for asid in 0..16 {
        let satp = 8 << 60 | asid << 44 | (0x80_000 + 37 * asid);
        spaces.extend(starts(satp, 0x1_0000, number / 16, &mut r));
    }
    vec![
        ("words", all(&|k| (SATP, START + 4 * k))),
        ("halfwords", all(&|k| (0, START + 2 * k))),
        ("bytes", all(&|k| (0, k))),
        ("lines", all(&|k| (SATP, kernel + 64 * k))),
        ("pages", all(&|k| (SATP, kernel + 4096 * k))),
        ("416 MiB", all(&|k| (0, (13 * k) << 25))),
        ("44 GiB", all(&|k| (0, (11 * k) << 32))),
        ("top bits", all(&|k| (0, k << 52))),
        ("starts", starts(0, START, number, &mut r)),
        ("starts in the kernel", starts(SATP, kernel, number, &mut r)),
        ("starts in 16 spaces", spaces),
        (
            "one pc, ASIDs",
            all(&|k| (8 << 60 | k << 44 | 0x80_001, START)),
        ),
        (
            "one pc, tables",
            all(&|k| (8 << 60 | (0x80_000 + k), START)),
        ),
        ("both", all(&|k| (8 << 60 | k << 44, START + 4 * k))),
        ("down and up", all(&|k| (1 << 20 | k, START - 4 * k))),
        ("the same twice", all(&|k| (START + 4 * k, START + 4 * k))),
        ("random", (0..number).map(|_| (r.u64(), r.u64())).collect()),
    ]
}

/// The mean square distance of the buckets' numbers of keys from their mean, as a part of that mean: about 1 where each key is thrown into
/// any bucket, the number of keys where all are in one.
fn dispersion(index: &BucketIndex<Vec<Entry>>, keys: impl IntoIterator<Item = Key>) -> f64 {
    let mut counts = vec![0; index.entries().len() / 8];
    let mut number = 0;
    for key in keys {
        counts[index.bucket(key.0, key.1).start / 8] += 1;
        number += 1;
    }
    let buckets = counts.len() as f64;
    let mean = f64::from(number) / buckets;
    let squares = counts.iter().map(|n| (f64::from(*n) - mean).powi(2));
    squares.sum::<f64>() / buckets / mean
}

/// As evenly as random keys or more so, whose dispersion over 512 buckets is 1 with a deviation of 1/16, and over 64 with one of 3/16.
#[test]
fn spread() {
    for (buckets, bound) in [(512, 1.3), (500, 1.3), (64, 1.8)] {
        let index = BucketIndex::new(vec![FREE; 8 * buckets], 8);
        for number in [2048, 4096] {
            for (name, keys) in keys(number) {
                let dispersion = dispersion(&index, keys);
                assert!(dispersion < bound, "{name}: {dispersion}");
            }
        }
    }
}

/// Keys in equal steps of pc or of `satp`, from 1 to 15 times 2^48. The bound is six deviations.
#[test]
fn steps() {
    let index = BucketIndex::new(vec![FREE; 4096], 8);
    for shift in 0..49 {
        for step in (1..16).step_by(2).map(|odd: u64| odd << shift) {
            let by_pc = (0..2048).map(|k| (SATP, START.wrapping_add(step * k)));
            let by_satp = (0..2048).map(|k| (SATP.wrapping_add(step * k), START));
            let both = [dispersion(&index, by_pc), dispersion(&index, by_satp)];
            assert!(both.iter().all(|d| *d < 1.375), "{step:#x}: {both:?}");
        }
    }
}

/// Inserts of 4,096 different keys into as many entries, in a hundred lists: which of them were refused.
fn refused(size: usize) -> Vec<Vec<bool>> {
    let list = |seed: u64| {
        let mut index = BucketIndex::new(vec![FREE; 4096], size);
        let keys = starts(SATP, START, 4096, &mut Random::new(1000 + seed));
        let mut refused = |key: &Key| index.insert(key.0, key.1, block(8, 1)).is_err();
        keys.iter().map(&mut refused).collect()
    };
    (0..100).map(list).collect()
}

/// The figures in the documentation of `BucketIndex`: of a hundred inserts of the first keys of a list, so many were refused.
#[test]
fn load() {
    let figures = [
        (8, ["0.015", "0.848", "5.234", "13.890"]),
        (16, ["0.000", "0.077", "2.062", "9.904"]),
        (32, ["0.000", "0.005", "0.575", "7.094"]),
    ];
    for (size, shares) in figures {
        let lists = refused(size);
        for (share, keys) in shares.into_iter().zip([1024, 2048, 3072, 4096]) {
            let offered = lists.iter().flat_map(|list| &list[..keys]);
            let refused = offered.filter(|refused| **refused).count();
            let of_a_hundred = refused as f64 / keys as f64;
            assert_eq!(format!("{of_a_hundred:.3}"), share, "{size} {keys}");
        }
    }
    let lists = refused(8);
    let first = |list: &Vec<bool>| list.iter().position(|refused| *refused).unwrap();
    let mut behind: Vec<usize> = lists.iter().map(first).collect();
    behind.sort_unstable();
    assert_eq!((behind[0], behind[50]), (616, 1312));
}
