//! An index of blocks: find, as a scan and in buckets, beside a `HashMap` with the same keys, as the original keeps one, and beside
//! translating 16 words anew; and the drop of what a write touches, beside translating 16 words, too. docs/PERFORMANCE.md says up to which
//! number of entries a scan takes less time than that.

use crate::runs::{cases, Case, START};
use crate::support::random::Random;
use crate::time::{heading_beside, row};
use emuko_x64_blocks::{
    translate, BlockIndex, BucketIndex, Entry, NativeBlock, Request, GREATEST_BLOCK,
};
use std::collections::HashMap;
use std::hint::black_box;

type Key = (u64, u64);

/// Sv39's mode and a page table.
const SATP: u64 = 8 << 60 | 0x80_001;

/// How often one key is sought in a row.
const TIMES: usize = 64;

enum Index {
    Scan(BlockIndex<Vec<Entry>>),
    Buckets(BucketIndex<Vec<Entry>>),
}

/// An index and a map with the same keys.
struct Kept {
    index: Index,
    map: HashMap<Key, NativeBlock>,
    /// By a row's name, the keys that are sought one after the other.
    sought: Vec<(String, Vec<Key>)>,
}

impl Kept {
    fn find(&self, key: Key) -> Option<NativeBlock> {
        let found = match &self.index {
            Index::Scan(index) => index.find(key.0, key.1),
            Index::Buckets(index) => index.find(key.0, key.1),
        };
        found.map(|entry| entry.block)
    }

    fn find_all(&self, keys: &[Key]) {
        for key in black_box(keys) {
            black_box(self.find(*key));
        }
    }

    fn beside_map(&self) {
        for (name, keys) in &self.sought {
            for key in keys {
                assert_eq!(self.find(*key), self.map.get(key).copied());
            }
            let in_map = || {
                for key in black_box(keys) {
                    black_box(self.map.get(key).copied());
                }
            };
            row(name, keys.len(), || self.find_all(keys), in_map);
        }
    }

    /// One translation for each find.
    fn beside_translating(&self, case: &Case) {
        let request = Request::new(START, &case.run);
        let mut out = vec![0; GREATEST_BLOCK];
        for (name, keys) in &self.sought {
            let translated = || {
                for _ in keys {
                    let _ = black_box(translate(black_box(&request), black_box(&mut out)));
                }
            };
            row(name, keys.len(), || self.find_all(keys), translated);
        }
    }
}

/// Starts of blocks, one to sixteen words apart, each with a block.
fn blocks(number: usize, seed: u64) -> Vec<(Key, NativeBlock)> {
    let mut r = Random::new(seed);
    let mut pc = START;
    let mut next = |k| {
        pc += 4 * (1 + r.below(16));
        let block = NativeBlock {
            offset: 256 * k,
            count: 16,
            length: 250,
            span: 64,
        };
        ((SATP, pc), block)
    };
    (0..number).map(&mut next).collect()
}

/// So many entries, all in use: the last of them, and a key that none has.
fn scanned(number: usize) -> Kept {
    let blocks = blocks(number, 80);
    let mut index = BlockIndex::new(vec![Entry::default(); number]);
    for ((satp, pc), block) in &blocks {
        index.insert(*satp, *pc, *block).unwrap();
    }
    let last = blocks[number - 1].0;
    let absent = (last.0, last.1 + 4);
    let row = |name, key| (format!("find {name} {number} entries"), vec![key; TIMES]);
    Kept {
        index: Index::Scan(index),
        map: blocks.into_iter().collect(),
        sought: vec![row("the last of", last), row("none among", absent)],
    }
}

/// 4,096 entries in buckets of 8, and half as many keys but those that are refused: the last of a full bucket, and a key that is not
/// in it; then every key in turn, and as many that are not there.
fn in_buckets() -> Kept {
    let mut index = BucketIndex::new(vec![Entry::default(); 4096], 8);
    let mut map = HashMap::new();
    for (key, block) in blocks(2048, 81) {
        if index.insert(key.0, key.1, block).is_ok() {
            map.insert(key, block);
        }
    }
    let mut buckets = index.entries().chunks(8);
    let full = buckets.find(|bucket| bucket.iter().all(Entry::is_in_use));
    let last = (SATP, full.unwrap()[7].pc);
    let bucket = |key: &Key| index.bucket(key.0, key.1);
    let mut others = (1..).map(|k| (SATP, START - 4 * k));
    let absent = others.find(|key| bucket(key) == bucket(&last)).unwrap();
    let mut present: Vec<Key> = map.keys().copied().collect();
    present.sort_unstable();
    let absents = present.iter().map(|key| (key.0 ^ 1, key.1)).collect();
    let row = |name, keys| (format!("find {name}"), keys);
    let sought = vec![
        row("the last of a full bucket", vec![last; TIMES]),
        row("none in a full bucket", vec![absent; TIMES]),
        row("each in turn, in buckets", present),
        row("none in turn, in buckets", absents),
    ];
    Kept {
        index: Index::Buckets(index),
        map,
        sought,
    }
}

/// Writes of eight bytes and so many entries, all in use, one write for each translation: one that touches none of them, and one that
/// touches the last, which is then put into use again. Spans are short, so that no other is touched.
fn dropping(number: usize, case: &Case) {
    let request = Request::new(START, &case.run);
    let mut out = vec![0; GREATEST_BLOCK];
    let mut entries: Vec<Entry> = blocks(number, 80)
        .into_iter()
        .map(|((satp, pc), block)| Entry {
            satp,
            pc,
            block: NativeBlock { span: 4, ..block },
            in_use: 1,
        })
        .collect();
    let last = entries[number - 1].pc;
    for (name, address, touched) in [("none", last + 4, 0), ("the last", last, 1)] {
        let dropped = || {
            for _ in 0..TIMES {
                let mut index = BlockIndex::filled_elsewhere(&mut entries[..]);
                let dropped = index.drop_touched(black_box(address), black_box(8));
                assert_eq!(dropped, touched);
                entries[number - 1].in_use = 1;
            }
        };
        let translated = || {
            for _ in 0..TIMES {
                let _ = black_box(translate(black_box(&request), black_box(&mut out)));
            }
        };
        row(
            &format!("drop {name} of {number} entries"),
            TIMES,
            dropped,
            translated,
        );
    }
}

pub fn rows() {
    heading_beside("an index beside a map", "HashMap, ns");
    for number in [16, 64, 1024] {
        scanned(number).beside_map();
    }
    in_buckets().beside_map();
    let cases = cases();
    let words = cases.iter().find(|case| case.name == "16-word mix");
    heading_beside("beside translating 16 words anew", "anew, ns");
    for number in [16, 64, 96, 128, 160, 192, 256, 1024] {
        scanned(number).beside_translating(words.unwrap());
    }
    in_buckets().beside_translating(words.unwrap());
    heading_beside("a write's drop beside the same", "anew, ns");
    for number in [16, 64, 1024, 4096] {
        dropping(number, words.unwrap());
    }
}
