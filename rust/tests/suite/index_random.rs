//! The index of blocks at random: histories against a `HashMap`, and slices filled elsewhere against the requests' words, for the index
//! that is one scan and for the one in buckets.

use crate::drops::touches;
use crate::index::{freed, used, Key, MARKS, SATP, START};
use crate::support::random::Random;
use emuko_x64_blocks::{BlockIndex, BucketIndex, CodeStore, Entry, InsertRefusal, NativeBlock};
use std::collections::HashMap;
use std::ops::Range;

type Store = CodeStore<Vec<u8>>;
type Reply = Result<usize, InsertRefusal>;

/// What both indices do.
pub trait Indexing {
    fn find(&self, key: Key) -> Option<Entry>;
    fn insert(&mut self, key: Key, block: NativeBlock) -> Reply;
    fn empty(&mut self, store: &mut Store);
    fn drop_touched(&mut self, address: u64, n: u64) -> usize;
    fn entries(&self) -> &[Entry];
    /// The indices of the entries that a key can stand in.
    fn range(&self, key: Key) -> Range<usize>;
}

macro_rules! indexing {
    ($index:ident, |$self:ident, $key:ident| $range:expr) => {
        impl<E: AsRef<[Entry]> + AsMut<[Entry]>> Indexing for $index<E> {
            fn find(&self, key: Key) -> Option<Entry> {
                $index::find(self, key.0, key.1)
            }

            fn insert(&mut self, key: Key, block: NativeBlock) -> Reply {
                $index::insert(self, key.0, key.1, block)
            }

            fn empty(&mut self, store: &mut Store) {
                $index::empty(self, store);
            }

            fn drop_touched(&mut self, address: u64, n: u64) -> usize {
                $index::drop_touched(self, address, n)
            }

            fn entries(&self) -> &[Entry] {
                $index::entries(self)
            }

            fn range(&self, $key: Key) -> Range<usize> {
                let $self = self;
                $range
            }
        }
    };
}

indexing!(BlockIndex, |index, _key| 0..index.entries().len());
indexing!(BucketIndex, |index, key| index.bucket(key.0, key.1));

/// What operations came to, so that no kind is missing.
#[derive(Clone, Copy)]
enum Came {
    Found,
    None,
    New,
    Replaced,
    Refused,
    Emptied,
    Dropped,
    NoneDropped,
}

type Seen = [u32; 8];

fn dropped(number: usize) -> Came {
    match number {
        0 => Came::NoneDropped,
        _ => Came::Dropped,
    }
}

/// Up to so many keys, which share their halves with each other.
fn pool(r: &mut Random, most: usize) -> Vec<Key> {
    let number = 1 + r.below(most as u64);
    let halves = 1 + number / 3;
    let mut satp = |k| r.one_of(&[k, SATP + k, SATP ^ k << 44]);
    let satps: Vec<u64> = (0..halves).map(&mut satp).collect();
    let mut pc = |k| match r.below(4) {
        0 => 4 * k,
        1 => START + k / 2,
        2 => (1 << 32) + START + k / 2,
        _ => r.u64(),
    };
    let pcs: Vec<u64> = (0..halves).map(&mut pc).collect();
    let mut key = || (r.one_of(&satps), r.one_of(&pcs));
    (0..number).map(|_| key()).collect()
}

/// Any numbers, but that most spans are short, so that a write touches some blocks and leaves others.
fn any_block(r: &mut Random) -> NativeBlock {
    let span = match r.below(20) {
        0 => 0,
        1 => r.u64(),
        2..=5 => r.below(300),
        _ => 1 + r.below(8),
    };
    NativeBlock {
        offset: r.u64() as usize,
        count: r.u32(),
        length: r.u64() as usize,
        span,
    }
}

/// Address and number of bytes of a write, mostly close to a key's pc.
fn write(r: &mut Random, key: Key) -> (u64, u64) {
    let address = match r.below(10) {
        0 => r.u64(),
        1 => key.1.wrapping_add(r.below(300)).wrapping_sub(150),
        _ => key.1.wrapping_add(r.below(8)).wrapping_sub(4),
    };
    let any = r.u64();
    (address, r.one_of(&[0, 1, 1, 2, 4, 8, 8, any % 100, any]))
}

/// Entries as anyone may have filled them, so many of a hundred in use.
fn filled(r: &mut Random, number: usize, keys: &[Key], in_use: u64) -> Vec<Entry> {
    let mut entry = || {
        let entry = used(r.one_of(keys), any_block(r), r.one_of(&MARKS));
        if r.percent(in_use) {
            entry
        } else {
            freed(entry)
        }
    };
    (0..number).map(|_| entry()).collect()
}

/// An index that began with none in use beside a map, which knows no entries but for how many keys there is room.
struct History {
    index: Box<dyn Indexing>,
    map: HashMap<Key, NativeBlock>,
    store: Store,
}

impl History {
    fn new(index: Box<dyn Indexing>) -> Self {
        History {
            index,
            map: HashMap::new(),
            store: CodeStore::new(vec![0xA5; 256]),
        }
    }

    fn find(&self, key: Key) -> Came {
        let shown = self.map.get(&key).map(|block| used(key, *block, 1));
        assert_eq!(self.index.find(key), shown, "{key:x?}");
        shown.map_or(Came::None, |_| Came::Found)
    }

    /// Whether a new key with this room finds none.
    fn full(&self, room: &Range<usize>) -> bool {
        let beside = |other: &&Key| self.index.range(**other) == *room;
        self.map.keys().filter(beside).count() == room.len()
    }

    /// The block is placed first, while there is room in the store.
    fn insert(&mut self, r: &mut Random, key: Key) -> Came {
        let mut block = any_block(r);
        if let Ok(placed) = self.store.place(&[r.u32() as u8; 5]) {
            block.offset = placed.offset;
        }
        let room = self.index.range(key);
        let refused = !self.map.contains_key(&key) && self.full(&room);
        let mark = self.store.mark();
        let reply = self.index.insert(key, block);
        assert_eq!(self.store.mark(), mark);
        if refused {
            assert_eq!(reply, Err(InsertRefusal::Full));
            return Came::Refused;
        }
        let at = reply.unwrap();
        assert!(room.contains(&at), "{at}");
        assert_eq!(self.index.entries()[at], used(key, block, 1));
        let before = self.map.insert(key, block);
        before.map_or(Came::New, |_| Came::Replaced)
    }

    fn empty(&mut self) -> Came {
        let left: Vec<Entry> = self.index.entries().iter().copied().map(freed).collect();
        let bytes = self.store.bytes().to_vec();
        self.index.empty(&mut self.store);
        self.map.clear();
        assert_eq!(self.index.entries(), left);
        assert_eq!((self.store.mark(), self.store.bytes()), (0, &bytes[..]));
        Came::Emptied
    }

    /// What is dropped is no more in the map than in the entries, of which nothing but marks has changed.
    fn drop_touched(&mut self, r: &mut Random, key: Key) -> Came {
        let (address, n) = write(r, key);
        let went = |key: &Key, block: &NativeBlock| touches(key.1, block.span, address, n);
        let leave = |e: &Entry| match went(&(e.satp, e.pc), &e.block) {
            true => freed(*e),
            false => *e,
        };
        let left: Vec<Entry> = self.index.entries().iter().map(leave).collect();
        let (before, mark) = (self.map.len(), self.store.mark());
        self.map.retain(|key, block| !went(key, block));
        let number = before - self.map.len();
        assert_eq!(self.index.drop_touched(address, n), number);
        assert_eq!(self.index.entries(), left);
        assert_eq!(self.store.mark(), mark);
        dropped(number)
    }

    /// Operations with these keys; then each of them is looked for.
    fn run(&mut self, r: &mut Random, keys: &[Key], seen: &mut Seen) {
        let emptying = r.one_of(&[0, 1, 5]);
        for _ in 0..250 {
            let key = r.one_of(keys);
            let came = match r.below(100) {
                chance if chance < emptying => self.empty(),
                chance if chance < 40 => self.find(key),
                chance if chance < 50 => self.drop_touched(r, key),
                _ => self.insert(r, key),
            };
            seen[came as usize] += 1;
        }
        for key in keys {
            seen[self.find(*key) as usize] += 1;
        }
        let in_use = self.index.entries().iter().filter(|e| e.is_in_use());
        assert_eq!(in_use.count(), self.map.len());
    }
}

/// Histories of indices that are made of a size for buckets and entries.
fn histories(seed: u64, made: impl Fn(usize, Vec<Entry>) -> Box<dyn Indexing>) {
    let mut r = Random::new(seed);
    let mut seen = Seen::default();
    for _ in 0..1200 {
        let most = r.one_of(&[10, 40, 200]);
        let (number, size) = (r.below(most) as usize, r.below(10) as usize);
        let keys = pool(&mut r, 2 * number + 10);
        // Whatever stood in the entries must not matter, and `new` clears their marks.
        let lent = filled(&mut r, number, &keys, 50);
        let mut history = History::new(made(size, lent));
        history.run(&mut r, &keys, &mut seen);
    }
    println!("{seen:?}");
    assert!(seen.iter().sum::<u32>() > 300_000, "{seen:?}");
    assert!(seen.iter().all(|n| *n > 4_000), "{seen:?}");
}

#[test]
fn histories_of_a_scan() {
    histories(150, |_, entries| Box::new(BlockIndex::new(entries)));
}

#[test]
fn histories_of_buckets() {
    histories(151, |size, entries| {
        Box::new(BucketIndex::new(entries, size))
    });
}

/// The requests' words about a slice, as plainly as they can be written.
mod request {
    use super::*;

    fn has(entry: &Entry, key: Key) -> bool {
        entry.in_use != 0 && (entry.satp, entry.pc) == key
    }

    pub fn find(entries: &[Entry], key: Key) -> Option<Entry> {
        entries.iter().find(|entry| has(entry, key)).copied()
    }

    pub fn insert(entries: &mut [Entry], key: Key, block: NativeBlock) -> Reply {
        if let Some(at) = entries.iter().position(|entry| has(entry, key)) {
            entries[at] = used(key, block, entries[at].in_use);
            return Ok(at);
        }
        let free = entries.iter().position(|entry| entry.in_use == 0);
        let at = free.ok_or(InsertRefusal::Full)?;
        entries[at] = used(key, block, 1);
        Ok(at)
    }

    pub fn drop_touched(entries: &mut [Entry], address: u64, n: u64) -> usize {
        let mut number = 0;
        for entry in entries {
            if entry.in_use != 0 && touches(entry.pc, entry.block.span, address, n) {
                entry.in_use = 0;
                number += 1;
            }
        }
        number
    }
}

/// One operation on an index and, by the requests' words, on the entries that it must then have.
fn operation(r: &mut Random, index: &mut dyn Indexing, expected: &mut [Entry], key: Key) -> Came {
    let range = index.range(key);
    let start = range.start;
    let shown = request::find(&expected[range.clone()], key);
    match r.below(20) {
        0 => {
            let mut store = CodeStore::with_mark(Vec::new(), r.u64() as usize);
            index.empty(&mut store);
            expected.iter_mut().for_each(|entry| entry.in_use = 0);
            assert_eq!(store.mark(), 0);
            Came::Emptied
        }
        1..=6 => {
            assert_eq!(index.find(key), shown, "{key:x?}");
            shown.map_or(Came::None, |_| Came::Found)
        }
        // In all entries, also of an index in buckets.
        7..=9 => {
            let (address, n) = write(r, key);
            let number = request::drop_touched(expected, address, n);
            assert_eq!(index.drop_touched(address, n), number);
            dropped(number)
        }
        _ => {
            let block = any_block(r);
            let reply = request::insert(&mut expected[range], key, block);
            let reply = reply.map(|within| start + within);
            assert_eq!(index.insert(key, block), reply, "{key:x?}");
            match (reply, shown) {
                (Err(_), _) => Came::Refused,
                (_, Some(_)) => Came::Replaced,
                (_, None) => Came::New,
            }
        }
    }
}

/// Slices among entries that have the same keys, in use and not: none of these may be seen or written.
fn slices(seed: u64, made: impl Fn(usize, &mut [Entry]) -> Box<dyn Indexing + '_>) {
    let mut r = Random::new(seed);
    let mut seen = Seen::default();
    for _ in 0..30_000 {
        let keys = pool(&mut r, 60);
        let (number, size) = (r.below(30) as usize, r.below(10) as usize);
        let in_use = r.one_of(&[10, 50, 90, 100]);
        let mut buffer = filled(&mut r, number + 4, &keys, in_use);
        let mut expected = buffer.clone();
        let lent = 2..number + 2;
        let mut index = made(size, &mut buffer[lent.clone()]);
        for _ in 0..10 {
            let key = r.one_of(&keys);
            let expected = &mut expected[lent.clone()];
            let came = operation(&mut r, &mut *index, expected, key);
            assert!(index.entries() == expected, "{key:x?}");
            seen[came as usize] += 1;
        }
        drop(index);
        assert!(buffer == expected);
    }
    println!("{seen:?}");
    assert_eq!(seen.iter().sum::<u32>(), 300_000);
    assert!(seen.iter().all(|n| *n > 4_000), "{seen:?}");
}

#[test]
fn slices_of_a_scan() {
    slices(152, |_, entries| {
        Box::new(BlockIndex::filled_elsewhere(entries))
    });
}

#[test]
fn slices_of_buckets() {
    slices(153, |size, entries| {
        Box::new(BucketIndex::filled_elsewhere(entries, size))
    });
}
