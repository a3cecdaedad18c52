//! Placing: replies and every byte of the store against the original Rust's `alloc`.

use crate::support::mapped::memory_at;
use crate::support::random::Random;
use crate::support::requests::Lent;
use emuko_original::{Emuko, Original};
use emuko_x64_blocks::{place, translate, CodeStore, PlaceRefusal, Placed, Request};

/// Offset and mark.
type Answer = Result<(usize, usize), PlaceRefusal>;

fn answer(reply: Result<Placed, PlaceRefusal>) -> Answer {
    reply.map(|placed| (placed.offset, placed.mark))
}

struct Comparison {
    code: Vec<u8>,
    store: Lent,
    number: usize,
}

impl Comparison {
    fn new(seed: u64) -> Self {
        let mut r = Random::new(seed);
        Comparison {
            code: (0..8400).map(|_| r.u32() as u8).collect(),
            store: Lent::new(seed + 1),
            number: 0,
        }
    }

    fn reply(&mut self, used: usize, store: usize, code: usize) -> Answer {
        // From another place each time, as the store does.
        self.number += 1;
        let code = &self.code[self.number % 61..][..code];
        let lent = self.store.lend(store);
        let mut before = lent.to_vec();
        // Document 01 adds number 6; the original does not test for it.
        let expected = if used > store {
            Err(PlaceRefusal::MarkBeyondStore)
        } else {
            Original::place(code, &mut before, used).ok_or(PlaceRefusal::Full)
        };
        let reply = answer(place(code, lent, used));
        assert_eq!(reply, expected, "{used} {store} {}", code.len());
        assert!(*lent == before, "store: {used} {store} {}", code.len());
        let (offset, written) = match reply {
            Ok((offset, _)) => (offset, code),
            Err(_) => (0, &[][..]),
        };
        assert!(
            self.store.holds(offset, written),
            "bytes: {used} {store} {}",
            code.len()
        );
        reply
    }
}

#[test]
fn every_small_case() {
    let mut comparison = Comparison::new(10);
    let mut seen = [0; 3];
    for used in 0..20 {
        for store in 0..24 {
            for code in 0..24 {
                let reply = comparison.reply(used, store, code);
                seen[reply.map_or_else(|refusal| refusal.number() as usize - 5, |_| 0)] += 1;
            }
        }
    }
    assert_eq!(seen.iter().sum::<u32>(), 20 * 24 * 24);
    assert!(seen.iter().all(|n| *n > 500), "{seen:?}");
}

/// Lengths of blocks, and stores that end around the end of the code.
#[test]
fn around_the_end() {
    let mut comparison = Comparison::new(11);
    let mut cases = 0;
    for code in [0, 1, 3, 4, 67, 81, 85, 88, 102, 116, 2242, 2243, 4098, 4099] {
        for used in (0..=9).chain(4093usize..=4099) {
            let end = used.next_multiple_of(4) + code;
            for store in end.saturating_sub(4)..=end + 4 {
                let reply = comparison.reply(used, store, code);
                if used <= store {
                    assert_eq!(reply.is_ok(), end <= store);
                }
                cases += 1;
            }
        }
    }
    assert_eq!(cases, 14 * 17 * 9 - 8);
}

/// Around the greatest block's length, and around 8,192, up to which code was read whole before it was written.
#[test]
fn long_code() {
    let mut comparison = Comparison::new(16);
    let mut placed = 0;
    for code in (4090..=4170).chain(8186..=8270).chain([5000, 6001, 8000]) {
        for used in 0..=5 {
            for store in [8279, 8320] {
                placed += comparison.reply(used, store, code).is_ok() as u32;
            }
        }
    }
    assert_eq!(placed, (81 + 85 + 3) * 6 * 2);
}

#[test]
fn random_cases() {
    let mut r = Random::new(12);
    let mut comparison = Comparison::new(12);
    let mut placed = 0;
    for _ in 0..20_000 {
        let used = r.below(4000) as usize;
        let store = if r.percent(10) {
            r.below(used as u64 + 1) as usize
        } else {
            used + r.below(4300) as usize
        };
        let code = match r.below(3) {
            0 => r.below(8) as usize,
            1 => (store.saturating_sub(used) + 3).saturating_sub(r.below(7) as usize),
            _ => r.below(4150) as usize,
        };
        placed += comparison.reply(used, store, code).is_ok() as u32;
    }
    assert!((5_000..15_000).contains(&placed), "{placed}");
}

/// Marks that no store reaches.
#[test]
fn marks_beyond_any_store() {
    let mut comparison = Comparison::new(13);
    for used in [usize::MAX, usize::MAX - 2, usize::MAX - 3, 1 << 63, 8193] {
        for code in [0, 1, 67] {
            let reply = comparison.reply(used, 8192, code);
            assert_eq!(reply, Err(PlaceRefusal::MarkBeyondStore));
        }
    }
}

/// A store filled to its end and filled again: the mark is the original's after every placing.
#[test]
fn stores_in_a_row() {
    let mut r = Random::new(14);
    let mut ours = CodeStore::new(vec![0xA5; 60_000]);
    let mut bytes = vec![0xA5; 60_000];
    let mut mark = 0;
    let mut refusals = 0;
    for k in 0..5_000 {
        let code: Vec<u8> = (0..r.below(4100)).map(|_| r.u32() as u8).collect();
        let reply = answer(ours.place(&code));
        match Original::place(&code, &mut bytes, mark) {
            Some((offset, new)) => {
                assert_eq!(reply, Ok((offset, new)));
                mark = new;
            }
            None => {
                assert_eq!(reply, Err(PlaceRefusal::Full));
                refusals += 1;
            }
        }
        assert_eq!(ours.mark(), mark);
        if reply.is_err() && k % 3 == 0 {
            assert!(ours.bytes() == bytes);
            ours.clear();
            mark = 0;
        }
    }
    assert!(refusals > 50, "{refusals}");
    assert!(ours.into_bytes() == bytes);
}

#[test]
fn a_mark_that_is_given() {
    let mut bytes = [0; 80];
    let mut store = CodeStore::with_mark(&mut bytes[..], 5);
    assert_eq!(answer(store.place(&[1; 67])), Ok((8, 75)));
    assert_eq!(store.mark(), 75);
    let mut beyond = CodeStore::with_mark(&mut bytes[..], 81);
    assert_eq!(beyond.place(&[]), Err(PlaceRefusal::MarkBeyondStore));
    assert_eq!(beyond.mark(), 81);
}

/// Code and store side by side in one buffer, in either order: they touch, or nearly so, but do not overlap.
#[test]
fn side_by_side() {
    const STORE: usize = 120;
    let mut r = Random::new(15);
    let mut placed = 0;
    for length in 0..100 {
        for gap in 0..6 {
            for used in 0..9 {
                for code_first in [true, false] {
                    let size = length + gap + STORE;
                    let fresh: Vec<u8> = (0..size).map(|_| r.u32() as u8).collect();
                    let (code_at, store_at) = match code_first {
                        true => (0, length + gap),
                        false => (STORE + gap, 0),
                    };
                    let code = fresh[code_at..code_at + length].to_vec();
                    let mut expected = fresh.clone();
                    let store = &mut expected[store_at..store_at + STORE];
                    let original = Original::place(&code, store, used);

                    let mut buffer = fresh;
                    let reply = if code_first {
                        let (code, store) = buffer.split_at_mut(store_at);
                        place(&code[..length], store, used)
                    } else {
                        let (store, code) = buffer.split_at_mut(code_at);
                        place(code, &mut store[..STORE], used)
                    };
                    let reply = answer(reply).ok();
                    assert_eq!(reply, original, "{length} {gap} {used} {code_first}");
                    assert!(buffer == expected, "{length} {gap} {used} {code_first}");
                    placed += reply.is_some() as u32;
                }
            }
        }
    }
    assert_eq!(placed, 100 * 6 * 9 * 2);
}

/// Code, store, halfwords and output at addresses whose lower half is 0, which are no null pointers.
#[test]
fn every_slice_at_a_multiple_of_4_gib() {
    let mut r = Random::new(71);
    let (code, lent) = (memory_at(1 << 32, 0x4000), memory_at(2 << 32, 0x4000));
    code.iter_mut().for_each(|byte| *byte = r.u32() as u8);
    let (copy, mut other) = (code.to_vec(), vec![0; 0x4000]);
    assert_eq!(
        answer(place(&code[..100], lent, 8)),
        answer(place(&copy[..100], &mut other, 8))
    );
    assert!(lent == other);
    // SAFETY: The memory is aligned, and any two bytes are a halfword.
    let run = unsafe { std::slice::from_raw_parts(code.as_ptr().cast::<u16>(), 64) };
    let halfwords = run.to_vec();
    let (here, there) = (Request::new(0, run), Request::new(0, &halfwords));
    assert_eq!(translate(&here, lent), translate(&there, &mut other));
    assert!(lent == other);
}
