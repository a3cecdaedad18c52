//! Translation and placing by themselves.

use crate::runs::{cases, rest_of_m, varied, Case, START};
use crate::time::{heading, heading_beside, row};
use emuko_original::{set_helper, Emuko, Original, CODE_SIZE};
use emuko_x64_blocks::{place, translate, CodeStore, Request, GREATEST_BLOCK};
use std::cell::RefCell;
use std::hint::black_box;

/// Both give a block of the count expected, with the same bytes but for the helper's address.
fn same(case: &Case, original: &Original) {
    let mut out = vec![0; GREATEST_BLOCK];
    let mut bytes = Vec::new();
    let block = translate(&Request::new(START, &case.run), &mut out);
    let count = original.emit(START, 64, &case.run, &mut bytes);
    assert_eq!(count, case.count, "{}", case.name);
    match block {
        Ok(block) => {
            assert_eq!(block.count(), count);
            set_helper(&mut bytes, count, [0, 0]);
            assert!(bytes == block.bytes(), "{}", case.name);
        }
        Err(refusal) => assert_eq!((refusal.number(), count), (4, 0)),
    }
}

/// One run again and again.
fn repeated(case: &Case, original: &Original) {
    same(case, original);
    let request = Request::new(START, &case.run);
    let mut out = vec![0; GREATEST_BLOCK];
    let mut bytes = Vec::with_capacity(4096);
    row(
        case.name,
        1,
        || {
            let _ = black_box(translate(black_box(&request), black_box(&mut out)));
        },
        || {
            let run = black_box(&case.run);
            black_box(original.emit(START, 64, run, black_box(&mut bytes)));
        },
    );
}

/// Words that the original does not take, beside its longest block: 64 times SLLW.
fn beside_sllw(case: &Case, sllw: &Case, original: &Original) {
    let request = Request::new(START, &case.run);
    let mut out = vec![0; GREATEST_BLOCK];
    let mut bytes = Vec::with_capacity(4096);
    let block = translate(&request, &mut out).unwrap();
    assert_eq!(block.count(), case.count);
    row(
        case.name,
        1,
        || {
            let _ = black_box(translate(black_box(&request), black_box(&mut out)));
        },
        || {
            let run = black_box(&sllw.run);
            black_box(original.emit(START, 64, run, black_box(&mut bytes)));
        },
    );
}

/// Different runs in turn.
fn in_turn(words: usize, original: &Original) {
    let runs = varied(512, words, 50 + words as u64);
    for run in &runs {
        let case = Case {
            name: "a varied run",
            run: run.clone(),
            count: words as u32,
        };
        same(&case, original);
    }
    let mut out = vec![0; GREATEST_BLOCK];
    let mut bytes = Vec::with_capacity(4096);
    row(
        &format!("512 different runs of {words} words"),
        runs.len(),
        || {
            for run in &runs {
                let _ = black_box(translate(&Request::new(START, run), &mut out));
            }
        },
        || {
            for run in &runs {
                black_box(original.emit(START, 64, run, &mut bytes));
            }
        },
    );
}

/// The same code at the same place again and again, which stays in the first cache; both write to one store, since times depend on where
/// it stands.
fn placing(length: usize) {
    let code = vec![0x5A; length];
    let store = RefCell::new(vec![0; length + 100]);
    row(
        &format!("placing {length} bytes"),
        1,
        || {
            let mut store = store.borrow_mut();
            black_box(place(black_box(&code), black_box(&mut store), 5).unwrap());
        },
        || {
            let mut store = store.borrow_mut();
            black_box(Original::place(black_box(&code), black_box(&mut store), 5).unwrap());
        },
    );
}

/// Code placed behind code in a store of 64 KiB, until that is full.
fn placing_in_a_row(length: usize) {
    let code = vec![0x5A; length];
    let number = CODE_SIZE / (length + 3);
    let store = RefCell::new(vec![0; CODE_SIZE]);
    row(
        &format!("placing {length} bytes, in a row"),
        number,
        || {
            let (mut mark, mut store) = (0, store.borrow_mut());
            for _ in 0..number {
                mark = place(black_box(&code), &mut store, mark).unwrap().mark;
            }
        },
        || {
            let (mut mark, mut store) = (0, store.borrow_mut());
            for _ in 0..number {
                let placed = Original::place(black_box(&code), &mut store, mark);
                mark = placed.unwrap().1;
            }
        },
    );
}

/// One run translated and placed again and again.
fn translating_and_placing(case: &Case, original: &Original) {
    let request = Request::new(START, &case.run);
    let store = RefCell::new(vec![0; 4096]);
    let mut out = vec![0; GREATEST_BLOCK];
    let mut bytes = Vec::with_capacity(4096);
    row(
        &format!("{}, placed", case.name),
        1,
        || {
            let mut store = store.borrow_mut();
            let block = translate(black_box(&request), black_box(&mut out)).unwrap();
            black_box(place(block.bytes(), &mut store, 5).unwrap());
        },
        || {
            let mut store = store.borrow_mut();
            original.emit(START, 64, black_box(&case.run), black_box(&mut bytes));
            black_box(Original::place(&bytes, &mut store, 5).unwrap());
        },
    );
}

/// Different runs translated in turn, and placed behind each other.
fn translating_and_placing_in_turn(words: usize, original: &Original) {
    let runs = varied(512, words, 50 + words as u64);
    let size = 512 * (GREATEST_BLOCK + 3);
    let mut store = CodeStore::new(vec![0; size]);
    let mut theirs = vec![0; size];
    let mut out = vec![0; GREATEST_BLOCK];
    let mut bytes = Vec::with_capacity(4096);
    row(
        &format!("512 runs of {words} words, placed"),
        runs.len(),
        || {
            store.clear();
            for run in &runs {
                let block = translate(&Request::new(START, run), &mut out).unwrap();
                black_box(store.place(block.bytes()).unwrap());
            }
        },
        || {
            let mut mark = 0;
            for run in &runs {
                original.emit(START, 64, run, &mut bytes);
                mark = Original::place(&bytes, &mut theirs, mark).unwrap().1;
            }
        },
    );
    assert!(store.bytes() == theirs);
}

pub fn rows() {
    let original = Original::new(CODE_SIZE);
    heading("translating");
    for case in &cases() {
        repeated(case, &original);
    }
    in_turn(16, &original);
    in_turn(4, &original);
    heading_beside("translating the rest of M", "its SLLW, ns");
    for case in &rest_of_m() {
        beside_sllw(case, &cases()[0], &original);
    }
    heading("placing");
    for length in [67, 262, 1024, 2243, 4099] {
        placing(length);
    }
    for length in [67, 262, 1024, 2243, 4099] {
        placing_in_a_row(length);
    }
    heading("translating and placing");
    for case in cases().iter().filter(|case| case.count > 0) {
        translating_and_placing(case, &original);
    }
    for words in [16, 4] {
        translating_and_placing_in_turn(words, &original);
    }
}
