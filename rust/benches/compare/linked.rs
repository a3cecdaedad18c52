//! emuko's `compile_native_block` as it is used: words fetched from memory by address translation, the block translated, placed in the
//! code store and put into the map of blocks. The original emulator, and the one that is linked with this crate.

use crate::runs::varied;
use crate::time::{heading, row};
use emuko_original::{Emuko, Linked, Memory, Original};
use std::hint::black_box;

const BASE: u64 = 0x8000_0000;
const PAGE: u64 = 0x1000;
/// Different runs in turn, each at a pc of its own, 256 bytes from the last.
const RUNS: usize = 64;
/// Code stands behind the page tables, four pages of it.
const CODE: u64 = BASE + 4 * PAGE;
const PAGES: u64 = 4;
const SATP: u64 = 8 << 60 | (BASE + PAGE) >> 12;

/// Memory with the runs in it, and page tables that map each page of code to its own address.
fn memory(words: usize) -> Memory {
    let mut memory = Memory::new(BASE, (4 * PAGE + PAGES * PAGE) as usize);
    memory.accesses = None;
    let mut entry = |table: u64, index: u64, page: u64, flags: u64| {
        let at = BASE + table * PAGE + 8 * index;
        memory.write(at, &(page >> 12 << 10 | flags).to_le_bytes());
    };
    entry(1, CODE >> 30 & 511, BASE + 2 * PAGE, 1);
    entry(2, CODE >> 21 & 511, BASE + 3 * PAGE, 1);
    for page in 0..PAGES {
        // Valid, readable, executable.
        entry(3, (CODE >> 12 & 511) + page, CODE + page * PAGE, 0b1011);
    }
    for (k, run) in varied(RUNS, words, 70 + words as u64).iter().enumerate() {
        let bytes: Vec<u8> = run.iter().flat_map(|half| half.to_le_bytes()).collect();
        memory.write(CODE + 256 * k as u64, &bytes);
    }
    memory
}

fn pass(emuko: &mut impl Emuko, memory: &mut Memory, words: u32) {
    emuko.clear();
    for k in 0..RUNS as u64 {
        let count = emuko.count(memory, CODE + 256 * k, 64);
        assert_eq!(black_box(count), words);
    }
}

pub fn rows() {
    let size = 1 << 20;
    let (mut linked, mut original) = (Linked::new(size), Original::new(size));
    for (title, satp) in [("bare", 0), ("Sv39", SATP)] {
        heading(&format!("compile_native_block, {title}"));
        linked.set_satp(satp);
        original.set_satp(satp);
        for words in [2, 5, 9, 17, 64] {
            let (mut ours, mut theirs) = (memory(words), memory(words));
            row(
                &format!("{words} words"),
                RUNS,
                || pass(&mut linked, &mut ours, words as u32),
                || pass(&mut original, &mut theirs, words as u32),
            );
        }
    }
}
