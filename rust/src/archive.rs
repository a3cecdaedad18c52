//! The archive's functions as its crate capi has them: slices as pointer and length. c/emuko_x64_blocks.h says the same to C.

use crate::{Entry, NativeBlock};

/// A number and its values, 0 where there are none: document 01, "Replies".
#[repr(C)]
pub(crate) struct Reply {
    pub(crate) number: u64,
    pub(crate) first: u64,
    pub(crate) second: u64,
    pub(crate) third: u64,
}

/// The code store's record: how much of the store is in use. It is lent to the emptying of an index.
#[repr(C)]
#[derive(Clone, Debug)]
pub(crate) struct CodeCache {
    pub(crate) used: usize,
}

extern "C" {
    pub(crate) fn emuko_rules() -> u32;
    pub(crate) fn emuko_word_kind(instr: u32) -> u32;
    pub(crate) fn emuko_expand(halfword: u16) -> u32;
    pub(crate) fn emuko_translate(
        start: u64,
        limit: u32,
        halfwords: *const u16,
        halfwords_len: usize,
        helper16: u64,
        helper_mem: u64,
        out: *mut u8,
        out_len: usize,
    ) -> Reply;
    pub(crate) fn emuko_place(
        code: *const u8,
        code_len: usize,
        store: *mut u8,
        store_len: usize,
        used: usize,
    ) -> Reply;
    pub(crate) fn emuko_index_find(
        entries: *const Entry,
        entries_len: usize,
        satp: u64,
        pc: u64,
    ) -> Entry;
    pub(crate) fn emuko_index_insert(
        entries: *mut Entry,
        entries_len: usize,
        satp: u64,
        pc: u64,
        block: NativeBlock,
    ) -> Reply;
    pub(crate) fn emuko_index_empty(entries: *mut Entry, entries_len: usize, cache: *mut CodeCache);
    pub(crate) fn emuko_index_drop(
        entries: *mut Entry,
        entries_len: usize,
        address: u64,
        n: u64,
    ) -> usize;
}
