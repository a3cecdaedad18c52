//! emuko's translator for tests and benchmarks, twice: the original Rust, unchanged, and the same emulator linked with
//! emuko_x64_blocks. See README.md for how the two are compiled.

include!(concat!(env!("OUT_DIR"), "/modules.rs"));

mod memory;

use memory::Run;
pub use memory::{Access, Memory};

/// What a translation is asked for.
#[derive(Clone, Copy, Debug)]
pub struct Asked<'a> {
    pub start: u64,
    pub limit: u32,
    /// The guest's code from `start` on.
    pub halfwords: &'a [u16],
    /// The helpers' addresses: the one for compressed halfwords, the one for loads and stores.
    pub helpers: [u64; 2],
}

/// What a translation does with a request. emuko has no lent output, hence no number 5.
#[derive(Clone, Copy, Debug, PartialEq, Eq)]
pub enum Answer {
    /// A block of this count; its bytes are in the vector given.
    Block(u32),
    /// Nothing, and the pc is not marked as failed.
    LimitZero,
    /// A trap for misaligned access at this address.
    OddStart(u64),
    /// A trap for fetching the halfword of this index.
    Missing(u64),
    /// Nothing, and the pc is marked as failed. The first word.
    NotTaken(u32),
}

/// What can be seen behind a call of `compile_native_block`.
#[derive(Clone, Debug, PartialEq, Eq)]
pub struct Compiled {
    /// Offset and count of a block, or the trap.
    pub result: Result<Option<(usize, u32)>, String>,
    /// The block's bytes in the store, the helper's address set to 0.
    pub bytes: Vec<u8>,
    /// The store's mark.
    pub used: usize,
    /// What the map of blocks has for the pc.
    pub found: Option<(usize, u32)>,
    /// Whether the pc is marked as failed, and what is counted for it.
    pub failed: bool,
    pub hot: Option<u16>,
    /// Whether the translator still is enabled.
    pub enabled: bool,
    /// The hart's last access: kind, address, size.
    pub last_access: String,
}

/// A hart of emuko whose translator is called. Nothing of it comes from the environment.
pub trait Emuko {
    /// The translator is enabled and does not trace; addresses are not translated.
    fn new(code_size: usize) -> Self;

    /// `Hart::compile_native_block`. The block's bytes are left in `bytes`.
    fn translate(&mut self, asked: Asked, bytes: &mut Vec<u8>) -> Answer;

    /// The same from memory, and all that can be seen behind it.
    fn compile(&mut self, memory: &mut Memory, pc: u64, limit: u32) -> Compiled;

    /// The same, for the count alone; 0 where there is no block.
    fn count(&mut self, memory: &mut Memory, pc: u64, limit: u32) -> u32;

    /// Empties code store and maps.
    fn clear(&mut self);

    /// Another address space; empties them and the translation cache.
    fn set_satp(&mut self, satp: u64);

    fn set_enabled(&mut self, enabled: bool);

    fn set_trace(&mut self, trace: bool);

    /// `NativeCodeCache::alloc`: offset and new mark. The mark must not lie beyond the store, which emuko does not test.
    fn place(code: &[u8], store: &mut [u8], used: usize) -> Option<(usize, usize)>;

    /// The immediates, as signed numbers, and the fields of a word.
    fn decode(word: u32) -> String;
}

macro_rules! emuko {
    ($(#[$text:meta])* $name:ident, $hart:ty) => {
        $(#[$text])*
        pub struct $name {
            hart: $hart,
        }

        impl Emuko for $name {
            fn new(code_size: usize) -> Self {
                $name {
                    hart: <$hart>::for_comparison(code_size),
                }
            }

            fn translate(&mut self, asked: Asked, bytes: &mut Vec<u8>) -> Answer {
                let mut run = Run {
                    start: asked.start,
                    halfwords: asked.halfwords,
                };
                self.hart
                    .compare_translate(&mut run, asked.limit, asked.helpers, bytes)
            }

            fn compile(&mut self, memory: &mut Memory, pc: u64, limit: u32) -> Compiled {
                self.hart.compare_compile(memory, pc, limit)
            }

            fn count(&mut self, memory: &mut Memory, pc: u64, limit: u32) -> u32 {
                self.hart.compare_count(memory, pc, limit)
            }

            fn clear(&mut self) {
                self.hart.compare_clear();
            }

            fn set_satp(&mut self, satp: u64) {
                self.hart.set_satp(satp);
            }

            fn set_enabled(&mut self, enabled: bool) {
                self.hart.compare_set_enabled(enabled);
            }

            fn set_trace(&mut self, trace: bool) {
                self.hart.compare_set_trace(trace);
            }

            fn place(code: &[u8], store: &mut [u8], used: usize) -> Option<(usize, usize)> {
                assert!(used <= store.len());
                <$hart>::compare_place(code, store, used)
            }

            fn decode(word: u32) -> String {
                <$hart>::compare_decode(word)
            }
        }
    };
}

emuko!(
    /// The original.
    Original,
    hart::Hart
);

emuko!(
    /// The emulator with `compile_native_block` over emuko_x64_blocks.
    Linked,
    linked::Hart
);

/// A store of code that is large enough for any block.
pub const CODE_SIZE: usize = 1 << 16;

impl Original {
    /// The emission alone, from a slice and into a vector that keeps its capacity, with the original's own helpers. The count, 0 where
    /// the first word is not taken.
    pub fn emit(&self, start: u64, limit: u32, halfwords: &[u16], bytes: &mut Vec<u8>) -> u32 {
        self.hart.compare_emit(start, limit, halfwords, bytes)
    }

    /// What becomes of a word: 0 nothing, 1 the block goes on, 2 the word ends it, 3 the memory helper does. `bytes` is used up.
    pub fn kind(&self, word: u32, bytes: &mut Vec<u8>) -> u32 {
        self.hart.compare_kind(word, bytes)
    }
}

/// Replaces the original's own helper in a block's bytes.
pub fn set_helper(bytes: &mut [u8], count: u32, helpers: [u64; 2]) {
    hart::Hart::compare_set_helper(bytes, count, helpers);
}
