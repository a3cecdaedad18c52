//! Blocks of x86-64 code for runs of RV64 words.
//!
//! The translator is emuko's, ported to Rattle and proved there; this crate builds it (`rt lib` in the repository's crates/capi), links
//! it and wraps its functions. It adds nothing to what they do, but that [`BucketIndex`] picks by a hash which entries it lends.
//!
//! ```
//! use emuko_x64_blocks::{translate, Request, GREATEST_BLOCK};
//!
//! // ADDI x1, x0, 5
//! let run = [0x0093, 0x0050];
//! let mut out = [0; GREATEST_BLOCK];
//! let block = translate(&Request::new(0x8000_0000, &run), &mut out)?;
//! assert_eq!((block.bytes().len(), block.count(), block.span()), (88, 1, 4));
//! assert_eq!(block.bytes().last(), Some(&0xC3));
//! # Ok::<(), emuko_x64_blocks::Refusal>(())
//! ```
//!
//! Where fetching has effects of its own, as under page tables, [`Run::fetch`] fetches just what a translation needs. [`CodeStore`]
//! keeps blocks one behind the other, [`BlockIndex`] finds them again and drops those whose code the guest writes over, and [`block_fn`]
//! makes a function of one.
//!
//! Multiplication and division (M) are in line. A zero divisor and the signed overflow give the RISC-V manual's values, and never the
//! host's fault. Compressed instructions are in line where the word that one expands to is ([`expansion`]); loads and stores, compressed or
//! not, are executed by helpers, and so are the other compressed ones.
//!
//! # Blocks found again
//!
//! A guest's loops come back to the same addresses. An index, [`BlockIndex`] or for many blocks [`BucketIndex`], keeps where the block for
//! an address space (`satp`) and a pc stands in the store. A turn looks there first; a block that is not found is translated, placed and
//! inserted. Where the store has no room (7) or the index has no entry left (8), both are emptied, in one call, and filled anew. A block
//! that was placed before an 8 is then placed again, since emptying gives up its place as well:
//!
//! ```
//! use emuko_x64_blocks::{translate, Block, BlockIndex, CodeStore, Entry, NativeBlock, Request, GREATEST_BLOCK};
//! use std::error::Error;
//!
//! struct Kept {
//!     store: CodeStore<Vec<u8>>,
//!     index: BlockIndex<Vec<Entry>>,
//! }
//!
//! impl Kept {
//!     fn keep(&mut self, satp: u64, pc: u64, block: &Block) -> Result<NativeBlock, Box<dyn Error>> {
//!         let offset = self.store.place(block.bytes())?.offset;
//!         let block = NativeBlock::new(offset, block);
//!         self.index.insert(satp, pc, block)?;
//!         Ok(block)
//!     }
//! }
//!
//! let mut kept = Kept {
//!     store: CodeStore::new(vec![0; 1 << 16]),
//!     index: BlockIndex::new(vec![Entry::default(); 2]),
//! };
//! let mut out = [0; GREATEST_BLOCK];
//! let mut translations = 0;
//! // ADDI x1, x1, 1; JAL x0, -4: a loop. It runs a thousand turns at each of three places, and there are two entries.
//! let run = [0x8093, 0x0010, 0xF06F, 0xFFDF];
//! for pc in [0x8000_0000, 0x8000_0100, 0x8000_0200] {
//!     for _ in 0..1000 {
//!         let satp = 0;
//!         let block = match kept.index.find(satp, pc) {
//!             Some(entry) => entry.block,
//!             None => {
//!                 translations += 1;
//!                 let block = translate(&Request::new(pc, &run), &mut out)?;
//!                 match kept.keep(satp, pc, &block) {
//!                     Ok(block) => block,
//!                     Err(_) => {
//!                         kept.index.empty(&mut kept.store);
//!                         kept.keep(satp, pc, &block)?
//!                     }
//!                 }
//!             }
//!         };
//!         // Here the block is entered, at this offset of the store; it returns the next pc.
//!         assert_eq!(block.count, 2);
//!     }
//! }
//! assert_eq!(translations, 3);
//! assert_eq!(kept.index.find(0, 0x8000_0000), None); // gone with the emptying
//! # Ok::<(), Box<dyn Error>>(())
//! ```
//!
//! # An index made before
//!
//! Entries and store can outlive the archive that made their blocks, as where a library is exchanged and its caller's memory stays. Then an
//! index can show another block than the one that its code is translated to now. [`rules`] tells by which rules the archive translates, a
//! number that grows with every change to them. An index that was made under others, or of which it is not known under which, is emptied
//! once, before its next use:
//!
//! ```
//! use emuko_x64_blocks::{rules, BlockIndex, CodeStore, Entry, NativeBlock};
//!
//! struct Kept {
//!     store: CodeStore<[u8; 4096]>,
//!     index: BlockIndex<[Entry; 2]>,
//!     /// Under which rules the index was made, where that is known.
//!     rules: Option<u32>,
//! }
//!
//! impl Kept {
//!     fn use_again(&mut self) {
//!         if self.rules != Some(rules()) {
//!             self.index.empty(&mut self.store);
//!             self.rules = Some(rules());
//!         }
//!     }
//! }
//!
//! // C.NOP, of which an earlier archive made a block of 88 bytes that calls a helper.
//! let block = NativeBlock { offset: 0, count: 1, length: 88, span: 2 };
//! let mut kept = Kept {
//!     store: CodeStore::with_mark([0; 4096], 88),
//!     index: BlockIndex::new([Entry::default(); 2]),
//!     rules: None,
//! };
//! kept.index.insert(0, 0x8000_0000, block)?;
//! kept.use_again();
//! assert_eq!((kept.index.find(0, 0x8000_0000), kept.store.mark()), (None, 0));
//! // What is inserted from then on stays.
//! kept.index.insert(0, 0x8000_0000, block)?;
//! kept.use_again();
//! assert!(kept.index.find(0, 0x8000_0000).is_some());
//! # Ok::<(), emuko_x64_blocks::InsertRefusal>(())
//! ```
//!
//! The rules of this version are 7: compressed integer instructions, of which a helper executed every one before, are in line (request Q-7 of
//! the repository's docs). By rules 6 JALR with funct3 1 to 7, which the RISC-V manual reserves, is no longer taken (Q-6). Version 0.3.0 and
//! those before it had no number, and took it as JALR; the entries of those before 0.3.0 have another size and are made anew. Blocks hold the
//! addresses of their helpers: where these have moved, an index is emptied whatever the rules.
//!
//! # Code that changes
//!
//! A block does what the guest's code says as long as that has not changed in the bytes that the block spans, which are those of the
//! instructions that it counts ([`Block::span`]). Proved is: if the guest's code has not changed in the bytes that a block spans since it
//! was translated, entering it gives the manual's run of the code as it is now, read for at most the block's count of instructions, the
//! helper's included (`AgreementOfKept` in the repository's crate agreement). So a refused word behind the span, before which the block
//! ended, may change, and all other code as well. The premise is nothing that a block tests: one that is kept must not be entered any more
//! once one of the bytes that it spans has changed.
//!
//! An index keeps each block's span, and [`BlockIndex::drop_touched`] drops, under every `satp`, the blocks that span a byte of a write.
//! Proved is as well: from an empty index, through any order of translations inserted, guest writes each followed by its drop, and
//! emptyings, every entry in use has its span unchanged since its translation (`KeepsSpans` in the repository's crate coherence). So a
//! block that no drop has touched may be entered. What is left to the caller:
//!
//! - Every write that reaches code is followed by its drop before the next block is entered: those of stores, which a helper executes,
//!   and those of devices and of the caller itself. A drop may be left out where it is known to touch nothing, as by a list of the pages
//!   in which kept blocks have code.
//! - The address of a drop is one by which code is fetched, as the pcs of blocks are: a virtual address where addresses are translated. A
//!   caller that writes bytes through another mapping of them, or by their physical address, drops once for each address by which they
//!   can be fetched, whatever the `satp`. Where it is another mapping that puts other code there, and no write, the addresses that it
//!   changes are dropped as if they had been written, or all is emptied.
//! - A block is inserted as it was translated from code that has not been written since, with the span that the translation gave
//!   ([`NativeBlock::new`]), and under the pc that it was translated for.
//!
//! ```
//! use emuko_x64_blocks::{translate, BlockIndex, CodeStore, Entry, NativeBlock, Request, GREATEST_BLOCK};
//!
//! // ADDI x1, x0, 5; LD x3, 0(x1), which ends the block; what stands behind it is none of the block.
//! let run = [0x0093, 0x0050, 0xB183, 0x0000];
//! let mut out = [0; GREATEST_BLOCK];
//! let block = translate(&Request::new(0x8000_0000, &run), &mut out)?;
//! assert_eq!((block.count(), block.span()), (2, 8));
//! let mut store = CodeStore::new(vec![0; 1 << 16]);
//! let mut index = BlockIndex::new(vec![Entry::default(); 2]);
//! let offset = store.place(block.bytes())?.offset;
//! index.insert(0, 0x8000_0000, NativeBlock::new(offset, &block))?;
//!
//! // The guest stores eight bytes behind the block, and then two that are the upper half of LD.
//! assert_eq!(index.drop_touched(0x8000_0008, 8), 0);
//! assert!(index.find(0, 0x8000_0000).is_some());
//! assert_eq!(index.drop_touched(0x8000_0006, 2), 1);
//! assert_eq!(index.find(0, 0x8000_0000), None);
//! # Ok::<(), Box<dyn std::error::Error>>(())
//! ```
//!
//! FENCE.I is where a guest asks that its stores be seen by later fetches. It ends its block, so that a caller comes back to its own loop
//! before anything behind it is translated or entered: [`BlockResult::next_pc`] is then the address behind it, and [`Run::fetch`] has
//! fetched nothing from there. Whoever keeps blocks either drops behind every write those that it touches, and has nothing to do at
//! FENCE.I, or drops all of them ([`BlockIndex::empty`]) behind every FENCE.I, at the latest before the next block is entered, and
//! translates what is entered anew:
//!
//! ```
//! use emuko_x64_blocks::{translate, Request, GREATEST_BLOCK};
//!
//! // FENCE.I; ADDI x1, x0, 5
//! let run = [0x100F, 0x0000, 0x0093, 0x0050];
//! let mut out = [0; GREATEST_BLOCK];
//! let block = translate(&Request::new(0x8000_0000, &run), &mut out)?;
//! assert_eq!((block.bytes().len(), block.count(), block.span()), (67, 1, 4));
//! // The block's last instruction stands behind count - 1 others, of one or two halfwords each; by opcode and funct3 it is FENCE.I.
//! let length = |halfword: u16| if halfword & 3 == 3 { 2 } else { 1 };
//! let last = (1..block.count()).fold(0, |at, _| at + length(run[at]));
//! assert_eq!(run[last] & 0x707F, 0x100F);
//! # Ok::<(), emuko_x64_blocks::Refusal>(())
//! ```
//!
//! In the second way a block may be entered between a store to the bytes that it spans and the next FENCE.I. The manual lets such a fetch
//! see the old code as well as the new, but the proof covers only entries of blocks whose spans are unchanged.
//!
//! # Building
//!
//! The build script needs `rt` on the PATH. It proves the crates first, which takes minutes from nothing and seconds when nothing has
//! changed. To build without `rt`, set `EMUKO_CAPI_ARCHIVE` to the full path of a `libcapi.a` that `rt lib` in crates/capi has built.

#![no_std]
#![warn(missing_docs)]

mod archive;
mod buckets;
mod entry;
mod index;
mod placing;
mod run;
mod translation;

pub use buckets::BucketIndex;
pub use entry::{block_fn, BlockFn, BlockResult, HelperFn, Helpers};
pub use index::{BlockIndex, Entry, InsertRefusal, NativeBlock};
pub use placing::{place, CodeStore, PlaceRefusal, Placed};
pub use run::{expansion, word_kind, Run, WordKind};
pub use translation::{rules, translate, Block, Refusal, Request};

/// The greatest length of a block in bytes: sixty-four times DIVW. An output of this length is never too short, and a shorter one always
/// is, whatever the block.
pub const GREATEST_BLOCK: usize = 4099;

/// The least length of a block in bytes: a jump alone, for one.
pub const LEAST_BLOCK: usize = 67;

/// The greatest number of guest instructions in a block, whatever their size. Higher limits work as this one.
pub const MOST_STEPS: u32 = 64;

/// The greatest number of bytes of the guest's code that a block [spans](Block::span): those of [`MOST_STEPS`] words. As many compressed
/// instructions have half of it.
pub const MOST_SPAN: u64 = 256;
