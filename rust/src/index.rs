//! The index: blocks found again by `satp` and pc, in entries that the caller lends.

use crate::archive;
use crate::{Block, CodeStore};
use core::error::Error;
use core::fmt;

/// Where a block stands in the code store, how many guest instructions it has, and how many bytes of code and of the guest's code.
///
/// An index keeps all of it as it is given, and of the block nothing else; whether a block stands there is not asked.
#[repr(C)]
#[derive(Clone, Copy, Debug, Default, PartialEq, Eq, Hash)]
pub struct NativeBlock {
    /// Where the block begins in the store: [`Placed::offset`](crate::Placed::offset).
    pub offset: usize,
    /// The number of guest instructions in it: [`Block::count`].
    pub count: u32,
    /// How many bytes it has in the store: the length of [`Block::bytes`]. An index makes nothing of it.
    pub length: usize,
    /// How many bytes of the guest's code it spans from the key's pc on: [`Block::span`]. By this a write is told to touch it, and where
    /// it is 0, as no translation has it, no write does.
    pub span: u64,
}

impl NativeBlock {
    /// What an index keeps of a block that was placed at this [offset](crate::Placed::offset) of the store.
    ///
    /// ```
    /// use emuko_x64_blocks::{translate, CodeStore, NativeBlock, Request, GREATEST_BLOCK};
    ///
    /// // ADDI x1, x0, 5
    /// let mut out = [0; GREATEST_BLOCK];
    /// let block = translate(&Request::new(0x8000_0000, &[0x0093, 0x0050]), &mut out)?;
    /// let mut store = CodeStore::with_mark([0; 4096], 5);
    /// let placed = store.place(block.bytes())?;
    /// let kept = NativeBlock::new(placed.offset, &block);
    /// assert_eq!(kept, NativeBlock { offset: 8, count: 1, length: 88, span: 4 });
    /// assert_eq!(store.bytes()[kept.offset..][..kept.length], *block.bytes());
    /// # Ok::<(), Box<dyn std::error::Error>>(())
    /// ```
    #[must_use]
    #[inline]
    pub fn new(offset: usize, block: &Block<'_>) -> Self {
        NativeBlock {
            offset,
            count: block.count(),
            length: block.bytes().len(),
            span: block.span(),
        }
    }
}

/// A place for one block and its key, which is `satp` and the start pc. [`Entry::default`] is not in use.
///
/// Nothing else is part of the key: blocks of one key that were made with different limits or helpers are one to the index.
#[repr(C)]
#[derive(Clone, Copy, Debug, Default, PartialEq, Eq, Hash)]
pub struct Entry {
    /// The guest's address-space register.
    pub satp: u64,
    /// The address of the block's first instruction.
    pub pc: u64,
    /// The block that was inserted for the key.
    pub block: NativeBlock,
    /// The mark: 0 where the entry is not in use, any other number where it is. Inserting gives the mark 1 to an entry that was not in
    /// use, and leaves the mark of one that was; emptying and dropping make it 0. What else stands in an entry that is not in use has no
    /// meaning to the index.
    pub in_use: u32,
}

impl Entry {
    /// Whether the mark is another number than 0.
    #[must_use]
    #[inline]
    pub const fn is_in_use(&self) -> bool {
        self.in_use != 0
    }
}

/// Why a block was not inserted. The entries are then as before.
#[derive(Clone, Copy, Debug, PartialEq, Eq, Hash)]
#[non_exhaustive]
pub enum InsertRefusal {
    /// 8: the key is new and every entry is in use; in a [`BucketIndex`](crate::BucketIndex), every entry of the key's bucket.
    Full,
}

impl InsertRefusal {
    /// The number of the refusal, 8.
    #[must_use]
    pub fn number(&self) -> u8 {
        match self {
            InsertRefusal::Full => 8,
        }
    }
}

impl fmt::Display for InsertRefusal {
    fn fmt(&self, f: &mut fmt::Formatter<'_>) -> fmt::Result {
        match self {
            InsertRefusal::Full => write!(f, "the index has no entry left for a new key"),
        }
    }
}

impl Error for InsertRefusal {}

/// The first entry in use that has the key.
#[inline]
pub(crate) fn find(entries: &[Entry], satp: u64, pc: u64) -> Option<Entry> {
    // SAFETY: The function reads `entries_len` entries; the pointer comes from a slice of this length that lives during the call and is
    // written by no one then. A slice's pointer is aligned and not null even where the slice is empty. Every number is a mark. It
    // keeps no pointer and returns a plain structure.
    let entry = unsafe { archive::emuko_index_find(entries.as_ptr(), entries.len(), satp, pc) };
    // Where there is none, the answer is an entry of zeros.
    entry.is_in_use().then_some(entry)
}

/// Over the first entry in use that has the key; a new key takes the first entry not in use. The index of the entry.
#[inline]
pub(crate) fn insert(
    entries: &mut [Entry],
    satp: u64,
    pc: u64,
    block: NativeBlock,
) -> Result<usize, InsertRefusal> {
    // SAFETY: The function reads and writes no more than `entries_len` entries; the pointer comes from a slice of this length that lives
    // during the call and is lent to it alone. A slice's pointer is aligned and not null even where the slice is empty. It keeps no
    // pointer and returns a plain structure.
    let reply = unsafe {
        archive::emuko_index_insert(entries.as_mut_ptr(), entries.len(), satp, pc, block)
    };
    match reply.number {
        0 => Ok(reply.first as usize),
        8 => Err(InsertRefusal::Full),
        number => unreachable!("inserting has no reply {number}"),
    }
}

/// Clears every mark, and the store's.
#[inline]
pub(crate) fn empty(entries: &mut [Entry], record: &mut archive::CodeCache) {
    // SAFETY: As above; the record is lent to the function alone, too, and the two do not overlap.
    unsafe { archive::emuko_index_empty(entries.as_mut_ptr(), entries.len(), record) }
}

/// Clears the marks of those in use whose blocks span one of `n` bytes from the address on; how many they were.
#[inline]
pub(crate) fn drop_touched(entries: &mut [Entry], address: u64, n: u64) -> usize {
    // SAFETY: As of `insert`; it returns a number.
    unsafe { archive::emuko_index_drop(entries.as_mut_ptr(), entries.len(), address, n) }
}

/// Clears every mark, where there is no store to be emptied with it.
pub(crate) fn clear_marks(entries: &mut [Entry]) {
    empty(entries, &mut archive::CodeCache { used: 0 });
}

/// An index of the blocks in a [`CodeStore`]. The entries are owned or borrowed: a `Vec<Entry>`, an array, a `&mut [Entry]`.
///
/// In an index that [`new`](BlockIndex::new) has made, [`find`](BlockIndex::find) shows for every key the block that was last inserted
/// for it since the key was last freed, or none. [`empty`](BlockIndex::empty) frees all keys,
/// [`drop_touched`](BlockIndex::drop_touched) those whose blocks span a byte that was written, nothing else frees one, and an insert that
/// is refused inserts nothing. This is proved, for every list of inserts, emptyings and drops (`HistoryInCode` in the repository's crate
/// index).
///
/// ```
/// use emuko_x64_blocks::{BlockIndex, CodeStore, Entry, InsertRefusal, NativeBlock};
///
/// let mut store = CodeStore::new(vec![0; 4096]);
/// let mut index = BlockIndex::new([Entry::default(); 2]);
/// let mut block = |length| -> Result<_, emuko_x64_blocks::PlaceRefusal> {
///     Ok(NativeBlock { offset: store.place(&vec![0x90; length])?.offset, count: 1, length, span: 4 })
/// };
/// let (first, second) = (block(88)?, block(67)?);
/// assert_eq!(index.insert(0, 0x8000_0000, first), Ok(0));
/// assert_eq!(index.insert(0, 0x8000_0004, second), Ok(1));
/// assert_eq!(index.find(0, 0x8000_0004).map(|entry| entry.block), Some(second));
/// // The same pc in another address space is another key, and no entry is left for it; a key that is there is replaced.
/// assert_eq!(index.find(1, 0x8000_0004), None);
/// assert_eq!(index.insert(1, 0x8000_0004, second), Err(InsertRefusal::Full));
/// assert_eq!(index.insert(0, 0x8000_0000, second), Ok(0));
///
/// // The guest writes two bytes, of which the second is the first of four at 0x8000_0000.
/// assert_eq!(index.drop_touched(0x7FFF_FFFF, 2), 1);
/// assert_eq!(index.find(0, 0x8000_0000), None);
/// index.empty(&mut store);
/// assert_eq!((index.find(0, 0x8000_0004), store.mark()), (None, 0));
/// # Ok::<(), emuko_x64_blocks::PlaceRefusal>(())
/// ```
///
/// Where entries outlive the archive that made their blocks, and the [`rules`](crate::rules) are others now, they are emptied once:
/// [An index made before](crate#an-index-made-before).
///
/// # What it costs
///
/// [`find`](BlockIndex::find) is a scan: it looks at one entry after the other, up to the first that has the key, and at all of them
/// where none has it. [`insert`](BlockIndex::insert) scans for the key, and where that is new a second time, for an entry not in use.
/// Up to which number of entries a scan takes less time than translating anew stands in the repository's docs/PERFORMANCE.md. For more
/// entries there is [`BucketIndex`](crate::BucketIndex). [`drop_touched`](BlockIndex::drop_touched) looks at every entry, also there.
///
/// # Placing and inserting
///
/// They are two calls. Where a block has been placed and inserting it is then refused, the store's mark has moved: the block stands in the
/// store and can be entered, but it will not be found, and its room is taken until the store is emptied. What a caller can do is to
/// [empty](BlockIndex::empty) both, place the block again and insert it, which an index of at least one entry does not refuse then. The
/// example at the [crate's front](crate#blocks-found-again) does so.
#[derive(Clone, Debug)]
pub struct BlockIndex<E> {
    entries: E,
}

impl<E: AsRef<[Entry]> + AsMut<[Entry]>> BlockIndex<E> {
    /// An index with no entry in use: the mark of each entry given is cleared, all else in them stays.
    #[must_use]
    pub fn new(mut entries: E) -> Self {
        clear_marks(entries.as_mut());
        BlockIndex { entries }
    }

    /// An index of entries that were filled elsewhere: those in use stay in use.
    ///
    /// They may hold a key twice, which an index that began with none in use never does. The first entry in use that has the key then
    /// counts, for [`find`](BlockIndex::find) and for [`insert`](BlockIndex::insert); the other one stays as it is. Entries that were filled
    /// under other [`rules`](crate::rules) are [emptied](crate#an-index-made-before) first.
    ///
    /// ```
    /// use emuko_x64_blocks::{BlockIndex, Entry, NativeBlock};
    ///
    /// let block = |offset| NativeBlock { offset, count: 1, length: 88, span: 4 };
    /// let entry = |offset| Entry { satp: 0, pc: 4, block: block(offset), in_use: 1 };
    /// let mut index = BlockIndex::filled_elsewhere([Entry::default(), entry(64), entry(128)]);
    /// assert_eq!(index.find(0, 4), Some(entry(64)));
    /// assert_eq!(index.insert(0, 4, block(192)), Ok(1));
    /// assert_eq!(index.entries(), [Entry::default(), entry(192), entry(128)]);
    /// ```
    #[must_use]
    pub fn filled_elsewhere(entries: E) -> Self {
        BlockIndex { entries }
    }

    /// The first entry in use that has the key.
    #[must_use]
    #[inline]
    pub fn find(&self, satp: u64, pc: u64) -> Option<Entry> {
        find(self.entries.as_ref(), satp, pc)
    }

    /// Puts a block under its key; the index of its entry. The first entry in use that has the key is written over, all but its mark,
    /// also where an entry before it is not in use and where all are in use. A new key takes the first entry not in use.
    ///
    /// # Errors
    ///
    /// 8, [`InsertRefusal::Full`]: the key is new and every entry is in use, or there are no entries. The entries are as before.
    #[inline]
    pub fn insert(
        &mut self,
        satp: u64,
        pc: u64,
        block: NativeBlock,
    ) -> Result<usize, InsertRefusal> {
        insert(self.entries.as_mut(), satp, pc, block)
    }

    /// Empties the index and the store that its blocks stand in, in one call: every entry's mark becomes 0, and so does the store's.
    /// Nothing else changes: key and block can still be read in [`entries`](BlockIndex::entries), and the store's bytes stay.
    ///
    /// What is placed next is written over the blocks that were there, so none of these may be entered from then on.
    pub fn empty<S>(&mut self, store: &mut CodeStore<S>) {
        empty(self.entries.as_mut(), &mut store.record);
    }

    /// Drops the blocks that a write of the guest touches: the marks of the entries in use, under every `satp`, whose blocks span one of
    /// the `n` bytes from `address` on become 0. How many these were; nothing else changes, neither in them nor in the others.
    ///
    /// Both ranges of bytes go on from 2^64 - 1 to 0. A write of no bytes touches nothing, also inside a block; every other number may be
    /// given, up to 2^64 - 1. What a caller must call this for, and with which address, stands at
    /// ["Code that changes"](crate#code-that-changes).
    ///
    /// The store is not lent: its bytes and its mark stay as they are, so a helper may drop the block that has called it, and the room of
    /// what was dropped is taken until the store is [emptied](BlockIndex::empty).
    ///
    /// ```
    /// use emuko_x64_blocks::{BlockIndex, Entry, NativeBlock};
    ///
    /// let mut index = BlockIndex::new([Entry::default(); 4]);
    /// // Eight bytes, the last four of them from address 0 on, under two satps.
    /// let block = NativeBlock { offset: 0, count: 2, length: 95, span: 8 };
    /// for satp in [0, 1] {
    ///     index.insert(satp, 0xFFFF_FFFF_FFFF_FFFC, block)?;
    /// }
    /// assert_eq!(index.drop_touched(4, 1), 0);
    /// assert_eq!(index.drop_touched(3, 0), 0);
    /// assert_eq!(index.drop_touched(3, 1), 2);
    /// assert!(index.entries().iter().all(|entry| !entry.is_in_use()));
    /// # Ok::<(), emuko_x64_blocks::InsertRefusal>(())
    /// ```
    #[inline]
    pub fn drop_touched(&mut self, address: u64, n: u64) -> usize {
        drop_touched(self.entries.as_mut(), address, n)
    }

    /// All entries, those not in use too.
    #[must_use]
    pub fn entries(&self) -> &[Entry] {
        self.entries.as_ref()
    }

    /// Gives the entries back.
    #[must_use]
    pub fn into_entries(self) -> E {
        self.entries
    }
}
