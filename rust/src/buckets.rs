//! The index cut into buckets: a scan of a few entries, however many there are.

use crate::index::{clear_marks, drop_touched, empty, find, insert};
use crate::{CodeStore, Entry, InsertRefusal, NativeBlock};
use core::ops::Range;

/// An index whose entries are cut into buckets of one size. A hash of the key picks the bucket, and all that a
/// [`BlockIndex`](crate::BlockIndex) does with a key is done in it alone.
///
/// Each bucket keeps the promise of a [`BlockIndex`](crate::BlockIndex), and a key has but one bucket: in an index that
/// [`new`](BucketIndex::new) has made, [`find`](BucketIndex::find) shows for every key the block that was last inserted for it since
/// the key was last freed, or none. The part of each bucket in this is proved; that a key always has the same bucket, and that buckets do
/// not overlap, is this wrapper's part, and tested.
///
/// ```
/// use emuko_x64_blocks::{BucketIndex, CodeStore, Entry, NativeBlock};
///
/// let mut store = CodeStore::new(vec![0; 4096]);
/// let mut index = BucketIndex::new(vec![Entry::default(); 4096], 8);
/// let block = NativeBlock { offset: store.place(&[0x90; 88])?.offset, count: 1, length: 88, span: 4 };
/// let at = index.insert(0, 0x8000_0000, block)?;
/// assert!(index.bucket(0, 0x8000_0000).contains(&at));
/// assert_eq!(index.find(0, 0x8000_0000).map(|entry| entry.block), Some(block));
/// assert_eq!(index.drop_touched(0x8000_0003, 8), 1);
/// assert_eq!((index.find(0, 0x8000_0000), store.mark()), (None, 88));
/// index.empty(&mut store);
/// assert_eq!(store.mark(), 0);
/// # Ok::<(), Box<dyn std::error::Error>>(())
/// ```
///
/// # What it costs
///
/// Time: five multiplications, for the hash, the bucket and where it begins, and a scan of one bucket. It does not grow with the number of
/// entries, as long as these are in the processor's caches. A [drop](BucketIndex::drop_touched) looks at every entry, as that of a
/// [`BlockIndex`](crate::BlockIndex) does: a write is no key, and the blocks that it touches stand in any bucket.
///
/// Space: an insert is refused (8) when the key's bucket is full, although others have room. Measured over 4,096 entries, with a hundred
/// lists of different keys (one address space, starts of blocks one to sixteen words apart), so many of a hundred inserts were refused:
///
/// | Keys offered | buckets of 8 | of 16 | of 32 |
/// |---|---|---|---|
/// | 1,024, a quarter of the entries | 0.015 | 0 | 0 |
/// | 2,048, half | 0.85 | 0.08 | 0.005 |
/// | 3,072, three quarters | 5.2 | 2.1 | 0.58 |
/// | 4,096, as many as entries | 13.9 | 9.9 | 7.1 |
///
/// In buckets of 8 the first refusal came behind 616 keys at the earliest, and behind 1,312, a third of the entries, in the middle one of
/// these lists. A caller that empties all at the first 8 keeps so many blocks; one that enters a refused block without keeping it, and
/// translates it anew the next time, goes on. The hash is fixed, so a guest that picks its addresses for it can fill one bucket: other
/// blocks of that bucket are then translated anew each time.
#[derive(Clone, Debug)]
pub struct BucketIndex<E> {
    entries: E,
    /// The entries of a bucket; 0 where there is no bucket.
    size: usize,
    buckets: usize,
}

impl<E: AsRef<[Entry]> + AsMut<[Entry]>> BucketIndex<E> {
    /// An index with no entry in use, in buckets of `size` entries: the mark of each entry given is cleared, all else in them stays.
    ///
    /// Entries behind the last whole bucket are not used: a shorter bucket would be full sooner than the others, and is worth less than
    /// the rule that all are alike. Where there is no whole bucket, or the size is 0, nothing is found and every insert is refused.
    #[must_use]
    pub fn new(mut entries: E, size: usize) -> Self {
        clear_marks(entries.as_mut());
        BucketIndex::filled_elsewhere(entries, size)
    }

    /// The same over entries that were filled elsewhere: those in use stay in use. Entries that were filled under other
    /// [`rules`](crate::rules) are [emptied](crate#an-index-made-before) first.
    ///
    /// A key is looked for in its [`bucket`](BucketIndex::bucket) alone, so entries that stand elsewhere are not found. Those that an
    /// index of the same number of entries and the same size gave back stand where they are looked for. Which bucket a key has may
    /// change with the version of this crate.
    #[must_use]
    pub fn filled_elsewhere(entries: E, size: usize) -> Self {
        let buckets = entries.as_ref().len().checked_div(size).unwrap_or(0);
        BucketIndex {
            entries,
            size: if buckets == 0 { 0 } else { size },
            buckets,
        }
    }

    /// The indices of the entries that a key can stand in; none where there is no bucket.
    #[must_use]
    #[inline]
    pub fn bucket(&self, satp: u64, pc: u64) -> Range<usize> {
        // The hash as a fraction of 2^64, times the number of buckets: any number will do, and there is no division.
        let bucket = (u128::from(hash(satp, pc)) * self.buckets as u128) >> 64;
        let start = bucket as usize * self.size;
        start..start + self.size
    }

    /// The first entry in use of the key's bucket that has the key.
    #[must_use]
    #[inline]
    pub fn find(&self, satp: u64, pc: u64) -> Option<Entry> {
        find(&self.entries.as_ref()[self.bucket(satp, pc)], satp, pc)
    }

    /// Puts a block under its key; the index of its entry among all. In the key's bucket, the first entry in use that has the key is
    /// written over, all but its mark; a new key takes the first entry not in use.
    ///
    /// # Errors
    ///
    /// 8, [`InsertRefusal::Full`]: the key is new and every entry of its bucket is in use, or there is no bucket. The entries are as
    /// before. What this means behind a placing stands at [`BlockIndex`](crate::BlockIndex#placing-and-inserting).
    #[inline]
    pub fn insert(
        &mut self,
        satp: u64,
        pc: u64,
        block: NativeBlock,
    ) -> Result<usize, InsertRefusal> {
        let bucket = self.bucket(satp, pc);
        let start = bucket.start;
        let within = insert(&mut self.entries.as_mut()[bucket], satp, pc, block)?;
        Ok(start + within)
    }

    /// Empties all buckets and the store that their blocks stand in, in one call, as
    /// [`BlockIndex::empty`](crate::BlockIndex::empty) does. The marks of entries behind the last whole bucket are cleared, too.
    pub fn empty<S>(&mut self, store: &mut CodeStore<S>) {
        empty(self.entries.as_mut(), &mut store.record);
    }

    /// Drops the blocks that a write of the guest touches, in all buckets and in one call, as
    /// [`BlockIndex::drop_touched`](crate::BlockIndex::drop_touched) does. Entries behind the last whole bucket are dropped, and counted,
    /// with the others.
    #[inline]
    pub fn drop_touched(&mut self, address: u64, n: u64) -> usize {
        drop_touched(self.entries.as_mut(), address, n)
    }

    /// All entries, those not in use too, bucket behind bucket.
    #[must_use]
    pub fn entries(&self) -> &[Entry] {
        self.entries.as_ref()
    }

    /// Gives the entries back.
    #[must_use]
    pub fn into_entries(self) -> E {
        self.entries
    }
}

/// A hash whose upper bits, which pick the bucket, depend on all bits of the key. Pcs are even and mostly multiples of 4, and many stand
/// close together: a multiplication carries differences of low bits upwards, and a shift brings those of high bits down before the next
/// one carries them up again. Each step can be undone, so two pcs of one `satp` never have the same hash.
#[inline]
fn hash(satp: u64, pc: u64) -> u64 {
    let key = satp.wrapping_mul(0x9E37_79B9_7F4A_7C15) ^ pc;
    let once = (key ^ key >> 32).wrapping_mul(0xFF51_AFD7_ED55_8CCD);
    (once ^ once >> 32).wrapping_mul(0xC4CE_B9FE_1A85_EC53)
}
