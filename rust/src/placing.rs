//! Placing: code goes into a store, behind what is in use there.

use crate::archive;
use core::error::Error;
use core::fmt;

/// Where code was placed.
#[derive(Clone, Copy, Debug, PartialEq, Eq, Hash)]
#[non_exhaustive]
pub struct Placed {
    /// Where the code begins in the store, a multiple of 4.
    pub offset: usize,
    /// The new mark: the end of the code.
    pub mark: usize,
}

/// Why code was not placed. Store and mark are then as before.
///
/// They are tested in this order.
#[derive(Clone, Copy, Debug, PartialEq, Eq, Hash)]
#[non_exhaustive]
pub enum PlaceRefusal {
    /// 6: the mark lies beyond the store's end.
    MarkBeyondStore,
    /// 7: the mark, rounded up to a multiple of 4, and the code's length together lie beyond the store's end.
    Full,
}

impl PlaceRefusal {
    /// The number of the refusal, 6 or 7.
    #[must_use]
    pub fn number(&self) -> u8 {
        match self {
            PlaceRefusal::MarkBeyondStore => 6,
            PlaceRefusal::Full => 7,
        }
    }
}

impl fmt::Display for PlaceRefusal {
    fn fmt(&self, f: &mut fmt::Formatter<'_>) -> fmt::Result {
        match self {
            PlaceRefusal::MarkBeyondStore => write!(f, "the mark lies beyond the store's end"),
            PlaceRefusal::Full => write!(f, "the store has no room for the code"),
        }
    }
}

impl Error for PlaceRefusal {}

/// Copies `code` into `store` behind the mark `used`, at a multiple of 4. All else in `store` is as before.
///
/// [`CodeStore`] keeps the mark for the caller.
///
/// ```
/// use emuko_x64_blocks::{place, PlaceRefusal};
///
/// let placed = place(&[1; 67], &mut [0; 75], 5)?;
/// assert_eq!((placed.offset, placed.mark), (8, 75));
/// assert_eq!(place(&[1; 67], &mut [0; 74], 5), Err(PlaceRefusal::Full));
/// assert_eq!(place(&[], &mut [0; 5], 6), Err(PlaceRefusal::MarkBeyondStore));
/// # Ok::<(), PlaceRefusal>(())
/// ```
///
/// # Errors
///
/// The [`PlaceRefusal`] that document 01's table of replies has: a mark beyond the store, a store without room.
#[inline]
pub fn place(code: &[u8], store: &mut [u8], used: usize) -> Result<Placed, PlaceRefusal> {
    // SAFETY: The function reads `code_len` bytes and writes no more than `store_len` bytes; both pointers come from slices of these
    // lengths that live during the call, `store` is lent to it alone, so the two do not overlap. A slice's pointer is aligned and
    // not null even where the slice is empty. It keeps no pointer and returns a plain structure.
    let reply = unsafe {
        archive::emuko_place(
            code.as_ptr(),
            code.len(),
            store.as_mut_ptr(),
            store.len(),
            used,
        )
    };
    match reply.number {
        0 => Ok(Placed {
            offset: reply.first as usize,
            mark: reply.second as usize,
        }),
        6 => Err(PlaceRefusal::MarkBeyondStore),
        7 => Err(PlaceRefusal::Full),
        number => unreachable!("placing has no reply {number}"),
    }
}

/// A store of code and its mark. The bytes are owned or borrowed: a `Vec<u8>`, a `&mut [u8]` over executable memory.
///
/// ```
/// use emuko_x64_blocks::{CodeStore, PlaceRefusal};
///
/// let mut store = CodeStore::new(vec![0; 12]);
/// assert_eq!(store.place(&[1, 2, 3, 4, 5])?.offset, 0);
/// assert_eq!(store.place(&[6, 7])?.offset, 8);
/// assert_eq!(store.bytes(), [1, 2, 3, 4, 5, 0, 0, 0, 6, 7, 0, 0]);
/// assert_eq!(store.place(&[8]), Err(PlaceRefusal::Full));
/// store.clear();
/// assert_eq!(store.place(&[8])?.mark, 1);
/// # Ok::<(), PlaceRefusal>(())
/// ```
#[derive(Clone, Debug)]
pub struct CodeStore<S> {
    bytes: S,
    /// The mark, in the record that emptying an index is lent.
    pub(crate) record: archive::CodeCache,
}

impl<S: AsRef<[u8]> + AsMut<[u8]>> CodeStore<S> {
    /// A store with nothing placed in it.
    #[must_use]
    pub fn new(bytes: S) -> Self {
        CodeStore::with_mark(bytes, 0)
    }

    /// A store that is in use up to the mark. A mark beyond the store is refused when code is placed.
    #[must_use]
    pub fn with_mark(bytes: S, mark: usize) -> Self {
        CodeStore {
            bytes,
            record: archive::CodeCache { used: mark },
        }
    }

    /// Copies the code into the store and moves the mark behind it.
    ///
    /// # Errors
    ///
    /// As [`place`]; store and mark are then as before.
    pub fn place(&mut self, code: &[u8]) -> Result<Placed, PlaceRefusal> {
        let placed = place(code, self.bytes.as_mut(), self.record.used)?;
        self.record.used = placed.mark;
        Ok(placed)
    }

    /// Sets the mark to 0; the bytes stay as they are. An index of blocks in this store still shows them then:
    /// [`BlockIndex::empty`](crate::BlockIndex::empty) empties both.
    pub fn clear(&mut self) {
        self.record.used = 0;
    }

    /// The end of what is in use.
    #[must_use]
    pub fn mark(&self) -> usize {
        self.record.used
    }

    /// All bytes of the store.
    #[must_use]
    pub fn bytes(&self) -> &[u8] {
        self.bytes.as_ref()
    }

    /// Gives the bytes back.
    #[must_use]
    pub fn into_bytes(self) -> S {
        self.bytes
    }
}
