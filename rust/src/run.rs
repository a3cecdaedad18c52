//! What becomes of a word and of a compressed halfword, and the halfwords that a translation needs.

use crate::archive;
use crate::MOST_STEPS;
use core::ops::Deref;

/// What becomes of a word: document 01, "Words taken", numbered as document 02 does at Q-9.
#[derive(Clone, Copy, Debug, PartialEq, Eq, Hash)]
pub enum WordKind {
    /// It is not taken, neither translated nor handed to a helper: a block ends before it.
    NotTaken = 0,
    /// The block goes on behind it.
    Straight = 1,
    /// A jump, a branch or FENCE.I: it ends its block.
    Ending = 2,
    /// A load or store: the memory helper executes it, and ends the block.
    MemoryHelper = 3,
}

/// What becomes of a word of 32 bits. One whose low two bits are not 3 is none, and not taken.
///
/// ```
/// use emuko_x64_blocks::{word_kind, WordKind};
///
/// assert_eq!(word_kind(0x0050_0093), WordKind::Straight); // ADDI x1, x0, 5
/// assert_eq!(word_kind(0x0220_C1B3), WordKind::Straight); // DIV x3, x1, x2
/// assert_eq!(word_kind(0x0000_000F), WordKind::Straight); // FENCE
/// assert_eq!(word_kind(0xFE20_9CE3), WordKind::Ending); // BNE x1, x2, -8
/// assert_eq!(word_kind(0x0000_100F), WordKind::Ending); // FENCE.I
/// assert_eq!(word_kind(0x0000_B083), WordKind::MemoryHelper); // LD x1, 0(x1)
/// assert_eq!(word_kind(0x0000_0073), WordKind::NotTaken); // ECALL
/// assert_eq!(word_kind(0x0000_8067), WordKind::Ending); // JALR x0, 0(x1)
/// assert_eq!(word_kind(0x0000_9067), WordKind::NotTaken); // the same with funct3 1, which is reserved
/// ```
#[must_use]
#[inline]
pub fn word_kind(instr: u32) -> WordKind {
    // SAFETY: The function takes and returns a number.
    match unsafe { archive::emuko_word_kind(instr) } {
        0 => WordKind::NotTaken,
        1 => WordKind::Straight,
        2 => WordKind::Ending,
        3 => WordKind::MemoryHelper,
        number => unreachable!("no word's kind is {number}"),
    }
}

/// The word that a compressed halfword is translated as, in line: its expansion by the RISC-V manual's chapter "C", hints included, where
/// that is [straight](WordKind::Straight) or [ending](WordKind::Ending). It still has 2 bytes of the guest's code: where its block goes on,
/// and what it links to, is 2 behind its pc.
///
/// None for all others, which the [halfword helper](crate::Helpers::halfword) executes: loads and stores, floating point, C.EBREAK, and what
/// the manual reserves. None too for a halfword whose low two bits are 3: it is the first of a word.
///
/// ```
/// use emuko_x64_blocks::expansion;
///
/// assert_eq!(expansion(0x852E), Some(0x00B0_0533)); // C.MV a0, a1: ADD x10, x0, x11
/// assert_eq!(expansion(0x0001), Some(0x0000_0013)); // C.NOP: ADDI x0, x0, 0
/// assert_eq!(expansion(0xC111), Some(0x0005_0263)); // C.BEQZ a0, 4: BEQ x10, x0, 4
/// assert_eq!(expansion(0x9082), Some(0x0000_80E7)); // C.JALR ra: JALR x1, 0(x1)
/// assert_eq!(expansion(0x4108), None); // C.LW a0, 0(a0)
/// assert_eq!(expansion(0x9002), None); // C.EBREAK
/// assert_eq!(expansion(0x0000), None); // reserved
/// assert_eq!(expansion(0x0093), None); // the lower half of ADDI x1, x0, 5
/// ```
#[must_use]
#[inline]
pub fn expansion(halfword: u16) -> Option<u32> {
    // SAFETY: The function takes and returns a number.
    match unsafe { archive::emuko_expand(halfword) } {
        0 => None,
        word => Some(word),
    }
}

/// Where a block goes on behind a word: at the next instruction, if the word is straight.
#[inline]
fn goes_on(word: u32, next: u64) -> Option<u64> {
    (word_kind(word) == WordKind::Straight).then_some(next)
}

/// The guest's code from an address on, no more of it than a translation needs.
///
/// A translation of these halfwords is the translation of all that could have been fetched (`needs_no_more`, proved in the
/// repository's crate agreement).
#[derive(Clone, Debug)]
pub struct Run {
    halfwords: [u16; 2 * MOST_STEPS as usize],
    length: usize,
}

impl Run {
    /// A run of no halfwords.
    #[must_use]
    #[inline]
    pub const fn new() -> Self {
        Run {
            halfwords: [0; 2 * MOST_STEPS as usize],
            length: 0,
        }
    }

    /// Fetches halfword by halfword from `start` on, each by a call of `fetch` with its address. None is fetched behind a word that is not
    /// [straight](WordKind::Straight), such as FENCE.I, behind a compressed instruction whose [`expansion`] is none or not straight, or
    /// behind `limit` instructions; none at all where the limit is 0 or the start odd, which [`translate`](crate::translate) refuses. What
    /// the run held before is gone.
    ///
    /// ```
    /// use emuko_x64_blocks::Run;
    ///
    /// // ADDI, C.NOP, then a jump; what stands behind it is not asked for.
    /// let memory = [0x0093, 0x0050, 0x0001, 0x006F, 0x0000, 0x0093];
    /// let mut run = Run::new();
    /// run.fetch(0x8000_0000, 64, |address| {
    ///     memory.get((address - 0x8000_0000) as usize / 2).copied().ok_or("nothing stands there")
    /// })?;
    /// assert_eq!(*run, memory[..5]);
    /// # Ok::<(), &str>(())
    /// ```
    ///
    /// # Errors
    ///
    /// What `fetch` answers for a halfword of the first instruction. A later one ends the run, as it ends the block.
    #[inline]
    pub fn fetch<E>(
        &mut self,
        start: u64,
        limit: u32,
        mut fetch: impl FnMut(u64) -> Result<u16, E>,
    ) -> Result<(), E> {
        self.length = 0;
        if start % 2 != 0 {
            return Ok(());
        }
        let mut pc = start;
        for k in 0..limit.min(MOST_STEPS) {
            match self.fetch_instruction(pc, &mut fetch) {
                Ok(Some(next)) => pc = next,
                Err(error) if k == 0 => return Err(error),
                Ok(None) | Err(_) => break,
            }
        }
        Ok(())
    }

    /// One instruction more; where the block goes on, if it does.
    #[inline]
    fn fetch_instruction<E>(
        &mut self,
        pc: u64,
        fetch: &mut impl FnMut(u64) -> Result<u16, E>,
    ) -> Result<Option<u64>, E> {
        let lower = fetch(pc)?;
        self.push(lower);
        if lower & 3 != 3 {
            let next = pc.wrapping_add(2);
            return Ok(expansion(lower).and_then(|word| goes_on(word, next)));
        }
        let upper = fetch(pc.wrapping_add(2))?;
        self.push(upper);
        let word = u32::from(upper) << 16 | u32::from(lower);
        Ok(goes_on(word, pc.wrapping_add(4)))
    }

    #[inline]
    fn push(&mut self, halfword: u16) {
        self.halfwords[self.length] = halfword;
        self.length += 1;
    }
}

impl Default for Run {
    fn default() -> Self {
        Run::new()
    }
}

impl Deref for Run {
    type Target = [u16];

    #[inline]
    fn deref(&self) -> &[u16] {
        &self.halfwords[..self.length]
    }
}
