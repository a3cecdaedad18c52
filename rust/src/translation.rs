//! Translation: a run of halfwords becomes a block at the front of an output.

use crate::archive;
use crate::{Helpers, GREATEST_BLOCK, MOST_STEPS};
use core::error::Error;
use core::fmt;

/// What is to be translated.
#[derive(Clone, Copy, Debug, PartialEq, Eq, Hash)]
#[non_exhaustive]
pub struct Request<'a> {
    /// The address of the first halfword. Addresses go on from 2^64 - 1 to 0.
    pub start: u64,
    /// The greatest number of guest instructions to take; [`MOST_STEPS`] where it is more than that.
    pub limit: u32,
    /// The guest's code from `start` on, as far as it can be fetched, or a [`Run`](crate::Run) of it. The block may be entered as long
    /// as the bytes of it that the block [spans](Block::span) are still the guest's code there
    /// (["Code that changes"](crate#code-that-changes)).
    pub halfwords: &'a [u16],
    /// The addresses that helper ends call.
    pub helpers: Helpers,
}

impl<'a> Request<'a> {
    /// A request for as many instructions as a block can have, both helpers 0. Such a block must not be entered if it has a helper end.
    ///
    /// ```
    /// use emuko_x64_blocks::{Helpers, Request, MOST_STEPS};
    ///
    /// let request = Request::new(0, &[0x0001]);
    /// assert_eq!(request.limit, MOST_STEPS);
    /// let one = request.limit(1).helpers(Helpers { halfword: 0x1000, memory: 0x2000 });
    /// assert_eq!((one.limit, one.halfwords), (1, &[0x0001][..]));
    /// ```
    #[must_use]
    #[inline]
    pub fn new(start: u64, halfwords: &'a [u16]) -> Self {
        Request {
            start,
            limit: MOST_STEPS,
            halfwords,
            helpers: Helpers::default(),
        }
    }

    /// The same with another limit.
    #[must_use]
    #[inline]
    pub fn limit(mut self, limit: u32) -> Self {
        self.limit = limit;
        self
    }

    /// The same with other helpers.
    #[must_use]
    #[inline]
    pub fn helpers(mut self, helpers: Helpers) -> Self {
        self.helpers = helpers;
        self
    }
}

/// A block at the front of the output that was lent for it.
#[derive(Clone, Copy, Debug, PartialEq, Eq, Hash)]
pub struct Block<'o> {
    bytes: &'o [u8],
    count: u32,
    span: u64,
}

impl<'o> Block<'o> {
    /// The block's bytes, from [`LEAST_BLOCK`](crate::LEAST_BLOCK) to [`GREATEST_BLOCK`] of them.
    #[must_use]
    #[inline]
    pub fn bytes(&self) -> &'o [u8] {
        self.bytes
    }

    /// The number of guest instructions in it, whatever their size, the one that a helper executes included; from 1 to [`MOST_STEPS`].
    #[must_use]
    #[inline]
    pub fn count(&self) -> u32 {
        self.count
    }

    /// How many bytes of the guest's code the block spans, from its start on: the sizes of the instructions that it counts, added up. A
    /// word has 4 bytes and a compressed halfword 2, whoever executes them. From 2 to [`MOST_SPAN`](crate::MOST_SPAN).
    ///
    /// What a block ends before is not counted and not spanned: a word that is not taken, a halfword that is missing, whatever stands
    /// behind the limit. Such code may change, and the block may still be entered; once one of the bytes that it spans has changed, it may
    /// not (["Code that changes"](crate#code-that-changes)).
    ///
    /// ```
    /// use emuko_x64_blocks::{translate, Refusal, Request, GREATEST_BLOCK};
    ///
    /// let mut out = [0; GREATEST_BLOCK];
    /// let mut span = |run: &[u16]| translate(&Request::new(0x8000_0000, run), &mut out).map(|block| block.span());
    /// // ADDI x1, x0, 5; then C.NOP; C.LW a0, 0(a0); LD x1, 0(x1); a branch with funct3 2, which is not taken; the first half of a word.
    /// assert_eq!(span(&[0x0093, 0x0050, 0x0001])?, 6);
    /// assert_eq!(span(&[0x0093, 0x0050, 0x4108])?, 6);
    /// assert_eq!(span(&[0x0093, 0x0050, 0xB083, 0x0000])?, 8);
    /// assert_eq!(span(&[0x0093, 0x0050, 0x2063, 0x0000])?, 4);
    /// assert_eq!(span(&[0x0093, 0x0050, 0x0093])?, 4);
    /// # Ok::<(), Refusal>(())
    /// ```
    #[must_use]
    #[inline]
    pub fn span(&self) -> u64 {
        self.span
    }
}

/// Why there is no block. The output is then as before.
///
/// They are tested in this order.
#[derive(Clone, Copy, Debug, PartialEq, Eq, Hash)]
#[non_exhaustive]
pub enum Refusal {
    /// 1: the limit is 0.
    LimitZero,
    /// 2: the start, given here, is odd.
    OddStart(u64),
    /// 3: the first instruction lacks its halfword of this index, 0 or 1.
    MissingHalfword(u8),
    /// 4: the first word, given here, is not taken: neither translated nor handed to a helper.
    NotTaken(u32),
    /// 5: the output has fewer than [`GREATEST_BLOCK`] bytes, however short this block would be.
    OutputTooShort,
}

impl Refusal {
    /// The number of the refusal, 1 to 5.
    ///
    /// ```
    /// use emuko_x64_blocks::{translate, Request};
    ///
    /// // ECALL is not taken.
    /// let refusal = translate(&Request::new(0x8000_0000, &[0x0073, 0x0000]), &mut []).unwrap_err();
    /// assert_eq!(refusal.number(), 4);
    /// assert_eq!(refusal.to_string(), "the first word, 0x00000073, is not taken");
    /// ```
    #[must_use]
    pub fn number(&self) -> u8 {
        match self {
            Refusal::LimitZero => 1,
            Refusal::OddStart(_) => 2,
            Refusal::MissingHalfword(_) => 3,
            Refusal::NotTaken(_) => 4,
            Refusal::OutputTooShort => 5,
        }
    }
}

impl fmt::Display for Refusal {
    fn fmt(&self, f: &mut fmt::Formatter<'_>) -> fmt::Result {
        match self {
            Refusal::LimitZero => write!(f, "the limit is 0"),
            Refusal::OddStart(start) => write!(f, "the start, {start:#x}, is odd"),
            Refusal::MissingHalfword(index) => {
                write!(f, "the first instruction lacks halfword {index}")
            }
            Refusal::NotTaken(word) => {
                write!(f, "the first word, {word:#010x}, is not taken")
            }
            Refusal::OutputTooShort => {
                write!(f, "the output has fewer than {GREATEST_BLOCK} bytes")
            }
        }
    }
}

impl Error for Refusal {}

/// By which rules the archive translates: a number that grows with every change to what a run is translated to. It is 7 where compressed
/// instructions are translated as the words that they expand to ([`expansion`](crate::expansion)).
///
/// An index of blocks that was made under other rules is to be emptied: [An index made before](crate#an-index-made-before).
#[must_use]
#[inline]
pub fn rules() -> u32 {
    // SAFETY: The function takes nothing and returns a number.
    unsafe { archive::emuko_rules() }
}

/// Translates a run of halfwords into a block at the front of `out`. Behind the block, and everywhere if refused, `out` is as before.
///
/// ```
/// use emuko_x64_blocks::{translate, Refusal, Request, GREATEST_BLOCK};
///
/// let mut out = [0xAA; GREATEST_BLOCK + 1];
/// // JAL x0, 0
/// let block = translate(&Request::new(0x8000_0000, &[0x006F, 0x0000]), &mut out)?;
/// assert_eq!(block.bytes().len(), 67);
/// assert!(out[67..].iter().all(|byte| *byte == 0xAA));
///
/// assert_eq!(translate(&Request::new(3, &[]), &mut out), Err(Refusal::OddStart(3)));
/// # Ok::<(), Refusal>(())
/// ```
///
/// # Errors
///
/// The [`Refusal`] that document 01's table of replies has for the request: a limit of 0, an odd start, a first instruction that is
/// missing or not taken, an output of fewer than [`GREATEST_BLOCK`] bytes.
#[inline]
pub fn translate<'o>(request: &Request<'_>, out: &'o mut [u8]) -> Result<Block<'o>, Refusal> {
    let halfwords = request.halfwords;
    // SAFETY: The function reads `halfwords_len` halfwords and writes no more than `out_len` bytes; both pointers come from slices of
    // these lengths that live during the call, and `out` is lent to it alone. A slice's pointer is aligned and not null even where
    // the slice is empty. It keeps no pointer and returns a plain structure.
    let reply = unsafe {
        archive::emuko_translate(
            request.start,
            request.limit,
            halfwords.as_ptr(),
            halfwords.len(),
            request.helpers.halfword,
            request.helpers.memory,
            out.as_mut_ptr(),
            out.len(),
        )
    };
    match reply.number {
        0 => Ok(Block {
            bytes: &out[..reply.first as usize],
            count: reply.second as u32,
            span: reply.third,
        }),
        1 => Err(Refusal::LimitZero),
        2 => Err(Refusal::OddStart(reply.first)),
        3 => Err(Refusal::MissingHalfword(reply.first as u8)),
        4 => Err(Refusal::NotTaken(reply.first as u32)),
        5 => Err(Refusal::OutputTooShort),
        number => unreachable!("translation has no reply {number}"),
    }
}
