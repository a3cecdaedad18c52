//! How a block is entered, and how it calls its helper: both by the x86-64 psABI.

use core::ffi::c_void;

/// What a block, or a helper, returns: RAX and RDX.
#[repr(C)]
#[derive(Clone, Copy, Debug, Default, PartialEq, Eq, Hash)]
pub struct BlockResult {
    /// The guest's next pc.
    pub next_pc: u64,
    /// The number of guest instructions executed. A block with a helper end adds its earlier ones to what the helper returned.
    pub executed: u64,
}

/// A block as a function. [`block_fn`] makes one of its address.
///
/// `regs` is the address of the 32 guest registers, 8 bytes each, the first of them 0. The next three arguments go on to a helper, and
/// the last two are not used.
pub type BlockFn = unsafe extern "C" fn(
    regs: *mut u64,
    hart: *mut c_void,
    bus_data: *mut c_void,
    bus_vtable: *mut c_void,
    sbi_data: *mut c_void,
    sbi_vtable: *mut c_void,
) -> BlockResult;

/// A helper: it executes one guest instruction, which stands at `pc`.
///
/// The guest's registers are then in the slots that the block was entered with. It may change them, but not x0.
pub type HelperFn = unsafe extern "C" fn(
    hart: *mut c_void,
    bus_data: *mut c_void,
    bus_vtable: *mut c_void,
    instruction: u64,
    pc: u64,
) -> BlockResult;

/// The addresses that helper ends call, each that of a [`HelperFn`].
#[derive(Clone, Copy, Debug, Default, PartialEq, Eq, Hash)]
pub struct Helpers {
    /// Called for a compressed halfword that has no [`expansion`](crate::expansion).
    pub halfword: u64,
    /// Called for a load or store.
    pub memory: u64,
}

impl Helpers {
    /// The addresses of two functions.
    #[must_use]
    pub fn new(halfword: HelperFn, memory: HelperFn) -> Self {
        Helpers {
            halfword: halfword as usize as u64,
            memory: memory as usize as u64,
        }
    }
}

/// The block whose first byte stands at `code`, as a function.
///
/// ```
/// use emuko_x64_blocks::{block_fn, translate, BlockResult, CodeStore, Request, GREATEST_BLOCK};
/// use std::ptr::null_mut;
/// # extern "C" {
/// #     fn mmap(addr: *mut u8, length: usize, protection: i32, flags: i32, file: i32, offset: i64) -> *mut u8;
/// # }
/// # fn executable(length: usize) -> &'static mut [u8] {
/// #     let memory = unsafe { mmap(null_mut(), length, 7, 0x22, -1, 0) };
/// #     assert_ne!(memory as isize, -1);
/// #     unsafe { std::slice::from_raw_parts_mut(memory, length) }
/// # }
///
/// // ADDI x1, x0, 5
/// let mut out = [0; GREATEST_BLOCK];
/// let block = translate(&Request::new(0x8000_0000, &[0x0093, 0x0050]), &mut out)?;
/// // Memory that may be written and executed, from mmap.
/// let mut store = CodeStore::new(executable(4096));
/// let offset = store.place(block.bytes())?.offset;
///
/// let mut regs = [0; 32];
/// // SAFETY: The block stands there whole, and it has no helper end.
/// let result = unsafe {
///     let enter = block_fn(store.bytes()[offset..].as_ptr());
///     enter(regs.as_mut_ptr(), null_mut(), null_mut(), null_mut(), null_mut(), null_mut())
/// };
/// assert_eq!(result, BlockResult { next_pc: 0x8000_0004, executed: 1 });
/// assert_eq!(regs[1], 5);
/// # Ok::<(), Box<dyn std::error::Error>>(())
/// ```
///
/// What the block does is what the guest's code says only while the bytes that it [spans](crate::Block::span) are unchanged
/// (["Code that changes"](crate#code-that-changes)); a block whose code has changed there does what the old code said.
///
/// # Safety
///
/// At `code` a whole block must stand, as it was translated, in memory that may be executed, for as long as the function is called.
/// Whoever calls it passes 32 registers, the first of them 0; where the block has a helper end, the address that its [`Helpers`] gave
/// must be that of a [`HelperFn`] that can be called with the arguments passed.
#[must_use]
pub unsafe fn block_fn(code: *const u8) -> BlockFn {
    // SAFETY: A pointer to code and a function pointer are the same on x86-64; the rest is the caller's.
    unsafe { core::mem::transmute::<*const u8, BlockFn>(code) }
}
