//! Memory that may be executed, or that stands at an address of one's choice.

use std::ffi::c_void;

extern "C" {
    fn mmap(
        addr: *mut c_void,
        length: usize,
        protection: i32,
        flags: i32,
        file: i32,
        offset: i64,
    ) -> *mut c_void;
}

const PRIVATE_ANONYMOUS: i32 = 0x22;

/// A new mapping, at an address if one is given.
fn mapped(address: usize, length: usize, protection: i32, flags: i32) -> &'static mut [u8] {
    // SAFETY: A new mapping that nothing else knows of, over no other, and that is never unmapped.
    unsafe {
        let memory = mmap(address as *mut c_void, length, protection, flags, -1, 0);
        assert_ne!(memory as isize, -1, "no such memory");
        std::slice::from_raw_parts_mut(memory.cast(), length)
    }
}

/// Memory that can be read, written and executed.
pub fn executable(length: usize) -> &'static mut [u8] {
    const READ_WRITE_EXECUTE: i32 = 7;
    mapped(0, length, READ_WRITE_EXECUTE, PRIVATE_ANONYMOUS)
}

/// Memory that stands at an address.
pub fn memory_at(address: usize, length: usize) -> &'static mut [u8] {
    const READ_WRITE: i32 = 3;
    const FIXED_NOREPLACE: i32 = 0x10_0000;
    let memory = mapped(
        address,
        length,
        READ_WRITE,
        PRIVATE_ANONYMOUS | FIXED_NOREPLACE,
    );
    assert_eq!(memory.as_ptr() as usize, address);
    memory
}
