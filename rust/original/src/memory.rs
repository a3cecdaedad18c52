//! What a hart fetches from: a run of halfwords, or memory with page tables in it.

use crate::bus::{AccessType, Bus, BusStats};
use crate::trap::Trap;

/// The accesses that translation does not make.
macro_rules! no_other_access {
    ($($read:ident $write:ident $number:ty),*) => {
        $(
            fn $read(&mut self, _: usize, _: u64, _: AccessType) -> Result<$number, Trap> {
                unreachable!()
            }

            fn $write(&mut self, _: usize, _: u64, _: $number, _: AccessType) -> Result<(), Trap> {
                unreachable!()
            }
        )*

        fn stats(&self) -> &BusStats {
            unreachable!()
        }

        fn stats_mut(&mut self) -> &mut BusStats {
            unreachable!()
        }
    };
}

/// Halfword k stands at start + 2k, modulo 2^64; fetching any other traps.
pub(crate) struct Run<'a> {
    pub(crate) start: u64,
    pub(crate) halfwords: &'a [u16],
}

impl Bus for Run<'_> {
    fn read_u16(&mut self, _hart: usize, addr: u64, kind: AccessType) -> Result<u16, Trap> {
        assert_eq!(kind, AccessType::Fetch);
        let index = addr.wrapping_sub(self.start) / 2;
        usize::try_from(index)
            .ok()
            .and_then(|index| self.halfwords.get(index).copied())
            .ok_or(Trap::MemoryOutOfBounds { addr, size: 2 })
    }

    fn write_u16(&mut self, _: usize, _: u64, _: u16, _: AccessType) -> Result<(), Trap> {
        unreachable!()
    }

    no_other_access!(read_u8 write_u8 u8, read_u32 write_u32 u32, read_u64 write_u64 u64);
}

/// An access of a translation, at a physical address.
#[derive(Clone, Copy, Debug, PartialEq, Eq)]
pub enum Access {
    /// A halfword is fetched.
    Fetch(u64),
    /// A page table's entry is read.
    ReadEntry(u64),
    /// A page table's entry is written.
    WriteEntry(u64, u64),
}

/// The guest's memory. Any access outside it traps.
#[derive(Clone)]
pub struct Memory {
    /// The physical address of the first byte.
    pub base: u64,
    pub bytes: Vec<u8>,
    /// The accesses so far, where they are noted.
    pub accesses: Option<Vec<Access>>,
}

impl Memory {
    /// Zeros, accesses noted.
    pub fn new(base: u64, length: usize) -> Self {
        Memory {
            base,
            bytes: vec![0; length],
            accesses: Some(Vec::new()),
        }
    }

    pub fn write(&mut self, addr: u64, bytes: &[u8]) {
        let at = (addr - self.base) as usize;
        self.bytes[at..at + bytes.len()].copy_from_slice(bytes);
    }

    fn note(&mut self, access: Access) {
        if let Some(accesses) = &mut self.accesses {
            accesses.push(access);
        }
    }

    fn place(&self, addr: u64, size: u64) -> Result<usize, Trap> {
        let trap = Trap::MemoryOutOfBounds { addr, size };
        let at = addr.checked_sub(self.base).ok_or(trap)?;
        let length = self.bytes.len() as u64;
        if at > length || length - at < size {
            return Err(trap);
        }
        Ok(at as usize)
    }
}

impl Bus for Memory {
    fn read_u16(&mut self, _hart: usize, addr: u64, kind: AccessType) -> Result<u16, Trap> {
        assert_eq!(kind, AccessType::Fetch);
        self.note(Access::Fetch(addr));
        let at = self.place(addr, 2)?;
        Ok(u16::from_le_bytes(
            self.bytes[at..at + 2].try_into().unwrap(),
        ))
    }

    fn read_u64(&mut self, _hart: usize, addr: u64, kind: AccessType) -> Result<u64, Trap> {
        assert_eq!(kind, AccessType::Debug);
        self.note(Access::ReadEntry(addr));
        let at = self.place(addr, 8)?;
        Ok(u64::from_le_bytes(
            self.bytes[at..at + 8].try_into().unwrap(),
        ))
    }

    fn write_u64(
        &mut self,
        _hart: usize,
        addr: u64,
        value: u64,
        kind: AccessType,
    ) -> Result<(), Trap> {
        assert_eq!(kind, AccessType::Debug);
        self.note(Access::WriteEntry(addr, value));
        let at = self.place(addr, 8)?;
        self.bytes[at..at + 8].copy_from_slice(&value.to_le_bytes());
        Ok(())
    }

    fn write_u16(&mut self, _: usize, _: u64, _: u16, _: AccessType) -> Result<(), Trap> {
        unreachable!()
    }

    no_other_access!(read_u8 write_u8 u8, read_u32 write_u32 u32);
}
