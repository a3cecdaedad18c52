//! A child of the module of jit_amd64.rs, in both builds: it may call what is private there. Nothing of emuko is repeated here.
#![warn(unused)]

use super::*;
use crate::{Answer, Compiled, Memory, Run};

/// The bytes behind a block's last count or call: document 01's closing.
const CLOSING: [u8; 15] = [
    0x48, 0x83, 0xC4, 0x08, 0x41, 0x5F, 0x41, 0x5E, 0x41, 0x5D, 0x41, 0x5C, 0x5D, 0x5B, 0xC3,
];

/// Where the helper's address stands in a block, and whose it is.
enum HelperEnd {
    Halfword(usize),
    Memory(usize),
}

impl Hart {
    pub(crate) fn for_comparison(code_size: usize) -> Hart {
        let mut hart = Hart::new(0, 0);
        // emuko takes these from the environment; a comparison must not depend on it.
        hart.native_jit = NativeJit::new(true, code_size);
        hart.native_jit_trace = false;
        hart.mmu_trace_left = 0;
        hart.mmu_idmap_fallback = false;
        assert!(hart.native_jit.enabled, "no executable memory");
        assert_eq!(hart.satp_cached, 0, "addresses are translated");
        assert_ne!(Self::own_helper16(), Self::own_helper_mem());
        hart
    }

    fn own_helper16() -> u64 {
        Self::native_exec16_term_helper_x64 as *const () as usize as u64
    }

    fn own_helper_mem() -> u64 {
        Self::native_exec_mem_term_helper_x64 as *const () as usize as u64
    }

    /// `compile_native_block` as it is. The block's bytes are read from the store into `bytes`, with the helper's address, which is
    /// emuko's own function, replaced by the one asked for.
    pub(crate) fn compare_translate(
        &mut self,
        run: &mut Run,
        limit: u32,
        helpers: [u64; 2],
        bytes: &mut Vec<u8>,
    ) -> Answer {
        self.native_jit.clear();
        self.pc = run.start;
        let result = self.compile_native_block(run, limit);
        assert!(self.native_jit.enabled, "the store was too small");
        let failed = self.native_jit.is_failed(0, run.start);
        let used = self.native_jit.cache.as_ref().unwrap().used;
        match result {
            Ok(Some(block)) => {
                assert!(!failed && block.offset == 0);
                bytes.clear();
                bytes.extend_from_slice(self.placed(0, used));
                Self::compare_set_helper(bytes, block.instrs, helpers);
                Answer::Block(block.instrs)
            }
            Ok(None) if failed => {
                assert_eq!(used, 0);
                Answer::NotTaken(run.halfwords[0] as u32 | (run.halfwords[1] as u32) << 16)
            }
            Ok(None) => {
                assert_eq!((used, limit), (0, 0));
                Answer::LimitZero
            }
            Err(Trap::MisalignedAccess { addr, size: 2 }) => Answer::OddStart(addr),
            Err(Trap::MemoryOutOfBounds { addr, size: 2 }) => {
                Answer::Missing(addr.wrapping_sub(run.start) / 2)
            }
            Err(trap) => panic!("{trap:?}"),
        }
    }

    /// What stands in the store.
    fn placed(&self, offset: usize, end: usize) -> &[u8] {
        let cache = self.native_jit.cache.as_ref().unwrap();
        assert!(offset <= end && end <= cache.used);
        // SAFETY: alloc has copied bytes to each place below `used`, or the mapping has zeros there.
        unsafe { std::slice::from_raw_parts(cache.ptr_at(offset), end - offset) }
    }

    /// `compile_native_block` from memory. Maps, store and address space are as earlier calls left them.
    pub(crate) fn compare_compile(
        &mut self,
        memory: &mut Memory,
        pc: u64,
        limit: u32,
    ) -> Compiled {
        self.pc = pc;
        let satp = self.satp_cached;
        // As before every translation in `try_run_native_jit`.
        self.native_jit.bump_hot(satp, pc);
        let result = self.compile_native_block(memory, limit);
        let used = self.native_jit.cache.as_ref().unwrap().used;
        let mut bytes = Vec::new();
        if let Ok(Some(block)) = &result {
            bytes.extend_from_slice(self.placed(block.offset, used));
            Self::compare_set_helper(&mut bytes, block.instrs, [0, 0]);
        }
        let numbers = |block: NativeBlock| (block.offset, block.instrs);
        Compiled {
            result: result
                .map(|block| block.map(numbers))
                .map_err(|trap| format!("{trap:?}")),
            bytes,
            used,
            found: self.native_jit.lookup(satp, pc).map(numbers),
            failed: self.native_jit.is_failed(satp, pc),
            hot: self.native_jit.hot.get(&(satp, pc)).copied(),
            enabled: self.native_jit.enabled,
            last_access: format!("{:?}", self.last_access()),
        }
    }

    #[inline(never)]
    pub(crate) fn compare_count(&mut self, memory: &mut Memory, pc: u64, limit: u32) -> u32 {
        self.pc = pc;
        match self.compile_native_block(memory, limit) {
            Ok(Some(block)) => block.instrs,
            _ => 0,
        }
    }

    pub(crate) fn compare_clear(&mut self) {
        self.native_jit.clear();
    }

    pub(crate) fn compare_set_enabled(&mut self, enabled: bool) {
        self.native_jit.enabled = enabled;
    }

    pub(crate) fn compare_set_trace(&mut self, trace: bool) {
        self.native_jit_trace = trace;
    }

    /// The helper's address stands in the ten bytes before the call, and what follows the call is known from the count. A block without
    /// helper end cannot be taken for one: where the call would be, it has bytes of the count.
    fn helper_end(bytes: &[u8], count: u32) -> Option<HelperEnd> {
        let mut end = vec![0xFF, 0xD0];
        if count != 1 {
            end.extend([0x48, 0x81, 0xC2]);
            end.extend((count - 1).to_le_bytes());
        }
        end.extend(CLOSING);
        let call = bytes.len() - end.len();
        let address = call.checked_sub(8)?;
        if bytes[call..] != end || bytes[address - 2..address] != [0x48, 0xB8] {
            return None;
        }
        let helper = u64::from_le_bytes(bytes[address..call].try_into().unwrap());
        if helper == Self::own_helper16() {
            Some(HelperEnd::Halfword(address))
        } else if helper == Self::own_helper_mem() {
            Some(HelperEnd::Memory(address))
        } else {
            panic!("{helper:#x} is called, which is no helper")
        }
    }

    pub(crate) fn compare_set_helper(
        bytes: &mut [u8],
        count: u32,
        [helper16, helper_mem]: [u64; 2],
    ) {
        let (address, helper) = match Self::helper_end(bytes, count) {
            None => return,
            Some(HelperEnd::Halfword(address)) => (address, helper16),
            Some(HelperEnd::Memory(address)) => (address, helper_mem),
        };
        bytes[address..address + 8].copy_from_slice(&helper.to_le_bytes());
    }

    /// `NativeCodeCache::alloc` as it is, over a store that is lent.
    pub(crate) fn compare_place(
        code: &[u8],
        store: &mut [u8],
        used: usize,
    ) -> Option<(usize, usize)> {
        let cache = NativeCodeCache {
            ptr: store.as_mut_ptr(),
            size: store.len(),
            used,
        };
        // Dropping it would unmap the store.
        let mut cache = std::mem::ManuallyDrop::new(cache);
        let offset = cache.alloc(code)?;
        Some((offset, cache.used))
    }

    /// Immediates as signed numbers, then the fields.
    pub(crate) fn compare_decode(word: u32) -> String {
        let d = Self::decode32(word);
        let immediates = [
            Self::imm_i(word),
            Self::imm_s(word),
            Self::imm_b(word),
            Self::imm_u(word),
            Self::imm_j(word),
        ];
        let fields = [d.opcode, d.rd, d.funct3, d.rs1, d.rs2, d.funct7];
        let numbers = immediates.map(|number| number.to_string());
        let fields = fields.map(|field| field.to_string());
        format!("{} {} {}", numbers.join(" "), fields.join(" "), d.imm12)
    }
}
