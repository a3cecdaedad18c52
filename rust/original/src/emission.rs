//! A child of the module of jit_amd64.rs, in the build of the original alone: its emitting functions, and the walk of
//! `compile_native_block` without bus, maps and store, which is repeated here for the benchmark.
#![warn(unused)]

use super::*;

impl Hart {
    /// The walk of `compile_native_block`, by the original's own emitting functions, from a slice and into a vector that keeps its
    /// capacity. The count, 0 where the first word is not taken.
    #[inline(never)]
    pub(crate) fn compare_emit(
        &self,
        start: u64,
        limit: u32,
        halfwords: &[u16],
        bytes: &mut Vec<u8>,
    ) -> u32 {
        let mut em = X64Emitter {
            bytes: std::mem::take(bytes),
        };
        em.bytes.clear();
        let limit = limit.min(64);
        let mut pc = start;
        let mut emitted = 0;
        let mut terminated = false;
        let mut helper_terminator = false;
        Self::x64_emit_prologue(&mut em);
        while emitted < limit {
            let k = (pc.wrapping_sub(start) >> 1) as usize;
            let Some(&low) = halfwords.get(k) else {
                break;
            };
            if low & 3 != 3 {
                self.emit_native_term_helper16_x64(&mut em, pc, low, emitted);
                helper_terminator = true;
                emitted += 1;
                break;
            }
            let Some(&high) = halfwords.get(k + 1) else {
                break;
            };
            let instr = (high as u32) << 16 | low as u32;
            let d = Self::decode32(instr);
            let Some(flow) = self.emit_native_instr_x64(&mut em, pc, instr, d) else {
                if self.emit_native_term_mem_helper_x64(&mut em, pc, instr, emitted) {
                    helper_terminator = true;
                    emitted += 1;
                }
                break;
            };
            pc = pc.wrapping_add(4);
            emitted += 1;
            if flow == X64EmitFlow::Terminate {
                terminated = true;
                break;
            }
        }
        if emitted > 0 && !helper_terminator {
            if !terminated {
                em.mov_r64_imm64(X64Emitter::RAX, pc);
            }
            em.mov_r64_imm64(X64Emitter::RDX, emitted as u64);
            Self::x64_emit_epilogue(&mut em);
        }
        *bytes = em.finish();
        emitted
    }

    /// What becomes of a word: 0 nothing, 1 the block goes on, 2 the word ends it, 3 the memory helper does.
    pub(crate) fn compare_kind(&self, word: u32, bytes: &mut Vec<u8>) -> u32 {
        let mut em = X64Emitter {
            bytes: std::mem::take(bytes),
        };
        em.bytes.clear();
        let kind = match self.emit_native_instr_x64(&mut em, 0, word, Self::decode32(word)) {
            Some(X64EmitFlow::Continue) => 1,
            Some(X64EmitFlow::Terminate) => 2,
            None if self.emit_native_term_mem_helper_x64(&mut em, 0, word, 0) => 3,
            None => 0,
        };
        *bytes = em.finish();
        kind
    }
}
