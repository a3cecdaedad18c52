// `compile_native_block` over the crate emuko_x64_blocks: here the guest's code is fetched and the block is kept, there it is written.
use super::*;
use emuko_x64_blocks::{translate, Helpers, Refusal, Request, Run};

impl Hart {
    pub(super) fn compile_native_block(
        &mut self,
        bus: &mut impl Bus,
        max_steps: u32,
    ) -> Result<Option<NativeBlock>, Trap> {
        if !self.native_jit.enabled {
            return Ok(None);
        }
        let pc = self.pc;
        if self.native_jit_trace {
            eprintln!("jit-x64: compile-enter pc=0x{pc:016x} max_steps={max_steps}");
        }
        let mut run = Run::new();
        let fetch = |addr| self.read_u16(bus, addr, AccessType::Fetch);
        // A trap in the first instruction is the guest's; a later one ends the block.
        if let Err(trap) = run.fetch(pc, max_steps, fetch) {
            if self.native_jit_trace {
                eprintln!("jit-x64: skip pc=0x{pc:016x} fetch-trap={trap:?}");
            }
            return Err(trap);
        }
        self.compile_native_run(&run, max_steps)
    }

    fn compile_native_run(
        &mut self,
        run: &[u16],
        max_steps: u32,
    ) -> Result<Option<NativeBlock>, Trap> {
        let (satp, pc) = (self.satp_cached, self.pc);
        let helpers = Helpers {
            halfword: Self::native_exec16_term_helper_x64 as *const () as u64,
            memory: Self::native_exec_mem_term_helper_x64 as *const () as u64,
        };
        let request = Request::new(pc, run).limit(max_steps).helpers(helpers);
        let block = match translate(&request, &mut self.native_jit.out[..]) {
            Ok(block) => block,
            Err(Refusal::OddStart(addr)) => return Err(Trap::MisalignedAccess { addr, size: 2 }),
            Err(Refusal::NotTaken(instr)) => {
                if self.native_jit_trace {
                    eprintln!("jit-x64: skip pc=0x{pc:016x} unsupported i32=0x{instr:08x}");
                }
                self.native_jit.mark_failed(satp, pc);
                return Ok(None);
            }
            // The limit is 0.
            Err(_) => return Ok(None),
        };
        let instrs = block.count();
        let cache = self.native_jit.cache.as_mut();
        let Some(offset) = cache.and_then(|cache| cache.alloc(block.bytes())) else {
            self.native_jit.enabled = false;
            return Ok(None);
        };
        let block = NativeBlock { offset, instrs };
        self.native_jit.insert(satp, pc, block);
        if self.native_jit_trace {
            self.trace_native_block(run, instrs);
        }
        Ok(Some(block))
    }

    fn trace_native_block(&self, run: &[u16], instrs: u32) {
        eprintln!(
            "jit-x64: compiled hart={} satp=0x{:016x} pc=0x{:016x} instrs={instrs}",
            self.hart_id, self.satp_cached, self.pc
        );
        // An instruction has one halfword or two.
        let mut at = 0;
        for _ in 0..instrs {
            let (pc, lower) = (self.pc.wrapping_add(2 * at as u64), run[at]);
            if lower & 3 == 3 {
                let raw = (run[at + 1] as u32) << 16 | lower as u32;
                let text = disas::disas32(raw);
                eprintln!("  jit-x64:   pc=0x{pc:016x} i32=0x{raw:08x} {text}");
                at += 2;
            } else {
                let text = disas::disas16(lower);
                eprintln!("  jit-x64:   pc=0x{pc:016x} c16=0x{lower:04x} {text}");
                at += 1;
            }
        }
    }
}
