//! The host's side of an entered block: memory that may be executed, slots and a stack among words that tell their place, registers and
//! flags that hold anything, helpers that note what they find.

use super::mapped::executable;
use super::random::Random;
use emuko_x64_blocks::{CodeStore, Helpers, GREATEST_BLOCK};
use std::mem::offset_of;
use std::ops::Range;
use std::sync::{Mutex, MutexGuard};

/// What the trampoline and the helpers read and write. One static, reached relative to RIP, since no register is free at a block's entry
/// and return.
#[repr(C)]
struct Exchange {
    // Set before an entry.
    code: u64,
    stack: u64,
    arguments: [u64; 6],
    saved: [u64; 6],
    scratch: [u64; 3],
    flags: u64,
    // Found at the block's return.
    rax: u64,
    rdx: u64,
    saved_after: [u64; 6],
    stack_after: u64,
    // The caller's own stack pointer.
    own: u64,
    // What a helper finds: how often each was called, RDI, RSI, RDX, RCX, R8, RSP, RAX, the slots.
    calls: [u64; 2],
    found: [u64; 7],
    slots_found: [u64; 32],
    // What a helper does: slot k becomes (slot k & keep[k]) ^ put[k]; then it returns RAX and RDX.
    slots: u64,
    keep: [u64; 32],
    put: [u64; 32],
    returns: [u64; 2],
}

static mut EXCHANGE: Exchange = Exchange {
    code: 0,
    stack: 0,
    arguments: [0; 6],
    saved: [0; 6],
    scratch: [0; 3],
    flags: 0,
    rax: 0,
    rdx: 0,
    saved_after: [0; 6],
    stack_after: 0,
    own: 0,
    calls: [0; 2],
    found: [0; 7],
    slots_found: [0; 32],
    slots: 0,
    keep: [0; 32],
    put: [0; 32],
    returns: [0; 2],
};

/// Whoever holds it may use the exchange.
static TURN: Mutex<()> = Mutex::new(());

std::arch::global_asm!(
    // Enters the block: its stack, its registers, a jump; the return address on that stack is `emuko_test_back`.
    "emuko_test_enter:",
    "push rbx",
    "push rbp",
    "push r12",
    "push r13",
    "push r14",
    "push r15",
    "mov [rip + {x} + {own}], rsp",
    "push qword ptr [rip + {x} + {flags}]",
    "popfq",
    "mov rsp, [rip + {x} + {stack}]",
    "mov rdi, [rip + {x} + {arguments}]",
    "mov rsi, [rip + {x} + {arguments} + 8]",
    "mov rdx, [rip + {x} + {arguments} + 16]",
    "mov rcx, [rip + {x} + {arguments} + 24]",
    "mov r8, [rip + {x} + {arguments} + 32]",
    "mov r9, [rip + {x} + {arguments} + 40]",
    "mov rbx, [rip + {x} + {saved}]",
    "mov rbp, [rip + {x} + {saved} + 8]",
    "mov r12, [rip + {x} + {saved} + 16]",
    "mov r13, [rip + {x} + {saved} + 24]",
    "mov r14, [rip + {x} + {saved} + 32]",
    "mov r15, [rip + {x} + {saved} + 40]",
    "mov rax, [rip + {x} + {scratch}]",
    "mov r10, [rip + {x} + {scratch} + 8]",
    "mov r11, [rip + {x} + {scratch} + 16]",
    "jmp qword ptr [rip + {x} + {code}]",
    // The block's return.
    "emuko_test_back:",
    "mov [rip + {x} + {rax}], rax",
    "mov [rip + {x} + {rdx}], rdx",
    "mov [rip + {x} + {saved_after}], rbx",
    "mov [rip + {x} + {saved_after} + 8], rbp",
    "mov [rip + {x} + {saved_after} + 16], r12",
    "mov [rip + {x} + {saved_after} + 24], r13",
    "mov [rip + {x} + {saved_after} + 32], r14",
    "mov [rip + {x} + {saved_after} + 40], r15",
    "mov [rip + {x} + {stack_after}], rsp",
    "mov rsp, [rip + {x} + {own}]",
    "pop r15",
    "pop r14",
    "pop r13",
    "pop r12",
    "pop rbp",
    "pop rbx",
    "ret",
    // The helpers. They use no stack, so that what is written there is the block's.
    "emuko_test_helper16:",
    "inc qword ptr [rip + {x} + {calls}]",
    "jmp 2f",
    "emuko_test_helper_mem:",
    "inc qword ptr [rip + {x} + {calls} + 8]",
    "2:",
    "mov [rip + {x} + {found}], rdi",
    "mov [rip + {x} + {found} + 8], rsi",
    "mov [rip + {x} + {found} + 16], rdx",
    "mov [rip + {x} + {found} + 24], rcx",
    "mov [rip + {x} + {found} + 32], r8",
    "mov [rip + {x} + {found} + 40], rsp",
    "mov [rip + {x} + {found} + 48], rax",
    "mov rsi, [rip + {x} + {slots}]",
    "lea rdi, [rip + {x} + {slots_found}]",
    "lea r8, [rip + {x} + {keep}]",
    "lea r9, [rip + {x} + {put}]",
    "xor ecx, ecx",
    "3:",
    "mov r10, [rsi + rcx*8]",
    "mov [rdi + rcx*8], r10",
    "and r10, [r8 + rcx*8]",
    "xor r10, [r9 + rcx*8]",
    "mov [rsi + rcx*8], r10",
    "inc ecx",
    "cmp ecx, 32",
    "jb 3b",
    // All that a function may change is changed.
    "mov rsi, -1",
    "mov rdi, -2",
    "mov rcx, -3",
    "mov r8, -4",
    "mov r9, -5",
    "mov r10, -6",
    "mov r11, -7",
    "mov rax, [rip + {x} + {returns}]",
    "mov rdx, [rip + {x} + {returns} + 8]",
    "ret",
    x = sym EXCHANGE,
    code = const offset_of!(Exchange, code),
    stack = const offset_of!(Exchange, stack),
    arguments = const offset_of!(Exchange, arguments),
    saved = const offset_of!(Exchange, saved),
    scratch = const offset_of!(Exchange, scratch),
    flags = const offset_of!(Exchange, flags),
    rax = const offset_of!(Exchange, rax),
    rdx = const offset_of!(Exchange, rdx),
    saved_after = const offset_of!(Exchange, saved_after),
    stack_after = const offset_of!(Exchange, stack_after),
    own = const offset_of!(Exchange, own),
    calls = const offset_of!(Exchange, calls),
    found = const offset_of!(Exchange, found),
    slots_found = const offset_of!(Exchange, slots_found),
    slots = const offset_of!(Exchange, slots),
    keep = const offset_of!(Exchange, keep),
    put = const offset_of!(Exchange, put),
    returns = const offset_of!(Exchange, returns),
);

extern "C" {
    fn emuko_test_enter();
    fn emuko_test_back();
    fn emuko_test_helper16();
    fn emuko_test_helper_mem();
}

fn address(function: unsafe extern "C" fn()) -> u64 {
    function as usize as u64
}

/// The helpers that blocks are to be translated with.
pub fn helpers() -> Helpers {
    Helpers {
        halfword: address(emuko_test_helper16),
        memory: address(emuko_test_helper_mem),
    }
}

/// Words on each side of the 32 slots.
const BESIDE: usize = 8;
/// Words of the stack, and where the entry stack pointer stands among them.
const STACK: usize = 128;
const ENTRY: usize = 65;

/// The words of the stack. Aligned, so that an odd index is 8 more than a multiple of 16.
#[repr(C, align(16))]
struct Stack([u64; STACK]);

/// What an entry changes and finds.
pub struct Entered {
    pub rax: u64,
    pub rdx: u64,
    pub helper: Option<Called>,
}

/// What a helper found when it was called.
pub struct Called {
    pub compressed: bool,
    pub slots: [u64; 32],
    pub instruction: u64,
    pub pc: u64,
}

/// What stands around a block when it is entered.
struct Around {
    beside: [u64; 32 + 2 * BESIDE],
    stack: [u64; STACK],
    entry: u64,
    arguments: [u64; 6],
    saved: [u64; 6],
    flags: u64,
    scratch: [u64; 3],
}

/// What a helper does: what to keep of each slot and what to put there, RAX and RDX.
pub type After = ([u64; 32], [u64; 32], [u64; 2]);

/// What a helper found, if one was called.
fn called(x: &Exchange, around: &Around) -> Option<Called> {
    if x.calls == [0; 2] {
        return None;
    }
    assert_eq!(x.calls[0] + x.calls[1], 1, "one call");
    let compressed = x.calls[0] == 1;
    let [rdi, rsi, rdx, instruction, pc, rsp, target] = x.found;
    let arguments = &around.arguments[1..4];
    assert_eq!([rdi, rsi, rdx], arguments, "the helper's arguments");
    // Before the call has pushed its return address, a multiple of 16.
    assert_eq!(
        rsp,
        around.entry - 64,
        "stack pointer at the helper's entry"
    );
    assert_eq!((rsp + 8) % 16, 0);
    let own = helpers();
    let expected = if compressed { own.halfword } else { own.memory };
    assert_eq!(target, expected, "the call goes through RAX");
    Some(Called {
        compressed,
        slots: x.slots_found,
        instruction,
        pc,
    })
}

/// The host's side of a list of turns.
pub struct Machine {
    store: CodeStore<&'static mut [u8]>,
    /// Where blocks are translated to.
    pub out: Vec<u8>,
    registers: Box<[u64; 32 + 2 * BESIDE]>,
    stack: Box<Stack>,
    r: Random,
    _turn: MutexGuard<'static, ()>,
}

impl Machine {
    pub fn new(seed: u64) -> Self {
        Machine {
            // Another test that failed has left nothing behind that matters.
            _turn: TURN.lock().unwrap_or_else(|poisoned| poisoned.into_inner()),
            store: CodeStore::new(executable(1 << 16)),
            out: vec![0; GREATEST_BLOCK],
            registers: Box::new([0; 32 + 2 * BESIDE]),
            stack: Box::new(Stack([0; STACK])),
            r: Random::new(seed),
        }
    }

    pub fn slots(&mut self) -> &mut [u64] {
        &mut self.registers[BESIDE..BESIDE + 32]
    }

    /// Places the block that stands at the front of `out`; where it then stands in the store.
    fn place(&mut self, length: usize) -> Range<usize> {
        let code = &self.out[..length];
        let placed = match self.store.place(code) {
            Ok(placed) => placed,
            Err(_) => {
                self.store.clear();
                self.store.place(code).unwrap()
            }
        };
        let block = placed.offset..placed.mark;
        assert_eq!(block.len(), length);
        block
    }

    /// Random words beside the slots, on the stack, in registers and flags.
    fn surround(&mut self) -> Around {
        let r = &mut self.r;
        for k in (0..BESIDE).chain(BESIDE + 32..32 + 2 * BESIDE) {
            self.registers[k] = r.u64();
        }
        for word in &mut self.stack.0 {
            *word = r.u64();
        }
        self.stack.0[ENTRY] = address(emuko_test_back);
        let entry = &raw mut self.stack.0[ENTRY] as u64;
        assert_eq!(entry % 16, 8);
        let mut arguments = [(); 6].map(|_| r.u64());
        arguments[0] = &raw mut self.registers[BESIDE] as u64;
        Around {
            beside: *self.registers,
            stack: self.stack.0,
            entry,
            arguments,
            saved: [(); 6].map(|_| r.u64()),
            // Carry, parity, adjust, zero, sign and overflow; bit 1 is always set.
            flags: r.u64() & 0x8D5 | 2,
            scratch: [(); 3].map(|_| r.u64()),
        }
    }

    /// Places the block and enters it, everything around it random. What every entry has to keep is compared here. A helper, if one is
    /// called, does what `after` says.
    pub fn enter(&mut self, length: usize, after: &After) -> Entered {
        let around = self.surround();
        let x = self.enter_with(length, &around, after);
        self.compare_what_is_kept(&x, &around, 6);
        Entered {
            rax: x.rax,
            rdx: x.rdx,
            helper: called(&x, &around),
        }
    }

    /// The same with a word's host code alone and a RET behind it: RBX is the slots' address, and of the stack nothing may be written.
    pub fn enter_bare(&mut self, length: usize) {
        let mut around = self.surround();
        around.saved[0] = around.arguments[0];
        let x = self.enter_with(length, &around, &([0; 32], [0; 32], [0; 2]));
        self.compare_what_is_kept(&x, &around, 0);
    }

    /// The entry itself.
    fn enter_with(&mut self, length: usize, around: &Around, after: &After) -> Exchange {
        let block = self.place(length);
        // SAFETY: This thread holds the lock. The block was translated from random words by the code under test: it is to use the slots,
        // 64 bytes below the entry stack pointer and the helpers above, all of which exist. That it does is what is tested.
        let x = unsafe {
            let x = &raw mut EXCHANGE;
            (*x).code = self.store.bytes()[block.clone()].as_ptr() as u64;
            (*x).stack = around.entry;
            (*x).arguments = around.arguments;
            (*x).saved = around.saved;
            (*x).scratch = around.scratch;
            (*x).flags = around.flags;
            (*x).calls = [0; 2];
            (*x).slots = around.arguments[0];
            ((*x).keep, (*x).put, (*x).returns) = *after;
            emuko_test_enter();
            x.read()
        };
        assert!(
            self.store.bytes()[block] == self.out[..length],
            "the block was written"
        );
        x
    }

    /// Callee-saved registers, stack pointer, the words beside the slots, slot x0, the stack but for what the block may write: as many
    /// words as it pushes, and a call's return address.
    fn compare_what_is_kept(&self, x: &Exchange, around: &Around, pushes: usize) {
        assert_eq!(x.saved_after, around.saved, "callee-saved registers");
        assert_eq!(x.stack_after, around.entry + 8, "stack pointer");
        for k in (0..BESIDE).chain(BESIDE + 32..32 + 2 * BESIDE) {
            let before = around.beside[k];
            assert_eq!(self.registers[k], before, "a word beside the slots");
        }
        assert_eq!(self.registers[BESIDE], 0, "slot x0");
        let called = x.calls != [0; 2];
        for (k, (after, before)) in self.stack.0.iter().zip(around.stack).enumerate() {
            // Of a block the 48 bytes of its pushes, and the 8 of the return address; the 8 between them are not written.
            let own = (ENTRY - pushes..ENTRY).contains(&k) || (called && k == ENTRY - 8);
            assert!(own || *after == before, "stack, word {k}");
        }
    }

    /// What a helper is to do: some slots change, x0 never; RAX mostly an even pc.
    pub fn after(&mut self) -> After {
        let r = &mut self.r;
        let (mut keep, mut put) = ([u64::MAX; 32], [0; 32]);
        for k in 1..32 {
            if r.percent(30) {
                (keep[k], put[k]) = (0, value(r));
            }
        }
        let pc = match r.below(40) {
            0 => r.u64() | 1,
            1 => 0u64.wrapping_sub(2 * r.below(20)),
            _ => r.u64() & !1,
        };
        let any = r.u64();
        let count = r.one_of(&[0, 1, 1 | 1 << 63, u64::MAX, any]);
        (keep, put, [pc, count])
    }
}

/// Numbers at which multiplication and division, and shifts and comparisons, do something else than beside them.
pub const CORNERS: [u64; 24] = [
    0,
    1,
    2,
    7,
    31,
    32,
    63,
    64,
    (1 << 31) - 1,
    1 << 31,
    (1 << 31) + 1,
    (1 << 32) - 1,
    1 << 32,
    (1 << 32) + 1,
    (1 << 62) - 1,
    (1 << 63) - 1,
    1 << 63,
    (1 << 63) + 1,
    0u64.wrapping_sub(1 << 31),
    0u64.wrapping_sub((1 << 31) + 1),
    u64::MAX - 6,
    u64::MAX - 2,
    u64::MAX - 1,
    u64::MAX,
];

/// A register's value: often one at a corner, one with a corner in its lower half and anything above, or one of 32 bits.
pub fn value(r: &mut Random) -> u64 {
    match r.below(5) {
        0 | 1 => r.one_of(&CORNERS),
        2 => r.u64() << 32 | r.one_of(&CORNERS) & 0xFFFF_FFFF,
        3 => r.u32() as i32 as u64,
        _ => r.u64(),
    }
}
