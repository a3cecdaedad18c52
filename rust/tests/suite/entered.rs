//! Blocks entered on this processor, in lists of turns: each block is translated at the pc that the last one left, over the register bytes
//! that it left, and the run of the manual (module `manual`) says what has to come out.

use crate::fence_i::is_fence_i;
use crate::manual::{Run, Turn};
use crate::rest_of_m::{of_m, M};
use crate::support::machine::{helpers, value, After, Called, Entered, Machine};
use crate::support::mapped::executable;
use crate::support::random::Random;
use crate::support::requests;
use crate::support::runs::{self, instructions};
use crate::support::words;
use emuko_original::{Answer, Asked, Emuko, Original};
use emuko_x64_blocks::{
    block_fn, translate, BlockIndex, BlockResult, CodeStore, Entry, HelperFn, Helpers, NativeBlock,
    Refusal, Request, GREATEST_BLOCK,
};
use std::collections::HashSet;
use std::ffi::c_void;

/// How often each thing was seen.
#[derive(Debug, Default)]
pub struct Seen {
    lists: u32,
    turns: u32,
    refused: u32,
    pub entries: u32,
    pub halfword_helpers: u32,
    pub memory_helpers: u32,
    instructions: u64,
    /// By funct3 of a branch that ended a block: not taken, taken.
    branches: [[u32; 2]; 8],
    /// Blocks that a FENCE.I ended with a whole word behind it.
    by_fence_i: u32,
    /// Words of M in the order of [`M`]: with operands as usual, with a second one of 0, and with those whose signed quotient overflows.
    of_m: [[u64; 3]; 13],
    /// Compressed instructions in line, and blocks that stand at 2 modulo 4.
    pub compressed: u64,
    pub at_2_modulo_4: u32,
}

impl Seen {
    /// Adds what a plain block of so many instructions has, which started with these registers.
    fn plain(&mut self, mut before: Run, halfwords: &[u16], added: u64, pc: u64) {
        self.instructions += added;
        self.at_2_modulo_4 += (before.pc % 4 == 2) as u32;
        let block: Vec<_> = instructions(halfwords).take(added as usize).collect();
        let (end, last) = block.last().map(|(at, word)| (at.end, *word)).unwrap();
        if last & 0x7F == 0x63 {
            let next = before.pc.wrapping_add(2 * end as u64);
            self.branches[(last >> 12 & 7) as usize][(pc != next) as usize] += 1;
        }
        if is_fence_i(last) && halfwords.len() >= end + 2 {
            self.by_fence_i += 1;
        }
        for (at, word) in block {
            self.compressed += (at.len() == 1) as u64;
            if let Some(which) = of_m(word) {
                let [a, b] = [word >> 15, word >> 20].map(|field| before.x[field as usize & 31]);
                self.of_m[which][exception(word, a, b)] += 1;
            }
            before.turn(1, &halfwords[at], GREATEST_BLOCK);
        }
    }
}

/// 1 for a second operand of 0, 2 for the most negative number and -1, 0 for all others, by the word's width.
fn exception(word: u32, a: u64, b: u64) -> usize {
    let (a, b, most_negative) = match word & 0x7F {
        0x33 => (a as i64, b as i64, i64::MIN),
        _ => (i64::from(a as i32), i64::from(b as i32), -(1 << 31)),
    };
    match b {
        0 => 1,
        -1 if a == most_negative => 2,
        _ => 0,
    }
}

/// A list of turns on both sides: the manual's run, and slots, pc and the sum of RDX over the blocks entered since the last helper block.
pub struct List<'a> {
    pub machine: &'a mut Machine,
    run: Run,
    pub pc: u64,
    sum: u64,
}

impl<'a> List<'a> {
    fn new(machine: &'a mut Machine, r: &mut Random) -> Self {
        let mut list = List::at(machine, r, 0);
        list.pc = requests::start(r) & !1;
        list.run.pc = list.pc;
        list
    }

    /// A list that begins at this pc.
    pub fn at(machine: &'a mut Machine, r: &mut Random, pc: u64) -> Self {
        let mut x = [0; 32];
        for register in &mut x[1..] {
            *register = value(r);
        }
        let [dividend, divisor] = requests::OVERFLOW;
        // For the W forms, with anything in the upper halves.
        let above = r.u64() << 32;
        x[dividend] = r.one_of(&[1 << 63, 1 << 31 | above]);
        x[divisor] = r.one_of(&[u64::MAX, 0xFFFF_FFFF | above]);
        machine.slots().copy_from_slice(&x);
        let run = Run { x, pc, count: 0 };
        List {
            machine,
            run,
            pc,
            sum: 0,
        }
    }

    /// Gives a register this value, on both sides.
    pub fn set(&mut self, register: usize, value: u64) {
        self.machine.slots()[register] = value;
        self.run.x[register] = value;
    }

    /// One turn over any code.
    fn turn(&mut self, r: &mut Random, seen: &mut Seen) {
        let limit = requests::limit(r);
        let halfwords = requests::run(r);
        let output = if r.percent(2) {
            r.below(GREATEST_BLOCK as u64) as usize
        } else {
            GREATEST_BLOCK
        };
        self.turn_over(limit, &halfwords, output, seen);
    }

    /// One turn over the code at the pc: refused on both sides, or a block that is entered, with what the manual says. The block's count and
    /// span.
    pub fn turn_over(
        &mut self,
        limit: u32,
        halfwords: &[u16],
        output: usize,
        seen: &mut Seen,
    ) -> Option<(usize, u64)> {
        seen.turns += 1;
        let request = Request::new(self.pc, halfwords);
        let request = request.limit(limit).helpers(helpers());
        let reply = translate(&request, &mut self.machine.out[..output]);
        let turn = self.run.clone().turn(limit, halfwords, output);
        assert_eq!(reply.is_err(), turn == Turn::Refused, "{request:x?}");
        let Ok(block) = reply else {
            seen.refused += 1;
            return None;
        };
        let (length, count) = (block.bytes().len(), u64::from(block.count()));
        let size = (block.count() as usize, block.span());
        self.enter(length, count, limit, halfwords, seen);
        Some(size)
    }

    /// Enters the block that stands at the front of `out`, of so many bytes for so many instructions, with what the manual says of the
    /// code at the pc, read for at most `limit` instructions.
    pub fn enter(
        &mut self,
        length: usize,
        count: u64,
        limit: u32,
        halfwords: &[u16],
        seen: &mut Seen,
    ) {
        let before = self.run.clone();
        let turn = self.run.turn(limit, halfwords, GREATEST_BLOCK);
        let request = Request::new(self.pc, halfwords).limit(limit);
        let after = self.machine.after();
        let entered = self.machine.enter(length, &after);
        seen.entries += 1;
        self.pc = entered.rax;
        match (turn, &entered.helper) {
            (Turn::Plain { added }, None) => {
                assert_eq!((entered.rdx, count), (added, added), "{request:x?}");
                self.sum += entered.rdx;
                seen.plain(before, halfwords, added, self.run.pc);
            }
            (Turn::Helper { .. }, Some(called)) => {
                let added = self.by_helper(turn, called, &entered, &after, seen);
                assert_eq!(count, added + 1, "{request:x?}");
            }
            (turn, _) => panic!("{turn:?}, but the block did otherwise: {request:x?}"),
        }
        assert_eq!(self.machine.slots(), self.run.x, "registers: {request:x?}");
        assert_eq!(self.pc, self.run.pc, "pc: {request:x?}");
        assert_eq!(self.sum, self.run.count, "count: {request:x?}");
    }

    /// A block that called its helper; how many instructions came before that one.
    fn by_helper(
        &mut self,
        turn: Turn,
        called: &Called,
        entered: &Entered,
        after: &After,
        seen: &mut Seen,
    ) -> u64 {
        let Turn::Helper {
            added,
            instruction,
            compressed,
        } = turn
        else {
            unreachable!()
        };
        assert_eq!(called.slots, self.run.x, "slots at the call");
        assert_eq!(called.compressed, compressed);
        assert_eq!(called.instruction, instruction as u64);
        assert_eq!(called.pc, self.run.pc);
        let (keep, put, [rax, rdx]) = *after;
        assert_eq!(entered.rax, rax, "RAX is the helper's");
        assert_eq!(entered.rdx, rdx.wrapping_add(added));
        let left = std::array::from_fn(|k| (self.run.x[k] & keep[k]) ^ put[k]);
        self.run.resume(left, rax);
        self.sum = 0;
        seen.instructions += added;
        match compressed {
            true => seen.halfword_helpers += 1,
            false => seen.memory_helpers += 1,
        }
        added
    }
}

fn lists(seed: u64, number: u32) -> Seen {
    let mut machine = Machine::new(seed);
    let mut r = Random::new(seed + 100);
    let mut seen = Seen::default();
    for _ in 0..number {
        seen.lists += 1;
        let mut list = List::new(&mut machine, &mut r);
        for _ in 0..1 + r.below(12) {
            list.turn(&mut r, &mut seen);
        }
    }
    seen
}

#[test]
fn lists_of_turns() {
    let seen = lists(31, 60_000);
    println!("{seen:?}");
    assert!(seen.entries > 200_000, "{seen:?}");
    assert!(seen.refused > 5_000, "{seen:?}");
    assert!(seen.halfword_helpers > 10_000, "{seen:?}");
    assert!(seen.memory_helpers > 10_000, "{seen:?}");
    assert!(seen.instructions > 1_000_000, "{seen:?}");
    assert!(seen.by_fence_i > 5_000, "{seen:?}");
    assert!(seen.compressed > 500_000, "{seen:?}");
    assert!(seen.at_2_modulo_4 > 50_000, "{seen:?}");
    for funct3 in [0, 1, 4, 5, 6, 7] {
        let [not, taken] = seen.branches[funct3];
        assert!(not > 100 && taken > 100, "{seen:?}");
    }
    for (name, of_word) in M.iter().zip(seen.of_m) {
        assert!(of_word.iter().all(|n| *n > 100), "{name:?}: {of_word:?}");
    }
}

/// A guest's program in memory, entered block by block until a word is not taken: the sum of 1 to 100.
#[test]
fn a_loop() {
    let program = [
        0x0640_0093, // ADDI x1, x0, 100
        0x0000_0113, // ADDI x2, x0, 0
        0x0011_0133, // ADD x2, x2, x1
        0xFFF0_8093, // ADDI x1, x1, -1
        0xFE00_9CE3, // BNE x1, x0, -8
        0x0000_0073, // ECALL
    ];
    let memory: Vec<u16> = program.into_iter().flat_map(words::halves).collect();
    let mut machine = Machine::new(32);
    let (mut pc, mut count, mut entries) = (0x8000_0000, 0, 0);
    let refusal = loop {
        let from = (pc - 0x8000_0000) as usize / 2;
        let request = Request::new(pc, &memory[from..]).helpers(helpers());
        match translate(&request, &mut machine.out) {
            Ok(block) => {
                let length = block.bytes().len();
                let after = machine.after();
                let entered = machine.enter(length, &after);
                assert!(entered.helper.is_none());
                (pc, count, entries) = (entered.rax, count + entered.rdx, entries + 1);
            }
            Err(refusal) => break refusal,
        }
    };
    assert_eq!(refusal, Refusal::NotTaken(0x73));
    assert_eq!(pc, 0x8000_0014);
    assert_eq!(machine.slots()[1..4], [0, 5050, 0]);
    assert_eq!((count, entries), (2 + 3 * 100, 100));
}

/// Straight words that the original takes, with FENCE.I among them, and mostly a jump at the end.
fn run_with_fences(r: &mut Random) -> Vec<u16> {
    let mut run = Vec::new();
    for _ in 0..1 + r.below(40) {
        let word = match r.below(8) {
            0 => words::fence_i(r),
            _ => words::straight_in_the_original(r),
        };
        run.extend(words::halves(word));
    }
    if r.percent(70) {
        run.extend(words::halves(words::jump(r)));
    }
    run
}

/// The original's block goes on behind a FENCE.I. Where it ends, ours have come by several entries, with the same registers, pc and sum of
/// counts.
#[test]
fn where_the_original_ends() {
    let mut machine = Machine::new(34);
    let mut original = Original::new(emuko_original::CODE_SIZE);
    let mut bytes = Vec::new();
    let mut r = Random::new(134);
    let mut entries = 0;
    for _ in 0..5_000 {
        let run = run_with_fences(&mut r);
        let mut x = [0; 32];
        for register in &mut x[1..] {
            *register = value(&mut r);
        }
        let start = requests::start(&mut r) & !1;
        let asked = Asked {
            start,
            limit: 64,
            halfwords: &run,
            helpers: [0, 0],
        };
        let answer = original.translate(asked, &mut bytes);
        assert_eq!(answer, Answer::Block(run.len() as u32 / 2));
        machine.slots().copy_from_slice(&x);
        machine.out[..bytes.len()].copy_from_slice(&bytes);
        let after = machine.after();
        let theirs = machine.enter(bytes.len(), &after);
        let expected = machine.slots().to_vec();

        machine.slots().copy_from_slice(&x);
        let (mut pc, mut sum) = (start, 0);
        while sum < theirs.rdx {
            assert_eq!(pc, start.wrapping_add(4 * sum));
            let request = Request::new(pc, &run[2 * sum as usize..]);
            let block = translate(&request, &mut machine.out).unwrap();
            let length = block.bytes().len();
            let ours = machine.enter(length, &after);
            (pc, sum, entries) = (ours.rax, sum + ours.rdx, entries + 1);
        }
        assert_eq!((pc, sum), (theirs.rax, theirs.rdx), "{run:x?}");
        assert_eq!(machine.slots(), expected, "{run:x?}");
    }
    println!("{entries} entries");
    assert!(entries > 10_000, "{entries}");
}

/// Where the guests of `self_modified_code` stand.
const BASE: u64 = 0x8000_0000;

/// A guest that may store to its own code.
struct Guest {
    x: [u64; 32],
    code: [u16; 32],
    /// Where it has stored words since this was last looked at.
    stored: Vec<u64>,
}

impl Guest {
    /// ECALL everywhere but where the program stands. x5 is its address, x6 the word that it stores, x7 how often a loop is to run.
    fn new(program: &[u32], word: u32) -> Self {
        let mut code = [0; 32];
        for (k, halves) in code.chunks_exact_mut(2).enumerate() {
            let word = program.get(k).copied().unwrap_or(0x0000_0073);
            halves.copy_from_slice(&words::halves(word));
        }
        let mut x = [0; 32];
        [x[5], x[6], x[7]] = [BASE, u64::from(word), 2];
        let stored = Vec::new();
        Guest { x, code, stored }
    }

    fn index(address: u64) -> usize {
        (address - BASE) as usize / 2
    }
}

/// The helper for SW, the one store of these guests, with an offset from 0 to 31; the hart is the guest.
unsafe extern "C" fn store_word(
    hart: *mut c_void,
    _: *mut c_void,
    _: *mut c_void,
    instruction: u64,
    pc: u64,
) -> BlockResult {
    let instruction = instruction as usize;
    assert_eq!(instruction & 0xFE00_707F, 0x2023, "SW");
    // SAFETY: `Keeping::enter` passes its guest, which nothing else uses meanwhile.
    let guest = unsafe { &mut *hart.cast::<Guest>() };
    let address = guest.x[instruction >> 15 & 31] + (instruction as u64 >> 7 & 31);
    let at = Guest::index(address);
    let word = guest.x[instruction >> 20 & 31] as u32;
    guest.code[at..at + 2].copy_from_slice(&words::halves(word));
    guest.stored.push(address);
    BlockResult {
        next_pc: pc + 4,
        executed: 1,
    }
}

/// When blocks that are kept are dropped: never, all of them behind a FENCE.I, or behind every store those that it touches.
#[derive(Clone, Copy, Debug, PartialEq)]
enum Drops {
    Never,
    BehindFenceI,
    BehindStores,
}

/// What an emulator keeps.
struct Keeping {
    store: CodeStore<&'static mut [u8]>,
    index: BlockIndex<[Entry; 16]>,
    /// The offsets of the blocks that a FENCE.I ends.
    by_fence_i: HashSet<usize>,
    translations: u32,
}

impl Keeping {
    fn new() -> Self {
        Keeping {
            store: CodeStore::new(executable(1 << 16)),
            index: BlockIndex::new([Entry::default(); 16]),
            by_fence_i: HashSet::new(),
            translations: 0,
        }
    }

    /// Drops behind a block that was entered.
    fn drop(&mut self, drops: Drops, entered: NativeBlock, stored: &mut Vec<u64>) {
        let by_fence_i = self.by_fence_i.contains(&entered.offset);
        for address in stored.drain(..) {
            if drops == Drops::BehindStores {
                self.index.drop_touched(address, 4);
            }
        }
        if drops == Drops::BehindFenceI && by_fence_i {
            self.index.empty(&mut self.store);
            self.by_fence_i.clear();
        }
    }

    /// The block that is kept for the pc, or else one made from the code as it is now; none where the word there is not taken.
    fn block(&mut self, guest: &Guest, pc: u64) -> Option<NativeBlock> {
        if let Some(kept) = self.index.find(0, pc) {
            return Some(kept.block);
        }
        let mut run = emuko_x64_blocks::Run::new();
        let fetch = |address| guest.code.get(Guest::index(address)).copied().ok_or(());
        run.fetch(pc, 64, fetch).unwrap();
        let mut out = [0; GREATEST_BLOCK];
        let helpers = Helpers::new(store_word, store_word);
        let block = translate(&Request::new(pc, &run).helpers(helpers), &mut out).ok()?;
        let offset = self.store.place(block.bytes()).unwrap().offset;
        let last = runs::words(&run).nth(block.count() as usize - 1);
        if last.is_some_and(is_fence_i) {
            self.by_fence_i.insert(offset);
        }
        let kept = NativeBlock::new(offset, &block);
        self.index.insert(0, pc, kept).unwrap();
        self.translations += 1;
        Some(kept)
    }

    fn enter(&self, block: NativeBlock, guest: &mut Guest) -> BlockResult {
        let hart = &raw mut *guest;
        let none = std::ptr::null_mut();
        // SAFETY: The block stands in executable memory as it was translated; its helper takes the guest as the hart.
        unsafe {
            let enter = block_fn(self.store.bytes()[block.offset..].as_ptr());
            let slots = (&raw mut (*hart).x).cast();
            enter(slots, hart.cast(), none, none, none, none)
        }
    }
}

/// Runs a guest until a word is not taken, and gives its x1, how many instructions were executed and how many blocks translated.
fn run_keeping_blocks(mut guest: Guest, drops: Drops) -> (u64, u64, u32) {
    let mut keeping = Keeping::new();
    let (mut pc, mut executed) = (BASE, 0);
    while let Some(block) = keeping.block(&guest, pc) {
        let result = keeping.enter(block, &mut guest);
        (pc, executed) = (result.next_pc, executed + result.executed);
        keeping.drop(drops, block, &mut guest.stored);
    }
    (guest.x[1], executed, keeping.translations)
}

/// Guests that store over code of theirs which has been executed: ADDI x1, x1, 5 becomes ADDI x1, x1, 7. Behind FENCE.I the new word is
/// executed, where blocks kept from before are dropped there or those that the store touches behind it; kept on, the old one is executed
/// twice.
#[test]
fn self_modified_code() {
    // The word right behind FENCE.I, in a loop: a block that went on behind it would hold the old word.
    let behind = [
        0xFFF3_8393, // ADDI x7, x7, -1
        0x0000_100F, // FENCE.I
        0x0050_8093, // ADDI x1, x1, 5
        0x0062_A423, // SW x6, 8(x5)
        0xFE03_98E3, // BNE x7, x0, -16
    ];
    // A routine that is called before and behind FENCE.I.
    let called = [
        0x01C0_016F, // JAL x2, 28
        0x0062_AE23, // SW x6, 28(x5)
        0x0000_100F, // FENCE.I
        0x0100_016F, // JAL x2, 16
        0x0000_0073, // ECALL
        0x0000_0073,
        0x0000_0073,
        0x0050_8093, // ADDI x1, x1, 5
        0x0001_0067, // JALR x0, 0(x2)
    ];
    // How many blocks are translated where all are kept; dropped behind FENCE.I; dropped behind stores.
    for (program, executed, translations) in
        [(&behind[..], 10, [3, 6, 4]), (&called[..], 8, [5, 6, 6])]
    {
        let ran = |drops| run_keeping_blocks(Guest::new(program, 0x0070_8093), drops);
        let [kept, fenced, stored] = translations;
        assert_eq!(ran(Drops::Never), (10, executed, kept));
        assert_eq!(ran(Drops::BehindFenceI), (12, executed, fenced));
        assert_eq!(ran(Drops::BehindStores), (12, executed, stored));
    }
}

/// The check itself: a block that was changed in one place is noticed.
#[test]
fn a_changed_block_is_noticed() {
    let run = [0x0093, 0x0050];
    let changes: [(usize, &[u8], &str); 4] = [
        // RBX is pushed twice and RBP not at all.
        (1, &[0x53], "callee-saved registers"),
        // PUSH RAX instead of SUB RSP, 8.
        (10, &[0x50, 0x90, 0x90, 0x90], "stack, word"),
        // The result is stored to x0, and behind x31.
        (49, &[0x00], "slot x0"),
        (50, &[0x01], "a word beside the slots"),
    ];
    for (place, bytes, message) in changes {
        let caught = std::panic::catch_unwind(|| {
            let mut machine = Machine::new(33);
            let block = translate(&Request::new(0x8000_0000, &run), &mut machine.out).unwrap();
            let length = block.bytes().len();
            let changed = &mut machine.out[place..place + bytes.len()];
            assert_ne!(*changed, *bytes);
            changed.copy_from_slice(bytes);
            let after = machine.after();
            machine.enter(length, &after);
        });
        let panic = caught.expect_err(message);
        let text = panic.downcast_ref::<String>().unwrap();
        assert!(text.contains(message), "{text}");
    }
}

/// A block entered as a [`block_fn`], its helper a [`HelperFn`] in Rust.
#[test]
fn a_block_as_a_function() {
    /// Adds the instruction and its pc to x5; `hart` is the registers' address.
    unsafe extern "C" fn load(
        hart: *mut c_void,
        bus_data: *mut c_void,
        bus_vtable: *mut c_void,
        instruction: u64,
        pc: u64,
    ) -> BlockResult {
        assert_eq!((bus_data as u64, bus_vtable as u64), (2, 3));
        let x5 = hart.cast::<u64>().wrapping_add(5);
        // SAFETY: The test passes the registers as the hart.
        unsafe { *x5 += instruction + pc };
        BlockResult {
            next_pc: pc + 4,
            executed: 1,
        }
    }
    let helpers = Helpers::new(load as HelperFn, load as HelperFn);
    // ADDI x5, x0, 7; LD x1, 0(x1)
    let run = [0x0293, 0x0070, 0xB083, 0x0000];
    let mut out = [0; GREATEST_BLOCK];
    let request = Request::new(0x8000_0000, &run).helpers(helpers);
    let block = translate(&request, &mut out).unwrap();
    let mut store = CodeStore::new(executable(4096));
    let offset = store.place(block.bytes()).unwrap().offset;
    let mut regs = [0u64; 32];
    let slots = regs.as_mut_ptr();
    // SAFETY: The block stands in executable memory as it was translated, and its helper takes the arguments as they are passed.
    let result = unsafe {
        let enter = block_fn(store.bytes()[offset..].as_ptr());
        let other = |number: usize| number as *mut c_void;
        enter(slots, slots.cast(), other(2), other(3), other(4), other(5))
    };
    assert_eq!((result.next_pc, result.executed), (0x8000_0008, 2));
    assert_eq!(regs[5], 7 + 0x0000_B083 + 0x8000_0004);
}
