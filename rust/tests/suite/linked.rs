//! emuko with `compile_native_block` over this crate, against the original emulator: replies, and everything else that can be seen
//! behind a call. FENCE.I ends its block in the linked one alone, so the original is given the run cut behind it or, where it fetches from
//! memory, a limit by which it ends there too (module `fence_i`). The rest of M is taken by the linked one alone, and JALR with a reserved
//! funct3 by the original alone, so the original is given stand-ins, and the bodies of the rest of M are put into its block (module
//! `judged`). What it then does is all compared. Left out is what the original does behind a FENCE.I, at a word of the rest of M, at a
//! reserved JALR and at a compressed instruction that is in line here, which the tests `behind_fence_i`, `at_div`, `at_a_reserved_jalr` and
//! `at_a_compressed_instruction` show. Where the linked one's block has such a compressed instruction, its bytes are the judge's, and its
//! accesses to memory are worked out by hand.

use crate::compressed::{before_in_line, first_in_line};
use crate::fence_i::{cut, instructions_to_fence_i, limit_to_fence_i};
use crate::reserved_jalr::{ends_block, first_reserved};
use crate::rest_of_m::{first_of_the_rest, put_bodies};
use crate::run::needed;
use crate::spans;
use crate::support::judged::{judged, with_stand_ins};
use crate::support::random::Random;
use crate::support::requests::{self, of_the_original, Wanted};
use crate::support::words;
use emuko_original::{Access, Answer, Asked, Compiled, Emuko, Linked, Memory, Original, CODE_SIZE};
use std::fs;
use std::process::Command;

const HELPERS: [u64; 2] = [0x1122_3344_5566_7788, 0x99AA_BBCC_DDEE_FF00];

/// The two emulators, and the original once more, which is asked without page tables.
struct Both {
    original: Original,
    linked: Linked,
    judge: Original,
    bytes: [Vec<u8>; 2],
    /// The mark of the linked one's store.
    mark: usize,
    /// Whether the linked one has compiled what the original has not.
    apart: bool,
}

impl Both {
    fn new(code_size: usize) -> Self {
        Both {
            original: Original::new(code_size),
            linked: Linked::new(code_size),
            judge: Original::new(CODE_SIZE),
            bytes: [Vec::new(), Vec::new()],
            mark: 0,
            apart: false,
        }
    }

    /// Another address space, which empties stores and maps. Where the two have come apart they begin anew, since their last access stays.
    fn set_satp(&mut self, satp: u64) {
        if std::mem::take(&mut self.apart) {
            self.original = Original::new(CODE_SIZE);
            self.linked = Linked::new(CODE_SIZE);
        }
        self.original.set_satp(satp);
        self.linked.set_satp(satp);
        self.mark = 0;
    }

    fn set_enabled(&mut self, enabled: bool) {
        self.original.set_enabled(enabled);
        self.linked.set_enabled(enabled);
    }

    /// The answer that both give, the original to the run up to a FENCE.I with stand-ins, and its bytes.
    fn translate(&mut self, asked: Asked) -> (Answer, &[u8]) {
        let [original, linked] = &mut self.bytes;
        original.clear();
        linked.clear();
        let expected = judged(&mut self.original, asked, original);
        let answer = self.linked.translate(asked, linked);
        assert_eq!(answer, expected, "{asked:x?}");
        assert!(original == linked, "{asked:x?}");
        (answer, linked)
    }

    /// Both compile from a memory of their own; what is seen behind it. The code at pc, as far as it can be fetched, is `run`.
    fn compile(
        &mut self,
        memories: &Memories,
        run: &[u16],
        pc: u64,
        limit: u32,
    ) -> (Compiled, Memories) {
        let mut after = memories.clone();
        let compiled = self.linked.compile(&mut after.linked, pc, limit);
        if has_in_line(&compiled, run) {
            self.compare_block(&compiled, run, pc, limit);
        } else {
            self.compare_all(&compiled, memories, &mut after, run, pc, limit);
        }
        self.mark = compiled.used;
        (compiled, after)
    }

    /// The original compiles from its memory, in which the same must have changed afterwards; it goes no further than the first FENCE.I.
    fn compare_all(
        &mut self,
        compiled: &Compiled,
        memories: &Memories,
        after: &mut Memories,
        run: &[u16],
        pc: u64,
        limit: u32,
    ) {
        let until = limit_to_fence_i(run, limit);
        let expected = self.original.compile(&mut after.original, pc, until);
        let expected = self.with_bodies(expected, run);
        assert_eq!(*compiled, expected, "{pc:x} {limit}");
        assert_eq!(
            after.linked.accesses, after.original.accesses,
            "accesses, {pc:x} {limit}"
        );
        assert!(
            changes(&memories.linked, &after.linked)
                .eq(changes(&memories.original, &after.original)),
            "memory, {pc:x} {limit}"
        );
    }

    /// A block with compressed instructions, which the original does not compile from memory: it is the judge's, placed behind the mark and
    /// found there.
    fn compare_block(&mut self, compiled: &Compiled, run: &[u16], pc: u64, limit: u32) {
        let [bytes, _] = &mut self.bytes;
        let asked = Asked {
            start: pc,
            limit,
            halfwords: run,
            helpers: [0, 0],
        };
        let answer = judged(&mut self.judge, asked, bytes);
        let Answer::Block(count) = answer else {
            panic!("{answer:?}: {run:x?} {limit}");
        };
        let offset = self.mark.next_multiple_of(4);
        assert_eq!(compiled.result, Ok(Some((offset, count))), "{run:x?}");
        assert_eq!(compiled.found, Some((offset, count)));
        assert!(compiled.bytes == *bytes, "{run:x?} {limit}");
        assert_eq!(compiled.used, offset + bytes.len());
        assert!(compiled.enabled && !compiled.failed);
        self.apart = true;
    }

    /// What the original has compiled of a run with stand-ins, bodies put in: the block's bytes, and where it then stands and ends.
    fn with_bodies(&self, mut expected: Compiled, run: &[u16]) -> Compiled {
        if first_of_the_rest(run).is_none() {
            return expected;
        }
        if let Ok(Some((_, count))) = expected.result {
            put_bodies(&self.original, run, count, &mut expected.bytes);
            let offset = self.mark.next_multiple_of(4);
            expected.result = Ok(Some((offset, count)));
            expected.found = Some((offset, count));
            expected.used = offset + expected.bytes.len();
        }
        expected
    }
}

/// Whether a block of this run has a compressed instruction in line.
fn has_in_line(compiled: &Compiled, run: &[u16]) -> bool {
    match compiled.result {
        Ok(Some((_, count))) => first_in_line(run).is_some_and(|first| first < count as usize),
        _ => false,
    }
}

/// The guest's memory for each of the emulators. They differ in the code alone, the original's having stand-ins.
#[derive(Clone)]
struct Memories {
    original: Memory,
    linked: Memory,
}

impl Memories {
    /// Both by a function that writes a run into memory.
    fn with(run: &[u16], write: impl Fn(&[u16]) -> Memory) -> Self {
        Memories {
            original: write(&with_stand_ins(run)),
            linked: write(run),
        }
    }

    /// No accesses yet.
    fn forget_accesses(&mut self) {
        self.original.accesses = Some(Vec::new());
        self.linked.accesses = Some(Vec::new());
    }
}

/// The bytes that have changed, and what they have become.
fn changes<'a>(before: &'a Memory, after: &'a Memory) -> impl Iterator<Item = (usize, u8)> + 'a {
    let pairs = before.bytes.iter().zip(&after.bytes).enumerate();
    pairs
        .filter(|(_, (before, after))| before != after)
        .map(|(k, (_, after))| (k, *after))
}

/// The reply of the corpus for a line: document 01's numbers and values.
fn corpus_reply(line: &str, both: &mut Both) -> String {
    if let Some(wanted) = Wanted::of_line(line) {
        return corpus_translation(&wanted, both);
    }
    let fields: Vec<&str> = line.split(' ').collect();
    match fields[..] {
        ["P", used, store, code] => {
            let number = |field: &str| field.parse::<usize>().unwrap();
            let (used, mut store) = (number(used), vec![0; number(store)]);
            // Document 01 adds number 6.
            if used > store.len() {
                return "6".to_string();
            }
            match Linked::place(&vec![1; number(code)], &mut store, used) {
                Some((offset, mark)) => format!("placed {offset} {mark}"),
                None => "7".to_string(),
            }
        }
        ["D", word] => Linked::decode(u32::from_str_radix(word, 16).unwrap()),
        _ => panic!("{line}"),
    }
}

fn corpus_translation(wanted: &Wanted, both: &mut Both) -> String {
    let request = wanted.request();
    let (answer, bytes) = both.translate(of_the_original(&request));
    match answer {
        // emuko has no lent output; document 01 adds number 5.
        Answer::Block(_) if wanted.output < 4099 => "5".to_string(),
        Answer::Block(count) => {
            let text: String = bytes.iter().map(|byte| format!("{byte:02x}")).collect();
            // emuko has no span; request Q-5 adds it.
            let span = spans::of(request.halfwords, count);
            format!("block {} {count} {text} {span}", bytes.len())
        }
        Answer::LimitZero => "1".to_string(),
        Answer::OddStart(start) => format!("2 {start:016x}"),
        Answer::Missing(index) => format!("3 {index}"),
        Answer::NotTaken(word) => format!("4 {word:08x}"),
    }
}

/// The 3,400 requests that came with the original, and 465 more, which the program replay is run on too; behind them stand lines that are
/// no requests.
#[test]
fn corpus() {
    let replay = concat!(env!("CARGO_MANIFEST_DIR"), "/../crates/replay/");
    let requests = fs::read_to_string(format!("{replay}stdin")).unwrap();
    let replies = fs::read_to_string(format!("{replay}stdout")).unwrap();
    let mut both = Both::new(CODE_SIZE);
    let mut kinds = [0; 3];
    let answered = requests.lines().zip(replies.lines());
    for (request, reply) in answered.take_while(|(_, reply)| *reply != "bad request") {
        assert_eq!(corpus_reply(request, &mut both), reply, "{request}");
        kinds["TPD".find(&request[..1]).unwrap()] += 1;
    }
    assert_eq!(kinds, [3604, 201, 60]);
}

#[test]
fn random_requests() {
    let mut r = Random::new(40);
    let mut both = Both::new(CODE_SIZE);
    let mut seen = [0; 5];
    for _ in 0..60_000 {
        let wanted = requests::wanted(&mut r);
        let request = wanted.request();
        let helpers = HELPERS;
        let (answer, _) = both.translate(Asked {
            helpers,
            ..of_the_original(&request)
        });
        let kind = match answer {
            Answer::Block(_) => 0,
            Answer::LimitZero => 1,
            Answer::OddStart(_) => 2,
            Answer::Missing(_) => 3,
            Answer::NotTaken(_) => 4,
        };
        seen[kind] += 1;
    }
    assert!(seen.iter().all(|n| *n > 500), "{seen:?}");
}

// ---- under page tables

const BASE: u64 = 0x8000_0000;
const PAGE: u64 = 0x1000;
/// The page tables, of three levels, and the pages of code behind them, not in the order of their virtual addresses.
const ROOT: u64 = BASE + PAGE;
const LEVEL_1: u64 = BASE + 2 * PAGE;
const LEVEL_0: u64 = BASE + 3 * PAGE;
const FIRST: u64 = BASE + 6 * PAGE;
const SECOND: u64 = BASE + 5 * PAGE;
const LENGTH: usize = 7 * PAGE as usize;
/// The virtual address of the first page; the second follows it.
const CODE: u64 = 0x4000_0000;
const SATP: u64 = 8 << 60 | ROOT >> 12;

const VALID: u64 = 1;
const READ: u64 = 2;
const EXECUTE: u64 = 8;
const ACCESSED: u64 = 1 << 6;

/// What becomes of the page behind the code's first one.
#[derive(Clone, Copy, Debug, PartialEq)]
enum Next {
    Mapped,
    Accessed,
    NotMapped,
    NotExecutable,
    /// Mapped to an address where no memory is.
    NoMemory,
}

const NEXT: [Next; 5] = [
    Next::Mapped,
    Next::Accessed,
    Next::NotMapped,
    Next::NotExecutable,
    Next::NoMemory,
];

/// Two pages of code at CODE, the run at `offset` of the first and going on in the second.
fn paged(run: &[u16], offset: u64, next: Next) -> Memory {
    let mut memory = Memory::new(BASE, LENGTH);
    let mut entry = |table: u64, index: u64, page: u64, flags: u64| {
        memory.write(table + 8 * index, &(page >> 12 << 10 | flags).to_le_bytes());
    };
    entry(ROOT, CODE >> 30 & 511, LEVEL_1, VALID);
    entry(LEVEL_1, CODE >> 21 & 511, LEVEL_0, VALID);
    let code = VALID | READ | EXECUTE;
    entry(LEVEL_0, 0, FIRST, code);
    match next {
        Next::Mapped => entry(LEVEL_0, 1, SECOND, code),
        Next::Accessed => entry(LEVEL_0, 1, SECOND, code | ACCESSED),
        Next::NotMapped => {}
        Next::NotExecutable => entry(LEVEL_0, 1, SECOND, VALID | READ),
        Next::NoMemory => entry(LEVEL_0, 1, BASE + LENGTH as u64, code),
    }
    for (k, halfword) in run.iter().enumerate() {
        let at = offset + 2 * k as u64;
        let page = if at < PAGE { FIRST } else { SECOND - PAGE };
        memory.write(page + at, &halfword.to_le_bytes());
    }
    memory
}

/// A run at an address of 64 bytes of memory, without page tables.
fn bare(run: &[u16], at: u64) -> Memory {
    let mut memory = Memory::new(BASE, 64);
    let bytes: Vec<u8> = run.iter().flat_map(|half| half.to_le_bytes()).collect();
    memory.write(at, &bytes);
    memory
}

fn accessed(memory: &Memory, index: usize) -> bool {
    let at = (LEVEL_0 - BASE) as usize + 8 * index;
    memory.bytes[at] & ACCESSED as u8 != 0
}

/// The physical addresses of the halfwords fetched.
fn fetches(memory: &Memory) -> Vec<u64> {
    let fetched = |access: &Access| match access {
        Access::Fetch(addr) => Some(*addr),
        _ => None,
    };
    let accesses = memory.accesses.as_ref().unwrap();
    accesses.iter().filter_map(fetched).collect()
}

/// As much of a run at `offset` of the first page as can be fetched.
fn fetchable(run: &[u16], offset: u64, next: Next) -> &[u16] {
    let before = ((PAGE - offset) / 2) as usize;
    match next {
        Next::Mapped | Next::Accessed => run,
        _ => &run[..before.min(run.len())],
    }
}

/// The physical address of halfword k of code at `offset` of the first page.
fn physical(offset: u64, k: u64, next: Next) -> u64 {
    match (offset + 2 * k).checked_sub(PAGE) {
        None => FIRST + offset + 2 * k,
        Some(into) if next == Next::NoMemory => BASE + LENGTH as u64 + into,
        Some(into) => SECOND + into,
    }
}

/// What has to be seen of the accesses of a block at `offset` of the first page that needs so many halfwords: worked out by hand.
fn compare_accesses(compiled: &Compiled, after: &Memory, offset: u64, needed: u64, next: Next) {
    let before = (PAGE - offset) / 2;
    let crosses = before < needed;
    let stops = crosses && !matches!(next, Next::Mapped | Next::Accessed);
    assert_eq!(accessed(after, 0), before > 0);
    let sets = crosses && matches!(next, Next::Mapped | Next::NoMemory);
    assert_eq!(accessed(after, 1), sets || next == Next::Accessed);
    let asked = if stops { before + 1 } else { needed };
    // Where the page has no memory the bus is asked, and traps; of the others that stop it is not.
    let fetched = asked - (stops && next != Next::NoMemory) as u64;
    let expected = (0..fetched).map(|k| physical(offset, k, next));
    assert!(fetches(after).into_iter().eq(expected));
    let access = format!("Some((Fetch, {}, 2))", CODE + offset + 2 * (asked - 1));
    assert_eq!(compiled.last_access, access);
}

/// Each sort of end of a run, all of whose halfwords are needed.
fn ends() -> [Vec<u16>; 6] {
    [
        vec![0x006F, 0x0000], // JAL x0, 0
        vec![0x100F, 0x0000], // FENCE.I
        vec![0xB083, 0x0000], // LD x1, 0(x1)
        vec![0xC1B3, 0x4020], // funct7 0x20 on funct3 4 of OP: not taken
        vec![0x4108],         // C.LW a0, 0(a0)
        vec![0x8082],         // C.JR ra
    ]
}

/// Blocks of one to four instructions that end before, at and across the end of a page, whatever the next page is.
#[test]
fn around_the_end_of_a_page() {
    // ADDI x1, x0, 5; DIV x3, x1, x2; C.NOP; C.MV a0, a1
    let (addi, div, nop, mv) = ([0x0093, 0x0050], [0xC1B3, 0x0220], [0x0001], [0x852E]);
    let fronts: [&[&[u16]]; 6] = [
        &[],
        &[&addi],
        &[&addi, &div],
        &[&nop],
        &[&nop, &addi],
        &[&addi, &mv, &nop],
    ];
    let mut cases = 0;
    for next in NEXT {
        let mut both = Both::new(CODE_SIZE);
        for (front, end) in fronts.into_iter().flat_map(|f| ends().map(|end| (f, end))) {
            let run = [front.concat(), end].concat();
            let needed = run.len() as u64;
            // The page ends behind so many of the run's halfwords, or far behind it.
            for before in (1..=needed + 2).chain([100]) {
                both.set_satp(SATP);
                let offset = PAGE - 2 * before;
                let memories = Memories::with(&run, |run| paged(run, offset, next));
                let code = fetchable(&run, offset, next);
                let (compiled, after) = both.compile(&memories, code, CODE + offset, 64);
                compare_accesses(&compiled, &after.linked, offset, needed, next);
                cases += 1;
            }
        }
    }
    let halfwords = [0, 2, 4, 1, 3, 4];
    let of_a_front = |front: u32| 4 * (front + 2 + 3) + 2 * (front + 1 + 3);
    assert_eq!(cases, 5 * halfwords.map(of_a_front).iter().sum::<u32>());
}

/// The trap of a fetch in the first instruction is the call's; a later one ends the block.
#[test]
fn traps() {
    let run = [0x0093, 0x0050, 0x0093, 0x0050];
    let mut both = Both::new(CODE_SIZE);
    for next in [Next::NotMapped, Next::NotExecutable, Next::NoMemory] {
        for before in 0..4 {
            both.set_satp(SATP);
            let memories = Memories::with(&run, |run| paged(run, PAGE - 2 * before, next));
            let pc = CODE + PAGE - 2 * before;
            let (compiled, _) = both.compile(&memories, &run, pc, 64);
            let trap = match next {
                Next::NoMemory => {
                    let addr = BASE + LENGTH as u64;
                    format!("MemoryOutOfBounds {{ addr: {addr}, size: 2 }}")
                }
                _ => format!("PageFault {{ addr: {}, kind: Fetch }}", CODE + PAGE),
            };
            match before {
                0 | 1 => assert_eq!(compiled.result, Err(trap)),
                _ => assert_eq!(compiled.result, Ok(Some((0, 1)))),
            }
            assert!(!compiled.failed);
        }
    }
    // Without page tables: the end of memory.
    both.set_satp(0);
    for before in 0..4 {
        let at = BASE + 64 - 2 * before as u64;
        let memories = Memories::with(&run[..before], |run| bare(run, at));
        let (compiled, _) = both.compile(&memories, &run, at, 64);
        assert_eq!(compiled.result.is_err(), before < 2);
    }
}

/// How often each thing was seen at random places.
#[derive(Debug, Default)]
struct Seen {
    blocks: u32,
    traps: u32,
    crossing: u32,
    by_fence_i: u32,
    of_the_rest: u32,
    /// A reserved JALR as the first word, by which the pc is failed, and where it ends a block.
    reserved_jalr: [u32; 2],
    /// Blocks with compressed instructions in line, and those of them for which the next page is looked at.
    in_line: [u32; 2],
}

impl Seen {
    fn add(&mut self, compiled: &Compiled, run: &[u16], limit: u32, memory: &Memory) {
        match compiled.result {
            Ok(Some((_, count))) => {
                let count = count as usize;
                self.blocks += 1;
                self.by_fence_i += (instructions_to_fence_i(run) == Some(count)) as u32;
                let met = first_of_the_rest(run).is_some_and(|first| first < count);
                self.of_the_rest += met as u32;
                self.reserved_jalr[1] += ends_block(run, count, limit) as u32;
            }
            Ok(None) => {
                let first = compiled.failed && first_reserved(run) == Some(0);
                self.reserved_jalr[0] += first as u32;
            }
            Err(_) => self.traps += 1,
        }
        self.crossing += fetches(memory).iter().any(|addr| *addr < FIRST) as u32;
    }
}

/// Random runs at random places around the end of a page, the translation cache cold or warm.
#[test]
fn random_pages() {
    let mut r = Random::new(41);
    let mut both = Both::new(CODE_SIZE);
    let mut seen = Seen::default();
    for _ in 0..20_000 {
        let mut run = requests::run(&mut r);
        run.truncate(200);
        // The memory behind a run is zeros, by which its last word can be whole, and which a helper executes.
        run.extend([0, 0]);
        let offset = PAGE - 2 * r.below(80);
        let next = r.one_of(&NEXT);
        let limit = requests::limit(&mut r);
        both.set_satp(SATP);
        let mut memories = Memories::with(&run, |run| paged(run, offset, next));
        let pc = CODE + offset + r.percent(3) as u64;
        let code = fetchable(&run, offset, next);
        for _ in 0..1 + r.below(2) {
            let compiled;
            (compiled, memories) = both.compile(&memories, code, pc, limit);
            seen.add(&compiled, code, limit, &memories.linked);
            if has_in_line(&compiled, code) {
                let needed = needed(code, limit) as u64;
                compare_accesses(&compiled, &memories.linked, offset, needed, next);
                seen.in_line[(offset + 2 * needed > PAGE) as usize] += 1;
            }
            memories.forget_accesses();
        }
    }
    println!("{seen:?}");
    assert!(seen.blocks > 10_000 && seen.traps > 500, "{seen:?}");
    assert!(seen.crossing > 2_000, "{seen:?}");
    assert!(
        seen.by_fence_i > 1_000 && seen.of_the_rest > 5_000,
        "{seen:?}"
    );
    assert!(seen.reserved_jalr.iter().all(|n| *n > 20), "{seen:?}");
    assert!(seen.in_line.iter().all(|n| *n > 1_000), "{seen:?}");
}

/// What one of them compiles at the end of a page, the next one being mapped, and the memory behind it.
fn at_the_end_of_a_page<E: Emuko>(run: &[u16]) -> (Compiled, Memory) {
    let offset = PAGE - 4;
    let mut memory = paged(run, offset, Next::Mapped);
    let mut emuko = E::new(CODE_SIZE);
    emuko.set_satp(SATP);
    let compiled = emuko.compile(&mut memory, CODE + offset, 64);
    (compiled, memory)
}

/// Where the two differ: FENCE.I is the last word of a page and ADDI the first of the next. The original fetches that, sets the next
/// page's accessed bit and has both words in its block; the linked one ends behind FENCE.I and leaves the next page alone.
#[test]
fn behind_fence_i() {
    let run = [0x100F, 0x0000, 0x0093, 0x0050, 0x0073, 0x0000];
    let (original, memory) = at_the_end_of_a_page::<Original>(&run);
    assert_eq!((original.result, original.used), (Ok(Some((0, 2))), 88));
    assert_eq!(fetches(&memory).len(), 6);
    assert!(accessed(&memory, 1));
    let (linked, memory) = at_the_end_of_a_page::<Linked>(&run);
    assert_eq!((linked.result, linked.used), (Ok(Some((0, 1))), 67));
    assert_eq!(fetches(&memory).len(), 2);
    assert!(!accessed(&memory, 1));
}

/// And the other way round: DIV x3, x1, x2 is the last word of a page and ADDI the first of the next. The original refuses DIV, marks its
/// pc as failed and leaves the next page alone; the linked one has both words in its block.
#[test]
fn at_div() {
    let run = [0xC1B3, 0x0220, 0x0093, 0x0050, 0x0073, 0x0000];
    let (original, memory) = at_the_end_of_a_page::<Original>(&run);
    assert_eq!((original.result, original.failed), (Ok(None), true));
    assert_eq!(fetches(&memory).len(), 2);
    assert!(!accessed(&memory, 1));
    let (linked, memory) = at_the_end_of_a_page::<Linked>(&run);
    assert_eq!((linked.result, linked.failed), (Ok(Some((0, 2))), false));
    assert_eq!(linked.used, 67 + 55 + 21);
    assert_eq!(fetches(&memory).len(), 6);
    assert!(accessed(&memory, 1));
}

/// JALR's opcode with funct3 1: the original has a block for it; the linked one fetches it, refuses it and marks its pc as failed. Behind
/// ADDI both fetch it too, and the linked one's block ends before it, without a byte of it.
#[test]
fn at_a_reserved_jalr() {
    let reserved = [0x9067, 0x0000, 0x0000, 0x0000];
    let behind = [0x0093, 0x0050, 0x9067, 0x0000];
    for (run, original, linked, used, fetched) in [
        (reserved, (0, 1), None, [81, 0], 2),
        (behind, (0, 2), Some((0, 1)), [102, 88], 4),
    ] {
        let (by_original, memory) = at_the_end_of_a_page::<Original>(&run);
        assert_eq!(by_original.result, Ok(Some(original)));
        assert_eq!((by_original.failed, by_original.used), (false, used[0]));
        assert_eq!(fetches(&memory).len(), fetched);
        let (by_linked, memory) = at_the_end_of_a_page::<Linked>(&run);
        assert_eq!(by_linked.result, Ok(linked));
        assert_eq!(
            (by_linked.failed, by_linked.used),
            (linked.is_none(), used[1])
        );
        assert_eq!(fetches(&memory).len(), fetched);
    }
}

/// Two times C.NOP are the last halfwords of a page, and ADDI is the first word of the next. The original hands the first to a helper and
/// leaves all else alone; the linked one has the three in its block.
#[test]
fn at_a_compressed_instruction() {
    let run = [0x0001, 0x0001, 0x0093, 0x0050, 0x0073, 0x0000];
    let (original, memory) = at_the_end_of_a_page::<Original>(&run);
    assert_eq!((original.result, original.used), (Ok(Some((0, 1))), 88));
    assert_eq!(fetches(&memory).len(), 1);
    assert!(!accessed(&memory, 1));
    let (linked, memory) = at_the_end_of_a_page::<Linked>(&run);
    assert_eq!(linked.result, Ok(Some((0, 3))));
    assert_eq!(linked.used, 67 + 14 + 14 + 21);
    assert_eq!(fetches(&memory).len(), 6);
    assert!(accessed(&memory, 1));
}

/// Nothing is fetched, and the last access stays, where the limit is 0, the pc is odd or the translator is not enabled.
#[test]
fn nothing_fetched() {
    let memories = Memories::with(&[], |run| bare(run, BASE));
    let mut both = Both::new(CODE_SIZE);
    let (compiled, after) = both.compile(&memories, &[], BASE, 0);
    let fetched = |after: Memories| fetches(&after.linked);
    assert_eq!((compiled.result, fetched(after)), (Ok(None), vec![]));
    let (compiled, after) = both.compile(&memories, &[], BASE + 1, 64);
    let trap = format!("MisalignedAccess {{ addr: {}, size: 2 }}", BASE + 1);
    assert_eq!((compiled.result, fetched(after)), (Err(trap), vec![]));
    let (compiled, _) = both.compile(&memories, &[], BASE + 1, 0);
    assert_eq!(compiled.result, Ok(None));
    assert_eq!(compiled.last_access, "None");
    both.set_enabled(false);
    let (compiled, after) = both.compile(&memories, &[], BASE, 64);
    assert_eq!((compiled.result, fetched(after)), (Ok(None), vec![]));
    assert!(!compiled.enabled);
}

/// A store without room for the next block turns the translator off.
#[test]
fn a_full_store() {
    let run = [0x0093, 0x0050, 0x0073, 0x0000];
    let memories = Memories::with(&run, |run| bare(run, BASE));
    let mut both = Both::new(200);
    let (compiled, _) = both.compile(&memories, &run, BASE, 64);
    assert_eq!(compiled.result, Ok(Some((0, 1))));
    let (compiled, _) = both.compile(&memories, &run, BASE, 64);
    assert_eq!((compiled.result, compiled.used), (Ok(Some((88, 1))), 176));
    let (compiled, _) = both.compile(&memories, &run, BASE, 64);
    assert_eq!((compiled.result, compiled.enabled), (Ok(None), false));
    assert_eq!(compiled.found, Some((88, 1)));
}

// ---- what is traced

/// Run by `traces` in a process of its own, whose standard error it reads.
#[test]
#[ignore = "run by `traces`"]
fn traced() {
    fn asked(start: u64, limit: u32, halfwords: &[u16]) -> Asked<'_> {
        Asked {
            start,
            limit,
            halfwords,
            helpers: HELPERS,
        }
    }
    /// `seen` is as much of a run as the emulator is given.
    fn trace<E: Emuko>(seen: fn(&[u16]) -> &[u16]) {
        let mut emuko = E::new(CODE_SIZE);
        emuko.set_trace(true);
        let mut r = Random::new(42);
        for _ in 0..200 {
            // Instructions are traced with their numbers, so that both must be given the same ones.
            let run = requests::run(&mut r);
            let run = with_stand_ins(before_in_line(&run));
            let start = requests::start(&mut r);
            let limit = requests::limit(&mut r);
            emuko.translate(asked(start, limit, seen(&run)), &mut Vec::new());
        }
        let run = words::halves(0x0000_0073);
        emuko.translate(asked(BASE, 64, &run), &mut Vec::new());
    }
    match std::env::var("EMUKO_TRACED").as_deref() {
        Ok("original") => trace::<Original>(cut),
        Ok("linked") => trace::<Linked>(|run| run),
        Ok("compressed") => {
            let mut linked = Linked::new(CODE_SIZE);
            linked.set_trace(true);
            // C.NOP; ADDI x1, x0, 5; C.MV a0, a1; C.LW a0, 0(a0)
            let run = [0x0001, 0x0093, 0x0050, 0x852E, 0x4108, 0x0001];
            linked.translate(asked(BASE, 64, &run), &mut Vec::new());
        }
        _ => {}
    }
}

/// What `traced` prints.
fn traced_by(which: &str) -> String {
    let output = Command::new(std::env::current_exe().unwrap())
        .args(["--exact", "linked::traced", "--ignored", "--nocapture"])
        .env("EMUKO_TRACED", which)
        .output()
        .unwrap();
    assert!(output.status.success());
    String::from_utf8(output.stderr).unwrap()
}

#[test]
fn traces() {
    let original = traced_by("original");
    assert_eq!(traced_by("linked"), original);
    let lines = [
        "jit-x64: compile-enter",
        "fetch-trap=",
        "unsupported i32=",
        "jit-x64: compiled",
        " c16=",
        " i32=",
    ];
    for line in lines {
        assert!(original.contains(line), "{line}");
    }
}

/// Instructions of two and of four bytes, with their numbers and where they stand.
#[test]
fn traces_of_compressed_instructions() {
    let traced = traced_by("compressed");
    let lines: Vec<&str> = traced
        .lines()
        .filter(|line| line.contains("   pc="))
        .collect();
    let expected = [
        "  jit-x64:   pc=0x0000000080000000 c16=0x0001 halfword 1",
        "  jit-x64:   pc=0x0000000080000002 i32=0x00500093 word 5243027",
        "  jit-x64:   pc=0x0000000080000006 c16=0x852e halfword 34094",
        "  jit-x64:   pc=0x0000000080000008 c16=0x4108 halfword 16648",
    ];
    assert_eq!(lines, expected);
}
