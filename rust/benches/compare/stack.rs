//! The bytes of stack that a translation uses.

use crate::runs::{cases, rest_of_m, Case, START};
use emuko_original::{Emuko, Original, CODE_SIZE};
use emuko_x64_blocks::{place, translate, Request, GREATEST_BLOCK};
use std::ffi::c_void;
use std::hint::black_box;

std::arch::global_asm!(
    // Calls a function of one argument on another stack: its top in RDI, the function in RSI, the argument in RDX.
    "emuko_bench_call_on:",
    "push rbp",
    "mov rbp, rsp",
    "mov rsp, rdi",
    "mov rdi, rdx",
    "call rsi",
    "mov rsp, rbp",
    "pop rbp",
    "ret",
);

extern "C" {
    fn emuko_bench_call_on(top: *mut u8, function: extern "C" fn(*mut c_void), task: *mut c_void);
}

struct Task<'a> {
    case: &'a Case,
    original: &'a Original,
    out: Vec<u8>,
    bytes: Vec<u8>,
}

extern "C" fn nothing(_task: *mut c_void) {}

extern "C" fn new(task: *mut c_void) {
    // SAFETY: `depth` passes a task that lives during the call and that no one else uses.
    let task = unsafe { &mut *task.cast::<Task>() };
    let _ = black_box(translate(
        &Request::new(START, &task.case.run),
        &mut task.out,
    ));
}

extern "C" fn old(task: *mut c_void) {
    // SAFETY: As above.
    let task = unsafe { &mut *task.cast::<Task>() };
    black_box(
        task.original
            .emit(START, 64, &task.case.run, &mut task.bytes),
    );
}

extern "C" fn new_place(task: *mut c_void) {
    // SAFETY: As above.
    let task = unsafe { &mut *task.cast::<Task>() };
    let _ = black_box(place(&task.bytes, &mut task.out, 5));
}

extern "C" fn old_place(task: *mut c_void) {
    // SAFETY: As above.
    let task = unsafe { &mut *task.cast::<Task>() };
    black_box(Original::place(&task.bytes, &mut task.out, 5));
}

/// The bytes of stack that a call uses: a painted stack, and how deep the paint is gone.
fn depth(function: extern "C" fn(*mut c_void), task: &mut Task) -> usize {
    const PAINT: u8 = 0xA5;
    let mut stack = vec![PAINT; 1 << 16];
    let range = stack.as_mut_ptr_range();
    let top = range.end as usize / 16 * 16;
    // SAFETY: The stack is 64 KiB, far more than the functions need, and the task lives during the call.
    unsafe { emuko_bench_call_on(top as *mut u8, function, (&raw mut *task).cast()) };
    let untouched = stack.iter().take_while(|byte| **byte == PAINT).count();
    top - (range.start as usize + untouched)
}

fn task<'a>(case: &'a Case, original: &'a Original) -> Task<'a> {
    Task {
        case,
        original,
        out: vec![0; GREATEST_BLOCK],
        bytes: Vec::with_capacity(4096),
    }
}

pub fn rows() {
    let original = Original::new(CODE_SIZE);
    println!();
    println!("{:34}{:>12}{:>12}", "stack, bytes", "this", "original");
    for case in &cases() {
        let mut task = task(case, &original);
        // The call's own eight bytes are in every measurement.
        assert_eq!(depth(nothing, &mut task), 8);
        let (new, old) = (depth(new, &mut task), depth(old, &mut task));
        println!("{:34}{new:12}{old:12}", case.name);
    }
    for case in &rest_of_m() {
        let new = depth(new, &mut task(case, &original));
        println!("{:34}{new:12}{:>12}", case.name, "-");
    }
    for length in [2243, 4099] {
        let cases = cases();
        let mut task = task(&cases[0], &original);
        task.out = vec![0; 8192];
        task.bytes = vec![0x5A; length];
        let (new, old) = (depth(new_place, &mut task), depth(old_place, &mut task));
        let name = format!("placing {length} bytes");
        println!("{name:34}{new:12}{old:12}");
    }
}
