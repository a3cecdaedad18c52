//! This crate and the original Rust side by side: time, stack, code size; compressed instructions beside words; blocks beside what rustc
//! makes of the same operations; an index of blocks beside a map.
//! `cargo bench --offline`; docs/PERFORMANCE.md says what is compared with what.

mod compressed;
mod entering;
mod index;
mod linked;
mod runs;
mod size;
mod stack;
#[allow(dead_code)]
mod support;
mod time;
mod translating;

fn main() {
    translating::rows();
    compressed::rows();
    linked::rows();
    entering::rows();
    index::rows();
    stack::rows();
    size::rows();
}
