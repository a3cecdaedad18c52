//! One program of tests: the crate against the original Rust, emuko linked with it against the original emulator, blocks entered on this
//! processor against an interpreter of the RISC-V manual, document 01's cases, the index of blocks, what a write drops of it, blocks kept
//! while code changes, the C header, README's lines and what the papers say of the repository. Seeds are fixed.

// What the archive's declarations name.
use emuko_x64_blocks::{Entry, NativeBlock};

mod against_original;
// The archive as C sees it: the crate's own declarations.
#[path = "../../src/archive.rs"]
mod archive;
mod buckets;
mod cases;
mod compressed;
mod drops;
#[cfg(all(target_arch = "x86_64", target_os = "linux"))]
mod entered;
#[cfg(all(target_arch = "x86_64", target_os = "linux"))]
mod entered_m;
mod fence_i;
#[cfg(all(target_arch = "x86_64", target_os = "linux"))]
mod guests;
mod in_c;
mod index;
mod index_random;
#[cfg(all(target_arch = "x86_64", target_os = "linux"))]
mod kept;
mod kinds;
mod linked;
#[cfg(all(target_arch = "x86_64", target_os = "linux"))]
mod manual;
mod papers;
mod placing;
mod readme;
mod reserved_jalr;
mod rest_of_m;
mod run;
mod spans;
mod support;
