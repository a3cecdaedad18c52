//! What the tests stand on, without a test of its own: random numbers, words, runs and requests; the original Rust as the judge of a reply;
//! the host's side of an entered block.

pub mod judged;
#[cfg(all(target_arch = "x86_64", target_os = "linux"))]
pub mod machine;
#[cfg(all(target_arch = "x86_64", target_os = "linux"))]
pub mod mapped;
pub mod random;
pub mod requests;
pub mod runs;
pub mod words;
