// Stands for src/sbi.rs: hart.rs names the trait.
pub trait Sbi {}
