//! What the tests stand on too.

#[path = "../../tests/suite/support/mapped.rs"]
pub mod mapped;
#[path = "../../tests/suite/support/random.rs"]
pub mod random;
#[path = "../../tests/suite/support/words.rs"]
pub mod words;
