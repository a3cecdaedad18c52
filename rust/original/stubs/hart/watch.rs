// Stands for src/hart/watch.rs, which entering blocks uses and translation does not.
use super::*;

impl Hart {
    pub(super) fn has_debug_hooks(&self) -> bool {
        unreachable!()
    }
}
