// Stands for src/hart/trap_handlers.rs. The helpers call it when they are entered; here only their addresses are used.
use super::*;

impl Hart {
    pub(super) fn handle_trap(&mut self, _trap: Trap) {
        unreachable!()
    }
}
