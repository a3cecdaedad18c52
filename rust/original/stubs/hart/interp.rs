// Stands for src/hart/interp.rs. The helper of compressed halfwords calls it, when it is entered; here only its address is used.
use super::*;

impl Hart {
    pub(super) fn exec_compressed(
        &mut self,
        _bus: &mut (impl Bus + ?Sized),
        _instr: u16,
    ) -> Result<(), Trap> {
        unreachable!()
    }
}
