// Stands for src/disas.rs, which only traces use.
pub fn disas16(instr: u16) -> String {
    format!("halfword {instr}")
}

pub fn disas32(instr: u32) -> String {
    format!("word {instr}")
}
