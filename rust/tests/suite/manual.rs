//! The RISC-V Unprivileged manual as a plain interpreter, for the words that document 01 and request Q-2 take and the compressed ones of
//! request Q-7, and document 01's run of turns over it. It knows nothing of blocks or of the host.

use crate::compressed::in_line;

#[derive(Clone, Copy, Debug, PartialEq, Eq)]
enum Name {
    Lui,
    Auipc,
    Jal,
    Jalr,
    Beq,
    Bne,
    Blt,
    Bge,
    Bltu,
    Bgeu,
    Load,
    Store,
    Addi,
    Slti,
    Sltiu,
    Xori,
    Ori,
    Andi,
    Slli,
    Srli,
    Srai,
    Add,
    Sub,
    Sll,
    Slt,
    Sltu,
    Xor,
    Srl,
    Sra,
    Or,
    And,
    Mul,
    Mulh,
    Mulhsu,
    Mulhu,
    Div,
    Divu,
    Rem,
    Remu,
    Addiw,
    Slliw,
    Srliw,
    Sraiw,
    Addw,
    Subw,
    Sllw,
    Srlw,
    Sraw,
    Mulw,
    Divw,
    Divuw,
    Remw,
    Remuw,
    Fence,
    FenceI,
}

/// Bits `high` to `low` of a word.
fn bits(word: u32, high: u32, low: u32) -> u32 {
    (word >> low) & (((1u64 << (high - low + 1)) - 1) as u32)
}

/// The instruction set listings; the other fields of fences are ignored, as the manual and document 01 have it.
fn name(word: u32) -> Option<Name> {
    use Name::*;
    let (funct3, funct7) = (bits(word, 14, 12), bits(word, 31, 25));
    Some(match (bits(word, 6, 0), funct3) {
        (0b0110111, _) => Lui,
        (0b0010111, _) => Auipc,
        (0b1101111, _) => Jal,
        (0b1100111, 0b000) => Jalr,
        (0b1100011, 0b000) => Beq,
        (0b1100011, 0b001) => Bne,
        (0b1100011, 0b100) => Blt,
        (0b1100011, 0b101) => Bge,
        (0b1100011, 0b110) => Bltu,
        (0b1100011, 0b111) => Bgeu,
        (0b0000011, 0b000..=0b110) => Load,
        (0b0100011, 0b000..=0b011) => Store,
        (0b0010011, 0b000) => Addi,
        (0b0010011, 0b010) => Slti,
        (0b0010011, 0b011) => Sltiu,
        (0b0010011, 0b100) => Xori,
        (0b0010011, 0b110) => Ori,
        (0b0010011, 0b111) => Andi,
        (0b0010011, 0b001) if bits(word, 31, 26) == 0b000000 => Slli,
        (0b0010011, 0b101) if bits(word, 31, 26) == 0b000000 => Srli,
        (0b0010011, 0b101) if bits(word, 31, 26) == 0b010000 => Srai,
        (0b0011011, 0b000) => Addiw,
        (0b0011011, 0b001) if funct7 == 0b0000000 => Slliw,
        (0b0011011, 0b101) if funct7 == 0b0000000 => Srliw,
        (0b0011011, 0b101) if funct7 == 0b0100000 => Sraiw,
        (0b0110011, _) => return op_name(funct7, funct3),
        (0b0111011, _) => return op_32_name(funct7, funct3),
        (0b0001111, 0b000) => Fence,
        (0b0001111, 0b001) => FenceI,
        _ => return None,
    })
}

/// The listings' rows of opcode 0110011: those of RV32I, and RV32M.
fn op_name(funct7: u32, funct3: u32) -> Option<Name> {
    use Name::*;
    Some(match (funct7, funct3) {
        (0b0000000, 0b000) => Add,
        (0b0100000, 0b000) => Sub,
        (0b0000000, 0b001) => Sll,
        (0b0000000, 0b010) => Slt,
        (0b0000000, 0b011) => Sltu,
        (0b0000000, 0b100) => Xor,
        (0b0000000, 0b101) => Srl,
        (0b0100000, 0b101) => Sra,
        (0b0000000, 0b110) => Or,
        (0b0000000, 0b111) => And,
        (0b0000001, 0b000) => Mul,
        (0b0000001, 0b001) => Mulh,
        (0b0000001, 0b010) => Mulhsu,
        (0b0000001, 0b011) => Mulhu,
        (0b0000001, 0b100) => Div,
        (0b0000001, 0b101) => Divu,
        (0b0000001, 0b110) => Rem,
        (0b0000001, 0b111) => Remu,
        _ => return None,
    })
}

/// The listings' rows of opcode 0111011: those of RV64I, and RV64M.
fn op_32_name(funct7: u32, funct3: u32) -> Option<Name> {
    use Name::*;
    Some(match (funct7, funct3) {
        (0b0000000, 0b000) => Addw,
        (0b0100000, 0b000) => Subw,
        (0b0000000, 0b001) => Sllw,
        (0b0000000, 0b101) => Srlw,
        (0b0100000, 0b101) => Sraw,
        (0b0000001, 0b000) => Mulw,
        (0b0000001, 0b100) => Divw,
        (0b0000001, 0b101) => Divuw,
        (0b0000001, 0b110) => Remw,
        (0b0000001, 0b111) => Remuw,
        _ => return None,
    })
}

/// A number of this many bits, sign-extended to 64.
fn extend(number: u32, width: u32) -> u64 {
    let sign = 1u64 << (width - 1);
    (number as u64 ^ sign).wrapping_sub(sign)
}

/// The low 32 bits, sign-extended to 64: the result of every W instruction.
fn low_word(number: u64) -> u64 {
    extend(number as u32, 32)
}

fn immediate_i(word: u32) -> u64 {
    extend(bits(word, 31, 20), 12)
}

fn immediate_b(word: u32) -> u64 {
    let (twelfth, eleventh) = (bits(word, 31, 31), bits(word, 7, 7));
    extend(
        twelfth << 12 | eleventh << 11 | bits(word, 30, 25) << 5 | bits(word, 11, 8) << 1,
        13,
    )
}

fn immediate_u(word: u32) -> u64 {
    extend(bits(word, 31, 12) << 12, 32)
}

fn immediate_j(word: u32) -> u64 {
    let (twentieth, eleventh) = (bits(word, 31, 31), bits(word, 20, 20));
    extend(
        twentieth << 20 | bits(word, 19, 12) << 12 | eleventh << 11 | bits(word, 30, 21) << 1,
        21,
    )
}

fn signed(number: u64) -> i64 {
    number as i64
}

/// Whether a branch is taken, if it is one.
fn branches(name: Name, a: u64, b: u64) -> Option<bool> {
    use Name::*;
    Some(match name {
        Beq => a == b,
        Bne => a != b,
        Blt => signed(a) < signed(b),
        Bge => signed(a) >= signed(b),
        Bltu => a < b,
        Bgeu => a >= b,
        _ => return None,
    })
}

/// The value of a register and an immediate, if the instruction is one of these.
fn of_immediate(name: Name, a: u64, word: u32) -> Option<u64> {
    use Name::*;
    let i = immediate_i(word);
    let (six, five) = (bits(word, 25, 20), bits(word, 24, 20));
    Some(match name {
        Addi => a.wrapping_add(i),
        Slti => (signed(a) < signed(i)) as u64,
        Sltiu => (a < i) as u64,
        Xori => a ^ i,
        Ori => a | i,
        Andi => a & i,
        Slli => a << six,
        Srli => a >> six,
        Srai => (signed(a) >> six) as u64,
        Addiw => low_word(a.wrapping_add(i)),
        Slliw => low_word(a << five),
        Srliw => low_word(((a as u32) >> five) as u64),
        Sraiw => low_word(((a as u32 as i32) >> five) as u64),
        _ => return None,
    })
}

/// The value of two registers by RV64I, if the instruction is one of these.
fn of_registers(name: Name, a: u64, b: u64) -> Option<u64> {
    use Name::*;
    Some(match name {
        Add => a.wrapping_add(b),
        Sub => a.wrapping_sub(b),
        Sll => a << (b % 64),
        Slt => (signed(a) < signed(b)) as u64,
        Sltu => (a < b) as u64,
        Xor => a ^ b,
        Srl => a >> (b % 64),
        Sra => (signed(a) >> (b % 64)) as u64,
        Or => a | b,
        And => a & b,
        Addw => low_word(a.wrapping_add(b)),
        Subw => low_word(a.wrapping_sub(b)),
        Sllw => low_word(a << (b % 32)),
        Srlw => low_word(((a as u32) >> (b % 32)) as u64),
        Sraw => low_word(((a as u32 as i32) >> (b % 32)) as u64),
        _ => return None,
    })
}

/// Quotient and remainder by chapter M, of operands of so many bits as whole numbers. The quotient is rounded towards zero; of the
/// remainder, "the sign of the result equals the sign of the dividend". The exceptions: "The quotient of division by zero has all bits
/// set, and the remainder of division by zero equals the dividend"; where "the most-negative integer is divided by -1", which no unsigned
/// operands are, the quotient "is equal to the dividend, and the remainder is zero".
fn divided(bits: u32, dividend: i128, divisor: i128) -> (i128, i128) {
    let most_negative = -(1i128 << (bits - 1));
    if divisor == 0 {
        (-1, dividend)
    } else if dividend == most_negative && divisor == -1 {
        (most_negative, 0)
    } else {
        (dividend / divisor, dividend % divisor)
    }
}

/// The value of two registers by chapter M, if the instruction is one of its. MULH, MULHSU and MULHU "return the upper XLEN bits of the
/// full 2×XLEN-bit product"; MULHSU has a signed rs1 and an unsigned rs2. The W forms take the lower 32 bits of both registers, and
/// every one of them, DIVUW and REMUW too, sign-extends its 32-bit result.
fn of_m(name: Name, a: u64, b: u64) -> Option<u64> {
    use Name::*;
    let (sa, sb) = (i128::from(a as i64), i128::from(b as i64));
    let (ua, ub) = (i128::from(a), i128::from(b));
    let (swa, swb) = (i128::from(a as i32), i128::from(b as i32));
    let (uwa, uwb) = (i128::from(a as u32), i128::from(b as u32));
    let value = match name {
        Mul => sa * sb,
        Mulh => (sa * sb) >> 64,
        Mulhsu => (sa * ub) >> 64,
        Mulhu => ((u128::from(a) * u128::from(b)) >> 64) as i128,
        Div => divided(64, sa, sb).0,
        Divu => divided(64, ua, ub).0,
        Rem => divided(64, sa, sb).1,
        Remu => divided(64, ua, ub).1,
        Mulw => swa * swb,
        Divw => divided(32, swa, swb).0,
        Divuw => divided(32, uwa, uwb).0,
        Remw => divided(32, swa, swb).1,
        Remuw => divided(32, uwa, uwb).1,
        _ => return None,
    };
    Some(match name {
        Mulw | Divw | Divuw | Remw | Remuw => low_word(value as u64),
        _ => value as u64,
    })
}

/// What became of one instruction.
enum Step {
    Next,
    Ends,
    ByHelper,
    NotTaken,
}

/// What became of a turn.
#[derive(Clone, Copy, Debug, PartialEq, Eq)]
pub enum Turn {
    /// Refused by the table of replies; nothing has changed.
    Refused,
    /// So many instructions were executed.
    Plain { added: u64 },
    /// So many were executed, then this one is the helper's.
    Helper {
        added: u64,
        instruction: u32,
        compressed: bool,
    },
}

/// The state of the run: registers, pc, count.
#[derive(Clone, Debug)]
pub struct Run {
    pub x: [u64; 32],
    pub pc: u64,
    pub count: u64,
}

impl Run {
    fn set(&mut self, rd: usize, value: u64) {
        if rd != 0 {
            self.x[rd] = value;
        }
    }

    /// The value that a straight word puts into rd; none for FENCE.
    fn value(&self, name: Name, word: u32, a: u64, b: u64) -> Option<u64> {
        match name {
            Name::Lui => Some(immediate_u(word)),
            Name::Auipc => Some(self.pc.wrapping_add(immediate_u(word))),
            Name::Fence => None,
            _ => Some(
                of_immediate(name, a, word)
                    .or_else(|| of_registers(name, a, b))
                    .or_else(|| of_m(name, a, b))
                    .expect("every other word has a value"),
            ),
        }
    }

    /// The link goes to rd, and the pc to the target.
    fn jump(&mut self, rd: usize, link: u64, target: u64) -> Step {
        self.set(rd, link);
        self.pc = target;
        Step::Ends
    }

    /// An instruction of so many bytes. Chapter C has each compressed one "expand into a single 32-bit instruction"; "C.JALR ... writes the
    /// address of the instruction following the jump (pc+2)".
    fn step(&mut self, word: u32, size: u64) -> Step {
        let Some(name) = name(word) else {
            return Step::NotTaken;
        };
        let rd = bits(word, 11, 7) as usize;
        let a = self.x[bits(word, 19, 15) as usize];
        let b = self.x[bits(word, 24, 20) as usize];
        let next = self.pc.wrapping_add(size);
        if let Some(taken) = branches(name, a, b) {
            let target = self.pc.wrapping_add(immediate_b(word));
            self.pc = if taken { target } else { next };
            return Step::Ends;
        }
        match name {
            Name::Load | Name::Store => return Step::ByHelper,
            Name::Jal => return self.jump(rd, next, self.pc.wrapping_add(immediate_j(word))),
            Name::Jalr => return self.jump(rd, next, a.wrapping_add(immediate_i(word)) & !1),
            // "a subsequent instruction fetch on a RISC-V hart will see any previous data stores": what stands behind it is the next
            // turn's, fetched then.
            Name::FenceI => {
                self.pc = next;
                return Step::Ends;
            }
            _ => {}
        }
        if let Some(value) = self.value(name, word, a, b) {
            self.set(rd, value);
        }
        self.pc = next;
        Step::Next
    }

    /// One turn, fed limit, halfwords from the pc on and the output's length.
    pub fn turn(&mut self, limit: u32, halfwords: &[u16], output: usize) -> Turn {
        if limit == 0 || self.pc % 2 == 1 || output < 4099 {
            return Turn::Refused;
        }
        let mut added = 0;
        let mut rest = halfwords;
        for _ in 0..limit.min(64) {
            let by_helper = |instruction, compressed| Turn::Helper {
                added,
                instruction,
                compressed,
            };
            let (word, length) = match *rest {
                [low, ..] if low & 3 != 3 => match in_line(low) {
                    Some(word) => (word, 1),
                    None => return by_helper(low as u32, true),
                },
                [low, high, ..] => ((high as u32) << 16 | low as u32, 2),
                _ => break,
            };
            rest = &rest[length..];
            match self.step(word, 2 * length as u64) {
                Step::NotTaken => break,
                Step::ByHelper => return by_helper(word, false),
                Step::Ends => {
                    added += 1;
                    break;
                }
                Step::Next => added += 1,
            }
        }
        if added == 0 {
            return Turn::Refused;
        }
        self.count += added;
        Turn::Plain { added }
    }

    /// What a helper left becomes the state.
    pub fn resume(&mut self, slots: [u64; 32], pc: u64) {
        self.x = slots;
        self.pc = pc;
        self.count = 0;
    }
}

/// x3 and the pc behind one word at 0x1000, x1 and x2 being these.
pub fn behind(word: u32, a: u64, b: u64) -> (u64, u64) {
    let mut run = Run {
        x: [0; 32],
        pc: 0x1000,
        count: 0,
    };
    (run.x[1], run.x[2]) = (a, b);
    let turn = run.turn(1, &[word as u16, (word >> 16) as u16], 4099);
    assert_eq!(turn, Turn::Plain { added: 1 }, "{word:08x}");
    (run.x[3], run.pc)
}

/// Values worked out from the manual's text by hand: the interpreter is itself to be believed, so it has cases of its own.
#[test]
fn by_hand() {
    let run = behind;
    let minus = |n: u64| 0u64.wrapping_sub(n);
    let min = 1 << 63;
    // LUI and AUIPC x3, 0x80000
    assert_eq!(run(0x8000_01B7, 0, 0).0, 0xFFFF_FFFF_8000_0000);
    assert_eq!(run(0x8000_0197, 0, 0).0, 0xFFFF_FFFF_8000_1000);
    // JAL x3, -4; JALR x3, 3(x1)
    assert_eq!(run(0xFFDF_F1EF, 0, 0), (0x1004, 0xFFC));
    assert_eq!(run(0x0030_81E7, 0x2000, 0), (0x1004, 0x2002));
    // BLT, BGE, BLTU, BGEU x1, x2, 8
    assert_eq!(run(0x0020_C463, min, 1).1, 0x1008);
    assert_eq!(run(0x0020_D463, min, 1).1, 0x1004);
    assert_eq!(run(0x0020_E463, min, 1).1, 0x1004);
    assert_eq!(run(0x0020_F463, min, 1).1, 0x1008);
    // SLTI and SLTIU x3, x1, -1
    assert_eq!(run(0xFFF0_A193, min, 0).0, 1);
    assert_eq!(run(0xFFF0_B193, 5, 0).0, 1);
    // SRAI x3, x1, 63; SRL, SRA, SLL x3, x1, x2 by 65
    assert_eq!(run(0x43F0_D193, min, 0).0, minus(1));
    assert_eq!(run(0x0020_D1B3, min, 65).0, 1 << 62);
    assert_eq!(run(0x4020_D1B3, min, 65).0, 3 << 62);
    assert_eq!(run(0x0020_91B3, 3, 65).0, 6);
    // SRAW and SRLW by 33: five bits of the amount, 32 of the value
    assert_eq!(run(0x4020_D1BB, 0x8000_0000, 33).0, 0xFFFF_FFFF_C000_0000);
    assert_eq!(run(0x0020_D1BB, 0x8000_0000, 33).0, 0x4000_0000);
    assert_eq!(run(0x0020_D1BB, 0x8000_0000, 32).0, 0xFFFF_FFFF_8000_0000);
    // ADDW, SUBW, MULW, ADDIW -1
    assert_eq!(run(0x0020_81BB, 0x7FFF_FFFF, 1).0, 0xFFFF_FFFF_8000_0000);
    assert_eq!(run(0x4020_81BB, 0, 1).0, minus(1));
    assert_eq!(run(0x0220_81BB, 0x1_0001, 0x1_0000).0, 0x1_0000);
    assert_eq!(run(0xFFF0_819B, 0x1_0000_0000, 0).0, minus(1));
    // SUB
    assert_eq!(run(0x4020_81B3, 3, 5).0, minus(2));
}

/// Compressed instructions at 0x1000: the next pc is two bytes on, and so is what is linked to; a load is the helper's.
#[test]
fn compressed_by_hand() {
    let turn = |halfwords: &[u16]| {
        let mut run = Run {
            x: [0; 32],
            pc: 0x1000,
            count: 0,
        };
        run.x[1] = 0x2001;
        let turn = run.turn(64, halfwords, 4099);
        (turn, run)
    };
    // C.LI a0, -1; ADDI x3, x3, 1; C.MV a1, a0
    let (plain, run) = turn(&[0x557D, 0x8193, 0x0011, 0x85AA]);
    assert_eq!((plain, run.pc), (Turn::Plain { added: 3 }, 0x1008));
    assert_eq!(run.x[3..12], [1, 0, 0, 0, 0, 0, 0, u64::MAX, u64::MAX]);
    // C.JALR ra behind C.NOP; C.BEQZ a0, 4 and C.BNEZ a0, 4; C.J -2
    let (plain, run) = turn(&[0x0001, 0x9082, 0x0001]);
    assert_eq!((plain, run.pc), (Turn::Plain { added: 2 }, 0x2000));
    assert_eq!(run.x[1], 0x1004);
    assert_eq!(turn(&[0x0001, 0xC111]).1.pc, 0x1006);
    assert_eq!(turn(&[0x0001, 0xE111]).1.pc, 0x1004);
    assert_eq!(turn(&[0xBFFD]).1.pc, 0x0FFE);
    // C.LW a0, 0(a0) behind C.NOP
    let helper = Turn::Helper {
        added: 1,
        instruction: 0x4108,
        compressed: true,
    };
    let (by_helper, run) = turn(&[0x0001, 0x4108]);
    assert_eq!((by_helper, run.pc), (helper, 0x1002));
    // Half a word behind it.
    assert_eq!(turn(&[0x0001, 0x0093]).0, Turn::Plain { added: 1 });
    assert_eq!(turn(&[0x0093]).0, Turn::Refused);
}

/// ADDI x3, x3, 1 behind a fence: FENCE goes on to it, FENCE.I ends its turn.
#[test]
fn fences_by_hand() {
    let turn = |fence: u16| {
        let mut run = Run {
            x: [0; 32],
            pc: 0x1000,
            count: 0,
        };
        let turn = run.turn(64, &[fence, 0x0000, 0x8193, 0x0011], 4099);
        (turn, run.x[3], run.pc, run.count)
    };
    assert_eq!(turn(0x000F), (Turn::Plain { added: 2 }, 1, 0x1008, 2));
    assert_eq!(turn(0x100F), (Turn::Plain { added: 1 }, 0, 0x1004, 1));
    assert_eq!(turn(0x108F), (Turn::Plain { added: 1 }, 0, 0x1004, 1));
}
