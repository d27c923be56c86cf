//! The control-flow graph as types, and what its operators compute.

pub const MAX_BLOCKS: usize = 64;
pub const MAX_REGISTERS: usize = 16;
pub const MAX_INSTRUCTIONS: usize = 8;

#[derive(Clone, Copy, Debug, PartialEq, Eq)]
pub enum Binary {
    Add,
    Sub,
    And,
    Or,
    Xor,
    Shl,
    Shr,
    Sar,
}

#[derive(Clone, Copy, Debug, PartialEq, Eq)]
pub enum Comparison {
    Eq,
    Ne,
    Lt,
    Ge,
    Ltu,
    Geu,
}

#[derive(Clone, Copy, Debug, PartialEq, Eq)]
pub enum Instruction {
    Set {
        d: usize,
        literal: i32,
    },
    /// The word of the last arrival.
    In {
        d: usize,
    },
    Copy {
        d: usize,
        a: usize,
    },
    SignExtend {
        d: usize,
        a: usize,
    },
    Binary {
        op: Binary,
        d: usize,
        a: usize,
        b: usize,
    },
}

#[derive(Clone, Copy, Debug, PartialEq, Eq)]
pub enum Ending {
    Goto(usize),
    Ite { comparison: Comparison, a: usize, b: usize, t: usize, f: usize },
    Halt,
}

#[derive(Clone, Debug, PartialEq, Eq)]
pub struct Block {
    pub instructions: Vec<Instruction>,
    pub ending: Ending,
}

#[derive(Clone, Debug, PartialEq, Eq)]
pub struct Graph {
    pub registers: usize,
    pub blocks: Vec<Block>,
}

pub const SET: u32 = 1;
pub const COPY: u32 = 2;
pub const SIGN_EXTEND: u32 = 11;
pub const IN: u32 = 20;

const BINARIES: [(Binary, u32, &str); 8] = [
    (Binary::Add, 3, "add"),
    (Binary::Sub, 4, "sub"),
    (Binary::And, 5, "and"),
    (Binary::Or, 6, "or"),
    (Binary::Xor, 7, "xor"),
    (Binary::Shl, 8, "shl"),
    (Binary::Shr, 9, "shr"),
    (Binary::Sar, 10, "sar"),
];

const COMPARISONS: [(Comparison, u32, &str); 6] = [
    (Comparison::Eq, 12, "eq"),
    (Comparison::Ne, 13, "ne"),
    (Comparison::Lt, 14, "lt"),
    (Comparison::Ge, 15, "ge"),
    (Comparison::Ltu, 16, "ltu"),
    (Comparison::Geu, 17, "geu"),
];

/// Finds the first row of a table of operators that passes a test.
fn row<T: Copy>(
    rows: &[(T, u32, &'static str)],
    test: impl Fn(&(T, u32, &'static str)) -> bool,
) -> Option<(T, u32, &'static str)> {
    rows.iter().copied().find(|entry| test(entry))
}

impl Binary {
    pub fn all() -> Vec<Binary> {
        BINARIES.iter().map(|entry| entry.0).collect()
    }

    pub fn from_code(code: u32) -> Option<Binary> {
        row(&BINARIES, |entry| entry.1 == code).map(|entry| entry.0)
    }

    pub fn from_name(name: &str) -> Option<Binary> {
        row(&BINARIES, |entry| entry.2 == name).map(|entry| entry.0)
    }

    pub fn code(self) -> u32 {
        row(&BINARIES, |entry| entry.0 == self).map_or(0, |entry| entry.1)
    }

    pub fn name(self) -> &'static str {
        row(&BINARIES, |entry| entry.0 == self).map_or("", |entry| entry.2)
    }

    /// Works in 64 bits and cuts the result, so no step can overflow. A shift by 32 moves every bit
    /// out of the word, so a larger amount is taken as 32.
    pub fn apply(self, x: u32, y: u32) -> u32 {
        let (wide, amount) = (u64::from(x), y.min(32));
        let result = match self {
            Binary::Add => wide + u64::from(y),
            Binary::Sub => (1u64 << 32) + wide - u64::from(y),
            Binary::And => wide & u64::from(y),
            Binary::Or => wide | u64::from(y),
            Binary::Xor => wide ^ u64::from(y),
            Binary::Shl => wide << amount,
            Binary::Shr => wide >> amount,
            Binary::Sar => (signed(x).div_euclid(1i64 << amount)) as u64,
        };
        (result & 0xFFFF_FFFF) as u32
    }

    /// Add and sub are sums; the others have no result that could leave the range.
    pub fn is_sum(self) -> bool {
        matches!(self, Binary::Add | Binary::Sub)
    }

    /// Whether the signed result is not in -2^31 to 2^31 - 1.
    pub fn goes_over(self, x: u32, y: u32) -> bool {
        let result = match self {
            Binary::Add => signed(x) + signed(y),
            Binary::Sub => signed(x) - signed(y),
            _ => return false,
        };
        !(-(1i64 << 31)..1i64 << 31).contains(&result)
    }
}

impl Comparison {
    pub fn all() -> Vec<Comparison> {
        COMPARISONS.iter().map(|entry| entry.0).collect()
    }

    pub fn from_code(code: u32) -> Option<Comparison> {
        row(&COMPARISONS, |entry| entry.1 == code).map(|entry| entry.0)
    }

    pub fn from_name(name: &str) -> Option<Comparison> {
        row(&COMPARISONS, |entry| entry.2 == name).map(|entry| entry.0)
    }

    pub fn code(self) -> u32 {
        row(&COMPARISONS, |entry| entry.0 == self).map_or(0, |entry| entry.1)
    }

    pub fn name(self) -> &'static str {
        row(&COMPARISONS, |entry| entry.0 == self).map_or("", |entry| entry.2)
    }

    pub fn holds(self, x: u32, y: u32) -> bool {
        match self {
            Comparison::Eq => x == y,
            Comparison::Ne => x != y,
            Comparison::Lt => signed(x) < signed(y),
            Comparison::Ge => signed(x) >= signed(y),
            Comparison::Ltu => x < y,
            Comparison::Geu => x >= y,
        }
    }
}

/// The word read as a two's complement number.
pub fn signed(word: u32) -> i64 {
    if word < 0x8000_0000 {
        i64::from(word)
    } else {
        i64::from(word) - (1i64 << 32)
    }
}

/// The low 16 bits read as a two's complement number, as a word.
pub fn sign_extend(word: u32) -> u32 {
    let low = word % 65536;
    if low < 32768 {
        low
    } else {
        low + 0xFFFF_0000
    }
}

impl Instruction {
    pub fn target(self) -> usize {
        match self {
            Instruction::Set { d, .. }
            | Instruction::In { d }
            | Instruction::Copy { d, .. }
            | Instruction::SignExtend { d, .. }
            | Instruction::Binary { d, .. } => d,
        }
    }

    /// Every register the instruction names, the written one included.
    pub fn registers(self) -> Vec<usize> {
        match self {
            Instruction::Set { d, .. } | Instruction::In { d } => vec![d],
            Instruction::Copy { d, a } | Instruction::SignExtend { d, a } => vec![d, a],
            Instruction::Binary { d, a, b, .. } => vec![d, a, b],
        }
    }

    /// The word the instruction writes into its register, given that of the last arrival.
    pub fn value(self, registers: &[u32], word: u32) -> u32 {
        match self {
            Instruction::Set { literal, .. } => literal as u32,
            Instruction::In { .. } => word,
            Instruction::Copy { a, .. } => registers[a],
            Instruction::SignExtend { a, .. } => sign_extend(registers[a]),
            Instruction::Binary { op, a, b, .. } => op.apply(registers[a], registers[b]),
        }
    }

    /// Whether it is an add or sub that goes over.
    pub fn goes_over(self, registers: &[u32]) -> bool {
        match self {
            Instruction::Binary { op, a, b, .. } => op.goes_over(registers[a], registers[b]),
            _ => false,
        }
    }
}

impl Ending {
    pub fn registers(self) -> Vec<usize> {
        match self {
            Ending::Ite { a, b, .. } => vec![a, b],
            Ending::Goto(_) | Ending::Halt => Vec::new(),
        }
    }

    /// Successors, the true one first.
    pub fn successors(self) -> Vec<usize> {
        match self {
            Ending::Goto(t) => vec![t],
            Ending::Ite { t, f, .. } => vec![t, f],
            Ending::Halt => Vec::new(),
        }
    }
}

impl Block {
    fn reads_words(&self) -> bool {
        self.instructions.iter().any(|next| matches!(next, Instruction::In { .. }))
    }
}

impl Graph {
    /// Whether any block holds `in`, an unreachable one included.
    pub fn reads_words(&self) -> bool {
        self.blocks.iter().any(Block::reads_words)
    }

    pub fn successors(&self, block: usize) -> Vec<usize> {
        self.blocks[block].ending.successors()
    }
}
