//! The codes of instructions, comparisons and wires.

use std::fmt;

/// What an instruction, a comparison or a wire works out. Instructions have codes 1 to 11 and 20,
/// endings 12 to 17, wires all of them.
#[derive(Clone, Copy, Debug, PartialEq, Eq, Hash)]
pub enum Code {
    Set = 1,
    Copy = 2,
    Add = 3,
    Sub = 4,
    And = 5,
    Or = 6,
    Xor = 7,
    Shl = 8,
    Shr = 9,
    Sar = 10,
    Sx = 11,
    Eq = 12,
    Ne = 13,
    Lt = 14,
    Ge = 15,
    Ltu = 16,
    Geu = 17,
    /// a and not b, bit by bit.
    AndNot = 18,
    /// b where a is nonzero, else c.
    Select = 19,
    In = 20,
}

impl Code {
    pub const ALL: [Code; 20] = [
        Code::Set,
        Code::Copy,
        Code::Add,
        Code::Sub,
        Code::And,
        Code::Or,
        Code::Xor,
        Code::Shl,
        Code::Shr,
        Code::Sar,
        Code::Sx,
        Code::Eq,
        Code::Ne,
        Code::Lt,
        Code::Ge,
        Code::Ltu,
        Code::Geu,
        Code::AndNot,
        Code::Select,
        Code::In,
    ];

    /// The code's number, from 1 to 20.
    pub fn number(self) -> u32 {
        self as u32
    }

    /// The code of a number, where there is one.
    pub fn from_number(number: u32) -> Option<Code> {
        Code::ALL.into_iter().find(|code| code.number() == number)
    }

    /// The word of the text format; `andnot` and `select` for codes 18 and 19, which it has none
    /// for.
    pub fn name(self) -> &'static str {
        const NAMES: [&str; 20] = [
            "set", "copy", "add", "sub", "and", "or", "xor", "shl", "shr", "sar", "sx", "eq", "ne",
            "lt", "ge", "ltu", "geu", "andnot", "select", "in",
        ];
        NAMES[self as usize - 1]
    }

    /// How many operands the value depends on: registers in an instruction, references in a wire.
    /// The literal of `set` is none, nor is what a wire of `add` or `sub` reads for the flag.
    pub fn operands(self) -> usize {
        match self {
            Code::Set | Code::In => 0,
            Code::Copy | Code::Sx => 1,
            Code::Select => 3,
            _ => 2,
        }
    }
}

impl fmt::Display for Code {
    fn fmt(&self, f: &mut fmt::Formatter) -> fmt::Result {
        f.pad(self.name())
    }
}
