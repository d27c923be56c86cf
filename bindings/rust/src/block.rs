//! A block of a graph.

use crate::layout::graph::*;
use crate::Code;
use std::fmt;

/// A block: its instructions, which run in order, and what it ends in.
#[derive(Clone, Debug, PartialEq, Eq, Hash)]
pub struct Block {
    pub instructions: Vec<Instruction>,
    pub ending: Ending,
}

impl Block {
    /// The block that 40 words of an admitted table hold.
    pub(crate) fn decode(words: &[u32]) -> Block {
        let count = words[INSTRUCTION_COUNT] as usize;
        let instructions = words[FIRST_INSTRUCTION..].chunks_exact(INSTRUCTION_WORDS).take(count);
        Block {
            instructions: instructions.map(Instruction::decode).collect(),
            ending: Ending::decode(&words[ENDING..]),
        }
    }
}

/// An instruction; it prints as its line of the text, without the line feed.
#[derive(Clone, Copy, Debug, PartialEq, Eq, Hash)]
pub struct Instruction {
    pub code: Code,
    /// The register that it writes.
    pub d: u32,
    /// The first operand's register, the literal's word where the code is `set`, else 0.
    pub a: u32,
    /// The second operand's register, or 0.
    pub b: u32,
}

impl Instruction {
    fn decode(words: &[u32]) -> Instruction {
        Instruction { code: code(words[0]), d: words[1], a: words[2], b: words[3] }
    }
}

impl fmt::Display for Instruction {
    fn fmt(&self, f: &mut fmt::Formatter) -> fmt::Result {
        let Instruction { code, d, a, b } = *self;
        match (code, code.operands()) {
            (Code::Set, _) => write!(f, "{code},{d},{}", a as i32),
            (_, 0) => write!(f, "{code},{d}"),
            (_, 1) => write!(f, "{code},{d},{a}"),
            _ => write!(f, "{code},{d},{a},{b}"),
        }
    }
}

/// What a block ends in; it prints as its line of the text, without the line feed.
#[derive(Clone, Copy, Debug, PartialEq, Eq, Hash)]
pub enum Ending {
    Goto(u32),
    /// To `t` where the comparison of registers a and b is 1, else to `f`.
    Ite {
        comparison: Code,
        a: u32,
        b: u32,
        t: u32,
        f: u32,
    },
    Halt,
}

impl Ending {
    fn decode(words: &[u32]) -> Ending {
        let [kind, comparison, a, b, t, f] = words[..6] else {
            unreachable!("an ending has words")
        };
        match kind {
            1 => Ending::Goto(t),
            2 => Ending::Ite { comparison: code(comparison), a, b, t, f },
            3 => Ending::Halt,
            other => unreachable!("an ending is of kind 1 to 3, not {other}"),
        }
    }

    /// The blocks that it leads to, true first; twice the same where an `ite` has equal targets.
    pub fn targets(self) -> Vec<u32> {
        match self {
            Ending::Goto(t) => vec![t],
            Ending::Ite { t, f, .. } => vec![t, f],
            Ending::Halt => Vec::new(),
        }
    }
}

impl fmt::Display for Ending {
    fn fmt(&self, out: &mut fmt::Formatter) -> fmt::Result {
        match self {
            Ending::Goto(t) => write!(out, "goto,{t}"),
            Ending::Ite { comparison, a, b, t, f } => {
                write!(out, "ite,{comparison},{a},{b},{t},{f}")
            }
            Ending::Halt => out.write_str("halt"),
        }
    }
}

fn code(number: u32) -> Code {
    Code::from_number(number).expect("an admitted table has no other codes")
}
