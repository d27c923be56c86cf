//! A wire of a state, and what it reads.

use crate::layout::REGISTERS_BEFORE_WIRES;
use crate::Code;
use std::fmt;

/// What a wire reads, or a next state or register is taken from.
#[derive(Clone, Copy, Debug, PartialEq, Eq, Hash)]
pub enum Reference {
    /// A register, as it is at the start of the cycle.
    Register(u32),
    /// A wire of the same state.
    Wire(u32),
}

impl Reference {
    /// What a word of a machine table refers to.
    pub fn from_word(word: u32) -> Reference {
        match word.checked_sub(REGISTERS_BEFORE_WIRES) {
            None => Reference::Register(word),
            Some(wire) => Reference::Wire(wire),
        }
    }
}

/// `r0` or `w5`.
impl fmt::Display for Reference {
    fn fmt(&self, f: &mut fmt::Formatter) -> fmt::Result {
        match self {
            Reference::Register(number) => write!(f, "r{number}"),
            Reference::Wire(number) => write!(f, "w{number}"),
        }
    }
}

/// A wire, as its four words say.
#[derive(Clone, Copy, Debug, PartialEq, Eq, Hash)]
pub struct Wire {
    pub code: Code,
    /// The literal where the code is `set`; else, as b and c, a reference where the code has so
    /// many operands.
    pub a: u32,
    pub b: u32,
    pub c: u32,
}

impl Wire {
    /// The wire of four words; none where the code is unknown.
    pub(crate) fn decode(words: &[u32]) -> Option<Wire> {
        Some(Wire { code: Code::from_number(words[0])?, a: words[1], b: words[2], c: words[3] })
    }

    /// The operands that its value depends on.
    pub fn operands(self) -> Vec<Reference> {
        let words = [self.a, self.b, self.c];
        words.into_iter().take(self.code.operands()).map(Reference::from_word).collect()
    }

    /// Of an `add` or `sub`, the arrival of its block: it counts for the flag of a run where that
    /// is nonzero.
    pub fn counts_where(self) -> Option<Reference> {
        matches!(self.code, Code::Add | Code::Sub).then(|| Reference::from_word(self.c))
    }
}
