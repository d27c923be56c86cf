//! Why an operation was refused.

use std::error::Error;
use std::fmt;

/// A refusal of an operation, which then changed nothing.
#[derive(Clone, Copy, Debug, PartialEq, Eq, Hash)]
pub enum Refusal {
    /// 1: the text has more than 16,384 bytes.
    TextTooLong = 1,
    /// 2: a line has no form, or no line feed.
    NoForm = 2,
    /// 3: a line's form is not due there, or the text stops early.
    NotDue = 3,
    /// 4: a line names a register not below R.
    NoRegister = 4,
    /// 5: a line names a target not below B.
    NoTarget = 5,
    /// 6: the table is not one that reading makes.
    NoGraph = 6,
    /// 7: a table or register buffer is short.
    TableShort = 7,
    /// 8: the output is short.
    OutputShort = 8,
    /// 9: the start is no block or no state, or a state asked about is none.
    NoStart = 9,
    /// 10: the table is not a machine's.
    NoMachine = 10,
    /// 11: the starter list lacks block 0 or the start block, or holds a block not below B.
    NoStarters = 11,
    /// 12: a run without words has a table that holds code 20.
    WordsNeeded = 12,
    /// 13: in bounds, the lowest value of a register below R is above the highest.
    LowestAboveHighest = 13,
    /// 17: a recording's line is not of its form, or R is not 1 to 16.
    NoCaptureForm = 17,
    /// 18: a recording's cycle is not above that of the line before.
    CycleNotAbove = 18,
}

impl Refusal {
    const ALL: [Refusal; 15] = [
        Refusal::TextTooLong,
        Refusal::NoForm,
        Refusal::NotDue,
        Refusal::NoRegister,
        Refusal::NoTarget,
        Refusal::NoGraph,
        Refusal::TableShort,
        Refusal::OutputShort,
        Refusal::NoStart,
        Refusal::NoMachine,
        Refusal::NoStarters,
        Refusal::WordsNeeded,
        Refusal::LowestAboveHighest,
        Refusal::NoCaptureForm,
        Refusal::CycleNotAbove,
    ];

    /// The refusal's number, from 1 to 13, or 17 or 18.
    pub fn number(self) -> u32 {
        self as u32
    }

    /// The refusal of a number, where there is one.
    pub fn from_number(number: u32) -> Option<Refusal> {
        Refusal::ALL.into_iter().find(|refusal| refusal.number() == number)
    }

    /// What the refusal says.
    pub fn meaning(self) -> &'static str {
        match self {
            Refusal::TextTooLong => "text too long",
            Refusal::NoForm => "no line form, or no line feed",
            Refusal::NotDue => "a form not due here",
            Refusal::NoRegister => "register not below R",
            Refusal::NoTarget => "target not below B",
            Refusal::NoGraph => "table not one that reading makes",
            Refusal::TableShort => "table or register buffer short",
            Refusal::OutputShort => "output short",
            Refusal::NoStart => "start is no block or no state, or a state asked about is none",
            Refusal::NoMachine => "no machine table",
            Refusal::NoStarters => {
                "starter list without block 0 or the start block, or with a block not below B"
            }
            Refusal::WordsNeeded => "a table that holds code 20, in a run without words",
            Refusal::LowestAboveHighest => {
                "bounds whose lowest value of a register below R is above the highest"
            }
            Refusal::NoCaptureForm => "a recording's line not of its form, or R not 1 to 16",
            Refusal::CycleNotAbove => "a recording's cycle not above that of the line before",
        }
    }

    /// The answer that a number stands for: 0 is success.
    pub(crate) fn answer(number: u32) -> Result<(), Refusal> {
        match number {
            0 => Ok(()),
            _ => Err(Refusal::from_number(number).expect("a number that refusals have")),
        }
    }
}

impl fmt::Display for Refusal {
    fn fmt(&self, f: &mut fmt::Formatter) -> fmt::Result {
        write!(f, "refused {}: {}", self.number(), self.meaning())
    }
}

impl Error for Refusal {}

/// The refusal of a text, and the line that decided it.
#[derive(Clone, Copy, Debug, PartialEq, Eq, Hash)]
pub struct ReadRefusal {
    refusal: Refusal,
    line: u32,
}

impl ReadRefusal {
    pub(crate) fn new(refusal: Refusal, line: u32) -> ReadRefusal {
        ReadRefusal { refusal, line }
    }

    pub fn refusal(self) -> Refusal {
        self.refusal
    }

    /// The refusal's number.
    pub fn number(self) -> u32 {
        self.refusal.number()
    }

    /// The first faulty line, counted from 1; 0 where the text is too long.
    pub fn line(self) -> u32 {
        self.line
    }
}

impl fmt::Display for ReadRefusal {
    fn fmt(&self, f: &mut fmt::Formatter) -> fmt::Result {
        match self.line {
            0 => self.refusal.fmt(f),
            line => {
                write!(f, "refused {} at line {line}: {}", self.number(), self.refusal.meaning())
            }
        }
    }
}

impl Error for ReadRefusal {}

impl From<ReadRefusal> for Refusal {
    fn from(refused: ReadRefusal) -> Refusal {
        refused.refusal
    }
}
