//! Recordings of one run against each other, as an array's capture and a model's run.
//!
//! A recording is a text of lines `cycle,state,` and R register words parted by commas, with a line
//! feed after each. The numbers are 0 to 4294967295 without leading zeros, and the cycles rise from
//! line to line. [`Line`] writes such a line.

use crate::operations::{self, CaptureFields};
use crate::Refusal;
use std::error::Error;
use std::fmt;

/// What two recordings have in common.
#[derive(Clone, Copy, Debug, PartialEq, Eq, Hash)]
pub struct Comparison {
    /// The number of cycles that both hold.
    pub shared: u64,
    /// The first of them where state or registers differ; none where all are the same.
    pub first_difference: Option<u32>,
}

/// Compares two recordings of `registers` registers each. Either may lack cycles; an empty one
/// shares nothing. Refusals 17, 18.
///
/// ```
/// use gutkavu::captures::{compare, Comparison, Recording};
///
/// let model = b"0,0,5,5\n1,1,5,6\n2,1,5,7\n";
/// let answer = compare(2, b"1,1,5,6\n2,1,4,7\n", model);
/// assert_eq!(answer, Ok(Comparison { shared: 2, first_difference: Some(2) }));
/// let answer = compare(2, b"1,1,5,6\n", model);
/// assert_eq!(answer, Ok(Comparison { shared: 1, first_difference: None }));
///
/// let refused = compare(2, b"1,1,5,6\n1,1,5,7\n", model).unwrap_err();
/// assert_eq!((refused.number(), refused.line()), (18, 2));
/// assert_eq!(refused.recording(), Some(Recording::First));
/// ```
pub fn compare(registers: u32, first: &[u8], second: &[u8]) -> Result<Comparison, CaptureRefusal> {
    let fields = operations::compare_captures(registers, first, second);
    match Refusal::answer(fields.number) {
        Ok(()) => {
            let first_difference = (fields.differs == 1).then_some(fields.cycle);
            Ok(Comparison { shared: fields.shared, first_difference })
        }
        Err(refusal) => Err(CaptureRefusal::new(refusal, fields)),
    }
}

/// A line of a recording; it prints with its line feed.
///
/// ```
/// use gutkavu::captures::Line;
///
/// let line = Line { cycle: 7, state: 1, registers: &[0, u32::MAX] };
/// assert_eq!(line.to_string(), "7,1,0,4294967295\n");
/// ```
#[derive(Clone, Copy, Debug, PartialEq, Eq, Hash)]
pub struct Line<'a> {
    pub cycle: u32,
    pub state: u32,
    /// The R words that are recorded.
    pub registers: &'a [u32],
}

impl fmt::Display for Line<'_> {
    fn fmt(&self, f: &mut fmt::Formatter) -> fmt::Result {
        write!(f, "{},{}", self.cycle, self.state)?;
        self.registers.iter().try_for_each(|word| write!(f, ",{word}"))?;
        f.write_str("\n")
    }
}

/// One of the two recordings, by its place among the arguments.
#[derive(Clone, Copy, Debug, PartialEq, Eq, Hash)]
pub enum Recording {
    First = 1,
    Second = 2,
}

impl Recording {
    /// 1 or 2.
    pub fn number(self) -> u32 {
        self as u32
    }
}

impl fmt::Display for Recording {
    fn fmt(&self, f: &mut fmt::Formatter) -> fmt::Result {
        f.write_str(match self {
            Recording::First => "first",
            Recording::Second => "second",
        })
    }
}

/// The refusal of a comparison, and the line that decided it.
#[derive(Clone, Copy, Debug, PartialEq, Eq, Hash)]
pub struct CaptureRefusal {
    refusal: Refusal,
    recording: Option<Recording>,
    line: u64,
}

impl CaptureRefusal {
    fn new(refusal: Refusal, fields: CaptureFields) -> CaptureRefusal {
        let recording = match fields.recording {
            0 => None,
            1 => Some(Recording::First),
            2 => Some(Recording::Second),
            other => unreachable!("a recording is 0 to 2, not {other}"),
        };
        CaptureRefusal { refusal, recording, line: fields.line }
    }

    pub fn refusal(self) -> Refusal {
        self.refusal
    }

    /// The refusal's number.
    pub fn number(self) -> u32 {
        self.refusal.number()
    }

    /// The recording at fault, the first where both are; none where R is not 1 to 16.
    pub fn recording(self) -> Option<Recording> {
        self.recording
    }

    /// Its first faulty line, counted from 1; 0 where R is not 1 to 16.
    pub fn line(self) -> u64 {
        self.line
    }
}

impl fmt::Display for CaptureRefusal {
    fn fmt(&self, f: &mut fmt::Formatter) -> fmt::Result {
        let Some(recording) = self.recording else {
            return self.refusal.fmt(f);
        };
        let (number, line, meaning) = (self.number(), self.line, self.refusal.meaning());
        write!(f, "refused {number} at line {line} of the {recording} recording: {meaning}")
    }
}

impl Error for CaptureRefusal {}

impl From<CaptureRefusal> for Refusal {
    fn from(refused: CaptureRefusal) -> Refusal {
        refused.refusal
    }
}
