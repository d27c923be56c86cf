//! R-12 of paper 02 as a look-up over lines, and what wrong readings of it do otherwise.

use reference::case::Captures;
use reference::operations::CaptureAnswer;

#[derive(Clone, Copy, Debug, PartialEq, Eq)]
pub enum Reading {
    Right,
    /// The faults of both recordings go by their lines.
    FaultsByLine,
    /// The second recording's faults go first.
    SecondGoesFirst,
    /// A line that neither rises nor has the form is 18.
    OrderBeforeForm,
    /// Lines of the second recording behind the first one's end are not read.
    EndsTogether,
    EmptyRefused,
    RegistersUnlimited,
    LeadingZeros,
    /// Words are taken modulo 2^32.
    WrappedWords,
    OpenEnd,
    EmptyLines,
    CarriageReturns,
    /// Fields behind the last register are not read.
    MoreFields,
    EqualCycles,
    /// Cycles rise in the order of their spellings.
    SpelledOrder,
    /// Line n of one recording is compared with line n of the other.
    LinesInTurn,
    StateIgnored,
    FirstRegisterIgnored,
    LastRegisterIgnored,
    LastDifference,
    /// Cycles that differ are not counted as shared.
    SharedAlike,
}

use Reading::*;

pub const WRONG: [Reading; 20] = [
    FaultsByLine, SecondGoesFirst, OrderBeforeForm, EndsTogether, EmptyRefused, RegistersUnlimited,
    LeadingZeros, WrappedWords, OpenEnd, EmptyLines, CarriageReturns, MoreFields, EqualCycles,
    SpelledOrder, LinesInTurn, StateIgnored, FirstRegisterIgnored, LastRegisterIgnored,
    LastDifference, SharedAlike,
];

/// Cycle, state, registers.
pub type Row = Vec<u32>;

/// The lines of a text, each with its line feed if it has one.
pub fn lines(text: &[u8]) -> Vec<&[u8]> {
    let (mut lines, mut start) = (Vec::new(), 0);
    for end in 1..=text.len() {
        if text[end - 1] == b'\n' || end == text.len() {
            lines.push(&text[start..end]);
            start = end;
        }
    }
    lines
}

fn word(reading: Reading, field: &[u8]) -> Option<u32> {
    let (&first, rest) = field.split_first()?;
    if first == b'0' && !rest.is_empty() && reading != LeadingZeros {
        return None;
    }
    let mut word: u32 = 0;
    for byte in field {
        let digit = byte.checked_sub(b'0').filter(|&digit| digit < 10)?;
        word = match word.checked_mul(10).and_then(|word| word.checked_add(digit.into())) {
            Some(word) => word,
            None if reading == WrappedWords => word.wrapping_mul(10).wrapping_add(digit.into()),
            None => return None,
        };
    }
    Some(word)
}

fn row(reading: Reading, line: &[u8], registers: u32) -> Option<Row> {
    let mut body = match line.strip_suffix(b"\n") {
        Some(body) => body,
        None if reading == OpenEnd => line,
        None => return None,
    };
    if reading == CarriageReturns {
        body = body.strip_suffix(b"\r").unwrap_or(body);
    }
    let mut fields: Vec<&[u8]> = body.split(|&byte| byte == b',').collect();
    if reading == MoreFields {
        fields.truncate(registers as usize + 2);
    }
    let row: Row = fields.into_iter().map(|field| word(reading, field)).collect::<Option<_>>()?;
    (row.len() as u64 == u64::from(registers) + 2).then_some(row)
}

/// The cycle of a line, whatever stands behind it.
fn cycle(reading: Reading, line: &[u8]) -> Option<u32> {
    word(reading, line.split(|&byte| byte == b',').next()?)
}

fn rises(reading: Reading, before: u32, cycle: u32) -> bool {
    match reading {
        EqualCycles => before <= cycle,
        SpelledOrder => before.to_string() < cycle.to_string(),
        _ => before < cycle,
    }
}

/// The number of a line's fault, given the line before.
fn fault(reading: Reading, before: Option<&[u8]>, line: &[u8], registers: u32) -> Option<u32> {
    if reading == EmptyLines && line == b"\n" {
        return None;
    }
    let cycles = (before.and_then(|before| cycle(reading, before)), cycle(reading, line));
    let falls = matches!(cycles, (Some(before), Some(cycle)) if !rises(reading, before, cycle));
    match row(reading, line, registers) {
        None if falls && reading == OrderBeforeForm => Some(18),
        None => Some(17),
        Some(_) => falls.then_some(18),
    }
}

/// Line and number of a recording's first fault.
fn first_fault(reading: Reading, lines: &[&[u8]], registers: u32) -> Option<(u64, u32)> {
    if lines.is_empty() && reading == EmptyRefused {
        return Some((1, 17));
    }
    (0..lines.len()).find_map(|at| {
        let before = at.checked_sub(1).map(|before| lines[before]);
        Some((at as u64 + 1, fault(reading, before, lines[at], registers)?))
    })
}

fn refused(recording: u32, (line, number): (u64, u32)) -> CaptureAnswer {
    CaptureAnswer { number, recording, line, shared: 0, differs: false, cycle: 0 }
}

/// Of the first faults of both recordings the one that is answered.
fn refusal(reading: Reading, faults: [Option<(u64, u32)>; 2]) -> Option<CaptureAnswer> {
    let [first, second] =
        [(1, faults[0]), (2, faults[1])].map(|(n, fault)| fault.map(|fault| refused(n, fault)));
    match (first, second) {
        (Some(_), Some(later)) if reading == SecondGoesFirst => Some(later),
        (Some(one), Some(other)) if reading == FaultsByLine && other.line < one.line => Some(other),
        _ => first.or(second),
    }
}

pub fn differ(reading: Reading, one: &Row, other: &Row) -> bool {
    let last = one.len() - 1;
    let columns = (1..=last).filter(|&column| match reading {
        StateIgnored => column != 1,
        FirstRegisterIgnored => column != 2,
        LastRegisterIgnored => column != last,
        _ => true,
    });
    columns.into_iter().any(|column| one[column] != other[column])
}

fn compared(reading: Reading, first: &[Row], second: &[Row]) -> CaptureAnswer {
    let (mut shared, mut differing) = (0, Vec::new());
    for (n, one) in first.iter().enumerate() {
        for (m, other) in second.iter().enumerate() {
            if one[0] == other[0] && (n == m || reading != LinesInTurn) {
                shared += 1;
                differing.extend(differ(reading, one, other).then_some(one[0]));
            }
        }
    }
    let shared = if reading == SharedAlike { shared - differing.len() as u64 } else { shared };
    let at = if reading == LastDifference { differing.last() } else { differing.first() };
    let (differs, cycle) = (at.is_some(), at.copied().unwrap_or(0));
    CaptureAnswer { number: 0, recording: 0, line: 0, shared, differs, cycle }
}

/// How many lines of the second recording come before the first one's end, and the next.
fn before_end(first: &[&[u8]], second: &[&[u8]]) -> usize {
    let last = first.last().and_then(|line| cycle(Right, line));
    let is_behind = |line: &&[u8]| last.is_none_or(|last| cycle(Right, line) >= Some(last));
    second.iter().position(is_behind).map_or(second.len(), |at| at + usize::from(last.is_some()))
}

pub fn defined(reading: Reading, captures: &Captures) -> CaptureAnswer {
    let registers = captures.registers;
    if !(1..=16).contains(&registers) && reading != RegistersUnlimited {
        return refused(0, (0, 17));
    }
    let (first, mut second) = (lines(&captures.first), lines(&captures.second));
    if reading == EndsTogether {
        second.truncate(before_end(&first, &second));
    }
    let faults = [&first, &second].map(|lines| first_fault(reading, lines, registers));
    let rows = |lines: &[&[u8]]| -> Vec<Row> {
        lines.iter().filter_map(|line| row(reading, line, registers)).collect()
    };
    refusal(reading, faults).unwrap_or_else(|| compared(reading, &rows(&first), &rows(&second)))
}
