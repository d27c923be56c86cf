//! Two recordings of one run, compared cycle for cycle.

use crate::graph::MAX_REGISTERS;
use std::collections::BTreeMap;

const NO_LINE_FORM: u32 = 17;
const NOT_RISING: u32 = 18;

/// Where a comparison is refused and by which number. Of several faults the least decides: the
/// derived order takes the recording first, then the line, then 17 before 18. A fault of R has
/// recording and line 0, and so is less than any other.
#[derive(Clone, Copy, Debug, PartialEq, Eq, PartialOrd, Ord)]
pub struct Fault {
    pub recording: u32,
    pub line: u64,
    pub number: u32,
}

#[derive(Clone, Copy, Debug, PartialEq, Eq)]
pub struct Findings {
    /// How many cycles both recordings hold.
    pub shared: u64,
    /// The first of them where state or registers differ.
    pub differs_at: Option<u32>,
}

/// What a line records of its cycle.
#[derive(Clone, Debug, PartialEq, Eq)]
pub(crate) struct Moment {
    state: u32,
    registers: Vec<u32>,
}

pub(crate) struct Line {
    cycle: u32,
    moment: Moment,
}

/// A word's own decimal spelling. Printing it again rules out leading zeros and signs.
pub(crate) fn word(field: &str) -> Option<u32> {
    let value: u32 = field.parse().ok()?;
    (value.to_string() == field).then_some(value)
}

/// A line with its line feed, if it has one and the form for so many registers.
pub(crate) fn line_form(bytes: &[u8], registers: u32) -> Option<Line> {
    let text = std::str::from_utf8(bytes).ok()?.strip_suffix('\n')?;
    let words: Vec<u32> = text.split(',').map(word).collect::<Option<_>>()?;
    let [cycle, state, ref rest @ ..] = words[..] else {
        return None;
    };
    let moment = Moment { state, registers: rest.to_vec() };
    (rest.len() == registers as usize).then_some(Line { cycle, moment })
}

/// Every line of a text, None for one without the form. A last line without a line feed is one too.
fn lines_of(text: &[u8], registers: u32) -> Vec<Option<Line>> {
    text.split_inclusive(|&byte| byte == b'\n').map(|line| line_form(line, registers)).collect()
}

/// All faults of a recording's lines. Whether a line behind one without a form rises cannot be
/// said and does not matter, as that one's fault is less.
fn faults_of(recording: u32, lines: &[Option<Line>]) -> Vec<Fault> {
    let not_rising = |pair: &[Option<Line>]| match pair {
        [Some(before), Some(line)] => line.cycle <= before.cycle,
        _ => false,
    };
    let formless = lines.iter().zip(1..).filter(|(line, _)| line.is_none());
    let falling = lines.windows(2).zip(2..).filter(|(pair, _)| not_rising(pair));
    let forms = formless.map(|(_, line)| Fault { recording, line, number: NO_LINE_FORM });
    let orders = falling.map(|(_, line)| Fault { recording, line, number: NOT_RISING });
    forms.chain(orders).collect()
}

fn limit_fault(registers: u32) -> Option<Fault> {
    let in_limits = (1..=MAX_REGISTERS as u32).contains(&registers);
    (!in_limits).then_some(Fault { recording: 0, line: 0, number: NO_LINE_FORM })
}

/// The moments of a recording by their cycles.
fn moments(lines: Vec<Option<Line>>) -> BTreeMap<u32, Moment> {
    lines.into_iter().flatten().map(|line| (line.cycle, line.moment)).collect()
}

/// Compares two recordings of so many registers, or gives the fault that decides.
pub fn compare(registers: u32, first: &[u8], second: &[u8]) -> Result<Findings, Fault> {
    let [first, second] = [first, second].map(|text| lines_of(text, registers));
    let of_lines = [faults_of(1, &first), faults_of(2, &second)].concat();
    if let Some(fault) = of_lines.into_iter().chain(limit_fault(registers)).min() {
        return Err(fault);
    }
    let (first, second) = (moments(first), moments(second));
    let both: Vec<u32> =
        first.keys().filter(|&cycle| second.contains_key(cycle)).copied().collect();
    let differing = both.iter().filter(|&cycle| first[cycle] != second[cycle]);
    Ok(Findings { shared: both.len() as u64, differs_at: differing.min().copied() })
}
