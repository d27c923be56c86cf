//! The faults of two recordings: R, and every line of both.

use super::Fault;
use crate::capture::{line_form, word};
use crate::case::Captures;
use crate::operation::Refusal;

/// The cycle of a line, which one without the form may have too.
fn cycle(line: &[u8]) -> Option<u32> {
    let line = line.strip_suffix(b"\n").unwrap_or(line);
    let field = line.split(|&byte| byte == b',').next()?;
    word(std::str::from_utf8(field).ok()?)
}

fn line_faults(recording: u32, text: &[u8], registers: u32) -> Vec<Fault> {
    let lines: Vec<&[u8]> = text.split_inclusive(|&byte| byte == b'\n').collect();
    let fault = |refusal, line| Fault { refusal, recording, line };
    let formless = lines.iter().zip(1..).filter(|(line, _)| line_form(line, registers).is_none());
    let falls = |pair: &[&[u8]]| match (cycle(pair[0]), cycle(pair[1])) {
        (Some(before), Some(after)) => after <= before,
        _ => false,
    };
    let falling = lines.windows(2).zip(2..).filter(|(pair, _)| falls(pair));
    let forms = formless.map(|(_, line)| fault(Refusal::RecordedForm, line));
    forms.chain(falling.map(|(_, line)| fault(Refusal::RecordedOrder, line))).collect()
}

pub fn faults(captures: &Captures) -> Vec<Fault> {
    let Captures { registers, first, second } = captures;
    let mut faults =
        [line_faults(1, first, *registers), line_faults(2, second, *registers)].concat();
    if !(1..=16).contains(registers) {
        faults.push(Fault::of_call(Refusal::RecordedCount));
    }
    faults
}
