//! "Compare captures": both recordings are read from front to back, merged by their cycles.

use crate::REGISTERS;
use gutkavu::operations::CaptureFields;
use std::cmp::Ordering;

/// A line's cycle, and its bytes with the line feed.
struct Line<'a> {
    cycle: u32,
    bytes: &'a [u8],
}

/// A recording, and where its next line begins.
struct Reader<'a> {
    registers: u32,
    text: &'a [u8],
    at: usize,
    /// The next line's number.
    line: u64,
    /// The least cycle above that of the line before.
    least: u64,
}

/// A number without leading zeros that begins at `at`, with `end` behind it; and where the next
/// one begins. A word has at most ten digits, so its value is checked once, at the end.
#[inline]
fn word(text: &[u8], at: usize, end: u8) -> Option<(u32, usize)> {
    let stop = text.len().min(at + 11);
    let mut value: u64 = 0;
    for (index, &byte) in text.get(at..stop)?.iter().enumerate() {
        let digit = byte.wrapping_sub(b'0');
        if digit > 9 {
            let fits = index == 1 || (index > 1 && text[at] != b'0');
            let good = byte == end && fits && value <= u64::from(u32::MAX);
            return good.then_some((value as u32, at + index + 1));
        }
        value = 10 * value + u64::from(digit);
    }
    None
}

/// The cycle of the line that begins at `at`, and where the next line begins.
fn line(registers: u32, text: &[u8], at: usize) -> Option<(u32, usize)> {
    let (cycle, mut at) = word(text, at, b',')?;
    for _ in 0..registers {
        at = word(text, at, b',')?.1;
    }
    let (_, next) = word(text, at, b'\n')?;
    Some((cycle, next))
}

impl<'a> Reader<'a> {
    fn new(registers: u32, text: &'a [u8]) -> Reader<'a> {
        Reader { registers, text, at: 0, line: 1, least: 0 }
    }

    /// The next line, or none at the end. A faulty line is not passed: it gives its refusal again.
    fn next(&mut self) -> Result<Option<Line<'a>>, u32> {
        if self.at == self.text.len() {
            return Ok(None);
        }
        let (cycle, next) = line(self.registers, self.text, self.at).ok_or(17u32)?;
        if u64::from(cycle) < self.least {
            return Err(18);
        }
        let bytes = &self.text[self.at..next];
        self.at = next;
        self.line += 1;
        self.least = u64::from(cycle) + 1;
        Ok(Some(Line { cycle, bytes }))
    }

    /// Reads what is left.
    fn finish(&mut self) -> Result<(), u32> {
        while self.next()?.is_some() {}
        Ok(())
    }
}

/// The cycles that both hold and the first that differs, as far as neither ends or is at fault.
fn merge(one: &mut Reader, two: &mut Reader) -> (u64, Option<u32>) {
    let (mut shared, mut difference) = (0, None);
    let (mut x, mut y) = (one.next(), two.next());
    while let (Ok(Some(a)), Ok(Some(b))) = (&x, &y) {
        match a.cycle.cmp(&b.cycle) {
            Ordering::Less => x = one.next(),
            Ordering::Greater => y = two.next(),
            Ordering::Equal => {
                shared += 1;
                if difference.is_none() && a.bytes != b.bytes {
                    difference = Some(a.cycle);
                }
                x = one.next();
                y = two.next();
            }
        }
    }
    (shared, difference)
}

fn refused(number: u32, recording: u32, line: u64) -> CaptureFields {
    CaptureFields { number, recording, line, shared: 0, differs: 0, cycle: 0 }
}

pub fn compare_captures(registers: u32, first: &[u8], second: &[u8]) -> CaptureFields {
    if !(1..=REGISTERS as u32).contains(&registers) {
        return refused(17, 0, 0);
    }
    let (mut one, mut two) = (Reader::new(registers, first), Reader::new(registers, second));
    let (shared, difference) = merge(&mut one, &mut two);
    if let Err(number) = one.finish() {
        return refused(number, 1, one.line);
    }
    if let Err(number) = two.finish() {
        return refused(number, 2, two.line);
    }
    let (differs, cycle) = difference.map_or((0, 0), |cycle| (1, cycle));
    CaptureFields { number: 0, recording: 0, line: 0, shared, differs, cycle }
}
