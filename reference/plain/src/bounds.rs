//! Bounds of the registers after one cycle, from bounds before it.

use crate::machine_admission::{self, record, wires};
use crate::value::{compare, value};
use crate::{NEXT, REGISTERS};
use gutkavu::MACHINE_WORDS;

#[derive(Clone, Copy)]
struct Range {
    low: i32,
    high: i32,
}

const FULL: Range = Range { low: i32::MIN, high: i32::MAX };
const HALF: Range = Range { low: i16::MIN as i32, high: i16::MAX as i32 };
const TRUTH: Range = Range { low: 0, high: 1 };

#[inline(always)]
fn one(value: u32) -> Range {
    Range { low: value as i32, high: value as i32 }
}

impl Range {
    #[inline(always)]
    fn single(self) -> bool {
        self.low == self.high
    }
}

/// The exact value of two single ones, else a range.
#[inline(always)]
fn exact_or(code: u32, x: Range, y: Range, range: Range) -> Range {
    match x.single() && y.single() {
        true => one(value(&[x.low as u32, y.low as u32], code, [0, 1, 0], 0).0),
        false => range,
    }
}

/// Two ends, each with whether it wrapped; those of single values may.
#[inline(always)]
fn sum((low, below): (i32, bool), (high, above): (i32, bool), single: bool) -> Range {
    match (below || above) && !single {
        true => FULL,
        false => Range { low, high },
    }
}

#[inline(always)]
fn compared(code: u32, x: Range, y: Range) -> Range {
    let (below, not_below) = (x.high < y.low, x.low >= y.high);
    let apart = below || y.high < x.low;
    match code {
        _ if x.single() && y.single() => one(compare(code, x.low as u32, y.low as u32).into()),
        12 if apart => one(0),
        13 if apart => one(1),
        14 if below || not_below => one(below.into()),
        15 if below || not_below => one(not_below.into()),
        _ => TRUTH,
    }
}

/// The range of a wire over those of registers and earlier wires.
#[inline(always)]
fn range(ranges: &[Range], code: u32, [a, b, c]: [u32; 3]) -> Range {
    let at = |reference: u32| ranges[reference as usize];
    match code {
        1 => one(a),
        2 => at(a),
        3 | 4 => {
            let (x, y, single) = (at(a), at(b), at(a).single() && at(b).single());
            match code {
                3 => sum(x.low.overflowing_add(y.low), x.high.overflowing_add(y.high), single),
                _ => sum(x.low.overflowing_sub(y.high), x.high.overflowing_sub(y.low), single),
            }
        }
        5..=10 | 18 => exact_or(code, at(a), at(b), FULL),
        11 => match at(a) {
            x if x.low >= HALF.low && x.high <= HALF.high => x,
            x if x.single() => one(x.low as i16 as u32),
            _ => HALF,
        },
        12..=17 => compared(code, at(a), at(b)),
        19 => match at(a) {
            x if x.low > 0 || x.high < 0 => at(b),
            x if x.single() => at(c),
            _ => Range { low: at(b).low.min(at(c).low), high: at(b).high.max(at(c).high) },
        },
        _ => FULL,
    }
}

/// The refusal, or 0.
fn checked(table: &[u32], lowest: &[u32], highest: &[u32], state: u32) -> u32 {
    if table.len() < MACHINE_WORDS || lowest.len() < REGISTERS || highest.len() < REGISTERS {
        return 7;
    }
    if machine_admission::admitted(table).is_none() {
        return 10;
    }
    let mut ends = lowest.iter().zip(highest).take(table[1] as usize);
    match state >= table[0] {
        true => 9,
        false if ends.any(|(&low, &high)| low as i32 > high as i32) => 13,
        false => 0,
    }
}

pub fn bounds(table: &[u32], lowest: &mut [u32], highest: &mut [u32], state: u32) -> u32 {
    let number = checked(table, lowest, highest, state);
    if number != 0 {
        return number;
    }
    let registers = table[1] as usize;
    let record = record(table, state as usize);
    let wires = wires(table, record);
    let mut ranges = Vec::with_capacity(REGISTERS + wires.len() / 4);
    let given = lowest.iter().zip(&*highest).take(REGISTERS);
    ranges.extend(given.map(|(&low, &high)| Range { low: low as i32, high: high as i32 }));
    for wire in wires.chunks_exact(4) {
        ranges.push(range(&ranges, wire[0], [wire[1], wire[2], wire[3]]));
    }
    for (register, &reference) in record[NEXT..][..registers].iter().enumerate() {
        let Range { low, high } = ranges[reference as usize];
        (lowest[register], highest[register]) = (low as u32, high as u32);
    }
    0
}
