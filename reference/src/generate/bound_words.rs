//! Bounds of registers: single values, narrow ranges, and ends at which a rule changes its course.

use super::{words, Aim};
use crate::answer::buffers_of;
use crate::case::{Bounds, Case, MAX_REGISTER_BUFFER};
use crate::graph::signed;
use crate::random::Random;

/// Lowest and highest value.
pub type Ends = (i64, i64);

pub const LEAST: i64 = -2_147_483_648;
pub const MOST: i64 = 2_147_483_647;
pub const FULL: Ends = (LEAST, MOST);

pub fn word(value: i64) -> u32 {
    (value & 0xFFFF_FFFF) as u32
}

/// Two buffers of 16 words with these ends first; behind them each register has ends of its own.
pub fn bounds(ends: &[Ends]) -> Bounds {
    let all = (0..16).map(|register| (-700 - register, 700 + 3 * register));
    let all: Vec<Ends> = ends.iter().copied().chain(all.skip(ends.len())).collect();
    buffers(&all)
}

fn buffers(ends: &[Ends]) -> Bounds {
    let lowest = ends.iter().map(|&(low, _)| word(low)).collect();
    Bounds { lowest, highest: ends.iter().map(|&(_, high)| word(high)).collect() }
}

/// About zero, where a condition may be zero, is not or is nothing else.
const ABOUT_ZERO: [Ends; 9] =
    [(0, 0), (0, 0), (-1, 0), (0, 1), (1, 1), (-1, 1), (-1, -1), (-5, -1), (1, 9)];

/// About the ends of 16 bits, signed and unsigned.
const ABOUT_HALF: [Ends; 17] = [
    (-32_768, 32_767),
    (-32_769, 32_767),
    (-32_768, 32_768),
    (32_767, 32_768),
    (-32_769, -32_768),
    (32_768, 65_535),
    (0, 65_535),
    (65_535, 65_536),
    (-40_000, -39_990),
    (-720, 720),
    (-300, 32_767),
    (-32_768, -1),
    (32_700, 32_767),
    (-32_768, -32_700),
    (33_000, 34_000),
    (-32_769, -5),
    (5, 32_768),
];

fn clamped((low, high): Ends) -> Ends {
    let (low, high) = (low.clamp(LEAST, MOST), high.clamp(LEAST, MOST));
    (low.min(high), low.max(high))
}

fn value(random: &mut Random) -> i64 {
    match random.percent(30) {
        true => signed(words::near_end(random)),
        false => signed(words::word(random)),
    }
}

fn width(random: &mut Random) -> i64 {
    let any = random.below(2_000) as i64;
    random.pick(&[0, 0, 1, 1, 2, 5, any, any])
}

/// A range that meets another by one number, ends beside it or is one away from it.
fn beside(random: &mut Random, (low, high): Ends) -> Ends {
    let (gap, width) = (random.pick(&[-1, 0, 0, 0, 1]), width(random));
    match random.percent(50) {
        true => (high + gap, high + gap + width),
        false => (low - gap - width, low - gap),
    }
}

/// A range whose sum or difference with another is at an end of a word, or past it by one.
fn against(random: &mut Random, (low, high): Ends) -> Ends {
    let (past, width) = (random.pick(&[0, 0, 1]), width(random));
    match random.below(4) {
        0 => (MOST - high + past - width, MOST - high + past),
        1 => (LEAST - low - past, LEAST - low - past + width),
        2 => (high - MOST - past, high - MOST - past + width),
        _ => (low - LEAST + past - width, low - LEAST + past),
    }
}

/// One range, seen from the one before it.
fn ends(random: &mut Random, before: Ends) -> Ends {
    let (value, width) = (value(random), width(random));
    clamped(match random.below(14) {
        0 | 1 => (value, value),
        2 | 3 => random.pick(&ABOUT_ZERO),
        4 | 5 => random.pick(&ABOUT_HALF),
        6 | 7 => (value, value + width),
        8 => (LEAST, value),
        9 => (value, MOST),
        10 => FULL,
        11 | 12 => beside(random, before),
        _ => against(random, before),
    })
}

/// Ends that are the wrong way round: turned, by one, or so only as signed numbers.
fn reversed(random: &mut Random, (low, high): Ends) -> Ends {
    match random.below(4) {
        0 if low < high => (high, low),
        1 => (0, -1),
        2 => (MOST, LEAST),
        _ if high < MOST => (high + 1, high),
        _ => (MOST, MOST - 1),
    }
}

/// All single, all narrow, or of all kinds.
pub fn ranges(random: &mut Random, length: usize) -> Vec<Ends> {
    let kind = random.below(10);
    let mut all: Vec<Ends> = vec![(0, 0)];
    for _ in 0..length {
        let next = match kind {
            0 => Ends::from([value(random); 2]),
            1 => random.pick(&ABOUT_ZERO),
            _ => ends(random, all[all.len() - 1]),
        };
        all.push(next);
    }
    all.split_off(1)
}

/// About the amounts at which a shift changes its course.
const ABOUT_32: [Ends; 8] =
    [(0, 31), (31, 32), (32, 33), (33, 64), (32, MOST), (-1, 0), (LEAST, -1), (-33, -32)];

/// Single words that are shifted, or that others are shifted by; some amounts are ranges.
fn ranges_of_shifts(random: &mut Random, length: usize) -> Vec<Ends> {
    let words = words::registers_of_shifts(random, length);
    let single = |word| Ends::from([signed(word); 2]);
    let some = random.percent(40);
    let mut ends = |word| match some && random.percent(25) {
        true => random.pick(&ABOUT_32),
        false => single(word),
    };
    words.into_iter().map(&mut ends).collect()
}

/// Chances in a hundred of what is wrong with the buffers.
#[derive(Clone, Copy)]
struct Chances {
    short: usize,
    reversed: usize,
}

fn reverse(random: &mut Random, chances: Chances, ends: &mut [Ends], registers: usize) {
    let any = random.below(registers);
    if random.percent(chances.reversed) {
        let register = random.pick(&[0, registers - 1, any, any]);
        ends[register] = reversed(random, ends[register]);
    }
    // From R up it is no fault.
    if registers < ends.len() && random.percent(25) {
        let any = random.between(registers, ends.len() - 1);
        let register = random.pick(&[registers, any]);
        ends[register] = reversed(random, ends[register]);
    }
}

fn shorten(random: &mut Random, chances: Chances, buffer: &mut Vec<u32>) {
    match random.percent(chances.short) {
        true => buffer.truncate(random.pick(&[15, 15, 15, 15, 8, 1, 0])),
        false => buffer.truncate(random.pick(&[16, 16, 16, 16, 16, 17, 20])),
    }
}

/// Bounds for the machine of a case; where several faults are wished for, mostly wrong ones.
pub(super) fn drawn(random: &mut Random, case: &Case, aim: Aim) -> Bounds {
    let (_, table) = buffers_of(case);
    let registers = table.get(1).copied().unwrap_or(1).clamp(1, 16) as usize;
    let chances = match aim {
        Aim::Several => Chances { short: 25, reversed: 50 },
        _ => Chances { short: 2, reversed: 10 },
    };
    let mut ends = match aim {
        Aim::Shifts => ranges_of_shifts(random, MAX_REGISTER_BUFFER),
        _ => ranges(random, MAX_REGISTER_BUFFER),
    };
    reverse(random, chances, &mut ends, registers);
    let mut bounds = buffers(&ends);
    shorten(random, chances, &mut bounds.lowest);
    shorten(random, chances, &mut bounds.highest);
    bounds
}
