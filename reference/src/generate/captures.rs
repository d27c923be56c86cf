//! Pairs of recordings: one run with cycles left out and words changed, or with faults.

use super::row::{self, Row};
use super::{capture_damage, runs, words};
use crate::case::{Captures, Case, MAX_RECORDING};
use crate::random::Random;

/// The rows of two recordings.
pub type Pair = [Vec<Row>; 2];

/// How many bytes a recording has; most have few, as the stored cases are many.
fn length(random: &mut Random) -> usize {
    match random.below(70) {
        0 => MAX_RECORDING - 200,
        _ => random.pick(&[40, 90, 140, 190, 240, 290, 340]),
    }
}

fn register_count(random: &mut Random) -> usize {
    let any = random.between(1, 16);
    random.pick(&[1, 1, 1, 2, 2, 2, 3, 4, 15, 16, any, any, any])
}

/// The run of the case's own machine, where it has one, or an invented one.
fn rows(random: &mut Random, case: &Case) -> Vec<Row> {
    let bytes = length(random);
    match runs::started_machine(case).filter(|_| random.percent(60)) {
        Some(machine) => {
            let (start, registers) = (case.start_state as usize, case.registers.clone());
            row::within(row::of_machine(&machine, start, registers, &case.words), bytes)
        }
        None => {
            let registers = register_count(random);
            row::invented(random, registers, bytes)
        }
    }
}

/// A recording of a run: all of it, or without cycles here and there or at one end.
fn recorded(random: &mut Random, rows: &[Row]) -> Vec<Row> {
    let at = random.below(rows.len());
    match random.below(8) {
        0..=2 => rows.to_vec(),
        3..=5 => rows.iter().filter(|_| random.percent(75)).cloned().collect(),
        6 => rows[..=at].to_vec(),
        _ => rows[at..].to_vec(),
    }
}

/// No cycle is in both: one recording ends before the other begins, or they interleave.
fn disjoint(random: &mut Random, rows: &[Row]) -> Pair {
    let at = random.below(rows.len() + 1);
    let one_ends = random.percent(40);
    let mut in_first = |index: usize| if one_ends { index < at } else { random.percent(50) };
    let (mut one, mut other) = (Vec::new(), Vec::new());
    for (index, row) in rows.iter().enumerate() {
        if in_first(index) { &mut one } else { &mut other }.push(row.clone());
    }
    if random.percent(50) {
        [one, other]
    } else {
        [other, one]
    }
}

/// Another word, often one whose spelling is near.
fn other_word(random: &mut Random, word: u32) -> u32 {
    let bit = 1 << random.below(32);
    let near = [word ^ 1, word ^ bit, word / 10, word.wrapping_mul(10), word.wrapping_add(9)];
    let other = if random.percent(70) { random.pick(&near) } else { words::word(random) };
    if other == word {
        word ^ 1
    } else {
        other
    }
}

/// Changes the state or a register, the first and the last more often than others.
fn change(random: &mut Random, row: &mut Row) {
    let last = row.len() - 1;
    let any = random.between(1, last);
    let column = random.pick(&[1, 1, 2, last, last, any]);
    row[column] = other_word(random, row[column]);
}

fn holds(rows: &[Row], cycle: u32) -> bool {
    rows.iter().any(|row| row[0] == cycle)
}

/// Changes rows that only one recording holds, which is no difference.
fn change_unshared(random: &mut Random, pair: &mut Pair) {
    for side in 0..2 {
        let other = pair[1 - side].clone();
        for row in pair[side].iter_mut().filter(|row| !holds(&other, row[0])) {
            change(random, row);
        }
    }
}

/// Changes some of the rows that both hold, the last of them more often than others.
fn change_shared(random: &mut Random, pair: &mut Pair) {
    let cycles = pair[0].iter().map(|row| row[0]);
    let shared: Vec<u32> = cycles.filter(|&cycle| holds(&pair[1], cycle)).collect();
    let Some(&last) = shared.last() else {
        return;
    };
    for _ in 0..random.pick(&[1, 1, 1, 2, 3]) {
        let cycle = if random.percent(30) { last } else { random.pick(&shared) };
        let side = &mut pair[random.below(2)];
        if let Some(row) = side.iter_mut().find(|row| row[0] == cycle) {
            change(random, row);
        }
    }
}

/// One recording without lines, or both.
fn empty(random: &mut Random, rows: &[Row]) -> Pair {
    match random.below(3) {
        0 => [Vec::new(), Vec::new()],
        1 => [rows.to_vec(), Vec::new()],
        _ => [Vec::new(), rows.to_vec()],
    }
}

fn rows_of_pair(random: &mut Random, rows: &[Row]) -> Pair {
    let mut pair = match random.below(20) {
        0 => empty(random, rows),
        1 => disjoint(random, rows),
        2 => [rows.to_vec(), rows.to_vec()],
        _ => [recorded(random, rows), recorded(random, rows)],
    };
    if random.percent(25) {
        change_unshared(random, &mut pair);
    }
    if random.percent(50) {
        change_shared(random, &mut pair);
    }
    pair
}

/// A number of registers that no recording may have; some have a right one in their low bits.
fn past_limits(random: &mut Random, registers: u32) -> u32 {
    let wide = random.pick(&[256, 65_536, 2_147_483_648]) + registers;
    random.pick(&[0, 0, 17, 17, 18, 255, wide, u32::MAX])
}

pub fn captures(random: &mut Random, case: &Case) -> Captures {
    let rows = rows(random, case);
    let right = rows.first().map_or(1, |row| row.len() as u32 - 2);
    let pair = rows_of_pair(random, &rows);
    let mut texts = pair.map(|rows| row::text_of(&rows));
    // Damaged or not is drawn first: a wrong R is to meet faulty lines.
    let damage = random.below(100);
    match damage {
        0..=19 => capture_damage::damage(random, &mut texts),
        20..=25 => capture_damage::several(random, &mut texts),
        _ => (),
    }
    let registers = match random.below(100) {
        0..=3 => past_limits(random, right),
        6..=65 if damage == 20 => past_limits(random, right),
        4 | 5 => random.pick(&[right - 1, right + 1]),
        _ => right,
    };
    texts.iter_mut().for_each(|text| text.truncate(MAX_RECORDING));
    let [first, second] = texts;
    Captures { registers, first, second }
}
