//! Wires of any code in place of a state's own, so that each rule of the bounds meets each other.

use super::machine_damage::{patch, record, wire_at, Table};
use super::mends::mended;
use super::words;
use crate::answer;
use crate::case::{Patch, MAX_PATCHES};
use crate::machine_table::decode;
use crate::random::Random;

/// Codes with a rule of their own more often than those that are full.
const CODES: [usize; 36] = [
    1, 1, 2, 3, 3, 3, 3, 3, 4, 4, 4, 4, 4, 5, 6, 7, 8, 9, 10, 11, 11, 11, 12, 12, 13, 13, 14, 14,
    15, 15, 16, 17, 18, 19, 19, 20,
];

/// A register, or an earlier wire.
fn reference(random: &mut Random, registers: usize, wire: usize) -> usize {
    let register = random.below(registers);
    if wire == 0 {
        return register;
    }
    let earlier = 16 + random.below(wire);
    random.pick(&[register, register, 15 + wire, earlier])
}

/// Behind the first two a choice more often: there may be a comparison to choose by.
fn wire(random: &mut Random, registers: usize, wire: usize) -> [usize; 4] {
    let any = random.pick(&CODES);
    let code = if wire > 1 && random.percent(18) { 19 } else { any };
    let [a, b, c] = [0; 3].map(|_: usize| reference(random, registers, wire));
    match code {
        1 => [code, words::literal(random) as u32 as usize, b, c],
        _ => [code, a, b, c],
    }
}

/// The first wires of a state, the references behind them and its touch word. The other wires are given
/// up where there is room for what blocks then need.
pub fn patches(random: &mut Random, words: &[u32], state: usize) -> Vec<Patch> {
    let table = Table { words };
    let registers = table.registers();
    let most = (MAX_PATCHES - 3 - registers) / 4;
    let count = table.count(state).min(random.between(2, most));
    let mut patches = Vec::new();
    for index in 0..count {
        let at = wire_at(table.first(state) + index);
        patches
            .extend((at..).zip(wire(random, registers, index)).map(|(at, word)| patch(at, word)));
    }
    for slot in 2..3 + registers {
        let last = 15 + count - random.below(count.min(4));
        let any = reference(random, registers, count);
        let wire = 16 + random.below(count);
        let next = random.pick(&[any, any, last, wire]);
        patches.push(patch(record(state) + slot, next));
    }
    let shorter = [&[patch(record(state) + 1, count)], &patches[..]].concat();
    let whole = |patches: &Vec<Patch>| {
        let mut table = words.to_vec();
        answer::patch(&mut table, patches);
        decode(&table).is_some()
    };
    let shorter = Some(mended(words, shorter)).filter(whole);
    shorter.unwrap_or_else(|| mended(words, patches))
}
