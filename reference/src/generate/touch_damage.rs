//! Patches about the registers that states touch: wrong touch words, references that make a right
//! one wrong, and other references whose touch words are right.

use super::machine_damage::{patch, record, Damage, Table};
use super::mends::mended;
use super::touch_words::{touch_at, touch_word};
use crate::case::{Patch, MAX_PATCHES};
use crate::machine_table::NEXT_REGISTERS_AT;
use crate::random::Random;

/// The first state, the last, or any.
fn some_state(random: &mut Random, table: &Table) -> usize {
    let any = random.below(table.states());
    random.pick(&[0, any, any, table.states() - 1])
}

fn right(table: &Table, state: usize) -> u32 {
    touch_word(table.words, state, table.registers())
}

fn all_registers(table: &Table) -> u32 {
    (1 << table.registers()) - 1
}

/// As often below R as R's own or one past it.
fn some_bit(random: &mut Random, table: &Table) -> usize {
    let (r, own) = (table.registers(), random.below(table.registers()));
    let (unused, high) = (random.between(r, 31), random.between(16, 31));
    random.pick(&[own, own, own, own, r - 1, r, unused, high, 31, 31])
}

pub fn one_bit(random: &mut Random, table: &Table) -> Vec<Patch> {
    let (state, bit) = (some_state(random, table), some_bit(random, table));
    vec![patch(touch_at(state), (right(table, state) ^ 1 << bit) as usize)]
}

/// Words that some other rule would write: nothing, everything, the kept ones, that of another
/// state, one that is moved by a bit or turned round.
fn another_word(random: &mut Random, table: &Table) -> Vec<Patch> {
    let (state, other) = (some_state(random, table), some_state(random, table));
    let (word, r, any) = (right(table, state), table.registers() as u32, random.word());
    let choices = [
        0,
        u32::MAX,
        65_535,
        all_registers(table),
        word ^ all_registers(table),
        right(table, other),
        word << 1,
        word.reverse_bits(),
        word.reverse_bits() >> (32 - r),
        (word << 16) | word,
        any,
    ];
    let chosen = random.pick(&choices);
    match chosen == word {
        true => one_bit(random, table),
        false => vec![patch(touch_at(state), chosen as usize)],
    }
}

/// A reference of the state, mostly another than the register itself.
fn other_reference(random: &mut Random, table: &Table, state: usize, register: usize) -> usize {
    let (r, count) = (table.registers(), table.count(state));
    let (wire, any) = (16 + random.below(count), random.below(r));
    let wire = if count > 0 { wire } else { register };
    random.pick(&[any, (register + 1) % r, wire, wire])
}

/// A next reference that makes the touch word wrong, where it is made to touch or to keep.
fn stale(random: &mut Random, table: &Table) -> Vec<Patch> {
    let (state, register) = (some_state(random, table), random.below(table.registers()));
    let at = record(state) + NEXT_REGISTERS_AT + register;
    let reference = match table.words[at] as usize == register {
        true => other_reference(random, table, state, register),
        false => register,
    };
    match reference == table.words[at] as usize {
        true => one_bit(random, table),
        false => vec![patch(at, reference)],
    }
}

/// Kinds that are always refused, and nothing but a touch word is wrong.
pub const WRONG: [Damage; 6] = [one_bit, one_bit, one_bit, another_word, another_word, stale];

/// Another reference of one register, with the touch word that it asks for.
fn another_reference(random: &mut Random, table: &Table) -> Vec<Patch> {
    let mut patches = Vec::new();
    for _ in 0..random.between(1, 3) {
        let (state, register) = (some_state(random, table), random.below(table.registers()));
        let at = record(state) + NEXT_REGISTERS_AT + register;
        let other = other_reference(random, table, state, register);
        patches.push(patch(at, random.pick(&[register, other])));
    }
    mended(table.words, patches)
}

/// A register that only the last state touches, or only another one, or none, or all. With many
/// states there is no room for it.
fn few_touch(random: &mut Random, table: &Table) -> Vec<Patch> {
    let (n, register) = (table.states(), random.below(table.registers()));
    if 2 * n > MAX_PATCHES {
        return another_reference(random, table);
    }
    let (any, kind) = (random.below(n), random.below(6));
    let one = random.pick(&[n - 1, n - 1, any]);
    let mut patches = Vec::new();
    for state in 0..n {
        let touches = kind == 0 || (kind > 1 && state == one);
        let mut reference = register;
        for _ in 0..if touches { 8 } else { 0 } {
            if reference == register {
                reference = other_reference(random, table, state, register);
            }
        }
        patches.push(patch(record(state) + NEXT_REGISTERS_AT + register, reference));
    }
    mended(table.words, patches)
}

/// Touch words of states from N up, which are not read.
fn unused_words(random: &mut Random, table: &Table) -> Vec<Patch> {
    if table.states() == 64 {
        return another_reference(random, table);
    }
    let mut patches = Vec::new();
    for state in [table.states(), random.between(table.states(), 63), 63] {
        let any = random.word();
        let word = random.pick(&[u32::MAX, 1, 1 << 31, any]);
        patches.push((touch_at(state) as u32, word));
    }
    patches
}

/// Kinds that are never refused.
pub const RIGHT: [Damage; 5] =
    [another_reference, another_reference, few_touch, few_touch, unused_words];

/// Patches for a table that synthesis made.
pub fn patches(random: &mut Random, words: &[u32]) -> Vec<Patch> {
    let table = Table { words };
    match random.percent(50) {
        true => random.pick(&WRONG)(random, &table),
        false => random.pick(&RIGHT)(random, &table),
    }
}
