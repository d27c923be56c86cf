//! Patches on the last words of add and sub wires: the reference of their block's arrival.

use super::machine_damage::{patch, unknown_code, wire_at, Damage, Table};
use crate::case::{Patch, MAX_PATCHES};
use crate::random::Random;

/// An add or sub wire: its number within its state, how many wires that has, where its c stands.
#[derive(Clone, Copy)]
struct Sum {
    wire: usize,
    wires: usize,
    c: usize,
}

fn sums(table: &Table) -> Vec<Sum> {
    let mut found = Vec::new();
    for state in 0..table.states() {
        let (first, wires) = (table.first(state), table.count(state));
        for wire in 0..wires {
            let at = wire_at(first + wire);
            if matches!(table.words[at], 3 | 4) {
                found.push(Sum { wire, wires, c: at + 3 });
            }
        }
    }
    found
}

/// No reference: no register, the wire itself or a later one; a table without sums is damaged
/// otherwise.
pub fn bad_arrival(random: &mut Random, table: &Table) -> Vec<Patch> {
    let sums = sums(table);
    if sums.is_empty() {
        return unknown_code(random, table);
    }
    let Sum { wire, wires, c } = random.pick(&sums);
    let (itself, last) = (16 + wire, 15 + wires);
    let mut choices = vec![itself, itself, itself, itself + 1, itself + 1, last.max(itself)];
    choices.extend([16 + wires, 65_536, u32::MAX as usize]);
    if table.registers() < 16 {
        choices.extend([table.registers(), table.registers(), 15]);
    }
    vec![patch(c, random.pick(&choices))]
}

/// Some other reference: a register, the wire before, any earlier wire.
fn reference(random: &mut Random, registers: usize, wire: usize) -> usize {
    let register = random.below(registers);
    if wire == 0 {
        return register;
    }
    let earlier = 16 + random.below(wire);
    random.pick(&[register, register, 15 + wire, earlier])
}

/// Another arrival for some sums, or for all.
pub fn another_arrival(random: &mut Random, table: &Table) -> Vec<Patch> {
    let (mut patches, all) = (Vec::new(), random.percent(50));
    for Sum { wire, c, .. } in sums(table) {
        if all || random.percent(40) {
            patches.push(patch(c, reference(random, table.registers(), wire)));
        }
    }
    patches.truncate(MAX_PATCHES);
    patches
}

/// A table from before sums had an arrival: the word is 0, which names register 0.
pub fn no_arrivals(_: &mut Random, table: &Table) -> Vec<Patch> {
    let mut patches: Vec<Patch> = sums(table).iter().map(|sum| patch(sum.c, 0)).collect();
    patches.truncate(MAX_PATCHES);
    patches
}

/// Of these kinds alone, for a table that synthesis made.
pub fn patches(random: &mut Random, words: &[u32]) -> Vec<Patch> {
    let kinds: [Damage; 6] =
        [bad_arrival, bad_arrival, another_arrival, another_arrival, another_arrival, no_arrivals];
    random.pick(&kinds)(random, &Table { words })
}
