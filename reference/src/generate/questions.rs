//! What a case's machine is asked: which state, which register.

use crate::answer::buffers_of;
use crate::case::{Asked, Case};
use crate::machine::Machine;
use crate::machine_table::{self, MACHINE_WORDS};
use crate::random::Random;

/// States at the ends of a machine of so many, and past them.
fn state(random: &mut Random, states: u32) -> u32 {
    let inside = random.below(states as usize) as u32;
    match random.below(100) {
        0..=79 => random.pick(&[inside, inside, inside, 0, states - 1]),
        80..=91 => random.pick(&[states, states, states + 1]),
        _ => random.pick(&[63, 64, 65, 255, 256, 2_147_483_648, u32::MAX]),
    }
}

/// Registers at and past R, past 16, and those that are one below R modulo 16 or 32.
fn past_register(random: &mut Random, registers: u32) -> u32 {
    let own = random.below(registers as usize) as u32;
    let any = random.between(registers as usize, 31) as u32;
    let choices = [
        registers,
        registers,
        any,
        15,
        16,
        16 + own,
        31,
        32,
        32 + own,
        32 + own,
        64 + own,
        256 + own,
        2_147_483_648,
        2_147_483_648 + own,
        u32::MAX - 31 + own,
        u32::MAX,
    ];
    random.pick(&choices)
}

/// The registers below R with the first state that touches each.
fn searched(machine: &Machine) -> Vec<(u32, Option<usize>)> {
    let first = |register| (register as u32, machine.first_touching(register));
    (0..machine.registers).map(first).collect()
}

/// A register below R, more often one whose first state is not the first of all.
fn own_register(random: &mut Random, machine: &Machine) -> u32 {
    let all = searched(machine);
    let late: Vec<_> = all.iter().filter(|(_, first)| *first != Some(0)).collect();
    match random.percent(60) && !late.is_empty() {
        true => random.pick(&late).0,
        false => random.pick(&all).0,
    }
}

/// A question about a machine, or about any where the table is refused.
pub fn question(random: &mut Random, case: &Case) -> Asked {
    let (_, table) = buffers_of(case);
    let machine = table.get(..MACHINE_WORDS).and_then(machine_table::decode);
    let states = table.first().copied().unwrap_or(1).clamp(1, 64);
    let registers = table.get(1).copied().unwrap_or(1).clamp(1, 16);
    let register = match &machine {
        _ if random.percent(30) => past_register(random, registers),
        Some(machine) => own_register(random, machine),
        None => random.below(registers as usize) as u32,
    };
    Asked { state: state(random, states), register }
}
