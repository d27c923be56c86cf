//! Patches on the words of blocks: wrong states and references, and others that are right.

use super::block_words::{absent, arrival_at, state_at, words_of, ABSENT};
use super::machine_damage::{patch, Damage, Table};
use crate::case::{Patch, MAX_PATCHES};
use crate::graph::MAX_BLOCKS;
use crate::random::Random;

const MAX: usize = u32::MAX as usize;

fn present(table: &Table) -> Vec<usize> {
    (0..MAX_BLOCKS).filter(|&block| table.owner(block).is_some()).collect()
}

fn missing(table: &Table) -> Vec<usize> {
    (0..MAX_BLOCKS).filter(|&block| table.owner(block).is_none()).collect()
}

/// The first, the last or any.
fn some(random: &mut Random, blocks: &[usize]) -> usize {
    let any = random.pick(blocks);
    random.pick(&[blocks[0], any, any, any, blocks[blocks.len() - 1]])
}

/// A wire of a state that has some: the first, the last, any.
fn wire(random: &mut Random, table: &Table, state: usize) -> usize {
    let any = 16 + random.below(table.count(state));
    random.pick(&[16, any, any, any, 15 + table.count(state)])
}

/// A wire whose word is seldom 0 or 1 alone: not of a comparison, nor of what is made of these.
fn wordy_wire(random: &mut Random, table: &Table, state: usize) -> usize {
    let mut chosen = wire(random, table, state);
    for _ in 0..6 {
        if !matches!(table.code(state, chosen - 16), 2..=4 | 7..=11 | 19 | 20) {
            chosen = wire(random, table, state);
        }
    }
    chosen
}

/// A reference of a present block that is no wire of its state: a register, one past its wires,
/// which may be a wire of the table all the same, or any.
fn bad_reference(random: &mut Random, table: &Table) -> Vec<Patch> {
    let present = present(table);
    if present.is_empty() {
        return bad_state(random, table);
    }
    let block = some(random, &present);
    let count = table.count(table.owner(block).unwrap_or(0));
    let r = table.registers();
    let choices = [
        0,
        0,
        r - 1,
        r - 1,
        r.min(15),
        15,
        15,
        16 + count,
        16 + count,
        17 + count,
        3_087.max(16 + count),
        65_552,
        2_147_483_664,
        MAX,
        MAX,
        MAX,
    ];
    vec![patch(arrival_at(block), random.pick(&choices))]
}

/// A state that is neither below N nor 255, of a block with a reference or without.
fn bad_state(random: &mut Random, table: &Table) -> Vec<Patch> {
    let (n, any) = (table.states(), random.between(table.states(), 254));
    let states =
        [n, n, n, n + 1, 64, any, 254, 254, 256, 256, 511, 65_791, 2_147_483_648, MAX, MAX];
    let block = some(random, &(0..MAX_BLOCKS).collect::<Vec<usize>>());
    vec![patch(state_at(block), random.pick(&states))]
}

/// A state that is neither, of a block that has no reference.
fn no_absent_state(random: &mut Random, table: &Table) -> Vec<Patch> {
    let missing = missing(table);
    if missing.is_empty() {
        return bad_state(random, table);
    }
    let states = [table.states(), table.states() + 1, 64, 254, 254, 256, 511, MAX, MAX];
    words_of(some(random, &missing), random.pick(&states), 0).to_vec()
}

/// An absent block with a reference; where there is none, a present one made absent.
fn absent_with_reference(random: &mut Random, table: &Table) -> Vec<Patch> {
    let (present, missing) = (present(table), missing(table));
    if missing.is_empty() || (!present.is_empty() && random.percent(35)) {
        return vec![patch(state_at(some(random, &present)), ABSENT)];
    }
    let state = random.below(table.states());
    let wire = wire(random, table, state);
    let reference = random.pick(&[1, 15, 16, 16, wire, wire, 255, MAX]);
    vec![patch(arrival_at(some(random, &missing)), reference)]
}

/// An absent block put into a state without a reference, or with a wrong one.
fn present_without_reference(random: &mut Random, table: &Table) -> Vec<Patch> {
    let missing = missing(table);
    if missing.is_empty() {
        return bad_reference(random, table);
    }
    let state = random.below(table.states());
    let (block, past) = (some(random, &missing), 16 + table.count(state));
    words_of(block, state, random.pick(&[0, 0, 0, 1, 15, past])).to_vec()
}

/// Kinds that are always refused, and nothing but a block's words is wrong.
pub const WRONG: [Damage; 9] = [
    bad_reference, bad_reference, bad_reference, bad_state, bad_state, no_absent_state,
    absent_with_reference, absent_with_reference, present_without_reference,
];

/// One of them.
pub fn wrong(random: &mut Random, table: &Table) -> Vec<Patch> {
    random.pick(&WRONG)(random, table)
}

/// Other wires of their states in place of some arrivals, or of all.
fn other_references(random: &mut Random, table: &Table) -> Vec<Patch> {
    let (mut patches, all, wordy) = (Vec::new(), random.percent(40), random.percent(60));
    for block in present(table) {
        let state = table.owner(block).unwrap_or(0);
        let reference = match wordy {
            true => wordy_wire(random, table, state),
            false => wire(random, table, state),
        };
        if all || random.percent(40) {
            patches.push(patch(arrival_at(block), reference));
        }
    }
    patches.truncate(MAX_PATCHES);
    patches
}

/// All blocks of a state with one reference.
fn shared_reference(random: &mut Random, table: &Table) -> Vec<Patch> {
    let state = random.below(table.states());
    let reference = wire(random, table, state);
    let own = present(table).into_iter().filter(|&block| table.owner(block) == Some(state));
    own.map(|block| patch(arrival_at(block), reference)).collect()
}

/// Some blocks made absent, or all of a state, or all.
fn made_absent(random: &mut Random, table: &Table) -> Vec<Patch> {
    let (kind, state) = (random.below(4), random.below(table.states()));
    let mut gone = present(table);
    gone.retain(|&block| match kind {
        0 => true,
        1 => table.owner(block) == Some(state),
        _ => random.percent(45),
    });
    gone.truncate(MAX_PATCHES / 2);
    gone.into_iter().flat_map(absent).collect()
}

/// Absent blocks put into states, from B up as well as below; with all blocks present, moved ones.
fn made_present(random: &mut Random, table: &Table) -> Vec<Patch> {
    let missing = missing(table);
    if missing.is_empty() {
        return moved(random, table);
    }
    let mut patches = Vec::new();
    for _ in 0..random.pick(&[1, 1, 2, 3, 6, 20]) {
        let (block, state) = (some(random, &missing), random.below(table.states()));
        patches.extend(words_of(block, state, wire(random, table, state)));
    }
    patches
}

/// Blocks put into other states.
fn moved(random: &mut Random, table: &Table) -> Vec<Patch> {
    let (blocks, mut patches) = (present(table), Vec::new());
    for _ in 0..random.between(1, 4) {
        let (block, state) = (some(random, &blocks), random.below(table.states()));
        patches.extend(words_of(block, state, wire(random, table, state)));
    }
    patches
}

/// Kinds that are never refused.
pub const RIGHT: [Damage; 10] = [
    other_references, other_references, other_references, shared_reference, made_absent,
    made_absent, made_absent, made_absent, made_present, moved,
];

/// One of them.
pub fn right(random: &mut Random, table: &Table) -> Vec<Patch> {
    random.pick(&RIGHT)(random, table)
}

/// Patches for a table that synthesis made.
pub fn patches(random: &mut Random, words: &[u32]) -> Vec<Patch> {
    let table = Table { words };
    match random.percent(37) {
        true => wrong(random, &table),
        false => right(random, &table),
    }
}
