//! The words of the blocks in a patched machine table made right: each block's state and the
//! reference of its arrival.

use super::machine_damage::{patch, record};
use crate::answer;
use crate::case::{Patch, MAX_PATCHES};
use crate::graph::MAX_BLOCKS;
use crate::machine_table::{ARRIVALS_AT, BLOCK_STATES_AT, MACHINE_WORDS};

/// The state of an absent block.
pub const ABSENT: usize = 255;

/// Where the state of a block stands.
pub fn state_at(block: usize) -> usize {
    BLOCK_STATES_AT + block
}

/// Where the reference of a block's arrival stands.
pub fn arrival_at(block: usize) -> usize {
    ARRIVALS_AT + block
}

/// The two words of a block.
pub fn words_of(block: usize, state: usize, reference: usize) -> [Patch; 2] {
    [patch(state_at(block), state), patch(arrival_at(block), reference)]
}

/// The two words of a block that is in no state.
pub fn absent(block: usize) -> [Patch; 2] {
    words_of(block, ABSENT, 0)
}

/// How many wires a state has, where it is below N.
fn wires(table: &[u32], state: u32) -> Option<u32> {
    (state < table[0]).then(|| table[record(state as usize) + 1])
}

fn is_wire(table: &[u32], state: u32, reference: u32) -> bool {
    let wire = reference.checked_sub(16);
    wire.is_some_and(|wire| wires(table, state).is_some_and(|wires| wire < wires))
}

fn is_right(table: &[u32], block: usize) -> bool {
    let (state, reference) = (table[state_at(block)], table[arrival_at(block)]);
    is_wire(table, state, reference) || (state as usize == ABSENT && reference == 0)
}

/// What becomes of a block whose state is gone or has no wires.
#[derive(Clone, Copy, PartialEq, Eq)]
enum Homeless {
    Absent,
    /// It goes to a state that has a wire of its number, which is a single patch.
    Moved,
}

fn mend(table: &[u32], block: usize, homeless: Homeless) -> Vec<Patch> {
    let (state, reference) = (table[state_at(block)], table[arrival_at(block)]);
    let mut states = 0..table[0];
    let other = states.find(|&other| is_wire(table, other, reference));
    match (wires(table, state), other) {
        (Some(wires), _) if wires > 0 => {
            vec![patch(arrival_at(block), 16 + block % wires as usize)]
        }
        (_, Some(other)) if homeless == Homeless::Moved => {
            vec![patch(state_at(block), other as usize)]
        }
        _ => {
            let changed = |&(at, word): &Patch| table[at as usize] != word;
            absent(block).into_iter().filter(changed).collect()
        }
    }
}

/// The patches of a whole table, and behind them those that make its block words right, where there
/// is room.
pub fn mended(words: &[u32], mut patches: Vec<Patch>) -> Vec<Patch> {
    let mut table = words.to_vec();
    answer::patch(&mut table, &patches);
    assert!(table.len() >= MACHINE_WORDS);
    if !(1..=64).contains(&table[0]) {
        return patches;
    }
    let wrong: Vec<usize> = (0..MAX_BLOCKS).filter(|&block| !is_right(&table, block)).collect();
    for homeless in [Homeless::Absent, Homeless::Moved] {
        let mends: Vec<Patch> =
            wrong.iter().flat_map(|&block| mend(&table, block, homeless)).collect();
        if patches.len() + mends.len() <= MAX_PATCHES {
            patches.extend(mends);
            break;
        }
    }
    patches
}
