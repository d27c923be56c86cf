//! Where things stand in the two tables, in words.

use crate::{GRAPH_WORDS, MACHINE_WORDS, REGISTER_WORDS};

/// Blocks of a graph, at most.
pub const MOST_BLOCKS: usize = 64;
/// Instructions of a block, at most.
pub const MOST_INSTRUCTIONS: usize = 8;
/// States of a machine, at most.
pub const MOST_STATES: usize = 64;
/// Wires of a machine, at most.
pub const MOST_WIRES: usize = 3_072;

/// References below this are registers; this and those above are wires of the same state.
pub const REGISTERS_BEFORE_WIRES: u32 = REGISTER_WORDS as u32;

/// The graph table: number of blocks, number of registers, then the blocks.
pub mod graph {
    pub const BLOCKS: usize = 0;
    pub const REGISTERS: usize = 1;
    /// The first block's words.
    pub const FIRST_BLOCK: usize = 2;
    pub const BLOCK_WORDS: usize = 40;

    // Within a block.

    pub const INSTRUCTION_COUNT: usize = 0;
    /// The first instruction: code, d, a or literal, b.
    pub const FIRST_INSTRUCTION: usize = 1;
    pub const INSTRUCTION_WORDS: usize = 4;
    /// The ending: kind, comparison, a, b, t, f.
    pub const ENDING: usize = 33;
}

/// The machine table: numbers of states and registers, starters, block states, records, wires,
/// arrivals.
pub mod machine {
    pub const STATES: usize = 0;
    pub const REGISTERS: usize = 1;
    /// The starter of each state.
    pub const STARTERS: usize = 2;
    /// The state of each block: below N, or 255 for an absent block; another is refused with 10.
    pub const BLOCK_STATES: usize = STARTERS + super::MOST_STATES;
    /// A record for each state.
    pub const RECORDS: usize = BLOCK_STATES + super::MOST_BLOCKS;
    pub const RECORD_WORDS: usize = 20;
    /// The wires of all states.
    pub const WIRES: usize = RECORDS + super::MOST_STATES * RECORD_WORDS;
    /// A wire: code, a, b, c. In an add or sub wire (codes 3 and 4) c is the reference of its
    /// block's arrival, checked as a and b are; the wire counts for the flag of a run where that
    /// value is nonzero. Bounds do not depend on it. Tables from before there was a flag have 0
    /// there, which is register 0.
    pub const WIRE_WORDS: usize = 4;
    /// The reference of each block's arrival, which is nonzero in the cycles that run the block. It
    /// is that of a wire of the block's state, or 0 for an absent block; another is refused with
    /// 10. Several blocks may have the same.
    pub const ARRIVALS: usize = WIRES + super::MOST_WIRES * WIRE_WORDS;

    // Within a record.

    /// The state's first wire, counted from the start of all wires.
    pub const FIRST_WIRE: usize = 0;
    pub const WIRE_COUNT: usize = 1;
    /// The reference of the next state.
    pub const NEXT_STATE: usize = 2;
    /// The references of the next registers.
    pub const NEXT_REGISTERS: usize = 3;
    /// The touch word: bit r is set where r is below R and the next reference of register r is
    /// anything but r itself, and no other bit is. One that is wrong in a state below N is refused
    /// with 10.
    pub const TOUCH: usize = 19;
}

// The parts fill their tables.
const _: () = {
    let instructions = MOST_INSTRUCTIONS * graph::INSTRUCTION_WORDS;
    assert!(graph::FIRST_INSTRUCTION + instructions == graph::ENDING);
    assert!(graph::FIRST_BLOCK + MOST_BLOCKS * graph::BLOCK_WORDS == GRAPH_WORDS);
    assert!(machine::NEXT_REGISTERS + REGISTER_WORDS == machine::TOUCH);
    assert!(machine::TOUCH + 1 == machine::RECORD_WORDS);
    assert!(machine::ARRIVALS + MOST_BLOCKS == MACHINE_WORDS);
};
