//! What a graph buffer and a machine buffer show, short ones too.

use crate::graph::{Graph, IN};
use crate::graph_table::{self, BLOCK_WORDS, GRAPH_WORDS};
use crate::machine_table::{self, MACHINE_WORDS, RECORDS_AT, RECORD_WORDS, WIRES_AT, WIRE_WORDS};

const MOST_WIRES: u64 = 3_072;

/// Blocks or states, and registers, as the first two words give them.
fn out_of_limits(buffer: &[u32]) -> bool {
    let outside = |index: usize, most: u32| {
        buffer.get(index).is_some_and(|&word| !(1..=most).contains(&word))
    };
    outside(0, 64) || outside(1, 16)
}

/// How many blocks or states there are to look at: none where the first word is no number of them.
fn counted(buffer: &[u32]) -> usize {
    buffer.first().filter(|&&count| count <= 64).map_or(0, |&count| count as usize)
}

pub struct GraphFacts {
    pub short: bool,
    /// Not one that reading makes; of a short one only B and R are looked at.
    pub refused: bool,
    /// The graph that it holds, where it is not refused.
    pub graph: Option<Graph>,
    pub reads_words: bool,
    /// B, whatever it is.
    pub blocks: Option<u32>,
}

impl GraphFacts {
    pub fn of(buffer: &[u32]) -> GraphFacts {
        let short = buffer.len() < GRAPH_WORDS;
        let graph: Option<Graph> = graph_table::decode(buffer);
        GraphFacts {
            short,
            refused: if short { out_of_limits(buffer) } else { graph.is_none() },
            graph,
            reads_words: (0..counted(buffer)).any(|block| block_reads(buffer, block)),
            blocks: buffer.first().copied(),
        }
    }
}

/// Whether one of a block's instructions is `in`; a wrong count of them shows none.
fn block_reads(buffer: &[u32], block: usize) -> bool {
    let at = 2 + block * BLOCK_WORDS;
    let count = buffer.get(at).filter(|&&count| count <= 8).map_or(0, |&count| count as usize);
    (0..count).any(|index| buffer.get(at + 1 + 4 * index) == Some(&IN))
}

pub struct MachineFacts {
    pub short: bool,
    /// One that is refused 10; of a short one only N and R are looked at.
    pub refused: bool,
    pub reads_words: bool,
    /// N, whatever it is.
    pub states: Option<u32>,
    /// R, whatever it is.
    pub registers: Option<u32>,
}

impl MachineFacts {
    pub fn of(buffer: &[u32]) -> MachineFacts {
        let short = buffer.len() < MACHINE_WORDS;
        let refused = match short {
            true => out_of_limits(buffer),
            false => machine_table::decode(buffer).is_none(),
        };
        let reads_words = (0..counted(buffer)).any(|state| state_reads(buffer, state));
        let (states, registers) = (buffer.first().copied(), buffer.get(1).copied());
        MachineFacts { short, refused, reads_words, states, registers }
    }
}

/// Whether one of a state's wires is `in`; wires past the table show none.
fn state_reads(buffer: &[u32], state: usize) -> bool {
    let at = RECORDS_AT + state * RECORD_WORDS;
    let Some(&[first, count]) = buffer.get(at..at + 2) else {
        return false;
    };
    if u64::from(first) + u64::from(count) > MOST_WIRES {
        return false;
    }
    let wires = first as usize..(first + count) as usize;
    wires.into_iter().any(|wire| buffer.get(WIRES_AT + wire * WIRE_WORDS) == Some(&IN))
}
