//! The plain program: the eleven operations as plain Rust on flat arrays, with the same checks and
//! the same algorithms as the proved library. Nothing is allocated.

pub mod block_count;
pub mod bounds;
pub mod capture;
pub mod graph_admission;
pub mod grouping;
pub mod line;
pub mod machine_admission;
pub mod placement;
pub mod read;
pub mod run_graph;
pub mod run_machine;
pub mod state;
pub mod synthesise;
pub mod touch;
pub mod value;
pub mod words;
pub mod write;

pub use bounds::bounds;
pub use capture::compare_captures;
pub use read::read;
pub use run_graph::{run_graph, run_graph_with_words};
pub use run_machine::{run_machine, run_machine_with_words};
pub use synthesise::synthesise;
pub use touch::{first_touching, touches};
pub use write::write;

use gutkavu::operations::{RunFields, RunWithWordsFields};

pub const BLOCKS: usize = 64;
pub const REGISTERS: usize = 16;
pub const INSTRUCTIONS: usize = 8;
pub const NONE: u8 = 255;

/// Words of a graph table's head and of a block, and where in a block's words its ending begins.
pub const HEAD: usize = 2;
pub const BLOCK_WORDS: usize = 40;
pub const ENDING: usize = 33;

/// Where a machine table's parts begin, words of a record, and the most wires.
pub const STARTERS: usize = 2;
pub const BLOCK_STATES: usize = 66;
pub const RECORDS: usize = 130;
pub const RECORD_WORDS: usize = 20;
pub const WIRE_WORDS: usize = 1_410;
pub const WIRES: usize = 3_072;
pub const ARRIVALS: usize = 13_698;
/// Where in a record its next registers begin, and its touch word.
pub const NEXT: usize = 3;
pub const TOUCH: usize = 19;

/// The words of block `n`.
#[inline]
fn block(table: &[u32], n: usize) -> &[u32] {
    &table[HEAD + BLOCK_WORDS * n..][..BLOCK_WORDS]
}

fn refused(number: u32) -> RunWithWordsFields {
    RunWithWordsFields { number, outcome: 0, count: 0, next: 0, flag: 0 }
}

/// How a run ends, with the block or state stood in unless it halted.
fn spent(count: u32, next: u32, flag: bool) -> RunWithWordsFields {
    RunWithWordsFields { number: 0, outcome: 0, count, next, flag: flag.into() }
}

fn halted(count: u32, flag: bool) -> RunWithWordsFields {
    RunWithWordsFields { number: 0, outcome: 1, count, next: gutkavu::NONE, flag: flag.into() }
}

fn dry(count: u32, next: u32, flag: bool) -> RunWithWordsFields {
    RunWithWordsFields { number: 0, outcome: 2, count, next, flag: flag.into() }
}

/// A run without words is never dry.
fn without_words(fields: RunWithWordsFields) -> RunFields {
    let RunWithWordsFields { number, outcome, count, next, flag } = fields;
    RunFields { number, halted: outcome, count, next, flag }
}
