//! The proved compiler of control-flow graphs into state machines, for Rust.
//!
//! A [`Graph`] is read from text; [`Graph::synthesise`] makes its [`Machine`]; both run on 16
//! register words.
//!
//! ```
//! use gutkavu::{Graph, MachineRun};
//!
//! let text = "graph,1,2\nblock,0\nadd,0,0,1\nhalt\n";
//! let graph = Graph::read(text.as_bytes())?;
//! let machine = graph.synthesise();
//! assert_eq!((machine.states(), machine.starter(0)), (1, Some(0)));
//!
//! let mut registers = [0; 16];
//! (registers[0], registers[1]) = (12, 30);
//! let run = machine.run(&mut registers, 0, 1_000)?;
//! assert_eq!(run, MachineRun { halted: true, count: 1, next: None, flag: false, blocks: 1 });
//! assert_eq!(registers[0], 42);
//! # Ok::<(), Box<dyn std::error::Error>>(())
//! ```
//!
//! Sums and differences wrap. Every run answers a flag that says whether one went over, as signed
//! numbers, in a block that the run passed.
//!
//! ```
//! use gutkavu::Graph;
//!
//! let graph: Graph = "graph,1,2\nblock,0\nadd,0,0,1\nhalt\n".parse()?;
//! let mut registers = [0; 16];
//! (registers[0], registers[1]) = (2_147_483_647, 1);
//! assert!(graph.run(&mut registers, 0, 1_000)?.flag);
//! assert_eq!(registers[0] as i32, -2_147_483_648);
//! # Ok::<(), Box<dyn std::error::Error>>(())
//! ```
//!
//! `shl`, `shr` and `sar` shift by the whole second operand, read as unsigned: from 32 up `shl` and
//! `shr` give 0, and `sar` gives 32 copies of the sign bit.
//!
//! A graph that reads input words (`in,d`) is run with a list of them, one for each arrival at a
//! starter. Without a word for an arrival the run is dry.
//!
//! ```
//! use gutkavu::{Graph, Outcome};
//!
//! let text = "graph,1,2\nblock,0\nin,1\nadd,0,0,1\ngoto,0\n";
//! let graph = Graph::read(text.as_bytes())?;
//! let machine = graph.synthesise();
//!
//! let (mut registers, mut others) = ([0; 16], [0; 16]);
//! let run = machine.run_with_words(&mut registers, 0, 1_000, &[12, 30])?;
//! assert_eq!((run.outcome, run.count, run.next), (Outcome::Dry, 2, Some(0)));
//! let run = graph.run_with_words(&mut others, 0, 1_000, &[12, 30], machine.starters())?;
//! assert_eq!((run.outcome, run.count, run.next), (Outcome::Dry, 2, Some(0)));
//! assert_eq!((registers[0], registers), (42, others));
//! # Ok::<(), Box<dyn std::error::Error>>(())
//! ```
//!
//! A cycle of a machine runs one block of its state or several. A run answers how many it ran in
//! all its cycles: as many as the graph runs over the same arrivals.
//!
//! ```
//! use gutkavu::Graph;
//!
//! let text = "graph,3,2\nblock,0\ngoto,1\nblock,1\nin,1\nite,eq,0,1,2,1\nblock,2\ngoto,1\n";
//! let graph: Graph = text.parse()?;
//! let machine = graph.synthesise();
//! assert_eq!(machine.blocks(1).collect::<Vec<_>>(), [1, 2]);
//!
//! // Block 2 runs where the word is r0, in the second and in the last cycle.
//! let words = [9, 0, 9, 0];
//! let cycles = machine.run_with_words(&mut [0; 16], 0, 4, &words)?;
//! assert_eq!((cycles.count, cycles.blocks), (4, 6));
//! let blocks = graph.run_with_words(&mut [0; 16], 0, 1_000, &words, machine.starters())?;
//! assert_eq!(blocks.count, 6);
//! # Ok::<(), Box<dyn std::error::Error>>(())
//! ```
//!
//! A machine is asked which registers a state may change, and for the first state that may change a
//! register.
//!
//! ```
//! use gutkavu::Graph;
//!
//! let graph: Graph = "graph,2,2\nblock,0\ngoto,1\nblock,1\nadd,0,0,1\ngoto,1\n".parse()?;
//! let machine = graph.synthesise();
//! assert_eq!(machine.starters(), [0, 1]);
//! assert_eq!([machine.touches(0, 0)?, machine.touches(1, 0)?], [false, true]);
//! assert_eq!([0, 1].map(|register| machine.first_touching(register)), [Ok(Some(1)), Ok(None)]);
//! # Ok::<(), Box<dyn std::error::Error>>(())
//! ```
//!
//! Where registers are known within [`Bounds`] only, a machine is asked what one cycle of a state
//! can do: every cycle from registers within them ends within the bounds answered.
//!
//! ```
//! use gutkavu::{Bounds, Graph, Refusal};
//!
//! let graph: Graph = "graph,1,2\nblock,0\nsx,0,0\nadd,1,0,0\nhalt\n".parse()?;
//! let machine = graph.synthesise();
//! let next = machine.bounds(0, &Bounds::FULL.with(0, -720..=720))?;
//! assert_eq!((next.range(0), next.range(1)), (-720..=720, -1_440..=1_440));
//! let next = machine.bounds(0, &Bounds::FULL)?;
//! assert_eq!((next.range(0), next.range(1)), (-32_768..=32_767, -65_536..=65_534));
//! let swapped = Bounds { lowest: [720; 16], highest: [-720; 16] };
//! assert_eq!(machine.bounds(0, &swapped), Err(Refusal::LowestAboveHighest));
//! # Ok::<(), Box<dyn std::error::Error>>(())
//! ```
//!
//! Two recordings of one run, an array's capture and a model's run, are compared cycle by cycle;
//! either may lack cycles. [`captures`] has the form of their lines.
//!
//! ```
//! use gutkavu::captures::{self, Comparison};
//!
//! let (array, model) = ("1,0,7\n3,1,9\n", "0,0,7\n1,0,7\n2,1,8\n3,1,8\n");
//! let compared = captures::compare(1, array.as_bytes(), model.as_bytes())?;
//! assert_eq!(compared, Comparison { shared: 2, first_difference: Some(3) });
//! # Ok::<(), Box<dyn std::error::Error>>(())
//! ```
//!
//! [`Graph::block`], [`Machine::wire`] and their neighbours show what the two tables hold: blocks,
//! instructions, wires and what these read.
//!
//! [`operations`] has the eleven operations on lent buffers, with every field that they answer, for
//! programs that keep their own tables. [`layout`] says where things stand in a table.

pub mod captures;
pub mod layout;
pub mod operations;
pub mod raw;

mod block;
mod bounds;
mod code;
mod graph;
mod machine;
mod refusal;
mod run;
mod wire;

pub use block::{Block, Ending, Instruction};
pub use bounds::Bounds;
pub use code::Code;
pub use graph::Graph;
pub use machine::Machine;
pub use refusal::{ReadRefusal, Refusal};
pub use run::{MachineRun, MachineRunWithWords, Outcome, Run, RunWithWords};
pub use wire::{Reference, Wire};

/// Bytes of a text, at most.
pub const TEXT_BYTES: usize = 16_384;
/// Words of a graph table.
pub const GRAPH_WORDS: usize = 2_562;
/// Words of a machine table.
pub const MACHINE_WORDS: usize = 13_762;
/// Words of a register buffer, at least.
pub const REGISTER_WORDS: usize = 16;
/// No block, or no state.
pub const NONE: u32 = 255;
