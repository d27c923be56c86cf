//! The command line.

use crate::numbers::{Known, Range, Words};
use clap::{Args, Parser, Subcommand};
use std::path::PathBuf;

const STATUS: &str = "\
What is said of a graph comes from the proved library. FILE is a graph in the text format; - is standard input.

Exit status: 0 all well, 1 refused (or recordings that differ), 2 a wrong use or a file that cannot be read or written, 130 a run that was broken off.";

const WIRES: &str = "\
Of each wire: its name, the block that it is made for (of an exit, the block that ends the cycle), its code, what it reads and what it is for. It reads registers (r0) as they are at the start of the cycle, and wires (w5) of the same state. In a cycle all wires of the state are worked out, in order; then the next state and all registers are taken at once.

Codes are those of the text format, and two of wires alone:
  andnot a, b     a and not b, bit by bit
  select a, b, c  b where a is nonzero, else c

Meanings:
  arrival of 3, 4      nonzero in the cycles that run these blocks
  1 -> 2 taken (true)  nonzero in the cycles that go this way
  sub,1,1,0            the word that this instruction writes
  flag where w5        going over, the sum raises the flag where w5 is nonzero
  ite,ne,0,1,2,5       the comparison of this ending
  joins 2 -> 3         a further edge to block 3 adds to its arrival ...
  r0 of the edges ...  ... and to each register on arrival
  exit 3 -> state 1    the state after this exit, 255 for a halt
  r0 of the exits ...  each exit after the first adds to what comes next

Example:
  gutkavu wires examples/gcd.txt --state 1";

/// Compiles control-flow graphs into state machines, runs both and shows what was made
#[derive(Debug, Parser)]
#[command(name = "gutkavu", version, after_help = STATUS, disable_help_subcommand = true)]
pub struct Arguments {
    /// Answer with JSON, one value to a line
    #[arg(long, global = true)]
    pub json: bool,
    #[command(subcommand)]
    pub command: Command,
}

#[derive(Debug, Subcommand)]
pub enum Command {
    Check(Check),
    List(List),
    States(States),
    Wires(Wires),
    Run(Run),
    Bounds(Bounds),
    Touches(Touches),
    Draw(Draw),
    Compare(Compare),
    Format(Format),
}

/// Tell whether texts are graphs, and where not, why
#[derive(Args, Debug)]
#[command(after_help = "\
Example:
  gutkavu check examples/gcd.txt examples/swing.txt")]
pub struct Check {
    /// Graphs in the text format; - is standard input
    #[arg(value_name = "FILE", required = true)]
    pub files: Vec<PathBuf>,
    /// Say nothing of texts that are admitted
    #[arg(short, long)]
    pub quiet: bool,
}

/// Print the listing: states, starters, numbers of blocks and wires
#[derive(Args, Debug)]
#[command(after_help = "\
These are the bytes that the proved program list prints, for a text that is refused too. The first line has the word 'states', the number of states and that of all wires. Each other line has a state, its starter, how many blocks it has and how many wires.

Example:
  gutkavu list examples/gcd.txt")]
pub struct List {
    /// A graph in the text format; - is standard input
    pub file: PathBuf,
}

/// Show the states of the machine
#[derive(Args, Debug)]
#[command(after_help = "\
Of each state: its starter, its blocks in the order in which their wires are made, how many wires it has, the states that can follow it, and the registers that it may change.

Example:
  gutkavu states examples/turn.txt")]
pub struct States {
    /// A graph in the text format; - is standard input
    pub file: PathBuf,
}

/// Show the wires of the datapath, state by state
#[derive(Args, Debug)]
#[command(after_help = WIRES)]
pub struct Wires {
    /// A graph in the text format; - is standard input
    pub file: PathBuf,
    /// This state alone
    #[arg(long, value_name = "K")]
    pub state: Option<u32>,
}

/// Run the graph and its machine side by side
#[derive(Args, Debug)]
#[command(after_help = "\
Both run from the same block with the same registers and words. After each cycle they have the same registers and flag, and have run equally many blocks; this is proved, and still compared as they go.

A run has halted, or is spent (the budget is used), or dry (there is no word for the next cycle), or was broken off by Ctrl-C and answers what it had reached. The flag is set where the signed result of an add or sub went over in a block that was run. A graph without 'in' needs no words.

Examples:
  gutkavu run examples/gcd.txt -r 12,18 --trace
  gutkavu run examples/turn.txt -r 0,0,0,-300,300 --words 10,-190,410 --signed
  gutkavu run examples/gcd.txt -r 12,18 --record gcd.capture")]
pub struct Run {
    /// A graph in the text format; - is standard input
    pub file: PathBuf,
    #[command(flatten)]
    pub course: Setup,
    /// Show registers and words as signed numbers
    #[arg(long)]
    pub signed: bool,
    /// Show every cycle: its state, the blocks run, the registers that changed, the flag
    #[arg(long)]
    pub trace: bool,
    /// Write a recording of the machine, as 'compare' takes it: the state and registers that each cycle begins with, cycles counted from 0
    #[arg(long, value_name = "F")]
    pub record: Option<PathBuf>,
}

/// What a run starts with.
#[derive(Args, Debug)]
pub struct Setup {
    /// The first registers' values, parted by commas; the others are 0
    #[arg(short, long, value_name = "VALUES", default_value = "", hide_default_value = true)]
    #[arg(allow_hyphen_values = true)]
    pub registers: Words,
    /// The words that `in` gives, one for each cycle, parted by commas
    #[arg(long, value_name = "WORDS", allow_hyphen_values = true)]
    pub words: Option<Words>,
    /// A file with such words, parted by commas, spaces or line ends; - is standard input. Words past the budget are not read
    #[arg(long, value_name = "F", conflicts_with = "words")]
    pub words_file: Option<PathBuf>,
    /// The block to start at, a starter
    #[arg(long, value_name = "N", default_value_t = 0)]
    pub start: u32,
    /// How many cycles to run at most
    #[arg(long, value_name = "N", default_value_t = 1_000_000)]
    pub budget: u32,
}

/// Tell what one cycle of a state can do to registers known within bounds
#[derive(Args, Debug)]
#[command(after_help = "\
Every cycle of the state from registers within the bounds given, on any input word, ends within the bounds answered. These may be wider than what the cycles reach.

Example:
  gutkavu bounds examples/swing.txt --state 0 -r 0=-720..720 --others 0")]
pub struct Bounds {
    /// A graph in the text format; - is standard input
    pub file: PathBuf,
    /// The state
    #[arg(long, value_name = "K", default_value_t = 0)]
    pub state: u32,
    /// What is known of a register before the cycle, as signed values: REGISTER=LOWEST..HIGHEST, or REGISTER=VALUE
    #[arg(short, long = "register", value_name = "R=RANGE", value_delimiter = ',')]
    pub registers: Vec<Known>,
    /// What is known of each register that is not named; any value where this is not given
    #[arg(long, value_name = "RANGE", allow_hyphen_values = true)]
    pub others: Option<Range>,
}

/// Tell which states may change a register
#[derive(Args, Debug)]
#[command(after_help = "\
Example:
  gutkavu touches examples/turn.txt -r 3")]
pub struct Touches {
    /// A graph in the text format; - is standard input
    pub file: PathBuf,
    /// This register alone; a register that the graph does not have is never changed
    #[arg(short, long, value_name = "R")]
    pub register: Option<u32>,
}

/// Draw the graph, its blocks grouped by state
#[derive(Args, Debug)]
// What a run starts with says nothing without one.
#[command(mut_arg("registers", |option| option.requires("trace")))]
#[command(mut_arg("words", |option| option.requires("trace")))]
#[command(mut_arg("words_file", |option| option.requires("trace")))]
#[command(mut_arg("start", |option| option.requires("trace")))]
#[command(mut_arg("budget", |option| option.requires("trace")))]
#[command(after_help = "\
Every state is a box with its number and how many wires it has, every block a node with its instructions and the condition it ends in. Starters have a double border; edges to a starter, which end the cycle, are bold and have the colour of the state that comes next. Unreachable blocks are dashed, outside all boxes. In conditions and shifts u is for unsigned: < is lt and <u ltu, >> is sar and >>u shr.

With --trace the graph is run. Blocks and edges have the number of times that the run passed them; those that it never passed are grey.

Examples:
  gutkavu draw examples/gcd.txt
  gutkavu draw examples/gcd.txt -o gcd.svg
  gutkavu draw examples/turn.txt --touching 3 -o turn.pdf
  gutkavu draw examples/gcd.txt -o gcd.svg --trace -r 12,18")]
pub struct Draw {
    /// A graph in the text format; - is standard input
    pub file: PathBuf,
    /// The picture's file: .svg, .png or .pdf, an image by Graphviz's dot, or .dot or .gv, the Graphviz text. Without it, or for -, the text is printed
    #[arg(short, long, value_name = "F")]
    pub output: Option<PathBuf>,
    /// Colour the states that may change this register; a register that the graph does not have is never changed
    #[arg(long, value_name = "R")]
    pub touching: Option<u32>,
    /// Run the graph, and show how often each block and edge was passed
    #[arg(long)]
    pub trace: bool,
    #[command(flatten, next_help_heading = "Options of the run, with --trace")]
    pub course: Setup,
}

/// Compare two recordings of one run, as an array's capture and a model's
#[derive(Args, Debug)]
#[command(after_help = "\
A recording has a line for each cycle: the cycle, the state and the words of R registers, parted by commas. Either may lack cycles. The answer is the number of cycles that both hold and the first of them that differs, with its line of both; the exit status is 1 where one differs.

'run --record' writes one of the machine.

Example:
  gutkavu compare -r 8 examples/turn-model.capture examples/turn-model.capture")]
pub struct Compare {
    /// How many registers a line has
    #[arg(short, long, value_name = "R")]
    pub registers: u32,
    /// A recording; - is standard input
    pub first: PathBuf,
    /// Another
    pub second: PathBuf,
}

/// Read a graph and write it again
#[derive(Args, Debug)]
#[command(after_help = "\
The text format has one writing for each graph, so what is written are the bytes that were read.

Example:
  gutkavu format examples/gcd.txt")]
pub struct Format {
    /// A graph in the text format; - is standard input
    pub file: PathBuf,
}
