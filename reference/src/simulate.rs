//! The command `simulate`: machines in a simulator of IEEE 1800, beside the proved library.

#[cfg(test)]
mod code_tests;
mod design;
mod draws;
mod icarus;
mod judge;
mod test_bench;
#[cfg(test)]
mod tests;
#[cfg(test)]
mod wrong_tests;

use crate::tally::Tally;
use gutkavu::operations;
use icarus::ICARUS;
use judge::{end_name, judge, Judged, Sides, Told};
use reference::answer;
use reference::case::Patch;
use reference::graph::Graph;
use reference::grouping::Tour;
use reference::machine_table::{decode, WIRES_AT, WIRE_WORDS};
use reference::print::print;
use reference::random::Random;
use reference::run::Outcome;
use test_bench::{Start, AMOUNTS, SHIFTS};

/// So many graphs make every count more than 0.
const GRAPHS_FOR_ALL: usize = 200;

const CODES: [&str; 20] = [
    "set", "copy", "add", "sub", "and", "or", "xor", "shl", "shr", "sar", "sx", "eq", "ne", "lt",
    "ge", "ltu", "geu", "and not", "choose", "in",
];

const BESIDE_CYCLES: [&str; 3] =
    ["fewer blocks than cycles", "as many blocks as cycles", "more blocks than cycles"];

/// What is counted, so that a check of nothing shows.
#[derive(Clone, Copy, Debug, PartialEq, Eq, PartialOrd, Ord)]
enum Counted {
    Graphs,
    Unreachable,
    ManyBlocks,
    Patched,
    Wires,
    ManyWires,
    Code(usize),
    Runs,
    FromOthers,
    Cycles,
    /// A shift that was worked out, and the kind of its amount.
    Shift(usize, usize),
    Ended(&'static str),
    Flags,
    Blocks,
    /// Runs with fewer blocks than cycles, with as many and with more.
    BlocksBeside(usize),
    Differing,
}

impl Counted {
    /// What has to be there; differences need not.
    fn all() -> Vec<Counted> {
        use Counted::*;
        let mut all = vec![Graphs, Unreachable, ManyBlocks, Patched, Wires, ManyWires];
        all.extend([Runs, FromOthers, Cycles, Flags, Blocks]);
        all.extend((0..BESIDE_CYCLES.len()).map(BlocksBeside));
        all.extend((0..CODES.len()).map(Code));
        let shifts = (0..SHIFTS.len()).flat_map(|one| (0..AMOUNTS.len()).map(move |k| (one, k)));
        all.extend(shifts.map(|(shift, kind)| Shift(shift, kind)));
        all.extend([Outcome::Spent, Outcome::Halted, Outcome::Dry].map(|end| Ended(end_name(end))));
        all
    }

    fn name(self) -> String {
        let name = match self {
            Counted::Graphs => "graphs",
            Counted::Unreachable => "graphs with unreachable blocks",
            Counted::ManyBlocks => "graphs of 32 blocks or more",
            Counted::Patched => "machine tables with words changed",
            Counted::Wires => "wires",
            Counted::ManyWires => "machines of 500 wires or more",
            Counted::Code(index) => return format!("wires of code {} {}", index + 1, CODES[index]),
            Counted::Runs => "runs",
            Counted::FromOthers => "runs from another state than 0",
            Counted::Cycles => "cycles compared",
            Counted::Shift(shift, kind) => {
                return format!("{} worked out, amount {}", SHIFTS[shift].name(), AMOUNTS[kind])
            }
            Counted::Ended(name) => return format!("runs that ended {name}"),
            Counted::Flags => "runs with the flag raised",
            Counted::Blocks => "blocks run",
            Counted::BlocksBeside(kind) => return format!("runs with {}", BESIDE_CYCLES[kind]),
            Counted::Differing => "runs that differ",
        };
        String::from(name)
    }
}

/// A machine that the proved library made of a graph, with words changed or not, and its runs.
struct Subject {
    graph: Graph,
    table: Vec<u32>,
    patches: Vec<Patch>,
    starts: Vec<Start>,
}

impl Subject {
    fn at(seed: u64, index: usize) -> Result<Subject, String> {
        let random = &mut Random::at(seed, index as u64);
        let graph = draws::graph(random);
        let read: gutkavu::Graph =
            print(&graph).parse().map_err(|refusal| format!("refused: {refusal}"))?;
        let mut table = read.synthesise().words().to_vec();
        let patches = draws::patches(random, &table);
        answer::patch(&mut table, &patches);
        let starts = draws::starts(random, table[0] as usize);
        Ok(Subject { graph, table, patches, starts })
    }

    /// The codes of the wires of all states.
    fn codes(&self) -> Vec<usize> {
        let machine = decode(&self.table);
        let states = machine.iter().flat_map(|machine| &machine.states);
        let wires = states.flat_map(|state| state.first..state.first + state.wires.len());
        wires.map(|wire| self.table[WIRES_AT + wire * WIRE_WORDS] as usize).collect()
    }

    fn count(&self, tally: &mut Tally<Counted>) {
        let blocks = self.graph.blocks.len();
        let unreachable = Tour::of(&self.graph).reachable().len() < blocks;
        tally.count(Counted::Graphs, 1);
        tally.count(Counted::Unreachable, usize::from(unreachable));
        tally.count(Counted::ManyBlocks, usize::from(blocks >= 32));
        tally.count(Counted::Patched, usize::from(!self.patches.is_empty()));
        let codes = self.codes();
        tally.count(Counted::Wires, codes.len());
        tally.count(Counted::ManyWires, usize::from(codes.len() >= 500));
        codes.into_iter().for_each(|code| tally.count(Counted::Code(code - 1), 1));
        let others = self.starts.iter().filter(|start| start.state != 0).count();
        tally.count(Counted::Runs, self.starts.len());
        tally.count(Counted::FromOthers, others);
    }

    /// The first difference in full, and what it takes to see it again; nothing where none differs.
    fn report(&self, judged: &Judged) -> String {
        let [first, ..] = &judged.differences[..] else { return String::new() };
        let Start { state, registers, words, budget } = &self.starts[first.run];
        let (differing, runs) = (judged.differences.len(), self.starts.len());
        let (lines, text) = (&first.text, print(&self.graph));
        let patches = match self.patches.is_empty() {
            true => String::new(),
            false => format!("  words changed in its machine table: {:?}\n", self.patches),
        };
        format!(
            "  {differing} of {runs} runs differ, the first from state {state}, budget {budget}\n  \
             registers {registers:?}\n  words {words:?}\n{lines}{patches}{text}"
        )
    }
}

fn count_runs(tally: &mut Tally<Counted>, judged: &Judged) {
    for &Told { cycles, end, flag, blocks, .. } in &judged.runs {
        tally.count(Counted::Cycles, cycles);
        tally.count(Counted::Blocks, blocks as usize);
        let kind = 1 + blocks.cmp(&(cycles as u64)) as isize;
        tally.count(Counted::BlocksBeside(kind as usize), 1);
        tally.count(Counted::Flags, usize::from(flag));
        end.into_iter().for_each(|end| tally.count(Counted::Ended(end_name(end)), 1));
    }
    for (place, &number) in judged.amounts.iter().enumerate() {
        tally.count(Counted::Shift(place / AMOUNTS.len(), place % AMOUNTS.len()), number);
    }
    tally.count(Counted::Differing, judged.differences.len());
}

fn tally_all(seed: u64, count: usize, sides: &Sides) -> Tally<Counted> {
    Tally::of(count, |tally, index| {
        let report = match Subject::at(seed, index) {
            Ok(subject) => {
                subject.count(tally);
                let judged = judge(&subject.table, &subject.starts, sides);
                judged.map(|judged| {
                    count_runs(tally, &judged);
                    subject.report(&judged)
                })
            }
            Err(refusal) => Err(refusal),
        };
        let report = report.unwrap_or_else(|error| format!("  {error}\n"));
        if !report.is_empty() {
            tally.differ(index, || format!("difference: seed {seed}, graph {index}\n{report}"));
        }
    })
}

/// What is printed; an error where a graph differs, or where so many left a count at 0.
fn outcome(seed: u64, count: usize, tally: &Tally<Counted>) -> Result<String, String> {
    let missing = if count < GRAPHS_FOR_ALL { Vec::new() } else { tally.missing(Counted::all()) };
    let lines = tally.lines(|counted| Some(counted.name()));
    let cases = format!("seed {seed}: {count} graphs");
    tally.outcome(lines, |counted| counted.name(), &missing, &cases)
}

fn simulate(seed: u64, count: usize, sides: &Sides) -> Result<String, String> {
    outcome(seed, count, &tally_all(seed, count, sides))
}

pub fn command(seed: u64, count: usize) -> Result<Vec<u8>, String> {
    let version = ICARUS.version()?;
    let simulator = |source: &str| ICARUS.simulate(source);
    let sides = Sides { library: &operations::run_machine_with_words, simulator: &simulator };
    let text = simulate(seed, count, &sides)?;
    Ok(format!("{version}\n{text}").into_bytes())
}
