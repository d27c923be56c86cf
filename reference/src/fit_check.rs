//! The command `fit`: the proved library's starters and the fit sets of generated graphs.

mod check;
#[cfg(test)]
mod tests;

use crate::tally::Tally;
use check::{check, Counted, MOST_ENUMERATED};
use reference::generate::graphs::{graph_of, Size};
use reference::graph::{Graph, MAX_BLOCKS};
use reference::print::print;
use reference::random::Random;

/// So many graphs make every count more than 0.
const GRAPHS_FOR_ALL: usize = 500;

/// About half of the graphs are small enough to try every set on them.
fn graph_at(seed: u64, index: usize) -> Graph {
    let random = &mut Random::at(seed, index as u64);
    let blocks = match random.percent(50) {
        true => random.between(1, MOST_ENUMERATED),
        false => random.between(MOST_ENUMERATED + 1, MAX_BLOCKS),
    };
    graph_of(random, Size { blocks, registers: 2, instructions: 1 })
}

/// The starters in the machine table that the proved library makes of a text.
fn proved_starters(text: &str) -> Result<Vec<usize>, String> {
    let graph: gutkavu::Graph = text.parse().map_err(|refusal| format!("{refusal}"))?;
    let machine = graph.synthesise();
    let starters = (0..machine.states()).map_while(|state| machine.starter(state));
    Ok(starters.map(|block| block as usize).collect())
}

fn report(seed: u64, index: usize, faults: &[String], text: &str) -> String {
    let faults: String = faults.iter().map(|fault| format!("  {fault}\n")).collect();
    format!("difference: seed {seed}, graph {index}\n{faults}{text}")
}

type Library = dyn Fn(&str) -> Result<Vec<usize>, String> + Sync;

fn tally_all(seed: u64, count: usize, library: &Library) -> Tally<Counted> {
    Tally::of(count, |tally, index| {
        let graph = graph_at(seed, index);
        let text = print(&graph);
        let faults = match library(&text) {
            Ok(starters) => check(&graph, &starters, tally),
            Err(refusal) => vec![refusal],
        };
        if !faults.is_empty() {
            tally.differ(index, || report(seed, index, &faults, &text));
        }
    })
}

/// What is printed; an error where a graph differs, or where so many left a count at 0.
fn outcome(seed: u64, count: usize, tally: &Tally<Counted>) -> Result<String, String> {
    let missing = if count < GRAPHS_FOR_ALL { Vec::new() } else { tally.missing(Counted::ALL) };
    let name = |counted: &Counted| String::from(counted.name());
    let lines = tally.lines(|counted| Some(name(counted)));
    tally.outcome(lines, name, &missing, &format!("seed {seed}: {count} graphs"))
}

fn fit(seed: u64, count: usize, library: &Library) -> Result<String, String> {
    outcome(seed, count, &tally_all(seed, count, library))
}

pub fn command(seed: u64, count: usize) -> Result<Vec<u8>, String> {
    fit(seed, count, &proved_starters).map(String::into_bytes)
}
