//! What a run starts with, as the command line gives it.

use super::supply::Supply;
use super::{words_file, Course, Side};
use crate::arguments::Setup;
use crate::failure::Failure;
use crate::input;
use crate::refused::Refused;
use crate::table::joined;
use gutkavu::{Graph, Machine, Refusal};
use std::path::Path;

impl<'a> Course<'a> {
    /// The graph and its machine before their first cycle. The file's name is for messages.
    pub fn new(file: &str, graph: &'a Graph, setup: &Setup) -> Result<Course<'a>, Failure> {
        let registers = registers(file, graph, setup)?;
        check_words_file(file, setup)?;
        let (machine, block) = (graph.synthesise(), setup.start);
        judge(graph, &machine, setup).map_err(|refusal| {
            Refused::call(file, refusal, reason(refusal, graph, &machine, block))
        })?;
        let state = machine.state_of(block).expect("a starter has a state");
        Ok(Course {
            graph,
            words: words(setup)?,
            budget: setup.budget,
            cycles: 0,
            by_graph: Side::new(registers, block),
            by_machine: Side::new(registers, state),
            machine,
        })
    }
}

fn registers(file: &str, graph: &Graph, setup: &Setup) -> Result<[u32; 16], Failure> {
    let (given, has) = (&setup.registers.0, graph.registers());
    if given.len() > has as usize {
        let count = given.len();
        let message =
            format!("{file}: {count} values are given, but the graph has R = {has} registers");
        return Err(Failure::Trouble(message));
    }
    let mut registers = [0; 16];
    registers[..given.len()].copy_from_slice(given);
    Ok(registers)
}

/// Standard input can be one of the two.
fn check_words_file(file: &str, setup: &Setup) -> Result<(), Failure> {
    let standard = |path: &Path| input::is_standard_input(path) && input::name_of(path) == file;
    match &setup.words_file {
        Some(path) if standard(path) => Err(input::standard_input_twice()),
        _ => Ok(()),
    }
}

fn has_words(setup: &Setup) -> bool {
    setup.words.is_some() || setup.words_file.is_some()
}

/// Runs of no blocks, which the library refuses as it does longer ones.
fn judge(graph: &Graph, machine: &Machine, setup: &Setup) -> Result<(), Refusal> {
    let (mut registers, start) = ([0; 16], setup.start);
    if !has_words(setup) {
        graph.run(&mut registers, start, 0)?;
    }
    graph.run_with_words(&mut registers, start, 0, &[], machine.starters())?;
    Ok(())
}

fn reason(refusal: Refusal, graph: &Graph, machine: &Machine, block: u32) -> String {
    match refusal {
        Refusal::NoStart => format!("block {block} is not below B = {}", graph.blocks()),
        Refusal::NoStarters => {
            let starters = machine.starters();
            let are = if starters.len() == 1 { "only starter is" } else { "starters are" };
            format!("block {block} is no starter; the {are} {}", joined(starters, ", "))
        }
        Refusal::WordsNeeded => {
            String::from("the graph reads input words: give --words or --words-file")
        }
        _ => refusal.meaning().to_string(),
    }
}

fn words(setup: &Setup) -> Result<Supply, Failure> {
    match (&setup.words, &setup.words_file) {
        (Some(words), _) => Ok(Supply::Given(words.0.clone())),
        // No cycle uses a word past the budget.
        (None, Some(path)) => words_file::read(path, setup.budget as usize).map(Supply::Given),
        (None, None) => Ok(Supply::Unread),
    }
}
