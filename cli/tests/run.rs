//! `run`: graph and machine side by side.

mod common;

mod run {
    mod answers;
    mod failures;
    mod interrupts;
    mod record;
    mod terminal;
}

use common::{gutkavu, parted, with_input, Ran};

/// `run` with arguments that are parted by spaces.
fn run(arguments: &str) -> Ran {
    gutkavu(&parted(&format!("run {arguments}")))
}

/// The same with a text on standard input.
fn run_on(arguments: &str, input: &str) -> Ran {
    with_input(&parted(&format!("run {arguments}")), input.as_bytes())
}

/// A cell of the machine's column, which is to be equal to the graph's where that has one.
fn row(table: &str, name: &str) -> String {
    let line = table.lines().find(|line| line.split_whitespace().next() == Some(name));
    let cells: Vec<&str> = line.expect(name).split_whitespace().skip(1).collect();
    let (graph, machine) = cells.split_at(cells.len() / 2);
    assert!(graph.is_empty() || graph == machine || name == "next", "{name}: {cells:?}");
    machine.join(" ")
}
