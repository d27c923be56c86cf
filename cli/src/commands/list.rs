//! `list`: the listing of the proved program `list`, byte for byte.

use crate::arguments::List;
use crate::failure::Failure;
use crate::input::Source;
use crate::output::{Answer, Output, Paint};
use gutkavu::{Graph, Machine};
use serde::Serialize;
use std::fmt::Write;

#[derive(Serialize)]
struct Listing {
    file: String,
    wires: u64,
    states: Vec<State>,
}

#[derive(Serialize)]
struct State {
    state: u32,
    starter: u32,
    blocks: usize,
    wires: u32,
}

impl State {
    fn of(machine: &Machine, state: u32) -> Option<State> {
        let (starter, wires) = (machine.starter(state)?, machine.wires(state)?);
        Some(State { state, starter, blocks: machine.blocks(state).count(), wires })
    }
}

impl Listing {
    fn of(file: String, machine: &Machine) -> Listing {
        let states = (0..machine.states()).filter_map(|state| State::of(machine, state));
        Listing { file, wires: machine.wires_in_all(), states: states.collect() }
    }
}

impl Answer for Listing {
    fn text(&self, _: Paint) -> String {
        let mut text = format!("states,{},{}\n", self.states.len(), self.wires);
        for State { state, starter, blocks, wires } in &self.states {
            let _ = writeln!(text, "{state},{starter},{blocks},{wires}");
        }
        text
    }
}

pub fn run(arguments: &List, out: &mut Output) -> Result<(), Failure> {
    let source = Source::read(&arguments.file)?;
    match Graph::read(&source.bytes) {
        Ok(graph) => out.answer(&Listing::of(source.name, &graph.synthesise())),
        Err(refused) if !out.is_json() => {
            out.text(&format!("refused,{},{}\n", refused.number(), refused.line()))?;
            Err(Failure::Told)
        }
        Err(_) => source.graph().map(|_| ()).map_err(Failure::from),
    }
}
