//! `states`: the machine's states, one a line.

use crate::arguments::States;
use crate::edges;
use crate::failure::Failure;
use crate::input;
use crate::output::{Answer, Output, Paint};
use crate::placement;
use crate::table::{joined, Table};
use gutkavu::{Graph, Machine};
use serde::Serialize;
use std::collections::BTreeSet;

#[derive(Serialize)]
struct Machines {
    file: String,
    blocks: u32,
    registers: u32,
    wires: u64,
    states: Vec<State>,
    unreachable: Vec<u32>,
}

#[derive(Serialize)]
struct State {
    state: u32,
    starter: u32,
    blocks: Vec<u32>,
    wires: u32,
    /// In rising order, each once.
    leads_to: BTreeSet<u32>,
    halts: bool,
    may_change: Vec<u32>,
}

impl State {
    fn of(graph: &Graph, machine: &Machine, state: u32) -> Option<State> {
        let placed = placement::place(graph, machine, state);
        let exits = edges::exits(&edges::edges(&placed), machine);
        let touched = |register: &u32| machine.touches(state, *register) == Ok(true);
        Some(State {
            state,
            starter: machine.starter(state)?,
            blocks: placed.iter().map(|placed| placed.number).collect(),
            wires: machine.wires(state)?,
            leads_to: exits.iter().filter_map(|exit| exit.next).collect(),
            halts: exits.iter().any(|exit| exit.next.is_none()),
            may_change: (0..machine.registers()).filter(touched).collect(),
        })
    }
}

impl Answer for Machines {
    fn text(&self, paint: Paint) -> String {
        let Machines { blocks, registers, wires, states, unreachable, .. } = self;
        let head = ["state", "starter", "blocks", "wires", "leads to", "may change"];
        let mut table = Table::new(head).right([0, 1, 3]);
        for state in states {
            let halt = state.halts.then(|| String::from("halt"));
            table.row([
                state.state.to_string(),
                state.starter.to_string(),
                joined(&state.blocks, " "),
                state.wires.to_string(),
                joined(state.leads_to.iter().map(u32::to_string).chain(halt), " "),
                joined(state.may_change.iter().map(|register| format!("r{register}")), " "),
            ]);
        }
        let count = states.len();
        let mut text =
            format!("blocks {blocks}, registers {registers}, states {count}, wires {wires}\n");
        if !unreachable.is_empty() {
            text += &format!("unreachable blocks: {}\n", joined(unreachable, " "));
        }
        text + &table.print(paint)
    }
}

pub fn run(arguments: &States, out: &mut Output) -> Result<(), Failure> {
    let (file, graph) = input::graph(&arguments.file)?;
    let machine = graph.synthesise();
    let states = (0..machine.states()).filter_map(|state| State::of(&graph, &machine, state));
    out.answer(&Machines {
        file,
        blocks: graph.blocks(),
        registers: graph.registers(),
        wires: machine.wires_in_all(),
        states: states.collect(),
        unreachable: (0..graph.blocks()).filter(|&n| machine.state_of(n).is_none()).collect(),
    })
}
