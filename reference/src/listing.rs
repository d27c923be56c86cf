//! The listing of a text: its states, or its refusal.

use crate::parse::{parse, Fault, MAX_TEXT};
use crate::synthesis::synthesise;

pub fn listing(text: &[u8]) -> String {
    let parsed =
        if text.len() > MAX_TEXT { Err(Fault { number: 1, line: 0 }) } else { parse(text) };
    let graph = match parsed {
        Ok(graph) => graph,
        Err(Fault { number, line }) => return format!("refused,{number},{line}\n"),
    };
    let (grouping, machine) = synthesise(&graph);
    let mut lines = format!("states,{},{}\n", machine.states.len(), machine.wire_count());
    for (number, state) in machine.states.iter().enumerate() {
        let blocks = grouping.blocks_of(number).len();
        let starter = grouping.starters[number];
        lines.push_str(&format!("{number},{starter},{blocks},{}\n", state.wires.len()));
    }
    lines
}
