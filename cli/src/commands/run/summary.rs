//! What graph and machine have come to, in two columns.

use crate::arguments::Run;
use crate::course::{Course, Side};
use crate::numbers;
use crate::output::{Answer, Paint};
use crate::table::Table;
use serde::Serialize;

#[derive(Serialize)]
pub struct Summary {
    file: String,
    start: u32,
    budget: u32,
    outcome: &'static str,
    graph: Column,
    machine: Column,
}

#[derive(Serialize)]
struct Column {
    outcome: &'static str,
    /// The graph counts none.
    #[serde(skip_serializing_if = "Option::is_none")]
    cycles: Option<u32>,
    blocks: u64,
    /// A block or a state; none where it has halted.
    next: Option<u32>,
    flag: bool,
    registers: Vec<i64>,
}

/// The flag in a word.
pub fn flag(raised: bool) -> &'static str {
    match raised {
        true => "set",
        false => "clear",
    }
}

impl Summary {
    pub fn of(file: String, arguments: &Run, course: &Course) -> Summary {
        let (outcome, registers) = (course.ending(), course.graph().registers() as usize);
        let column = |side: &Side, cycles| Column {
            outcome,
            cycles,
            blocks: side.blocks,
            next: side.next,
            flag: side.flag,
            registers: side.registers[..registers]
                .iter()
                .map(|&word| numbers::shown(word, arguments.signed))
                .collect(),
        };
        Summary {
            file,
            start: arguments.course.start,
            budget: arguments.course.budget,
            outcome,
            graph: column(course.by_graph(), None),
            machine: column(course.by_machine(), Some(course.cycles())),
        }
    }
}

impl Column {
    fn cycles(&self) -> String {
        self.cycles.map_or(String::new(), |cycles| cycles.to_string())
    }

    fn next(&self, kind: &str) -> String {
        self.next.map_or(String::from("none"), |next| format!("{kind} {next}"))
    }
}

impl Answer for Summary {
    fn text(&self, paint: Paint) -> String {
        let Summary { graph, machine, .. } = self;
        let mut table = Table::new(["", "graph", "machine"]);
        let mut row = |name: &str, graph: String, machine: String| {
            table.row([name.to_string(), graph, machine]);
        };
        row("outcome", graph.outcome.to_string(), machine.outcome.to_string());
        row("cycles", graph.cycles(), machine.cycles());
        row("blocks", graph.blocks.to_string(), machine.blocks.to_string());
        row("next", graph.next("block"), machine.next("state"));
        row("flag", flag(graph.flag).to_string(), flag(machine.flag).to_string());
        for (index, (one, other)) in graph.registers.iter().zip(&machine.registers).enumerate() {
            row(&format!("r{index}"), one.to_string(), other.to_string());
        }
        table.print(paint)
    }
}
