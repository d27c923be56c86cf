//! The faults of all lines of a graph text, also behind the first faulty one.
//!
//! A line that has no form or is not due is passed over: what was due before it stays due.

use super::Fault;
use crate::graph::MAX_INSTRUCTIONS;
use crate::operation::Refusal;
use crate::parse::{line_form, Line, MAX_TEXT};

pub fn too_long(text: &[u8]) -> bool {
    text.len() > MAX_TEXT
}

/// What may come next. In a block these are instructions, as long as there is room, and endings.
#[derive(Clone, Copy, PartialEq, Eq)]
enum Due {
    Graph,
    Block(usize),
    Inside { block: usize, instructions: usize },
    Nothing,
}

struct Scan {
    due: Due,
    /// B and R, once the graph line is there.
    limits: Option<(usize, usize)>,
    faults: Vec<Fault>,
}

impl Scan {
    fn add(&mut self, refusal: Refusal, line: u64) {
        self.faults.push(Fault { refusal, recording: 0, line });
    }

    /// What is due behind a line, or None where the line itself is not due.
    fn after(&self, form: &Line) -> Option<Due> {
        match (self.due, form) {
            (Due::Graph, Line::Graph { .. }) => Some(Due::Block(0)),
            (Due::Block(block), &Line::Block(number)) if number == block => {
                Some(Due::Inside { block, instructions: 0 })
            }
            (Due::Inside { block, instructions }, Line::Instruction(_)) => (instructions
                < MAX_INSTRUCTIONS)
                .then_some(Due::Inside { block, instructions: instructions + 1 }),
            (Due::Inside { block, .. }, Line::Ending(_)) => {
                let all = self.limits.is_some_and(|(blocks, _)| block + 1 == blocks);
                Some(if all { Due::Nothing } else { Due::Block(block + 1) })
            }
            _ => None,
        }
    }

    fn form(&mut self, line: u64, form: &Line) {
        match self.after(form) {
            Some(due) => self.due = due,
            None => self.add(Refusal::NotDue, line),
        }
        let Some((blocks, registers)) = self.limits else {
            if let &Line::Graph { blocks, registers } = form {
                self.limits = Some((blocks, registers));
            }
            return;
        };
        let (named, targets) = match form {
            Line::Instruction(one) => (one.registers(), Vec::new()),
            Line::Ending(one) => (one.registers(), one.successors()),
            Line::Graph { .. } | Line::Block(_) => return,
        };
        if named.iter().any(|&register| register >= registers) {
            self.add(Refusal::Register, line);
        }
        if targets.iter().any(|&target| target >= blocks) {
            self.add(Refusal::Target, line);
        }
    }
}

pub fn faults(text: &[u8]) -> Vec<Fault> {
    let mut scan = Scan { due: Due::Graph, limits: None, faults: Vec::new() };
    let mut line = 0;
    for bytes in text.split_inclusive(|&byte| byte == b'\n') {
        line += 1;
        match bytes.strip_suffix(b"\n").and_then(line_form) {
            Some(form) => scan.form(line, &form),
            None => scan.add(Refusal::NoForm, line),
        }
    }
    if scan.due != Due::Nothing {
        scan.add(Refusal::NotDue, line + 1);
    }
    scan.faults
}
