//! The operations of a library that is compared with this program.

use super::lent::Lent;
use gutkavu::operations::{
    self, CaptureFields, FirstTouchingFields, MachineRunFields, MachineRunWithWordsFields,
    RunFields, RunWithWordsFields, TouchesFields,
};
use reference::operation::Fields;

/// Up to six fields of 32 bits.
pub fn padded(words: &[u32]) -> Fields {
    std::array::from_fn(|index| words.get(index).map_or(0, |&word| word.into()))
}

/// Every buffer is lent with its guards, so that a test can change what should be left alone.
pub trait Library: Sync {
    fn read(&self, text: &mut Lent<u8>, graph: &mut Lent<u32>) -> Fields;
    fn write(&self, graph: &mut Lent<u32>, output: &mut Lent<u8>) -> Fields;
    fn synthesise(&self, graph: &mut Lent<u32>, machine: &mut Lent<u32>) -> Fields;
    fn run_graph(
        &self,
        graph: &mut Lent<u32>,
        registers: &mut Lent<u32>,
        start: u32,
        budget: u32,
    ) -> Fields;
    fn run_machine(
        &self,
        machine: &mut Lent<u32>,
        registers: &mut Lent<u32>,
        start: u32,
        budget: u32,
    ) -> Fields;
    fn run_graph_with_words(
        &self,
        graph: &mut Lent<u32>,
        registers: &mut Lent<u32>,
        start: u32,
        budget: u32,
        words: &mut Lent<u32>,
        starters: &mut Lent<u32>,
    ) -> Fields;
    fn run_machine_with_words(
        &self,
        machine: &mut Lent<u32>,
        registers: &mut Lent<u32>,
        start: u32,
        budget: u32,
        words: &mut Lent<u32>,
    ) -> Fields;
    fn compare_captures(
        &self,
        registers: u32,
        first: &mut Lent<u8>,
        second: &mut Lent<u8>,
    ) -> Fields;
    fn touches(&self, machine: &mut Lent<u32>, state: u32, register: u32) -> Fields;
    fn first_touching(&self, machine: &mut Lent<u32>, register: u32) -> Fields;
    fn bounds(
        &self,
        machine: &mut Lent<u32>,
        lowest: &mut Lent<u32>,
        highest: &mut Lent<u32>,
        state: u32,
    ) -> Fields;
}

/// The proved library.
pub struct Proved;

fn run_fields(fields: RunFields) -> Fields {
    padded(&[fields.number, fields.halted, fields.count, fields.next, fields.flag])
}

fn words_fields(fields: RunWithWordsFields) -> Fields {
    padded(&[fields.number, fields.outcome, fields.count, fields.next, fields.flag])
}

fn machine_fields(fields: MachineRunFields) -> Fields {
    let MachineRunFields { number, halted, count, next, flag, blocks } = fields;
    [number.into(), halted.into(), count.into(), next.into(), flag.into(), blocks]
}

fn machine_words_fields(fields: MachineRunWithWordsFields) -> Fields {
    let MachineRunWithWordsFields { number, outcome, count, next, flag, blocks } = fields;
    [number.into(), outcome.into(), count.into(), next.into(), flag.into(), blocks]
}

fn capture_fields(fields: CaptureFields) -> Fields {
    let CaptureFields { number, recording, line, shared, differs, cycle } = fields;
    [number.into(), recording.into(), line, shared, differs.into(), cycle.into()]
}

impl Library for Proved {
    fn read(&self, text: &mut Lent<u8>, graph: &mut Lent<u32>) -> Fields {
        let fields = operations::read(text.body(), graph.body_mut());
        padded(&[fields.number, fields.line])
    }

    fn write(&self, graph: &mut Lent<u32>, output: &mut Lent<u8>) -> Fields {
        let fields = operations::write(graph.body(), output.body_mut());
        padded(&[fields.number, fields.length])
    }

    fn synthesise(&self, graph: &mut Lent<u32>, machine: &mut Lent<u32>) -> Fields {
        padded(&[operations::synthesise(graph.body(), machine.body_mut())])
    }

    fn run_graph(
        &self,
        graph: &mut Lent<u32>,
        registers: &mut Lent<u32>,
        start: u32,
        budget: u32,
    ) -> Fields {
        run_fields(operations::run_graph(graph.body(), registers.body_mut(), start, budget))
    }

    fn run_machine(
        &self,
        machine: &mut Lent<u32>,
        registers: &mut Lent<u32>,
        start: u32,
        budget: u32,
    ) -> Fields {
        machine_fields(operations::run_machine(machine.body(), registers.body_mut(), start, budget))
    }

    fn run_graph_with_words(
        &self,
        graph: &mut Lent<u32>,
        registers: &mut Lent<u32>,
        start: u32,
        budget: u32,
        words: &mut Lent<u32>,
        starters: &mut Lent<u32>,
    ) -> Fields {
        let (table, copy) = (graph.body(), registers.body_mut());
        let (words, starters) = (words.body(), starters.body());
        words_fields(operations::run_graph_with_words(table, copy, start, budget, words, starters))
    }

    fn run_machine_with_words(
        &self,
        machine: &mut Lent<u32>,
        registers: &mut Lent<u32>,
        start: u32,
        budget: u32,
        words: &mut Lent<u32>,
    ) -> Fields {
        let (table, copy) = (machine.body(), registers.body_mut());
        let ran = operations::run_machine_with_words(table, copy, start, budget, words.body());
        machine_words_fields(ran)
    }

    fn compare_captures(
        &self,
        registers: u32,
        first: &mut Lent<u8>,
        second: &mut Lent<u8>,
    ) -> Fields {
        capture_fields(operations::compare_captures(registers, first.body(), second.body()))
    }

    fn touches(&self, machine: &mut Lent<u32>, state: u32, register: u32) -> Fields {
        let TouchesFields { number, touched } =
            operations::touches(machine.body(), state, register);
        padded(&[number, touched])
    }

    fn first_touching(&self, machine: &mut Lent<u32>, register: u32) -> Fields {
        let FirstTouchingFields { number, state } =
            operations::first_touching(machine.body(), register);
        padded(&[number, state])
    }

    fn bounds(
        &self,
        machine: &mut Lent<u32>,
        lowest: &mut Lent<u32>,
        highest: &mut Lent<u32>,
        state: u32,
    ) -> Fields {
        let (lowest, highest) = (lowest.body_mut(), highest.body_mut());
        padded(&[operations::bounds(machine.body(), lowest, highest, state)])
    }
}
