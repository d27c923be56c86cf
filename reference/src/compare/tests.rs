//! The comparison finds every kind of difference: it is tried on libraries that are made to differ.

use super::check::{
    capture_fields, check, first_touching_fields, machine_fields, run_fields, touches_fields,
    words_fields,
};
use super::lent::{Differing, Element, Lent};
use super::library::{padded, Library, Proved};
use super::{compare, named, outcome, tally_all};
use crate::tally::MOST_REPORTS;
use reference::case::{Captures, Case};
use reference::generate::examples::P7;
use reference::generate::Cases;
use reference::operation::{Fields, Operation};
use reference::operations;

/// What a library does otherwise than this program.
#[derive(Clone, Copy)]
enum Change {
    Nothing,
    /// A bit of a field of its answer.
    Field(usize, u32),
    /// An element of one of its buffers, counted from that buffer's start.
    Place(usize, isize),
    /// The element just after one of its buffers.
    End(usize),
}

/// A lent buffer, of words or of bytes.
trait Buffer {
    fn change_at(&mut self, index: isize);
    fn change_end(&mut self);
}

impl<T: Element> Buffer for Lent<T> {
    fn change_at(&mut self, index: isize) {
        self.change(index);
    }

    fn change_end(&mut self) {
        self.change(self.length() as isize);
    }
}

/// How many buffers an operation is lent.
fn buffers(operation: Operation) -> usize {
    match operation {
        Operation::RunGraphWithWords => 4,
        Operation::RunMachineWithWords | Operation::Bounds => 3,
        Operation::Touches | Operation::FirstTouching => 1,
        _ => 2,
    }
}

/// This program as a library, with a change in one operation.
struct Changed(Operation, Change);

impl Changed {
    fn apply(
        &self,
        operation: Operation,
        mut fields: Fields,
        lent: &mut [&mut dyn Buffer],
    ) -> Fields {
        assert_eq!(lent.len(), buffers(operation));
        match self.1 {
            _ if operation != self.0 => (),
            Change::Nothing => (),
            Change::Field(index, bit) => fields[index] ^= 1 << bit,
            Change::Place(buffer, index) => lent[buffer].change_at(index),
            Change::End(buffer) => lent[buffer].change_end(),
        }
        fields
    }
}

impl Library for Changed {
    fn read(&self, text: &mut Lent<u8>, graph: &mut Lent<u32>) -> Fields {
        let answer = operations::read(text.body(), graph.body_mut());
        let fields = padded(&[answer.number, answer.line]);
        self.apply(Operation::Read, fields, &mut [text, graph])
    }

    fn write(&self, graph: &mut Lent<u32>, output: &mut Lent<u8>) -> Fields {
        let answer = operations::write(graph.body(), output.body_mut());
        let fields = padded(&[answer.number, answer.length]);
        self.apply(Operation::Write, fields, &mut [graph, output])
    }

    fn synthesise(&self, graph: &mut Lent<u32>, machine: &mut Lent<u32>) -> Fields {
        let number = operations::synthesise(graph.body(), machine.body_mut());
        self.apply(Operation::Synthesise, padded(&[number]), &mut [graph, machine])
    }

    fn run_graph(
        &self,
        graph: &mut Lent<u32>,
        registers: &mut Lent<u32>,
        start: u32,
        budget: u32,
    ) -> Fields {
        let answer = operations::run_graph(graph.body(), registers.body_mut(), start, budget);
        self.apply(Operation::RunGraph, run_fields(answer), &mut [graph, registers])
    }

    fn run_machine(
        &self,
        machine: &mut Lent<u32>,
        registers: &mut Lent<u32>,
        start: u32,
        budget: u32,
    ) -> Fields {
        let answer = operations::run_machine(machine.body(), registers.body_mut(), start, budget);
        let fields = machine_fields(answer, run_fields);
        self.apply(Operation::RunMachine, fields, &mut [machine, registers])
    }

    fn run_graph_with_words(
        &self,
        graph: &mut Lent<u32>,
        registers: &mut Lent<u32>,
        start: u32,
        budget: u32,
        words: &mut Lent<u32>,
        starters: &mut Lent<u32>,
    ) -> Fields {
        let (table, copy) = (graph.body(), registers.body_mut());
        let lists = (words.body(), starters.body());
        let answer = operations::run_graph_with_words(table, copy, start, budget, lists.0, lists.1);
        let lent: &mut [&mut dyn Buffer] = &mut [graph, registers, words, starters];
        self.apply(Operation::RunGraphWithWords, words_fields(answer), lent)
    }

    fn run_machine_with_words(
        &self,
        machine: &mut Lent<u32>,
        registers: &mut Lent<u32>,
        start: u32,
        budget: u32,
        words: &mut Lent<u32>,
    ) -> Fields {
        let (table, copy) = (machine.body(), registers.body_mut());
        let answer = operations::run_machine_with_words(table, copy, start, budget, words.body());
        let lent: &mut [&mut dyn Buffer] = &mut [machine, registers, words];
        self.apply(Operation::RunMachineWithWords, machine_fields(answer, words_fields), lent)
    }

    fn compare_captures(
        &self,
        registers: u32,
        first: &mut Lent<u8>,
        second: &mut Lent<u8>,
    ) -> Fields {
        let answer = operations::compare_captures(registers, first.body(), second.body());
        self.apply(Operation::CompareCaptures, capture_fields(answer), &mut [first, second])
    }

    fn touches(&self, machine: &mut Lent<u32>, state: u32, register: u32) -> Fields {
        let answer = operations::touches(machine.body(), state, register);
        self.apply(Operation::Touches, touches_fields(answer), &mut [machine])
    }

    fn first_touching(&self, machine: &mut Lent<u32>, register: u32) -> Fields {
        let answer = operations::first_touching(machine.body(), register);
        self.apply(Operation::FirstTouching, first_touching_fields(answer), &mut [machine])
    }

    fn bounds(
        &self,
        machine: &mut Lent<u32>,
        lowest: &mut Lent<u32>,
        highest: &mut Lent<u32>,
        state: u32,
    ) -> Fields {
        let (low, high) = (lowest.body_mut(), highest.body_mut());
        let number = operations::bounds(machine.body(), low, high, state);
        self.apply(Operation::Bounds, padded(&[number]), &mut [machine, lowest, highest])
    }
}

/// P7 with lists and recordings that have a place 15.
fn p7() -> Case {
    let mut case = Case::plain(P7.as_bytes());
    case.starters = [0, 1].repeat(10);
    let (first, second) = (b"1,0,12,18\n2,1,12,6\n".to_vec(), b"2,1,12,6\n3,1,6,6\n".to_vec());
    case.captures = Captures { registers: 2, first, second };
    case
}

/// The operations that differ on a case.
fn differing(case: &Case, library: &Changed) -> Vec<Operation> {
    let compared = check(case, library).compared;
    compared.iter().filter(|one| !one.same()).map(|one| one.operation).collect()
}

fn place(operation: Operation, change: Change) -> Option<Differing> {
    let compared = check(&p7(), &Changed(operation, change)).compared;
    compared.into_iter().find(|one| one.operation == operation)?.differing
}

#[test]
fn nothing_changed_is_no_difference() {
    let same = Changed(Operation::Read, Change::Nothing);
    let cases = Cases::of(11);
    assert!((0..200).all(|index| differing(&cases.get(index), &same).is_empty()));
}

/// Some fields have 64 bits, so a high bit is changed too.
#[test]
fn every_changed_field_is_a_difference() {
    for operation in Operation::ALL {
        for (field, bit) in (0..operation.fields().len()).flat_map(|one| [(one, 0), (one, 32)]) {
            let library = Changed(operation, Change::Field(field, bit));
            assert_eq!(differing(&p7(), &library), [operation], "field {field}");
        }
    }
}

/// First, some and last places of every buffer, and the guards' nearest and farthest places.
#[test]
fn every_changed_place_is_a_difference() {
    for operation in Operation::ALL {
        for buffer in 0..buffers(operation) {
            for index in [-64, -1, 0, 5, 15] {
                let found = place(operation, Change::Place(buffer, index)).expect("a difference");
                assert_eq!(found.index, index, "{operation:?}, buffer {buffer}");
                assert_ne!(found.expected, found.found);
            }
            let end = place(operation, Change::End(buffer)).expect("a difference");
            assert_eq!(end.index, end.length as isize);
            for index in [end.index - 1, end.index + 63] {
                let found = place(operation, Change::Place(buffer, index)).expect("a difference");
                assert_eq!(found.index, index, "{operation:?}, buffer {buffer}");
            }
            let library = Changed(operation, Change::End(buffer));
            assert_eq!(differing(&p7(), &library), [operation]);
        }
    }
}

fn printed(operation: Operation, change: Change) -> String {
    place(operation, change).expect("a difference").to_string()
}

/// Buffers are named, and a guard's place is told from a buffer's.
#[test]
fn places_are_printed() {
    assert_eq!(
        printed(Operation::Read, Change::Place(0, 1)),
        "text of length 135, index 1: 114 expected, 10 found"
    );
    assert_eq!(
        printed(Operation::RunMachine, Change::Place(0, -1)),
        "machine table of length 13762, index -1 in the guard before it: \
         3235774527 expected, 3235774464 found"
    );
    assert_eq!(
        printed(Operation::RunGraph, Change::End(1)),
        "registers of length 16, index 16 in the guard after it: \
         3235774464 expected, 3235774465 found"
    );
    assert_eq!(
        printed(Operation::RunMachineWithWords, Change::Place(2, 3)),
        "words of length 20, index 3: 4 expected, 3235774464 found"
    );
    assert_eq!(
        printed(Operation::RunGraphWithWords, Change::Place(3, 19)),
        "starters of length 20, index 19: 1 expected, 3235774464 found"
    );
    assert_eq!(
        printed(Operation::CompareCaptures, Change::Place(0, 2)),
        "first recording of length 19, index 2: 48 expected, 10 found"
    );
    assert_eq!(
        printed(Operation::CompareCaptures, Change::End(1)),
        "second recording of length 17, index 17 in the guard after it: 10 expected, 13 found"
    );
}

#[test]
fn places_of_questions_are_printed() {
    assert_eq!(
        printed(Operation::Touches, Change::Place(0, 0)),
        "machine table of length 13762, index 0: 2 expected, 3235774464 found"
    );
    assert_eq!(
        printed(Operation::FirstTouching, Change::End(0)),
        "machine table of length 13762, index 13762 in the guard after it: \
         3235774464 expected, 3235774465 found"
    );
}

#[test]
fn places_of_bounds_are_printed() {
    assert_eq!(
        printed(Operation::Bounds, Change::Place(1, 15)),
        "lowest of length 16, index 15: 4294966576 expected, 3235774464 found"
    );
    assert_eq!(
        printed(Operation::Bounds, Change::Place(2, 2)),
        "highest of length 16, index 2: 720 expected, 3235774464 found"
    );
    assert_eq!(
        printed(Operation::Bounds, Change::End(2)),
        "highest of length 16, index 16 in the guard after it: \
         3235774464 expected, 3235774465 found"
    );
}

/// A difference fails the command, with the case in full.
#[test]
fn differences_are_reported() {
    let library = Changed(Operation::Synthesise, Change::Place(1, 0));
    let text = compare(11, 40, &library).expect_err("a difference");
    assert!(text.ends_with("seed 11: 40 cases, 40 differ\n"), "{text}");
    let shown = text.lines().filter(|line| line.starts_with("difference: seed 11, case "));
    assert_eq!(shown.count(), MOST_REPORTS);
    let case = Cases::of(11).get(1);
    let (captures, bounds) = (&case.captures, &case.bounds);
    let (first, second) = (&captures.first, &captures.second);
    let parts = [
        String::from(
            "difference: seed 11, case 1\n  synthesise differs\n    second program: number ",
        ),
        String::from("    first differing place: machine table of length "),
        format!("  text of {} bytes: \"{}\"\n", case.text.len(), case.text.escape_ascii()),
        format!("  graph buffer: {} words; patches: [", case.graph_length),
        format!("  output buffer: {} bytes\n", case.output_length),
        format!("  machine buffer: {} words; patches: [", case.machine_length),
        format!("  register buffer: {} words: {:?}\n", case.registers.len(), case.registers),
        format!("  start block {}, block budget {}, ", case.start_block, case.block_budget),
        format!("start state {}, cycle budget {}\n", case.start_state, case.cycle_budget),
        format!("  {} words: {:?}\n", case.words.len(), case.words),
        format!("  {} starters: {:?}\n", case.starters.len(), case.starters),
        format!("  recordings of {} registers\n", captures.registers),
        format!("  first recording of {} bytes: \"{}\"\n", first.len(), first.escape_ascii()),
        format!("  second recording of {} bytes: \"{}\"\n", second.len(), second.escape_ascii()),
        format!("  asked about state {}, register {}\n", case.asked.state, case.asked.register),
        format!("  lowest: {} words: {:?}\n", bounds.lowest.len(), bounds.lowest),
        format!("  highest: {} words: {:?}\n", bounds.highest.len(), bounds.highest),
    ];
    for part in parts {
        assert!(text.contains(&part), "{part}");
    }
}

/// A library that differs in the captures alone is found, with all six fields printed.
#[test]
fn differences_of_captures_are_reported() {
    let library = Changed(Operation::CompareCaptures, Change::Field(3, 0));
    let text = compare(11, 40, &library).expect_err("a difference");
    assert!(text.ends_with("seed 11: 40 cases, 40 differ\n"), "{text}");
    let answers = text.split("  compare captures differs\n    second program: number ");
    assert_eq!(answers.count(), MOST_REPORTS + 1);
    for name in ["recording", "line", "shared", "differs", "cycle"] {
        assert!(text.contains(&format!(", {name} ")), "{name}");
    }
}

/// A library that never raises a flag, or always, is found, and so is one that leaves other bits.
#[test]
fn differences_of_flags_are_reported() {
    let runs = [
        Operation::RunGraph,
        Operation::RunMachine,
        Operation::RunGraphWithWords,
        Operation::RunMachineWithWords,
    ];
    for (run, bit) in runs.into_iter().flat_map(|run| [(run, 0), (run, 7)]) {
        let library = Changed(run, Change::Field(4, bit));
        let text = compare(11, 40, &library).expect_err("a difference");
        assert!(text.ends_with("seed 11: 40 cases, 40 differ\n"), "{text}");
        assert!(text.contains(&format!("  {} differs\n", run.name())), "{text}");
        assert!(text.contains(", flag "), "{text}");
    }
}

/// A library that counts other blocks is found, in the low word and in the high one.
#[test]
fn differences_of_blocks_are_reported() {
    for run in [Operation::RunMachine, Operation::RunMachineWithWords] {
        for bit in [0, 31, 32, 63] {
            let library = Changed(run, Change::Field(5, bit));
            let text = compare(11, 40, &library).expect_err("a difference");
            assert!(text.ends_with("seed 11: 40 cases, 40 differ\n"), "{text}");
            assert!(text.contains(&format!("  {} differs\n", run.name())), "{text}");
            assert!(text.contains(", blocks "), "{text}");
        }
    }
}

/// A library that differs in the questions alone is found: in the number, in whether a register is
/// touched, in the state, and in bits that neither has.
#[test]
fn differences_of_questions_are_reported() {
    for (operation, name) in [(Operation::Touches, "touched"), (Operation::FirstTouching, "state")]
    {
        for (field, bit) in [(0, 0), (0, 1), (1, 0), (1, 5), (1, 31)] {
            let library = Changed(operation, Change::Field(field, bit));
            let text = compare(11, 40, &library).expect_err("a difference");
            assert!(text.ends_with("seed 11: 40 cases, 40 differ\n"), "{text}");
            assert!(text.contains(&format!("  {} differs\n", operation.name())), "{text}");
            assert!(text.contains(&format!(", {name} ")), "{text}");
        }
    }
}

/// A library that differs in the bounds alone is found, in the number and in each buffer.
#[test]
fn differences_of_bounds_are_reported() {
    let places = [Change::Field(0, 0), Change::Field(0, 3), Change::End(1), Change::End(2)];
    for change in places {
        let text = compare(11, 40, &Changed(Operation::Bounds, change)).expect_err("a difference");
        assert!(text.ends_with("seed 11: 40 cases, 40 differ\n"), "{text}");
        assert!(text.contains("  bounds differs\n    second program: number "), "{text}");
    }
}

/// Touched or not, and a state or none, where it is no refusal.
#[test]
fn outcomes_of_questions() {
    let outcome =
        |operation: Operation, number, answer| operation.outcome([number, answer, 0, 0, 0, 0]);
    assert_eq!([0, 1].map(|touched| outcome(Operation::Touches, 0, touched)), [Some(0), Some(1)]);
    let found = |state| outcome(Operation::FirstTouching, 0, state);
    assert_eq!([0, 63, 254, 255].map(found), [Some(1), Some(1), Some(1), Some(0)]);
    for operation in [Operation::Touches, Operation::FirstTouching] {
        assert_eq!(outcome(operation, 10, 0), None);
        assert_eq!(operation.flag([0, 1, 0, 0, 0, 0]), None);
    }
}

/// A run that is no refusal has an end and a flag.
#[test]
fn flags_of_runs() {
    for run in [Operation::RunGraph, Operation::RunMachine] {
        assert_eq!(run.flags(), [(0, 0), (0, 1), (1, 0), (1, 1)]);
        assert_eq!(run.flag([0, 1, 9, 255, 1, 0]), Some((1, 1)));
        assert_eq!(run.flag([9, 0, 0, 0, 0, 0]), None);
    }
    for run in [Operation::RunGraphWithWords, Operation::RunMachineWithWords] {
        assert_eq!(run.flags().len(), 6);
        assert_eq!(run.flag([0, 2, 9, 3, 0, 0]), Some((2, 0)));
    }
    assert_eq!(Operation::CompareCaptures.flag([0, 0, 0, 7, 1, 0]), None);
}

/// A machine's run that is no refusal has fewer blocks than cycles, as many, or more.
#[test]
fn blocks_of_runs() {
    assert_eq!(Operation::RunMachine.blocks().len(), 6);
    assert_eq!(Operation::RunMachineWithWords.blocks().len(), 9);
    for run in [Operation::RunMachine, Operation::RunMachineWithWords] {
        let kind = |blocks| run.block_kind([0, 1, 4, 255, 0, blocks]);
        assert_eq!([0, 3, 4, 5].map(kind), [(1, 0), (1, 0), (1, 1), (1, 2)].map(Some));
        assert_eq!(run.block_kind([10, 0, 0, 0, 0, 0]), None);
    }
    for other in [Operation::RunGraph, Operation::RunGraphWithWords, Operation::CompareCaptures] {
        assert!(other.blocks().is_empty());
        assert_eq!(other.block_kind([0, 1, 4, 255, 0, 5]), None);
    }
}

/// Recordings have any length; those of a stream are short.
#[test]
fn long_captures_are_the_same() {
    let lines = |step: usize| -> Vec<u8> {
        let line = |cycle: usize| format!("{cycle},{},5\n", cycle % 9);
        (0..100_000).step_by(step).map(line).collect::<String>().into_bytes()
    };
    let mut case = p7();
    for end in ["", "99999,0,6\n", "5,0,5\n", "100000,0,05\n", "100000"] {
        let second = [&lines(3)[..], end.as_bytes()].concat();
        case.captures = Captures { registers: 1, first: lines(1), second };
        assert!(check(&case, &Proved).compared.iter().all(|one| one.same()), "{end}");
    }
}

/// Four outcomes of a comparison: nothing shared, no cycle differing, one differing, a refusal.
#[test]
fn outcomes_of_captures() {
    let outcome = |fields| Operation::CompareCaptures.outcome(fields);
    assert_eq!(outcome([0, 0, 0, 0, 0, 0]), Some(0));
    assert_eq!(outcome([0, 0, 0, 7, 0, 0]), Some(1));
    assert_eq!(outcome([0, 0, 0, 7, 1, 0]), Some(2));
    assert_eq!(outcome([17, 1, 1, 0, 0, 0]), None);
}

/// A number, an outcome, a flag, a kind of block count or a pair that no case hits fails a long run, and not a short one.
#[test]
fn numbers_that_are_not_hit_are_reported() {
    let same = Changed(Operation::Read, Change::Nothing);
    let mut tally = tally_all(&Cases::of(1), 2_000, &same);
    assert!(outcome(1, 2_000, &tally).is_ok());
    assert_eq!(named().count(), 61 + 20 + 15 + 107);
    for hit in named() {
        let cases = tally.counts.remove(&hit).expect("a hit");
        let text = outcome(1, 2_000, &tally).expect_err("one is missing");
        assert!(text.contains(&format!("no case hit {}\n", hit.name())));
        assert!(outcome(1, 1_999, &tally).is_ok());
        tally.counts.insert(hit, cases);
    }
}
