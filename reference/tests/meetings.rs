//! Refusals that meet in one call: which do so in the stored cases, and that their order shows.

mod common;

use reference::answer::{answer, buffers_of, Answer};
use reference::case::Case;
use reference::faults::{faults, Fault, Faults};
use reference::graph_table::GRAPH_WORDS;
use reference::listing::listing;
use reference::machine_table::{decode, MACHINE_WORDS, RECORDS_AT, RECORD_WORDS};
use reference::meeting::{meetings, possible, Meeting};
use reference::operation::{Operation, Refusal};
use reference::operations::{bounds, first_touching, run_graph, run_machine, synthesise, touches};
use reference::parse::parse;
use std::collections::BTreeMap;
use std::sync::OnceLock;

struct Stored {
    case: Case,
    answer: Answer,
    machine: Vec<u32>,
    faults: [Faults; 11],
}

impl Stored {
    fn of(case: Case) -> Stored {
        let (graph, machine) = buffers_of(&case);
        let (answer, faults) = (answer(&case), faults(&case, &graph, &machine));
        Stored { case, answer, machine, faults }
    }
}

fn stored() -> &'static [Stored] {
    static STORED: OnceLock<Vec<Stored>> = OnceLock::new();
    STORED.get_or_init(|| common::stored_cases().into_iter().map(Stored::of).collect())
}

/// What tells one refusal from another in an answer: number, recording, line; 0 for a success.
type Refused = (u32, u32, u64);

fn refused(fault: Option<&Fault>) -> Refused {
    fault.map_or((0, 0, 0), |fault| (fault.refusal.number(), fault.recording, fault.line))
}

/// What this program answered, without looking at all faults.
fn answered(operation: Operation, answer: &Answer) -> Refused {
    let number = match operation {
        Operation::Read => return (answer.read.number, 0, answer.read.line.into()),
        Operation::CompareCaptures => {
            return (answer.captures.number, answer.captures.recording, answer.captures.line)
        }
        Operation::Write => answer.write.number,
        Operation::Synthesise => answer.synthesise,
        Operation::RunGraph => answer.run_graph.answer.number,
        Operation::RunMachine => answer.run_machine.answer.run.number,
        Operation::RunGraphWithWords => answer.run_graph_with_words.answer.number,
        Operation::RunMachineWithWords => answer.run_machine_with_words.answer.run.number,
        Operation::Touches => answer.touches.number,
        Operation::FirstTouching => answer.first_touching.number,
        Operation::Bounds => answer.bounds.number,
    };
    (number, 0, 0)
}

/// Of all faults of a call the first in the papers' order is what the program answers.
#[test]
fn the_first_fault_is_answered() {
    for one in stored() {
        for faults in &one.faults {
            let found = answered(faults.operation, &one.answer);
            assert_eq!(found, refused(faults.first()), "{:?}", faults.operation);
        }
    }
}

/// The listing refuses as reading does, but that no table can be short.
#[test]
fn the_listing_names_the_first_fault_of_the_text() {
    for one in stored() {
        let mut of_text = one.faults[0].clone();
        of_text.all.retain(|fault| fault.refusal != Refusal::ShortGraph);
        let printed = listing(&one.case.text);
        match refused(of_text.first()) {
            (0, ..) => assert!(printed.starts_with("states,")),
            (number, _, line) => assert_eq!(printed, format!("refused,{number},{line}\n")),
        }
    }
}

#[test]
fn only_possible_pairs_meet_and_each_often() {
    let mut counts: BTreeMap<Meeting, usize> = BTreeMap::new();
    for faults in stored().iter().flat_map(|one| &one.faults) {
        meetings(faults).into_iter().for_each(|one| *counts.entry(one).or_insert(0) += 1);
    }
    assert_eq!(possible().len(), 107);
    for meeting in counts.keys() {
        assert!(possible().contains(meeting), "{meeting:?}");
    }
    for meeting in possible() {
        let count = counts.get(&meeting).copied().unwrap_or(0);
        assert!(count >= 10, "{:?}, {}: {count}", meeting.operation, meeting.name());
    }
}

/// Whether a refusal is of a line of a text, which later lines may have too.
fn of_line(refusal: Refusal) -> bool {
    (2..=5).contains(&refusal.number())
}

/// Each refusal of an operation is in the table of pairs with each that goes behind it.
#[test]
fn the_table_of_pairs_is_whole() {
    for operation in Operation::ALL {
        let (order, mut pairs) = (operation.refusals(), Vec::new());
        for (at, &first) in order.iter().enumerate().filter(|(_, &one)| !of_line(one)) {
            pairs.extend(order[at + 1..].iter().map(|&second| (first, second)));
        }
        for pair in pairs {
            let met =
                |one: &Meeting| one.operation == operation && (one.first.0, one.second.0) == pair;
            assert!(possible().iter().any(met), "{operation:?} {pair:?}");
        }
    }
}

/// The answer of a program that takes one pair the wrong way round: where the first of the pair
/// is due and the second applies as well, it gives the second.
fn with_wrong_order(faults: &Faults, wrong: &Meeting) -> Refused {
    let Some(first) = faults.first().filter(|_| faults.operation == wrong.operation) else {
        return refused(faults.first());
    };
    let turned =
        |other: &&Fault| *other != first && Meeting::of(faults.operation, first, other) == *wrong;
    refused(faults.all.iter().find(turned).or(Some(first)))
}

/// Each pair taken the wrong way round changes the answers of stored cases. Two short buffers have
/// one number, so their order cannot show.
#[test]
fn every_wrong_order_is_told_apart() {
    for wrong in possible() {
        let calls = stored().iter().flat_map(|one| {
            one.faults.iter().map(|faults| (answered(faults.operation, &one.answer), faults))
        });
        let changed = calls.filter(|(right, faults)| with_wrong_order(faults, &wrong) != *right);
        let (number, count) = (wrong.first.0.number(), changed.count());
        if number == 7 && wrong.second.0.number() == 7 {
            assert_eq!(count, 0, "{}", wrong.name());
        } else {
            assert!(count >= 10, "{:?}, {}: {count}", wrong.operation, wrong.name());
        }
    }
}

/// The first wire and the wire count of a state below N.
fn range(machine: &[u32], state: usize) -> (u32, u32) {
    let at = RECORDS_AT + state * RECORD_WORDS;
    (machine[at], machine[at + 1])
}

fn whole_machines() -> impl Iterator<Item = &'static [u32]> {
    let whole = |machine: &&[u32]| machine.len() >= MACHINE_WORDS && (1..=64).contains(&machine[0]);
    stored().iter().map(|one| &one.machine[..]).filter(whole)
}

/// A state without wires shares none, also where its first wire is behind another's first.
#[test]
fn empty_states_inside_others_are_admitted() {
    let inside = |machine: &&[u32]| {
        let states = 0..machine[0] as usize;
        let within = |at: u32| {
            states.clone().map(|state| range(machine, state)).any(|(first, count)| {
                first < at && u64::from(at) < u64::from(first) + u64::from(count)
            })
        };
        let mut ranges = states.clone().map(|state| range(machine, state));
        ranges.any(|(first, count)| count == 0 && within(first))
    };
    let found = whole_machines().filter(inside).filter(|machine| decode(machine).is_some()).count();
    println!("inside others: {found}");
    assert!(found >= 20, "{found}");
}

/// A state without wires whose first wire is above 3,072 is refused, even where nothing else is
/// wrong: with a first wire of 0 it is not.
#[test]
fn empty_states_past_the_end_are_refused() {
    let alone = |machine: &&[u32]| {
        let past = |&state: &usize| range(machine, state).1 == 0 && range(machine, state).0 > 3_072;
        (0..machine[0] as usize).find(past).is_some_and(|state| {
            let mut mended = machine.to_vec();
            mended[RECORDS_AT + state * RECORD_WORDS] = 0;
            decode(machine).is_none() && decode(&mended).is_some()
        })
    };
    let found = whole_machines().filter(alone).count();
    println!("past the end: {found}");
    assert!(found >= 20, "{found}");
}

/// A text's lines with the numbers they have in it, the last one perhaps without a line feed.
fn numbered(text: &[u8]) -> Vec<(u64, Vec<u8>)> {
    (1..).zip(text.split_inclusive(|&byte| byte == b'\n').map(<[u8]>::to_vec)).collect()
}

/// Faults found one after another: each is mended, and the text read again. A line that has no form
/// or is not due is taken out; one with a wrong number gets a right line of its kind.
fn found_by_mending(text: &[u8]) -> Vec<(u32, u64)> {
    let mut lines = numbered(text);
    let end = lines.len() as u64 + 1;
    let mut found = Vec::new();
    while let Err(fault) =
        parse(&lines.iter().flat_map(|(_, line)| line.clone()).collect::<Vec<u8>>())
    {
        let at = fault.line as usize - 1;
        let Some((line, bytes)) = lines.get_mut(at) else {
            found.push((fault.number, end));
            break;
        };
        found.push((fault.number, *line));
        let is_ending = bytes.starts_with(b"goto") || bytes.starts_with(b"ite");
        match fault.number {
            4 | 5 if is_ending => *bytes = b"halt\n".to_vec(),
            4 | 5 => *bytes = b"set,0,0\n".to_vec(),
            _ => drop(lines.remove(at)),
        }
    }
    found
}

/// The faults of all lines are those that reading finds as each one before is mended; of several in
/// one line it finds the first.
#[test]
fn faults_of_later_lines_are_real() {
    for one in stored().iter().filter(|one| one.case.text.len() < 5_000) {
        let of_lines = one.faults[0].all.iter().filter(|fault| fault.line > 0);
        let mut all: Vec<(u64, u32)> =
            of_lines.map(|fault| (fault.line, fault.refusal.number())).collect();
        all.sort();
        all.dedup_by_key(|(line, _)| *line);
        let found: Vec<(u64, u32)> = found_by_mending(&one.case.text)
            .into_iter()
            .map(|(number, line)| (line, number))
            .collect();
        assert_eq!(found, all, "{}", one.case.text.escape_ascii());
    }
}

/// A copy that is long enough.
fn lengthened(buffer: &[u32], length: usize) -> Vec<u32> {
    let mut longer = buffer.to_vec();
    longer.resize(length.max(buffer.len()), 0);
    longer
}

/// What is said to be refused behind a short buffer is refused once no buffer is short.
#[test]
fn faults_behind_short_buffers_are_real() {
    let mut shown = 0;
    for one in stored() {
        let graph = lengthened(&buffers_of(&one.case).0, GRAPH_WORDS);
        let machine = lengthened(&one.machine, MACHINE_WORDS);
        let registers = lengthened(&one.case.registers, 16);
        let made = synthesise(&graph, &mut lengthened(&[], MACHINE_WORDS));
        let ran = run_graph(&graph, &mut registers.clone(), one.case.start_block, 0).number;
        let cycled =
            run_machine(&machine, &mut registers.clone(), one.case.start_state, 0).run.number;
        let (state, register) = (one.case.asked.state, one.case.asked.register);
        let asked = touches(&machine, state, register).number;
        let searched = first_touching(&machine, register).number;
        let mut lowest = lengthened(&one.case.bounds.lowest, 16);
        let mut highest = lengthened(&one.case.bounds.highest, 16);
        // What a buffer lacks is not above, or below, what the other has.
        (one.case.bounds.lowest.len()..16).for_each(|at| lowest[at] = 1 << 31);
        (one.case.bounds.highest.len()..16).for_each(|at| highest[at] = (1 << 31) - 1);
        let bounded = bounds(&machine, &mut lowest, &mut highest, state);
        let numbers = [(2, made), (3, ran), (4, cycled), (8, asked), (9, searched), (10, bounded)];
        for (faults, number) in numbers.map(|(index, number)| (&one.faults[index], number)) {
            let mut mended = faults.clone();
            mended.all.retain(|fault| fault.refusal.number() != 7);
            // A table that was short may be refused for what it was lengthened by.
            if mended.all.len() < faults.all.len() && !matches!(number, 6 | 10) {
                assert_eq!(number, refused(mended.first()).0, "{:?}", faults.operation);
            }
            let tables = [Refusal::GraphTable, Refusal::MachineTable];
            if mended.all.iter().any(|fault| tables.contains(&fault.refusal)) {
                assert!(matches!(number, 6 | 10), "{:?}", faults.operation);
                shown += usize::from(mended.all.len() < faults.all.len());
            }
        }
    }
    assert!(shown > 100, "{shown}");
}
