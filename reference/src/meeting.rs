//! Pairs of refusals that meet in one call, of which the one that goes first is answered.

use crate::faults::{Fault, Faults};
use crate::operation::{Operation, Refusal};
use std::collections::{BTreeMap, BTreeSet};

/// Where the second of two faults is, seen from the first.
#[derive(Clone, Copy, Debug, PartialEq, Eq, PartialOrd, Ord)]
pub enum Where {
    /// Elsewhere in the call: in another buffer, list or recording, or in the call as a whole.
    Call,
    SameLine,
    LaterLine,
}

/// A refusal and, where it is of a line of a recording, which recording.
pub type Party = (Refusal, u32);

#[derive(Clone, Copy, Debug, PartialEq, Eq, PartialOrd, Ord)]
pub struct Meeting {
    pub operation: Operation,
    pub first: Party,
    pub second: Party,
    pub place: Where,
}

fn place(first: &Fault, second: &Fault) -> Where {
    if first.line == 0 || first.recording != second.recording {
        return Where::Call;
    }
    match first.line == second.line {
        true => Where::SameLine,
        false => Where::LaterLine,
    }
}

fn party_name((refusal, recording): Party) -> String {
    match recording {
        0 => refusal.name(),
        _ => format!("{} of {recording}", refusal.name()),
    }
}

impl Meeting {
    pub fn of(operation: Operation, first: &Fault, second: &Fault) -> Meeting {
        let party = |fault: &Fault| (fault.refusal, fault.recording);
        Meeting {
            operation,
            first: party(first),
            second: party(second),
            place: place(first, second),
        }
    }

    pub fn name(&self) -> String {
        let how = match self.place {
            Where::Call => "and",
            Where::SameLine => "with",
            Where::LaterLine => "then",
        };
        format!("{} {how} {}", party_name(self.first), party_name(self.second))
    }
}

/// The answered fault of a call with each other one. A pair whose first is not answered is left
/// out: the order of the two does not show.
pub fn meetings(faults: &Faults) -> BTreeSet<Meeting> {
    let Some(first) = faults.first() else {
        return BTreeSet::new();
    };
    let others = faults.all.iter().filter(|&fault| fault != first);
    others.map(|other| Meeting::of(faults.operation, first, other)).collect()
}

/// Each refusal with those that go behind it; any two of one operation can apply to one call.
///
/// A run with words has no 12, a machine's run gets no list and so has no 11, and a short output is
/// 8 and not 7. 9 never comes without 11: a list that has such a start has a block not below B. The
/// search for a state that touches a register is given no state and so has no 9.
const OF_CALLS: [(Operation, Refusal, &[Refusal]); 29] = {
    use Operation::*;
    use Refusal::*;
    [
        (Read, LongText, &[ShortGraph, NoForm, NotDue, Register, Target]),
        (Read, ShortGraph, &[NoForm, NotDue, Register, Target]),
        (Write, ShortGraph, &[GraphTable, ShortOutput]),
        (Write, GraphTable, &[ShortOutput]),
        (Synthesise, ShortGraph, &[ShortMachine, GraphTable]),
        (Synthesise, ShortMachine, &[GraphTable]),
        (RunGraph, ShortGraph, &[ShortRegisters, GraphTable, ReadsWords, Start]),
        (RunGraph, ShortRegisters, &[GraphTable, ReadsWords, Start]),
        (RunGraph, GraphTable, &[ReadsWords, Start]),
        (RunGraph, ReadsWords, &[Start]),
        (RunMachine, ShortMachine, &[ShortRegisters, MachineTable, ReadsWords, Start]),
        (RunMachine, ShortRegisters, &[MachineTable, ReadsWords, Start]),
        (RunMachine, MachineTable, &[ReadsWords, Start]),
        (RunMachine, ReadsWords, &[Start]),
        (RunGraphWithWords, ShortGraph, &[ShortRegisters, GraphTable, Start, Starters]),
        (RunGraphWithWords, ShortRegisters, &[GraphTable, Start, Starters]),
        (RunGraphWithWords, GraphTable, &[Start, Starters]),
        (RunGraphWithWords, Start, &[Starters]),
        (RunMachineWithWords, ShortMachine, &[ShortRegisters, MachineTable, Start]),
        (RunMachineWithWords, ShortRegisters, &[MachineTable, Start]),
        (RunMachineWithWords, MachineTable, &[Start]),
        (Touches, ShortMachine, &[MachineTable, State]),
        (Touches, MachineTable, &[State]),
        (FirstTouching, ShortMachine, &[MachineTable]),
        (Bounds, ShortMachine, &[ShortLowest, ShortHighest, MachineTable, State, Reversed]),
        (Bounds, ShortLowest, &[ShortHighest, MachineTable, State, Reversed]),
        (Bounds, ShortHighest, &[MachineTable, State, Reversed]),
        (Bounds, MachineTable, &[State, Reversed]),
        (Bounds, State, &[Reversed]),
    ]
};

/// Two faults of one line of a text. A line without a form names no register and no target and is
/// not told to be due or not, so 2 is alone in its line.
const OF_ONE_LINE: [(Refusal, Refusal); 3] = [
    (Refusal::NotDue, Refusal::Register),
    (Refusal::NotDue, Refusal::Target),
    (Refusal::Register, Refusal::Target),
];

const OF_LINES: [Refusal; 4] =
    [Refusal::NoForm, Refusal::NotDue, Refusal::Register, Refusal::Target];

const OF_RECORDINGS: [Refusal; 2] = [Refusal::RecordedForm, Refusal::RecordedOrder];

/// Reading: each fault of a line before each at a later line, and in one line.
fn of_lines() -> impl Iterator<Item = Meeting> {
    let meeting = |place| {
        move |(first, second)| Meeting {
            operation: Operation::Read,
            first: (first, 0),
            second: (second, 0),
            place,
        }
    };
    let pairs = OF_LINES.into_iter().flat_map(|first| OF_LINES.map(|second| (first, second)));
    pairs
        .map(meeting(Where::LaterLine))
        .chain(OF_ONE_LINE.into_iter().map(meeting(Where::SameLine)))
}

/// R before each fault of a line, the first recording's before the second's, and both orders in
/// one recording. In one line 17 goes before 18, which a readable cycle shows all the same.
fn of_recordings() -> Vec<Meeting> {
    let mut all = Vec::new();
    let mut add = |first: Party, second: Party, place| {
        all.push(Meeting { operation: Operation::CompareCaptures, first, second, place });
    };
    for recording in [1, 2] {
        for one in OF_RECORDINGS {
            add((Refusal::RecordedCount, 0), (one, recording), Where::Call);
            for other in OF_RECORDINGS {
                add((one, recording), (other, recording), Where::LaterLine);
            }
        }
        let [form, order] = OF_RECORDINGS;
        add((form, recording), (order, recording), Where::SameLine);
    }
    for one in OF_RECORDINGS {
        for other in OF_RECORDINGS {
            add((one, 1), (other, 2), Where::Call);
        }
    }
    all
}

/// Every pair that can meet.
pub fn possible() -> BTreeSet<Meeting> {
    let of_calls = OF_CALLS.iter().flat_map(|&(operation, first, seconds)| {
        let meeting = move |&second: &Refusal| Meeting {
            operation,
            first: (first, 0),
            second: (second, 0),
            place: Where::Call,
        };
        seconds.iter().map(meeting)
    });
    of_calls.chain(of_lines()).chain(of_recordings()).collect()
}

/// One line for each operation: its pairs, and in how many cases each was met.
pub fn print(counts: &BTreeMap<Meeting, usize>) -> String {
    let mut text = String::new();
    for operation in Operation::ALL {
        let own = counts.iter().filter(|(meeting, _)| meeting.operation == operation);
        let pairs: Vec<String> =
            own.map(|(meeting, count)| format!("{} ({count})", meeting.name())).collect();
        if !pairs.is_empty() {
            text += &format!("met in {}: {}\n", operation.name(), pairs.join(", "));
        }
    }
    text
}
