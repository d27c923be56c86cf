//! Shifts in the stored cases: every amount, from everywhere, in quantity, and wrong readings of
//! R-6, each told apart.

mod common;

use common::bounds::{answer as bounds_by, Answered, Call, Ends, Reading as BoundsReading};
use common::shifted_runs::{graph_run, machine_run, Ended, Shift};
use common::shifts::{is_shift, shifted, Place, Reading, PLACES, WRONG};
use common::traces::{graph_trace, machine_trace, Words};
use reference::answer::{answer, buffers_of, digest, Answer};
use reference::case::Case;
use reference::generate::words::AMOUNTS;
use reference::graph::{signed, Binary, Graph};
use reference::machine::{Machine, Source, Wire};
use reference::operations::{bounds, RunAnswer, WordsRunAnswer};
use reference::{graph_table, machine_table};
use std::collections::BTreeSet;
use std::sync::OnceLock;

/// Code and operands of a shift.
type Shifted = (u32, u32, u32);

/// Outcome, count, next, flag and the digest of the registers.
type Fields = (u32, u32, u32, bool, u64);

struct Stored {
    case: Case,
    graph: Option<Graph>,
    machine: Option<Machine>,
    words: Vec<u32>,
    /// What each run that is not refused answered, and the shifts that it works out.
    runs: [Option<(Fields, BTreeSet<Shifted>)>; 4],
    bounded: Answered,
}

fn fields(answer: RunAnswer, registers: u64) -> Option<Fields> {
    let RunAnswer { number, halted, count, next, flag } = answer;
    (number == 0).then_some((halted.into(), count, next, flag, registers))
}

fn fields_with_words(answer: WordsRunAnswer, registers: u64) -> Option<Fields> {
    let WordsRunAnswer { number, outcome, count, next, flag } = answer;
    (number == 0).then_some((outcome, count, next, flag, registers))
}

fn of_ended(ended: Ended) -> Fields {
    let Ended { outcome, count, next, flag, registers } = ended;
    (outcome, count, next, flag, digest(&registers))
}

fn is_graph(place: Place) -> bool {
    matches!(place, Place::Graph | Place::GraphWithWords)
}

/// The words that a run in a place reads.
fn words_of(case: &Case, place: Place) -> Words<'_> {
    let with_words = matches!(place, Place::GraphWithWords | Place::MachineWithWords);
    with_words.then_some(&case.words[..])
}

impl Stored {
    fn of(case: Case) -> Stored {
        let (graph, machine) = buffers_of(&case);
        let answer = answer(&case);
        let shifts = |place: Place| -> BTreeSet<Shifted> {
            let words = words_of(&case, place);
            let trace = match is_graph(place) {
                true => graph_trace(&graph, &case, words),
                false => machine_trace(&machine, &case, words),
            };
            let events = trace.steps.into_iter().flatten().filter(|event| is_shift(event.op));
            events.map(|event| (event.op.code(), event.x, event.y)).collect()
        };
        let Answer { run_graph, run_machine, .. } = &answer;
        let (graph_words, machine_words) =
            (&answer.run_graph_with_words, &answer.run_machine_with_words);
        let answered = [
            fields(run_graph.answer, run_graph.registers),
            fields(run_machine.answer.run, run_machine.registers),
            fields_with_words(graph_words.answer, graph_words.registers),
            fields_with_words(machine_words.answer.run, machine_words.registers),
        ];
        let run = |run: usize| answered[run].map(|fields| (fields, shifts(PLACES[run])));
        let runs = [0, 1, 2, 3].map(run);
        let (mut lowest, mut highest) = (case.bounds.lowest.clone(), case.bounds.highest.clone());
        let number = bounds(&machine, &mut lowest, &mut highest, case.asked.state);
        Stored {
            graph: graph_table::decode(&graph),
            machine: machine_table::decode(&machine),
            words: machine,
            runs,
            bounded: Answered { number, lowest, highest },
            case,
        }
    }

    /// What a run answers with shifts of a reading; None where it does not come to its end.
    fn run(&self, place: Place, reading: Reading) -> Option<Fields> {
        let (case, words) = (&self.case, words_of(&self.case, place));
        let shift: Shift = &|op, x, y| shifted(reading.at(place), op, x, y);
        let ended = match is_graph(place) {
            true => graph_run(self.graph.as_ref().expect("admitted"), case, words, shift),
            false => machine_run(self.machine.as_ref().expect("admitted"), case, words, shift),
        };
        ended.map(of_ended)
    }

    fn call(&self) -> Call<'_> {
        Call {
            table: &self.words,
            table_refused: self.machine.is_none(),
            lowest: &self.case.bounds.lowest,
            highest: &self.case.bounds.highest,
            state: self.case.asked.state,
        }
    }

    /// Whether a reading answers otherwise in a place.
    fn tells(&self, place: Place, reading: Reading) -> bool {
        if place == Place::Bounds {
            return self.bounded.number == 0
                && bounds_by(BoundsReading::OfShifts(reading), &self.call()) != self.bounded;
        }
        let other = |&(code, x, y): &Shifted| {
            let op = Binary::from_code(code).expect("a shift");
            shifted(reading.at(place), op, x, y) != shifted(Reading::Right, op, x, y)
        };
        // A run in which no shift gives another word is the same run.
        self.runs[place as usize].as_ref().is_some_and(|(answered, shifts)| {
            shifts.iter().any(other) && self.run(place, reading) != Some(*answered)
        })
    }
}

fn stored() -> &'static [Stored] {
    static STORED: OnceLock<Vec<Stored>> = OnceLock::new();
    STORED.get_or_init(|| common::stored_cases().into_iter().map(Stored::of).collect())
}

/// In so many stored cases, at least, something of a kind is found.
fn at_least(least: usize, kind: &str, holds: impl Fn(&Stored) -> bool) {
    common::at_least(stored(), least, kind, holds);
}

/// Shifts bit by bit give what is answered.
#[test]
fn answers_are_those_of_the_bits() {
    for one in stored() {
        for place in &PLACES[..4] {
            if let Some((answered, shifts)) = &one.runs[*place as usize] {
                let again = shifts.is_empty() || one.run(*place, Reading::Right) == Some(*answered);
                assert!(again, "{place:?} {:?}", one.case);
            }
        }
        let right = BoundsReading::OfShifts(Reading::Right);
        assert_eq!(bounds_by(right, &one.call()), one.bounded, "{:?}", one.case);
    }
}

/// The places in which a reading can show.
fn places_of(reading: Reading) -> &'static [usize] {
    use Reading::*;
    match reading {
        GraphAlone => &[1, 3, 4],
        MachineAlone => &[0, 2, 4],
        BoundsAlone => &[0, 1, 2, 3],
        NotInGraph => &[0, 2],
        NotInMachine => &[1, 3],
        WithWordsAlone => &[0, 1, 4],
        WithoutWordsAlone => &[2, 3],
        NotInBounds | FarAmounts | FarAmountAlone | ZeroStays | SarOfEnds => &[4],
        _ => &[0, 1, 2, 3, 4],
    }
}

/// Each wrong reading answers some stored cases wrongly, in each place where it is one.
#[test]
fn wrong_readings_are_told_apart() {
    let told = WRONG.map(|reading| {
        let tells = |one: &Stored| PLACES.map(|place| one.tells(place, reading));
        let wrong: Vec<[bool; 5]> = stored().iter().map(tells).collect();
        let by = [0, 1, 2, 3, 4].map(|place| wrong.iter().filter(|one| one[place]).count());
        (reading, wrong.iter().filter(|one| one.contains(&true)).count(), by)
    });
    for (reading, told, by) in told {
        println!("{reading:?}: {told}, by place {by:?}");
    }
    for (reading, told, by) in told {
        let places = places_of(reading);
        let shows = |(place, &by): (usize, &usize)| match places.contains(&place) {
            true => by > 4,
            false => by == 0,
        };
        assert!(told > 9 && by.iter().enumerate().all(shows), "{reading:?}: {told} {by:?}");
    }
}

/// In so many stored cases, at least, each run works out a shift of a kind.
fn in_runs(least: usize, kind: &str, holds: impl Fn(Binary, u32, u32) -> bool) {
    let holds = |&(code, x, y): &Shifted| Binary::from_code(code).is_some_and(|op| holds(op, x, y));
    let found = [0, 1, 2, 3].map(|run: usize| {
        let shifts = stored().iter().filter_map(|one| one.runs[run].as_ref());
        shifts.filter(|(_, shifts)| shifts.iter().any(holds)).count()
    });
    println!("{kind}: {found:?}");
    assert!(found.iter().all(|&found| found >= least), "{kind}: {found:?}");
}

const SHIFTS: [Binary; 3] = [Binary::Shl, Binary::Shr, Binary::Sar];

/// Each amount by each shift, on words that are not 0.
#[test]
fn every_amount_in_every_run() {
    for op in SHIFTS {
        for amount in AMOUNTS {
            let kind = format!("{} by {amount}", op.name());
            in_runs(7, &kind, |one, x, y| one == op && x != 0 && y == amount);
        }
        for sign in [0, 1] {
            let kind = format!("{} from 32 up of sign {sign}", op.name());
            in_runs(40, &kind, |one, x, y| one == op && x != 0 && x >> 31 == sign && y > 31);
            let kind = format!("{} below 32 of sign {sign}", op.name());
            in_runs(40, &kind, |one, x, y| one == op && x != 0 && x >> 31 == sign && y < 32);
        }
    }
}

/// Single amounts and words in the bounds, and ranges of either.
#[test]
fn every_amount_in_bounds() {
    let single = |(low, high): Ends| low == high;
    let wires = |least, kind: &str, holds: &dyn Fn(Ends, Ends) -> bool| {
        for op in SHIFTS {
            at_least(least, &format!("{} {kind}", op.name()), |one| {
                one.bounded.number == 0
                    && one
                        .call()
                        .wires()
                        .iter()
                        .any(|&(code, [a, b, _], _)| code == op.code() && holds(a, b))
            });
        }
    };
    for amount in AMOUNTS.map(signed) {
        wires(6, &format!("by {amount}"), &|a, b| single(a) && a.0 != 0 && b == (amount, amount));
    }
    wires(20, "of a range by a single amount from 32 up", &|a, b| {
        !single(a) && single(b) && !(0..32).contains(&b.0)
    });
    wires(20, "by a range from 32 up", &|_, b| !single(b) && (b.0 > 31 || b.1 < 0));
    wires(10, "by a range about 32", &|_, b| !single(b) && b.0 >= 0 && b.0 < 32 && b.1 > 31);
    wires(10, "by a range about 0", &|_, b| b.0 < 0 && b.1 >= 0);
    wires(5, "of 0 by a range", &|a, b| a == (0, 0) && !single(b));
}

/// A kind of wire.
type Kind = (&'static str, fn(Wire) -> bool);

/// What the amounts of a machine's shifts are: registers, literals, words that are read, others.
#[test]
fn amounts_from_everywhere() {
    let kinds: [Kind; 5] = [
        ("set", |wire| matches!(wire, Wire::Set(literal) if literal > 31)),
        ("read", |wire| wire == Wire::In),
        ("a sum", |wire| matches!(wire, Wire::Sum(..))),
        ("chosen", |wire| matches!(wire, Wire::Choose(..))),
        ("a shift", |wire| matches!(wire, Wire::Binary(op, ..) if is_shift(op))),
    ];
    let any = |one: &Stored, holds: &dyn Fn(Source, &[Wire]) -> bool| {
        let ran = one.runs[3].is_some();
        let mut states = one.machine.iter().filter(|_| ran).flat_map(|machine| &machine.states);
        states.any(|state| {
            state.wires.iter().any(|wire| match *wire {
                Wire::Binary(op, _, amount) => is_shift(op) && holds(amount, &state.wires),
                _ => false,
            })
        })
    };
    at_least(200, "amount a register", |one| {
        any(one, &|from, _| matches!(from, Source::Register(_)))
    });
    for (kind, holds) in kinds {
        at_least(40, &format!("amount {kind}"), |one| {
            any(one, &|from, wires| matches!(from, Source::Wire(wire) if holds(wires[wire])))
        });
    }
    at_least(150, "several blocks to a state that shifts", |one| {
        let joined = |wires: &[Wire]| wires.iter().any(|wire| matches!(wire, Wire::Choose(..)));
        any(one, &|_, wires| joined(wires))
    });
}
