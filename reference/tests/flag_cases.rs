//! Flags in the stored cases: every kind of sum and of arrival in quantity, and wrong readings of
//! R-2, each told apart.

mod common;

use common::flags::{admitted, flag, slots, Reading, Slot, WRONG, WRONG_ADMISSIONS};
use common::traces::{graph_trace, machine_trace, Event, Trace};
use reference::answer::{answer, buffers_of, Answer};
use reference::case::Case;
use reference::graph::Binary;
use reference::machine_table::{decode, MACHINE_WORDS};
use reference::operations::synthesise;
use std::sync::OnceLock;

struct Stored {
    case: Case,
    graph: Vec<u32>,
    machine: Vec<u32>,
    answer: Answer,
}

impl Stored {
    fn of(case: Case) -> Stored {
        let (graph, machine) = buffers_of(&case);
        let answer = answer(&case);
        Stored { case, graph, machine, answer }
    }

    /// The trace of each of the four runs that is not refused, with the flag answered.
    fn traces(&self) -> [Option<(Trace, bool)>; 4] {
        let Answer { run_graph, run_machine, .. } = &self.answer;
        let (graph, machine) = (run_graph.answer, run_machine.answer.run);
        let graph_words = self.answer.run_graph_with_words.answer;
        let machine_words = self.answer.run_machine_with_words.answer.run;
        let (case, words) = (&self.case, Some(&self.case.words[..]));
        let on_graph = |words| graph_trace(&self.graph, case, words);
        let on_machine = |words| machine_trace(&self.machine, case, words);
        [
            (graph.number == 0).then(|| (on_graph(None), graph.flag)),
            (machine.number == 0).then(|| (on_machine(None), machine.flag)),
            (graph_words.number == 0).then(|| (on_graph(words), graph_words.flag)),
            (machine_words.number == 0).then(|| (on_machine(words), machine_words.flag)),
        ]
    }

    /// What synthesis makes of the graph buffer, before the machine's patches.
    fn made(&self) -> Option<Vec<u32>> {
        let mut table = vec![0; MACHINE_WORDS];
        (synthesise(&self.graph, &mut table) == 0).then_some(table)
    }

    fn admitted(&self) -> bool {
        decode(&self.machine).is_some()
    }
}

fn stored() -> &'static [Stored] {
    static STORED: OnceLock<Vec<Stored>> = OnceLock::new();
    STORED.get_or_init(|| common::stored_cases().into_iter().map(Stored::of).collect())
}

/// In so many stored cases, at least, something of a kind is found.
fn at_least(least: usize, kind: &str, holds: impl Fn(&Stored) -> bool) {
    common::at_least(stored(), least, kind, holds);
}

/// In so many stored cases, at least, a run of each kind has it: graph, machine, both with words.
fn in_runs(least: [usize; 4], kind: &str, holds: impl Fn(&Trace, bool) -> bool) {
    let mut found = [0; 4];
    for one in stored() {
        for (run, traced) in one.traces().iter().enumerate() {
            found[run] +=
                usize::from(traced.as_ref().is_some_and(|(trace, flag)| holds(trace, *flag)));
        }
    }
    println!("{kind}: {found:?}");
    assert!(found.iter().zip(least).all(|(&found, least)| found >= least), "{kind}: {found:?}");
}

/// The flag is what the sums of the run make it.
#[test]
fn flags_are_those_of_the_trace() {
    for one in stored() {
        for (trace, answered) in one.traces().into_iter().flatten() {
            assert_eq!(flag(Reading::Right, &trace), answered, "{:?}", one.case.text);
            let raised = trace.steps.iter().flatten().any(Event::counts);
            assert_eq!(raised, answered);
        }
    }
}

/// Each wrong reading answers the runs of some stored cases wrongly.
#[test]
fn wrong_readings_are_told_apart() {
    let mut told = vec![[0; 4]; WRONG.len()];
    let mut cases = vec![0; WRONG.len()];
    for one in stored() {
        let traces = one.traces();
        for (index, &reading) in WRONG.iter().enumerate() {
            let wrong = traces.each_ref().map(|traced| {
                traced.as_ref().is_some_and(|(trace, answered)| flag(reading, trace) != *answered)
            });
            (0..4).for_each(|run| told[index][run] += usize::from(wrong[run]));
            cases[index] += usize::from(wrong.contains(&true));
        }
    }
    for (index, reading) in WRONG.iter().enumerate() {
        println!("{reading:?}: {} cases, by run {:?}", cases[index], told[index]);
    }
    for (index, &reading) in WRONG.iter().enumerate() {
        let graphs_too = !reading.of_machines();
        // A run without words is never dry.
        let runs: &[usize] = match reading {
            Reading::LostWhenDry => &[2, 3],
            _ if graphs_too => &[0, 1, 2, 3],
            _ => &[1, 3],
        };
        assert!(cases[index] > 9, "{reading:?}: {}", cases[index]);
        assert!(runs.iter().all(|&run| told[index][run] > 4), "{reading:?}: {:?}", told[index]);
    }
}

/// A flag that one run raised is not there in the next: not in the same case, and not in the next.
#[test]
fn a_flag_kept_between_runs_is_told_apart() {
    let (mut within, mut between) = (0, 0);
    let mut before = false;
    for one in stored() {
        let flags: Vec<bool> = one.traces().into_iter().flatten().map(|(_, flag)| flag).collect();
        let falls = |pair: &[bool]| pair[0] && !pair[1];
        within += usize::from(flags.windows(2).any(falls));
        between += usize::from(before && flags.first() == Some(&false));
        before = flags.last().copied().unwrap_or(before);
    }
    println!("within a case: {within}, from one case to the next: {between}");
    assert!(within > 9 && between > 9, "{within} {between}");
}

/// Each wrong reading of refusal 10 takes some stored machine tables wrongly.
#[test]
fn wrong_admissions_are_told_apart() {
    let whole =
        |one: &&Stored| one.machine.len() >= MACHINE_WORDS && one.case.registers.len() >= 16;
    for reading in WRONG_ADMISSIONS {
        let told = stored().iter().filter(whole);
        let told = told.filter(|one| admitted(reading, &one.machine) != one.admitted()).count();
        println!("{reading:?}: {told}");
        assert!(told > 9, "{reading:?}: {told}");
    }
}

const MOST: u32 = 2_147_483_647;
const LEAST: u32 = 2_147_483_648;
const MINUS_1: u32 = 4_294_967_295;

/// The sums at the ends that go over, and the nearest that do not, in blocks that are passed.
#[test]
fn sums_at_the_ends() {
    let (add, sub) = (Binary::Add, Binary::Sub);
    let over = [
        (add, MOST, 1),
        (add, LEAST, MINUS_1),
        (add, LEAST, LEAST),
        (add, MOST, MOST),
        (sub, LEAST, 1),
        (sub, MOST, MINUS_1),
        (sub, 0, LEAST),
        (sub, MOST, LEAST),
        (sub, LEAST, MOST),
    ];
    let within = [
        (add, MOST - 1, 1),
        (add, LEAST + 1, MINUS_1),
        (add, LEAST, MOST),
        (add, MINUS_1, 1),
        (add, MOST, MINUS_1),
        (sub, LEAST + 1, 1),
        (sub, MOST - 1, MINUS_1),
        (sub, MINUS_1, LEAST),
        (sub, 0, MOST),
        (sub, LEAST, LEAST),
        (sub, 0, 1),
    ];
    let all = over.map(|sum| (sum, true)).into_iter().chain(within.map(|sum| (sum, false)));
    for ((op, x, y), goes_over) in all {
        let is = |event: &Event| event.op == op && event.x == x && event.y == y;
        let name = format!("{} {} {}", x as i32, op.name(), y as i32);
        in_runs([10; 4], &name, |trace, _| {
            let mut found = trace.steps.iter().flatten().filter(|event| is(event));
            found.clone().all(|event| event.goes_over() == goes_over)
                && found.any(|event| event.arrival != 0)
        });
    }
}

/// In a machine sums are worked out in blocks that are not arrived at, and the flag stays clear.
#[test]
fn sums_of_blocks_that_are_not_arrived_at() {
    let lost = |event: &&Event| event.goes_over() && event.arrival == 0;
    in_runs([0, 40, 0, 40], "not arrived at, flag clear", |trace, flag| {
        !flag && trace.steps.iter().flatten().any(|event| lost(&event))
    });
    in_runs([0, 10, 0, 10], "not arrived at, flag raised by another", |trace, flag| {
        flag && trace.steps.iter().flatten().any(|event| lost(&event))
    });
    in_runs([0, 10, 0, 10], "in one cycle, one arrived at and one not", |trace, _| {
        trace.steps.iter().any(|events| {
            events.iter().any(Event::counts) && events.iter().any(|event| lost(&event))
        })
    });
}

/// The steps that raise the flag.
fn raising(trace: &Trace) -> Vec<bool> {
    trace.steps.iter().map(|events| events.iter().any(Event::counts)).collect()
}

#[test]
fn when_flags_are_raised() {
    for (outcome, name) in [(0, "spent"), (1, "halted"), (2, "dry")] {
        let least = if outcome == 2 { [0, 0, 10, 10] } else { [10; 4] };
        in_runs(least, &format!("raised early and kept, {name}"), |trace, _| {
            let steps = raising(trace);
            let last = steps.iter().rposition(|&raised| raised);
            trace.outcome == outcome && last.is_some_and(|last| last + 1 < steps.len())
        });
    }
    in_runs([10; 4], "raised by the last step alone", |trace, _| {
        let steps = raising(trace);
        steps.len() > 1 && steps.iter().position(|&raised| raised) == Some(steps.len() - 1)
    });
    in_runs([10; 4], "raised by the halting step alone, not the first", |trace, _| {
        let steps = raising(trace);
        trace.outcome == 1
            && steps.len() > 1
            && steps.iter().position(|&raised| raised) == Some(steps.len() - 1)
    });
    in_runs([10; 4], "raised by several steps", |trace, _| {
        raising(trace).iter().filter(|&&raised| raised).count() > 1
    });
    in_runs([10; 4], "sums, and none goes over", |trace, flag| {
        !flag && trace.steps.iter().flatten().any(|event| event.op.is_sum())
    });
    in_runs([10; 4], "budget ends before the sum", |trace, flag| !flag && trace.steps.is_empty());
}

/// What stands in word c of the sums that synthesis writes: the arrival of their block.
#[test]
fn arrivals_that_synthesis_writes() {
    for (code, name) in [(1, "starter"), (5, "true edge"), (18, "false edge"), (6, "join")] {
        at_least(40, &format!("arrival by a {name}"), |one| {
            one.made().is_some_and(|table| {
                let slots = slots(&table);
                let arrival = |sum: &Slot| {
                    let wire = sum.c.checked_sub(16).expect("a wire");
                    table[sum.at - 3 - 4 * (sum.wire - wire) as usize]
                };
                slots.iter().filter(|slot| slot.is_sum()).any(|sum| arrival(sum) == code)
            })
        });
    }
}

/// The sums of a machine buffer whose word c is not what synthesis wrote.
fn changed(one: &Stored) -> Vec<Slot> {
    let made = one.made();
    let is_changed = |slot: &Slot| made.as_ref().is_some_and(|made| made[slot.at] != slot.c);
    let slots = slots(&one.machine).into_iter();
    slots.filter(|slot| slot.is_sum() && is_changed(slot)).collect()
}

/// Words c that are another reference, and those that are none.
#[test]
fn damaged_arrivals() {
    let any = |one: &Stored, holds: &dyn Fn(&Slot) -> bool| changed(one).iter().any(holds);
    at_least(30, "c another register", |one| {
        one.admitted() && any(one, &|slot| slot.c > 0 && slot.c < 16)
    });
    at_least(30, "c another wire", |one| one.admitted() && any(one, &|slot| slot.c >= 16));
    at_least(10, "c a register not below R", |one| {
        !one.admitted() && any(one, &|slot| (one.machine[1]..16).contains(&slot.c))
    });
    at_least(20, "c the wire itself", |one| {
        !one.admitted() && any(one, &|slot| slot.c == 16 + slot.wire)
    });
    at_least(20, "c a later wire", |one| {
        !one.admitted() && any(one, &|slot| (17 + slot.wire..16 + slot.wires).contains(&slot.c))
    });
    at_least(20, "c past the state's wires", |one| {
        !one.admitted() && any(one, &|slot| slot.c >= 16 + slot.wires)
    });
    at_least(30, "all c 0, as before R-2", |one| {
        let slots = slots(&one.machine);
        let mut sums = slots.iter().filter(|slot| slot.is_sum()).peekable();
        one.admitted() && sums.peek().is_some() && sums.all(|sum| sum.c == 0)
    });
    at_least(30, "c of another code is no reference", |one| {
        let slots = slots(&one.machine);
        let other = |slot: &Slot| slot.code != 19 && !slot.is_sum();
        one.admitted() && slots.iter().any(|slot| other(slot) && !slot.is_reference(one.machine[1]))
    });
}

/// Sums that go over where c is a register of 0, one that is not 0, and neither 0 nor 1.
#[test]
fn what_damaged_arrivals_read() {
    let over = |trace: &Trace, holds: &dyn Fn(&Event) -> bool| {
        trace.steps.iter().flatten().any(|event| event.goes_over() && holds(event))
    };
    in_runs([0, 10, 0, 10], "c a register of 0", |trace, _| {
        over(trace, &|event| !event.arrival_is_wire && event.arrival == 0)
    });
    in_runs([0, 10, 0, 10], "c a register that is not 0", |trace, _| {
        over(trace, &|event| !event.arrival_is_wire && event.arrival != 0)
    });
    in_runs([0, 10, 0, 10], "c even and not 0", |trace, _| {
        over(trace, &|event| event.arrival != 0 && event.arrival % 2 == 0)
    });
    in_runs([0, 5, 0, 5], "c a register that becomes 0, or is no longer", |trace, _| {
        over(trace, &|event| (event.arrival == 0) != (event.arrival_after == 0))
    });
}
