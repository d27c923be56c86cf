//! Blocks in the stored cases: every kind of state and reference of a block in quantity, and wrong
//! readings of R-7, each told apart.

mod common;

use common::blocks::{
    block_words, blocks, is_right, makes_another, numbers, wires, BlockWords, Reading, Tried,
    ADMISSIONS, COUNTS, SYNTHESES,
};
use reference::answer::{answer, buffers_of, Answer};
use reference::case::Case;
use reference::machine_table::MACHINE_WORDS;
use reference::operations::synthesise;
use std::sync::OnceLock;

struct Stored {
    case: Case,
    graph: Vec<u32>,
    machine: Vec<u32>,
    /// What synthesis makes of the graph buffer, before the machine's patches.
    made: Option<Vec<u32>>,
    answer: Answer,
}

impl Stored {
    fn of(case: Case) -> Stored {
        let (graph, machine) = buffers_of(&case);
        let mut table = vec![0; case.machine_length as usize];
        let made = (synthesise(&graph, &mut table) == 0).then_some(table);
        let answer = answer(&case);
        Stored { case, graph, machine, made, answer }
    }

    fn tried(&self) -> Tried<'_> {
        Tried::of(&self.case, &self.graph, &self.machine)
    }

    /// The numbers of both runs, of both questions and of the bounds.
    fn numbers(&self) -> [u32; 5] {
        let Answer { run_machine, run_machine_with_words, .. } = &self.answer;
        let Answer { touches, first_touching, bounds, .. } = &self.answer;
        [
            run_machine.answer.run.number, run_machine_with_words.answer.run.number,
            touches.number, first_touching.number, bounds.number,
        ]
    }

    /// The blocks of both runs.
    fn blocks(&self) -> [u64; 2] {
        [self.answer.run_machine.answer.blocks, self.answer.run_machine_with_words.answer.blocks]
    }
}

fn stored() -> &'static [Stored] {
    static STORED: OnceLock<Vec<Stored>> = OnceLock::new();
    STORED.get_or_init(|| common::stored_cases().into_iter().map(Stored::of).collect())
}

/// In so many stored cases, at least, something of a kind is found.
fn at_least(least: usize, kind: &str, holds: impl Fn(&Stored) -> bool) {
    common::at_least(stored(), least, kind, holds);
}

/// The right reading, by the words of the tables, is what is answered and made.
#[test]
fn answers_are_those_of_the_words() {
    for one in stored() {
        let tried = one.tried();
        if let Some(right) = numbers(Reading::Right, &tried) {
            assert_eq!(right, one.numbers());
        }
        for (run, trace) in tried.traces.iter().enumerate() {
            let answered = one.numbers()[run] == 0;
            let right = trace.as_ref().filter(|_| answered);
            let right = right.map_or(0, |trace| blocks(Reading::Right, &tried, trace));
            assert_eq!(one.blocks()[run], right);
        }
        if let Some(made) = &one.made {
            assert!(block_words(made).all(|words| is_right(made, words)));
            assert!(!makes_another(Reading::Right, made));
        }
    }
}

/// So many stored cases, at least, tell each wrong reading apart.
const LEAST: usize = 10;

fn all_told<const N: usize>(readings: [Reading; N], told: [usize; N]) {
    for (reading, told) in readings.into_iter().zip(told) {
        println!("{reading:?}: {told}");
    }
    for (reading, told) in readings.into_iter().zip(told) {
        assert!(told >= LEAST, "{reading:?}: {told}");
    }
}

/// Each wrong reading of the count gives other blocks in either run.
#[test]
fn wrong_counts_are_told_apart() {
    let mut told = [[0; COUNTS.len()]; 2];
    for one in stored() {
        let tried = one.tried();
        for (run, trace) in tried.traces.iter().enumerate() {
            let Some(trace) = trace.as_ref().filter(|_| one.numbers()[run] == 0) else {
                continue;
            };
            for (index, &reading) in COUNTS.iter().enumerate() {
                let other = blocks(reading, &tried, trace) != one.blocks()[run];
                told[run][index] += usize::from(other);
            }
        }
    }
    // Without words no run is dry, and on 64 words no count goes past 16 bits.
    for (run, unseen) in [(0, Reading::LostWhenDry), (1, Reading::Bits16)] {
        let at = COUNTS.iter().position(|&one| one == unseen).expect("a reading");
        assert_eq!(told[run][at], 0);
        told[run][at] = told[1 - run][at];
    }
    told.into_iter().for_each(|told| all_told(COUNTS, told));
}

/// Each wrong reading of what is refused gives other numbers.
#[test]
fn wrong_admissions_are_told_apart() {
    let mut told = [0; ADMISSIONS.len()];
    for one in stored() {
        let tried = one.tried();
        for (index, &reading) in ADMISSIONS.iter().enumerate() {
            let found = numbers(reading, &tried);
            told[index] += usize::from(found.is_some_and(|found| found != one.numbers()));
        }
    }
    all_told(ADMISSIONS, told);
}

/// Each wrong synthesis makes other tables.
#[test]
fn wrong_syntheses_are_told_apart() {
    let mut told = [0; SYNTHESES.len()];
    for made in stored().iter().filter_map(|one| one.made.as_ref()) {
        for (index, &reading) in SYNTHESES.iter().enumerate() {
            told[index] += usize::from(makes_another(reading, made));
        }
    }
    all_told(SYNTHESES, told);
}

/// A table of the layout before is short, whatever is wrong with it.
#[test]
fn tables_of_the_layout_before_are_short() {
    at_least(LEAST, "13,698 words", |one| {
        let is_old = one.case.machine_length == 13_698;
        assert!(!is_old || one.numbers() == [7; 5]);
        is_old
    });
    at_least(LEAST, "from 13,698 to 13,761 words", |one| {
        let short = (13_698..13_762).contains(&one.case.machine_length);
        assert!(!short || one.numbers() == [7; 5]);
        short
    });
}

/// The blocks whose words alone are wrong.
fn wrong_alone(one: &Stored) -> Vec<BlockWords> {
    let tried = one.tried();
    match tried.machine {
        Some(_) => {
            block_words(&one.machine).filter(|&words| !is_right(&one.machine, words)).collect()
        }
        None => Vec::new(),
    }
}

/// Words of blocks that alone are wrong in their table meet every other refusal of a call: of both
/// runs, of both questions and of the bounds those that are answered where no block is checked.
#[test]
fn wrong_words_meet_other_refusals() {
    let others: [&[u32]; 5] = [&[7, 9, 12], &[7, 9], &[9], &[], &[7, 9, 13]];
    for (operation, others) in others.into_iter().enumerate() {
        for &other in others {
            at_least(LEAST, &format!("{other} in operation {operation}"), |one| {
                let behind = numbers(Reading::Unchecked, &one.tried());
                !wrong_alone(one).is_empty() && behind.is_some_and(|all| all[operation] == other)
            });
        }
    }
}

/// Which words are wrong, where nothing else is.
#[test]
fn single_wrong_words() {
    let single =
        |one: &Stored, holds: &dyn Fn(BlockWords, u32, u32) -> bool| match wrong_alone(one)[..] {
            [words] => holds(words, one.machine[0], one.machine[1]),
            _ => false,
        };
    let present = |one: &Stored, holds: &dyn Fn(u64, u64, u32) -> bool| {
        single(one, &|words, n, r| {
            let below = words.state < n;
            below && holds(words.reference.into(), wires(&one.machine, words.state).into(), r)
        })
    };
    at_least(10, "a present block's 0", |one| present(one, &|x, _, _| x == 0));
    at_least(10, "R - 1", |one| present(one, &|x, _, r| x + 1 == r.into()));
    at_least(10, "a register from R up", |one| present(one, &|x, _, r| x >= r.into() && x < 16));
    at_least(10, "15", |one| present(one, &|x, _, _| x == 15));
    at_least(10, "one past the wires", |one| present(one, &|x, count, _| x == 16 + count));
    at_least(10, "a wire of a state behind", |one| {
        present(one, &|x, count, _| x > 16 + count && x < 3_088)
    });
    at_least(8, "all ones", |one| present(one, &|x, _, _| x == u32::MAX.into()));
    at_least(10, "a state of N", |one| single(one, &|words, n, _| words.state == n));
    for state in [254, 256, 511, u32::MAX] {
        at_least(10, &format!("a state of {state}"), |one| {
            single(one, &|words, _, _| words.state == state)
        });
    }
    at_least(10, "an absent block with a wire", |one| {
        single(one, &|words, _, _| words.state == 255 && words.reference >= 16)
    });
    at_least(10, "an absent block with a register", |one| {
        single(one, &|words, _, _| words.state == 255 && (1..16).contains(&words.reference))
    });
    at_least(10, "of block 63", |one| single(one, &|words, _, _| words.block == 63));
    at_least(10, "of block 0", |one| single(one, &|words, _, _| words.block == 0));
    at_least(10, "of a block from B up", |one| {
        single(one, &|words, _, _| words.block as u32 >= one.graph[0])
    });
}

fn is_admitted(one: &Stored) -> bool {
    one.answer.first_touching.number == 0
}

/// Words of blocks that synthesis does not make, and that are right.
#[test]
fn other_right_words() {
    let ran = |one: &Stored| one.numbers()[1] == 0;
    let any = |one: &Stored, holds: &dyn Fn(BlockWords) -> bool| {
        ran(one) && block_words(&one.machine).any(holds)
    };
    at_least(20, "a block from B up in a state", |one| {
        any(one, &|words| words.state < one.machine[0] && words.block as u32 >= one.graph[0])
    });
    at_least(10, "block 63 in a state, from B up", |one| {
        any(one, &|words| words.block == 63 && words.state < one.machine[0] && one.graph[0] < 64)
    });
    at_least(20, "no block at all", |one| {
        ran(one) && block_words(&one.machine).all(|one| one.state == 255)
    });
    at_least(50, "a state without blocks", |one| {
        let states = if ran(one) { one.machine[0] } else { 0 };
        (0..states).any(|state| block_words(&one.machine).all(|words| words.state != state))
    });
    at_least(30, "another reference than synthesis wrote", |one| {
        let made = one.made.as_ref().filter(|_| ran(one));
        made.is_some_and(|made| {
            let both = block_words(made).zip(block_words(&one.machine));
            both.into_iter().any(|(x, y)| x.state == y.state && x.reference != y.reference)
        })
    });
    at_least(300, "references that are shared", |one| {
        let mut all: Vec<(u32, u32)> = one
            .machine
            .get(..MACHINE_WORDS)
            .into_iter()
            .flat_map(block_words)
            .filter(|words| words.state != 255)
            .map(|words| (words.state, words.reference))
            .collect();
        let before = all.len();
        all.sort_unstable();
        all.dedup();
        ran(one) && all.len() < before
    });
    at_least(20, "an arrival that is neither 0 nor 1", |one| {
        let tried = one.tried();
        let traces = tried.traces.iter().flatten();
        ran(one)
            && traces.into_iter().any(|trace| {
                blocks(Reading::IsOne, &tried, trace) != blocks(Reading::Right, &tried, trace)
            })
    });
    at_least(20, "more than 20 blocks a cycle", |one| {
        let (run, blocks) = (one.answer.run_machine_with_words.answer.run, one.blocks()[1]);
        run.number == 0 && run.count > 0 && blocks > 20 * u64::from(run.count)
    });
    at_least(100, "admitted with words of blocks changed", |one| {
        let made = one.made.as_ref().filter(|_| is_admitted(one));
        made.is_some_and(|made| !block_words(made).eq(block_words(&one.machine)))
    });
}

/// Numbers of blocks that do not fit 8 bits, or 16.
#[test]
fn large_counts() {
    for run in [0, 1] {
        at_least(20, "past 8 bits", |one| one.blocks()[run] > 255);
    }
    at_least(10, "past 16 bits", |one| one.blocks()[0] > 65_535);
}

/// Buffers that are short by one, of the length before arrivals, and longer than a table.
#[test]
fn lengths_of_machine_buffers() {
    for length in [13_761, 13_698] {
        at_least(20, &format!("{length}"), |one| one.case.machine_length == length);
    }
    at_least(100, "longer", |one| one.case.machine_length as usize > MACHINE_WORDS);
}
