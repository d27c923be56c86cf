//! Bounds in the stored cases: every rule, end and refusal in quantity, and wrong readings of R-5,
//! each told apart.

mod common;

use common::bounds::{answer, Answered, Call, Ends, Reading, FULL, LEAST, MOST, WRONG};
use reference::answer::{answer as answer_of, buffers_of, digest, Answer};
use reference::case::Case;
use reference::graph::signed;
use reference::machine_table::{decode, MACHINE_WORDS};
use reference::operations::bounds;
use std::sync::OnceLock;

struct Stored {
    case: Case,
    machine: Vec<u32>,
    refused: bool,
    answer: Answer,
    answered: Answered,
}

impl Stored {
    fn of(case: Case) -> Stored {
        let (_, machine) = buffers_of(&case);
        let (mut lowest, mut highest) = (case.bounds.lowest.clone(), case.bounds.highest.clone());
        let number = bounds(&machine, &mut lowest, &mut highest, case.asked.state);
        let answered = Answered { number, lowest, highest };
        let refused = machine.len() >= MACHINE_WORDS && decode(&machine).is_none();
        Stored { answer: answer_of(&case), case, machine, refused, answered }
    }

    fn call(&self) -> Call<'_> {
        Call {
            table: &self.machine,
            table_refused: self.refused,
            lowest: &self.case.bounds.lowest,
            highest: &self.case.bounds.highest,
            state: self.case.asked.state,
        }
    }
}

fn stored() -> &'static [Stored] {
    static STORED: OnceLock<Vec<Stored>> = OnceLock::new();
    STORED.get_or_init(|| common::stored_cases().into_iter().map(Stored::of).collect())
}

/// The right reading, by the words of the tables, is what is answered.
#[test]
fn answers_are_those_of_the_words() {
    for one in stored() {
        assert_eq!(answer(Reading::Right, &one.call()), one.answered, "{:?}", one.case);
        let Answered { number, lowest, highest } = &one.answered;
        let found = one.answer.bounds;
        assert_eq!((found.number, found.lowest), (*number, digest(lowest)));
        assert_eq!(found.highest, digest(highest));
    }
}

/// Each wrong reading answers some stored cases wrongly.
#[test]
fn wrong_readings_are_told_apart() {
    let told = WRONG.map(|reading| {
        let wrong = |one: &&Stored| answer(reading, &one.call()) != one.answered;
        (reading, stored().iter().filter(wrong).count())
    });
    told.iter().for_each(|(reading, told)| println!("{reading:?}: {told}"));
    assert!(told.iter().all(|&(_, told)| told > 9));
}

/// In so many stored cases, at least, something of a kind is found.
fn at_least(least: usize, kind: &str, holds: impl Fn(&Stored) -> bool) {
    common::at_least(stored(), least, kind, holds);
}

/// A wire of the state asked about: its code, the ends of a, b and c, and its own.
fn wires(least: usize, kind: &str, holds: impl Fn(u32, [Ends; 3], Ends) -> bool) {
    at_least(least, kind, |one| {
        let found = |&(code, inputs, result): &(u32, [Ends; 3], Ends)| holds(code, inputs, result);
        one.answered.number == 0 && one.call().wires().iter().any(found)
    });
}

/// A kind of range, or of two that are compared.
type Kind = (&'static str, fn(Ends) -> bool);
type PairKind = (&'static str, fn(Ends, Ends) -> bool);

fn single((low, high): Ends) -> bool {
    low == high
}

/// Every code with single inputs, with ranges, and with a single one beside a range.
#[test]
fn every_code_with_every_kind_of_input() {
    for code in 2..=19 {
        let of = |inputs: [Ends; 3]| match code {
            2 | 11 => [inputs[0]; 2],
            _ => [inputs[0], inputs[1]],
        };
        let kind = |kind: &str| format!("code {code}, {kind}");
        wires(20, &kind("single"), |one, inputs, _| {
            one == code && of(inputs).into_iter().all(single)
        });
        wires(12, &kind("ranges"), |one, inputs, _| {
            one == code && !of(inputs).into_iter().any(single)
        });
        if !matches!(code, 2 | 11) {
            wires(15, &kind("both"), |one, inputs, _| {
                one == code && single(inputs[0]) != single(inputs[1])
            });
        }
    }
    wires(100, "in", |code, _, result| code == 20 && result == FULL);
}

/// Sums of ranges at the ends of a word and past them.
#[test]
fn sums_of_every_kind() {
    let ends = |code: u32, [a, b, _]: [Ends; 3]| match code {
        3 => Some((a.0 + b.0, a.1 + b.1)),
        4 => Some((a.0 - b.1, a.1 - b.0)),
        _ => None,
    };
    let sums = |least, kind: &str, holds: &dyn Fn(Ends) -> bool| {
        for code in [3, 4] {
            wires(least, &format!("code {code}, {kind}"), |one, inputs, _| {
                one == code && ends(code, inputs).is_some_and(|ends| !single(ends) && holds(ends))
            });
        }
    };
    sums(60, "inside", &|(low, high)| LEAST < low && high < MOST);
    sums(10, "highest at the end", &|(low, high)| LEAST <= low && high == MOST);
    sums(10, "lowest at the end", &|(low, high)| LEAST == low && high <= MOST);
    sums(10, "highest past the end by one", &|(low, high)| LEAST <= low && high == MOST + 1);
    sums(10, "lowest past the end by one", &|(low, high)| LEAST - 1 == low && high <= MOST);
    sums(5, "both past the highest", &|(low, _)| low > MOST);
    sums(5, "both past the lowest", &|(_, high)| high < LEAST);
    for code in [3, 4] {
        wires(20, &format!("code {code}, single and past an end"), |one, inputs, result| {
            let ends = ends(code, inputs).filter(|&ends| one == code && single(ends));
            ends.is_some_and(|ends| ends != result)
        });
        wires(15, &format!("code {code}, single with an arrival that is not"), |one, inputs, _| {
            one == code && single(inputs[0]) && single(inputs[1]) && !single(inputs[2])
        });
    }
}

/// Conditions about zero, and sign extensions about 16 bits.
#[test]
fn conditions_and_extensions_of_every_kind() {
    let kinds: [Kind; 8] = [
        ("zero", |a| a == (0, 0)),
        ("single and not zero", |a| single(a) && a.0 != 0),
        ("above zero", |a| !single(a) && a.0 > 0),
        ("below zero", |a| !single(a) && a.1 < 0),
        ("up to zero", |a| a.0 < 0 && a.1 == 0),
        ("from zero", |a| a.0 == 0 && a.1 > 0),
        ("about zero", |a| a.0 < 0 && a.1 > 0 && a != FULL),
        ("full", |a| a == FULL),
    ];
    for (kind, holds) in kinds {
        wires(12, &format!("condition {kind}"), |code, [a, b, c], _| {
            code == 19 && b != c && holds(a)
        });
    }
    let kinds: [Kind; 6] = [
        ("inside", |(low, high)| low < high && low > -32_768 && high < 32_767),
        ("at an end", |(low, high)| low < high && (low == -32_768) != (high == 32_767)),
        ("past the highest by one", |(low, high)| low < high && high == 32_768),
        ("past the lowest by one", |(low, high)| low < high && low == -32_769),
        ("of unsigned halves", |(low, high)| low < high && low >= 0 && high <= 65_535),
        ("single and outside", |(low, high)| low == high && !(-32_768..32_768).contains(&low)),
    ];
    for (kind, holds) in kinds {
        wires(8, &format!("extension {kind}"), |code, [a, ..], _| code == 11 && holds(a));
    }
}

/// Ranges that are compared: apart, touching, overlapping, the same.
#[test]
fn comparisons_of_every_kind() {
    let kinds: [PairKind; 8] = [
        ("below", |a, b| a.1 < b.0),
        ("above", |a, b| a.0 > b.1),
        ("touching from below", |a, b| a.1 == b.0),
        ("touching from above", |a, b| a.0 == b.1),
        ("beside", |a, b| a.1 + 1 == b.0 || b.1 + 1 == a.0),
        ("overlapping by more", |a, b| a.0 < b.1 && b.0 < a.1 && a != b),
        ("the same", |a, b| a == b),
        ("of two signs", |a, b| (a.1 < 0 && b.0 >= 0) || (b.1 < 0 && a.0 >= 0)),
    ];
    for code in 12..=17 {
        for (kind, holds) in kinds {
            wires(8, &format!("code {code}, {kind}"), |one, [a, b, _], _| {
                one == code && !(single(a) && single(b)) && holds(a, b)
            });
        }
    }
}

/// Which registers have their ends the wrong way round, in calls that nothing else refuses.
#[test]
fn reversed_registers() {
    let reversed = |one: &Stored| -> Vec<usize> {
        let ends = one.case.bounds.lowest.iter().zip(&one.case.bounds.highest).take(16);
        let turned = ends.enumerate().filter(|(_, (&low, &high))| signed(low) > signed(high));
        turned.map(|(register, _)| register).collect()
    };
    let refused = |one: &Stored, holds: &dyn Fn(&[usize], usize) -> bool| {
        one.answered.number == 13 && holds(&reversed(one), one.machine[1] as usize)
    };
    at_least(40, "the first alone", |one| refused(one, &|all, r| r > 1 && all == [0]));
    at_least(30, "the last below R alone", |one| refused(one, &|all, r| r > 1 && all == [r - 1]));
    at_least(40, "one between", |one| refused(one, &|all, r| all[0] > 0 && all[0] + 1 < r));
    at_least(40, "some from R up alone, no refusal", |one| {
        one.answered.number == 0 && !reversed(one).is_empty()
    });
    at_least(20, "register R alone, no refusal", |one| {
        one.answered.number == 0 && reversed(one) == [one.machine[1] as usize]
    });
    at_least(20, "by signs alone", |one| {
        refused(one, &|all, _| one.case.bounds.lowest[all[0]] < one.case.bounds.highest[all[0]])
    });
    at_least(300, "a word above as unsigned alone, no refusal", |one| {
        let used = one.machine.get(1).map_or(0, |&count| count.min(16) as usize);
        let ends = one.case.bounds.lowest.iter().zip(&one.case.bounds.highest).take(used);
        one.answered.number == 0 && ends.into_iter().any(|(low, high)| low > high)
    });
}

/// Lengths of the two buffers, and states asked about.
#[test]
fn lengths_and_states() {
    for length in [0, 1, 15] {
        at_least(10, &format!("lowest of {length}"), |one| one.case.bounds.lowest.len() == length);
        at_least(10, &format!("highest of {length}"), |one| {
            one.case.bounds.highest.len() == length
        });
    }
    for length in [17, 20] {
        at_least(100, &format!("{length}, not refused"), |one| {
            one.answered.number == 0 && one.case.bounds.lowest.len() == length
        });
    }
    let states = |one: &Stored, holds: &dyn Fn(u32, u32) -> bool| {
        !one.refused
            && one.machine.len() >= MACHINE_WORDS
            && holds(one.case.asked.state, one.machine[0])
    };
    at_least(100, "the last of several", |one| states(one, &|state, n| n > 1 && state == n - 1));
    at_least(100, "N", |one| states(one, &|state, n| state == n));
}
