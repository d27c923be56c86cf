//! Questions about registers in the stored cases: every kind of touch word, of state and of register
//! in quantity, and wrong readings of R-4, each told apart.

mod common;

use common::touch::{
    answers, makes_another, reference, right_otherwise, touch_at, touch_word, Reading, Tried, WRONG,
};
use reference::answer::{answer, buffers_of, Answer};
use reference::case::Case;
use reference::machine_table::MACHINE_WORDS;
use reference::operations::synthesise;
use std::sync::OnceLock;

struct Stored {
    case: Case,
    machine: Vec<u32>,
    /// What synthesis makes of the graph buffer, before the machine's patches.
    made: Option<Vec<u32>>,
    answer: Answer,
    right_otherwise: bool,
}

impl Stored {
    fn of(case: Case) -> Stored {
        let (graph, machine) = buffers_of(&case);
        let mut table = vec![0; case.machine_length as usize];
        let made = (synthesise(&graph, &mut table) == 0).then_some(table);
        let (answer, right_otherwise) = (answer(&case), right_otherwise(&machine));
        Stored { case, machine, made, answer, right_otherwise }
    }

    fn answered(&self) -> [(u32, u32); 2] {
        let Answer { touches, first_touching, .. } = &self.answer;
        [(touches.number, touches.touched.into()), (first_touching.number, first_touching.state)]
    }

    fn admitted(&self) -> bool {
        self.answer.first_touching.number == 0
    }

    fn states(&self) -> usize {
        self.machine[0] as usize
    }

    /// Bits by which the touch word of a state is wrong.
    fn wrong(&self, state: usize) -> u32 {
        self.machine[touch_at(state)] ^ touch_word(Reading::Right, &self.machine, state)
    }

    /// The states whose touch words are wrong, where nothing else is.
    fn wrong_alone(&self) -> Vec<usize> {
        match self.right_otherwise {
            true => (0..self.states()).filter(|&state| self.wrong(state) != 0).collect(),
            false => Vec::new(),
        }
    }

    fn tried(&self) -> Tried<'_> {
        Tried { table: &self.machine, right_otherwise: self.right_otherwise }
    }

    /// The states that touch the register asked about.
    fn touching(&self) -> Vec<usize> {
        let register = self.case.asked.register;
        let touches = |state: &usize| {
            let below = register < self.machine[1];
            below && reference(&self.machine, *state, register as usize) != register
        };
        (0..self.states()).filter(touches).collect()
    }
}

fn stored() -> &'static [Stored] {
    static STORED: OnceLock<Vec<Stored>> = OnceLock::new();
    STORED.get_or_init(|| common::stored_cases().into_iter().map(Stored::of).collect())
}

/// In so many stored cases, at least, something of a kind is found.
fn at_least(least: usize, kind: &str, holds: impl Fn(&Stored) -> bool) {
    common::at_least(stored(), least, kind, holds);
}

/// The right reading, by the words of the tables, is what is answered and made.
#[test]
fn answers_are_those_of_the_words() {
    for one in stored() {
        let right = answers(Reading::Right, &one.tried(), one.case.asked);
        assert_eq!(right, one.answered(), "{:?}", one.case.asked);
        if let Some(made) = &one.made {
            assert!(!makes_another(Reading::Right, made));
        }
    }
}

/// Each wrong reading answers, or synthesises, some stored cases wrongly.
#[test]
fn wrong_readings_are_told_apart() {
    let (mut told, mut by) = ([0; WRONG.len()], [[0; 3]; WRONG.len()]);
    for one in stored() {
        let (tried, right) = (one.tried(), one.answered());
        for (index, &reading) in WRONG.iter().enumerate() {
            let found = answers(reading, &tried, one.case.asked);
            let made = one.made.as_ref().is_some_and(|made| makes_another(reading, made));
            let wrong = [made, found[0] != right[0], found[1] != right[1]];
            (0..3).for_each(|part| by[index][part] += usize::from(wrong[part]));
            told[index] += usize::from(wrong.contains(&true));
        }
    }
    for (index, reading) in WRONG.iter().enumerate() {
        let (told, by) = (told[index], by[index]);
        println!("{reading:?}: {told}, by synthesis, touches, first touching {by:?}");
        assert!(told > 9, "{reading:?}: {told}");
    }
}

/// Readings of the questions alone, where synthesis and refusal 10 are as they should be.
#[test]
fn wrong_readings_of_one_question_show_in_it() {
    use Reading::*;
    let of_touches = [
        WiresAlone, RegisterModulo32, RegisterModulo16, RegisterBelow16, RegisterRefused,
        NineBeforeTen, NoTen, NoNine, StateBelow64, StateUpToN,
    ];
    let of_search = [
        WiresAlone, RegisterModulo32, RegisterModulo16, RegisterBelow16, NoTen, LastState,
        FromTheSecond, NotTheLast, AllRecords, NoneIsN, NoneIs0, NoneIs64, NoneIsRefused,
    ];
    let of_touches = of_touches.into_iter().map(|reading| (reading, 0));
    let all: Vec<(Reading, usize)> =
        of_touches.chain(of_search.into_iter().map(|reading| (reading, 1))).collect();
    let mut told = vec![0; all.len()];
    for one in stored() {
        let (tried, right) = (one.tried(), one.answered());
        for (index, &(reading, question)) in all.iter().enumerate() {
            let found = answers(reading, &tried, one.case.asked);
            told[index] += usize::from(found[question] != right[question]);
        }
    }
    assert!(told.iter().all(|&told| told > 9), "{all:?}: {told:?}");
}

/// A wrong touch word refuses the runs as well as the questions, and they come to nothing.
#[test]
fn wrong_touch_words_refuse_runs() {
    let wrong = |one: &Stored| one.case.registers.len() >= 16 && !one.wrong_alone().is_empty();
    at_least(150, "runs refused for a touch word alone", |one| {
        let (alone, words) = (&one.answer.run_machine, &one.answer.run_machine_with_words);
        let refused = alone.answer.run.number == 10 && words.answer.run.number == 10;
        assert!(!wrong(one) || refused);
        wrong(one)
    });
}

/// One bit that is wrong, and nothing else: which bits, of which states.
#[test]
fn single_wrong_bits() {
    let single = |one: &Stored, holds: &dyn Fn(usize, u32, u32) -> bool| {
        let states = one.wrong_alone();
        let [state] = states[..] else {
            return false;
        };
        let wrong = one.wrong(state);
        wrong.is_power_of_two() && holds(state, wrong.trailing_zeros(), one.machine[1])
    };
    at_least(60, "below R", |one| single(one, &|_, bit, r| bit < r));
    at_least(10, "bit R - 1", |one| single(one, &|_, bit, r| bit + 1 == r));
    at_least(10, "bit R", |one| single(one, &|_, bit, r| bit == r));
    at_least(20, "from R to 15", |one| single(one, &|_, bit, r| bit >= r && bit < 16));
    at_least(20, "from 16 up", |one| single(one, &|_, bit, _| bit >= 16));
    at_least(10, "bit 31", |one| single(one, &|_, bit, _| bit == 31));
    at_least(20, "of the first state of several", |one| {
        single(one, &|state, _, _| state == 0 && one.states() > 1)
    });
    at_least(10, "of a middle state", |one| {
        let last = |state| state + 1 == one.states();
        single(one, &|state, _, _| state > 0 && !last(state))
    });
    at_least(10, "of the last state of several", |one| {
        single(one, &|state, _, _| state > 0 && state + 1 == one.states())
    });
    at_least(10, "a bit too many", |one| {
        single(one, &|state, bit, _| (one.machine[touch_at(state)] >> bit) & 1 == 1)
    });
    at_least(10, "a bit too few", |one| {
        single(one, &|state, bit, _| (one.machine[touch_at(state)] >> bit) & 1 == 0)
    });
}

/// Other wrong words, and words that are not looked at.
#[test]
fn other_touch_words() {
    let alone = |one: &Stored, holds: &dyn Fn(u32, usize) -> bool| {
        one.wrong_alone().iter().any(|&state| holds(one.machine[touch_at(state)], state))
    };
    at_least(20, "0", |one| alone(one, &|word, _| word == 0));
    at_least(5, "all ones", |one| alone(one, &|word, _| word == u32::MAX));
    at_least(10, "all registers", |one| alone(one, &|word, _| word == (1 << one.machine[1]) - 1));
    at_least(20, "that of another state", |one| {
        alone(one, &|word, state| {
            let mut others = (0..one.states()).filter(|&other| other != state);
            word != 0 && others.any(|other| touch_word(Reading::Right, &one.machine, other) == word)
        })
    });
    at_least(30, "as synthesis wrote it, with another reference", |one| {
        let made = one.made.as_ref();
        alone(one, &|word, state| made.is_some_and(|made| made[touch_at(state)] == word))
    });
    at_least(30, "of a state from N up", |one| {
        one.admitted() && (one.states()..64).any(|state| one.machine[touch_at(state)] != 0)
    });
    at_least(100, "not as synthesis wrote it, and right", |one| {
        let other = |made: &Vec<u32>| {
            let states = one.states().min(made[0] as usize);
            (0..states).any(|state| one.machine[touch_at(state)] != made[touch_at(state)])
        };
        one.admitted() && one.made.as_ref().is_some_and(other)
    });
}

/// Questions about references to other registers, which synthesis never makes.
#[test]
fn registers_that_become_others() {
    at_least(30, "the register becomes another one", |one| {
        let (state, register) = (one.case.asked.state as usize, one.case.asked.register as usize);
        one.answer.touches.touched && reference(&one.machine, state, register) < 16
    });
    at_least(20, "in the first state that touches it", |one| {
        let (state, register) = (one.answer.first_touching.state, one.case.asked.register as usize);
        let found = one.admitted() && state < 64;
        found && reference(&one.machine, state as usize, register) < 16
    });
}

/// Which registers are asked about, of tables that are admitted.
#[test]
fn registers_asked_about() {
    let asked = |one: &Stored, holds: &dyn Fn(u32, u32) -> bool| {
        one.answer.touches.number == 0 && holds(one.case.asked.register, one.machine[1])
    };
    at_least(100, "R - 1", |one| asked(one, &|register, r| register == r - 1));
    at_least(50, "R", |one| asked(one, &|register, r| register == r));
    for register in [15, 16, 31, 32, 1 << 31, u32::MAX] {
        at_least(15, &format!("{register}, not below R"), |one| {
            asked(one, &|asked, r| asked == register && asked >= r)
        });
    }
    at_least(10, "15 of 16", |one| asked(one, &|register, r| register == 15 && r == 16));
    at_least(20, "32 more than one that is touched", |one| {
        asked(one, &|register, _| {
            let own = register.wrapping_sub(32);
            let state = one.case.asked.state as usize;
            own < 16 && (one.machine[touch_at(state)] >> own) & 1 == 1
        })
    });
}

/// Which states are asked about.
#[test]
fn states_asked_about() {
    let asked = |one: &Stored, holds: &dyn Fn(u32, u32) -> bool| {
        one.admitted() && holds(one.case.asked.state, one.machine[0])
    };
    at_least(200, "0", |one| asked(one, &|state, _| state == 0));
    at_least(100, "N - 1, not 0", |one| asked(one, &|state, n| state > 0 && state == n - 1));
    at_least(50, "N", |one| asked(one, &|state, n| state == n));
    for state in [63, 64, 255, u32::MAX] {
        at_least(10, &format!("{state}"), |one| asked(one, &|asked, _| asked == state));
    }
    at_least(10, "63 or 64, not below N", |one| {
        asked(one, &|state, n| state >= n && matches!(state, 63 | 64))
    });
}

/// How many states touch the register asked about.
#[test]
fn states_that_touch() {
    let of = |one: &Stored, holds: &dyn Fn(&[usize], usize) -> bool| {
        let below = one.admitted() && one.case.asked.register < one.machine[1];
        below && one.states() > 1 && holds(&one.touching(), one.states())
    };
    at_least(30, "none", |one| of(one, &|touching, _| touching.is_empty()));
    at_least(60, "all", |one| of(one, &|touching, n| touching.len() == n));
    at_least(60, "the last alone", |one| of(one, &|touching, n| touching == [n - 1]));
    at_least(20, "the last alone of more than two", |one| {
        of(one, &|touching, n| n > 2 && touching == [n - 1])
    });
    at_least(20, "the first alone", |one| of(one, &|touching, _| touching == [0]));
    at_least(40, "several, not the first", |one| {
        of(one, &|touching, _| touching.len() > 1 && touching[0] > 0)
    });
    at_least(4, "the last alone of 64", |one| of(one, &|touching, _| touching == [63]));
}

/// Buffers that are short by one, of the lengths before arrivals and before touch words, and longer
/// than a table.
#[test]
fn lengths_of_machine_buffers() {
    for length in [13_761, 13_698, 13_634] {
        at_least(20, &format!("{length}"), |one| one.case.machine_length == length);
    }
    at_least(100, "longer", |one| one.case.machine_length as usize > MACHINE_WORDS);
}
