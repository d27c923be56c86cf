//! What the recordings of the stored cases hold: every kind in quantity.

mod common;

use common::recordings::{lines, Row};
use reference::case::{Captures, Case, MAX_RECORDING};
use reference::operations::{compare_captures, CaptureAnswer};
use std::sync::OnceLock;

/// A pair, its answer, and the rows of both where it is not refused.
struct Pair {
    captures: Captures,
    answer: CaptureAnswer,
    rows: Option<[Vec<Row>; 2]>,
}

/// The rows of a text that is known to have no fault.
fn rows(text: &[u8]) -> Vec<Row> {
    let text = std::str::from_utf8(text).expect("no fault");
    let word = |field: &str| field.parse().expect("no fault");
    text.lines().map(|line| line.split(',').map(word).collect()).collect()
}

impl Pair {
    fn of(case: Case) -> Pair {
        let captures = case.captures;
        let answer = compare_captures(captures.registers, &captures.first, &captures.second);
        let right = answer.number == 0;
        let rows = right.then(|| [rows(&captures.first), rows(&captures.second)]);
        Pair { captures, answer, rows }
    }

    /// The answer to one of the recordings by itself.
    fn alone(&self, recording: u32) -> CaptureAnswer {
        let Captures { registers, first, second } = &self.captures;
        compare_captures(*registers, if recording == 1 { first } else { second }, b"")
    }

    /// The rows of both recordings for the cycles that both hold.
    fn shared(&self) -> Vec<(&Row, &Row)> {
        let Some([first, second]) = &self.rows else {
            return Vec::new();
        };
        let same = |one: &Row| second.iter().find(|other| one[0] == other[0]);
        first.iter().filter_map(|one| Some((one, same(one)?))).collect()
    }
}

fn stored() -> &'static [Pair] {
    static STORED: OnceLock<Vec<Pair>> = OnceLock::new();
    STORED.get_or_init(|| common::stored_cases().into_iter().map(Pair::of).collect())
}

/// At least so many of the stored pairs are of a kind.
fn at_least(least: usize, kind: &str, holds: impl Fn(&Pair) -> bool) {
    common::at_least(stored(), least, kind, holds);
}

#[test]
fn recordings_are_short() {
    let lengths = stored().iter().flat_map(|pair| [&pair.captures.first, &pair.captures.second]);
    let lengths: Vec<usize> = lengths.map(Vec::len).collect();
    assert!(lengths.iter().all(|&length| length <= MAX_RECORDING));
    assert!(lengths.iter().filter(|&&length| length > 400).count() < 200);
    assert!(lengths.iter().filter(|&&length| length > 3_000).count() > 20);
}

#[test]
fn what_is_shared() {
    let empty = |pair: &Pair| (pair.captures.first.is_empty(), pair.captures.second.is_empty());
    let right = |pair: &Pair| pair.answer.number == 0;
    at_least(20, "both empty", |pair| right(pair) && empty(pair) == (true, true));
    at_least(20, "first empty", |pair| right(pair) && empty(pair) == (true, false));
    at_least(20, "second empty", |pair| right(pair) && empty(pair) == (false, true));
    let full = |pair: &Pair| right(pair) && empty(pair) == (false, false);
    at_least(50, "disjoint", |pair| full(pair) && pair.answer.shared == 0);
    at_least(30, "disjoint and interleaved", |pair| {
        let Some([first, second]) = pair.rows.as_ref().filter(|_| full(pair)) else {
            return false;
        };
        let ends = |rows: &[Row]| (rows[0][0], rows[rows.len() - 1][0]);
        let (one, other) = (ends(first), ends(second));
        pair.answer.shared == 0 && one.0 < other.1 && other.0 < one.1
    });
    at_least(100, "equal", |pair| full(pair) && pair.captures.first == pair.captures.second);
    at_least(500, "none differs", |pair| pair.answer.shared > 0 && !pair.answer.differs);
    at_least(500, "one differs", |pair| pair.answer.differs);
    at_least(50, "many shared", |pair| pair.answer.shared > 20);
    let lacks = |pair: &Pair, side: usize| {
        let [one, other] = [side, 1 - side].map(|side| &pair.rows.as_ref().expect("right")[side]);
        other.iter().any(|row| !one.iter().any(|held| held[0] == row[0]))
    };
    at_least(200, "first lacks", |pair| pair.answer.shared > 0 && lacks(pair, 0));
    at_least(200, "second lacks", |pair| pair.answer.shared > 0 && lacks(pair, 1));
    at_least(100, "both lack", |pair| pair.answer.shared > 0 && lacks(pair, 0) && lacks(pair, 1));
}

#[test]
fn where_they_differ() {
    let differing = |pair: &Pair| -> Vec<bool> {
        pair.shared().iter().map(|(one, other)| one != other).collect()
    };
    let times = |pair: &Pair| differing(pair).iter().filter(|&&differs| differs).count();
    at_least(50, "the last shared alone", |pair| {
        let differing = differing(pair);
        differing.len() > 2 && times(pair) == 1 && differing.last() == Some(&true)
    });
    at_least(100, "several", |pair| times(pair) > 1);
    let columns = |pair: &Pair| -> Vec<usize> {
        let unlike = |(one, other): &(&Row, &Row)| {
            (1..one.len()).filter(|&at| one[at] != other[at]).collect::<Vec<usize>>()
        };
        pair.shared().iter().flat_map(unlike).collect()
    };
    let registers = |pair: &Pair| pair.captures.registers as usize;
    at_least(50, "state alone", |pair| columns(pair) == [1]);
    at_least(50, "first register", |pair| registers(pair) > 2 && columns(pair) == [2]);
    at_least(50, "last register", |pair| {
        registers(pair) > 2 && columns(pair) == [registers(pair) + 1]
    });
    at_least(50, "a middle register", |pair| {
        let columns = columns(pair);
        columns.len() == 1 && columns[0] > 2 && columns[0] < registers(pair) + 1
    });
    at_least(5, "at cycle 0", |pair| pair.answer.differs && pair.answer.cycle == 0);
    at_least(5, "at the greatest cycle", |pair| pair.answer.cycle == u32::MAX);
}

#[test]
fn registers_at_their_limits() {
    for registers in [0, 17, u32::MAX] {
        at_least(5, "R past its limits", |pair| pair.captures.registers == registers);
    }
    for registers in 1..=16 {
        at_least(5, "R", |pair| pair.captures.registers == registers && pair.answer.number == 0);
    }
    at_least(20, "R before faulty lines", |pair| {
        let Captures { first, second, .. } = &pair.captures;
        let refused = |r| compare_captures(r, first, second).number != 0;
        pair.answer.recording == 0 && pair.answer.number == 17 && (1..=16).all(refused)
    });
}

#[test]
fn which_faults() {
    for (number, recording) in [(17, 1), (17, 2), (18, 1), (18, 2)] {
        at_least(100, "fault", |pair| {
            (pair.answer.number, pair.answer.recording) == (number, recording)
        });
        at_least(10, "fault at a late line", |pair| {
            let CaptureAnswer { number: found, recording: place, line, .. } = pair.answer;
            (found, place) == (number, recording) && line > 5
        });
    }
    let both = |pair: &Pair| (pair.alone(1), pair.alone(2));
    let within = |pair: &Pair| pair.answer.recording != 0;
    at_least(100, "faults in both", |pair| {
        let (first, second) = both(pair);
        within(pair) && first.number != 0 && second.number != 0
    });
    at_least(20, "the second's at an earlier line", |pair| {
        let (first, second) = both(pair);
        within(pair) && second.number != 0 && second.line < first.line
    });
    at_least(5, "18 in the first, 17 earlier in the second", |pair| {
        let (first, second) = both(pair);
        (first.number, second.number) == (18, 17) && second.line < first.line
    });
    at_least(20, "behind the first recording's end", |pair| {
        pair.answer.recording == 2 && pair.answer.line > lines(&pair.captures.first).len() as u64
    });
}

/// The line that decides a refusal.
fn faulty_line(pair: &Pair) -> Option<&[u8]> {
    let Captures { first, second, .. } = &pair.captures;
    let text = [first, second][pair.answer.recording.checked_sub(1)? as usize];
    Some(lines(text)[pair.answer.line as usize - 1])
}

#[test]
fn what_is_wrong_with_a_line() {
    let kind = |least: usize, name: &str, holds: &dyn Fn(&str) -> bool| {
        at_least(least, name, |pair| {
            faulty_line(pair).is_some_and(|line| holds(&String::from_utf8_lossy(line)))
        });
    };
    let field = |line: &str, holds: &dyn Fn(&str) -> bool| line.trim_end().split(',').any(holds);
    kind(20, "empty line", &|line| line == "\n");
    kind(20, "no line feed", &|line| !line.ends_with('\n'));
    kind(20, "leading zero", &|line| {
        field(line, &|field| field.len() > 1 && field.starts_with('0'))
    });
    kind(20, "too large", &|line| {
        field(line, &|field| field.parse::<u128>().is_ok_and(|word| word > u32::MAX.into()))
    });
    kind(10, "empty field", &|line| line.len() > 1 && field(line, &str::is_empty));
    kind(5, "trailing comma", &|line| line.ends_with(",\n"));
    for byte in [' ', '-', '+', '\r', '\0', 'x'] {
        kind(5, "odd byte", &|line| line.contains(byte));
    }
    at_least(5, "byte 255", |pair| faulty_line(pair).is_some_and(|line| line.contains(&255)));
    for by in [-1, 1] {
        at_least(20, "registers less or more by one", |pair| {
            let fields = faulty_line(pair).map_or(0, |line| line.split(|&b| b == b',').count());
            fields as i64 == i64::from(pair.captures.registers) + 2 + by
        });
    }
}

/// The greatest cycle is accepted; behind it every line falls.
#[test]
fn greatest_cycles() {
    let top = |row: &Row| row[0] == u32::MAX;
    at_least(20, "greatest cycle", |pair| {
        pair.rows.as_ref().is_some_and(|rows| rows.iter().flatten().any(top))
    });
    at_least(20, "a line behind it", |pair| {
        let Captures { first, second, .. } = &pair.captures;
        let before = pair.answer.line.checked_sub(2).filter(|_| pair.answer.number == 18);
        before.is_some_and(|before| {
            let lines = lines(if pair.answer.recording == 1 { first } else { second });
            lines[before as usize].starts_with(b"4294967295,")
        })
    });
}
