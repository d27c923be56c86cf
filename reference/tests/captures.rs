//! The comparison of captures (paper 02, R-12): examples, a definition by look-up over lines, and
//! wrong readings, which generated cases tell apart.

mod common;

use common::recordings::{defined, Reading, WRONG};
use reference::case::Captures;
use reference::generate::cases;
use reference::operations::{compare_captures, CaptureAnswer};
use reference::random::Random;

fn compare(registers: u32, first: &str, second: &str) -> CaptureAnswer {
    compare_captures(registers, first.as_bytes(), second.as_bytes())
}

fn shares(shared: u64) -> CaptureAnswer {
    CaptureAnswer { number: 0, recording: 0, line: 0, shared, differs: false, cycle: 0 }
}

fn differs(shared: u64, cycle: u32) -> CaptureAnswer {
    CaptureAnswer { number: 0, recording: 0, line: 0, shared, differs: true, cycle }
}

fn refused(number: u32, recording: u32, line: u64) -> CaptureAnswer {
    CaptureAnswer { number, recording, line, shared: 0, differs: false, cycle: 0 }
}

#[test]
fn an_empty_recording_shares_nothing() {
    assert_eq!(compare(1, "", ""), shares(0));
    assert_eq!(compare(16, "", ""), shares(0));
    assert_eq!(compare(1, "1,0,5\n", ""), shares(0));
    assert_eq!(compare(1, "", "1,0,5\n"), shares(0));
}

#[test]
fn either_may_lack_cycles() {
    let all = "1,0,5\n2,1,6\n3,1,7\n10,2,8\n";
    assert_eq!(compare(1, all, all), shares(4));
    assert_eq!(compare(1, all, "2,1,6\n10,2,8\n"), shares(2));
    assert_eq!(compare(1, "2,1,6\n10,2,8\n", all), shares(2));
    assert_eq!(compare(1, "1,0,5\n3,1,7\n", "2,1,6\n10,2,8\n"), shares(0));
    assert_eq!(compare(1, "1,0,5\n2,1,6\n10,2,8\n", "2,1,6\n3,1,7\n10,2,8\n11,2,9\n"), shares(2));
}

/// Differing cycles are shared too, and the first of them is answered.
#[test]
fn the_first_differing_cycle() {
    let model = "1,0,5,7\n2,1,5,7\n3,1,5,7\n";
    assert_eq!(compare(2, model, "1,0,5,7\n2,0,5,7\n3,1,5,7\n"), differs(3, 2));
    assert_eq!(compare(2, model, "1,0,4,7\n2,0,5,7\n3,1,5,8\n"), differs(3, 1));
    assert_eq!(compare(2, model, "3,1,5,70\n"), differs(1, 3));
    assert_eq!(compare(2, model, "1,0,5,7\n3,1,7,5\n"), differs(2, 3));
    // Digits that move across a comma, and what only one recording holds.
    assert_eq!(compare(2, "1,12,3,0\n", "1,1,23,0\n"), differs(1, 1));
    assert_eq!(compare(2, "1,0,0,0\n2,9,9,9\n", "1,0,0,0\n3,8,8,8\n"), shares(1));
    // Cycle 0 is a cycle: `differs` tells it from none.
    assert_eq!(compare(1, "0,0,0\n", "0,0,1\n"), differs(1, 0));
}

#[test]
fn words_have_32_bits() {
    let top = "4294967295,4294967295,4294967295\n";
    assert_eq!(compare(1, top, top), shares(1));
    assert_eq!(compare(1, top, "4294967295,0,4294967295\n"), differs(1, u32::MAX));
    assert_eq!(compare(1, &format!("{top}0,0,0\n"), ""), refused(18, 1, 2));
    for word in ["4294967296", "4294967297", "18446744073709551616", "99999999999999999999999"] {
        for line in [format!("{word},0,0\n"), format!("1,{word},0\n"), format!("1,0,{word}\n")] {
            assert_eq!(compare(1, &line, ""), refused(17, 1, 1), "{line}");
        }
    }
}

#[test]
fn lines_without_the_form() {
    let bad = [
        "", ",", "1", "1,0", "1,0,5", "1,0,5,7,", "1,0,5,7,9", ",1,0,5,7", "1,,5,7", "1,0,5,",
        "01,0,5,7", "1,00,5,7", "1,0,05,7", "1,0,5,07", "00,0,5,7", "+1,0,5,7", "1,-0,5,7",
        "1,-1,5,7", " 1,0,5,7", "1,0,5,7 ", "1, 0,5,7", "1,0,5,7\r", "1,0,x,7", "1,0,0x5,7",
        "1,0,5,7\0", "1;0;5;7", "1,0,5.0,7", "1,0,5,\u{667}", "cycle,state,a,b",
    ];
    for line in bad {
        let text = format!("0,0,5,7\n{line}\n2,0,5,7\n");
        assert_eq!(compare(2, &text, ""), refused(17, 1, 2), "{line}");
        assert_eq!(compare(2, "2,0,5,7\n", &text), refused(17, 2, 2), "{line}");
    }
    assert_eq!(compare_captures(1, b"1,0,\xff\n", b""), refused(17, 1, 1));
}

/// A line without its line feed is one, and so is an empty line.
#[test]
fn ends_of_recordings() {
    assert_eq!(compare(1, "1,0,5", ""), refused(17, 1, 1));
    assert_eq!(compare(1, "1,0,5\n2,0,5", ""), refused(17, 1, 2));
    assert_eq!(compare(1, "1,0,5\n\n", ""), refused(17, 1, 2));
    assert_eq!(compare(1, "\n", ""), refused(17, 1, 1));
    assert_eq!(compare(1, "", "\n"), refused(17, 2, 1));
    assert_eq!(compare(1, "", "\0"), refused(17, 2, 1));
}

#[test]
fn cycles_rise() {
    assert_eq!(compare(1, "1,0,5\n1,0,5\n", ""), refused(18, 1, 2));
    assert_eq!(compare(1, "10,0,5\n9,0,5\n", ""), refused(18, 1, 2));
    assert_eq!(compare(1, "9,0,5\n10,0,5\n", ""), shares(0));
    assert_eq!(compare(1, "", "1,0,5\n3,0,5\n2,0,5\nx\n"), refused(18, 2, 3));
}

/// The first recording's faults come first, then the first line; in a line 17 before 18.
#[test]
fn which_fault_decides() {
    assert_eq!(compare(1, "1,0,5\n2,0,5\n2,0,5\n", "x\n"), refused(18, 1, 3));
    assert_eq!(compare(1, "1,0,5\n2,0,5\nx\n", "1,0,5\n1,0,5\n"), refused(17, 1, 3));
    assert_eq!(compare(1, "1,0,5\n", "1,0,6\n2,0,5\n3,0,5\n3,0,5\n"), refused(18, 2, 4));
    assert_eq!(compare(1, "2,0,5\n2,0,05\n", ""), refused(17, 1, 2));
    assert_eq!(compare(1, "2,0,5\n2,0,5", ""), refused(17, 1, 2));
    assert_eq!(compare(1, "2,0,5\n1,0\n", ""), refused(17, 1, 2));
    assert_eq!(compare(1, "2,0,5\n1,0,5\nx\n", ""), refused(18, 1, 2));
    assert_eq!(compare(1, "2,0,5\nx\n1,0,5\n", ""), refused(17, 1, 2));
}

#[test]
fn registers_are_1_to_16() {
    for registers in [0, 17, 18, 257, 65_537, 2_147_483_649, u32::MAX] {
        for text in ["", "1,0\n", "1,0,\n", "1,0,5\n", "x"] {
            assert_eq!(compare(registers, text, "x"), refused(17, 0, 0), "{registers}");
        }
    }
    for registers in 1..=16 {
        let line = |count: usize| format!("3,1{}\n", ",7".repeat(count));
        let right = registers as usize;
        assert_eq!(compare(registers, &line(right), &line(right)), shares(1));
        assert_eq!(compare(registers, &line(right), &line(right + 1)), refused(17, 2, 1));
        assert_eq!(compare(registers, &line(right - 1), &line(right)), refused(17, 1, 1));
    }
}

/// Texts have any length.
#[test]
fn long_recordings() {
    let lines = |step: usize| -> String {
        (0..200_000).step_by(step).map(|cycle| format!("{cycle},{},5\n", cycle % 9)).collect()
    };
    let (all, some) = (lines(1), lines(3));
    assert_eq!(compare(1, &all, &some), shares(66_667));
    assert_eq!(compare(1, &all, &(some.clone() + "199999,0,6\n")), differs(66_668, 199_999));
    assert_eq!(compare(1, &all, &(some + "5,0,5\n")), refused(18, 2, 66_668));
}

fn check(captures: &Captures) {
    let Captures { registers, first, second } = captures;
    let answer = compare_captures(*registers, first, second);
    assert_eq!(answer, defined(Reading::Right, captures), "{captures:?}");
    let turned = compare_captures(*registers, second, first);
    // What is shared and where it differs does not depend on which recording is the first.
    assert_eq!(answer.number == 0, turned.number == 0, "{captures:?}");
    assert!(answer.number != 0 || answer == turned, "{captures:?}");
}

/// Every pair of recordings of at most two lines of small words.
#[test]
fn every_short_pair() {
    let digits = |n: u32| format!("{},{},{}\n", n / 4, n / 2 % 2, n % 2);
    let single: Vec<String> = (0..12).map(digits).collect();
    let mut texts = vec![String::new()];
    texts.extend(single.iter().cloned());
    texts.extend(single.iter().flat_map(|one| single.iter().map(move |two| one.clone() + two)));
    for first in &texts {
        for second in &texts {
            let (first, second) = (first.clone().into_bytes(), second.clone().into_bytes());
            check(&Captures { registers: 1, first, second });
        }
    }
}

#[test]
fn generated_pairs() {
    cases(41, 20_000).iter().for_each(|case| check(&case.captures));
}

/// Bytes that lines are made of, and few others, in any order.
#[test]
fn random_bytes() {
    let mut random = Random::new(42);
    let mut text = || -> Vec<u8> {
        let length = random.below(14);
        (0..length).map(|_| random.pick(b"0123,,,,\n\n\n \r")).collect()
    };
    for _ in 0..200_000 {
        check(&Captures { registers: 1, first: text(), second: text() });
    }
}

/// Each wrong reading answers some of the stored cases wrongly.
#[test]
fn wrong_readings_are_told_apart() {
    let stored = common::stored_cases();
    for reading in WRONG {
        let told = stored.iter().filter(|case| {
            let Captures { registers, first, second } = &case.captures;
            compare_captures(*registers, first, second) != defined(reading, &case.captures)
        });
        let told = told.count();
        println!("{reading:?}: {told}");
        assert!(told > 9, "{reading:?}: {told}");
    }
}
