//! Captures, R-12 of paper 02, by the safe types.

use gutkavu::captures::{compare, CaptureRefusal, Comparison, Line, Recording};
use gutkavu::operations::{compare_captures, CaptureFields};
use gutkavu::{Graph, Outcome, Refusal};
use std::error::Error;
use Recording::{First, Second};

const TURN: &str = include_str!("../../../examples/turn.txt");
const MODEL: &str = include_str!("../../../examples/turn-model.capture");
const ARRAY: &str = include_str!("../../../examples/turn-array.capture");

fn found(shared: u64, first_difference: Option<u32>) -> Result<Comparison, CaptureRefusal> {
    Ok(Comparison { shared, first_difference })
}

/// The answer, which does not depend on the order of the recordings.
fn compared(registers: u32, first: &str, second: &str) -> Result<Comparison, CaptureRefusal> {
    let answer = compare(registers, first.as_bytes(), second.as_bytes());
    assert_eq!(compare(registers, second.as_bytes(), first.as_bytes()), answer);
    answer
}

/// Number, recording and line of a refusal; in C's fields all others are 0.
fn refusal(registers: u32, first: &str, second: &str) -> (u32, Option<Recording>, u64) {
    let (first, second) = (first.as_bytes(), second.as_bytes());
    let refused = compare(registers, first, second).expect_err("a faulty recording");
    let (number, line) = (refused.number(), refused.line());
    let recording = refused.recording().map_or(0, Recording::number);
    let fields = CaptureFields { number, recording, line, shared: 0, differs: 0, cycle: 0 };
    assert_eq!(compare_captures(registers, first, second), fields);
    (number, refused.recording(), line)
}

/// A line of one register is refused with 17, in either recording and after a good line too.
fn has_no_form(line: &str) {
    let good = "0,0,0\n1,0,0\n";
    assert_eq!(refusal(1, line, good), (17, Some(First), 1), "{line:?}");
    assert_eq!(refusal(1, good, line), (17, Some(Second), 1), "{line:?}");
    let behind = format!("{good}{line}");
    assert_eq!(refusal(1, &behind, good), (17, Some(First), 3), "{line:?}");
    assert_eq!(refusal(1, good, &behind), (17, Some(Second), 3), "{line:?}");
}

#[test]
fn cycles_in_both_are_counted_and_the_first_difference_is_found() {
    let text = "1,0,5\n3,0,6\n4,1,7\n";
    assert_eq!(compared(1, text, text), found(3, None));
    assert_eq!(compared(1, text, "1,0,5\n2,9,9\n4,1,7\n"), found(2, None));
    assert_eq!(compared(1, text, "0,9,9\n2,9,9\n5,9,9\n"), found(0, None));
    assert_eq!(compared(1, text, "1,0,5\n3,0,7\n4,1,8\n"), found(3, Some(3)));
    assert_eq!(compared(1, text, "3,1,6\n4,1,7\n"), found(2, Some(3)));
    assert_eq!(compared(1, text, "1,0,51\n"), found(1, Some(1)));
    assert_eq!(compared(2, "0,1,2,3\n", "0,1,2,4\n"), found(1, Some(0)));
    assert_eq!(compared(2, "0,1,2,3\n", "0,1,3,3\n"), found(1, Some(0)));
}

#[test]
fn an_empty_recording_shares_nothing() {
    assert_eq!(compared(1, "", ""), found(0, None));
    assert_eq!(compared(1, "", "0,0,0\n"), found(0, None));
    assert_eq!(refusal(1, "", "0,0,0"), (17, Some(Second), 1));
}

#[test]
fn words_have_32_bits_and_no_leading_zeros() {
    let most = "4294967295,4294967295,4294967295\n";
    assert_eq!(compared(1, most, most), found(1, None));
    assert_eq!(compared(1, most, "4294967295,4294967295,0\n"), found(1, Some(u32::MAX)));
    assert_eq!(compared(1, "0,0,0\n", most), found(0, None));
    for word in ["4294967296", "10000000000", "18446744073709551616", "00", "01", "", "-1", "+1"] {
        has_no_form(&format!("{word},0,0\n"));
        has_no_form(&format!("9,{word},0\n"));
        has_no_form(&format!("9,0,{word}\n"));
    }
}

#[test]
fn a_line_has_its_words_and_a_line_feed() {
    for line in ["\n", "9,0,0", "9,0,", "9,0", "9", ",", "9,0\n", "9,0,0,0\n", "9,0,0,\n"] {
        has_no_form(line);
    }
    for line in ["9,0,0\r\n", " 9,0,0\n", "9, 0,0\n", "9;0;0\n", "9,0,0\n\n", "9,0,x\n", "9,0,0\0"]
    {
        let number = 1 + u64::from(line.ends_with("\n\n"));
        assert_eq!(refusal(1, line, ""), (17, Some(First), number), "{line:?}");
    }
    assert_eq!(refusal(2, "9,0,0\n", ""), (17, Some(First), 1));
}

#[test]
fn registers_are_1_to_16() {
    for registers in [1, 16] {
        let words: Vec<u32> = (0..registers).map(|word| u32::MAX - word).collect();
        let line = Line { cycle: 7, state: 9, registers: &words }.to_string();
        assert_eq!(compared(registers, &line, &line), found(1, None));
        assert_eq!(refusal(registers, &line.replace('\n', ",1\n"), ""), (17, Some(First), 1));
    }
    for registers in [0, 17, u32::MAX] {
        for text in ["", "0,0\n", "x"] {
            assert_eq!(refusal(registers, text, text), (17, None, 0));
        }
    }
}

#[test]
fn cycles_rise() {
    let good = "0,0,0\n";
    for cycle in [0, 6, 7] {
        let text = format!("2,0,0\n7,0,0\n{cycle},0,0\n");
        assert_eq!(refusal(1, &text, good), (18, Some(First), 3));
        assert_eq!(refusal(1, good, &text), (18, Some(Second), 3));
    }
    let last = "4294967295,0,0\n";
    assert_eq!(refusal(1, &last.repeat(2), last), (18, Some(First), 2));
    assert_eq!(refusal(1, &good.repeat(2), good), (18, Some(First), 2));
}

#[test]
fn form_comes_before_order_within_a_line() {
    assert_eq!(refusal(1, "5,0,0\n5,0,00\n", ""), (17, Some(First), 2));
    assert_eq!(refusal(1, "5,0,0\n4,0\n", ""), (17, Some(First), 2));
}

#[test]
fn the_first_fault_of_the_first_recording_comes_first() {
    let (late, early) = ("0,0,0\n1,0,0\n1,0,0\nx\n", "x\n0,0,0\n");
    assert_eq!(refusal(1, late, early), (18, Some(First), 3));
    assert_eq!(refusal(1, early, late), (17, Some(First), 1));
    assert_eq!(refusal(1, "0,0,0\n", late), (18, Some(Second), 3));
    // The other recording ends, or differs, before the fault.
    assert_eq!(refusal(1, late, ""), (18, Some(First), 3));
    assert_eq!(refusal(1, "9,0,0\n", late), (18, Some(Second), 3));
    assert_eq!(refusal(1, late, "0,1,0\n"), (18, Some(First), 3));
}

/// No text of a graph is as long.
#[test]
fn recordings_may_be_long() {
    let line = |cycle| Line { cycle, state: 1, registers: &[cycle % 7] }.to_string();
    let text: String = (0..100_000).map(line).collect();
    assert_eq!(compared(1, &text, &text), found(100_000, None));
    let odd: String = (1..100_000).step_by(2).map(line).collect();
    assert_eq!(compared(1, &text, &odd), found(50_000, None));
    let last = odd.replace("99999,1,", "99999,2,");
    assert_eq!(compared(1, &text, &last), found(50_000, Some(99_999)));
    assert_eq!(refusal(1, &text, &(odd + "0,0,0\n")), (18, Some(Second), 50_001));
}

#[test]
fn refusals_print_their_place_and_meaning() {
    let print = |registers, first, second| {
        compare(registers, first, second).expect_err("a faulty recording").to_string()
    };
    let form = "a recording's line not of its form, or R not 1 to 16";
    assert_eq!(print(0, b"", b""), format!("refused 17: {form}"));
    let text = b"0,0,0\n0,0,0\n";
    assert_eq!(print(2, text, b""), format!("refused 17 at line 1 of the first recording: {form}"));
    let order = "a recording's cycle not above that of the line before";
    assert_eq!(
        print(1, b"", text),
        format!("refused 18 at line 2 of the second recording: {order}")
    );
    let refused = compare(1, b"", text).expect_err("a faulty recording");
    assert_eq!(Refusal::from(refused), refused.refusal());
    assert_eq!(refused.refusal(), Refusal::CycleNotAbove);
}

/// The state and the registers that each cycle of the machine begins with, until the words end.
fn model(words: &[u32]) -> Result<String, Box<dyn Error>> {
    let machine = TURN.parse::<Graph>()?.synthesise();
    let (mut registers, mut state, mut recording) = ([0; 16], 0, String::new());
    (registers[3], registers[4]) = (-300i32 as u32, 300);
    for cycle in 0.. {
        let line = Line { cycle, state, registers: &registers[..8] };
        recording += &line.to_string();
        let words = &words[cycle as usize..];
        let run = machine.run_with_words(&mut registers, state, 1, words)?;
        match run.next {
            Some(next) if run.outcome == Outcome::Spent => state = next,
            _ => break,
        }
    }
    Ok(recording)
}

#[test]
fn the_stored_recordings_are_those_of_the_rate_of_turn() -> Result<(), Box<dyn Error>> {
    let words = [10, 65_346, 410, 10, 65_146, 160];
    assert_eq!(model(&words)?, MODEL);
    assert_eq!(compared(8, ARRAY, MODEL), found(5, Some(4)));
    // With one more word, and but for the register that differs, the array does what the model does.
    let longer = model(&[&words[..], &[65_496]].concat())?;
    assert_eq!(compared(8, &ARRAY.replacen(",401,", ",400,", 1), &longer), found(6, None));
    Ok(())
}
