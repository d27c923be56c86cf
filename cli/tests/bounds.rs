//! `bounds`: what one cycle of a state can do to registers known within bounds.

mod common;

use common::{generated, gutkavu, parted, with_input};
use reference::bounds::{next_ranges, Range};
use reference::parse::parse;
use reference::synthesis::synthesise;
use serde_json::{json, Value};

/// What is told of `examples/swing.txt`.
fn swing(arguments: &str) -> String {
    gutkavu(&parted(&format!("bounds examples/swing.txt {arguments}"))).answer()
}

#[test]
fn a_rate_within_bounds() {
    let wanted = "\
register  before     after
r0        -720..720  -720..720
r1        0          -720..720
r2        0          0..300
r3        0          0..2
r4        0          -720..720
r5        0          0..1
";
    assert_eq!(swing("--state 0 -r 0=-720..720 --others 0"), wanted);
    let wanted = "\
register  before  after
r0        1..720  1..720
r1        0       1..720
r2        0       0..300
r3        0       0..2
r4        0       0..720
r5        0       0..1
";
    assert_eq!(swing("-r 0=1..720 --others 0"), wanted);
}

/// One value of r0 decides every comparison, whatever the others hold.
#[test]
fn registers_of_which_nothing_is_known() {
    let wanted = "\
register  before  after
r0        7       7
r1        -5      7
r2        0..1    300
r3        any     2
r4        any     7
r5        any     0
";
    assert_eq!(swing("-r r1=-5,r0=7 -r 2=0..1"), wanted);
}

/// A register that is named is known as it is named, and only the others are among the others.
#[test]
fn others() {
    let answer = swing("-r 4=3 --others -9..-8");
    let before = answer.lines().skip(1).filter_map(|line| line.split_whitespace().nth(1));
    assert_eq!(before.collect::<Vec<_>>(), ["-9..-8", "-9..-8", "-9..-8", "-9..-8", "3", "-9..-8"]);
}

#[test]
fn a_rate_within_bounds_in_json() {
    let line = "bounds examples/swing.txt -r 0=-720..720 --others 0 --json";
    let answer = &gutkavu(&parted(line)).json()[0];
    assert_eq!((&answer["file"], &answer["state"]), (&json!("examples/swing.txt"), &json!(0)));
    let rate = json!({"lowest": -720, "highest": 720});
    let none = json!({"lowest": 0, "highest": 0});
    let two = json!({"lowest": 0, "highest": 300});
    let registers = &answer["registers"];
    assert_eq!(registers[0], json!({"register": 0, "before": rate, "after": rate}));
    assert_eq!(registers[2], json!({"register": 2, "before": none, "after": two}));
}

/// The bounds after each state are those of the second program.
#[test]
fn bounds_of_generated_graphs() {
    for text in generated(17, 30) {
        let graph = parse(text.as_bytes()).expect("a graph");
        let (_, machine) = synthesise(&graph);
        let mut known = vec![Range { lowest: -3, highest: 40 }; graph.registers];
        known[0] = Range { lowest: 5, highest: 9 };
        for (number, state) in machine.states.iter().enumerate().take(3) {
            let state_option = format!("--state={number}");
            let arguments = ["bounds", "-", &state_option, "-r", "0=5..9", "--others", "-3..40"];
            let arguments = [&arguments[..], &["--json"]].concat();
            let answer = &with_input(&arguments, text.as_bytes()).json()[0];
            let ends = |name: &str| -> Vec<Value> {
                let registers = answer["registers"].as_array().expect("registers");
                registers.iter().map(|one| one[name].clone()).collect()
            };
            let wanted = |ranges: &[Range]| -> Vec<Value> {
                let ends =
                    |range: &Range| json!({"lowest": range.lowest, "highest": range.highest});
                ranges.iter().map(ends).collect()
            };
            assert_eq!(ends("before"), wanted(&known));
            assert_eq!(ends("after"), wanted(&next_ranges(state, &known)), "{text}");
        }
    }
}

#[test]
fn refusals() {
    for (arguments, message) in [
        ("-r 0=720..-720", "the lowest value of r0, 720, is above the highest, -720 (refusal 13)"),
        ("--others 1..0", "the lowest value of r0, 1, is above the highest, 0 (refusal 13)"),
        ("--state 1 -r 0=720..-720", "state 1 is not below N = 1 (refusal 9)"),
    ] {
        let ran = gutkavu(&parted(&format!("bounds examples/swing.txt {arguments}")));
        assert_eq!(ran.message(1), format!("examples/swing.txt: {message}\n"));
    }
    let line = "bounds examples/swing.txt --state 255 --json";
    assert_eq!(gutkavu(&parted(line)).refusal(), 9);
}
