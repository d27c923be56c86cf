//! Runs that are answered.

use crate::common::{text_of, Scratch};
use crate::{row, run, run_on};
use serde_json::{json, Value};

/// What a run prints that goes well.
fn answer(arguments: &str) -> String {
    run(arguments).answer()
}

/// The same as JSON, one value a line.
fn json(arguments: &str) -> Vec<Value> {
    let ran = run(&format!("{arguments} --json"));
    assert_eq!((ran.status, &ran.err[..]), (0, ""));
    ran.json()
}

const GCD: &str = "         graph   machine
outcome  halted  halted
cycles           4
blocks   9       9
next     none    none
flag     clear   clear
r0       6       6
r1       6       6
";

const GCD_TRACE: &str = "\
cycle  state  blocks     flag   next  changed
    1      0  0          clear  1
    2      1  1 2 3      clear  1     r1 18 -> 6
    3      1  1 2 4      clear  1     r0 12 -> 6
    4      1  1 5        clear  halt

";

#[test]
fn gcd() {
    assert_eq!(answer("examples/gcd.txt -r 12,18"), GCD);
    assert_eq!(answer("examples/gcd.txt -r 12,18 --trace"), format!("{GCD_TRACE}{GCD}"));
}

#[test]
fn gcd_from_standard_input() {
    assert_eq!(run_on("- --registers 12,18", &text_of("examples/gcd.txt")).answer(), GCD);
}

#[test]
fn gcd_from_its_second_starter() {
    let table = answer("examples/gcd.txt -r 12,18 --start 1");
    assert_eq!((row(&table, "cycles"), row(&table, "blocks")), ("3".into(), "8".into()));
}

const TURN: &str = "examples/turn.txt -r 0,0,0,-300,300 --words 10,65346,410,10,65146,160";

const TURN_SIGNED: &str = "\
cycle  state   word  blocks         flag   next  changed
    1      0     10  0              clear  1     r6 0 -> 1, r7 0 -> 10
    2      1  65346  1 2 3 5 6      clear  1     r0 0 -> -200, r1 0 -> -200
    3      1    410  1 3 4 5 6 7    clear  1     r0 -200 -> 400, r2 0 -> 400, r5 0 -> 1
    4      1     10  1 3 5 6        clear  1     r0 400 -> 0
    5      1  65146  1 2 3 5 7      clear  1     r0 0 -> -400, r1 -200 -> -400, r5 1 -> 2
    6      1    160  1 3 5 6        clear  1     r0 -400 -> 150

         graph    machine
outcome  dry      dry
cycles            6
blocks   25       25
next     block 1  state 1
flag     clear    clear
r0       150      150
r1       -400     -400
r2       400      400
r3       -300     -300
r4       300      300
r5       2        2
r6       1        1
r7       10       10
";

#[test]
fn turn() {
    assert_eq!(answer(&format!("{TURN} --signed --trace")), TURN_SIGNED);
    let table = answer(TURN);
    assert_eq!((row(&table, "r1"), row(&table, "r3")), ("4294966896".into(), "4294966996".into()));
}

#[test]
fn turn_as_json() {
    let mut values = json(&format!("{TURN} --trace"));
    let registers = json!([150, 4294966896u32, 400, 4294966996u32, 300, 2, 1, 10]);
    let column = |mut column: Value, cycles: Option<u32>| {
        if let Some(cycles) = cycles {
            column["cycles"] = json!(cycles);
        }
        column
    };
    let side =
        json!({"outcome": "dry", "blocks": 25, "next": 1, "flag": false, "registers": registers});
    let summary = json!({
        "file": "examples/turn.txt", "start": 0, "budget": 1_000_000, "outcome": "dry",
        "graph": column(side.clone(), None), "machine": column(side, Some(6)),
    });
    assert_eq!(values.pop(), Some(summary.clone()));
    assert_eq!(json(TURN), [summary]);
    let counts = values.iter().map(|value| value["blocks"].as_array().expect("blocks").len());
    assert_eq!(counts.collect::<Vec<usize>>(), [1, 5, 6, 4, 5, 4]);
    let third = json!({
        "cycle": 3, "state": 1, "word": 410, "blocks": [1, 3, 4, 5, 6, 7], "changed": [
            {"register": 0, "before": 4294967096u32, "after": 400},
            {"register": 2, "before": 0, "after": 400},
            {"register": 5, "before": 0, "after": 1},
        ], "flag": false, "next": 1,
    });
    assert_eq!(values[2], third);
}

#[test]
fn gcd_as_json() {
    let values = json("examples/gcd.txt -r 12,18 --trace");
    let last = json!({
        "cycle": 4, "state": 1, "word": null, "blocks": [1, 5], "changed": [],
        "flag": false, "next": null,
    });
    assert_eq!((values.len(), &values[3]), (5, &last));
    assert_eq!(
        (&values[4]["outcome"], &values[4]["graph"]["next"]),
        (&json!("halted"), &Value::Null)
    );
    assert_eq!(
        json("examples/gcd.txt -r -1 --budget 1 --signed")[0]["graph"]["registers"],
        json!([-1, 0])
    );
}

/// The rows of the examples' page: registers, r0 after, flag, blocks, cycles.
#[test]
fn wrap() {
    for (registers, after, flag, blocks, cycles) in [
        ("0,300000000,2147483647,8", "-1894967296", "set", "27", "10"),
        ("0,300000000,2000000000,8", "2100000000", "clear", "26", "10"),
        ("0,300000000,2147483647,12", "-694967296", "set", "39", "14"),
        ("-600000000,300000000,2147483647,3", "300000000", "clear", "12", "5"),
        ("0,-300000000,2147483647,8", "1894967296", "set", "27", "10"),
    ] {
        let table = answer(&format!("examples/wrap.txt --signed -r {registers}"));
        let found = ["outcome", "r0", "flag", "blocks", "cycles"].map(|name| row(&table, name));
        assert_eq!(found, ["halted", after, flag, blocks, cycles], "{registers}");
    }
    let trace = answer("examples/wrap.txt --trace -r 0,300000000,2147483647,12");
    let flags =
        |word: &str| trace.lines().filter(|line| line.contains(&format!("  {word}  "))).count();
    // The ninth cycle of 14 raises it, and it stays; the last line is that of the table.
    assert_eq!((flags("clear"), flags("set")), (8, 7));
}

#[test]
fn p11() {
    for budget in ["0", "1", "5", "100000"] {
        let table = answer(&format!("examples/p11.txt --budget {budget}"));
        let found = ["outcome", "cycles", "blocks"].map(|name| row(&table, name));
        assert_eq!(found, ["spent", budget, budget]);
    }
    let none = "cycle  state  blocks  flag   next  changed\n\n";
    assert!(answer("examples/p11.txt --budget 0 --trace").starts_with(none));
}

/// No words are something else than a run without words.
#[test]
fn no_words() {
    for arguments in ["--words ''", "--words-file /dev/null"] {
        let table = answer(&format!("examples/turn.txt {arguments}"));
        assert_eq!((row(&table, "outcome"), row(&table, "cycles")), ("dry".into(), "0".into()));
        let table = answer(&format!("examples/turn.txt {arguments} --budget 0"));
        assert_eq!(row(&table, "outcome"), "spent");
        let table = answer(&format!("examples/gcd.txt {arguments}"));
        assert_eq!(row(&table, "outcome"), "dry");
    }
}

#[test]
fn words_of_a_file() {
    let text: String = (0..40_000).map(|word| format!("{word},\r\n")).collect();
    let folder = Scratch::new("words");
    let path = folder.file("many.txt", text.as_bytes());
    let table = answer(&format!("examples/turn.txt --words-file {path}"));
    let found = ["outcome", "cycles", "r0", "r2"].map(|name| row(&table, name));
    // As signed numbers of 16 bits: the highest is 32767, the last 39999 - 65536.
    assert_eq!(found, ["dry", "40000", "4294941759", "32767"]);
    let few = run_on("examples/turn.txt --words-file -", "7 -3\n").answer();
    assert_eq!(row(&few, "cycles"), "2");
}

/// A long list of blocks puts the later columns to the right, and no further line.
#[test]
fn many_blocks() {
    let ends = (0..63).map(|block| format!("block,{block}\ngoto,{}\n", block + 1));
    let text = format!("graph,64,1\n{}block,63\nhalt\n", ends.collect::<String>());
    let trace = run_on("- --trace", &text).answer();
    let lines: Vec<&str> = trace.lines().collect();
    assert_eq!(lines[0].len(), "cycle  state  ".len() + 40 + "  flag   next  changed".len());
    assert!(lines[1].contains(" 61 62 63  clear  halt"), "{}", lines[1]);
}
