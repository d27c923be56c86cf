//! Recordings: what `--record` writes, and that `compare` takes it.

use crate::common::{gutkavu, interrupt, parted, start, text_of, Ran, Scratch};
use crate::{row, run};

const TURN: &str = "examples/turn.txt -r 0,0,0,-300,300 --words 10,65346,410,10,65146,160";

/// What a run records, and what it answers beside.
fn recorded(arguments: &str) -> (String, String) {
    let folder = Scratch::new("record");
    let path = folder.path("x.capture");
    let answer = run(&format!("{arguments} --record {path}")).answer();
    (folder.text("x.capture"), answer)
}

/// The same file with a trace, as JSON and as signed numbers; and the answer is that of a run that
/// is not recorded.
#[test]
fn turn() {
    let model = text_of("examples/turn-model.capture");
    for options in ["", "--trace", "--json", "--trace --json", "--signed", "--trace --signed"] {
        let arguments = format!("{TURN} {options}");
        let (file, answer) = recorded(&arguments);
        assert_eq!(file, model, "{options}");
        assert_eq!(answer, run(&arguments).answer(), "{options}");
    }
}

/// No cycle begins after a halt.
#[test]
fn a_run_that_halts() {
    let wanted = "0,0,12,18\n1,1,12,18\n2,1,12,6\n3,1,6,6\n";
    for options in ["", "--trace"] {
        assert_eq!(recorded(&format!("examples/gcd.txt -r 12,18 {options}")).0, wanted);
    }
    let (from_start, _) = recorded("examples/gcd.txt -r 12,18 --start 1");
    assert_eq!(from_start, "0,1,12,18\n1,1,12,6\n2,1,6,6\n");
}

/// Of a run that is spent the cycle that would come next has a line too.
#[test]
fn a_run_that_is_spent() {
    assert_eq!(recorded("examples/p11.txt --budget 0").0, "0,0,0\n");
    assert_eq!(
        recorded("examples/p11.txt --budget 2 -r -1").0,
        "0,0,4294967295\n1,0,4294967295\n2,0,4294967295\n"
    );
    for options in ["", "--trace"] {
        // Longer than the pieces in which a run is made otherwise.
        let (file, _) = recorded(&format!("examples/p11.txt --budget 20000 {options}"));
        let lines: String = (0..=20_000).map(|cycle| format!("{cycle},0,0\n")).collect();
        assert!(file == lines, "{} lines", file.lines().count());
    }
}

/// The answer is that of the recording which the examples have.
#[test]
fn it_is_compared() {
    let folder = Scratch::new("record");
    let path = folder.path("model");
    run(&format!("{TURN} --record {path}")).answer();
    let array = "examples/turn-array.capture";
    let ran = gutkavu(&["compare", "-r", "8", array, &path]);
    let wanted = format!(
        "cycles in both 5, first that differs 4, in r2\n\
         {array}:3: 4,1,0,4294967096,401,4294966996,300,1,1,10\n\
         {path}:5: 4,1,0,4294967096,400,4294966996,300,1,1,10\n"
    );
    assert_eq!((ran.status, ran.out, &ran.err[..]), (1, wanted, ""));
}

#[test]
fn files_that_cannot_be_written() {
    let folder = Scratch::new("record");
    let path = folder.path("nowhere/x.capture");
    let said = run(&format!("examples/gcd.txt --record {path}")).message(2);
    assert!(said.starts_with(&format!("gutkavu: {path}: No such file")), "{said}");
    let said = run("examples/gcd.txt --record /dev/full").message(2);
    assert!(said.starts_with("gutkavu: /dev/full: No space"), "{said}");
    let said = run("examples/gcd.txt --record -").message(2);
    assert!(said.contains("a recording is written into a file"), "{said}");
    assert!(folder.is_empty());
}

/// An older file stays where nothing is run.
#[test]
fn refused_runs_write_nothing() {
    let folder = Scratch::new("record");
    let path = folder.file("x.capture", b"an older file");
    for arguments in
        ["examples/gcd.txt --start 9", "examples/gcd.txt --start 3", "examples/turn.txt"]
    {
        run(&format!("{arguments} --record {path}")).message(1);
    }
    run(&format!("examples/gcd.txt -r 1,2,3 --record {path}")).message(2);
    assert_eq!(folder.text("x.capture"), "an older file");
}

/// All that was run is in the file.
#[test]
fn a_run_that_is_broken_off() {
    let folder = Scratch::new("record");
    let path = folder.path("x.capture");
    let line = format!("run examples/p11.txt --budget 4294967295 --record {path}");
    let child = start(&parted(&line));
    interrupt(&child);
    let ran = Ran::of(child.wait_with_output().expect("an end"));
    assert_eq!((ran.status, &ran.err[..]), (130, ""));
    let file = folder.text("x.capture");
    let last = format!("{},0,0", row(&ran.out, "cycles"));
    assert_eq!(file.lines().last(), Some(&last[..]));
}
