//! Ctrl-C, and readers that stop reading.

use crate::common::{interrupt, parted, start, Ran};
use crate::row;
use std::io::{BufRead, BufReader};
use std::process::Child;
use std::thread;
use std::time::Duration;

const LONG: &str = "run examples/p11.txt --budget 4294967295";

/// A run without an end that is broken off after a while.
fn broken_off(options: &str) -> Ran {
    let child = start(&parted(&format!("{LONG} {options}")));
    interrupt(&child);
    let ran = Ran::of(child.wait_with_output().expect("an end"));
    assert_eq!((ran.status, &ran.err[..]), (130, ""));
    ran
}

#[test]
fn a_run_is_broken_off() {
    let table = broken_off("").out;
    assert_eq!(row(&table, "outcome"), "broken off");
    let cycles: u32 = row(&table, "cycles").parse().expect("a number");
    assert!(cycles > 0);
    assert_eq!(row(&table, "blocks"), cycles.to_string());
}

/// Also one whose output nobody takes for a while.
#[test]
fn a_trace_is_broken_off() {
    let lines = broken_off("--trace --json").json();
    let [.., cycle, summary] = &lines[..] else { panic!("a cycle at least") };
    assert_eq!(summary["outcome"], "broken off");
    assert_eq!(cycle["cycle"], summary["machine"]["cycles"]);
}

/// The exit status, where it ends within five seconds.
fn status(mut child: Child) -> Option<i32> {
    for _ in 0..50 {
        if let Some(status) = child.try_wait().expect("a child") {
            return status.code();
        }
        thread::sleep(Duration::from_millis(100));
    }
    child.kill().expect("an end");
    None
}

/// A second one ends it at once, here while it waits for a reader.
#[test]
fn a_second_one_ends_it() {
    let child = start(&parted(&format!("{LONG} --trace")));
    interrupt(&child);
    interrupt(&child);
    assert_eq!(status(child), Some(130));
}

#[test]
fn a_reader_that_has_enough() {
    let mut child = start(&parted(&format!("{LONG} --trace")));
    let mut reader = BufReader::new(child.stdout.take().expect("a pipe"));
    let mut head = String::new();
    reader.read_line(&mut head).expect("a line");
    drop(reader);
    assert_eq!(Ran::of(child.wait_with_output().expect("an end")).answer(), "");
    assert!(head.starts_with("cycle"));
}
