//! What a terminal is shown beyond the answer: colour, progress.

use crate::common::on_terminal;
use crate::run;
use std::thread;
use std::time::Instant;

/// What a terminal shows of a run, which is stopped after a second.
fn shown(arguments: &str, no_color: bool) -> String {
    let line = format!("timeout --foreground -s INT 1 gutkavu run {arguments}");
    let settings: &[(&str, &str)] = if no_color { &[("NO_COLOR", "1")] } else { &[] };
    on_terminal(&line, settings)
}

const GCD: &str = "examples/gcd.txt -r 12,18 --trace";
const LONG: &str = "examples/p11.txt --budget 4294967295";

#[test]
fn colour_on_a_terminal_alone() {
    let seen = shown(GCD, false);
    assert!(
        seen.contains("\x1b[1mcycle  state  blocks     flag   next  changed\x1b[0m\r\n"),
        "{seen}"
    );
    assert!(seen.contains("\x1b[1m         graph   machine\x1b[0m\r\n"), "{seen}");
    assert!(!shown(GCD, true).contains('\x1b'));
    assert!(!run(GCD).answer().contains('\x1b'));
    let flag = shown("examples/wrap.txt -r 0,300000000,2147483647,8 --trace", false);
    assert_eq!(flag.matches("\x1b[1;31mset  \x1b[0m").count(), 2, "{flag}");
}

#[test]
fn progress_after_half_a_second() {
    let began = Instant::now();
    let seen = shown(LONG, true);
    let most = began.elapsed().as_millis() / 100;
    let lines: Vec<&str> = seen.split('\r').filter(|part| part.starts_with("cycles ")).collect();
    assert!((1..most).contains(&(lines.len() as u128)), "{seen:?}");
    assert!(lines.iter().all(|line| line.contains(" of 4294967295 (") && line.ends_with(" %)")));
    let (_, end) = seen.rsplit_once(" %)").expect("a percentage");
    let (blank, table) = end.trim_start_matches('\r').split_once('\r').expect("it is wiped");
    assert!(blank.len() >= lines[0].len() && blank.trim().is_empty(), "{end:?}");
    assert!(table.contains("outcome  broken off  broken off"), "{table:?}");
}

#[test]
fn no_progress_beside_a_trace_or_after_a_short_run() {
    let trace = shown(&format!("{LONG} --trace"), true);
    assert!(trace.contains("broken off") && !trace.contains(" %)"));
    assert!(!shown("examples/p11.txt --budget 1000", true).contains(" %)"));
}

/// Standard error alone is a terminal in the first two.
#[test]
fn no_progress_with_json_for_a_program() {
    let side_by_side = ["| cat", "--json | cat", "--json"]
        .map(|rest| thread::spawn(move || shown(&format!("{LONG} {rest}"), true).contains(" %)")));
    let has_progress = side_by_side.map(|one| one.join().expect("what is shown"));
    assert_eq!(has_progress, [true, false, true]);
}

#[test]
fn no_progress_without_a_terminal() {
    assert_eq!(shown(&format!("{LONG} 2>&1 > /dev/null | cat"), true), "");
}
