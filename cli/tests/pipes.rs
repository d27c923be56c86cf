//! Standard output and error that are closed, full or read in part; standard input without an end.

mod common;

use common::{project, shell, Ran};

/// What a pipeline prints, then the status of its first command.
fn status_of(line: &str) -> String {
    shell(&format!("{line}; echo \"status ${{PIPESTATUS[0]}}\""), project()).answer()
}

#[test]
fn a_reader_that_stops_ends_the_command_quietly() {
    let endless = "gutkavu run examples/p11.txt --budget 4294967295 --trace | head -n 1";
    let out = status_of(endless);
    assert!(out.starts_with("cycle ") && out.ends_with("\nstatus 0\n"), "{out}");
    for command in [
        "check examples/gcd.txt",
        "list examples/gcd.txt",
        "states examples/gcd.txt",
        "wires examples/gcd.txt",
        "run examples/gcd.txt -r 12,18",
        "bounds examples/gcd.txt",
        "touches examples/gcd.txt",
        "draw examples/gcd.txt",
        "format examples/gcd.txt",
        "--help",
        "compare -r 8 examples/turn-model.capture examples/turn-model.capture",
    ] {
        // The reader is gone before there is anything to read.
        let out = status_of(&format!("{{ sleep 0.05; gutkavu {command}; }} | exec true"));
        assert_eq!(out, "status 0\n", "{command}");
    }
}

#[test]
fn a_full_disk_is_told() {
    let ran = shell("gutkavu states examples/gcd.txt > /dev/full", project());
    assert_eq!(ran.status, 2);
    assert!(ran.err.starts_with("gutkavu: standard output: "), "{}", ran.err);
}

/// A message that nobody can see changes nothing of the status.
#[test]
fn standard_error_that_is_full_or_closed() {
    for (command, status) in [
        ("states nothing.txt", 2),
        ("check nothing.txt examples/gcd.txt", 2),
        ("run examples/turn.txt", 1),
        ("states examples/turn-model.capture", 1),
    ] {
        let full = shell(&format!("gutkavu {command} 2> /dev/full"), project());
        assert_eq!(full.status, status, "{command}");
        let closed = format!(
            "exec 3>&1; (sleep 0.1; gutkavu {command}; echo $? >&3) 2>&1 >/dev/null | exec true"
        );
        assert_eq!(shell(&closed, project()).out, format!("{status}\n"), "{command}");
    }
}

/// Runs a command on bytes without an end, with less time and memory than it takes to read them.
fn on_endless(bytes: &str, command: &str) -> Ran {
    let line = format!("ulimit -v 1000000; {bytes} | timeout 5 gutkavu {command}");
    shell(&line, project())
}

#[test]
fn input_without_an_end_is_refused() {
    let ran = on_endless("cat /dev/zero", "check -");
    assert_eq!((ran.status, &ran.err[..]), (1, ""));
    assert!(ran.out.ends_with("(refusal 1)\n"), "{}", ran.out);
    let ran = on_endless("yes", "list -");
    assert_eq!((ran.status, &ran.out[..]), (1, "refused,1,0\n"));
    for command in ["states", "wires", "run", "bounds", "touches", "draw", "format"] {
        let said = on_endless("yes", &format!("{command} -")).message(1);
        assert_eq!(said, "<stdin>: the text has more than 16384 bytes (refusal 1)\n", "{command}");
    }
}

/// Words past the budget are not read.
#[test]
fn words_without_an_end_are_enough() {
    let run = "run examples/turn.txt --words-file - --budget 1000 --json";
    let ran = on_endless("yes 5", run);
    assert_eq!((&ran.json()[0]["outcome"], ran.status), (&"spent".into(), 0));
}
