//! `--help` and wrong uses: every subcommand has both, and the examples work as they are printed.

mod common;

use common::{gutkavu, on_terminal, parted, shell, Scratch};

const COMMANDS: [&str; 10] =
    ["check", "list", "states", "wires", "run", "bounds", "touches", "draw", "compare", "format"];

/// The lines of a help text that are examples.
fn examples(help: &str) -> Vec<String> {
    let lines = help.lines().skip_while(|line| !line.starts_with("Example")).skip(1);
    lines.take_while(|line| line.starts_with("  ")).map(|line| line.trim().to_string()).collect()
}

#[test]
fn examples_of_help_work() {
    let folder = Scratch::with_examples("help");
    for command in COMMANDS {
        let help = gutkavu(&[command, "--help"]).answer();
        let examples = examples(&help);
        assert!(!examples.is_empty(), "{command} has no example");
        assert_eq!(help.matches("  gutkavu ").count(), examples.len(), "{help}");
        for line in examples {
            assert!(line.starts_with(&format!("gutkavu {command} ")), "{line}");
            let ran = shell(&line, &folder.0);
            assert_eq!((ran.status, &ran.err[..]), (0, ""), "{line}");
            assert_eq!(ran.out.is_empty(), line.contains(" -o "), "{line}");
            for option in [" -o ", " --record "] {
                let Some((_, rest)) = line.split_once(option) else { continue };
                let file = folder.0.join(rest.split(' ').next().expect("a name"));
                assert!(file.metadata().is_ok_and(|file| file.len() > 0), "{line}");
                std::fs::remove_file(file).expect("a file");
            }
        }
    }
}

/// No line is wider than a usual terminal.
#[test]
fn the_program_tells_its_commands_and_its_version() {
    let help = gutkavu(&["--help"]).answer();
    let lines = help.lines().skip_while(|line| *line != "Commands:").skip(1);
    let named =
        lines.take_while(|line| !line.is_empty()).map(|line| line.split_whitespace().next());
    assert_eq!(named.collect::<Vec<_>>(), COMMANDS.map(Some));
    let status =
        "Exit status: 0 all well, 1 refused (or recordings that differ), 2 a wrong use or ";
    assert!(help.contains(status), "{help}");
    assert!(help.lines().all(|line| line.len() <= 100), "{help}");
    assert!(gutkavu(&["--version"]).answer().starts_with("gutkavu 0."));
}

/// A wrong use: status 2, nothing on standard output, and a message that says what is wrong.
fn is_wrong(line: &str, message: &str) {
    let said = gutkavu(&parted(line)).message(2);
    assert!(said.contains(message), "{line}: {said}");
    assert!(!said.contains('\x1b') && !said.contains("panicked"), "{line}: {said}");
}

#[test]
fn wrong_uses_of_all_commands() {
    is_wrong("", "Usage: gutkavu");
    is_wrong("paint", "'paint'");
    is_wrong("help", "'help'");
    for command in COMMANDS {
        is_wrong(command, "Usage: ");
        is_wrong(&format!("{command} --colour"), "--colour");
        let first = if command == "compare" { "compare -r 1 /dev/null" } else { command };
        is_wrong(&format!("{first} nothing.txt"), "gutkavu: nothing.txt: No such file");
        is_wrong(&format!("{first} nothing.txt --json"), "gutkavu: nothing.txt: No such file");
        is_wrong(&format!("{first} examples"), "gutkavu: examples: Is a directory");
        if command != "check" {
            is_wrong(&format!("{first} a b"), "'b'");
        }
    }
}

#[test]
fn wrong_uses_of_each_command() {
    for (line, message) in [
        ("wires examples/gcd.txt --state x", "'x'"),
        ("wires examples/gcd.txt --state -1", "'-1'"),
        ("bounds examples/gcd.txt --state 4294967296", "4294967296"),
        ("bounds examples/gcd.txt -r 0", "'0' is not of the form REGISTER=LOWEST..HIGHEST"),
        ("bounds examples/gcd.txt -r 0=2147483648", "'2147483648' is no number"),
        ("bounds examples/gcd.txt -r x=1..2", "'x=1..2' is not of the form"),
        ("bounds examples/gcd.txt -r 2=0..1", "r2 is not below R = 2"),
        ("bounds examples/gcd.txt --others 1..x", "'x' is no number"),
        ("touches examples/gcd.txt -r 4294967296", "4294967296"),
        ("touches examples/gcd.txt -r -1", "'-1'"),
        ("compare examples/turn-array.capture examples/turn-model.capture", "--registers"),
        ("compare -r 8 examples/turn-array.capture", "<SECOND>"),
        ("compare -r x a b", "'x'"),
        ("compare -r 8 - -", "standard input can be only one of the files"),
        ("format examples/gcd.txt -o x", "'-o'"),
        ("check --quiet", "<FILE>"),
    ] {
        is_wrong(line, message);
    }
}

/// No colour on a pipe, whatever the terminal, and none where `NO_COLOR` is set.
#[test]
fn colour() {
    for (line, message) in [
        ("--help", "Usage: "),
        ("run --help", "Usage: "),
        ("run --budget x examples/gcd.txt", "'x'"),
        ("paint", "'paint'"),
        ("run", "<FILE>"),
    ] {
        for (line, settings) in [
            (format!("gutkavu {line} 2>&1 | cat"), &[][..]),
            (format!("gutkavu {line}"), &[("NO_COLOR", "1")]),
        ] {
            let shown = on_terminal(&line, settings);
            assert!(shown.contains(message) && !shown.contains('\x1b'), "{line}: {shown:?}");
        }
    }
}
