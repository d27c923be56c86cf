//! Runs that are refused, and wrong uses.

use crate::common::{text_of, Scratch};
use crate::{run, run_on};

#[test]
fn refusals() {
    for (arguments, message) in [
        (
            "examples/gcd.txt --start 3",
            "examples/gcd.txt: block 3 is no starter; the starters are 0, 1 (refusal 11)\n",
        ),
        (
            "examples/gcd.txt --start 9",
            "examples/gcd.txt: block 9 is not below B = 6 (refusal 9)\n",
        ),
        (
            "examples/turn.txt",
            "examples/turn.txt: \
             the graph reads input words: give --words or --words-file (refusal 12)\n",
        ),
    ] {
        assert_eq!(run(arguments).message(1), message);
        let number = run(&format!("{arguments} --json")).refusal();
        assert!(message.ends_with(&format!(" (refusal {number})\n")), "{message}");
    }
}

#[test]
fn a_text_that_is_refused() {
    let said = run_on("- -r 1", "graph,1,1\nblock,0\ngoto,1\n").message(1);
    assert!(said.contains("(refusal 5)"), "{said}");
}

/// A wrong use: status 2, and nothing on standard output.
fn trouble(arguments: &str, message: &str) {
    let said = run(arguments).message(2);
    assert!(said.contains(message), "{arguments}: {said}");
}

#[test]
fn wrong_uses() {
    trouble("examples/gcd.txt -r 1,2,3", "3 values are given, but the graph has R = 2");
    trouble("examples/gcd.txt -r 1,x", "'x' is no number");
    trouble("examples/gcd.txt -r 4294967296", "'4294967296' is no number");
    trouble("examples/gcd.txt --budget -1", "'-1'");
    trouble("examples/gcd.txt --budget 4294967296", "'4294967296'");
    trouble("examples/gcd.txt --start x", "'x'");
    trouble("examples/turn.txt --words 1,,2", "'' is no number");
    trouble("examples/turn.txt --words 1 --words-file x", "cannot be used with");
    trouble("examples/turn.txt --words-file no-such-file", "no-such-file: No such file");
    trouble("examples/turn.txt --words-file examples", "examples: Is a directory");
}

#[test]
fn a_wrong_word_in_a_file() {
    let folder = Scratch::new("wrong");
    let path = folder.file("wrong.txt", b"1, 2\n3\nfour\n5\n");
    let place = format!("{path}:3: 'four' is no number from -2147483648 to 4294967295");
    trouble(&format!("examples/turn.txt --words-file {path}"), &place);
}

#[test]
fn standard_input_twice() {
    let said = run_on("- --words-file -", &text_of("examples/turn.txt")).message(2);
    assert_eq!(said, "gutkavu: standard input can be only one of the files\n");
}
