//! What a run may start with.

use super::*;
use crate::failure::Failure;
use std::path::PathBuf;

/// The refusal's number and message, or a message of trouble.
fn failure(text: &str, setup: &Setup) -> (Option<u32>, String) {
    let graph = graph(text);
    match Course::new("a graph", &graph, setup).expect_err("no course") {
        Failure::Refused(refused) => (Some(refused.refusal), refused.message),
        Failure::Trouble(message) => (None, message),
        other => panic!("{other:?}"),
    }
}

#[test]
fn starts_that_are_refused() {
    let p12 = include_str!("../../../../examples/p12.txt");
    for (text, words, start, number, message) in [
        (GCD, None, 3, 11, "block 3 is no starter; the starters are 0, 1"),
        (GCD, Some(&[][..]), 3, 11, "block 3 is no starter; the starters are 0, 1"),
        (GCD, None, 6, 9, "block 6 is not below B = 6"),
        (GCD, Some(&[5][..]), u32::MAX, 9, "block 4294967295 is not below B = 6"),
        (p12, None, 2, 11, "block 2 is no starter; the only starter is 0"),
        (TURN, None, 0, 12, "the graph reads input words: give --words or --words-file"),
        // 12 comes before 9 and 11, as in a run without words.
        (TURN, None, 8, 12, "the graph reads input words: give --words or --words-file"),
        (TURN, Some(&[]), 8, 9, "block 8 is not below B = 8"),
        (TURN, Some(&[]), 7, 11, "block 7 is no starter; the starters are 0, 1"),
    ] {
        let refused = failure(text, &setup(&[], words, start, 9));
        assert_eq!(refused, (Some(number), String::from(message)));
    }
}

#[test]
fn registers() {
    let message = "a graph: 3 values are given, but the graph has R = 2 registers";
    assert_eq!(failure(GCD, &setup(&[1, 2, 3], None, 0, 9)), (None, String::from(message)));
    let graph = graph(GCD);
    assert_eq!(course(&graph, &setup(&[], None, 0, 9)).by_graph().registers, [0; 16]);
    let course = course(&graph, &setup(&[7], None, 0, 9));
    assert_eq!(course.by_machine().registers[..3], [7, 0, 0]);
}

/// A start other than block 0, in the state that it starts.
#[test]
fn a_later_starter() {
    let graph = graph(GCD);
    let course = course(&graph, &setup(&[], None, 1, 9));
    assert_eq!((course.by_graph().next, course.by_machine().next), (Some(1), Some(1)));
}

#[test]
fn standard_input_is_one_of_the_two() {
    let graph = graph(GCD);
    let mut setup = setup(&[], None, 0, 9);
    setup.words_file = Some(PathBuf::from("-"));
    let failure = Course::new("<stdin>", &graph, &setup).expect_err("no course");
    assert!(matches!(failure, Failure::Trouble(message) if message.contains("standard input")));
}
