//! The check finds wrong starters: it is tried on lists that are made to differ.

use super::check::{check, Counted};
use super::{fit, graph_at, outcome, proved_starters, tally_all};
use crate::tally::{Tally, MOST_REPORTS};
use reference::generate::examples::{P12, P7, P9};
use reference::parse::parse;
use reference::print::print;

fn faults(text: &str, found: &[usize]) -> Vec<String> {
    check(&parse(text.as_bytes()).expect("a graph"), found, &mut Tally::empty())
}

#[test]
fn right_starters_have_no_fault() {
    for (text, starters) in [(P7, vec![0, 1]), (P9, vec![0, 1, 3, 4]), (P12, vec![0])] {
        assert_eq!(proved_starters(text), Ok(starters.clone()));
        assert!(faults(text, &starters).is_empty());
    }
}

#[test]
fn a_dropped_starter_is_a_fault() {
    let expected = [
        "the library's starters are [0, 1, 3], the second program's [0, 1, 3, 4]",
        "the library's starters [0, 1, 3] are not fit: ReachableMembers",
        "the library's starters [0, 1, 3] are not fit: AllMembers",
        "the dominance frontiers give {0, 1, 3, 4}",
    ];
    assert_eq!(faults(P9, &[0, 1, 3]), expected);
}

#[test]
fn an_added_starter_is_a_fault() {
    let expected = [
        "the library's starters are [0, 1, 3, 4, 2], the second program's [0, 1, 3, 4]",
        "the dominance frontiers give {0, 1, 3, 4}",
        "{0, 1, 3, 4} is fit and lacks one of [0, 1, 3, 4, 2]",
    ];
    assert_eq!(faults(P9, &[0, 1, 3, 4, 2]), expected);
}

/// Block 2 of P12 is unreachable and goes to block 1.
#[test]
fn an_unreachable_starter_is_a_fault() {
    let expected = [
        "the library's starters are [0, 2], the second program's [0]",
        "the library's starters [0, 2] are not fit: AllMembers",
        "the dominance frontiers give {0}",
        "{0} is fit and lacks one of [0, 2]",
    ];
    assert_eq!(faults(P12, &[0, 2]), expected);
}

/// As sets these are right, or not of blocks.
#[test]
fn other_lists_are_faults() {
    for found in [vec![0, 1, 4, 3], vec![0, 1, 3, 4, 4], vec![0, 1, 3, 5], vec![0, 1, 3, 255]] {
        let expected =
            format!("the library's starters are {found:?}, the second program's [0, 1, 3, 4]");
        assert_eq!(faults(P9, &found), [expected]);
    }
}

/// A difference fails the command, with the graph's text.
#[test]
fn differences_are_reported() {
    let fewer = |text: &str| {
        let mut starters = proved_starters(text)?;
        starters.pop();
        Ok(starters)
    };
    let text = fit(11, 40, &fewer).expect_err("a difference");
    assert!(text.ends_with("seed 11: 40 graphs, 40 differ\n"), "{text}");
    assert_eq!(text.matches("difference: seed 11, graph ").count(), MOST_REPORTS);
    assert!(text.contains("difference: seed 11, graph 4\n  the library's starters are ["));
    assert!(text.contains(&print(&graph_at(11, 4))));
    let refused = fit(11, 3, &|_| Err(String::from("refused"))).expect_err("a refusal");
    assert!(refused.ends_with("seed 11: 3 graphs, 3 differ\n"), "{refused}");
}

/// A count of 0 fails a long run, and not a short one.
#[test]
fn counts_of_0_are_reported() {
    let mut tally = tally_all(1, 500, &proved_starters);
    assert!(outcome(1, 500, &tally).is_ok());
    for counted in Counted::ALL {
        let number = tally.counts.remove(&counted).expect("a count");
        let text = outcome(1, 500, &tally).expect_err("a count of 0");
        assert!(text.contains(&format!("no case hit {}\n", counted.name())));
        assert!(outcome(1, 499, &tally).is_ok());
        tally.counts.insert(counted, number);
    }
}
