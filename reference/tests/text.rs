//! Refusals of reading, line by line.

mod common;

use common::refusal;
use reference::generate::exact;
use reference::generate::fixed::largest_graphs;
use reference::parse::{parse, Fault};
use reference::print::print;

/// A text of one block with two registers and this line before its end.
fn with_line(line: &str) -> (u32, u32) {
    refusal(&format!("graph,1,2\nblock,0\n{line}\nhalt\n"))
}

#[test]
fn forms() {
    let bad = [
        "", " ", "set,0", "set,0,0,0", "set,0,-0", "set,0,-", "set,0,", "set,0,00", "set,0,-01",
        "set,0,+1", "set,0,2147483648", "set,0,-2147483649", "set,0,4294967296", "set,00,1",
        "set,256,1", "set,,1", "set, 0,1", "set,0,1 ", "set,0,1\r", "copy,0", "copy,0,0,0",
        "copy,0,-1", "add,0,0", "add,0,0,0,0", "add,0,0,01", "eq,0,0,0", "mul,0,0,0", "Set,0,1",
        "halt,", "halt,0", "goto", "goto,", "goto,256", "goto,00", "block", "block,00",
        "block,256", "graph,1", "graph,0,1", "graph,65,1", "graph,1,0", "graph,1,17", "graph,01,1",
        "ite,eq,0,0,0", "ite,eq,0,0,0,0,0", "ite,le,0,0,0,0", "ite,add,0,0,0,0", "ite,eq,0,0,0,",
        "in", "in,", "in,0,", "in,0,0", "in,00", "in,256", "in,-1", "in,-0", "in, 0", "In,0",
        "inn,0", "ite,eq,0,0,256,0", "é,0", "set,0,\u{661}", ",", "1",
    ];
    for line in bad {
        assert_eq!(with_line(line), (2, 3), "{line}");
    }
    let good = [
        "set,0,0", "set,1,2147483647", "set,0,-2147483648", "set,0,-1", "copy,1,0", "sx,0,1",
        "add,0,1,1", "sub,0,1,1", "and,0,1,1", "or,0,1,1", "xor,0,1,1", "shl,0,1,1", "shr,0,1,1",
        "sar,0,1,1", "in,0", "in,1",
    ];
    for line in good {
        assert_eq!(with_line(line), (0, 0), "{line}");
    }
}

#[test]
fn forms_not_due() {
    for line in ["block,0", "block,1", "block,255", "graph,1,2", "graph,64,16"] {
        assert_eq!(with_line(line), (3, 3), "{line}");
    }
    // An ending that is fine leaves the next one out of place.
    assert_eq!(with_line("goto,0"), (3, 4));
    assert_eq!(with_line("ite,eq,0,0,0,0"), (3, 4));
    assert_eq!(refusal("halt\n"), (3, 1));
    assert_eq!(refusal("block,0\n"), (3, 1));
    assert_eq!(refusal("graph,2,1\nblock,1\nhalt\nblock,0\nhalt\n"), (3, 2));
    assert_eq!(refusal("graph,1,1\nhalt\n"), (3, 2));
    assert_eq!(refusal("graph,1,1\ncopy,9,9\n"), (3, 2));
    assert_eq!(refusal("graph,1,1\nin,9\n"), (3, 2));
}

#[test]
fn registers_and_targets() {
    for line in [
        "in,2", "in,16", "in,255", "set,2,0", "copy,0,2", "copy,2,0", "sx,0,255", "add,0,0,2",
        "add,0,2,0",
    ] {
        assert_eq!(with_line(line), (4, 3), "{line}");
    }
    assert_eq!(with_line("goto,1"), (5, 3));
    assert_eq!(with_line("goto,255"), (5, 3));
    assert_eq!(with_line("ite,eq,0,0,1,0"), (5, 3));
    assert_eq!(with_line("ite,eq,0,0,0,1"), (5, 3));
    assert_eq!(with_line("ite,eq,2,0,0,0"), (4, 3));
    assert_eq!(with_line("ite,eq,0,2,1,1"), (4, 3));
}

#[test]
fn ends_of_texts() {
    assert_eq!(refusal("graph,1,1"), (2, 1));
    assert_eq!(refusal("graph,1,1\n"), (3, 2));
    assert_eq!(refusal("graph,1,1\nblock,0"), (2, 2));
    assert_eq!(refusal("graph,1,1\nblock,0\n"), (3, 3));
    assert_eq!(refusal("graph,1,1\nblock,0\nhalt"), (2, 3));
    assert_eq!(refusal("graph,1,1\nblock,0\nhalt\n"), (0, 0));
    assert_eq!(refusal("graph,1,1\nblock,0\nhalt\n\n"), (2, 4));
    assert_eq!(refusal("graph,1,1\nblock,0\nhalt\nhalt\n"), (3, 4));
    assert_eq!(refusal("graph,1,1\nblock,0\nhalt\nhalt"), (2, 4));
    assert_eq!(refusal("graph,1,1\nblock,0\nhalt\nblock,1\n"), (3, 4));
    assert_eq!(refusal("graph,1,1\nblock,0\nhalt\ngoto,9\n"), (3, 4));
    assert_eq!(refusal("graph,2,1\nblock,0\nhalt\n"), (3, 4));
    assert_eq!(refusal("\n"), (2, 1));
}

#[test]
fn nine_instructions() {
    let text = |ninth: &str| format!("graph,1,1\nblock,0\n{}{ninth}\nhalt\n", "sx,0,0\n".repeat(8));
    assert_eq!(refusal(&text("sx,0,0")), (3, 11));
    assert_eq!(refusal(&text("sx,9,0")), (3, 11));
    assert_eq!(refusal(&text("sx,9")), (2, 11));
    assert_eq!(refusal(&text("in,0")), (3, 11));
    assert_eq!(refusal(&text("in")), (2, 11));
}

#[test]
fn lengths() {
    let mut text = String::from("graph,1,1\nblock,0\nhalt\n");
    while text.len() < 16_384 {
        text.push('\n');
    }
    assert_eq!(refusal(&text), (2, 4));
    text.push('\n');
    assert_eq!(refusal(&text), (1, 0));
    assert_eq!(refusal(&"x".repeat(16_384)), (2, 1));
    assert_eq!(refusal(&"\u{0}".repeat(20_000)), (1, 0));
}

/// Every length from that of bare blocks on has a text; up to the longest graph's it is admitted.
#[test]
fn texts_of_exact_lengths() {
    let longest = print(&largest_graphs()[0]).len();
    assert_eq!(longest, 11_586);
    for length in (1_866..longest).step_by(7).chain(longest - 20..=longest) {
        let text = exact::text(length).expect("a text");
        assert_eq!(text.len(), length);
        assert!(parse(&text).is_ok(), "{length}");
    }
    for length in [longest + 1, longest + 5, 16_384, 16_385, 70_000] {
        let text = exact::text(length).expect("a text");
        assert_eq!(text.len(), length);
        let number = if length == longest + 1 { 2 } else { 3 };
        assert_eq!(parse(&text), Err(Fault { number, line: 642 }));
    }
    assert_eq!(exact::text(1_857), None);
    assert_eq!(exact::text(1_859), None);
}
