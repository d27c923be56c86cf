//! Pictures of a run: how often it passed each block and edge.

use crate::common::{interrupt, on_terminal, parted, start, text_of, with_input, Ran, Scratch};
use crate::{draw, GCD};
use std::path::Path;
use std::thread;

const TURN: &str = "-r 0,0,0,-300,300 --words 10,65346,410,10,65146,160";

fn drawn(arguments: &str) -> String {
    draw(&parted(&format!("{arguments} --trace"))).answer()
}

/// How often each block was passed, by its number.
fn blocks(picture: &str) -> Vec<u64> {
    let nodes = picture.lines().filter(|line| line.contains("<b>block "));
    let mut counts: Vec<(u32, u64)> = nodes.map(block).collect();
    counts.sort_unstable();
    counts.into_iter().map(|(_, count)| count).collect()
}

/// The number of a block and how often it was passed, from its line.
fn block(line: &str) -> (u32, u64) {
    let (name, rest) = line.trim().split_once(' ').expect("a node");
    let (_, after) = rest.split_once("</b>").expect("a title");
    let count = after.split_once('<').expect("more").0.trim_start_matches(" × ");
    let number = name.trim_start_matches('b').parse().expect("a number");
    (number, if count.is_empty() { 0 } else { count.parse().expect("a count") })
}

/// The edges with what stands at them: `1 -> 2 true × 2`.
fn edges(picture: &str) -> Vec<String> {
    let lines = picture.lines().filter(|line| line.starts_with("    b") && line.contains(" -> "));
    let edge = |line: &str| {
        let (ends, rest) = line.split_once(" [label=\"").expect("a label");
        let label = rest.split_once('"').expect("its end").0.trim();
        format!("{} {label}", ends.trim().replace('b', "")).trim_end().to_string()
    };
    lines.map(edge).collect()
}

/// What stands above a picture, its lines joined.
fn title(picture: &str) -> String {
    let line = picture.lines().find(|line| line.contains("labelloc=t")).expect("a title");
    let text = line.split_once("label=<").expect("a text").1.trim_end_matches(">;");
    text.split("<br align=\"left\"/>").collect::<Vec<_>>().join(" ").trim_end().to_string()
}

#[test]
fn gcd() {
    let picture = drawn("examples/gcd.txt -r 12,18");
    assert_eq!(blocks(&picture), [1, 3, 2, 1, 1, 1]);
    let wanted = [
        "0 -> 1 × 1", "1 -> 2 true × 2", "1 -> 5 false × 1", "2 -> 3 true × 1", "2 -> 4 false × 1",
        "3 -> 1 × 1", "4 -> 1 × 1",
    ];
    assert_eq!(edges(&picture), wanted);
    assert_eq!(title(&picture), "r0 = 12, r1 = 18: halted, 9 blocks in 4 cycles");
    let from_1 = drawn("examples/gcd.txt -r 12,18 --start 1");
    assert_eq!(blocks(&from_1), [0, 3, 2, 1, 1, 1]);
    assert_eq!(edges(&from_1)[0], "0 -> 1");
}

/// The numbers are those of the examples' page.
#[test]
fn turn() {
    let picture = drawn(&format!("examples/turn.txt {TURN}"));
    assert_eq!(blocks(&picture), [1, 5, 2, 5, 1, 5, 4, 2]);
    let wanted = [
        "0 -> 1 × 1", "1 -> 2 true × 2", "1 -> 3 false × 3", "2 -> 3 × 2", "3 -> 4 true × 1",
        "3 -> 5 false × 4", "4 -> 5 × 1", "5 -> 7 true × 1", "5 -> 6 false × 4", "6 -> 7 true × 1",
        "6 -> 1 false × 3", "7 -> 1 × 2",
    ];
    assert_eq!(edges(&picture), wanted);
    let limits = "r0 = 0, r1 = 0, r2 = 0, r3 = -300, r4 = 300";
    assert_eq!(title(&picture), format!("{limits}: dry, 25 blocks in 6 cycles"));
    let folder = Scratch::new("trace");
    let words = folder.file("words", b"10 65346\n410 10\n65146 160\n");
    let same = drawn(&format!("examples/turn.txt -r 0,0,0,-300,300 --words-file {words}"));
    assert_eq!(same, picture);
}

/// Nothing is passed, and all is grey.
#[test]
fn a_budget_of_none() {
    let picture = drawn("examples/gcd.txt -r 12,18 --budget 0");
    assert_eq!(blocks(&picture), [0; 6]);
    assert!(!picture.contains('×') && !picture.contains("style=bold"), "{picture}");
    assert_eq!(picture.matches("color=\"#a8a8a8\"").count(), 6 + 7);
    assert_eq!(title(&picture), "r0 = 12, r1 = 18: spent, 0 blocks in 0 cycles");
}

/// The edge to the block that would come next was taken.
#[test]
fn a_run_that_is_spent() {
    let picture = drawn("examples/p11.txt --budget 5");
    assert_eq!((blocks(&picture), edges(&picture)), (vec![5], vec!["0 -> 0 × 5".to_string()]));
    assert_eq!(title(&picture), "all registers 0: spent, 5 blocks in 5 cycles");
    let picture = drawn("examples/gcd.txt -r 12,18 --budget 2");
    assert_eq!(blocks(&picture), [1, 1, 1, 1, 0, 0]);
    assert_eq!(edges(&picture)[5..], ["3 -> 1 × 1", "4 -> 1"]);
    let more = drawn("examples/p11.txt --budget 100000");
    assert_eq!((blocks(&more), &edges(&more)[0][..]), (vec![100_000], "0 -> 0 × 100000"));
}

/// The picture without its run is the one that is drawn without a run.
#[test]
fn an_image() {
    let folder = Scratch::new("trace");
    let path = folder.path("x.svg");
    let line = format!("{GCD} -r 12,18 --trace -o {path}");
    assert_eq!(draw(&parted(&line)).answer(), "");
    let svg = folder.text("x.svg");
    for part in ["× 3", "true × 2", "halted, 9 blocks in 4 cycles"] {
        assert!(svg.replace("&#160;", " ").contains(part), "{part} in {svg}");
    }
    let json = &draw(&parted(&format!("{GCD} -r 12,18 --trace --json"))).json()[0];
    assert_eq!(json["dot"], drawn("examples/gcd.txt -r 12,18"));
}

/// Status 1, one message, and no file; an older one stays.
#[test]
fn refusals() {
    let folder = Scratch::new("trace");
    let (new, old) = (folder.path("x.dot"), folder.file("x.svg", b"an older file"));
    for (arguments, message) in [
        ("examples/gcd.txt --start 9", "block 9 is not below B = 6 (refusal 9)"),
        ("examples/gcd.txt --start 3", "block 3 is no starter; the starters are 0, 1 (refusal 11)"),
        ("examples/p11.txt --start 1", "block 1 is not below B = 1 (refusal 9)"),
        (
            "examples/turn.txt",
            "the graph reads input words: give --words or --words-file (refusal 12)",
        ),
    ] {
        let file = arguments.split(' ').next().expect("a file");
        for target in ["", &format!("-o {new}"), &format!("-o {old}")] {
            let ran = draw(&parted(&format!("{arguments} --trace {target}")));
            assert_eq!(ran.message(1), format!("{file}: {message}\n"));
        }
        let refusal = draw(&parted(&format!("{arguments} --trace --json -o {new}"))).refusal();
        assert!(message.ends_with(&format!("(refusal {refusal})")), "{message}");
    }
    assert!(!Path::new(&new).exists());
    assert_eq!(folder.text("x.svg"), "an older file");
}

#[test]
fn wrong_uses() {
    let folder = Scratch::new("trace");
    let path = folder.path("x.dot");
    for (arguments, message) in [
        ("-r 1,2,3", "3 values are given, but the graph has R = 2 registers"),
        ("-r 1,x", "'x' is no number"),
        ("--budget 4294967296", "4294967296"),
        ("--words 1 --words-file x", "cannot be used with"),
        ("--words-file nothing", "nothing: No such file"),
    ] {
        let said = draw(&parted(&format!("{GCD} --trace {arguments} -o {path}"))).message(2);
        assert!(said.contains(message), "{said}");
    }
    let arguments = ["draw", "-", "--trace", "--words-file", "-", "-o", &path];
    let said = with_input(&arguments, text_of(GCD).as_bytes()).message(2);
    assert_eq!(said, "gutkavu: standard input can be only one of the files\n");
    assert!(folder.is_empty());
}

/// Ctrl-C: the picture is that of what had been run.
#[test]
fn a_run_that_is_broken_off() {
    let folder = Scratch::new("trace");
    let path = folder.path("x.dot");
    let long = "draw examples/p11.txt --trace --budget 4294967295";
    let children =
        [long.to_string(), format!("{long} -o {path}")].map(|line| start(&parted(&line)));
    children.iter().for_each(interrupt);
    let [printed, written] =
        children.map(|child| Ran::of(child.wait_with_output().expect("an end")));
    assert_eq!((printed.status, &printed.err[..]), (130, ""));
    assert_eq!((written.status, &written.out[..], &written.err[..]), (130, "", ""));
    for picture in [printed.out, folder.text("x.dot")] {
        let [count] = blocks(&picture)[..] else { panic!("one block") };
        assert!(count > 0 && picture.ends_with("}\n"), "{picture}");
        let wanted = format!("all registers 0: broken off, {count} blocks in {count} cycles");
        assert_eq!(title(&picture), wanted);
        assert_eq!(edges(&picture), [format!("0 -> 0 × {count}")]);
    }
}

/// How far it is, on a terminal alone.
#[test]
fn progress() {
    let long = "gutkavu draw examples/p11.txt --trace --budget 4294967295";
    let ways = ["> /dev/null", "2>&1 > /dev/null | cat", "--json > /dev/null"];
    let side_by_side = ways.map(|rest| {
        let line = format!("timeout --foreground -s INT 1 {long} {rest}");
        thread::spawn(move || on_terminal(&line, &[]))
    });
    let [seen, unseen, json] = side_by_side.map(|one| one.join().expect("what is shown"));
    assert!(seen.contains(" of 4294967295 (") && seen.ends_with(" \r"), "{seen:?}");
    assert_eq!((&unseen[..], &json[..]), ("", ""));
}
