//! `list`: the bytes of the proved program `list`.

mod common;

use common::{examples, gutkavu, project, text_of, with_input, Scratch};
use reference::generate::{cases, exact};
use reference::listing::listing;
use std::fs::File;
use std::process::{Command, Stdio};

/// What the proved program prints of a file.
fn proved(file: &str) -> Vec<u8> {
    let program = project().join("crates/list/out/list");
    assert!(program.exists(), "crates/list/out/list is missing: run `rt run` in crates/list first");
    let mut list = Command::new(program);
    list.stdin(File::open(file).expect("a file")).stderr(Stdio::inherit());
    list.output().expect("list starts").stdout
}

/// The examples, the longest texts, longer ones, and generated ones, refused ones among them.
fn texts() -> Vec<Vec<u8>> {
    let mut texts: Vec<Vec<u8>> =
        examples().into_iter().map(|(_, text)| text.into_bytes()).collect();
    for length in [4_096, 11_585, 11_586, 11_587, 16_383, 16_384, 16_385, 65_537, 300_000] {
        texts.push(exact::text(length).expect("a text of that length"));
    }
    texts.extend([Vec::new(), vec![0; 300_000], (0..=255).collect()]);
    texts.extend(cases(23, 500).into_iter().map(|case| case.text));
    texts
}

#[test]
fn list_prints_what_the_proved_program_prints() {
    let folder = Scratch::new("list");
    let (mut admitted, mut refused) = (0, [0; 6]);
    for text in texts() {
        let file = folder.file("text", &text);
        let expected = String::from_utf8(proved(&file)).expect("text");
        let ran = gutkavu(&["list", &file]);
        assert_eq!(ran.out, expected);
        assert_eq!(ran.out, listing(&text));
        assert_eq!(ran.err, "");
        match expected.strip_prefix("refused,") {
            None => admitted += 1,
            Some(rest) => refused[usize::from(rest.as_bytes()[0] - b'0')] += 1,
        }
        assert_eq!(ran.status, i32::from(expected.starts_with("refused,")));
    }
    assert!(
        admitted > 100 && refused[1..].iter().all(|&count| count > 0),
        "{admitted} {refused:?}"
    );
}

#[test]
fn standard_input_is_listed_too() {
    let gcd = with_input(&["list", "-"], text_of("examples/gcd.txt").as_bytes());
    assert_eq!(gcd.answer(), "states,2,20\n0,0,1,2\n1,1,5,18\n");
    let long = with_input(&["list", "-"], &[b'x'; 300_000]);
    assert_eq!((long.status, &long.out[..]), (1, "refused,1,0\n"));
}

#[test]
fn a_listing_as_json() {
    let ran = gutkavu(&["list", "examples/gcd.txt", "--json"]);
    let expected = serde_json::json!({
        "file": "examples/gcd.txt",
        "wires": 20,
        "states": [
            {"state": 0, "starter": 0, "blocks": 1, "wires": 2},
            {"state": 1, "starter": 1, "blocks": 5, "wires": 18},
        ],
    });
    assert_eq!(ran.json(), [expected]);
    let refused = with_input(&["list", "-", "--json"], b"graph,1,1\nblock,1\n");
    assert_eq!((refused.refusal(), &refused.json()[0]["line"]), (3, &2.into()));
}
