//! Refused texts as they are printed.

use super::excerpt::{Excerpt, WIDTH};
use super::Refused;
use crate::output::{Answer, Paint};
use gutkavu::Graph;
use std::fs::File;

fn refused(text: &[u8]) -> Box<Refused> {
    let refused = Graph::read(text).expect_err("a text that is refused");
    Refused::text("a.txt", text, refused)
}

/// As on a stream that is no terminal.
fn printed(text: &[u8]) -> String {
    let file = File::open(concat!(env!("CARGO_MANIFEST_DIR"), "/Cargo.toml")).unwrap();
    refused(text).text(Paint::of(&file))
}

/// The marked characters of a line that is shown.
fn marked(excerpt: &Excerpt) -> &str {
    let (before, within) = excerpt.mark.expect("a mark");
    &excerpt.text[before..before + within]
}

#[test]
fn a_marked_field() {
    let text = b"graph,1,2\nblock,0\nsub,3,1,0\nhalt\n";
    let expected = "a.txt:3: register 3 is not below R = 2 (refusal 4)\n    sub,3,1,0\n        ^\n";
    assert_eq!(printed(text), expected);
}

#[test]
fn no_line_is_shown() {
    let early = "a.txt:2: the text ends before block 0 (refusal 3)\n";
    assert_eq!(printed(b"graph,1,1\n"), early);
    let empty = "a.txt:1: the text is empty: graph,B,R is due first (refusal 3)\n";
    assert_eq!(printed(b""), empty);
    assert_eq!(printed(b"\n"), "a.txt:1: the line is empty (refusal 2)\n");
    let long = "a.txt: the text has more than 16384 bytes (refusal 1)\n";
    assert_eq!(printed(&[b'x'; 16_385]), long);
}

#[test]
fn a_mark_past_the_end() {
    let expected = "a.txt:1: `graph` is written graph,B,R (refusal 2)\n    graph,1\n           ^\n";
    assert_eq!(printed(b"graph,1\n"), expected);
}

#[test]
fn control_characters() {
    let expected = "a.txt:1: a carriage return: lines end in a line feed alone (refusal 2)\n    \
                    graph,1,1\\r\n             ^^\n";
    assert_eq!(printed(b"graph,1,1\r\n"), expected);
    let expected = "a.txt:1: a tab: fields are parted by commas alone (refusal 2)\n    \
                    set\\t0\\x1b[31m\\x00\\\\\n       ^^\n";
    assert_eq!(printed(b"set\t0\x1b[31m\0\\\n"), expected);
}

#[test]
fn bytes_that_are_not_utf8() {
    let expected = "a.txt:1: a graph text has no byte 0xff (refusal 2)\n    \
                    graph,\\xff,\\xfe\n          ^^^^\n";
    assert_eq!(printed(b"graph,\xff,\xfe\n"), expected);
    // The minus of two bytes more than it has characters.
    let expected = "a.txt:1: a minus is written `-`, not U+2212 (refusal 2)\n    \
                    set,0,\\xe2\\x88\\x921\n          ^^^^^^^^^^^^\n";
    assert_eq!(printed("set,0,\u{2212}1\n".as_bytes()), expected);
}

#[test]
fn a_long_line() {
    let start = "set,0,".to_string() + &"1".repeat(5_000) + "\n";
    let shown = refused(start.as_bytes()).place.unwrap();
    assert_eq!(shown.text, "set,0,".to_string() + &"1".repeat(88) + "...");
    assert_eq!((shown.column, shown.mark), (Some(7), Some((6, 88))));
    let far = "0".repeat(5_000) + "#" + &"1".repeat(5_000) + "\n";
    let shown = refused(far.as_bytes()).place.unwrap();
    assert_eq!(shown.text, format!("...{}#{}...", "0".repeat(47), "1".repeat(46)));
    assert_eq!((shown.column, shown.mark), (Some(5_001), Some((50, 1))));
}

/// Wherever the marked part of a long line is, its start is shown, and escapes are shown whole.
#[test]
fn marks_in_long_lines() {
    let lines = [vec![b'a'; 300], vec![0xff; 300], b"a\xff\\\t".repeat(75)];
    for line in lines {
        for start in 0..=line.len() {
            for length in [0, 1, 30, 300] {
                let end = (start + length).min(line.len());
                let excerpt = Excerpt::of(&line, Some(start..end));
                assert!(excerpt.text.len() <= WIDTH);
                let (before, within) = excerpt.mark.unwrap();
                assert!(within > 0 && before <= excerpt.text.len());
                let all = line[start..end].escape_ascii().to_string();
                if !all.is_empty() {
                    assert!(all.starts_with(marked(&excerpt)), "{excerpt:?}");
                    let next = excerpt.text.as_bytes().get(before + within);
                    assert!(marked(&excerpt) == all || next == Some(&b'.'), "{excerpt:?}");
                }
            }
        }
    }
}

#[test]
fn a_span_that_the_line_does_not_have() {
    for span in [5..9, 4..4, 9..12, 0..99] {
        let (before, within) = Excerpt::of(b"halt", Some(span)).mark.unwrap();
        assert!(before <= 4 && (1..=4).contains(&within));
    }
    assert_eq!(Excerpt::of(b"", Some(3..5)), Excerpt { text: String::new(), mark: Some((0, 1)) });
}

#[test]
fn json_fields() {
    let json = |text: &[u8]| serde_json::to_string(&refused(text)).unwrap();
    let line = r#"{"file":"a.txt","refusal":2,"message":"a graph text has no byte 0xff","#;
    let place = r#""line":1,"column":5,"text":"halt\\xff"}"#;
    assert_eq!(json(b"halt\xff\n"), line.to_string() + place);
    let early = r#"{"file":"a.txt","refusal":3,"message":"the text ends before block 0","#;
    let place = r#""line":2,"column":null,"text":""}"#;
    assert_eq!(json(b"graph,1,1\n"), early.to_string() + place);
    let long = r#"{"file":"a.txt","refusal":1,"message":"the text has more than 16384 bytes"}"#;
    assert_eq!(json(&[b'\n'; 16_385]), long);
}
