//! `check`: messages like a compiler's, for every refusal of a text.

mod common;

use common::{examples, gutkavu, on_terminal, shell, with_input, Scratch};
use serde_json::json;
use std::ffi::OsString;
use std::os::unix::ffi::OsStringExt;

#[test]
fn the_examples_are_admitted() {
    let names: Vec<String> = examples().into_iter().map(|(name, _)| name).collect();
    let arguments: Vec<&str> =
        [&["check"], &names.iter().map(String::as_str).collect::<Vec<_>>()[..]].concat();
    let answer = gutkavu(&arguments).answer();
    assert_eq!(answer.lines().count(), names.len());
    assert!(answer.contains("examples/gcd.txt: admitted, blocks 6, registers 2\n"), "{answer}");
    assert_eq!(gutkavu(&[&arguments[..], &["--quiet"]].concat()).answer(), "");
}

/// Refused texts count for status 1, files that are not there for status 2, and the others are told
/// all the same.
#[test]
fn several_files() {
    let folder = Scratch::new("check");
    let bad = folder.file("bad.txt", b"graph,1,2\nblock,0\nsub,3,1,0\nhalt\n");
    let ran = gutkavu(&["check", "examples/gcd.txt", &bad, "examples/p9.txt"]);
    let expected = format!(
        "examples/gcd.txt: admitted, blocks 6, registers 2\n\
         {bad}:3: register 3 is not below R = 2 (refusal 4)\n    sub,3,1,0\n        ^\n\
         examples/p9.txt: admitted, blocks 5, registers 2\n"
    );
    assert_eq!((ran.status, &ran.out[..], &ran.err[..]), (1, &expected[..], ""));

    // Refusals are told all the same, and count.
    let quiet = gutkavu(&["check", "--quiet", "examples/gcd.txt", &bad, "examples/p9.txt"]);
    let refused: String =
        expected.lines().skip(1).take(3).map(|line| format!("{line}\n")).collect();
    assert_eq!((quiet.status, quiet.out, &quiet.err[..]), (1, refused, ""));

    let ran = gutkavu(&["check", &bad, "nothing.txt", "examples/gcd.txt"]);
    assert_eq!(ran.status, 2);
    assert!(ran.err.starts_with("gutkavu: nothing.txt: No such file"), "{}", ran.err);
    assert!(ran.out.contains("(refusal 4)") && ran.out.contains("admitted"), "{}", ran.out);
}

/// A text for each refusal, and what is said of it.
#[test]
fn every_refusal() {
    for (text, line, number) in [
        (&b""[..], ":1:", 3),
        (b"graph,65,1\n", ":1:", 2),
        (b"graph,64,1\n", ":2:", 3),
        (b"graph,1,1\nblock,0\nhalt", ":3:", 2),
        (b"graph,1,1\nblock,1\n", ":2:", 3),
        (b"graph,1,1\nblock,0\nset,1,0\nhalt\n", ":3:", 4),
        (b"graph,2,1\nblock,0\ngoto,2\n", ":3:", 5),
        (&[b'x'; 16_385], ":", 1),
        (&[0; 300_000], ":", 1),
    ] {
        let ran = with_input(&["check", "-"], text);
        let first = ran.out.lines().next().expect("a message");
        assert!(first.starts_with(&format!("<stdin>{line} ")), "{first}");
        assert!(first.ends_with(&format!(" (refusal {number})")), "{first}");
        assert_eq!((ran.status, &ran.err[..]), (1, ""));
    }
}

/// What cannot be printed is escaped, and a long line is cut.
#[test]
fn binary_input() {
    let binary: Vec<u8> = (0..=255).cycle().take(5_000).collect();
    let ran = with_input(&["check", "-"], &binary);
    assert_eq!(ran.status, 1);
    assert!(ran.out.is_ascii() && !ran.out.contains('\x1b'), "{}", ran.out);
    assert!(ran.out.lines().all(|line| line.len() < 160), "{}", ran.out);
    let json = &with_input(&["check", "-", "--json"], &binary).json()[0];
    assert_eq!((&json["refusal"], &json["line"]), (&json!(2), &json!(1)));
}

#[test]
fn names_that_are_no_text() {
    let folder = Scratch::new("names");
    let name = OsString::from_vec(b"gr\xffph.txt".to_vec());
    std::fs::write(folder.0.join(&name), b"graph,1,1\nblock,0\nhalt\n").expect("a file");
    let ran = gutkavu(&[OsString::from("check"), folder.0.join(&name).into_os_string()]);
    assert!(ran.answer().contains("ph.txt: admitted"));
    // What would act on a terminal is escaped.
    let name = folder.file("\x1b[2J\n.txt", b"graph,1,1\nblock,0\nhalt\n");
    let answer = gutkavu(&["check", &name]).answer();
    assert!(answer.contains("/\\u{1b}[2J\\n.txt: admitted"), "{answer}");
}

#[test]
fn messages_as_json() {
    let ran = with_input(&["check", "-", "--json"], b"graph,1,2\nblock,0\nsub,3,1,0\nhalt\n");
    let expected = json!({
        "file": "<stdin>",
        "refusal": 4,
        "message": "register 3 is not below R = 2",
        "line": 3,
        "column": 5,
        "text": "sub,3,1,0",
    });
    assert_eq!((ran.status, ran.json()), (1, vec![expected]));
    let ran = gutkavu(&["check", "examples/gcd.txt", "--json"]);
    assert_eq!(ran.json(), [json!({"file": "examples/gcd.txt", "blocks": 6, "registers": 2})]);
}

/// Every other subcommand refuses such a text on standard error, and answers nothing.
#[test]
fn other_commands_refuse_texts() {
    let text = b"graph,1,2\nblock,0\nsub,3,1,0\nhalt\n";
    for command in ["states", "wires", "run", "bounds", "touches", "draw", "format"] {
        let ran = with_input(&[command, "-"], text);
        assert_eq!((ran.status, &ran.out[..]), (1, ""), "{command}");
        assert!(
            ran.err.starts_with("<stdin>:3: register 3 is not below R = 2 (refusal 4)\n"),
            "{command}"
        );
        let ran = with_input(&[command, "-", "--json"], text);
        assert_eq!((ran.status, &ran.err[..]), (1, ""), "{command}");
        assert_eq!(ran.json()[0]["refusal"], json!(4), "{command}");
    }
}

/// Colour on a terminal alone, and not where `NO_COLOR` is set.
#[test]
fn colour() {
    let folder = Scratch::new("colour");
    let bad = folder.file("bad.txt", b"graph,1,2\nblock,0\nsub,3,1,0\nhalt\n");
    let line = format!("gutkavu check {bad}");
    assert!(on_terminal(&line, &[]).contains("\x1b[1;31mregister 3"));
    // What is set to nothing is not set.
    assert!(on_terminal(&line, &[("NO_COLOR", "")]).contains('\x1b'));
    for setting in [("NO_COLOR", "1"), ("TERM", "dumb")] {
        assert!(!on_terminal(&line, &[setting]).contains('\x1b'), "{setting:?}");
    }
    assert!(!shell(&format!("TERM=xterm {line}"), &folder.0).out.contains('\x1b'));
}

/// Each stream is looked at by itself: here standard error alone is a terminal, then not.
#[test]
fn colour_of_messages() {
    let folder = Scratch::new("colour");
    let bad = folder.file("bad.txt", b"graph,1,2\nblock,0\nsub,3,1,0\nhalt\n");
    let line = format!("gutkavu states {bad}");
    assert!(on_terminal(&format!("{line} > /dev/null"), &[]).contains("\x1b[1;31mregister 3"));
    assert!(!on_terminal(&line, &[("NO_COLOR", "1")]).contains('\x1b'));
    assert!(!on_terminal(&format!("{line} 2>&1 | cat"), &[]).contains('\x1b'));
    let trouble = on_terminal("gutkavu states nothing.txt", &[]);
    assert!(trouble.starts_with("\x1b[1;31mgutkavu:\x1b[0m nothing.txt: "), "{trouble}");
    assert!(!on_terminal("gutkavu states nothing.txt", &[("NO_COLOR", "1")]).contains('\x1b'));
}

#[test]
fn standard_input_twice() {
    let ran = gutkavu(&["check", "-", "examples/gcd.txt", "-"]);
    assert_eq!(ran.message(2), "gutkavu: standard input can be only one of the files\n");
}
