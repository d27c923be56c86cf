//! The binary: its commands over standard input and output.

use reference::generate::examples::P7;
use reference::parse::parse;
use std::io::Write;
use std::process::{Command, Output, Stdio};

fn run(arguments: &[&str], input: &[u8]) -> Output {
    let mut child = Command::new(env!("CARGO_BIN_EXE_reference"))
        .args(arguments)
        .stdin(Stdio::piped())
        .stdout(Stdio::piped())
        .stderr(Stdio::piped())
        .spawn()
        .expect("the binary starts");
    let mut pipe = child.stdin.take().expect("a pipe");
    pipe.write_all(input).expect("the binary reads its input");
    drop(pipe);
    child.wait_with_output().expect("the binary ends")
}

#[test]
fn list() {
    assert_eq!(run(&["list"], P7.as_bytes()).stdout, b"states,2,20\n0,0,1,2\n1,1,5,18\n");
    assert_eq!(run(&["list"], b"").stdout, b"refused,3,1\n");
    assert_eq!(run(&["list"], &[b'x'; 16_385]).stdout, b"refused,1,0\n");
}

/// Texts of exact lengths, passed on in pieces of any size as they are.
#[test]
fn text_and_pieces() {
    let text = run(&["text", "4097"], b"").stdout;
    assert_eq!(text.len(), 4_097);
    for size in ["1", "7", "1000", "4096", "5000"] {
        assert_eq!(run(&["pieces", size], &text).stdout, text);
    }
    assert!(run(&["pieces", "1"], b"").stdout.is_empty());
    for wrong in ["1000", "-1", "x"] {
        assert!(!run(&["text", wrong], b"").status.success(), "{wrong}");
    }
}

#[test]
fn answers_come_one_line_a_case() {
    let cases = Command::new(env!("CARGO_BIN_EXE_reference"))
        .args(["cases", "3", "90"])
        .output()
        .expect("the binary ends");
    let answers = run(&["answers"], &cases.stdout).stdout;
    assert_eq!(answers.iter().filter(|&&byte| byte == b'\n').count(), 90);
    assert!(run(&["stats"], &cases.stdout).stdout.starts_with(b"read,0,"));
    assert_eq!(run(&["answers"], b"").stdout, b"");
}

#[test]
fn damaged_streams_and_unknown_commands_fail() {
    let failed = run(&["answers"], &[1, 0, 0]);
    assert!(!failed.status.success() && failed.stdout.is_empty());
    let unknown = Command::new(env!("CARGO_BIN_EXE_reference")).output().expect("it ends");
    assert!(!unknown.status.success());
}

/// What a command prints that passes.
fn passes(arguments: &[&str]) -> String {
    let output = run(arguments, b"");
    let text = String::from_utf8_lossy(&output.stdout).into_owned();
    assert!(output.status.success(), "{text}{}", String::from_utf8_lossy(&output.stderr));
    text
}

/// The proved library agrees, and every number, outcome and flag is hit.
#[test]
fn compare() {
    let text = passes(&["compare", "3", "2000"]);
    assert!(text.ends_with("seed 3: 2000 cases, 0 differ\n"), "{text}");
    assert!(text.contains("run machine,10,"), "{text}");
    assert!(text.contains("outcome of run graph with words,2,"), "{text}");
    assert!(text.contains("flag of run machine,1,1,"), "{text}");
    assert!(text.contains("flag of run machine with words,2,1,"), "{text}");
    assert!(text.contains("compare captures,18,"), "{text}");
    assert!(text.contains("outcome of compare captures,2,"), "{text}");
    assert!(text.contains("\ntouches,9,"), "{text}");
    assert!(text.contains("\noutcome of touches,1,"), "{text}");
    assert!(text.contains("\noutcome of first touching,0,"), "{text}");
    assert!(text.contains("\nbounds,13,"), "{text}");
    assert!(text.contains("\nmet in synthesise: 7 graph and 6 ("), "{text}");
    assert!(text.contains("\nmet in first touching: 7 machine and 10 ("), "{text}");
    assert!(text.contains("\nmet in bounds: 7 machine and 7 lowest ("), "{text}");
}

/// The graphs that `bench` times, as texts that are read and give the machines they should.
#[test]
fn texts() {
    let folder = std::env::temp_dir().join(format!("reference-texts-{}", std::process::id()));
    let inside = folder.join("made");
    let names = passes(&["texts", inside.to_str().expect("a name")]);
    let names: Vec<&str> = names.lines().collect();
    assert_eq!(names.len(), 12);
    for (registers, blocks) in [1, 16].into_iter().flat_map(|one| [1, 8, 64].map(|b| (one, b))) {
        for (end, reads) in [("", false), ("-in", true)] {
            let name = format!("blocks-{blocks}-registers-{registers}{end}.txt");
            assert!(names.contains(&&name[..]), "{name}");
            let text = std::fs::read(inside.join(&name)).expect("a file");
            let graph = parse(&text).expect("a graph");
            assert_eq!((graph.blocks.len(), graph.registers), (blocks, registers), "{name}");
            assert_eq!(graph.reads_words(), reads, "{name}");
        }
    }
    assert_eq!(std::fs::read_dir(&inside).expect("the folder").count(), 12);
    let file = inside.join(names[0]);
    assert!(!run(&["texts", file.to_str().expect("a name")], b"").status.success());
    std::fs::remove_dir_all(folder).expect("the folder goes");
}

/// A register of any 32 bits; anything else is a wrong use of the command.
#[test]
fn draw_touching() {
    let filled = |register| {
        let output = run(&["draw", "--touching", register], P7.as_bytes());
        assert!(output.status.success());
        String::from_utf8_lossy(&output.stdout).matches("touches r").count()
    };
    assert_eq!(["0", "1", "2", "32", "4294967295"].map(filled), [1, 1, 0, 0, 0]);
    for wrong in ["", "x", "-1", "r0", "4294967296", "0.5"] {
        let output = run(&["draw", "--touching", wrong], b"");
        assert!(!output.status.success() && output.stdout.is_empty(), "{wrong}");
        assert!(String::from_utf8_lossy(&output.stderr).contains("usage: "), "{wrong}");
    }
    assert!(!run(&["draw", "--touching"], b"").status.success());
    assert!(!run(&["draw", "0"], b"").status.success());
    assert!(!run(&["draw", "--touching", "0"], b"x\n").status.success());
}

/// The proved library's starters are the least fit set, and every count is above 0.
#[test]
fn fit() {
    let text = passes(&["fit", "3", "500"]);
    assert!(text.ends_with("seed 3: 500 graphs, 0 differ\n"), "{text}");
    assert!(text.starts_with("graphs,500\n"), "{text}");
    assert_eq!(passes(&["fit", "3", "500"]), text);
}

/// The simulator agrees with the proved library, and every count is above 0.
#[test]
fn simulate() {
    let text = passes(&["simulate", "3", "200"]);
    assert!(text.ends_with("seed 3: 200 graphs, 0 differ\n"), "{text}");
    assert!(text.starts_with("Icarus Verilog version "), "{text}");
    assert!(text.contains("\nsar worked out, amount from 2^31 up,"), "{text}");
    assert_eq!(passes(&["simulate", "3", "200"]), text);
}

/// Without the simulator nothing passes, and the message says what is missing.
#[test]
fn simulate_without_a_simulator() {
    let output = Command::new(env!("CARGO_BIN_EXE_reference"))
        .args(["simulate", "3", "1"])
        .env("PATH", "/nowhere")
        .output()
        .expect("the binary ends");
    assert!(!output.status.success() && output.stdout.is_empty());
    let message = String::from_utf8_lossy(&output.stderr).into_owned();
    assert!(message.starts_with("iverilog does not start ("), "{message}");
    assert!(message.contains("tools/install-packages"), "{message}");
}
