//! Transcripts: every subcommand on every example, and refusals; what is printed stands in
//! `transcripts/`.
//!
//! With `GUTKAVU_WRITE=1` in the environment the files of `transcripts/` are written anew, to be
//! read through before they are kept.

mod common;

use common::{project, shell, Scratch};
use std::fs;
use std::path::PathBuf;

/// A command, and the lines that follow it.
struct Shown {
    command: String,
    output: String,
}

impl Shown {
    /// What it prints now, in a folder that has the examples. The status is shown where it is not
    /// 0.
    fn printed(&self, folder: &Scratch) -> String {
        let ran = shell(&format!("{} 2>&1", self.command), &folder.0);
        match ran.status {
            0 => ran.out,
            status => format!("{}status {status}\n", ran.out),
        }
    }
}

/// The commands behind `$ ` of lines that belong together.
fn commands<'a>(lines: impl Iterator<Item = &'a str>) -> Vec<Shown> {
    let mut all: Vec<Shown> = Vec::new();
    for line in lines {
        match line.strip_prefix("$ ") {
            Some(command) => {
                all.push(Shown { command: command.to_string(), output: String::new() });
            }
            None => {
                let last = all.last_mut().expect("a transcript begins with a command");
                last.output += &format!("{line}\n");
            }
        }
    }
    all
}

fn transcripts() -> Vec<PathBuf> {
    let folder = project().join("cli/tests/transcripts");
    let files = fs::read_dir(folder).expect("the transcripts");
    let mut paths: Vec<PathBuf> = files.map(|file| file.expect("a file").path()).collect();
    paths.sort();
    paths
}

#[test]
fn transcripts_are_what_is_printed() {
    let folder = Scratch::with_examples("transcripts");
    let write = std::env::var_os("GUTKAVU_WRITE").is_some();
    let paths = transcripts();
    assert!(paths.len() >= 11, "a transcript for each example, and one of refusals");
    for path in paths {
        let text = fs::read_to_string(&path).expect("a transcript");
        let mut anew = String::new();
        for shown in commands(text.lines()) {
            let printed = shown.printed(&folder);
            assert!(write || printed == shown.output, "{}\n{printed}", shown.command);
            anew += &format!("$ {}\n{printed}", shown.command);
        }
        match write {
            true => fs::write(&path, anew).expect("the transcript is written"),
            false => assert_eq!(anew, text),
        }
    }
}

/// Every subcommand is run on every example.
#[test]
fn transcripts_have_every_subcommand() {
    let paths = transcripts();
    for (name, _) in common::examples() {
        let base = name.trim_start_matches("examples/");
        let path = paths.iter().find(|path| path.ends_with(base)).expect("its transcript");
        let text = fs::read_to_string(path).expect("a transcript");
        for command in
            ["check", "list", "states", "wires", "run", "bounds", "touches", "draw", "format"]
        {
            assert!(text.contains(&format!("$ gutkavu {command} {name}")), "{name}: {command}");
        }
    }
}
