//! The README's commands print what stands below them there.

mod common;

use common::{shell, text_of, Scratch};
use std::path::Path;

/// A command of the README, and the lines that follow it.
#[derive(Debug, PartialEq, Eq)]
struct Shown {
    command: String,
    output: String,
}

/// The commands of this program in indented blocks, each after `$`. What it prints goes on to the
/// next command or to the block's end; empty lines within are lines of it.
fn shown(readme: &str) -> Vec<Shown> {
    let mut all: Vec<Shown> = Vec::new();
    let (mut open, mut empty) = (false, 0);
    for line in readme.lines() {
        match line.strip_prefix("    ") {
            Some(text) if text.starts_with("$ ") => {
                open = is_of_this_program(text);
                if open {
                    all.push(Shown { command: text[2..].to_string(), output: String::new() });
                }
                empty = 0;
            }
            Some(text) if open => {
                let output = &mut all.last_mut().expect("a command").output;
                *output += &format!("{}{text}\n", "\n".repeat(empty));
                empty = 0;
            }
            None if line.is_empty() => empty += 1,
            _ => (open, empty) = (false, 0),
        }
    }
    all
}

/// Whether a line runs it, perhaps behind a pipe or with a setting before.
fn is_of_this_program(line: &str) -> bool {
    line.trim_start().starts_with("$ ") && line.split_whitespace().any(|word| word == "gutkavu")
}

/// What is wrong with a command that does not print what is shown.
fn fault(shown: &Shown, folder: &Path) -> Option<String> {
    let Shown { command, output } = shown;
    let ran = shell(&format!("{{ {command}\n}} 2>&1"), folder);
    let is_shown = ran.out == *output && ran.status < 2;
    (!is_shown).then(|| {
        format!("`{command}` ends with {}\nit prints\n{}\nnot\n{output}", ran.status, ran.out)
    })
}

#[test]
fn the_readme_shows_what_is_printed() {
    let folder = Scratch::with_examples("readme");
    let readme = text_of("README.md");
    let all = shown(&readme);
    for command in ["check", "states", "run", "draw"] {
        let begins = format!("gutkavu {command} ");
        assert!(all.iter().any(|one| one.command.starts_with(&begins)), "{command} is not shown");
    }
    // None is left out for standing in a block of another kind.
    let lines = readme.lines().filter(|line| is_of_this_program(line));
    assert_eq!(lines.count(), all.len(), "a command that is not in an indented block");
    let faults: Vec<String> = all.iter().filter_map(|one| fault(one, &folder.0)).collect();
    assert!(faults.is_empty(), "{}", faults.join("\n\n"));
}

const TEXT: &str = "\
Of a graph,

    $ gutkavu touches examples/gcd.txt
    register  first state  states
    r0        1            1
    r1        1            1
    $ gutkavu run examples/p11.txt --trace --budget 1
    cycle  state  blocks  flag   next  changed
        1      0  0       clear  0

             graph    machine
    outcome  spent    spent
    cycles            1
    blocks   1        1
    next     block 0  state 0
    flag     clear    clear
    r0       0        0
    $ ls
    examples
    $ gutkavu check nothing.txt
    gutkavu: nothing.txt: No such file or directory (os error 2)

is shown.

    another block
";

/// That of a file which is not there has a wrong status, the others no fault.
#[test]
fn what_is_shown_is_found() {
    let folder = Scratch::with_examples("readme");
    let all = shown(TEXT);
    let faults: Vec<bool> = all.iter().map(|one| fault(one, &folder.0).is_some()).collect();
    assert_eq!(faults, [false, false, true], "{all:?}");
    assert_eq!(all[2].output.lines().count(), 1, "{all:?}");
}

/// A line that is left out, put in or changed, an empty one too.
#[test]
fn every_line_counts() {
    let folder = Scratch::with_examples("readme");
    let Shown { command, output } = &shown(TEXT)[1];
    let lines: Vec<&str> = output.lines().collect();
    assert_eq!(lines.len(), 10);
    for index in 0..lines.len() {
        let (before, rest) = lines.split_at(index);
        let changed = format!("{}x", rest[0]);
        for lines in [
            [before, &rest[1..]].concat(),
            [before, &[""], rest].concat(),
            [before, &[&changed[..]], &rest[1..]].concat(),
        ] {
            let output = lines.iter().map(|line| format!("{line}\n")).collect();
            let other = Shown { command: command.clone(), output };
            assert!(fault(&other, &folder.0).is_some(), "{other:?}");
        }
    }
}
