//! `--json`: every line is a value, and no key has another name than the ones fixed here.

mod common;

use common::{examples, gutkavu, parted, with_input, Scratch};
use serde_json::Value;
use std::collections::BTreeMap;

/// Arguments that every example takes, in place of FILE its name, and the keys of all its answers.
/// Those of objects within stand in brackets.
const KEYS: [(&str, &str); 10] = [
    ("check FILE", "blocks file registers"),
    ("list FILE", "file states(blocks starter state wires) wires"),
    (
        "states FILE",
        "blocks file registers \
         states(blocks halts leads_to may_change starter state wires) unreachable wires",
    ),
    (
        "wires FILE",
        "file states(next_registers next_state starter state wires(arrival_of block code \
         edge(branch from to) ending exit_to flag_where index instruction literal operands \
         register role wire))",
    ),
    (
        "run FILE -r 1 --words 5,6,7,8",
        "budget file graph(blocks flag next outcome registers) \
         machine(blocks cycles flag next outcome registers) outcome start",
    ),
    (
        "run FILE -r 1 --words 5,6,7,8 --trace",
        "blocks budget changed(after before register) cycle file flag \
         graph(blocks flag next outcome registers) \
         machine(blocks cycles flag next outcome registers) next outcome start state word",
    ),
    ("bounds FILE", "file registers(after(highest lowest) before(highest lowest) register) state"),
    ("touches FILE", "file registers(first register states)"),
    ("draw FILE", "dot file"),
    ("format FILE", "file text"),
];

/// The keys of values, each with those within.
#[derive(Default)]
struct Keys(BTreeMap<String, Keys>);

impl Keys {
    fn add(&mut self, value: &Value) {
        match value {
            Value::Object(fields) => {
                for (name, value) in fields {
                    self.0.entry(name.clone()).or_default().add(value);
                }
            }
            Value::Array(values) => values.iter().for_each(|value| self.add(value)),
            _ => {}
        }
    }

    fn text(&self) -> String {
        let one = |(name, within): (&String, &Keys)| match within.0.is_empty() {
            true => name.clone(),
            false => format!("{name}({})", within.text()),
        };
        self.0.iter().map(one).collect::<Vec<_>>().join(" ")
    }
}

/// The keys of all lines that are printed, as one text.
fn keys_of(values: &[Value]) -> String {
    assert!(values.iter().all(Value::is_object), "{values:?}");
    let mut keys = Keys::default();
    values.iter().for_each(|value| keys.add(value));
    keys.text()
}

#[test]
fn answers() {
    for (arguments, wanted) in KEYS {
        let mut values = Vec::new();
        for (file, _) in examples() {
            let ran = gutkavu(&parted(&format!("{} --json", arguments.replace("FILE", &file))));
            assert_eq!((ran.status, &ran.err[..]), (0, ""), "{arguments} {file}");
            assert!(ran.out.ends_with("}\n"), "{arguments} {file}");
            values.extend(ran.json());
        }
        assert_eq!(keys_of(&values), wanted, "{arguments}");
    }
}

#[test]
fn a_picture_in_a_file() {
    let folder = Scratch::new("json");
    let line = format!("draw examples/gcd.txt -o {} --json", folder.path("x.dot"));
    assert_eq!(keys_of(&gutkavu(&parted(&line)).json()), "file output");
}

#[test]
fn recordings() {
    let captures = "examples/turn-array.capture examples/turn-model.capture";
    let ran = gutkavu(&parted(&format!("compare -r 8 {captures} --json")));
    let wanted = "differs(cycle fields lines(line text)) first second shared";
    assert_eq!(keys_of(&ran.json()), wanted);
    let model = "examples/turn-model.capture examples/turn-model.capture";
    let ran = gutkavu(&parted(&format!("compare -r 8 {model} --json")));
    assert_eq!(keys_of(&ran.json()), "differs first second shared");
}

/// Of a text, of a call and of a recording.
#[test]
fn refusals() {
    let with_line = "column file line message refusal text";
    for command in
        ["check", "list", "states", "wires", "run", "bounds", "touches", "draw", "format"]
    {
        let ran = with_input(&[command, "-", "--json"], b"graph,1,1\nblock,1\n");
        assert_eq!((ran.refusal(), &keys_of(&ran.json())[..]), (3, with_line), "{command}");
        let ran = with_input(&[command, "-", "--json"], &[b'x'; 20_000]);
        assert_eq!((ran.refusal(), &keys_of(&ran.json())[..]), (1, "file message refusal"));
    }
    for (line, number) in [
        ("run examples/turn.txt", 12),
        ("run examples/gcd.txt --start 3", 11),
        ("draw examples/gcd.txt --trace --start 9", 9),
        ("wires examples/gcd.txt --state 9", 9),
        ("bounds examples/gcd.txt -r 0=1..0", 13),
        ("compare -r 0 /dev/null /dev/null", 17),
    ] {
        let ran = gutkavu(&parted(&format!("{line} --json")));
        assert_eq!((ran.refusal(), &keys_of(&ran.json())[..]), (number, "file message refusal"));
    }
    let ran = gutkavu(&parted("compare -r 8 examples/gcd.txt examples/gcd.txt --json"));
    assert_eq!((ran.refusal(), &keys_of(&ran.json())[..]), (17, with_line));
}
