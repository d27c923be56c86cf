//! `wires`: the datapath, one wire a line.

mod common;

use common::{examples, gutkavu, text_of, with_input, Ran};
use serde_json::Value;

fn wires(arguments: &[&str]) -> Ran {
    gutkavu(&[&["wires"], arguments].concat())
}

/// What is printed of a text on standard input.
fn wires_of(text: &str) -> String {
    with_input(&["wires", "-"], text.as_bytes()).answer()
}

fn json(arguments: &[&str]) -> Value {
    let [value] = &wires(&[arguments, &["--json"]].concat()).json()[..] else { panic!("a value") };
    value.clone()
}

const START_OF_GCD: &str = "\
state 0: starter 0, 2 wires
wire  block  code  operands  meaning
w0        0  set   1         arrival of 0
w1        0  set   1         exit 0 -> state 1
next state w1
kept: r0, r1";

/// Worked out by hand from paper 01.
const GCD: &str = "\
state 1: starter 1, 18 wires
wire  block  code    operands      meaning
w0        1  set     1             arrival of 1
w1        1  ne      r0, r1        ite,ne,0,1,2,5
w2        1  and     w0, w1        1 -> 2 taken (true); arrival of 2
w3        1  andnot  w0, w1        1 -> 5 taken (false); arrival of 5
w4        2  ltu     r0, r1        ite,ltu,0,1,3,4
w5        2  and     w2, w4        2 -> 3 taken (true); arrival of 3
w6        2  andnot  w2, w4        2 -> 4 taken (false); arrival of 4
w7        3  sub     r1, r0        sub,1,1,0; flag where w5
w8        4  sub     r0, r1        sub,0,0,1; flag where w6
w9        3  set     1             exit 3 -> state 1
w10       4  set     1             exit 4 -> state 1
w11       4  select  w6, w10, w9   next state of the exits so far
w12       4  select  w6, w8, r0    r0 of the exits so far
w13       4  select  w6, r1, w7    r1 of the exits so far
w14       5  set     255           exit 5: halt
w15       5  select  w3, w14, w11  next state of the exits so far
w16       5  select  w3, r0, w12   r0 of the exits so far
w17       5  select  w3, r1, w13   r1 of the exits so far
next state w15
r0 := w16
r1 := w17
";

/// Likewise, with inputs, joins and a sum behind a join.
const TURN: &str = include_str!("wires-turn.txt");

#[test]
fn the_wires_of_gcd() {
    assert_eq!(wires(&["examples/gcd.txt", "--state", "1"]).answer(), GCD);
}

#[test]
fn the_wires_of_turn() {
    assert_eq!(wires(&["examples/turn.txt"]).answer(), TURN);
}

#[test]
fn all_states_have_an_empty_line_between() {
    let text = wires(&["examples/gcd.txt"]).answer();
    let (first, second) = text.split_once("\n\n").expect("two states");
    assert_eq!((first, second), (START_OF_GCD, GCD));
}

#[test]
fn a_state_that_is_not_there() {
    for state in ["2", "7", "64", "255", "4294967295"] {
        let said = wires(&["examples/gcd.txt", "--state", state]).message(1);
        let reason = format!("state {state} is not below N = 2");
        assert_eq!(said, format!("examples/gcd.txt: {reason} (refusal 9)\n"));
        let refused = wires(&["examples/gcd.txt", "--state", state, "--json"]);
        assert_eq!((refused.refusal(), &refused.json()[0]["message"]), (9, &reason.into()));
    }
}

#[test]
fn standard_input() {
    assert_eq!(wires_of(&text_of("examples/turn.txt")), TURN);
}

/// Some wires in full: each has the fields of its role, and no others.
#[test]
fn the_wires_of_gcd_in_json() {
    let answer = json(&["examples/gcd.txt", "--state", "1"]);
    assert_eq!(answer["file"], "examples/gcd.txt");
    let state = &answer["states"][0];
    assert_eq!((&state["state"], &state["starter"]), (&Value::from(1), &Value::from(1)));
    assert_eq!(state["next_state"], "w15");
    assert_eq!(state["next_registers"], serde_json::json!(["w16", "w17"]));
    let wire = |text: &str| serde_json::from_str::<Value>(text).expect("JSON");
    for text in [
        r#"{"wire":0,"code":"set","literal":1,"block":1,"role":"start","arrival_of":[1]}"#,
        r#"{"wire":1,"code":"ne","operands":["r0","r1"],"block":1,"role":"comparison",
            "ending":"ite,ne,0,1,2,5","arrival_of":[]}"#,
        r#"{"wire":3,"code":"andnot","operands":["w0","w1"],"block":1,"role":"branch",
            "edge":{"from":1,"to":5,"branch":false},"arrival_of":[5]}"#,
        r#"{"wire":7,"code":"sub","operands":["r1","r0"],"flag_where":"w5","block":3,
            "role":"instruction","index":0,"instruction":"sub,1,1,0","arrival_of":[]}"#,
        r#"{"wire":10,"code":"set","literal":1,"block":4,"role":"exit","exit_to":1,
            "edge":{"from":4,"to":1,"branch":null},"arrival_of":[]}"#,
        r#"{"wire":14,"code":"set","literal":255,"block":5,"role":"exit","exit_to":null,
            "edge":{"from":5,"to":null,"branch":null},"arrival_of":[]}"#,
        r#"{"wire":15,"code":"select","operands":["w3","w14","w11"],"block":5,"role":"exit_state",
            "edge":{"from":5,"to":null,"branch":null},"arrival_of":[]}"#,
        r#"{"wire":17,"code":"select","operands":["w3","r1","w13"],"block":5,
            "role":"exit_register","register":1,"edge":{"from":5,"to":null,"branch":null},
            "arrival_of":[]}"#,
    ] {
        let wanted = wire(text);
        let index = wanted["wire"].as_u64().expect("a number") as usize;
        assert_eq!(state["wires"][index], wanted);
    }
}

/// The columns of a row, cut where those of the head begin.
fn cells<'a>(head: &str, row: &'a str) -> Vec<&'a str> {
    let names = ["wire", "block", "code", "operands", "meaning"];
    let starts = names.map(|name| head.find(name).expect("a column").min(row.len()));
    let ends = starts[1..].iter().copied().chain([row.len()]);
    starts.iter().zip(ends).map(|(&start, end)| row[start..end].trim()).collect()
}

/// The operands' column, as JSON has it.
fn operands(wire: &Value) -> String {
    match wire.get("operands").and_then(Value::as_array) {
        Some(names) => names.iter().filter_map(Value::as_str).collect::<Vec<_>>().join(", "),
        None => wire["literal"].to_string(),
    }
}

/// What JSON says of arrivals, flags and lines stands in the meaning as well.
fn said(wire: &Value) -> Vec<String> {
    let blocks = wire["arrival_of"].as_array().expect("a list").iter().map(Value::to_string);
    let blocks = blocks.collect::<Vec<_>>().join(", ");
    let arrival = (!blocks.is_empty()).then(|| format!("arrival of {blocks}"));
    let flag = wire.get("flag_where").and_then(Value::as_str);
    let flag = flag.map(|arrival| format!("flag where {arrival}"));
    let lines = ["instruction", "ending"].map(|name| wire.get(name).and_then(Value::as_str));
    let lines = lines.into_iter().flatten().map(String::from);
    arrival.into_iter().chain(flag).chain(lines).collect()
}

fn wire_agrees(cells: &[&str], index: usize, wire: &Value) {
    let name = format!("w{index}");
    assert_eq!((cells[0], format!("w{}", wire["wire"])), (&name[..], name.clone()));
    assert_eq!(cells[1], wire["block"].to_string());
    assert_eq!(cells[2], wire["code"]);
    assert_eq!(cells[3], operands(wire));
    let parts: Vec<&str> = cells[4].split("; ").collect();
    let missing = said(wire).into_iter().find(|part| !parts.contains(&&part[..]));
    assert_eq!(missing, None, "in {parts:?}");
    assert!(parts.iter().all(|part| !part.is_empty()));
}

/// The lines below the wires, as JSON has them.
fn next_lines(state: &Value) -> Vec<String> {
    let registers = state["next_registers"].as_array().expect("a list").iter().enumerate();
    let named =
        registers.map(|(index, next)| (format!("r{index}"), next.as_str().expect("a name")));
    let (kept, changed): (Vec<_>, Vec<_>) = named.partition(|(name, next)| name == next);
    let kept: Vec<String> = kept.into_iter().map(|(name, _)| name).collect();
    let kept = (!kept.is_empty()).then(|| format!("kept: {}", kept.join(", ")));
    let changed = changed.into_iter().map(|(name, next)| format!("{name} := {next}"));
    let first = format!("next state {}", state["next_state"].as_str().expect("a name"));
    [first].into_iter().chain(changed).chain(kept).collect()
}

fn state_agrees(text: &str, state: &Value) {
    let mut lines = text.lines();
    let wires = state["wires"].as_array().expect("a list");
    let (number, starter, count) = (&state["state"], &state["starter"], wires.len());
    let head = format!("state {number}: starter {starter}, {count} wires");
    assert_eq!(lines.next(), Some(&head[..]));
    let head = lines.next().expect("a head");
    for (index, wire) in wires.iter().enumerate() {
        let row = lines.next().expect("a row");
        assert!(row.len() <= 90, "{row}");
        wire_agrees(&cells(head, row), index, wire);
    }
    assert_eq!(lines.collect::<Vec<_>>(), next_lines(state));
}

#[test]
fn json_agrees_with_the_text() {
    for (file, _) in examples() {
        let (text, answer) = (wires(&[&file]).answer(), json(&[&file]));
        let states = answer["states"].as_array().expect("a list");
        let texts: Vec<&str> = text.split("\n\n").collect();
        assert_eq!(texts.len(), states.len());
        texts.iter().zip(states).for_each(|(text, state)| state_agrees(text, state));
    }
}

/// Blocks that follow one another by `goto` share one wire, and a literal is signed.
#[test]
fn shared_arrivals_and_signed_literals() {
    let text = "graph,3,1\nblock,0\ngoto,1\nblock,1\nset,0,-2147483648\ngoto,2\nblock,2\nhalt\n";
    let text = wires_of(text);
    assert!(text.contains("\nw0        0  set   1            arrival of 0, 1, 2\n"), "{text}");
    assert!(text.contains("\nw1        1  set   -2147483648  set,0,-2147483648\n"), "{text}");
}

/// Both edges of an `ite` may lead to one block, and both may end the cycle.
#[test]
fn the_edges_of_an_ite_are_told_apart() {
    let text = wires_of("graph,2,1\nblock,0\nite,eq,0,0,1,1\nblock,1\nite,ne,0,0,0,0\n");
    for part in [
        "0 -> 1 taken (true)\n", "0 -> 1 taken (false)\n", "joins 0 -> 1 (false); arrival of 1\n",
        "exit 1 -> state 0 (true)\n", "exit 1 -> state 0 (false)\n",
    ] {
        assert_eq!(text.matches(part).count(), 1, "{part} in\n{text}");
    }
}

#[test]
fn the_help_has_columns_and_the_example() {
    let help = wires(&["--help"]).answer();
    for part in ["b where a is nonzero, else c", "gutkavu wires examples/gcd.txt --state 1"] {
        assert!(help.contains(part), "{part} in\n{help}");
    }
}
