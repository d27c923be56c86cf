//! `touches`: the states that may change a register.

mod common;

use common::{generated, gutkavu, numbers, with_input};
use reference::parse::parse;
use reference::synthesis::synthesise;
use serde_json::json;

#[test]
fn one_register_of_turn() {
    let wanted = "register  first state  states\nr3        1            1\n";
    assert_eq!(gutkavu(&["touches", "examples/turn.txt", "-r", "3"]).answer(), wanted);
    let none = "register     first state  states\nr4294967295  none\n";
    assert_eq!(gutkavu(&["touches", "examples/turn.txt", "-r", "4294967295"]).answer(), none);
    let past = &gutkavu(&["touches", "examples/turn.txt", "-r", "8", "--json"]).json()[0];
    assert_eq!(past["registers"], json!([{"register": 8, "first": null, "states": []}]));
}

#[test]
fn all_registers_of_turn() {
    let wanted = "\
register  first state  states
r0        1            1
r1        0            0 1
r2        0            0 1
r3        1            1
r4        1            1
r5        0            0 1
r6        0            0 1
r7        0            0 1
";
    assert_eq!(gutkavu(&["touches", "examples/turn.txt"]).answer(), wanted);
}

/// They are those of the second program.
#[test]
fn registers_of_generated_graphs() {
    for text in generated(31, 60) {
        let graph = parse(text.as_bytes()).expect("a graph");
        let (_, machine) = synthesise(&graph);
        let answer = &with_input(&["touches", "-", "--json"], text.as_bytes()).json()[0];
        let registers = answer["registers"].as_array().expect("registers");
        assert_eq!(registers.len(), graph.registers);
        for (register, shown) in registers.iter().enumerate() {
            let states = machine.states.iter().enumerate();
            let touching = states.filter(|(_, state)| state.touches(register));
            let touching: Vec<usize> = touching.map(|(number, _)| number).collect();
            assert_eq!(shown["register"], json!(register));
            assert_eq!(shown["first"], json!(touching.first()), "{text}");
            assert_eq!(numbers(&shown["states"]), touching, "{text}");
        }
    }
}
