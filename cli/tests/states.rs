//! `states`: the machine's states, one a line.

mod common;

use common::{generated, gutkavu, numbers, with_input};
use reference::parse::parse;
use reference::placement;
use reference::synthesis::synthesise;
use serde_json::json;

#[test]
fn the_states_of_turn() {
    let wanted = "\
blocks 8, registers 8, states 2, wires 65
state  starter  blocks         wires  leads to  may change
    0        0  0                  8  1         r1 r2 r5 r6 r7
    1        1  1 2 3 4 5 6 7     57  1         r0 r1 r2 r3 r4 r5 r6 r7
";
    assert_eq!(gutkavu(&["states", "examples/turn.txt"]).answer(), wanted);
}

/// State 1 leads to state 2 from block 1, and halts in block 3.
#[test]
fn the_states_of_p10() {
    let wanted = "\
blocks 4, registers 2, states 3, wires 20
state  starter  blocks  wires  leads to  may change
    0        0  0           9  1 2       r0 r1
    1        1  1 3         9  2 halt    r0 r1
    2        2  2           2  1
";
    assert_eq!(gutkavu(&["states", "examples/p10.txt"]).answer(), wanted);
}

/// Block 2 is unreachable; the state halts, and no register changes.
#[test]
fn the_states_of_p12() {
    let wanted = "\
blocks 3, registers 1, states 1, wires 2
unreachable blocks: 2
state  starter  blocks  wires  leads to  may change
    0        0  0 1         2  halt
";
    assert_eq!(gutkavu(&["states", "examples/p12.txt"]).answer(), wanted);
    let answer = &gutkavu(&["states", "examples/p12.txt", "--json"]).json()[0];
    assert_eq!(answer["unreachable"], json!([2]));
    assert_eq!(answer["states"][0]["halts"], json!(true));
    assert_eq!(answer["states"][0]["leads_to"], json!([]));
}

#[test]
fn the_states_of_gcd_in_json() {
    let answer = &gutkavu(&["states", "examples/gcd.txt", "--json"]).json()[0];
    let states = json!([
        {"state": 0, "starter": 0, "blocks": [0], "wires": 2,
         "leads_to": [1], "halts": false, "may_change": []},
        {"state": 1, "starter": 1, "blocks": [1, 2, 3, 4, 5], "wires": 18,
         "leads_to": [1], "halts": true, "may_change": [0, 1]},
    ]);
    let whole = json!({
        "file": "examples/gcd.txt", "blocks": 6, "registers": 2, "wires": 20,
        "states": states, "unreachable": [],
    });
    assert_eq!(*answer, whole);
}

/// States come in the order in which they were made, and several exits to one state count once.
#[test]
fn the_states_of_figure_5_in_json() {
    let answer = &gutkavu(&["states", "examples/figure5.txt", "--json"]).json()[0];
    let state = |state, starter, blocks: [u32; 2], wires, may_change: &[u32]| {
        let leads_to = if state == 3 { vec![2] } else { vec![1, 3] };
        json!({ "state": state, "starter": starter, "blocks": blocks, "wires": wires,
            "leads_to": leads_to, "halts": false, "may_change": may_change })
    };
    assert_eq!(answer["states"][1], state(1, 3, [3, 4], 12, &[0, 1, 2, 3]));
    assert_eq!(answer["states"][2], state(2, 1, [1, 2], 12, &[0, 1, 2, 3]));
    assert_eq!(answer["states"][3], state(3, 5, [5, 6], 4, &[0, 2]));
    assert_eq!((&answer["wires"], &answer["unreachable"]), (&json!(32), &json!([])));
}

/// Starters, order of blocks, wires and registers are those of the second program.
#[test]
fn the_states_of_generated_graphs() {
    for text in generated(31, 60) {
        let graph = parse(text.as_bytes()).expect("a graph");
        let (grouping, machine) = synthesise(&graph);
        let answer = &with_input(&["states", "-", "--json"], text.as_bytes()).json()[0];
        let states = answer["states"].as_array().expect("states");
        assert_eq!(states.len(), machine.states.len());
        for (number, (shown, made)) in states.iter().zip(&machine.states).enumerate() {
            let placed = placement::by_looking(&graph, &grouping, number);
            assert_eq!(shown["starter"].as_u64(), Some(placed[0] as u64));
            assert_eq!(numbers(&shown["blocks"]), placed);
            assert_eq!(shown["wires"].as_u64(), Some(made.wires.len() as u64));
            let touched = (0..graph.registers).filter(|&register| made.touches(register));
            assert_eq!(numbers(&shown["may_change"]), touched.collect::<Vec<_>>(), "{text}");
        }
    }
}
