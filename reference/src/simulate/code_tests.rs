//! Each of the 20 codes by the simulator: values at the ends, worked out by hand.

use super::design::design;
use super::icarus::ICARUS;
use super::judge::{judge, Sides};
use super::test_bench::{test_bench, Start};
use gutkavu::operations;
use reference::generate::sum_cases::{OVER, WITHIN};
use reference::graph::{Binary, Comparison};
use reference::grouping::Grouping;
use reference::machine::{Machine, Source, State, Wire};
use reference::machine_table::encode;
use std::collections::BTreeMap;

const ALL: u32 = 0xFFFF_FFFF;
const MOST: u32 = 0x7FFF_FFFF;
const LEAST: u32 = 0x8000_0000;

/// A code, the words of r0, r1 and r2, and what comes out.
type Row = (u32, [u32; 3], u32);

/// Of each code the wire over r0, r1 and r2; for `set` the literal is the second number here.
fn wire(code: u32, literal: u32) -> Wire {
    let [a, b, c] = [0, 1, 2].map(Source::Register);
    match code {
        1 => Wire::Set(literal),
        2 => Wire::Copy(a),
        11 => Wire::SignExtend(a),
        18 => Wire::AndNot(a, b),
        19 => Wire::Choose(a, b, c),
        20 => Wire::In,
        _ => match (Binary::from_code(code), Comparison::from_code(code)) {
            (Some(op), _) if op.is_sum() => Wire::Sum(op, a, b, c),
            (Some(op), _) => Wire::Binary(op, a, b),
            (_, Some(comparison)) => Wire::Compare(comparison, a, b),
            _ => panic!("no code {code}"),
        },
    }
}

/// One state a code, whose wire goes to r3 and which halts.
fn codes_machine() -> Machine {
    let state = |code: u32| State {
        first: 2 * (code as usize - 1),
        wires: vec![wire(code, LEAST), Wire::Set(255)],
        next_state: Source::Wire(1),
        next_registers: [0, 1, 2]
            .map(Source::Register)
            .into_iter()
            .chain([Source::Wire(0)])
            .collect(),
        arrivals: BTreeMap::new(),
    };
    Machine { registers: 4, states: (1..=20).map(state).collect() }
}

/// Worked out by hand from the papers. For `in` the word read is that of r2.
const ROWS: [Row; 104] = [
    (1, [0, 0, 0], LEAST),
    (2, [ALL, 1, 2], ALL),
    (2, [0, 1, 2], 0),
    (3, [ALL, 1, 1], 0),
    (3, [MOST, 1, 1], LEAST),
    (3, [LEAST, LEAST, 0], 0),
    (3, [2, 3, 0], 5),
    (4, [0, 1, 1], ALL),
    (4, [LEAST, 1, 1], MOST),
    (4, [0, LEAST, 0], LEAST),
    (4, [7, 5, 1], 2),
    (5, [0xFFFF_0000, 0x00FF_FF00, 0], 0x00FF_0000),
    (5, [ALL, LEAST, 0], LEAST),
    (6, [0xFFFF_0000, 0x00FF_FF00, 0], 0xFFFF_FF00),
    (6, [0, 0, ALL], 0),
    (7, [0xFFFF_0000, 0x00FF_FF00, 0], 0xFF00_FF00),
    (7, [ALL, ALL, 0], 0),
    (8, [0x1234_5678, 0, 0], 0x1234_5678),
    (8, [0x1234_5678, 1, 0], 0x2468_ACF0),
    (8, [0x1234_5678, 16, 0], 0x5678_0000),
    (8, [3, 31, 0], LEAST),
    (8, [ALL, 32, 0], 0),
    (8, [ALL, 33, 0], 0),
    (8, [ALL, 63, 0], 0),
    (8, [ALL, 64, 0], 0),
    (8, [ALL, 65_536, 0], 0),
    (8, [ALL, MOST, 0], 0),
    (8, [ALL, LEAST, 0], 0),
    (8, [ALL, LEAST + 1, 0], 0),
    (8, [ALL, ALL - 31, 0], 0),
    (8, [ALL, ALL, 0], 0),
    (9, [0x8765_4321, 0, 0], 0x8765_4321),
    (9, [0x8765_4321, 1, 0], 0x43B2_A190),
    (9, [0x8765_4321, 16, 0], 0x0000_8765),
    (9, [0xC000_0000, 31, 0], 1),
    (9, [ALL, 32, 0], 0),
    (9, [ALL, 33, 0], 0),
    (9, [ALL, 63, 0], 0),
    (9, [ALL, 64, 0], 0),
    (9, [ALL, 65_536, 0], 0),
    (9, [ALL, MOST, 0], 0),
    (9, [ALL, LEAST, 0], 0),
    (9, [ALL, LEAST + 1, 0], 0),
    (9, [ALL, ALL - 31, 0], 0),
    (9, [ALL, ALL, 0], 0),
    (10, [0x8765_4321, 0, 0], 0x8765_4321),
    (10, [0x8765_4321, 1, 0], 0xC3B2_A190),
    (10, [0x8765_4321, 16, 0], 0xFFFF_8765),
    (10, [LEAST, 31, 0], ALL),
    (10, [LEAST, 32, 0], ALL),
    (10, [LEAST, 33, 0], ALL),
    (10, [LEAST, 63, 0], ALL),
    (10, [LEAST, 64, 0], ALL),
    (10, [LEAST, 65_536, 0], ALL),
    (10, [LEAST, MOST, 0], ALL),
    (10, [LEAST, LEAST, 0], ALL),
    (10, [LEAST, ALL, 0], ALL),
    (10, [MOST, 30, 0], 1),
    (10, [MOST, 31, 0], 0),
    (10, [MOST, 32, 0], 0),
    (10, [MOST, 64, 0], 0),
    (10, [MOST, LEAST, 0], 0),
    (10, [MOST, ALL, 0], 0),
    (11, [32_767, 0, 0], 32_767),
    (11, [32_768, 0, 0], 4_294_934_528),
    (11, [65_535, 0, 0], ALL),
    (11, [65_536, 0, 0], 0),
    (11, [0xFFFF_7FFF, 0, 0], 32_767),
    (12, [ALL, ALL, 0], 1),
    (12, [LEAST, 0, 0], 0),
    (13, [ALL, ALL, 0], 0),
    (13, [LEAST, 0, 0], 1),
    (14, [4_294_967_096, 0, 0], 1),
    (14, [0, 4_294_967_096, 0], 0),
    (14, [LEAST, MOST, 0], 1),
    (14, [MOST, LEAST, 0], 0),
    (14, [ALL, ALL, 0], 0),
    (14, [1, 2, 0], 1),
    (15, [4_294_967_096, 0, 0], 0),
    (15, [0, 4_294_967_096, 0], 1),
    (15, [LEAST, MOST, 0], 0),
    (15, [MOST, LEAST, 0], 1),
    (15, [ALL, ALL, 0], 1),
    (15, [1, 2, 0], 0),
    (16, [4_294_967_096, 0, 0], 0),
    (16, [0, 4_294_967_096, 0], 1),
    (16, [LEAST, MOST, 0], 0),
    (16, [MOST, LEAST, 0], 1),
    (16, [ALL, ALL, 0], 0),
    (16, [1, 2, 0], 1),
    (17, [4_294_967_096, 0, 0], 1),
    (17, [0, 4_294_967_096, 0], 0),
    (17, [LEAST, MOST, 0], 1),
    (17, [MOST, LEAST, 0], 0),
    (17, [ALL, ALL, 0], 1),
    (17, [1, 2, 0], 0),
    (18, [0xF0F0_F0F0, 0xFF00_FF00, 0], 0x00F0_00F0),
    (18, [1, 2, 0], 1),
    (19, [0, 5, 6], 6),
    (19, [1, 5, 6], 5),
    (19, [2, 5, 6], 5),
    (19, [LEAST, 5, 6], 5),
    (20, [1, 2, 0], 0),
    (20, [1, 2, ALL], ALL),
];

/// The sums at the ends, with an arrival, without one and with one that is not 1.
fn sum_rows() -> Vec<Row> {
    let rows = |&(name, a, b): &(&str, u32, u32)| {
        let add = name == "add";
        let sum = if add { a.wrapping_add(b) } else { a.wrapping_sub(b) };
        [0, 1, 2, LEAST].map(|c| (if add { 3 } else { 4 }, [a, b, c], sum))
    };
    OVER.iter().chain(&WITHIN).flat_map(rows).collect()
}

fn rows() -> Vec<Row> {
    ROWS.into_iter().chain(sum_rows()).collect()
}

/// Sums that go over are those of the list, where r2 is nonzero.
fn raises_the_flag((code, [a, b, c], _): Row) -> bool {
    let name = if code == 3 { "add" } else { "sub" };
    code < 5 && c != 0 && OVER.contains(&(name, a, b))
}

/// A run of one cycle for each row. Registers from the fourth up hold another word.
fn starts(rows: &[Row]) -> Vec<Start> {
    let one = |&(code, [a, b, c], _): &Row| {
        let registers = std::array::from_fn(|r| [a, b, c].get(r).copied().unwrap_or(9));
        Start { state: code - 1, registers, words: vec![c], budget: 1 }
    };
    rows.iter().map(one).collect()
}

#[test]
fn the_simulator_gives_what_was_worked_out_by_hand() {
    let (rows, machine) = (rows(), codes_machine());
    assert!((1..=20).all(|code| rows.iter().any(|row| row.0 == code)));
    let source = design(&machine) + &test_bench(&machine, &starts(&rows));
    let output = ICARUS.simulate(&source).expect("a simulation");
    let lines: Vec<&str> = output.lines().filter(|line| line.contains(" cycle 1 ")).collect();
    assert_eq!(lines.len(), rows.len());
    for (number, (line, &row)) in lines.iter().zip(&rows).enumerate() {
        let ((code, [a, b, c], value), flag) = (row, u32::from(raises_the_flag(row)));
        let expected = format!(
            "run {number} cycle 1 count 1 state 000000ff halted 1 flag {flag} blocks 0 \
             registers {a:08x} {b:08x} {c:08x} {value:08x}"
        );
        assert_eq!(*line, expected, "code {code}");
    }
}

#[test]
fn the_library_gives_the_same() {
    let none = Grouping { starters: Vec::new(), state_of: BTreeMap::new() };
    let table = encode(&none, &codes_machine());
    let simulator = |source: &str| ICARUS.simulate(source);
    let sides = Sides { library: &operations::run_machine_with_words, simulator: &simulator };
    let judged = judge(&table, &starts(&rows()), &sides).expect("a simulation");
    let differences: String = judged.differences.iter().map(|one| &one.text[..]).collect();
    assert!(differences.is_empty(), "{differences}");
    assert!(judged.runs.iter().all(|run| run.cycles == 1));
}
