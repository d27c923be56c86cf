//! The judge finds what differs: it is tried on sources, libraries and outputs made to differ.

use super::design::design;
use super::icarus::{Icarus, ICARUS};
use super::judge::{end_name, judge, Judged, Run, Sides, Simulator};
use super::test_bench::{test_bench, Start};
use super::{outcome, simulate, tally_all, Counted, Subject};
use crate::tally::MOST_REPORTS;
use gutkavu::operations::{self, MachineRunWithWordsFields};
use reference::generate::examples::P7;
use reference::generate::fixed::largest_graphs;
use reference::machine_table::{decode, WIRES_AT, WIRE_WORDS};
use reference::print::print;

const LIBRARY: &Run = &operations::run_machine_with_words;

fn icarus(source: &str) -> Result<String, String> {
    ICARUS.simulate(source)
}

fn table(text: &str) -> Vec<u32> {
    let graph: gutkavu::Graph = text.parse().expect("a graph");
    graph.synthesise().words().to_vec()
}

fn start(state: u32, first: &[u32], words: &[u32], budget: u32) -> Start {
    let registers = std::array::from_fn(|r| first.get(r).copied().unwrap_or(1_000 + r as u32));
    Start { state, registers, words: words.to_vec(), budget }
}

/// One state with the shifts, an `in`, sums of two blocks and an unsigned comparison.
const PANEL: &str = "graph,3,8\nblock,0\nin,7\nshl,2,0,1\nshr,3,0,1\nsar,4,0,1\nsx,5,0\n\
add,6,0,7\nite,ltu,0,1,1,2\nblock,1\nsub,0,1,0\ngoto,0\nblock,2\nset,0,7\nhalt\n";

const LEAST: u32 = 0x8000_0000;

/// Runs of the panel that go round, go dry, are spent, and halt with the flag raised and clear; in
/// the last a difference goes over in the block that is not arrived at.
fn starts() -> Vec<Start> {
    let words = [LEAST, 1, 0xFFFF_FFFF, 0x7FFF_FFFF, 5, LEAST, 0];
    vec![
        start(0, &[3, 5], &words, 6),
        start(0, &[0x8001, 0xFFFF_FFF0], &words, 32),
        start(0, &[LEAST + 5, 33], &words, 32),
        start(0, &[0x7FFF_FFFF, 40], &words[3..], 32),
        start(0, &[LEAST, LEAST], &words, 32),
        start(0, &[LEAST, 31], &words, 0),
        start(0, &[LEAST, 0], &words[1..], 32),
    ]
}

fn judged(library: &Run, simulator: &Simulator) -> Result<Judged, String> {
    judge(&table(PANEL), &starts(), &Sides { library, simulator })
}

/// The numbers of the panel's runs that differ, and the first lines that do.
fn differences(library: &Run, simulator: &Simulator) -> (Vec<usize>, String) {
    let differences = judged(library, simulator).expect("a simulation").differences;
    let text = differences.first().map_or(String::new(), |first| first.text.clone());
    (differences.iter().map(|one| one.run).collect(), text)
}

/// A source written by hand.
const SOURCE: &str = "module machine(
  input logic clock, load,
  input logic [31:0] start, word,
  input logic [63:0] contents,
  output logic [31:0] state,
  output logic halted, flag,
  output logic [63:0] blocks,
  output logic [63:0] registers
);
  localparam logic signed [32:0] LEAST = -33'sd2147483648, MOST = 33'sd2147483647;
  logic [31:0] sampled, next_state;
  logic [31:0] r0, next_r0, r1, next_r1;
  logic over;
  logic [63:0] ran;
  assign registers = {r1, r0};
  always_comb
    case (state)
      32'd0: begin : state_0
        logic [31:0] w0, w1, w2, w3, w4;
        logic signed [32:0] e2;
        over = 1'b0;
        ran = 64'd0;
        w0 = 32'd1;
        w1 = sampled;
        w2 = r0 + w1;
        e2 = $signed(r0) + $signed(w1);
        over = over | ((e2 < LEAST | e2 > MOST) & (w0 != 32'd0));
        w3 = $signed(w2) >>> w1;
        w4 = 32'd0;
        ran = ran + 64'(w0 != 32'd0);
        next_state = w4;
        next_r0 = w3;
        next_r1 = w1;
      end
      default: begin
        {over, ran, next_state} = 'x;
        {next_r1, next_r0} = 'x;
      end
    endcase
  always_ff @(posedge clock)
    if (load) begin
      {state, halted, flag, blocks, sampled} <= {start, 1'b0, 1'b0, 64'd0, word};
      {r1, r0} <= contents;
    end else if (!halted) begin
      state <= next_state < 32'd1 ? next_state : 32'd255;
      halted <= !(next_state < 32'd1);
      flag <= flag | over;
      blocks <= blocks + ran;
      sampled <= word;
      {r1, r0} <= {next_r1, next_r0};
    end
endmodule
";

#[test]
fn a_source_by_hand() {
    let text = "graph,1,2\nblock,0\nin,1\nadd,0,0,1\nsar,0,0,1\ngoto,0\n";
    assert_eq!(design(&decode(&table(text)).expect("a machine")), SOURCE);
}

/// The lines that a bench prints, counts, blocks and flag worked out by hand: 12 and 18 have 6.
#[test]
fn a_run_by_hand() {
    let machine = decode(&table(P7)).expect("a machine");
    let bench = test_bench(&machine, &[start(0, &[12, 18], &[7; 32], 32)]);
    let output = icarus(&(design(&machine) + &bench)).expect("a simulation");
    let expected =
        "run 0 cycle 1 count 1 state 00000001 halted 0 flag 0 blocks 1 registers 0000000c 00000012
run 0 cycle 2 count 2 state 00000001 halted 0 flag 0 blocks 4 registers 0000000c 00000006
run 0 cycle 3 count 3 state 00000001 halted 0 flag 0 blocks 7 registers 00000006 00000006
run 0 cycle 4 count 4 state 000000ff halted 1 flag 0 blocks 9 registers 00000006 00000006
run 0 cycle 5 count 4 state 000000ff halted 1 flag 0 blocks 9 registers 00000006 00000006
run 0 ends halted count 4 state 000000ff halted 1 flag 0 blocks 9 registers 00000006 00000006
";
    assert!(output.starts_with(expected) && output.ends_with("\nend\n"), "{output}");
    assert_eq!(output.lines().count(), 6 + 12 + 1);
}

#[test]
fn the_library_agrees_on_the_panel() {
    let judged = judged(LIBRARY, &icarus).expect("a simulation");
    let text: String = judged.differences.iter().map(|one| &one.text[..]).collect();
    assert!(text.is_empty(), "{text}");
    let ends: Vec<_> = judged.runs.iter().map(|run| run.end.map(end_name)).collect();
    let expected = ["spent", "dry", "halted", "halted", "halted", "spent", "halted"];
    assert_eq!(ends, expected.map(Some));
    let flags: Vec<bool> = judged.runs.iter().map(|run| run.flag).collect();
    assert_eq!(flags, [true, true, true, true, true, false, false]);
}

/// How often a shift is worked out with an amount of each kind.
#[test]
fn amounts_are_counted() {
    let table = table("graph,2,2\nblock,0\nshl,0,0,1\nhalt\nblock,1\nsar,0,0,1\nhalt\n");
    let amounts = [0, 31, 32, 33, 2_147_483_647, LEAST, LEAST + 1, 4_294_967_295];
    let starts: Vec<Start> = amounts.iter().map(|&by| start(0, &[1, by], &[0], 1)).collect();
    let sides = Sides { library: LIBRARY, simulator: &icarus };
    let judged = judge(&table, &starts, &sides).expect("a simulation");
    assert_eq!(judged.amounts, [2, 1, 2, 3, 0, 0, 0, 0, 0, 0, 0, 0]);
}

/// A source with the shift amount modulo 32, an operator of another signedness, a word that is not
/// sampled, a flag that is not kept or has no arrival, and others.
#[test]
fn other_sources_differ() {
    let changes = [
        ("w2 = r0 << r1", "w2 = r0 << (r1 % 32)"),
        ("w3 = r0 >> r1", "w3 = r0 >> (r1 % 32)"),
        ("w4 = $signed(r0) >>> r1", "w4 = $signed(r0) >>> (r1 % 32)"),
        ("w4 = $signed(r0) >>> r1", "w4 = $signed(r0) >>> 5'(r1)"),
        ("w4 = $signed(r0) >>> r1", "w4 = r0 >>> r1"),
        ("w4 = $signed(r0) >>> r1", "w4 = $signed(r0) >> r1"),
        ("w5 = $signed(16'(r0))", "w5 = 16'(r0)"),
        ("w7 = r0 < r1", "w7 = $signed(r0) < $signed(r1)"),
        ("w1 = sampled", "w1 = word"),
        ("      sampled <= word;\n", ""),
        ("flag <= flag | over", "flag <= over"),
        ("flag <= flag | over", "flag <= 1'b0"),
        ("blocks <= blocks + ran", "blocks <= ran"),
        ("blocks <= blocks + ran", "blocks <= blocks"),
        ("ran = ran + 64'(w0 != 32'd0)", "ran = ran"),
        ("ran = ran + 64'(w8 != 32'd0)", "ran = ran"),
        ("ran = ran + 64'(w8 != 32'd0)", "ran = ran + 64'd1"),
        ("ran = ran + 64'(w9 != 32'd0)", "ran = ran + 64'(w8 != 32'd0)"),
        ("ran = 64'd0;\n", ""),
        ("e6 = $signed(r0) + $signed(w1)", "e6 = r0 + w1"),
        ("& (w8 != 32'd0)", "& (w0 != 32'd0)"),
        ("state <= next_state", "state <= 32'd1 + next_state"),
        ("halted <= !(next_state < 32'd1)", "halted <= 1'b0"),
        ("else if (!halted)", "else"),
    ];
    for (from, to) in changes {
        let simulator = |source: &str| {
            assert!(source.contains(from), "{from} is not in\n{source}");
            icarus(&source.replace(from, to))
        };
        let (runs, text) = differences(LIBRARY, &simulator);
        assert!(!runs.is_empty(), "{to}\n{text}");
    }
}

/// A wire that nothing drives is unknown, and so is what it goes to.
#[test]
fn unknown_bits_differ() {
    let undriven = |source: &str| icarus(&source.replace("        w2 = r0 << r1;\n", ""));
    let (runs, text) = differences(LIBRARY, &undriven);
    assert_eq!(runs, [0, 1, 2, 3, 4, 6]);
    assert!(text.contains(" 00000005 xxxxxxxx 00000000 "), "{text}");
    let one_bit = |source: &str| icarus(&source.replace("w2 = r0", "w2 = (r0 | 32'b1x00)"));
    let (runs, text) = differences(LIBRARY, &one_bit);
    assert!(runs.contains(&0) && text.contains('X'), "{text}");
}

/// The source is of a table with one wire's code changed, the library runs the one as it was.
#[test]
fn another_code_differs() {
    for (from, to) in [(10, 9), (16, 14), (9, 8), (8, 9), (9, 10), (3, 4), (11, 2), (20, 1)] {
        let own = table(PANEL);
        let is_from = |at: &usize| own[WIRES_AT + at * WIRE_WORDS] == from;
        let at = WIRES_AT + WIRE_WORDS * (0..).find(is_from).expect("a wire of the code");
        let mut other = own.clone();
        other[at] = to;
        let library = |_: &[u32], registers: &mut [u32], state, budget, words: &[u32]| {
            LIBRARY(&own, registers, state, budget, words)
        };
        let sides = Sides { library: &library, simulator: &icarus };
        let judged = judge(&other, &starts(), &sides).expect("a simulation");
        assert!(!judged.differences.is_empty(), "{to} for {from}");
    }
}

type Fault = fn(&mut MachineRunWithWordsFields, &mut [u32]);

/// What a library may get wrong.
const FAULTS: [Fault; 16] = [
    |_, registers| registers[0] ^= 1,
    |_, registers| registers[7] ^= LEAST,
    |_, registers| registers[8] += 1,
    |_, registers| registers[15] += 1,
    |fields, _| fields.next += 1,
    |fields, _| fields.flag ^= 1,
    |fields, _| fields.flag += 2,
    |fields, _| fields.count -= 1,
    |fields, _| fields.count += 1,
    |fields, _| fields.outcome = (fields.outcome + 1) % 3,
    |fields, _| fields.outcome = (fields.outcome + 2) % 3,
    |fields, _| fields.outcome = 3,
    |fields, _| fields.blocks += 1,
    |fields, _| fields.blocks -= 1,
    |fields, _| fields.blocks += 1 << 32,
    |fields, _| fields.number = 10,
];

/// Each is found in each run of so many cycles, and in no other.
#[test]
fn other_libraries_differ() {
    for (number, fault) in FAULTS.iter().enumerate() {
        for cycle in 1..=7 {
            let library = |table: &[u32], registers: &mut [u32], state, budget, words: &[u32]| {
                let mut fields = LIBRARY(table, registers, state, budget, words);
                if budget == cycle {
                    fault(&mut fields, registers);
                }
                fields
            };
            let (runs, text) = differences(&library, &icarus);
            let expected: &[usize] = match cycle {
                1 | 2 => &[0, 1, 2, 3, 4, 6],
                3..=6 => &[0, 1],
                _ => &[1],
            };
            assert_eq!(runs, expected, "fault {number} of budget {cycle}\n{text}");
        }
    }
}

/// A library that takes amounts modulo 32 differs exactly where an amount is from 32 up.
#[test]
fn amounts_modulo_32_differ() {
    let table = table("graph,1,3\nblock,0\nshl,2,0,1\nhalt\n");
    let library = |table: &[u32], registers: &mut [u32], state, budget, words: &[u32]| {
        let amount = registers[1];
        registers[1] = amount % 32;
        let fields = LIBRARY(table, registers, state, budget, words);
        registers[1] = amount;
        fields
    };
    let amounts = [0, 1, 31, 32, 33, 63, 64, LEAST, LEAST + 31, 4_294_967_295];
    let starts: Vec<Start> = amounts.iter().map(|&by| start(0, &[3, by], &[0], 1)).collect();
    let sides = Sides { library: &library, simulator: &icarus };
    let judged = judge(&table, &starts, &sides).expect("a simulation");
    let runs: Vec<usize> = judged.differences.iter().map(|one| one.run).collect();
    assert_eq!(runs, [3, 4, 5, 6, 7, 8, 9]);
    let expected = "  simulator: run 4 cycle 1 count 1 state 000000ff halted 1 flag 0 blocks 1 \
                    registers 00000003 00000021 00000000\n  library:   run 4 cycle 1 count 1 \
                    state 000000ff halted 1 flag 0 blocks 1 registers 00000003 00000021 00000006\n";
    assert_eq!(judged.differences[1].text, expected);
}

/// Lines that lack, are doubled, changed, in another place, or more.
#[test]
fn other_outputs_differ() {
    let output = {
        let machine = decode(&table(PANEL)).expect("a machine");
        icarus(&(design(&machine) + &test_bench(&machine, &starts()))).expect("a simulation")
    };
    let lines: Vec<&str> = output.lines().collect();
    let fails = |lines: &[&str], what: &str| {
        let text: String = lines.iter().map(|line| format!("{line}\n")).collect();
        let found = judged(LIBRARY, &|_: &str| Ok(text.clone()));
        assert!(found.is_err() || found.is_ok_and(|found| !found.differences.is_empty()), "{what}");
    };
    for at in 0..lines.len() {
        let with = |line: &'static str| [&lines[..at], &[line], &lines[at..]].concat();
        fails(&[&lines[..at], &lines[at + 1..]].concat(), &format!("without line {at}"));
        fails(&[&lines[..=at], &lines[at..]].concat(), &format!("line {at} doubled"));
        fails(&lines[..at], &format!("the first {at} lines alone"));
        fails(&with("WARNING: another line"), &format!("a line before {at}"));
        fails(&with(""), &format!("an empty line before {at}"));
        let unknown = lines[at].replace('0', "x");
        if unknown != lines[at] {
            fails(&[&lines[..at], &[&unknown], &lines[at + 1..]].concat(), &unknown);
        }
        if at > 0 {
            let (first, second) = (lines[at - 1], lines[at]);
            let swapped = [&lines[..at - 1], &[second, first], &lines[at + 1..]].concat();
            fails(&swapped, &format!("lines {} and {at} in the other order", at - 1));
        }
    }
    fails(&[&lines[..], &["one more"]].concat(), "a last line");
}

/// The graphs with the longest text and with the most wires, from several states.
#[test]
fn the_largest_machines() {
    for graph in largest_graphs() {
        let table = table(&print(&graph));
        let last = table[0] - 1;
        let starts: Vec<Start> =
            [0, last / 2, last].map(|state| start(state, &[1], &[3; 32], 32)).to_vec();
        let sides = Sides { library: LIBRARY, simulator: &icarus };
        let judged = judge(&table, &starts, &sides).expect("a simulation");
        assert!(judged.differences.is_empty());
    }
}

/// Programs that are not there, that fail or that warn are errors.
#[test]
fn a_simulator_that_fails_is_an_error() {
    let missing = Icarus { compiler: "no-such-compiler", runner: "vvp" };
    let message = missing.simulate("").expect_err("no compiler");
    assert!(message.starts_with("no-such-compiler does not start ("), "{message}");
    assert!(missing.version().is_err());
    let missing = Icarus { compiler: "iverilog", runner: "no-such-runner" };
    let message = missing.simulate("module bench; endmodule\n").expect_err("no runner");
    assert!(message.starts_with("no-such-runner does not start ("), "{message}");
    let message = icarus("module bench\n").expect_err("no source");
    assert!(message.starts_with("iverilog failed, "), "{message}");
    let warned = "module bench; logic w; always_comb w = 1'b1; endmodule\n";
    let message = icarus(warned).expect_err("a warning");
    assert!(message.contains("warning: "), "{message}");
    let failing = "module bench; initial $fatal; endmodule\n";
    assert!(icarus(failing).expect_err("a failing run").starts_with("vvp failed, "));
    assert_eq!(icarus("module bench; initial $display(\"1\"); endmodule\n"), Ok("1\n".into()));
    let sides = Sides { library: LIBRARY, simulator: &|_: &str| Err(String::from("no simulator")) };
    let text = simulate(11, 3, &sides).expect_err("errors");
    assert!(text.ends_with("seed 11: 3 graphs, 3 differ\n"), "{text}");
    assert_eq!(text.matches("  no simulator\n").count(), 3);
}

/// A difference fails the command, with all that it takes to see it again.
#[test]
fn differences_are_reported() {
    let library = |table: &[u32], registers: &mut [u32], state, budget, words: &[u32]| {
        let fields = LIBRARY(table, registers, state, budget, words);
        registers[0] ^= u32::from(budget == 1);
        fields
    };
    let text = simulate(11, 8, &Sides { library: &library, simulator: &icarus });
    let text = text.expect_err("differences");
    assert!(text.ends_with("seed 11: 8 graphs, 8 differ\n"), "{text}");
    assert_eq!(text.matches("difference: seed 11, graph ").count(), MOST_REPORTS);
    let subject = Subject::at(11, 4).expect("a graph");
    assert!(text.contains(&print(&subject.graph)), "{text}");
    assert!(text.contains("\nruns that differ,"), "{text}");
    assert!(text.contains("  simulator: run 0 cycle 1 count 1 state "), "{text}");
    let words = format!("  words {:?}\n", subject.starts[0].words);
    assert!(text.contains(&words), "{text}");
}

/// A count of 0 fails a long run, and not a short one.
#[test]
fn counts_of_0_are_reported() {
    let mut tally = tally_all(1, 200, &Sides { library: LIBRARY, simulator: &icarus });
    if let Err(text) = outcome(1, 200, &tally) {
        panic!("{text}");
    }
    for counted in Counted::all() {
        let number = tally.counts.remove(&counted).expect("a count");
        let text = outcome(1, 200, &tally).expect_err("a count of 0");
        assert!(text.contains(&format!("no case hit {}\n", counted.name())));
        assert!(outcome(1, 199, &tally).is_ok());
        tally.counts.insert(counted, number);
    }
}
