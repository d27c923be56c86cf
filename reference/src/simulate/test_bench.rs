//! A test bench for a design: runs it and tells what stands at the end of each cycle.

use super::design::source;
use reference::graph::Binary;
use reference::machine::{Machine, Source, State, Wire};

/// Words that a run is given, and cycles, at most.
pub const MOST: usize = 32;

/// Where a run starts and what it reads.
#[derive(Clone, Debug, PartialEq, Eq)]
pub struct Start {
    pub state: u32,
    pub registers: [u32; 16],
    pub words: Vec<u32>,
    pub budget: u32,
}

pub const SHIFTS: [Binary; 3] = [Binary::Shl, Binary::Shr, Binary::Sar];

/// Kinds of amounts, as the bench counts them.
pub const AMOUNTS: [&str; 4] = ["below 32", "of 32", "from 33 to 2^31 - 1", "from 2^31 up"];

/// The first word in the lowest bits.
fn packed(words: &[u32]) -> String {
    let digits: String = words.iter().rev().map(|word| format!("{word:08x}")).collect();
    format!("{}'h{digits}", 32 * words.len())
}

fn run(number: usize, start: &Start, registers: usize) -> String {
    let mut words = start.words.clone();
    words.resize(MOST, 0);
    let (contents, list) = (packed(&start.registers[..registers]), packed(&words));
    let (state, given, budget) = (start.state, start.words.len(), start.budget);
    format!("    run({number}, 32'd{state}, {contents}, {list}, {given}, {budget});\n")
}

/// The place of a shift among those counted, and its amount.
fn shift(wire: Wire) -> Option<(usize, Source)> {
    match wire {
        Wire::Binary(op, _, amount) => {
            let place = SHIFTS.iter().position(|&shift| shift == op)?;
            Some((place, amount))
        }
        _ => None,
    }
}

fn counted_state(index: usize, state: &State) -> Option<String> {
    let told = |(place, amount): (usize, Source)| {
        let block = match amount {
            Source::Register(_) => String::new(),
            Source::Wire(_) => format!("state_{index}."),
        };
        format!(" worked_out({}, dut.{block}{});", AMOUNTS.len() * place, source(amount))
    };
    let all: String = state.wires.iter().filter_map(|&wire| shift(wire)).map(told).collect();
    (!all.is_empty()).then(|| format!("      32'd{index}: begin{all} end\n"))
}

/// What the state's shifts read, just before the edge that ends a cycle.
fn counted(machine: &Machine) -> String {
    let states = machine.states.iter().enumerate();
    let all: String = states.filter_map(|(index, state)| counted_state(index, state)).collect();
    match all.is_empty() {
        true => all,
        false => format!(
            "  always @(posedge clock)
    if (!load && halted === 1'b0) case (state)
{all}      default: ;
    endcase
"
        ),
    }
}

fn head(registers: usize) -> String {
    format!(
        "module bench;
  logic clock = 1'b0, load = 1'b0;
  logic [31:0] start, word, state;
  logic [{last}:0] contents, registers;
  logic halted, flag;
  logic [63:0] blocks;
  machine dut(clock, load, start, word, contents, state, halted, flag, blocks, registers);
  integer cycle, count, kind;
  integer amounts [0:{kinds}];
  task worked_out(input integer first, input [31:0] amount);
    kind = amount < 32'd32 ? 0 : amount == 32'd32 ? 1 : amount < 32'h80000000 ? 2 : 3;
    amounts[first + kind] = amounts[first + kind] + 1;
  endtask
",
        last = 32 * registers - 1,
        kinds = SHIFTS.len() * AMOUNTS.len() - 1
    )
}

/// The word for the next cycle is put on at once, so that one that is not sampled would show. A
/// halted machine is clocked once more.
fn tasks(registers: usize) -> String {
    let words: Vec<String> =
        (0..registers).map(|r| format!("registers[{} +: 32]", 32 * r)).collect();
    let words_form = " %h".repeat(registers);
    let form = format!("count %0d state %h halted %b flag %b blocks %0d registers{words_form}");
    let values = format!("count, state, halted, flag, blocks, {}", words.join(", "));
    let bits = 32 * registers - 1;
    let list = 32 * MOST - 1;
    format!(
        "  task clocked(input integer number, input [{list}:0] words, input integer given);
    cycle = cycle + 1;
    if (halted === 1'b0) count = count + 1;
    word = cycle < given ? words[32 * cycle +: 32] : 'x;
    #1 clock = 1'b1;
    #1 clock = 1'b0;
    $display(\"run %0d cycle %0d {form}\", number, cycle, {values});
  endtask
  task run(input integer number, input [31:0] from, input [{bits}:0] held,
      input [{list}:0] words, input integer given, input integer budget);
    load = 1'b1;
    start = from;
    contents = held;
    word = given > 0 ? words[31:0] : 'x;
    #1 clock = 1'b1;
    #1 clock = 1'b0;
    load = 1'b0;
    cycle = 0;
    count = 0;
    while (halted === 1'b0 && cycle < given && cycle < budget) clocked(number, words, given);
    if (halted === 1'b1) clocked(number, words, given);
    $display(\"run %0d ends %0s {form}\", number,
      halted === 1'b1 ? \"halted\" : cycle == budget ? \"spent\" : \"dry\", {values});
  endtask
"
    )
}

/// Runs one after another, then how often each shift had each kind of amount, and a last line.
pub fn test_bench(machine: &Machine, starts: &[Start]) -> String {
    let registers = machine.registers;
    let kinds = SHIFTS.len() * AMOUNTS.len();
    let mut text = head(registers) + &counted(machine) + &tasks(registers) + "  initial begin\n";
    text += &format!("    for (kind = 0; kind < {kinds}; kind = kind + 1) amounts[kind] = 0;\n");
    text.extend(starts.iter().enumerate().map(|(number, start)| run(number, start, registers)));
    text += &format!("    for (kind = 0; kind < {kinds}; kind = kind + 1)\n");
    text += "      $display(\"amounts %0d %0d\", kind, amounts[kind]);\n";
    text + "    $display(\"end\");\n    $finish(0);\n  end\nendmodule\n"
}
