//! A machine as a synchronous design in SystemVerilog.
//!
//! Every code is the language's own operator on the plain words, shift amounts included, so that
//! the simulator says what comes out.

use reference::graph::{Binary, Comparison};
use reference::machine::{Machine, Source, State, Wire};

/// The word that stands for no state.
const NO_STATE: &str = "32'd255";

pub fn source(source: Source) -> String {
    match source {
        Source::Register(index) => format!("r{index}"),
        Source::Wire(index) => format!("w{index}"),
    }
}

/// Of the shifts only sar has a signed operand, and its amount is none.
fn binary(op: Binary, a: &str, b: &str) -> String {
    match op {
        Binary::Add => format!("{a} + {b}"),
        Binary::Sub => format!("{a} - {b}"),
        Binary::And => format!("{a} & {b}"),
        Binary::Or => format!("{a} | {b}"),
        Binary::Xor => format!("{a} ^ {b}"),
        Binary::Shl => format!("{a} << {b}"),
        Binary::Shr => format!("{a} >> {b}"),
        Binary::Sar => format!("$signed({a}) >>> {b}"),
    }
}

fn comparison(comparison: Comparison, a: &str, b: &str) -> String {
    match comparison {
        Comparison::Eq => format!("{a} == {b}"),
        Comparison::Ne => format!("{a} != {b}"),
        Comparison::Lt => format!("$signed({a}) < $signed({b})"),
        Comparison::Ge => format!("$signed({a}) >= $signed({b})"),
        Comparison::Ltu => format!("{a} < {b}"),
        Comparison::Geu => format!("{a} >= {b}"),
    }
}

/// What a wire is assigned.
pub fn value(wire: Wire) -> String {
    let name = source;
    match wire {
        Wire::Set(literal) => format!("32'd{literal}"),
        Wire::In => String::from("sampled"),
        Wire::Copy(a) => name(a),
        Wire::SignExtend(a) => format!("$signed(16'({}))", name(a)),
        Wire::Binary(op, a, b) | Wire::Sum(op, a, b, _) => binary(op, &name(a), &name(b)),
        Wire::Compare(which, a, b) => comparison(which, &name(a), &name(b)),
        Wire::AndNot(a, b) => format!("{} & ~{}", name(a), name(b)),
        Wire::Choose(a, b, c) => format!("{} != 32'd0 ? {} : {}", name(a), name(b), name(c)),
    }
}

/// A sum also has its exact value, in one bit more, which raises the flag where it is out of range
/// and the arrival is nonzero.
fn wire(index: usize, wire: Wire) -> String {
    let mut text = format!("        w{index} = {};\n", value(wire));
    if let Wire::Sum(op, a, b, arrival) = wire {
        let signed = |from| format!("$signed({})", source(from));
        let exact = binary(op, &signed(a), &signed(b));
        let out = format!("(e{index} < LEAST | e{index} > MOST)");
        let arrived = format!("({} != 32'd0)", source(arrival));
        text += &format!("        e{index} = {exact};\n");
        text += &format!("        over = over | ({out} & {arrived});\n");
    }
    text
}

/// Each block of the state by itself, where its arrival is nonzero.
fn blocks(state: &State) -> String {
    let arrivals = state.arrivals.values();
    let counted = |&wire: &usize| {
        format!("        ran = ran + 64'({} != 32'd0);\n", source(Source::Wire(wire)))
    };
    arrivals.map(counted).collect()
}

fn declared(kind: &str, names: &[String]) -> String {
    match names.is_empty() {
        true => String::new(),
        false => format!("        {kind} {};\n", names.join(", ")),
    }
}

/// The wires in order, the blocks arrived at, then the next state and registers by their references.
fn state(index: usize, state: &State) -> String {
    let wires: Vec<String> = (0..state.wires.len()).map(|wire| format!("w{wire}")).collect();
    let sums = (0..).zip(&state.wires).filter(|(_, wire)| matches!(wire, Wire::Sum(..)));
    let exact: Vec<String> = sums.map(|(wire, _): (usize, _)| format!("e{wire}")).collect();
    let mut text = format!("      32'd{index}: begin : state_{index}\n");
    text += &declared("logic [31:0]", &wires);
    text += &declared("logic signed [32:0]", &exact);
    text += "        over = 1'b0;\n        ran = 64'd0;\n";
    text.extend(state.wires.iter().enumerate().map(|(index, &one)| wire(index, one)));
    text += &blocks(state);
    text += &format!("        next_state = {};\n", source(state.next_state));
    for (register, &next) in state.next_registers.iter().enumerate() {
        text += &format!("        next_r{register} = {};\n", source(next));
    }
    text + "      end\n"
}

/// A list over the registers from the last down, as a packed vector has them.
fn packed(prefix: &str, registers: usize) -> String {
    let names: Vec<String> = (0..registers).rev().map(|r| format!("{prefix}r{r}")).collect();
    format!("{{{}}}", names.join(", "))
}

/// Ports and registers, and what the wires need.
fn head(registers: usize) -> String {
    let names: Vec<String> = (0..registers).map(|r| format!("r{r}, next_r{r}")).collect();
    format!(
        "module machine(
  input logic clock, load,
  input logic [31:0] start, word,
  input logic [{last}:0] contents,
  output logic [31:0] state,
  output logic halted, flag,
  output logic [63:0] blocks,
  output logic [{last}:0] registers
);
  localparam logic signed [32:0] LEAST = -33'sd2147483648, MOST = 33'sd2147483647;
  logic [31:0] sampled, next_state;
  logic [31:0] {names};
  logic over;
  logic [63:0] ran;
  assign registers = {packed};
",
        last = 32 * registers - 1,
        names = names.join(", "),
        packed = packed("", registers)
    )
}

/// The edge that ends a cycle begins the next, so the word is sampled there.
fn clocked(states: usize, registers: usize) -> String {
    let (now, next) = (packed("", registers), packed("next_", registers));
    format!(
        "  always_ff @(posedge clock)
    if (load) begin
      {{state, halted, flag, blocks, sampled}} <= {{start, 1'b0, 1'b0, 64'd0, word}};
      {now} <= contents;
    end else if (!halted) begin
      state <= next_state < 32'd{states} ? next_state : {NO_STATE};
      halted <= !(next_state < 32'd{states});
      flag <= flag | over;
      blocks <= blocks + ran;
      sampled <= word;
      {now} <= {next};
    end
endmodule
"
    )
}

/// Wires are variables of one process, each worked out once a cycle: as continuous assignments
/// Icarus would work out a chain of n sums 2 to the n times.
pub fn design(machine: &Machine) -> String {
    let registers = machine.registers;
    let mut text = head(registers) + "  always_comb\n    case (state)\n";
    text.extend(machine.states.iter().enumerate().map(|(index, one)| state(index, one)));
    text += "      default: begin\n        {over, ran, next_state} = 'x;\n";
    text += &format!("        {} = 'x;\n      end\n    endcase\n", packed("next_", registers));
    text + &clocked(machine.states.len(), registers)
}
