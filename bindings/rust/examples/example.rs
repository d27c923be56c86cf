//! How a Rust program reads a graph, synthesises its machine, runs both, without words and with
//! them, counts the blocks of each cycle, asks what a cycle can do to registers known within bounds
//! and which states touch a register, compares a recording of the machine with one of the array,
//! and learns that a sum went over: `example SWING TURN ARRAY WRAP`, the paths of
//! examples/swing.txt, examples/turn.txt, examples/turn-array.capture and examples/wrap.txt.

use gutkavu::captures::{self, Comparison, Line, Recording};
use gutkavu::{Bounds, Graph, Machine, Outcome};
use std::error::Error;

const BUDGET: u32 = 1_000;

/// The limits of the rate of turn in registers 3 and 4.
const LIMITS: [u32; 16] = [0, 0, 0, -300i32 as u32, 300, 0, 0, 0, 0, 0, 0, 0, 0, 0, 0, 0];
/// The words of the gyro, the first taken at rest.
const WORDS: [u32; 6] = [10, 65_346, 410, 10, 65_146, 160];

fn print_machine(graph: &Graph, machine: &Machine) {
    println!("blocks {}, registers {}", graph.blocks(), graph.registers());
    println!("states {}, wires {}", machine.states(), machine.wires_in_all());
    for state in 0..machine.states() {
        let (Some(starter), Some(wires)) = (machine.starter(state), machine.wires(state)) else {
            continue;
        };
        let blocks: String = machine.blocks(state).map(|block| format!(" {block}")).collect();
        println!("state {state}: starter {starter}, wires {wires}, blocks{blocks}");
    }
}

/// What the runs of a graph and of its machine answer, which both halted.
struct Halts {
    blocks: u32,
    cycles: u32,
    flag: bool,
}

/// Runs graph and machine until they halt; they run the same number of blocks, leave the same
/// registers and answer the same flag.
fn run_both(
    graph: &Graph,
    machine: &Machine,
    registers: &mut [u32; 16],
) -> Result<Halts, Box<dyn Error>> {
    let mut others = *registers;
    let by_graph = graph.run(registers, 0, BUDGET)?;
    let by_machine = machine.run(&mut others, 0, BUDGET)?;
    let halted = by_graph.halted && by_machine.halted;
    let left = (u64::from(by_graph.count), by_graph.flag, *registers);
    if !halted || left != (by_machine.blocks, by_machine.flag, others) {
        return Err("graph and machine do not agree".into());
    }
    Ok(Halts { blocks: by_graph.count, cycles: by_machine.count, flag: by_graph.flag })
}

/// Runs graph and machine with a rate in register 0.
fn print_swing(graph: &Graph, machine: &Machine, rate: i32) -> Result<(), Box<dyn Error>> {
    let mut registers = [0; 16];
    registers[0] = rate as u32;
    let Halts { blocks, cycles, .. } = run_both(graph, machine, &mut registers)?;
    let how = if registers[5] == 0 { "slow swing" } else { "hard turn" };
    let side = if registers[3] == 1 { "port" } else { "starboard" };
    println!("  {rate}: {how} to {side}, rate {}; blocks {blocks}, cycles {cycles}", registers[4]);
    Ok(())
}

/// What a cycle of state 0 can do with a rate between two values in register 0, the other registers
/// being 0.
fn print_bounds(machine: &Machine, from: i32, to: i32) {
    print!("  {from} to {to}: ");
    match machine.bounds(0, &Bounds::exact(&[0; 16]).with(0, from..=to)) {
        Ok(next) => {
            let registers = 0..machine.registers() as usize;
            let range = |r| format!("r{r} {} to {}", next.lowest[r], next.highest[r]);
            println!("{}", registers.map(range).collect::<Vec<_>>().join(", "));
        }
        Err(refused) => println!("refused {}", refused.number()),
    }
}

/// Runs graph and machine with a rate that begins at 0 and is summed up in steps, as long as it is
/// below a limit.
fn print_wrap(graph: &Graph, machine: &Machine, limit: u32) -> Result<(), Box<dyn Error>> {
    let (step, steps) = (300_000_000, 8);
    let mut registers = [0; 16];
    registers[1..4].copy_from_slice(&[step, limit, steps]);
    let Halts { blocks, cycles, flag } = run_both(graph, machine, &mut registers)?;
    let (rate, flag) = (registers[0] as i32, u32::from(flag));
    print!("  {steps} steps of {step}, limit {limit}: rate {rate}, flag {flag}; ");
    println!("blocks {blocks}, cycles {cycles}");
    Ok(())
}

/// Runs graph and machine with a word of the gyro for each cycle. Both are dry when the words end,
/// having run the same number of blocks, leave the same registers and answer the same flag.
fn print_turn(graph: &Graph, machine: &Machine) -> Result<(), Box<dyn Error>> {
    let (mut registers, mut others) = (LIMITS, LIMITS);
    if let Err(refused) = machine.run(&mut others, 0, BUDGET) {
        println!("  without words: refused {}", refused.number());
    }
    let starters = machine.starters();
    let by_graph = graph.run_with_words(&mut registers, 0, BUDGET, &WORDS, starters)?;
    let by_machine = machine.run_with_words(&mut others, 0, BUDGET, &WORDS)?;
    let dry = [by_graph.outcome, by_machine.outcome] == [Outcome::Dry; 2];
    let left = (u64::from(by_graph.count), by_graph.flag, registers);
    if !dry || left != (by_machine.blocks, by_machine.flag, others) {
        return Err("graph and machine do not agree".into());
    }
    let (lowest, highest, outside) = (registers[1] as i32, registers[2] as i32, registers[5]);
    print!("  {} words: lowest {lowest}, highest {highest}, outside {outside}; ", WORDS.len());
    println!("dry after blocks {}, cycles {}", by_graph.count, by_machine.count);
    Ok(())
}

/// Runs the machine with words, a cycle a call, until it halts or the words end.
fn print_blocks(machine: &Machine) -> Result<(), Box<dyn Error>> {
    let (mut registers, mut state) = (LIMITS, Some(0));
    print!("  blocks in each cycle:");
    for word in WORDS {
        let Some(start) = state else { break };
        let run = machine.run_with_words(&mut registers, start, 1, &[word])?;
        print!(" {}", run.blocks);
        state = run.next;
    }
    println!();
    Ok(())
}

/// The registers that each state touches, and the first state that touches each register; there is
/// none for the register past the last.
fn print_touched(machine: &Machine) -> Result<(), Box<dyn Error>> {
    for state in 0..machine.states() {
        print!("  state {state}: registers");
        for register in 0..machine.registers() {
            if machine.touches(state, register)? {
                print!(" {register}");
            }
        }
        println!();
    }
    print!("  first states:");
    for register in 0..=machine.registers() {
        match machine.first_touching(register)? {
            Some(state) => print!(" {state}"),
            None => print!(" none"),
        }
    }
    println!();
    Ok(())
}

/// Runs the machine with words, a cycle a call, and writes down the state and registers that each
/// cycle begins with.
fn record(machine: &Machine) -> Result<String, Box<dyn Error>> {
    let (mut registers, mut state, mut recording) = (LIMITS, 0, String::new());
    let recorded = machine.registers() as usize;
    for cycle in 0.. {
        recording += &Line { cycle, state, registers: &registers[..recorded] }.to_string();
        let words = &WORDS[cycle as usize..];
        let run = machine.run_with_words(&mut registers, state, 1, words)?;
        let (Outcome::Spent, Some(next)) = (run.outcome, run.next) else {
            break;
        };
        state = next;
    }
    Ok(recording)
}

fn print_comparison(what: &str, registers: u32, array: &str, model: &str) {
    print!("  {what}: ");
    match captures::compare(registers, array.as_bytes(), model.as_bytes()) {
        Ok(Comparison { shared, first_difference: Some(cycle) }) => {
            println!("cycles in both {shared}, first that differs {cycle}");
        }
        Ok(Comparison { shared, first_difference: None }) => {
            println!("cycles in both {shared}, none differs");
        }
        Err(refused) => {
            let recording = refused.recording().map_or(0, Recording::number);
            let (number, line) = (refused.number(), refused.line());
            println!("refused {number} at line {line} of recording {recording}");
        }
    }
}

/// Compares the array's recording with that of the machine: as it is, with the wrong register set
/// right, and with a line that is not of its form.
fn print_captures(machine: &Machine, array: &str) -> Result<(), Box<dyn Error>> {
    let (registers, model) = (machine.registers(), record(machine)?);
    print_comparison("as captured", registers, array, &model);
    let other = array.replacen(",401,", ",400,", 1);
    print_comparison("with 400 for 401", registers, &other, &model);
    let other = array.replacen("\n4,", "\n04,", 1);
    print_comparison("with a leading zero", registers, &other, &model);
    Ok(())
}

/// All questions about the swing graph, whose text this is.
fn print_swings(text: &str) -> Result<(), Box<dyn Error>> {
    let graph: Graph = text.parse()?;
    let machine = graph.synthesise();
    print_machine(&graph, &machine);
    println!("signed comparison (lt)");
    print_swing(&graph, &machine, -200)?;
    print_swing(&graph, &machine, 200)?;
    println!("a rate within bounds");
    print_bounds(&machine, -720, 720);
    print_bounds(&machine, 1, 720);
    print_bounds(&machine, 720, -720);
    // The same text with its first signed comparison made unsigned.
    let graph: Graph = text.replacen("ite,lt,", "ite,ltu,", 1).parse()?;
    let machine = graph.synthesise();
    println!("unsigned comparison (ltu)");
    print_swing(&graph, &machine, -200)?;
    print_swing(&graph, &machine, 200)?;
    println!("without the last line feed");
    if let Err(refused) = Graph::read(&text.as_bytes()[..text.len() - 1]) {
        println!("  refused {} at line {}", refused.number(), refused.line());
    }
    Ok(())
}

fn main() -> Result<(), Box<dyn Error>> {
    let paths: Vec<String> = std::env::args().skip(1).collect();
    let [swing, turn, array, wrap] = &paths[..] else {
        return Err("usage: example SWING TURN ARRAY WRAP".into());
    };
    print_swings(&std::fs::read_to_string(swing)?)?;
    let graph: Graph = std::fs::read_to_string(turn)?.parse()?;
    let machine = graph.synthesise();
    println!("rate of turn");
    print_turn(&graph, &machine)?;
    print_blocks(&machine)?;
    println!("touched registers");
    print_touched(&machine)?;
    println!("array against model");
    print_captures(&machine, &std::fs::read_to_string(array)?)?;
    let graph: Graph = std::fs::read_to_string(wrap)?.parse()?;
    let machine = graph.synthesise();
    // Up to the last step both limits give the same rate. Then, below the higher one, the sum goes
    // over; the lower one is reached, and the step is left out.
    println!("a rate summed up");
    print_wrap(&graph, &machine, i32::MAX as u32)?;
    print_wrap(&graph, &machine, 2_000_000_000)
}
