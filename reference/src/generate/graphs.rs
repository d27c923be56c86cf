//! Valid graphs: a shape filled with instructions and comparisons.

use super::shapes::{self, Shape};
use super::sum_cases::{OVER, WITHIN};
use super::words;
use crate::graph::{
    Binary, Block, Comparison, Ending, Graph, Instruction, MAX_BLOCKS, MAX_INSTRUCTIONS,
};
use crate::grouping::Tour;
use crate::random::Random;

/// How much a graph may hold.
#[derive(Clone, Copy)]
pub struct Size {
    pub blocks: usize,
    pub registers: usize,
    pub instructions: usize,
}

/// A size that keeps most texts short; a few are as large as allowed.
pub fn size(random: &mut Random) -> Size {
    let (blocks, instructions) = match random.below(100) {
        0..=14 => (random.between(1, 3), 8),
        15..=49 => (random.between(3, 8), 4),
        50..=79 => (random.between(8, 18), 4),
        80..=91 => (random.between(18, 40), 3),
        92..=95 => (random.between(50, 64), 2),
        _ => (64, 8),
    };
    let registers = match random.below(10) {
        0 | 1 => 16,
        2 => 1,
        _ => random.between(2, 6),
    };
    let full = blocks == 64 && instructions == 8;
    Size { blocks, registers: if full { 16 } else { registers }, instructions }
}

type Maker = fn(&mut Random, usize) -> Shape;

const MAKERS: [Maker; 8] = [
    shapes::dense,
    shapes::chain,
    shapes::loops,
    shapes::irreducible,
    shapes::self_loops,
    shapes::equal_targets,
    shapes::joins,
    shapes::diamonds,
];

/// A shape of exactly so many blocks.
pub fn shape(random: &mut Random, n: usize) -> Shape {
    let unreachable = if n > 2 && random.percent(25) { random.between(1, n / 2) } else { 0 };
    let make = match random.below(11) {
        0..=7 => random.pick(&MAKERS),
        8 => shapes::irreducible,
        9 => shapes::joins,
        _ => shapes::dense,
    };
    let mut made = make(random, n - unreachable);
    made = shapes::with_unreachable(random, made, unreachable);
    if random.percent(55) {
        made = shapes::renumber(random, &made);
    }
    made
}

fn any_instruction(random: &mut Random, registers: usize) -> Instruction {
    let d = random.below(registers);
    let (a, b) = (random.below(registers), random.below(registers));
    match random.below(11) {
        0 | 1 => Instruction::Set { d, literal: words::literal(random) },
        2 => Instruction::Copy { d, a },
        3 => Instruction::SignExtend { d, a },
        _ => Instruction::Binary { op: random.pick(&Binary::all()), d, a, b },
    }
}

/// Mostly an add or sub, and words that such go over with.
fn sum_instruction(random: &mut Random, registers: usize) -> Instruction {
    let d = random.below(registers);
    let (a, b) = (random.below(registers), random.below(registers));
    match random.below(12) {
        0 | 1 => Instruction::Set { d, literal: words::near_end(random) as i32 },
        2 => Instruction::Copy { d, a },
        3 => any_instruction(random, registers),
        _ => Instruction::Binary { op: random.pick(&[Binary::Add, Binary::Sub]), d, a, b },
    }
}

/// An instruction behind the operands that it is to have; of two registers at least.
fn on_words(
    random: &mut Random,
    registers: usize,
    op: Binary,
    [x, y]: [u32; 2],
) -> [Instruction; 3] {
    let a = random.below(registers);
    let b = (a + random.between(1, registers - 1)) % registers;
    let set = |d, word: u32| Instruction::Set { d, literal: word as i32 };
    [set(a, x), set(b, y), Instruction::Binary { op, d: random.below(registers), a, b }]
}

/// One of the sums that go over, or just do not.
fn sum_at_an_end(random: &mut Random, registers: usize) -> [Instruction; 3] {
    let (name, x, y) = match random.percent(40) {
        true => random.pick(&OVER),
        false => random.pick(&WITHIN),
    };
    let op = if name == "add" { Binary::Add } else { Binary::Sub };
    on_words(random, registers, op, [x, y])
}

const SHIFTS: [Binary; 3] = [Binary::Shl, Binary::Shr, Binary::Sar];

/// Mostly a shift, and words to shift and to shift by.
fn shift_instruction(random: &mut Random, registers: usize) -> Instruction {
    let d = random.below(registers);
    let (a, b) = (random.below(registers), random.below(registers));
    match random.below(12) {
        0 | 1 => Instruction::Set { d, literal: words::amount(random) as i32 },
        2 => Instruction::Set { d, literal: random.pick(&words::SHIFTED) as i32 },
        3 | 4 => any_instruction(random, registers),
        _ => Instruction::Binary { op: random.pick(&SHIFTS), d, a, b },
    }
}

/// A word with bits at its ends, shifted by one of the amounts.
fn shift_by_an_amount(random: &mut Random, registers: usize) -> [Instruction; 3] {
    let operands = [random.pick(&words::SHIFTED), words::amount(random)];
    let op = random.pick(&SHIFTS);
    on_words(random, registers, op, operands)
}

fn any_ending(random: &mut Random, registers: usize, successors: &[usize]) -> Ending {
    let (a, b) = (random.below(registers), random.below(registers));
    match *successors {
        [] => Ending::Halt,
        [t] => Ending::Goto(t),
        [t, f, ..] => Ending::Ite { comparison: random.pick(&Comparison::all()), a, b, t, f },
    }
}

/// Fills a shape with anything allowed.
fn fill(random: &mut Random, shape: &Shape, size: Size) -> Graph {
    let few = random.percent(40);
    let mut block = |successors: &Vec<usize>| {
        let most = if few { size.instructions.min(1) } else { size.instructions };
        let count = random.between(0, most);
        let instructions = (0..count).map(|_| any_instruction(random, size.registers)).collect();
        Block { instructions, ending: any_ending(random, size.registers, successors) }
    };
    let blocks = shape.iter().map(&mut block).collect();
    Graph { registers: size.registers, blocks }
}

/// Makes the loops of a graph count down, so that most runs of it halt.
/// The last two registers hold 1 and 0 and nothing else is written there.
fn tame(random: &mut Random, graph: &mut Graph) {
    let (one, zero) = (graph.registers - 1, graph.registers - 2);
    for (n, block) in graph.blocks.iter_mut().enumerate() {
        block.instructions.retain(|instruction| instruction.target() < zero);
        block.instructions.truncate(5);
        let counter = random.below(zero);
        if let Ending::Ite { t, f, .. } = block.ending {
            let (op, comparison) = (Binary::Sub, Comparison::Lt);
            block.instructions.push(Instruction::Binary { op, d: counter, a: counter, b: one });
            block.ending = if t <= n {
                Ending::Ite { comparison, a: zero, b: counter, t, f }
            } else {
                Ending::Ite { comparison: Comparison::Ge, a: zero, b: counter, t, f }
            };
        }
    }
    let first = &mut graph.blocks[0].instructions;
    first.insert(0, Instruction::Set { d: one, literal: 1 });
    first.insert(1, Instruction::Set { d: zero, literal: 0 });
}

/// Fills every block with as many instructions as are allowed.
fn pack(random: &mut Random, graph: &mut Graph) {
    let registers = graph.registers;
    for block in &mut graph.blocks {
        while block.instructions.len() < 8 {
            block.instructions.push(any_instruction(random, registers));
        }
    }
}

/// A graph of a size that reads no words.
pub fn graph_of(random: &mut Random, size: Size) -> Graph {
    let made = shape(random, size.blocks.clamp(1, MAX_BLOCKS));
    let mut graph = fill(random, &made, size);
    if size.registers > 2 && random.percent(35) {
        tame(random, &mut graph);
    } else if size.instructions == 8 && random.percent(40) {
        pack(random, &mut graph);
    }
    graph
}

/// Puts one `in` into a block, in place of an instruction where the block is full.
fn put_input(random: &mut Random, block: &mut Block, registers: usize) {
    // Mostly not a register that holds one of the constants of a tamed graph.
    let most = if registers > 2 && random.percent(80) { registers - 2 } else { registers };
    let input = Instruction::In { d: random.below(most) };
    let count = block.instructions.len();
    if count < MAX_INSTRUCTIONS && random.percent(60) {
        block.instructions.insert(random.below(count + 1), input);
    } else if count > 0 {
        block.instructions[random.below(count)] = input;
    } else {
        block.instructions.push(input);
    }
}

/// Makes a graph read words: anywhere, or in unreachable blocks alone.
pub fn with_inputs(random: &mut Random, mut graph: Graph) -> Graph {
    let reachable = Tour::of(&graph).reachable();
    let all: Vec<usize> = (0..graph.blocks.len()).collect();
    let lost: Vec<usize> = all.iter().copied().filter(|n| !reachable.contains(n)).collect();
    let places = if !lost.is_empty() && random.percent(25) { lost } else { all };
    let sure = random.pick(&places);
    for n in places {
        if n == sure || random.percent(40) {
            put_input(random, &mut graph.blocks[n], graph.registers);
        }
    }
    graph
}

/// About a third of the graphs read words.
fn with_inputs_or_not(random: &mut Random, graph: Graph) -> Graph {
    match random.percent(35) {
        true => with_inputs(random, graph),
        false => graph,
    }
}

pub fn graph(random: &mut Random) -> Graph {
    let size = size(random);
    let graph = graph_of(random, size);
    with_inputs_or_not(random, graph)
}

/// What fills the blocks of a graph: an instruction, or one behind its operands.
#[derive(Clone, Copy)]
struct Filling {
    instruction: fn(&mut Random, usize) -> Instruction,
    on_words: fn(&mut Random, usize) -> [Instruction; 3],
}

/// A graph of one filling, often with several blocks to a state.
fn filled(random: &mut Random, filling: Filling) -> Graph {
    let branching = random.percent(60);
    let size = Size {
        blocks: random.between(if branching { 4 } else { 1 }, 9),
        registers: random.between(2, 5),
        instructions: random.pick(&[1, 1, 2, 3]),
    };
    let made = match branching {
        true => random.pick(&[shapes::diamonds as Maker, shapes::joins])(random, size.blocks),
        false => shape(random, size.blocks),
    };
    let mut graph = fill(random, &made, size);
    for block in &mut graph.blocks {
        block.instructions = match random.percent(45) {
            true => (filling.on_words)(random, size.registers).to_vec(),
            false => {
                let count = random.between(0, size.instructions);
                (0..count).map(|_| (filling.instruction)(random, size.registers)).collect()
            }
        };
    }
    if size.registers > 2 && random.percent(35) {
        tame(random, &mut graph);
    }
    with_inputs_or_not(random, graph)
}

/// A graph with many adds and subs.
pub fn sum_graph(random: &mut Random) -> Graph {
    filled(random, Filling { instruction: sum_instruction, on_words: sum_at_an_end })
}

/// A graph with many shifts.
pub fn shift_graph(random: &mut Random) -> Graph {
    filled(random, Filling { instruction: shift_instruction, on_words: shift_by_an_amount })
}

/// What bounds have a rule for more often than what makes them full.
fn bounded_instruction(random: &mut Random, registers: usize) -> Instruction {
    let d = random.below(registers);
    let (a, b) = (random.below(registers), random.below(registers));
    match random.below(12) {
        0 => Instruction::Set { d, literal: words::literal(random) },
        1 => Instruction::Set { d, literal: random.between(0, 9) as i32 - 4 },
        2 => Instruction::Copy { d, a },
        3 | 4 => Instruction::SignExtend { d, a },
        5 => any_instruction(random, registers),
        _ => Instruction::Binary { op: random.pick(&[Binary::Add, Binary::Sub]), d, a, b },
    }
}

/// A graph with many instructions to a state, mostly with ways to choose between.
pub fn bounded_graph(random: &mut Random) -> Graph {
    let size = Size {
        blocks: random.pick(&[1, 2, 3, 4, 4, 5, 7, 9]),
        registers: random.pick(&[2, 3, 4, 5, 6, 8, 16]),
        instructions: random.pick(&[1, 2, 3, 8]),
    };
    let made = match random.percent(60) {
        true => random.pick(&[shapes::diamonds as Maker, shapes::joins])(random, size.blocks),
        false => shape(random, size.blocks),
    };
    let mut graph = fill(random, &made, size);
    for block in &mut graph.blocks {
        let count = random.between(0, size.instructions);
        block.instructions =
            (0..count).map(|_| bounded_instruction(random, size.registers)).collect();
    }
    match random.percent(20) {
        true => with_inputs(random, graph),
        false => graph,
    }
}

/// A graph whose text is short.
pub fn small_graph(random: &mut Random) -> Graph {
    let size = Size {
        blocks: random.between(1, 8),
        registers: random.pick(&[1, 2, 3, 4, 5, 15, 16]),
        instructions: 3,
    };
    let graph = graph_of(random, size);
    with_inputs_or_not(random, graph)
}
