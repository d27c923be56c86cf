//! The graphs that are timed, made from a seed.

use reference::generate::shapes::Shape;
use reference::graph::{Binary, Block, Comparison, Ending, Graph, Instruction};
use reference::print::print;
use reference::random::Random;

/// Forward edges alone, to the next block and to one of the four after, and the last block back to
/// block 0: one state with many joins, which never halts.
pub fn joins(random: &mut Random, n: usize) -> Shape {
    let mut block = |i: usize| match n - 1 - i {
        0 => vec![0],
        left => vec![i + 1, random.between(i + 1, i + left.min(4))],
    };
    (0..n).map(&mut block).collect()
}

/// The same with loops: a quarter of the blocks have an edge back to one of the eight before.
pub fn loops(random: &mut Random, n: usize) -> Shape {
    let mut shape = joins(random, n);
    for (i, successors) in shape.iter_mut().enumerate() {
        if successors.len() == 2 && random.percent(25) {
            successors[1] = random.between(i.saturating_sub(8), i);
        }
    }
    shape
}

/// Any jumps: each block leads to the next, the last halts. Of the others 60 in 100 end in an ite,
/// whose other edge leads back, to any block up to this one, in 30 of 100, else to any later one.
pub fn jumps(random: &mut Random, n: usize) -> Shape {
    let mut block = |i: usize| {
        if i + 1 == n {
            return Vec::new();
        }
        if !random.percent(60) {
            return vec![i + 1];
        }
        let other =
            if random.percent(30) { random.between(0, i) } else { random.between(i + 1, n - 1) };
        either(random, i + 1, other)
    };
    (0..n).map(&mut block).collect()
}

fn either(random: &mut Random, x: usize, y: usize) -> Vec<usize> {
    if random.percent(50) {
        vec![x, y]
    } else {
        vec![y, x]
    }
}

/// What a structured program of sequences, ifs and whiles compiles to; the last block halts.
pub fn structured(random: &mut Random, n: usize) -> Shape {
    let mut shape = vec![Vec::new(); n];
    region(random, &mut shape, 0, n - 1, n - 1);
    shape
}

/// A region of so many blocks from `first` on, left for `exit`: one statement of up to half of the
/// blocks, and the rest behind it. A block alone, an if, an if with else and a while are as likely.
fn region(random: &mut Random, shape: &mut Shape, first: usize, blocks: usize, exit: usize) {
    if blocks == 0 {
        return;
    }
    let inside = random.between(0, (blocks - 1).min(blocks / 2 + 1));
    let behind = blocks - 1 - inside;
    let next = if behind == 0 { exit } else { first + 1 + inside };
    let body = first + 1;
    match random.below(4) {
        _ if inside == 0 => shape[first] = vec![next],
        0 => {
            shape[first] = vec![body];
            region(random, shape, body, inside, next);
        }
        1 => {
            shape[first] = vec![body, next];
            region(random, shape, body, inside, next);
        }
        2 => {
            let half = inside / 2;
            let then = if half == 0 { next } else { body };
            shape[first] = vec![then, body + half];
            region(random, shape, body, half, next);
            region(random, shape, body + half, inside - half, next);
        }
        _ => {
            shape[first] = vec![body, next];
            region(random, shape, body, inside, first);
        }
    }
    region(random, shape, first + 1 + inside, behind, exit);
}

fn instruction(random: &mut Random, registers: usize) -> Instruction {
    let d = random.below(registers);
    let (a, b) = (random.below(registers), random.below(registers));
    match random.below(10) {
        0 => Instruction::Set { d, literal: random.word() as i32 },
        1 => Instruction::Copy { d, a },
        2 => Instruction::SignExtend { d, a },
        _ => Instruction::Binary { op: random.pick(&Binary::all()), d, a, b },
    }
}

/// With one register a comparison always gives the same, so take one that gives true.
fn ending(random: &mut Random, registers: usize, successors: &[usize]) -> Ending {
    let (a, b) = (random.below(registers), random.below(registers));
    let comparison = match registers {
        1 => random.pick(&[Comparison::Eq, Comparison::Ge, Comparison::Geu]),
        _ => random.pick(&Comparison::all()),
    };
    match *successors {
        [] => Ending::Halt,
        [t] => Ending::Goto(t),
        [t, f, ..] => Ending::Ite { comparison, a, b, t, f },
    }
}

/// A shape with so many instructions in each block, as text.
pub fn text(random: &mut Random, shape: &Shape, registers: usize, instructions: usize) -> Vec<u8> {
    let mut block = |successors: &Vec<usize>| Block {
        instructions: (0..instructions).map(|_| instruction(random, registers)).collect(),
        ending: ending(random, registers, successors),
    };
    let blocks = shape.iter().map(&mut block).collect();
    print(&Graph { registers, blocks }).into_bytes()
}
