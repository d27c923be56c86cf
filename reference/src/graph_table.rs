//! A graph as its table of 2,562 words, and back.

use crate::graph::{
    Binary, Block, Comparison, Ending, Graph, Instruction, COPY, IN, MAX_BLOCKS, MAX_INSTRUCTIONS,
    MAX_REGISTERS, SET, SIGN_EXTEND,
};

pub const GRAPH_WORDS: usize = 2_562;
pub const BLOCK_WORDS: usize = 40;
pub const ENDING_OFFSET: usize = 33;

const GOTO: u32 = 1;
const ITE: u32 = 2;
const HALT: u32 = 3;

fn instruction_words(instruction: Instruction) -> [u32; 4] {
    match instruction {
        Instruction::Set { d, literal } => [SET, d as u32, literal as u32, 0],
        Instruction::In { d } => [IN, d as u32, 0, 0],
        Instruction::Copy { d, a } => [COPY, d as u32, a as u32, 0],
        Instruction::SignExtend { d, a } => [SIGN_EXTEND, d as u32, a as u32, 0],
        Instruction::Binary { op, d, a, b } => [op.code(), d as u32, a as u32, b as u32],
    }
}

fn ending_words(ending: Ending) -> [u32; 7] {
    match ending {
        Ending::Goto(t) => [GOTO, 0, 0, 0, t as u32, 0, 0],
        Ending::Ite { comparison, a, b, t, f } => {
            [ITE, comparison.code(), a as u32, b as u32, t as u32, f as u32, 0]
        }
        Ending::Halt => [HALT, 0, 0, 0, 0, 0, 0],
    }
}

pub fn encode(graph: &Graph) -> Vec<u32> {
    let mut words = vec![graph.blocks.len() as u32, graph.registers as u32];
    for block in &graph.blocks {
        let start = words.len();
        words.push(block.instructions.len() as u32);
        words.extend(block.instructions.iter().flat_map(|&next| instruction_words(next)));
        words.resize(start + ENDING_OFFSET, 0);
        words.extend(ending_words(block.ending));
    }
    words.resize(GRAPH_WORDS, 0);
    words
}

/// The word as an index, where it is below the limit.
fn below(word: u32, limit: usize) -> Option<usize> {
    let index = usize::try_from(word).ok()?;
    (index < limit).then_some(index)
}

fn decode_instruction(words: &[u32], registers: usize) -> Option<Instruction> {
    let d = below(words[1], registers)?;
    match words[0] {
        SET => Some(Instruction::Set { d, literal: words[2] as i32 }),
        IN => Some(Instruction::In { d }),
        COPY => Some(Instruction::Copy { d, a: below(words[2], registers)? }),
        SIGN_EXTEND => Some(Instruction::SignExtend { d, a: below(words[2], registers)? }),
        code => {
            let op = Binary::from_code(code)?;
            let (a, b) = (below(words[2], registers)?, below(words[3], registers)?);
            Some(Instruction::Binary { op, d, a, b })
        }
    }
}

fn decode_ending(words: &[u32], blocks: usize, registers: usize) -> Option<Ending> {
    match words[0] {
        GOTO => Some(Ending::Goto(below(words[4], blocks)?)),
        ITE => Some(Ending::Ite {
            comparison: Comparison::from_code(words[1])?,
            a: below(words[2], registers)?,
            b: below(words[3], registers)?,
            t: below(words[4], blocks)?,
            f: below(words[5], blocks)?,
        }),
        HALT => Some(Ending::Halt),
        _ => None,
    }
}

fn decode_block(words: &[u32], blocks: usize, registers: usize) -> Option<Block> {
    let count = below(words[0], MAX_INSTRUCTIONS + 1)?;
    let instructions: Option<Vec<Instruction>> = words[1..ENDING_OFFSET]
        .chunks(4)
        .take(count)
        .map(|chunk| decode_instruction(chunk, registers))
        .collect();
    let ending = decode_ending(&words[ENDING_OFFSET..], blocks, registers)?;
    Some(Block { instructions: instructions?, ending })
}

/// The graph whose table this is, if reading can make the table.
/// Encoding it again finds any unused word that is not 0.
pub fn decode(table: &[u32]) -> Option<Graph> {
    let words = table.get(..GRAPH_WORDS)?;
    let blocks = below(words[0], MAX_BLOCKS + 1).filter(|&count| count > 0)?;
    let registers = below(words[1], MAX_REGISTERS + 1).filter(|&count| count > 0)?;
    let list: Option<Vec<Block>> = words[2..]
        .chunks(BLOCK_WORDS)
        .take(blocks)
        .map(|chunk| decode_block(chunk, blocks, registers))
        .collect();
    let graph = Graph { registers, blocks: list? };
    (encode(&graph) == words).then_some(graph)
}
