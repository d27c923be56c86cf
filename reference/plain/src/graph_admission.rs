//! Which graph tables are admitted: those that reading makes.

use crate::{block, BLOCKS, BLOCK_WORDS, ENDING, HEAD, INSTRUCTIONS, REGISTERS};
use gutkavu::GRAPH_WORDS;

/// Without an early end, so that several words are tested at once.
fn all_zero(words: &[u32]) -> bool {
    words.iter().fold(0, |all, word| all | word) == 0
}

/// Code 20 sets `reads`.
fn instruction_fits(instruction: &[u32], registers: u32, reads: &mut bool) -> bool {
    let (code, d, a, b) = (instruction[0], instruction[1], instruction[2], instruction[3]);
    *reads |= code == 20;
    let operands = match code {
        1 => b == 0,
        2 | 11 => a < registers && b == 0,
        3..=10 => a < registers && b < registers,
        20 => a == 0 && b == 0,
        _ => false,
    };
    operands && d < registers
}

fn ending_fits(ending: &[u32], blocks: u32, registers: u32) -> bool {
    let (c, a, b, t, f) = (ending[1], ending[2], ending[3], ending[4], ending[5]);
    match ending[0] {
        1 => c == 0 && a == 0 && b == 0 && f == 0 && t < blocks,
        2 => (12..=17).contains(&c) && a < registers && b < registers && t < blocks && f < blocks,
        3 => c == 0 && a == 0 && b == 0 && t == 0 && f == 0,
        _ => false,
    }
}

fn block_fits(block: &[u32], blocks: u32, registers: u32, reads: &mut bool) -> bool {
    let used = block[0] as usize;
    if used > INSTRUCTIONS {
        return false;
    }
    let (code, unused) = block[1..ENDING].split_at(4 * used);
    code.chunks_exact(4).all(|instruction| instruction_fits(instruction, registers, reads))
        && all_zero(unused)
        && ending_fits(&block[ENDING..], blocks, registers)
        && block[BLOCK_WORDS - 1] == 0
}

/// Whether an admitted table holds code 20; none for one that is not admitted. The table has at
/// least the words of a graph table.
pub fn admitted(table: &[u32]) -> Option<bool> {
    let (blocks, registers) = (table[0], table[1]);
    if !(1..=BLOCKS as u32).contains(&blocks) || !(1..=REGISTERS as u32).contains(&registers) {
        return None;
    }
    let (used, mut reads) = (blocks as usize, false);
    let fits = (0..used).all(|n| block_fits(block(table, n), blocks, registers, &mut reads))
        && all_zero(&table[HEAD + BLOCK_WORDS * used..GRAPH_WORDS]);
    fits.then_some(reads)
}
