//! Texts of an exact length: an admitted graph as far as there is one, then lines too many.

use crate::graph::{
    Block, Comparison, Ending, Graph, Instruction, MAX_BLOCKS, MAX_INSTRUCTIONS, MAX_REGISTERS,
};
use crate::print::print;

/// The shortest and the longest line of a `set`: `set,0,0` and `set,15,-2147483648`.
const LINES: std::ops::RangeInclusive<usize> = 8..=19;

/// 64 blocks with the longest endings. All but blocks 1 to 9, whose numbers are too short for a
/// longest ending to name them, are reached from block 0, the last by way of all others.
fn endings() -> impl Iterator<Item = Ending> {
    let last = MAX_REGISTERS - 1;
    (0..MAX_BLOCKS).map(move |block| {
        let (t, f) = match block {
            0..=9 => (10, 11),
            _ => ((block + 1).min(MAX_BLOCKS - 1), block),
        };
        Ending::Ite { comparison: Comparison::Ltu, a: last, b: last, t, f }
    })
}

/// An instruction whose line has so many bytes.
fn set(length: usize) -> Instruction {
    let long = length == *LINES.end();
    let digits = length - if long { 8 } else { 7 };
    let literal = match digits {
        1 => 7,
        11 => i32::MIN,
        _ => -10i32.pow(digits as u32 - 2),
    };
    Instruction::Set { d: if long { 15 } else { 0 }, literal }
}

/// The lengths of lines that make so many bytes together, the first ones as long as may be.
fn line_lengths(mut bytes: usize) -> Vec<usize> {
    let mut lengths = Vec::new();
    while bytes > 0 {
        let rest = bytes.saturating_sub(*LINES.end());
        // A rest shorter than any line is taken from this one.
        let kept = if rest > 0 && rest < *LINES.start() { *LINES.start() } else { rest };
        lengths.push(bytes - kept);
        bytes = kept;
    }
    lengths
}

fn graph(instructions: Vec<Instruction>) -> Graph {
    let mut parts = instructions.chunks(MAX_INSTRUCTIONS);
    let blocks = endings()
        .map(|ending| Block { instructions: parts.next().unwrap_or_default().to_vec(), ending });
    Graph { registers: MAX_REGISTERS, blocks: blocks.collect() }
}

/// A text of so many bytes, or None where the blocks alone have more. No admitted text is longer
/// than 64 full blocks; behind these come lines that are not due, the last of them cut.
pub fn text(length: usize) -> Option<Vec<u8>> {
    let most = MAX_BLOCKS * MAX_INSTRUCTIONS;
    let bare = print(&graph(Vec::new())).len();
    let wanted = length.checked_sub(bare).filter(|&rest| rest == 0 || rest >= *LINES.start())?;
    let lengths = line_lengths(wanted.min(most * LINES.end()));
    let mut text = print(&graph(lengths.into_iter().map(set).collect())).into_bytes();
    text.extend(b"halt\n".iter().cycle().take(length - text.len()));
    Some(text)
}
