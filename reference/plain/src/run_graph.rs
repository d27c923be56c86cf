//! "Run graph", without words and with them.

use crate::value::{compare, value};
use crate::words::{Unread, Words};
use crate::{
    block, dry, graph_admission, halted, refused, spent, without_words, ENDING, REGISTERS,
};
use gutkavu::operations::{RunFields, RunWithWordsFields};
use gutkavu::GRAPH_WORDS;

/// Runs a block on the registers; the next block, if it does not halt. A sum that goes over raises
/// the flag.
#[inline(always)]
fn step(block: &[u32], file: &mut [u32; REGISTERS], input: u32, flag: &mut bool) -> Option<u32> {
    for instruction in block[1..ENDING].chunks_exact(4).take(block[0] as usize) {
        let (code, d, a, b) = (instruction[0], instruction[1], instruction[2], instruction[3]);
        let (word, over) = value(&file[..], code, [a, b, 0], input);
        file[d as usize] = word;
        *flag |= over;
    }
    let ending = &block[ENDING..];
    match ending[0] {
        1 => Some(ending[4]),
        2 if compare(ending[1], file[ending[2] as usize], file[ending[3] as usize]) => {
            Some(ending[4])
        }
        2 => Some(ending[5]),
        _ => None,
    }
}

/// Bit n of `starters` is set where block n is one.
#[inline]
fn run(
    table: &[u32],
    file: &mut [u32; REGISTERS],
    start: u32,
    budget: u32,
    mut words: impl Words,
    starters: u64,
) -> RunWithWordsFields {
    let (mut at, mut count, mut word, mut flag) = (start, 0, words.take(), false);
    while count < budget {
        let Some(input) = word else {
            return dry(count, at, flag);
        };
        count += 1;
        let Some(next) = step(block(table, at as usize), file, input, &mut flag) else {
            return halted(count, flag);
        };
        at = next;
        if starters >> at & 1 == 1 {
            word = words.take();
        }
    }
    spent(count, at, flag)
}

/// The register file and whether the table holds code 20, or the refusal 7 or 6.
#[inline]
fn checked<'a>(
    table: &[u32],
    registers: &'a mut [u32],
) -> Result<(&'a mut [u32; REGISTERS], bool), u32> {
    let file = registers.first_chunk_mut().filter(|_| table.len() >= GRAPH_WORDS).ok_or(7u32)?;
    let reads = graph_admission::admitted(table).ok_or(6u32)?;
    Ok((file, reads))
}

pub fn run_graph(table: &[u32], registers: &mut [u32], start: u32, budget: u32) -> RunFields {
    without_words(match checked(table, registers) {
        Err(number) => refused(number),
        Ok((_, true)) => refused(12),
        Ok(_) if start >= table[0] => refused(9),
        Ok((file, _)) => run(table, file, start, budget, Unread, 0),
    })
}

/// The starter list as bits, where it holds block 0 and the start and only blocks below B.
fn bits(starters: &[u32], start: u32, blocks: u32) -> Option<u64> {
    let mut bits = 0u64;
    for &starter in starters {
        if starter >= blocks {
            return None;
        }
        bits |= 1 << starter;
    }
    (bits & 1 == 1 && bits >> start & 1 == 1).then_some(bits)
}

pub fn run_graph_with_words(
    table: &[u32],
    registers: &mut [u32],
    start: u32,
    budget: u32,
    words: &[u32],
    starters: &[u32],
) -> RunWithWordsFields {
    let file = match checked(table, registers) {
        Err(number) => return refused(number),
        Ok((file, _)) => file,
    };
    if start >= table[0] {
        return refused(9);
    }
    match bits(starters, start, table[0]) {
        None => refused(11),
        Some(starters) => run(table, file, start, budget, words.iter(), starters),
    }
}
