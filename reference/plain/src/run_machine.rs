//! "Run machine", without words and with them.

use crate::block_count::Arrivals;
use crate::machine_admission::{self, record, wires};
use crate::value::value;
use crate::words::{Unread, Words};
use crate::{dry, halted, refused, spent, NEXT, REGISTERS, WIRES};
use gutkavu::operations::{MachineRunFields, MachineRunWithWordsFields, RunWithWordsFields};
use gutkavu::MACHINE_WORDS;

/// One cycle: `words` holds the registers, and behind them room for the wires. Gives the next state.
/// A sum that goes over raises the flag where its block is arrived at.
#[inline(always)]
fn cycle(
    table: &[u32],
    state: usize,
    registers: usize,
    words: &mut [u32],
    input: u32,
    flag: &mut bool,
) -> u32 {
    let record = record(table, state);
    for (wire, at) in wires(table, record).chunks_exact(4).zip(REGISTERS..) {
        let (word, over) = value(words, wire[0], [wire[1], wire[2], wire[3]], input);
        words[at] = word;
        *flag |= over && words[wire[3] as usize] != 0;
    }
    let mut next = [0; REGISTERS];
    for (word, &reference) in next[..registers].iter_mut().zip(&record[NEXT..]) {
        *word = words[reference as usize];
    }
    let state = words[record[2] as usize];
    words[..registers].copy_from_slice(&next[..registers]);
    state
}

#[inline]
fn run(
    table: &[u32],
    registers: &mut [u32],
    start: u32,
    budget: u32,
    mut inputs: impl Words,
) -> MachineRunWithWordsFields {
    let (states, used) = (table[0], table[1] as usize);
    let (arrivals, mut blocks) = (Arrivals::of(table), 0);
    let mut words = [0; REGISTERS + WIRES];
    words[..used].copy_from_slice(&registers[..used]);
    let (mut state, mut count, mut flag) = (start, 0, false);
    let answer = loop {
        if state >= states {
            break halted(count, flag);
        }
        if count == budget {
            break spent(count, state, flag);
        }
        let Some(input) = inputs.take() else {
            break dry(count, state, flag);
        };
        count += 1;
        let from = state as usize;
        state = cycle(table, from, used, &mut words, input, &mut flag);
        blocks += arrivals.count(from, &words);
    };
    registers[..used].copy_from_slice(&words[..used]);
    with_blocks(answer, blocks)
}

fn with_blocks(fields: RunWithWordsFields, blocks: u64) -> MachineRunWithWordsFields {
    let RunWithWordsFields { number, outcome, count, next, flag } = fields;
    MachineRunWithWordsFields { number, outcome, count, next, flag, blocks }
}

/// A run without words is never dry.
fn without_words(fields: MachineRunWithWordsFields) -> MachineRunFields {
    let MachineRunWithWordsFields { number, outcome, count, next, flag, blocks } = fields;
    MachineRunFields { number, halted: outcome, count, next, flag, blocks }
}

/// Whether the table holds code 20, or the refusal 7 or 10.
#[inline]
fn checked(table: &[u32], registers: &[u32]) -> Result<bool, u32> {
    if table.len() < MACHINE_WORDS || registers.len() < REGISTERS {
        return Err(7);
    }
    machine_admission::admitted(table).ok_or(10)
}

pub fn run_machine(
    table: &[u32],
    registers: &mut [u32],
    start: u32,
    budget: u32,
) -> MachineRunFields {
    without_words(match checked(table, registers) {
        Err(number) => with_blocks(refused(number), 0),
        Ok(true) => with_blocks(refused(12), 0),
        Ok(_) if start >= table[0] => with_blocks(refused(9), 0),
        Ok(_) => run(table, registers, start, budget, Unread),
    })
}

pub fn run_machine_with_words(
    table: &[u32],
    registers: &mut [u32],
    start: u32,
    budget: u32,
    words: &[u32],
) -> MachineRunWithWordsFields {
    match checked(table, registers) {
        Err(number) => with_blocks(refused(number), 0),
        Ok(_) if start >= table[0] => with_blocks(refused(9), 0),
        Ok(_) => run(table, registers, start, budget, words.iter()),
    }
}
