//! The eleven operations on lent buffers. On a refusal every buffer is left as it was.

use crate::raw;

/// Every field that an operation answers, as C gives it: the number is 0 for success.
#[derive(Clone, Copy, Debug, PartialEq, Eq)]
pub struct ReadFields {
    pub number: u32,
    pub line: u32,
}

#[derive(Clone, Copy, Debug, PartialEq, Eq)]
pub struct WriteFields {
    pub number: u32,
    pub length: u32,
}

/// The flag is 1 where an add or sub went over in a block that the run passed.
#[derive(Clone, Copy, Debug, PartialEq, Eq)]
pub struct RunFields {
    pub number: u32,
    pub halted: u32,
    pub count: u32,
    pub next: u32,
    pub flag: u32,
}

/// The outcome is 0 for spent, 1 for halted, 2 for dry; the flag is as in [`RunFields`].
#[derive(Clone, Copy, Debug, PartialEq, Eq)]
pub struct RunWithWordsFields {
    pub number: u32,
    pub outcome: u32,
    pub count: u32,
    pub next: u32,
    pub flag: u32,
}

/// As [`RunFields`], with the number of blocks run in all cycles.
#[derive(Clone, Copy, Debug, PartialEq, Eq)]
pub struct MachineRunFields {
    pub number: u32,
    pub halted: u32,
    pub count: u32,
    pub next: u32,
    pub flag: u32,
    pub blocks: u64,
}

/// As [`RunWithWordsFields`], with the number of blocks run in all cycles.
#[derive(Clone, Copy, Debug, PartialEq, Eq)]
pub struct MachineRunWithWordsFields {
    pub number: u32,
    pub outcome: u32,
    pub count: u32,
    pub next: u32,
    pub flag: u32,
    pub blocks: u64,
}

/// `touched` is 1 where the state may change the register, else 0.
#[derive(Clone, Copy, Debug, PartialEq, Eq)]
pub struct TouchesFields {
    pub number: u32,
    pub touched: u32,
}

/// The state is the lowest-numbered one that may change the register, 255 for none.
#[derive(Clone, Copy, Debug, PartialEq, Eq)]
pub struct FirstTouchingFields {
    pub number: u32,
    pub state: u32,
}

/// The fields of a comparison of two recordings. The recording, 1 or 2, and the line, counted from
/// 1, are those of a fault; `differs` is 1 where a cycle differs, and `cycle` is then the first.
#[derive(Clone, Copy, Debug, PartialEq, Eq)]
pub struct CaptureFields {
    pub number: u32,
    pub recording: u32,
    pub line: u64,
    pub shared: u64,
    pub differs: u32,
    pub cycle: u32,
}

/// What a field holds before a call, so that one that is not set would show.
const UNSET: u32 = 0xA5A5_A5A5;
const UNSET_LONG: u64 = 0xA5A5_A5A5_A5A5_A5A5;

/// Reads a graph's text into a graph table.
pub fn read(text: &[u8], table: &mut [u32]) -> ReadFields {
    let mut line = UNSET;
    // SAFETY: pointers and lengths are those of slices, and the borrows keep them apart.
    let number = unsafe {
        raw::gutkavu_read(text.as_ptr(), text.len(), table.as_mut_ptr(), table.len(), &mut line)
    };
    ReadFields { number, line }
}

/// Writes a graph table as text.
pub fn write(table: &[u32], out: &mut [u8]) -> WriteFields {
    let mut length = UNSET;
    // SAFETY: as in `read`.
    let number = unsafe {
        raw::gutkavu_write(table.as_ptr(), table.len(), out.as_mut_ptr(), out.len(), &mut length)
    };
    WriteFields { number, length }
}

/// Synthesises a graph table into a machine table; gives the refusal's number, or 0.
pub fn synthesise(graph: &[u32], machine: &mut [u32]) -> u32 {
    // SAFETY: as in `read`.
    unsafe {
        raw::gutkavu_synthesise(graph.as_ptr(), graph.len(), machine.as_mut_ptr(), machine.len())
    }
}

/// Runs a graph from a start block, at most `budget` blocks.
pub fn run_graph(graph: &[u32], registers: &mut [u32], start: u32, budget: u32) -> RunFields {
    let (mut halted, mut count, mut next, mut flag) = (UNSET, UNSET, UNSET, UNSET);
    // SAFETY: as in `read`.
    let number = unsafe {
        raw::gutkavu_run_graph(
            graph.as_ptr(),
            graph.len(),
            registers.as_mut_ptr(),
            registers.len(),
            start,
            budget,
            &mut halted,
            &mut count,
            &mut next,
            &mut flag,
        )
    };
    RunFields { number, halted, count, next, flag }
}

/// Runs a machine from a start state, at most `budget` cycles.
pub fn run_machine(
    machine: &[u32],
    registers: &mut [u32],
    start: u32,
    budget: u32,
) -> MachineRunFields {
    let (mut halted, mut count, mut next, mut flag) = (UNSET, UNSET, UNSET, UNSET);
    let mut blocks = UNSET_LONG;
    // SAFETY: as in `read`.
    let number = unsafe {
        raw::gutkavu_run_machine(
            machine.as_ptr(),
            machine.len(),
            registers.as_mut_ptr(),
            registers.len(),
            start,
            budget,
            &mut halted,
            &mut count,
            &mut next,
            &mut flag,
            &mut blocks,
        )
    };
    MachineRunFields { number, halted, count, next, flag, blocks }
}

/// Runs a graph from a start block, at most `budget` blocks, with a word for each arrival at a
/// block of the starter list.
pub fn run_graph_with_words(
    graph: &[u32],
    registers: &mut [u32],
    start: u32,
    budget: u32,
    words: &[u32],
    starters: &[u32],
) -> RunWithWordsFields {
    let (mut outcome, mut count, mut next, mut flag) = (UNSET, UNSET, UNSET, UNSET);
    // SAFETY: as in `read`.
    let number = unsafe {
        raw::gutkavu_run_graph_with_words(
            graph.as_ptr(),
            graph.len(),
            registers.as_mut_ptr(),
            registers.len(),
            start,
            budget,
            words.as_ptr(),
            words.len(),
            starters.as_ptr(),
            starters.len(),
            &mut outcome,
            &mut count,
            &mut next,
            &mut flag,
        )
    };
    RunWithWordsFields { number, outcome, count, next, flag }
}

/// Runs a machine from a start state, at most `budget` cycles, with a word for each cycle.
pub fn run_machine_with_words(
    machine: &[u32],
    registers: &mut [u32],
    start: u32,
    budget: u32,
    words: &[u32],
) -> MachineRunWithWordsFields {
    let (mut outcome, mut count, mut next, mut flag) = (UNSET, UNSET, UNSET, UNSET);
    let mut blocks = UNSET_LONG;
    // SAFETY: as in `read`.
    let number = unsafe {
        raw::gutkavu_run_machine_with_words(
            machine.as_ptr(),
            machine.len(),
            registers.as_mut_ptr(),
            registers.len(),
            start,
            budget,
            words.as_ptr(),
            words.len(),
            &mut outcome,
            &mut count,
            &mut next,
            &mut flag,
            &mut blocks,
        )
    };
    MachineRunWithWordsFields { number, outcome, count, next, flag, blocks }
}

/// Asks whether a state of a machine may change a register, which may be any number.
pub fn touches(machine: &[u32], state: u32, register: u32) -> TouchesFields {
    let mut touched = UNSET;
    let (table, length) = (machine.as_ptr(), machine.len());
    // SAFETY: as in `read`.
    let number = unsafe { raw::gutkavu_touches(table, length, state, register, &mut touched) };
    TouchesFields { number, touched }
}

/// Asks for the lowest-numbered state of a machine that may change a register, which may be any
/// number.
pub fn first_touching(machine: &[u32], register: u32) -> FirstTouchingFields {
    let mut state = UNSET;
    let (table, length) = (machine.as_ptr(), machine.len());
    // SAFETY: as in `read`.
    let number = unsafe { raw::gutkavu_first_touching(table, length, register, &mut state) };
    FirstTouchingFields { number, state }
}

/// Asks what one cycle of a state can do to registers between the signed values of two buffers,
/// which are set to bounds at its end; gives the refusal's number, or 0.
pub fn bounds(machine: &[u32], lowest: &mut [u32], highest: &mut [u32], state: u32) -> u32 {
    // SAFETY: as in `read`.
    unsafe {
        raw::gutkavu_bounds(
            machine.as_ptr(),
            machine.len(),
            lowest.as_mut_ptr(),
            lowest.len(),
            highest.as_mut_ptr(),
            highest.len(),
            state,
        )
    }
}

/// Compares two recordings of one run, of `registers` registers each.
pub fn compare_captures(registers: u32, first: &[u8], second: &[u8]) -> CaptureFields {
    let (mut recording, mut differs, mut cycle) = (UNSET, UNSET, UNSET);
    let (mut line, mut shared) = (UNSET_LONG, UNSET_LONG);
    // SAFETY: as in `read`.
    let number = unsafe {
        raw::gutkavu_compare_captures(
            registers,
            first.as_ptr(),
            first.len(),
            second.as_ptr(),
            second.len(),
            &mut recording,
            &mut line,
            &mut shared,
            &mut differs,
            &mut cycle,
        )
    };
    CaptureFields { number, recording, line, shared, differs, cycle }
}
