//! Cases of runs with words that do not depend on the seed: lists, starts, budgets, tables.

use super::examples::{P11, P12, P7, P9};
use super::fixed::own_starters;
use super::mends::mended;
use crate::answer::buffers_of;
use crate::case::Case;
use crate::machine_table::WIRES_AT;

/// Reads a rate of turn each cycle until it is 0; r5 is the largest without its sign, r3 its word.
pub const WATCH: &str = "graph,7,6\nblock,0\nset,2,0\nset,5,0\ngoto,1\nblock,1\nin,0\nsx,1,0\n\
ite,eq,1,2,6,2\nblock,2\nite,lt,1,2,3,4\nblock,3\nsub,1,2,1\ngoto,4\nblock,4\nite,ltu,5,1,5,1\n\
block,5\ncopy,5,1\nin,3\ngoto,1\nblock,6\nhalt\n";

/// The first word is sampled in state 0, which reads none.
pub const RATES: [u32; 6] = [9, 65_336, 400, 300, 0, 7];

/// One block that adds a word to r0 and goes to itself.
pub const SUM: &str = "graph,1,2\nblock,0\nin,1\nadd,0,0,1\ngoto,0\n";

/// Its only `in` is in a block that nothing reaches.
pub const LOST_INPUT: &str = "graph,3,1\nblock,0\ngoto,1\nblock,1\nhalt\nblock,2\nin,0\ngoto,1\n";

/// A case with the machine's own starters.
fn case(text: &str, words: &[u32], budget: u32) -> Case {
    let mut case = Case::plain(text.as_bytes());
    case.starters = own_starters(text.as_bytes());
    case.words = words.to_vec();
    (case.block_budget, case.cycle_budget) = (budget, budget);
    case
}

/// From too few words to more than are needed, also where nothing reads them.
fn lengths() -> Vec<Case> {
    let mut cases = Vec::new();
    for length in 0..=RATES.len() {
        let words = &RATES[..length];
        cases.push(case(WATCH, words, u32::MAX));
        let mut gcd = case(P7, words, 100);
        gcd.registers[..2].copy_from_slice(&[12, 18]);
        cases.push(gcd);
        cases.extend([P9, P11, P12, LOST_INPUT, SUM].map(|text| case(text, words, 5)));
    }
    cases
}

/// Budgets at, below and above the number of words, of which there are three.
fn budgets() -> Vec<Case> {
    let runs = (0..=5).chain([u32::MAX]).map(|budget| case(SUM, &RATES[..3], budget));
    let halting = (3..=12).map(|budget| case(WATCH, &RATES, budget));
    runs.chain(halting).collect()
}

/// Each starter of P9 with its state, and starts that are none.
fn starts() -> Vec<Case> {
    let starts = [(0, 0), (1, 1), (3, 2), (4, 3), (2, 0), (5, 4), (5, 0), (0, 4)];
    let start = |(block, state)| {
        let mut case = case(P9, &RATES, 6);
        (case.start_block, case.start_state) = (block, state);
        case
    };
    starts.into_iter().map(start).collect()
}

/// Lists of starters for P9 from block 3: right ones, and each fault.
fn starters() -> Vec<Case> {
    let lists: [&[u32]; 12] = [
        &[0, 1, 3, 4],
        &[4, 3, 1, 0],
        &[3, 3, 0, 4, 1, 0],
        &[0, 3],
        &[0, 1, 2, 3, 4],
        &[],
        &[1, 3, 4],
        &[0, 1, 4],
        &[0, 1, 3, 4, 5],
        &[5, 0, 3],
        &[0, 3, 64],
        &[0, 3, u32::MAX],
    ];
    let list = |list: &[u32]| {
        let mut case = case(P9, &RATES[..1], 6);
        (case.start_block, case.start_state) = (3, 2);
        case.starters = list.to_vec();
        case
    };
    lists.into_iter().map(list).collect()
}

/// The first instruction of SUM made others, refused ones and admitted ones.
fn graph_tables() -> Vec<Case> {
    let codes = (11..=21).map(|code| vec![(3, code)]);
    let operands = [(4, 2), (5, 1), (6, 1), (5, u32::MAX)].map(|patch| vec![patch]);
    let patched = |patches| {
        let mut case = case(SUM, &RATES[..3], 3);
        case.graph_patches = patches;
        case
    };
    codes.chain(operands).map(patched).collect()
}

/// Wire 5 of P7's machine, one of state 1, made `in` and codes past it, and wires of no state.
fn machine_tables() -> Vec<Case> {
    let at = (WIRES_AT + 4 * 5) as u32;
    let free = (WIRES_AT + 4 * 20) as u32;
    let wild = vec![(at, 20), (at + 1, u32::MAX), (at + 2, 33), (at + 3, 15)];
    let fewer = mended(&buffers_of(&Case::plain(P7.as_bytes())).1, vec![(at, 20), (0, 1)]);
    let kinds = [vec![(at, 20)], wild, vec![(at, 21)], vec![(free, 20)], fewer];
    let patched = |patches| {
        let mut case = case(P7, &RATES, 6);
        case.registers[..2].copy_from_slice(&[12, 18]);
        case.machine_patches = patches;
        case
    };
    kinds.into_iter().map(patched).collect()
}

pub fn cases() -> Vec<Case> {
    let kinds = [lengths(), budgets(), starts(), starters(), graph_tables(), machine_tables()];
    kinds.concat()
}
