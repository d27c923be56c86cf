//! Cases that do not depend on the seed: examples, each named fault, sweeps.

use super::examples::{self, P12, P7};
use super::mends::mended;
use super::{
    block_cases, bound_cases, capture_cases, shift_cases, sum_cases, touch_cases, word_cases,
};
use crate::answer::buffers_of;
use crate::case::{Asked, Case};
use crate::graph::{Block, Comparison, Ending, Graph, Instruction, MAX_BLOCKS, MAX_REGISTERS};
use crate::grouping::group;
use crate::machine_table::{RECORDS_AT, RECORD_WORDS, WIRES_AT};
use crate::parse::parse;
use crate::print::print;

/// Lines without a form, with a form not due, and with a number too large.
const LINES: [&str; 64] = [
    "", "set,0,-0", "set,0,-", "set,0,", "set,0,00", "set,0,-01", "set,0,+1", "set,0,2147483648",
    "set,0,-2147483649", "set,0,2147483647", "set,0,-2147483648", "set,00,1", "set,256,1",
    "set,,1", "set, 0,1", "set,0,1 ", "set,0,1\r", "copy,0", "copy,0,0,0", "add,0,0", "eq,0,0,0",
    "mul,0,0,0", "Set,0,1", "halt,", "goto,", "goto,256", "block,256", "block,00", "graph,65,1",
    "graph,64,1", "ite,eq,0,0,0", "ite,le,0,0,0,0", "ite,eq,0,0,256,0", "block,0", "block,1",
    "block,255", "goto,0", "ite,eq,0,0,0,0", "set,2,0", "copy,0,2", "copy,2,0", "add,0,0,2", "in",
    "in,", "in,0,", "in,0,0", "in,00", "in,256", "in,-1", "in,x", "in, 0", "In,0", "inn,0", "in,2",
    "in,16", "in,255", "in,0", "in,1", "add,0,2,0", "goto,1", "ite,eq,0,0,1,0", "ite,eq,0,0,0,1",
    "ite,eq,2,0,1,0", "ite,eq,0,2,0,1",
];

const TEXTS: [&str; 22] = [
    "\n",
    "graph,0,1\n",
    "graph,1,0\n",
    "graph,1,17\n",
    "graph,01,1\n",
    "graph,256,1\n",
    "graph,1,1",
    "graph,1,1\nblock,0",
    "graph,1,1\nblock,0\n",
    "graph,1,1\nblock,0\nhalt",
    "graph,1,1\nblock,0\nhalt\n",
    "graph,1,1\nblock,0\nhalt\n\n",
    "graph,1,1\nblock,0\nhalt\nx",
    "graph,1,1\nblock,0\nhalt\nhalt\n",
    "graph,1,1\nblock,0\nhalt\nhalt",
    "halt\n",
    "block,0\n",
    "graph,1,1\nblock,0\nhalt\nblock,1\nhalt\n",
    "graph,2,1\nblock,0\nhalt\n",
    "graph,2,1\nblock,1\nhalt\nblock,0\nhalt\n",
    "graph,1,1\nblock,0\nhalt\ngoto,255\n",
    "graph,1,1\r\nblock,0\r\nhalt\r\n",
];

/// A graph with every kind of ending and of instruction words.
const SMALL: &str = "graph,3,2\nblock,0\nset,0,5\nadd,1,0,1\nite,ltu,0,1,1,2\nblock,1\n\
copy,1,0\ngoto,2\nblock,2\nsx,0,1\nhalt\n";

fn named_faults() -> Vec<Case> {
    let lines = LINES.iter().map(|line| format!("graph,1,2\nblock,0\n{line}\nhalt\n"));
    let texts = TEXTS.iter().map(|text| text.to_string());
    let all = lines.chain(texts).chain(texts_at_the_limit()).chain(two_faulty_lines());
    all.map(|text| Case::plain(text.as_bytes())).collect()
}

/// A right text followed by line feeds up to, and past, 16,384 bytes.
fn texts_at_the_limit() -> Vec<String> {
    let start = "graph,1,1\nblock,0\nhalt\n";
    [16_384, 16_385].map(|length| start.to_string() + &"\n".repeat(length - start.len())).to_vec()
}

/// Each fault of a line in block 0, before each in block 1.
fn two_faulty_lines() -> Vec<String> {
    let faulty = ["x\nhalt", "graph,1,1\nhalt", "copy,1,0\nhalt", "goto,3"];
    let text =
        |first, second| format!("graph,3,1\nblock,0\n{first}\nblock,1\n{second}\nblock,2\nhalt\n");
    faulty.iter().flat_map(|first| faulty.map(|second| text(first, second))).collect()
}

/// A text that is too long, with a line of each fault, read into a table that is short.
fn long_and_faulty() -> Case {
    let start = "graph,1,1\nblock,0\ncopy,1,0\ngoto,1\nx\n";
    let text = start.to_string() + &"halt\n".repeat(16_385 / 5);
    let mut case = Case::plain(&text.as_bytes()[..16_385]);
    case.graph_length = 2_561;
    case
}

/// The longest text there is, and the graph with the most wires.
pub fn largest_graphs() -> [Graph; 2] {
    let last = MAX_REGISTERS - 1;
    let ite =
        |t: usize, f: usize| Ending::Ite { comparison: Comparison::Ltu, a: last, b: last, t, f };
    let block = |ending| Block {
        instructions: vec![Instruction::Set { d: last, literal: i32::MIN }; 8],
        ending,
    };
    let n = MAX_BLOCKS;
    let long = (0..n).map(|_| block(ite(n - 1, n - 1))).collect();
    let wide = (0..n).map(|i| block(ite(i, (i + 1) % n))).collect();
    [long, wide].map(|blocks| Graph { registers: MAX_REGISTERS, blocks })
}

/// Every word of the small graph's blocks, and some beyond, changed by one.
fn graph_sweep() -> Vec<Case> {
    let change = |index: u32| {
        let mut case = Case::plain(SMALL.as_bytes());
        case.graph_patches = vec![(index, 1 + index % 3)];
        (case.block_budget, case.cycle_budget) = (20, 20);
        case
    };
    (0..2 + 3 * 40).chain([122, 155, 2_560, 2_561, 2_562]).map(change).collect()
}

/// Every word of P7's machine that may be read, and some that may not. Where a touch word or a block's
/// word is wrong by that, another case has the right one.
fn machine_sweep() -> Vec<Case> {
    let records = RECORDS_AT..RECORDS_AT + 2 * RECORD_WORDS + 3;
    let wires = WIRES_AT..WIRES_AT + 21 * 4;
    let mut case = Case::plain(P7.as_bytes());
    let (_, made) = buffers_of(&case);
    case.registers[..2].copy_from_slice(&[12, 18]);
    (case.block_budget, case.cycle_budget) = (9, 20);
    let with = |patches| Case { machine_patches: patches, ..case.clone() };
    let change = |index: usize| {
        let patches = vec![(index as u32, [1, 2, 16, 17, 20, 33, 34][index % 7])];
        let mended = mended(&made, patches.clone());
        let right = (mended != patches).then(|| with(mended));
        [Some(with(patches)), right].into_iter().flatten()
    };
    [0, 1, 2, 66].into_iter().chain(records).chain(wires).flat_map(change).collect()
}

/// The starters of the machine that a text makes, or block 0 alone.
pub fn own_starters(text: &[u8]) -> Vec<u32> {
    let starters = parse(text).map_or(vec![0], |graph| group(&graph).starters);
    starters.iter().map(|&block| block as u32).collect()
}

/// States and registers, such that there are and such that there are not.
const QUESTIONS: [(u32, u32); 18] = [
    (0, 0),
    (0, 1),
    (1, 0),
    (1, 1),
    (2, 0),
    (0, 2),
    (3, 1),
    (63, 0),
    (1, 15),
    (0, 16),
    (64, 0),
    (255, 1),
    (1, 32),
    (0, 31),
    (1, 33),
    (u32::MAX, 0),
    (0, u32::MAX),
    (0, 2_147_483_648),
];

fn with_questions(cases: &mut [Case]) {
    for (case, &(state, register)) in cases.iter_mut().zip(QUESTIONS.iter().cycle()) {
        case.asked = Asked { state, register };
    }
}

fn with_bounds(cases: &mut [Case]) {
    for (case, bounds) in cases.iter_mut().zip(bound_cases::others().iter().cycle()) {
        case.bounds = bounds.clone();
    }
}

/// A pair of recordings for each case, and further cases for those that are left.
fn with_captures(mut cases: Vec<Case>) -> Vec<Case> {
    let pairs = capture_cases::pairs();
    while cases.len() < pairs.len() {
        cases.push(Case::plain(P12.as_bytes()));
    }
    for (case, captures) in cases.iter_mut().zip(pairs.iter().cycle()) {
        case.captures = captures.clone();
    }
    cases
}

pub fn cases() -> Vec<Case> {
    let largest = largest_graphs().map(|graph| Case::plain(print(&graph).as_bytes()));
    let mut cases = examples::cases();
    cases.extend(named_faults());
    cases.push(long_and_faulty());
    cases.extend(largest);
    cases.extend(graph_sweep());
    cases.extend(machine_sweep());
    for case in &mut cases {
        case.starters = own_starters(&case.text);
    }
    cases.extend(word_cases::cases());
    cases.extend(sum_cases::cases());
    with_questions(&mut cases);
    cases.extend(touch_cases::cases());
    with_bounds(&mut cases);
    cases.extend(bound_cases::cases());
    cases.extend(shift_cases::cases());
    cases.extend(block_cases::cases());
    with_captures(cases)
}
