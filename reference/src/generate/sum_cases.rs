//! Cases of sums that go over, or just do not, that do not depend on the seed.

use super::arrival_damage::no_arrivals;
use super::examples::P7;
use super::fixed::own_starters;
use super::machine_damage::Table;
use super::word_cases::SUM;
use crate::answer::buffers_of;
use crate::case::{Case, Patch};
use crate::machine_table::WIRES_AT;
use crate::random::Random;

const MOST: u32 = 2_147_483_647;
const LEAST: u32 = 2_147_483_648;
const MINUS_1: u32 = 4_294_967_295;

/// Name and operands of a sum.
pub type Sum = (&'static str, u32, u32);

/// Their results are not in -2^31 to 2^31 - 1.
pub const OVER: [Sum; 14] = [
    ("add", MOST, 1),
    ("add", 1, MOST),
    ("add", LEAST, MINUS_1),
    ("add", MINUS_1, LEAST),
    ("add", LEAST, LEAST),
    ("add", MOST, MOST),
    ("add", 1_073_741_824, 1_073_741_824),
    ("add", 3_221_225_471, 3_221_225_472),
    ("sub", LEAST, 1),
    ("sub", MOST, MINUS_1),
    ("sub", 0, LEAST),
    ("sub", MOST, LEAST),
    ("sub", LEAST, MOST),
    ("sub", MINUS_1 - 1, MOST),
];

/// Their results are in it; some carry or borrow.
pub const WITHIN: [Sum; 20] = [
    ("add", MOST - 1, 1),
    ("add", LEAST + 1, MINUS_1),
    ("add", LEAST, MOST),
    ("add", MOST, 0),
    ("add", LEAST, 0),
    ("add", MINUS_1, 1),
    ("add", MINUS_1, MINUS_1),
    ("add", LEAST, 1),
    ("add", MOST, MINUS_1),
    ("add", 3_221_225_472, 3_221_225_472),
    ("sub", LEAST + 1, 1),
    ("sub", MOST - 1, MINUS_1),
    ("sub", MINUS_1, LEAST),
    ("sub", LEAST, LEAST),
    ("sub", MOST, MOST),
    ("sub", 0, MOST),
    ("sub", MINUS_1, MOST),
    ("sub", 0, 1),
    ("sub", MOST, 1),
    ("sub", LEAST, MINUS_1),
];

/// One block: r2 := r0 and r1, and a halt.
pub fn one(name: &str) -> String {
    format!("graph,1,4\nblock,0\n{name},2,0,1\nhalt\n")
}

/// Block 1 adds where r2 is r3, else block 2 subtracts; both go on to the halt.
pub const EITHER: &str = "graph,4,4\nblock,0\nite,eq,2,3,1,2\nblock,1\nadd,0,0,1\ngoto,3\n\
block,2\nsub,0,0,1\ngoto,3\nblock,3\nhalt\n";

/// Block 1 has the one sum; it is passed by where r2 is not r3.
pub fn beside(name: &str) -> String {
    format!(
        "graph,4,4\nblock,0\nite,eq,2,3,1,2\nblock,1\n{name},0,0,1\ngoto,3\nblock,2\ngoto,3\n\
         block,3\nhalt\n"
    )
}

/// Block 3 adds; it is passed by where r2 is r3 and r0 is not r1.
pub const JOIN: &str = "graph,5,4\nblock,0\nite,eq,2,3,1,2\nblock,1\nite,eq,0,1,3,4\nblock,2\n\
goto,3\nblock,3\nadd,0,0,1\ngoto,4\nblock,4\nhalt\n";

/// Block 0 adds; the cycles after it take r3 from r2 until that is r4.
pub const EARLY: &str = "graph,3,5\nblock,0\nadd,0,0,1\ngoto,1\nblock,1\nsub,2,2,3\n\
ite,ne,2,4,1,2\nblock,2\nhalt\n";

/// Adds or subtracts r1 once a cycle. Where r1 is the least number, each second sum goes over.
pub fn turns(name: &str) -> String {
    format!("graph,1,2\nblock,0\n{name},0,0,1\ngoto,0\n")
}

/// A loop of two registers, and a sum in the block that halts.
pub const AT_HALT: &str = "graph,2,4\nblock,0\nadd,2,2,3\nite,ltu,2,1,0,1\nblock,1\nadd,0,0,0\n\
halt\n";

/// Two sums of one block, into one register or into two; a result that is written over.
pub const TWO_SUMS: [&str; 4] = [
    "graph,1,4\nblock,0\nadd,2,0,1\nadd,3,1,1\nhalt\n",
    "graph,1,4\nblock,0\nadd,3,1,1\nadd,2,0,1\nhalt\n",
    "graph,1,4\nblock,0\nadd,2,0,1\nsub,2,2,1\nhalt\n",
    "graph,1,4\nblock,0\nadd,2,0,1\nset,2,0\nhalt\n",
];

/// Nothing reaches the block that adds; a graph's run may start there.
pub const LOST: &str = "graph,3,4\nblock,0\ngoto,1\nblock,1\nhalt\nblock,2\nadd,2,0,1\ngoto,1\n";

/// A case with the machine's own starters on these registers.
pub fn case(text: &str, registers: &[u32], budget: u32) -> Case {
    let mut case = Case::plain(text.as_bytes());
    case.starters = own_starters(text.as_bytes());
    case.registers[..registers.len()].copy_from_slice(registers);
    (case.block_budget, case.cycle_budget) = (budget, budget);
    case
}

fn single() -> Vec<Case> {
    let of = |&(name, x, y): &Sum| case(&one(name), &[x, y], 5);
    OVER.iter().chain(&WITHIN).map(of).collect()
}

/// Sums in a block that is arrived at, and in one that is not.
fn branches() -> Vec<Case> {
    let either = [(MOST, 1), (LEAST, 1), (LEAST, LEAST), (MOST, MINUS_1)];
    let both = either
        .iter()
        .flat_map(|&(x, y)| [case(EITHER, &[x, y, 7, 7], 9), case(EITHER, &[x, y, 7, 8], 9)]);
    let join = [(LEAST, LEAST, 7), (MOST, 1, 7), (MOST, 1, 8), (MOST - 1, 1, 8)];
    let joined = join.iter().map(|&(x, y, other)| case(JOIN, &[x, y, 7, other], 9));
    let beside = OVER
        .iter()
        .flat_map(|&(name, x, y)| [7, 8].map(|other| case(&beside(name), &[x, y, 7, other], 9)));
    both.chain(joined).chain(beside).collect()
}

/// Raised in the first, a later or the last cycle; at each budget, and with too few words.
fn cycles() -> Vec<Case> {
    let mut cases = Vec::new();
    for budget in 0..=7 {
        cases.push(case(EARLY, &[MOST, 1, 4, 1, 0], budget));
        cases.push(case(EARLY, &[MOST, 2, LEAST + 2, 1, 0], budget));
        cases.push(case(EARLY, &[5, 1, LEAST + 2, 1, 0], budget));
        cases.push(case(&turns("add"), &[LEAST, LEAST], budget));
    }
    for turns in 1..=5 {
        cases.push(case(EARLY, &[MOST, 1, turns, 1, 0], 99));
        cases.push(case(EARLY, &[LEAST, MINUS_1, turns, 1, 0], 99));
        cases.push(case(EARLY, &[MOST - 1, 1, turns, 1, 0], 99));
    }
    let halting = [[MOST, 3, 0, 1], [MOST, 2, 0, 1], [LEAST, 3, 0, 1], [5, 3, 0, 1]];
    for registers in halting.into_iter().chain([[LEAST, 3, LEAST, LEAST]]) {
        cases.extend([2, 3, 4, 9].map(|budget| case(AT_HALT, &registers, budget)));
    }
    for length in 0..=5 {
        let mut few = case(EARLY, &[5, 1, LEAST + 2, 1, 0], 99);
        few.words.truncate(length);
        cases.push(few);
    }
    cases
}

fn blocks() -> Vec<Case> {
    let two = TWO_SUMS.iter().flat_map(|text| [MOST, 5].map(|x| case(text, &[x, 1], 5)));
    let lost = [0, 2].into_iter().flat_map(|start| [MOST, 5].map(|x| (start, x)));
    let lost = lost.map(|(start, x)| {
        let mut case = case(LOST, &[x, 1], 5);
        case.start_block = start;
        case.starters.push(start);
        case
    });
    two.chain(lost).collect()
}

/// Words that are added up, some until they go over.
fn inputs() -> Vec<Case> {
    let lists: [&[u32]; 8] = [
        &[MOST, 1],
        &[1, MOST],
        &[MOST, 0, 0, 1],
        &[LEAST, 0, MINUS_1, 0],
        &[MOST, LEAST, 1],
        &[LEAST, LEAST, 5],
        &[MOST - 1, 1],
        &[],
    ];
    let on = |list: &&[u32], budget: u32| {
        let mut case = case(SUM, &[], budget);
        case.words = list.to_vec();
        case
    };
    lists.iter().flat_map(|list| [2, 3, 9].map(|budget| on(list, budget))).collect()
}

/// Words c of the one sum of a machine: registers, the arrival, and no references. The sum is wire
/// 1, and a later wire sets the next state. Then another literal of the arrival.
fn arrivals() -> Vec<Case> {
    let (arrival, c) = ((WIRES_AT + 1) as u32, (WIRES_AT + 4 + 3) as u32);
    let references = [0, 1, 2, 3, 16, 4, 15, 17, 18, 19, 31, u32::MAX].map(|word| (c, word));
    let literals = [0, 2, LEAST].map(|word| (arrival, word));
    let patches: Vec<Patch> = references.into_iter().chain(literals).collect();
    let sums = [("add", MOST, 1), ("sub", LEAST, 1), ("add", 5, 1)];
    let on = |(name, x, y): Sum, patch: Patch| {
        let mut case = case(&one(name), &[x, y, 0, 2], 5);
        case.machine_patches = vec![patch];
        case
    };
    sums.iter().flat_map(|&sum| patches.iter().map(move |&patch| on(sum, patch))).collect()
}

/// The sum's own register as its arrival: 0 whenever it goes over, or 0 only after that.
fn own_arrivals() -> Vec<Case> {
    let on = |name, x, budget| {
        let mut case = case(&turns(name), &[x, LEAST], budget);
        case.machine_patches = vec![((WIRES_AT + 4 + 3) as u32, 0)];
        case
    };
    (1..=6).flat_map(|budget| [on("sub", 0, budget), on("add", LEAST, budget)]).collect()
}

/// Tables from before sums had an arrival: c is register 0, whatever it holds.
fn old_tables() -> Vec<Case> {
    let mut cases = vec![case(P7, &[12, 18], 20), case(P7, &[0, LEAST], 4)];
    for name in ["add", "sub"] {
        cases.push(case(&one(name), &[LEAST, LEAST], 5));
        cases.push(case(&one(name), &[0, LEAST], 5));
    }
    for (x, other) in [(MOST, 7), (MOST, 8), (LEAST, 7), (LEAST, 8), (0, 7), (0, 8)] {
        cases.push(case(EITHER, &[x, if x == 0 { LEAST } else { 1 }, 7, other], 9));
    }
    for case in &mut cases {
        let (_, machine) = buffers_of(case);
        case.machine_patches = no_arrivals(&mut Random::new(0), &Table { words: &machine });
    }
    cases
}

pub fn cases() -> Vec<Case> {
    let kinds = [
        single(),
        branches(),
        cycles(),
        blocks(),
        inputs(),
        arrivals(),
        own_arrivals(),
        old_tables(),
    ];
    kinds.concat()
}
