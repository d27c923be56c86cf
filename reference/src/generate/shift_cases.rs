//! Cases of shifts by every kind of amount that do not depend on the seed.

use super::bound_cases::chained;
use super::bound_words::{bounds, Ends, FULL, LEAST, MOST};
use super::sum_cases::case;
use super::words::{AMOUNTS, SHIFTED};
use crate::case::Case;
use crate::graph::signed;

/// One state: behind the given lines r0 is shifted by each of r1 to r5, by shl into r6 to r10, by
/// shr into r11 to r15, and by sar in place of the amount.
pub fn five(before: &[String]) -> String {
    let line = |name: &str, to: usize| {
        let name = name.to_string();
        (1..=5).map(move |amount| format!("{name},{},0,{amount}", to + amount))
    };
    let lines = line("shl", 5).chain(line("shr", 10)).chain(line("sar", 0));
    chained(16, &before.iter().cloned().chain(lines).collect::<Vec<String>>())
}

/// A run of the one state on these registers, and its bounds on the same single values.
fn single(text: &str, registers: &[u32]) -> Case {
    let mut case = case(text, registers, 9);
    let ends: Vec<Ends> = registers.iter().map(|&word| (signed(word), signed(word))).collect();
    case.bounds = bounds(&ends);
    case
}

/// Each amount in a register, on words with bits at both ends.
fn in_registers() -> Vec<Case> {
    let text = five(&[]);
    let of = |x: u32| {
        let text = &text;
        AMOUNTS.chunks(5).map(move |amounts| single(text, &[&[x], amounts].concat()))
    };
    SHIFTED[..5].iter().flat_map(|&x| of(x)).collect()
}

/// Each amount as a literal; then the bounds are those of a word that is not single.
fn literals() -> Vec<Case> {
    let of = |amounts: &[u32]| {
        let set = |(d, &amount): (usize, &u32)| format!("set,{d},{}", amount as i32);
        let text = five(&(1..).zip(amounts).map(set).collect::<Vec<String>>());
        let mut other = case(&text, &[1_431_655_765], 9);
        other.bounds = bounds(&[(0, 1_431_655_765)]);
        [single(&text, &[2_147_483_648]), other]
    };
    AMOUNTS.chunks(5).flat_map(of).collect()
}

/// Adds up what r0 becomes by each shift, in r5, r6 and r7, behind a first instruction.
fn added_up(first: &str) -> String {
    format!(
        "graph,1,8\nblock,0\n{first}\nshl,2,0,1\nshr,3,0,1\nsar,4,0,1\nadd,5,5,2\nadd,6,6,3\n\
         add,7,7,4\ngoto,0\n"
    )
}

/// Each cycle reads an amount, or a word to shift.
fn inputs() -> Vec<Case> {
    let amounts = SHIFTED[..6].iter().map(|&x| {
        let mut case = case(&added_up("in,1"), &[x], AMOUNTS.len() as u32);
        case.words = AMOUNTS.to_vec();
        case
    });
    let shifted = [31, 32, 4_294_967_295].map(|amount| {
        let mut case = case(&added_up("in,0"), &[0, amount], SHIFTED.len() as u32);
        case.words = SHIFTED.to_vec();
        case
    });
    amounts.chain(shifted).collect()
}

/// Block 1 shifts r0 to the left where r2 is r3, else block 2 to the right; then block 3 shifts r4.
pub const EITHER_WAY: &str = "graph,4,5\nblock,0\nite,eq,2,3,1,2\nblock,1\nshl,0,0,1\ngoto,3\n\
block,2\nshr,0,0,1\ngoto,3\nblock,3\nsar,4,4,1\nhalt\n";

fn branches() -> Vec<Case> {
    let amounts = [31, 32, 33, 4_294_967_295];
    let word = 2_147_483_649;
    let of = |amount| [7, 8].map(|other| case(EITHER_WAY, &[word, amount, 7, other, word], 9));
    amounts.into_iter().flat_map(of).collect()
}

/// Amounts from r1 on, each r2 more than the one before, up to r3.
pub const COUNTED: &str = "graph,2,10\nblock,0\nshl,4,0,1\nshr,5,0,1\nsar,6,0,1\nadd,7,7,4\n\
add,8,8,5\nadd,9,9,6\nadd,1,1,2\nite,ne,1,3,0,1\nblock,1\nhalt\n";

/// Amounts that are counted up past 32, past the signed words and past all words.
fn counted() -> Vec<Case> {
    let counts: [[u32; 3]; 4] =
        [[28, 1, 36], [0, 16, 272], [2_147_483_645, 1, 2_147_483_683], [4_294_967_262, 1, 3]];
    let of = |[first, step, last]: [u32; 3]| {
        [2_863_311_531, 1_431_655_765].map(|x| case(COUNTED, &[x, first, step, last], 99))
    };
    counts.into_iter().flat_map(of).collect()
}

/// Shifts r0 by one more each time, until it is r4.
fn until(name: &str) -> String {
    format!(
        "graph,2,5\nblock,0\n{name},2,0,1\nadd,1,1,3\nite,ne,2,4,0,1\nblock,1\nadd,0,0,2\nhalt\n"
    )
}

/// The amount decides when a run halts.
fn ends() -> Vec<Case> {
    let runs = [
        ("shl", 1, 0, 0),
        ("shr", 2_147_483_648, 0, 0),
        ("sar", 2_147_483_647, 0, 0),
        ("sar", 2_147_483_648, 32, 4_294_967_295),
        ("shl", 3, 4_294_967_295, 6),
    ];
    runs.map(|(name, x, first, last)| case(&until(name), &[x, first, 0, 1, last], 50)).to_vec()
}

/// Ranges of r0 and of the amounts, some of which are from 32 up or below it throughout.
const RANGES: [[Ends; 6]; 9] = [
    [(1, 1), (31, 32), (32, 33), (32, MOST), (0, 31), (LEAST, -1)],
    [(LEAST, LEAST), (31, 32), (64, 65), (32, MOST), (0, 0), (-33, -32)],
    [(0, 0), (0, 1), (32, 33), FULL, (32, 32), (-1, -1)],
    [(0, 1), (0, 0), (31, 31), (32, 32), (64, 64), (-1, -1)],
    [(-5, -1), (0, 0), (31, 31), (32, 32), (64, 64), (-1, -1)],
    [(-1, 0), (1, 1), (33, 33), (LEAST, LEAST), (MOST, MOST), (-32, -32)],
    [FULL, (0, 0), (32, 32), (65, 65), (256, 256), (-31, -31)],
    [(-1, -1), (32, 33), (0, 0), (32, 32), (-1, 31), (-32, -1)],
    [(3, 9), (32, 40), (-9, -1), (33, 34), FULL, (0, 3)],
];

fn ranges() -> Vec<Case> {
    let text = five(&[]);
    let of = |ends: &[Ends; 6]| {
        let mut case = case(&text, &[2_147_483_649, 31, 32, 33, 64, 4_294_967_295], 9);
        case.bounds = bounds(ends);
        case
    };
    RANGES.iter().map(of).collect()
}

pub fn cases() -> Vec<Case> {
    let kinds = [in_registers(), literals(), inputs(), branches(), counted(), ends(), ranges()];
    kinds.concat()
}
