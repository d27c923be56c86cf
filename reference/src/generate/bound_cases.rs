//! Cases of bounds that do not depend on the seed: each rule at its edges, each refusal.

use super::block_words::arrival_at;
use super::bound_words::{bounds, word, Ends, FULL, LEAST, MOST};
use super::examples::P7;
use super::fixed::own_starters;
use super::machine_damage::{record, wire_at};
use super::mends::mended;
use super::touch_cases::FOUR;
use super::touch_words::touch_at;
use crate::answer::buffers_of;
use crate::case::{Bounds, Case};
use crate::machine_table::NEXT_REGISTERS_AT;

/// The swing of a ship from the word of its rate of turn, as in `examples/swing.txt`.
pub const SWING: &str = "graph,7,6\nblock,0\nsx,1,0\nset,2,0\nset,3,0\nset,5,0\nite,eq,1,2,6,1\n\
block,1\nite,lt,1,2,2,3\nblock,2\nset,3,1\nsub,4,2,1\ngoto,4\nblock,3\nset,3,2\ncopy,4,1\ngoto,4\n\
block,4\nset,2,300\nite,ltu,4,2,6,5\nblock,5\nset,5,1\ngoto,6\nblock,6\nhalt\n";

/// One state: these instructions, in blocks of eight, the last of which halts.
pub fn chained(registers: usize, lines: &[String]) -> String {
    let blocks: Vec<String> = lines.chunks(8).map(|lines| lines.join("\n")).collect();
    let mut text = format!("graph,{},{registers}\n", blocks.len());
    for (block, lines) in blocks.iter().enumerate() {
        let next = block + 1;
        let ending = if next == blocks.len() { "halt".into() } else { format!("goto,{next}") };
        text += &format!("block,{block}\n{lines}\n{ending}\n");
    }
    text
}

/// One state: so many instructions over r0 and r1, into r3 and the registers behind it. Wire 0 is
/// the arrival, and wire 1 + i is instruction i.
pub fn panel_text(instructions: usize) -> String {
    let lines: Vec<String> = (3..3 + instructions).map(|d| format!("add,{d},0,1")).collect();
    chained(3 + instructions, &lines)
}

fn case(text: &str, ends: &[Ends]) -> Case {
    let mut case = Case::plain(text.as_bytes());
    case.starters = own_starters(text.as_bytes());
    case.bounds = bounds(ends);
    case
}

/// Each of the codes over r0 and r1; the last word, which only 19 and sums read, is r2.
fn panel(codes: &[u32], ends: &[Ends]) -> Case {
    let mut case = case(&panel_text(codes.len()), ends);
    let code = |(wire, &code): (usize, &u32)| {
        let at = wire_at(1 + wire) as u32;
        [(at, code), (at + 3, 2)]
    };
    case.machine_patches = codes.iter().enumerate().flat_map(code).collect();
    case
}

/// Codes whose rules look at ends, the unsigned comparisons beside them, and others.
pub const RULED: [u32; 10] = [3, 4, 11, 12, 13, 14, 15, 16, 17, 19];
pub const OTHERS: [u32; 10] = [1, 2, 5, 6, 7, 8, 9, 10, 18, 20];

/// Sums and differences that are at the ends of the signed range, and past them by one.
const SUMS: [[Ends; 2]; 28] = [
    [(MOST - 5, MOST - 1), (0, 1)],
    [(MOST - 5, MOST), (0, 1)],
    [(LEAST + 1, 0), (-1, 0)],
    [(LEAST, 0), (-1, 0)],
    [(MOST - 5, MOST - 1), (-1, 0)],
    [(MOST - 5, MOST), (-1, 0)],
    [(LEAST + 1, 0), (0, 1)],
    [(LEAST, 0), (0, 1)],
    [(0, 0), (LEAST, 0)],
    [(-1, -1), (LEAST, 0)],
    [(-1, 0), (LEAST + 1, 0)],
    [(MOST - 1, MOST), (2, 3)],
    [(LEAST, LEAST + 1), (-3, -2)],
    [(LEAST, LEAST + 1), (2, 3)],
    [(MOST - 1, MOST), (-3, -2)],
    [(MOST, MOST), (-9, -8)],
    [(5, 6), (LEAST, LEAST + 1)],
    [(LEAST, LEAST), (9, 10)],
    [(MOST, MOST), (1, 1)],
    [(LEAST, LEAST), (1, 1)],
    [(MOST, MOST), (0, 1)],
    [(LEAST, LEAST), (0, 1)],
    [(0, 1), (MOST, MOST)],
    [(LEAST, -1), (0, MOST)],
    [(0, MOST), (LEAST, -1)],
    [FULL, (0, 0)],
    [(0, 0), FULL],
    [(1_073_741_823, 1_073_741_824), (1_073_741_823, 1_073_741_823)],
];

/// Ranges and single values about the ends of 16 bits.
const HALVES: [Ends; 29] = [
    (-32_768, 32_767),
    (-32_769, 32_767),
    (-32_768, 32_768),
    (-32_768, 0),
    (32_767, 32_768),
    (-32_769, -32_768),
    (0, 32_767),
    (32_766, 32_767),
    (-32_768, -32_767),
    (-32_768, -5),
    (-32_769, 5),
    (5, 32_768),
    (0, 32_768),
    (-5, 32_768),
    (32_000, 32_768),
    (-32_769, -32_000),
    (40_000, 60_000),
    (32_768, 65_535),
    (65_535, 65_536),
    (0, 65_535),
    (-1, 0),
    (65_530, 65_531),
    (-40_000, -39_990),
    (32_768, 32_768),
    (65_535, 65_535),
    (-32_769, -32_769),
    (98_304, 98_304),
    (LEAST, LEAST),
    FULL,
];

/// Ranges that are apart, touch, meet in one number or more, or lie in one another.
const COMPARED: [[Ends; 2]; 29] = [
    [(0, 5), (6, 9)],
    [(0, 5), (5, 9)],
    [(0, 5), (4, 9)],
    [(6, 9), (0, 5)],
    [(5, 9), (0, 5)],
    [(4, 9), (0, 5)],
    [(3, 4), (3, 4)],
    [(3, 3), (3, 4)],
    [(3, 3), (2, 3)],
    [(3, 4), (3, 3)],
    [(2, 3), (3, 3)],
    [(3, 3), (4, 4)],
    [(3, 3), (3, 3)],
    [(3, 3), (1, 6)],
    [(0, 9), (3, 4)],
    [(-1, 0), (0, 1)],
    [(-5, -1), (0, 3)],
    [(0, 3), (-5, -1)],
    [(-5, -1), (-9, -5)],
    [(LEAST, -1), (0, MOST)],
    [(0, MOST), (LEAST, -1)],
    [(LEAST, -1), (-1, MOST)],
    [(-1, MOST), (LEAST, -1)],
    [(5, 9), (5, 5)],
    [(5, 5), (0, 5)],
    [(0, 5), (5, 5)],
    [(5, 5), (5, 9)],
    [(0, 7), (-3, 0)],
    [(-3, 0), (0, 7)],
];

/// Conditions that are zero, are not, or may be both.
const CONDITIONS: [Ends; 13] = [
    (-1, 0),
    (0, 0),
    (0, 1),
    (1, 1),
    (-1, 1),
    (-1, -1),
    (1, 5),
    (-5, -1),
    FULL,
    (LEAST, -1),
    (1, MOST),
    (LEAST, LEAST),
    (0, MOST),
];

/// What is chosen between: apart, in one another, overlapping, single.
const ARMS: [[Ends; 2]; 5] = [
    [(10, 12), (20, 25)],
    [(20, 25), (-10, -2)],
    [(1, 90), (40, 50)],
    [(7, 7), (9, 9)],
    [(7, 7), (-3, 8)],
];

/// Words of which every code gives another value.
const SINGLES: [[i64; 2]; 12] = [
    [12, 10],
    [-1, 0],
    [0, -1],
    [-1, -1],
    [-200, 31],
    [-200, 32],
    [1, 31],
    [3, 33],
    [LEAST, MOST],
    [MOST, LEAST],
    [LEAST, -1],
    [65_535, 1],
];

fn rules() -> Vec<Case> {
    let mut cases = Vec::new();
    for [a, b] in SUMS.into_iter().chain(COMPARED) {
        cases.push(panel(&RULED, &[a, b, (-2, 2)]));
    }
    cases.extend(HALVES.map(|a| panel(&RULED, &[a, (1, 2), (0, 1)])));
    for [a, b] in SINGLES.map(|values| values.map(|value| (value, value))) {
        cases.push(panel(&RULED, &[a, b, (4, 9)]));
        cases.push(panel(&OTHERS, &[a, b, (4, 9)]));
    }
    for [a, b] in
        [[(3, 3), (5, 6)], [(5, 6), (3, 3)], [(0, 1), (0, 1)], [(1, 1), (2, 9)], [FULL; 2]]
    {
        cases.push(panel(&OTHERS, &[a, b, (0, 0)]));
    }
    cases
}

fn choices() -> Vec<Case> {
    let mut cases = Vec::new();
    for (index, condition) in CONDITIONS.into_iter().enumerate() {
        for [taken, otherwise] in [ARMS[0], ARMS[1 + index % 4]] {
            cases.push(panel(&RULED, &[condition, taken, otherwise]));
        }
    }
    for [taken, otherwise] in ARMS {
        cases.push(panel(&RULED, &[(-1, 1), taken, otherwise]));
        cases.push(panel(&RULED, &[(0, 0), taken, otherwise]));
        cases.push(panel(&RULED, &[(2, 2), taken, otherwise]));
    }
    cases
}

/// The rate of the request, and others, on the swing of a ship.
fn swings() -> Vec<Case> {
    let rates = [
        (-720, 720),
        (-720, -1),
        (1, 720),
        (0, 0),
        (-200, -200),
        (65_336, 65_336),
        (300, 720),
        (-32_769, 0),
        FULL,
    ];
    rates.map(|rate| case(SWING, &[rate])).to_vec()
}

/// Words that are read: alone, in a sum, as a condition.
fn inputs() -> Vec<Case> {
    let texts = [
        "graph,1,3\nblock,0\nin,0\nhalt\n",
        "graph,1,3\nblock,0\nin,0\nsx,1,0\nhalt\n",
        "graph,1,3\nblock,0\nin,2\nadd,0,2,1\nhalt\n",
        "graph,1,3\nblock,0\nin,2\nsub,2,2,2\nhalt\n",
        "graph,3,3\nblock,0\nin,2\nite,eq,2,0,1,2\nblock,1\nset,1,4\nhalt\nblock,2\nset,1,-4\nhalt\n",
        "graph,3,3\nblock,0\nin,2\nite,lt,0,1,1,2\nblock,1\nset,2,4\nhalt\nblock,2\nset,2,-4\nhalt\n",
    ];
    let of = |text| [[(0, 0); 3], [(1, 5), (9, 9), (2, 3)]].map(|ends| case(text, &ends));
    texts.into_iter().flat_map(of).collect()
}

fn next_at(state: usize, register: usize) -> u32 {
    (record(state) + NEXT_REGISTERS_AT + register) as u32
}

/// Registers that become one another: all are read before any is replaced.
fn turned() -> Vec<Case> {
    let texts = [
        "graph,1,3\nblock,0\ncopy,2,0\ncopy,0,1\ncopy,1,2\nhalt\n",
        "graph,1,3\nblock,0\nadd,0,0,1\nadd,1,0,1\nhalt\n",
    ];
    let ends = [(1, 5), (10, 20), (-7, -7), (100, 103)];
    let mut cases: Vec<Case> = texts.iter().map(|text| case(text, &ends)).collect();
    let references: [&[u32]; 6] =
        [&[1, 0], &[1, 2, 0], &[2, 0, 1], &[0, 0, 0], &[1, 1, 16], &[16, 0, 1]];
    for (references, text) in references.into_iter().flat_map(|one| [(one, FOUR), (one, texts[0])])
    {
        let mut case = case(text, &ends);
        let (_, made) = buffers_of(&case);
        let next = (0..).zip(references).map(|(register, &word)| (next_at(0, register), word));
        case.machine_patches = mended(&made, next.collect());
        cases.push(case);
    }
    cases
}

fn asked(text: &str, state: u32, ends: &[Ends]) -> Case {
    let mut case = case(text, ends);
    case.asked.state = state;
    case
}

/// Each state of small machines, and such as there are not.
fn states() -> Vec<Case> {
    let ends = [(3, 8), (8, 9), (-2, 0)];
    let four = [0, 1, 2, 3, 4, 5, 63, 64, 255, u32::MAX].map(|state| asked(FOUR, state, &ends));
    let p7 = [(0, ends), (1, ends), (2, ends), (1, [(5, 5); 3]), (1, [(5, 5), (9, 9), (0, 0)])];
    four.into_iter().chain(p7.map(|(state, ends)| asked(P7, state, &ends))).collect()
}

/// The lowest above the highest, in one register.
fn with_reversed(text: &str, register: usize, ends: Ends, state: u32) -> Case {
    let mut case = asked(text, state, &[(1, 4)]);
    case.bounds.lowest[register] = word(ends.0);
    case.bounds.highest[register] = word(ends.1);
    case
}

/// In the first register, the last below R and one past it; by one, by signs alone, and equal ends,
/// which are no fault.
fn reversed() -> Vec<Case> {
    let ends = [(1, 0), (0, -1), (MOST, LEAST), (5, 5), (-1, 0), (LEAST, MOST), (-1, -2)];
    let of = |register| ends.map(|ends| with_reversed(FOUR, register, ends, 3));
    let mut cases: Vec<Case> = [0, 2, 3, 15].into_iter().flat_map(of).collect();
    for ends in [(1, 0), (0, -1), (0, 0)] {
        cases.push(with_reversed(&panel_text(13), 15, ends, 0));
        cases.push(with_reversed(P7, 1, ends, 1));
        cases.push(with_reversed(P7, 2, ends, 1));
    }
    cases
}

/// Lengths of the two buffers.
const LENGTHS: [[usize; 2]; 14] = [
    [15, 16],
    [16, 15],
    [15, 15],
    [0, 16],
    [16, 0],
    [0, 0],
    [1, 16],
    [16, 2],
    [17, 16],
    [16, 17],
    [20, 20],
    [15, 20],
    [20, 15],
    [16, 20],
];

fn resized(bounds: &Bounds, [lowest, highest]: [usize; 2]) -> Bounds {
    let resize = |buffer: &[u32], length: usize| {
        let mut buffer = buffer.to_vec();
        buffer.resize(length, 77);
        buffer
    };
    Bounds { lowest: resize(&bounds.lowest, lowest), highest: resize(&bounds.highest, highest) }
}

fn lengths() -> Vec<Case> {
    let of = |lengths| {
        let mut case = asked(FOUR, 3, &[(3, 8), (8, 9), (-2, 0)]);
        case.bounds = resized(&case.bounds, lengths);
        case
    };
    LENGTHS.into_iter().map(of).collect()
}

/// What is wrong with a call; each two meet.
type Spoil = fn(&mut Case);

const SPOILS: [Spoil; 7] = [
    |case| case.machine_length = 13_761,
    |case| case.bounds.lowest.truncate(15),
    |case| case.bounds.highest.truncate(15),
    |case| case.machine_patches.push((touch_at(0) as u32, 1)),
    |case| case.machine_patches.push((arrival_at(0) as u32, 0)),
    |case| case.asked.state = 4,
    |case| (case.bounds.lowest[1], case.bounds.highest[1]) = (5, 4),
];

fn orders() -> Vec<Case> {
    let pairs = (0..SPOILS.len()).flat_map(|one| (0..one).map(move |other| [other, one]));
    let of = |pair: [usize; 2]| {
        let mut case = asked(FOUR, 3, &[(3, 8), (8, 9), (-2, 0)]);
        pair.into_iter().for_each(|one| SPOILS[one](&mut case));
        case
    };
    pairs.map(of).collect()
}

pub fn cases() -> Vec<Case> {
    let kinds = [
        rules(),
        choices(),
        swings(),
        inputs(),
        turned(),
        states(),
        reversed(),
        lengths(),
        orders(),
    ];
    kinds.concat()
}

/// Bounds for the cases that are about something else.
pub fn others() -> Vec<Bounds> {
    let ranges: [&[Ends]; 15] = [
        &[(-720, 720), (0, 0), (1, 5)],
        &[(0, 0); 16],
        &[(12, 12), (18, 18)],
        &[(3, 9), (9, 12)],
        &[FULL; 16],
        &[(0, -1), (4, 4)],
        &[(1, 2), (7, 6)],
        &[(LEAST, -1), (0, MOST)],
        &[(5, 5), (5, 5), (3, 1)],
        &[(-1, 1), (0, 1), (-32_768, 32_767)],
        &[(5, 5), (0, 3)],
        &[(0, 3), (32_767, 32_768)],
        &[(1, 1); 16],
        &[(MOST - 1, MOST), (0, 1)],
        &[(LEAST, LEAST), (-1, 0), (7, 7)],
    ];
    let all = ranges.map(bounds);
    let short = LENGTHS[..3].iter().zip(all.iter().cycle()).map(|(&one, of)| resized(of, one));
    let reversed = [[15, 16], [16, 15], [20, 17]].map(|lengths| resized(&all[5], lengths));
    all.iter().cloned().chain(short).chain(reversed).collect()
}
