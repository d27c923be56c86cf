//! Cases of questions about registers that do not depend on the seed.

use super::block_words;
use super::examples::P7;
use super::fixed::own_starters;
use super::machine_damage::record;
use super::mends::mended;
use super::touch_words::touch_at;
use crate::answer::buffers_of;
use crate::case::{Asked, Case, Patch};
use crate::machine_table::{NEXT_REGISTERS_AT, WIRES_AT};

/// Four states: the first touches nothing, the second r0 by a copy of itself, the third r1, and the
/// last, which has four ways out, all three registers.
pub const FOUR: &str = "graph,7,3\nblock,0\ngoto,1\nblock,1\ncopy,0,0\ngoto,2\nblock,2\nset,1,5\n\
goto,3\nblock,3\nite,ne,0,1,1,4\nblock,4\nite,lt,0,1,2,5\nblock,5\nite,eq,0,2,3,6\nblock,6\nhalt\n";

/// The touch words of its states.
pub const WORDS_OF_FOUR: [u32; 4] = [0, 1, 2, 7];

/// Two states that touch nothing.
pub const NONE_TOUCHES: &str = "graph,2,2\nblock,0\ngoto,1\nblock,1\ngoto,1\n";

/// The last state alone touches r0, and none r1.
pub const LAST_TOUCHES: &str = "graph,2,2\nblock,0\ngoto,1\nblock,1\nadd,0,0,1\ngoto,1\n";

/// Both states touch r0 and nothing else.
pub const ALL_TOUCH: &str = "graph,2,2\nblock,0\nset,0,1\ngoto,1\nblock,1\nin,0\ngoto,1\n";

/// With all registers: the first state touches r15 and the second r0.
pub const ENDS_TOUCH: &str = "graph,2,16\nblock,0\nset,15,1\ngoto,1\nblock,1\nset,0,1\ngoto,1\n";

/// One state that touches nothing; a record of zeros touches nothing either, as R is 1.
const ONE: &str = "graph,1,1\nblock,0\nhalt\n";

fn case(text: &str, state: u32, register: u32) -> Case {
    let mut case = Case::plain(text.as_bytes());
    case.starters = own_starters(text.as_bytes());
    case.asked = Asked { state, register };
    case
}

fn patched(text: &str, (state, register): (u32, u32), patches: Vec<Patch>) -> Case {
    let mut case = case(text, state, register);
    case.machine_patches = patches;
    case
}

/// The same patches with the touch words as they were, and with those that they ask for.
fn both(text: &str, asked: (u32, u32), patches: &[Patch]) -> [Case; 2] {
    let stale = patched(text, asked, patches.to_vec());
    let (_, made) = buffers_of(&case(text, 0, 0));
    let right = patched(text, asked, mended(&made, patches.to_vec()));
    [stale, right]
}

fn each(text: &str, states: &[u32], registers: &[u32]) -> Vec<Case> {
    let all = states.iter().flat_map(|&state| registers.iter().map(move |&one| (state, one)));
    all.map(|(state, register)| case(text, state, register)).collect()
}

/// Each state and register, and states and registers that there are not.
fn questions() -> Vec<Case> {
    let past = [3, 4, 15, 16, 17, 31, 32, 33, 34, 64, 2_147_483_648, u32::MAX - 31, u32::MAX];
    let kinds = [
        each(FOUR, &[0, 1, 2, 3], &[0, 1, 2]),
        each(FOUR, &[3], &past),
        each(FOUR, &[4, 63, 64, 255, u32::MAX], &[0]),
        each(NONE_TOUCHES, &[0, 1, 2], &[0, 1]),
        each(LAST_TOUCHES, &[0, 1], &[0, 1, 2, 32]),
        each(ALL_TOUCH, &[0, 1], &[0, 1]),
        each(ENDS_TOUCH, &[0, 1], &[0, 1, 14, 15, 16, 31, 32, 47, 48]),
        each(P7, &[0, 1, 2], &[0, 1, 2]),
    ];
    kinds.concat()
}

/// One bit of a touch word changed: of the first state every one, of a middle one and the last
/// some, and of states that there are not, where it is no fault.
fn wrong_bits() -> Vec<Case> {
    let of = |states: &[usize], bits: &[u32]| -> Vec<(usize, u32)> {
        states.iter().flat_map(|&state| bits.iter().map(move |&bit| (state, bit))).collect()
    };
    let first: Vec<u32> = (0..32).collect();
    let all =
        [of(&[0], &first), of(&[2, 3], &[0, 1, 2, 3, 15, 16, 31]), of(&[4, 63], &[0, 2, 3, 31])];
    let flip = |(state, bit): (usize, u32)| {
        let right = WORDS_OF_FOUR.get(state).copied().unwrap_or(0);
        let register = [0, 1, 2, bit][bit as usize % 4];
        patched(FOUR, (3, register), vec![(touch_at(state) as u32, right ^ 1 << bit)])
    };
    let ends = [0, 14, 15, 16, 31]
        .map(|bit| patched(ENDS_TOUCH, (0, 15), vec![(touch_at(0) as u32, 1 << 15 ^ 1 << bit)]));
    all.concat().into_iter().map(flip).chain(ends).collect()
}

/// Other touch words: nothing, everything, those of other states.
fn wrong_words() -> Vec<Case> {
    let words = [0, 1, 2, 4, 7, 8, 65_535, u32::MAX];
    let of = |state: usize| {
        words.map(|word| patched(FOUR, (state as u32, 1), vec![(touch_at(state) as u32, word)]))
    };
    [0, 2, 3].into_iter().flat_map(of).collect()
}

fn next_at(state: usize, register: usize) -> u32 {
    (record(state) + NEXT_REGISTERS_AT + register) as u32
}

/// Next references made others, to registers, to wires and to the register itself, with stale touch
/// words and with right ones.
fn references() -> Vec<Case> {
    let touching = (0..3).flat_map(|one| [(0, one, (one + 1) % 3), (0, one, 16)]);
    let keeping = [(1, 0, 0), (2, 1, 1), (3, 0, 0), (3, 1, 1), (3, 2, 2)];
    let others = [(1, 0, 1), (1, 0, 2), (2, 1, 0), (3, 2, 16), (3, 2, 0)];
    let all = touching.chain(keeping).chain(others);
    let change = |(state, register, reference): (usize, usize, usize)| {
        let asked = (state as u32, register as u32);
        both(FOUR, asked, &[(next_at(state, register), reference as u32)])
    };
    let mut cases: Vec<Case> = all.flat_map(change).collect();
    // A reference that is none, and next references from R up, which are not read.
    cases.extend([3, 15, 18].map(|none| patched(FOUR, (0, 0), vec![(next_at(0, 0), none)])));
    cases.extend([0, 3, 16, u32::MAX].map(|any| patched(FOUR, (0, 3), vec![(next_at(0, 3), any)])));
    cases
}

/// Fewer and more states and registers. A record of zeros keeps r0 and makes the others r0.
fn counts() -> Vec<Case> {
    let mut cases = Vec::new();
    for (states, register) in [(1, 0), (2, 0), (2, 1), (3, 1), (3, 2), (3, 3)] {
        let (_, made) = buffers_of(&case(FOUR, 0, 0));
        let fewer = block_words::mended(&made, vec![(0, states)]);
        cases.push(patched(FOUR, (states - 1, register), fewer.clone()));
        cases.push(patched(FOUR, (states, register), fewer));
    }
    for asked in [(4, 0), (4, 1), (5, 1)] {
        cases.extend(both(FOUR, asked, &[(0, 5)]));
    }
    for asked in [(0, 3), (3, 3), (0, 4)] {
        cases.extend(both(FOUR, asked, &[(1, 4)]));
    }
    cases.extend(both(NONE_TOUCHES, (1, 1), &[(1, 1)]));
    cases.extend(both(LAST_TOUCHES, (1, 0), &[(1, 16)]));
    // Of 64 states none touches r0, and then the last alone, by its one wire.
    let last = record(63) as u32;
    let wire = (WIRES_AT + 4 * 2) as u32;
    let touching = [(0, 64), (last, 2), (last + 1, 1), (wire, 1), (next_at(63, 0), 16)];
    for state in [0, 62, 63, 64] {
        cases.extend(both(ONE, (state, 0), &touching));
        cases.push(patched(ONE, (state, 0), vec![(0, 64)]));
    }
    cases
}

/// Short buffers, exact ones and longer ones, asked about a state that there is and one that there
/// is not; words behind the table are not read.
fn lengths() -> Vec<Case> {
    let lengths = [13_761, 13_698, 13_634, 13_762, 13_763, 13_828, 1_410, 2, 1, 0];
    let of = |length| {
        [(3, 2), (9, 2)].map(|asked| {
            let mut case = patched(FOUR, asked, vec![(13_762, 7), (13_827, u32::MAX)]);
            case.machine_length = length;
            case
        })
    };
    lengths.into_iter().flat_map(of).collect()
}

/// A wrong touch word and a state not below N, and the same with N or R out of its limits.
fn orders() -> Vec<Case> {
    let wrong = [(touch_at(0) as u32, 1), (touch_at(3) as u32, 0), (touch_at(2) as u32, 10)];
    let counts = [(0, 0), (0, 65), (1, 0), (1, 17)];
    let all = wrong.into_iter().chain(counts);
    all.flat_map(|one| [4, u32::MAX].map(|state| patched(FOUR, (state, 0), vec![one]))).collect()
}

pub fn cases() -> Vec<Case> {
    let kinds =
        [questions(), wrong_bits(), wrong_words(), references(), counts(), lengths(), orders()];
    kinds.concat()
}
