//! Cases of blocks and their arrivals that do not depend on the seed.

use super::block_words::{absent, arrival_at, state_at, words_of, ABSENT};
use super::examples::{P11, P7, P9, SEVEN};
use super::fixed::own_starters;
use super::machine_damage::{patch, record, wire_at};
use super::touch_cases::FOUR;
use super::touch_words::touch_at;
use super::word_cases::{RATES, WATCH};
use crate::case::{Case, Patch};
use std::fmt::Write;

/// Two states. The first has block 0 alone and two wires; the second a diamond that joins in block 4,
/// a way back, and a chain of two gotos to the halt, which share an arrival. Nothing reaches block 7.
pub const DIAMOND: &str = "graph,8,3\nblock,0\ngoto,1\nblock,1\nite,ltu,0,1,2,3\nblock,2\n\
add,0,0,2\ngoto,4\nblock,3\nsub,0,0,2\ngoto,4\nblock,4\nite,ne,0,1,1,5\nblock,5\ngoto,6\nblock,6\n\
halt\nblock,7\ngoto,1\n";

/// The wires of its two states.
pub const WIRES_OF_DIAMOND: [usize; 2] = [2, 19];
const LAST: usize = 15 + WIRES_OF_DIAMOND[1];

/// One state of four blocks that share an arrival.
pub const CHAIN: &str =
    "graph,4,1\nblock,0\ngoto,1\nblock,1\ngoto,2\nblock,2\ngoto,3\nblock,3\nhalt\n";

/// One block whose wires are `set 1`, an `in`, its sum with r0 and `set 0`.
pub const READER: &str = "graph,1,2\nblock,0\nin,1\nadd,0,0,1\ngoto,0\n";

/// Words about which readings of an arrival differ.
const WORDS: [u32; 8] = [0, 1, 2, 2_147_483_648, 0, 4_294_967_295, 65_536, 256];

/// As many blocks as there can be, each going on to the next; the last halts or goes to block 0.
pub fn long_chain(end: &str) -> String {
    let mut text = String::from("graph,64,1\n");
    for block in 0..63 {
        let _ = write!(text, "block,{block}\ngoto,{}\n", block + 1);
    }
    text + "block,63\n" + end + "\n"
}

/// The same, but that each block may also go to itself, so that each is a state.
fn long_loops() -> String {
    let mut text = String::from("graph,64,2\n");
    for block in 0..64 {
        let _ = write!(text, "block,{block}\nite,eq,0,1,{block},{}\n", (block + 1) % 64);
    }
    text
}

/// A case from state 0 and block 0 whose first registers hold the given words.
fn case(text: &str, registers: &[u32], budget: u32) -> Case {
    let mut case = Case::plain(text.as_bytes());
    case.starters = own_starters(text.as_bytes());
    case.registers[..registers.len()].copy_from_slice(registers);
    (case.block_budget, case.cycle_budget) = (budget, budget);
    case
}

fn patched(text: &str, registers: &[u32], patches: Vec<Patch>) -> Case {
    let mut case = case(text, registers, 6);
    case.machine_patches = patches;
    case
}

/// The diamond on 5, 7 and 1: in the second state r0 goes up to 7, twice through blocks 1, 2 and 4,
/// and from there on to 5 and 6.
fn diamond(patches: Vec<Patch>) -> Case {
    patched(DIAMOND, &[5, 7, 1], patches)
}

/// Every kind of reference of a block in the first state and of one in the second, and of the others
/// some that are wrong.
fn references() -> Vec<Case> {
    let blocks = [(0, 0), (4, 1)];
    let of = |(block, state): (usize, usize)| {
        let count = WIRES_OF_DIAMOND[state];
        let wires = [16, 17, 15 + count, 16 + count, 17 + count];
        let others =
            [0, 1, 2, 3, 15, 21, 25, 30, 3_087, 3_088, 65_552, 2_147_483_664, 4_294_967_295];
        let all = wires.into_iter().chain(others);
        all.map(move |reference| diamond(vec![patch(arrival_at(block), reference)]))
    };
    let mut cases: Vec<Case> = blocks.into_iter().flat_map(of).collect();
    for block in [1, 2, 3, 5, 6] {
        let wrong = [0, 15, LAST + 1, u32::MAX as usize];
        cases.extend(wrong.map(|reference| diamond(vec![patch(arrival_at(block), reference)])));
    }
    cases
}

/// Every wire of the second state as the arrival of its last block.
fn wires() -> Vec<Case> {
    let wires = 0..WIRES_OF_DIAMOND[1];
    wires.map(|wire| diamond(vec![patch(arrival_at(6), 16 + wire)])).collect()
}

/// States that a block is said to be in: present ones with their references, absent ones without.
fn states() -> Vec<Case> {
    let states = [2, 1, 0, 63, 64, 254, 255, 256, 511, 2_147_483_648, u32::MAX as usize];
    let of = |block: usize| states.map(|state| diamond(vec![patch(state_at(block), state)]));
    let mut cases: Vec<Case> = [0, 4, 7, 63].into_iter().flat_map(of).collect();
    for block in [8, 9, 16, 40, 61, 62] {
        let states = [2, 254, 256, 511, u32::MAX as usize];
        cases.extend(states.map(|state| diamond(vec![patch(state_at(block), state)])));
    }
    // A state that is none, with a reference that the block's own state has, and with none.
    for state in [2, 254, 256] {
        for reference in [0, 16] {
            cases.extend([1, 63].map(|one| diamond(words_of(one, state, reference).to_vec())));
        }
    }
    cases
}

/// Absent blocks with a reference: one that nothing reaches, some from B up, the last.
fn absent_with_references() -> Vec<Case> {
    let references = [1, 15, 16, 20, 255, u32::MAX as usize];
    let of = |block: usize| references.map(|word| diamond(vec![patch(arrival_at(block), word)]));
    [7, 8, 40, 62, 63].into_iter().flat_map(of).collect()
}

/// Blocks made absent: each by itself, with its reference and without, those of a state, all.
fn made_absent() -> Vec<Case> {
    let mut cases = Vec::new();
    for block in [0, 1, 4, 6] {
        cases.push(diamond(absent(block).to_vec()));
        cases.push(diamond(vec![patch(state_at(block), ABSENT)]));
        cases.push(diamond(vec![patch(arrival_at(block), 0)]));
    }
    for blocks in [0..1, 1..7, 0..7, 2..4, 5..7] {
        let gone: Vec<Patch> = blocks.flat_map(absent).collect();
        cases.push(diamond(gone.clone()));
        for length in [0, 2] {
            let mut case = diamond(gone.clone());
            case.words.truncate(length);
            cases.push(case);
        }
    }
    cases
}

/// Blocks made present: one that nothing reaches and the last, in each state, with an arrival of their
/// own, a shared one, and references that are none of the state's; several with one arrival.
fn made_present() -> Vec<Case> {
    let mut cases = Vec::new();
    for block in [7, 63] {
        let first = [(0, 16), (0, 17), (0, 18), (0, 0)];
        let second = [(1, 16), (1, 18), (1, LAST), (1, LAST + 1), (1, 15)];
        let words = first.into_iter().chain(second);
        cases.extend(words.map(|(state, word)| diamond(words_of(block, state, word).to_vec())));
    }
    let several = |blocks: &[usize], state: usize, reference: usize| {
        diamond(blocks.iter().flat_map(|&one| words_of(one, state, reference)).collect())
    };
    let many: Vec<usize> = (32..64).collect();
    cases.extend([several(&[7, 8, 63], 0, 16), several(&[7, 8, 63], 1, 19)]);
    cases.extend([several(&many, 0, 17), several(&many, 1, 16)]);
    cases
}

/// Blocks in other states than their own, and arrivals that blocks share or exchange.
fn others() -> Vec<Case> {
    let moved = [(0, 1, 16), (0, 1, 24), (1, 0, 16), (6, 0, 17), (4, 0, 16), (2, 0, 18)];
    let moved = moved.map(|(block, state, word)| words_of(block, state, word).to_vec());
    let arrivals = |pairs: &[(usize, usize)]| -> Vec<Patch> {
        pairs.iter().map(|&(block, word)| patch(arrival_at(block), word)).collect()
    };
    let shared = [
        arrivals(&[(2, 16), (3, 16)]),
        arrivals(&[(1, 18), (4, 18), (5, 18)]),
        arrivals(&[(2, 19), (3, 18)]),
        (1..7).map(|block| patch(arrival_at(block), LAST)).collect(),
    ];
    moved.into_iter().chain(shared).map(diamond).collect()
}

/// Arrivals that are words: what is read, its sum, and a literal, over words of many kinds.
fn word_arrivals() -> Vec<Case> {
    let mut cases = Vec::new();
    for reference in [16, 17, 18, 19] {
        for length in [0, 1, 3, 6, 8] {
            let mut case = patched(READER, &[0, 7], vec![patch(arrival_at(0), reference)]);
            case.words = WORDS[..length].to_vec();
            case.cycle_budget = [6, 8, 20][length % 3];
            cases.push(case);
        }
    }
    for literal in [0, 2, 256, 2_147_483_648, u32::MAX as usize] {
        let arrivals = vec![patch(wire_at(0) + 1, literal)];
        cases.push(patched(CHAIN, &[], arrivals.clone()));
        cases.push(patched(P11, &[], arrivals.clone()));
        cases.push(patched(P7, &[12, 18], vec![patch(wire_at(2) + 1, literal)]));
    }
    cases
}

/// From each state, on each budget up to the halt and past it, on enough words and on fewer.
fn runs() -> Vec<Case> {
    let texts: [(&str, &[u32]); 6] = [
        (CHAIN, &[3]),
        (DIAMOND, &[5, 7, 1]),
        (P7, &[12, 18]),
        (FOUR, &[4, 9, 5]),
        (P9, &[1, 2]),
        (SEVEN, &[1, 2]),
    ];
    let mut cases = Vec::new();
    for (index, (text, registers)) in texts.into_iter().enumerate() {
        for (state, starter) in own_starters(text.as_bytes()).into_iter().enumerate() {
            for budget in [1, 3] {
                let mut case = case(text, registers, budget);
                (case.start_state, case.start_block) = (state as u32, starter);
                case.words.truncate((budget as usize + index + state) % 5);
                cases.push(case);
            }
        }
        cases.extend([0, 100].map(|budget| case(text, registers, budget)));
    }
    cases.extend((0..=RATES.len()).map(|length| {
        let mut case = case(WATCH, &[], u32::MAX);
        case.words = RATES[..length].to_vec();
        case
    }));
    cases
}

/// As many blocks to a cycle as there can be; the counts go past 8 and past 16 bits.
fn long_runs() -> Vec<Case> {
    let (halting, round, loops) = (long_chain("halt"), long_chain("goto,0"), long_loops());
    let mut cases = vec![case(&halting, &[], 1), case(&halting, &[], 0), case(&halting, &[], 9)];
    cases.extend([1, 3, 4, 5, 1_023].map(|one| case(&round, &[], one)));
    let past_16_bits =
        [1_024, 1_025, 1_030, 1_100, 1_280, 1_500, 2_000, 2_047, 2_049, 2_500, 3_000];
    cases.extend(past_16_bits.map(|budget| case(&round, &[], budget)));
    cases.extend([1, 64, 65].map(|budget| case(&loops, &[0, 1], budget)));
    cases.extend([1, 300].map(|budget| case(&loops, &[0, 0], budget)));
    let last = (0..2).map(|state| {
        let mut case = case(&loops, &[0, 1], 3);
        (case.start_state, case.start_block) = (62 + state, 62 + state);
        case
    });
    cases.extend(last);
    // The last of them made absent, without its reference and with it.
    for text in [&halting, &round, &loops] {
        cases.push(patched(text, &[0, 1], absent(63).to_vec()));
        cases.push(patched(text, &[0, 1], vec![patch(state_at(63), ABSENT)]));
        cases.push(patched(text, &[0, 1], vec![patch(arrival_at(63), 15)]));
    }
    cases
}

/// States with other wires and other numbers of states, with blocks in them.
fn other_states() -> Vec<Case> {
    let (second, third) = (record(1), record(2));
    let shorter = |count: usize, reference: usize| {
        // Its wires are `set 1` twice, or once, and it keeps the registers.
        let mut patches = vec![patch(second + 1, count)];
        patches.push(patch(second + 2, if count > 0 { 16 } else { 0 }));
        patches.extend((0..3).map(|register| patch(second + 3 + register, register)));
        patches.extend([patch(touch_at(1), 0), patch(wire_at(3), 1), patch(wire_at(3) + 1, 1)]);
        patches.extend((1..7).flat_map(|block| words_of(block, 1, reference)));
        diamond(patches)
    };
    let mut cases: Vec<Case> =
        [(2, 16), (2, 17), (2, 18), (1, 16), (1, 17), (0, 16), (0, 15), (0, 0)]
            .map(|(count, reference)| shorter(count, reference))
            .to_vec();
    // A third state without wires has no reference for a block, one with a wire has.
    let touched = patch(touch_at(2), 6);
    for (count, state, reference) in
        [(0, 2, 16), (0, 2, 0), (1, 2, 16), (1, 2, 17), (1, 3, 16), (1, 255, 0)]
    {
        let mut patches = vec![patch(0, 3), patch(third, 21), patch(third + 1, count), touched];
        patches.extend([patch(wire_at(21), 1), patch(wire_at(21) + 1, 5)]);
        patches.extend(words_of(7, state, reference));
        let mut case = diamond(patches);
        (case.start_state, case.words) = (2, vec![1, 2, 3]);
        cases.push(case);
    }
    // Fewer states, with the blocks of the lost one as they are and absent.
    let fewer = [vec![patch(0, 1)], (1..7).flat_map(absent).chain([patch(0, 1)]).collect()];
    cases.extend(fewer.map(diamond));
    cases
}

/// Starters are not read: what they hold does not matter, also where it names other blocks.
fn starters() -> Vec<Case> {
    let words = [(2, 7), (3, 0), (3, 4), (2, 63), (3, u32::MAX), (4, 1)];
    words.map(|one| diamond(vec![one])).to_vec()
}

/// Short buffers, that of the layout before arrivals included, exact ones and longer ones, with
/// words behind the table.
fn lengths() -> Vec<Case> {
    let lengths = [13_634, 13_697, 13_698, 13_699, 13_730, 13_761, 13_762, 13_763, 13_828];
    let of = |length| {
        [vec![(13_762, 16), (13_827, 3)], vec![(13_761, 16)]].map(|patches| {
            let mut case = diamond(patches);
            case.machine_length = length;
            case
        })
    };
    lengths.into_iter().flat_map(of).collect()
}

/// What else is wrong with a call on a table whose block words are wrong.
fn orders() -> Vec<Case> {
    let wrong = [(arrival_at(0), 0), (state_at(4), 2), (arrival_at(63), 16)];
    let spoils: [fn(&mut Case); 8] = [
        |_| {},
        |case| case.registers.truncate(15),
        |case| (case.start_state, case.asked.state) = (2, 2),
        |case| (case.start_state, case.asked.state) = (1, u32::MAX),
        |case| case.machine_patches.push(patch(wire_at(1), 20)),
        |case| (case.bounds.lowest[0], case.bounds.highest[0]) = (1, 0),
        |case| case.bounds.highest.truncate(15),
        |case| case.machine_length = 13_761,
    ];
    let all = wrong.into_iter().flat_map(|(at, word)| spoils.map(|spoil| (at, word, spoil)));
    let of = |(at, word, spoil): (usize, usize, fn(&mut Case))| {
        let mut case = diamond(vec![patch(at, word)]);
        spoil(&mut case);
        case
    };
    all.map(of).collect()
}

pub fn cases() -> Vec<Case> {
    let kinds = [
        references(),
        wires(),
        states(),
        absent_with_references(),
        made_absent(),
        made_present(),
        others(),
        word_arrivals(),
        runs(),
        long_runs(),
        other_states(),
        starters(),
        lengths(),
        orders(),
    ];
    kinds.concat()
}
