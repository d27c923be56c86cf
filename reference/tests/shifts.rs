//! R-6 by hand: shifts by the whole amount, in runs, wires and bounds; and the laws of shifts.

mod common;

use common::shifts::{shifted, Reading};
use common::{graph_on_words, machine_on_words, machine_table_of, on_graph, on_machine, registers};
use reference::generate::examples::one_instruction;
use reference::generate::shift_cases::EITHER_WAY;
use reference::generate::words::{AMOUNTS, SHIFTED};
use reference::graph::Binary;
use reference::operations::bounds;
use reference::random::Random;

const MOST: u32 = 2_147_483_647;
const LEAST: u32 = 2_147_483_648;
const MINUS_1: u32 = 4_294_967_295;

/// A word, an amount, and what shl, shr and sar give.
const BY_HAND: [[u32; 5]; 34] = [
    // Below 32, as before.
    [6, 0, 6, 6, 6],
    [6, 1, 12, 3, 3],
    [MINUS_1 - 5, 1, MINUS_1 - 11, MOST - 2, MINUS_1 - 2],
    [1, 30, 1_073_741_824, 0, 0],
    [MOST, 30, 3_221_225_472, 1, 1],
    [LEAST, 30, 0, 2, MINUS_1 - 1],
    [1, 31, LEAST, 0, 0],
    [3, 31, LEAST, 0, 0],
    [MOST, 31, LEAST, 0, 0],
    [LEAST, 31, 0, 1, MINUS_1],
    [MINUS_1, 31, LEAST, 1, MINUS_1],
    // By 32 and a little more.
    [0, 32, 0, 0, 0],
    [1, 32, 0, 0, 0],
    [MOST, 32, 0, 0, 0],
    [LEAST, 32, 0, 0, MINUS_1],
    [MINUS_1, 32, 0, 0, MINUS_1],
    [3, 33, 0, 0, 0],
    [2_863_311_530, 33, 0, 0, MINUS_1],
    [1_431_655_765, 33, 0, 0, 0],
    // What is 0, 1 or 31 with fewer bits.
    [6, 64, 0, 0, 0],
    [LEAST + 6, 65, 0, 0, MINUS_1],
    [LEAST + 6, 127, 0, 0, MINUS_1],
    [6, 256, 0, 0, 0],
    [LEAST + 6, 257, 0, 0, MINUS_1],
    [LEAST + 6, 65_536, 0, 0, MINUS_1],
    [6, 65_567, 0, 0, 0],
    // The amount has no sign.
    [6, MOST, 0, 0, 0],
    [6, LEAST, 0, 0, 0],
    [LEAST + 6, LEAST, 0, 0, MINUS_1],
    [LEAST + 6, LEAST + 1, 0, 0, MINUS_1],
    [6, 4_294_967_264, 0, 0, 0],
    [LEAST + 6, 4_294_967_265, 0, 0, MINUS_1],
    [6, MINUS_1, 0, 0, 0],
    [LEAST, MINUS_1, 0, 0, MINUS_1],
];

const SHIFTS: [(&str, Binary); 3] =
    [("shl", Binary::Shl), ("shr", Binary::Shr), ("sar", Binary::Sar)];

/// Every row of the table with each shift: name, word, amount, result.
fn by_hand() -> impl Iterator<Item = (&'static str, Binary, u32, u32, u32)> {
    BY_HAND.into_iter().flat_map(|[x, y, shl, shr, sar]| {
        SHIFTS.into_iter().zip([shl, shr, sar]).map(move |((name, op), z)| (name, op, x, y, z))
    })
}

/// Both interpreters, with the amount in a register.
#[test]
fn runs_by_hand() {
    for (name, op, x, y, result) in by_hand() {
        assert_eq!(op.apply(x, y), result, "{x} {name} {y}");
        let text = one_instruction(&format!("{name},2,0,1"));
        assert_eq!(on_graph(&text, &[x, y], 1).1, registers(&[x, y, result]), "{x} {name} {y}");
        assert_eq!(on_machine(&text, &[x, y], 1).1, registers(&[x, y, result]), "{x} {name} {y}");
    }
}

/// The amount from a `set`, and from an `in`.
#[test]
fn literals_and_inputs_by_hand() {
    for (name, _, x, y, result) in by_hand() {
        let after = registers(&[x, y, result]);
        let lines = format!("set,0,{}\nset,1,{}\n{name},2,0,1", x as i32, y as i32);
        let text = one_instruction(&lines);
        assert_eq!(on_graph(&text, &[], 1).1, after, "{x} {name} {y}");
        assert_eq!(on_machine(&text, &[], 1).1, after, "{x} {name} {y}");
        let text = one_instruction(&format!("set,0,{}\nin,1\n{name},2,0,1", x as i32));
        assert_eq!(graph_on_words(&text, 0, 1, &[y]).1, after, "{x} {name} {y}");
        assert_eq!(machine_on_words(&text, 0, 1, &[y]).1, after, "{x} {name} {y}");
    }
}

/// Lowest and highest of r2 after a cycle from these ends of r0 and r1, as words.
fn bounded(name: &str, [x, y]: [[u32; 2]; 2]) -> [u32; 2] {
    let table = machine_table_of(&one_instruction(&format!("{name},2,0,1")));
    let (mut lowest, mut highest) = (registers(&[x[0], y[0]]), registers(&[x[1], y[1]]));
    assert_eq!(bounds(&table, &mut lowest, &mut highest, 0), 0);
    [lowest[2], highest[2]]
}

/// Single values give the exact one; a range makes any shift full, by whatever amount.
#[test]
fn bounds_by_hand() {
    for (name, _, x, y, result) in by_hand() {
        assert_eq!(bounded(name, [[x; 2], [y; 2]]), [result; 2], "{x} {name} {y}");
    }
    for (name, _) in SHIFTS {
        for [x, y] in [
            [[6, 7], [32, 32]],
            [[6, 6], [32, 33]],
            [[0, 0], [32, MOST]],
            [[0, 0], [LEAST, MINUS_1]],
            [[MINUS_1, 0], [MINUS_1, MINUS_1]],
            [[6, 6], [0, 31]],
            [[6, 7], [0, 0]],
        ] {
            assert_eq!(bounded(name, [x, y]), [LEAST, MOST], "{name} {x:?} {y:?}");
        }
    }
}

/// In a state of four blocks each way shifts by the same amount, and the join behind them too.
#[test]
fn several_blocks_of_a_state() {
    let x = LEAST + 1;
    for (amount, shl, shr, sar) in [
        (31, LEAST, 1, MINUS_1),
        (32, 0, 0, MINUS_1),
        (33, 0, 0, MINUS_1),
        (LEAST, 0, 0, MINUS_1),
        (MINUS_1, 0, 0, MINUS_1),
    ] {
        for (other, way) in [(7, shl), (8, shr)] {
            let begin = [x, amount, 7, other, x];
            let after = registers(&[way, amount, 7, other, sar]);
            assert_eq!(on_graph(EITHER_WAY, &begin, 9).1, after);
            assert_eq!(on_machine(EITHER_WAY, &begin, 1).1, after);
        }
    }
}

/// Words to shift: ends, patterns, single bits, any.
fn words() -> Vec<u32> {
    let mut random = Random::new(61);
    let bits = (0..32).flat_map(|bit| [1 << bit, !(1 << bit), MINUS_1 << bit, MINUS_1 >> bit]);
    let any = (0..500).map(|_| random.word());
    SHIFTED.into_iter().chain(AMOUNTS).chain(bits).chain(any).collect()
}

/// Amounts from 32 up: all up to 300, ends, any.
fn far_amounts() -> Vec<u32> {
    let mut random = Random::new(62);
    let any = (0..250).map(|_| random.word());
    let all = (32..=300).chain(AMOUNTS).chain((0..32).map(|bit| 1 << bit)).chain(any);
    all.filter(|&amount| amount > 31).collect()
}

/// Amounts below 32 give what they gave.
#[test]
fn below_32_as_before() {
    for x in words() {
        for y in 0..32 {
            assert_eq!(Binary::Shl.apply(x, y), x << (y % 32));
            assert_eq!(Binary::Shr.apply(x, y), x >> (y % 32));
            assert_eq!(Binary::Sar.apply(x, y), ((x as i32) >> (y % 32)) as u32);
        }
    }
}

#[test]
fn from_32_up() {
    for x in words() {
        let copies = if x < LEAST { 0 } else { MINUS_1 };
        for y in far_amounts() {
            assert_eq!((Binary::Shl.apply(x, y), Binary::Shr.apply(x, y)), (0, 0), "{x} {y}");
            assert_eq!(Binary::Sar.apply(x, y), copies, "{x} {y}");
        }
    }
}

/// A shift by an amount is that many shifts by one, so two after one another are one by their sum.
#[test]
fn one_bit_at_a_time() {
    for (_, op) in SHIFTS {
        for x in words() {
            let mut so_far = x;
            for amount in 0..100 {
                assert_eq!(op.apply(x, amount), so_far, "{x} {} {amount}", op.name());
                so_far = op.apply(so_far, 1);
            }
        }
    }
}

/// Each bit of the result is the bit of the word that the amount says, or what is brought in.
#[test]
fn bit_by_bit() {
    for (_, op) in SHIFTS {
        for x in words() {
            for y in (0..32).chain(far_amounts()) {
                assert_eq!(op.apply(x, y), shifted(Reading::Right, op, x, y), "{x} {y}");
            }
        }
    }
}

/// No shift goes over, whatever it loses.
#[test]
fn shifts_raise_no_flag() {
    for (name, op, x, y, _) in by_hand() {
        assert!(!op.goes_over(x, y));
        let text = one_instruction(&format!("{name},2,0,1"));
        assert!(!on_graph(&text, &[x, y], 1).0.flag && !on_machine(&text, &[x, y], 1).0.flag);
    }
}
