//! Words and literals that lie where arithmetic changes its course.

use crate::random::Random;

const EDGES: [u32; 22] = [
    0, 1, 2, 3, 15, 16, 31, 32, 33, 255, 32_767, 32_768, 65_535, 65_536, 98_304, 2_147_483_647,
    2_147_483_648, 2_147_483_649, 4_294_934_528, 4_294_967_096, 4_294_967_294, 4_294_967_295,
];

/// A word for a register or a literal: small, at an edge, or any.
pub fn word(random: &mut Random) -> u32 {
    match random.below(10) {
        0..=3 => random.below(12) as u32,
        4..=7 => random.pick(&EDGES),
        8 => random.word() % 100_000,
        _ => random.word(),
    }
}

/// A literal, both ends included more often than chance would.
pub fn literal(random: &mut Random) -> i32 {
    match random.below(12) {
        0 => i32::MIN,
        1 => i32::MAX,
        2 => -1,
        _ => word(random) as i32,
    }
}

/// The ends of the signed range, what takes a sum over them, and their neighbours.
const ENDS: [u32; 15] = [
    2_147_483_647, 2_147_483_647, 2_147_483_647, 2_147_483_648, 2_147_483_648, 2_147_483_648, 1, 1,
    1, 4_294_967_295, 4_294_967_295, 4_294_967_295, 0, 2_147_483_646, 2_147_483_649,
];

/// A word on which sums go over, or just do not.
pub fn near_end(random: &mut Random) -> u32 {
    match random.below(15) {
        0 => random.pick(&[2, 1_073_741_824, 3_221_225_472, 3_221_225_471, 4_294_967_294]),
        _ => random.pick(&ENDS),
    }
}

/// A register buffer, or a list of words, of the given length.
pub fn registers(random: &mut Random, length: usize) -> Vec<u32> {
    let draw = if random.percent(25) { near_end } else { word };
    (0..length).map(|_| draw(random)).collect()
}

/// One on which sums go over.
pub fn registers_near_ends(random: &mut Random, length: usize) -> Vec<u32> {
    (0..length).map(|_| near_end(random)).collect()
}

/// Amounts of shifts: about 32 and its multiples, and such as are another amount with fewer bits or
/// with a sign.
pub const AMOUNTS: [u32; 30] = [
    0, 1, 30, 31, 32, 33, 62, 63, 64, 65, 95, 96, 127, 128, 255, 256, 257, 287, 65_535, 65_536,
    65_567, 2_147_483_647, 2_147_483_648, 2_147_483_649, 2_147_483_679, 2_147_483_680,
    4_294_967_264, 4_294_967_265, 4_294_967_294, 4_294_967_295,
];

/// Words on which shifts show: bits at both ends, alone and not, and every second bit.
pub const SHIFTED: [u32; 8] = [
    1, 2_147_483_647, 2_147_483_648, 4_294_967_295, 2_863_311_530, 1_431_655_765, 0, 2_147_483_649,
];

/// An amount to shift by, those about 32 more often.
pub fn amount(random: &mut Random) -> u32 {
    match random.percent(35) {
        true => random.pick(&[31, 31, 32, 32, 33]),
        false => random.pick(&AMOUNTS),
    }
}

/// A word to shift, or an amount.
fn of_shifts(random: &mut Random) -> u32 {
    match random.below(10) {
        0..=5 => amount(random),
        6..=8 => random.pick(&SHIFTED),
        _ => random.word(),
    }
}

/// A register buffer, or a list of words, for graphs that shift.
pub fn registers_of_shifts(random: &mut Random, length: usize) -> Vec<u32> {
    (0..length).map(|_| of_shifts(random)).collect()
}
