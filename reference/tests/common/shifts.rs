//! R-6 of paper 02 bit by bit, and what wrong readings of it do otherwise.

use super::bounds::{word, Ends};
use reference::graph::{signed, Binary};

#[derive(Clone, Copy, Debug, PartialEq, Eq)]
pub enum Reading {
    Right,
    // Amounts.
    /// As before the request.
    Modulo32,
    ShlModulo32,
    ShrModulo32,
    SarModulo32,
    Modulo64,
    Modulo128,
    /// The amount has 8 bits.
    Byte,
    /// The amount has 16 bits.
    Half,
    /// 32 itself leaves the word as it is.
    ShlFrom33,
    ShrFrom33,
    SarFrom33,
    /// No bit is left by 31.
    ShlFrom31,
    ShrFrom31,
    /// From 32 up as by 31.
    ClampedTo31,
    ShlClampedTo31,
    ShrClampedTo31,
    // Amounts with a sign.
    /// A negative amount shifts the other way.
    OtherWay,
    NegativeKeeps,
    /// The test for 32 is a signed one, and what passes it is taken modulo 32.
    NegativeModulo32,
    /// Without its sign.
    Magnitude,
    /// The amount without its highest bit.
    Low31Bits,
    // Results from 32 up.
    ShlKeeps,
    ShrKeeps,
    SarKeeps,
    SarZero,
    SarOnes,
    /// The sign bit once, as the lowest bit.
    SarSignOnce,
    /// The sign bit in its place, and zeros.
    SarSignAlone,
    /// Copies of the lowest bit.
    SarLowestBit,
    /// Copies of the amount's sign.
    SarSignOfAmount,
    /// Copies of the sign bit by shr too.
    ShrSignCopies,
    /// Ones come in from the right.
    ShlOnes,
    // Results below 32 too.
    /// By 31 the sign bit comes once.
    Sar31Once,
    /// As a division that rounds towards zero.
    SarTowardsZero,
    /// The word that is shifted is tested for 32, not the amount.
    FirstTested,
    // Places.
    GraphAlone,
    MachineAlone,
    BoundsAlone,
    NotInGraph,
    NotInMachine,
    NotInBounds,
    WithWordsAlone,
    WithoutWordsAlone,
    // Ranges, which are full unless both are single.
    /// From 32 up throughout, the amount need not be single.
    FarAmounts,
    /// By a single amount from 32 up the word need not be single.
    FarAmountAlone,
    /// Zero is zero by any amount.
    ZeroStays,
    /// By a single amount sar takes the ends.
    SarOfEnds,
}

use Reading::*;

pub const WRONG: [Reading; 47] = [
    Modulo32, ShlModulo32, ShrModulo32, SarModulo32, Modulo64, Modulo128, Byte, Half, ShlFrom33,
    ShrFrom33, SarFrom33, ShlFrom31, ShrFrom31, ClampedTo31, ShlClampedTo31, ShrClampedTo31,
    OtherWay, NegativeKeeps, NegativeModulo32, Magnitude, Low31Bits, ShlKeeps, ShrKeeps, SarKeeps,
    SarZero, SarOnes, SarSignOnce, SarSignAlone, SarLowestBit, SarSignOfAmount, ShrSignCopies,
    ShlOnes, Sar31Once, SarTowardsZero, FirstTested, GraphAlone, MachineAlone, BoundsAlone,
    NotInGraph, NotInMachine, NotInBounds, WithWordsAlone, WithoutWordsAlone, FarAmounts,
    FarAmountAlone, ZeroStays, SarOfEnds,
];

/// Where a shift is worked out.
#[derive(Clone, Copy, Debug, PartialEq, Eq)]
pub enum Place {
    Graph,
    Machine,
    GraphWithWords,
    MachineWithWords,
    Bounds,
}

use Place::*;

pub const PLACES: [Place; 5] = [Graph, Machine, GraphWithWords, MachineWithWords, Bounds];

impl Reading {
    /// The reading in a place; those of some places leave the others as they were.
    pub fn at(self, place: Place) -> Reading {
        let in_graph = matches!(place, Graph | GraphWithWords);
        let in_machine = matches!(place, Machine | MachineWithWords);
        let with_words = matches!(place, GraphWithWords | MachineWithWords);
        let changed = match self {
            GraphAlone => in_graph,
            MachineAlone => in_machine,
            BoundsAlone => place == Bounds,
            NotInGraph => !in_graph,
            NotInMachine => !in_machine,
            NotInBounds => place != Bounds,
            WithWordsAlone => with_words,
            WithoutWordsAlone => !with_words,
            FarAmounts | FarAmountAlone | ZeroStays | SarOfEnds if place != Bounds => true,
            _ => return self,
        };
        if changed {
            Right
        } else {
            Modulo32
        }
    }
}

pub fn is_shift(op: Binary) -> bool {
    matches!(op, Binary::Shl | Binary::Shr | Binary::Sar)
}

/// Which bit of the word each bit of the result is, if it is one.
fn by_bits(op: Binary, x: u32, amount: u32) -> u32 {
    let source = |bit: u64| match op {
        Binary::Shl => bit.checked_sub(amount.into()),
        Binary::Shr => Some(bit + u64::from(amount)).filter(|&bit| bit < 32),
        _ => Some((bit + u64::from(amount)).min(31)),
    };
    let bits = (0..32).filter(|&bit| source(bit).is_some_and(|from| x >> from & 1 == 1));
    bits.map(|bit| 1 << bit).sum()
}

/// The amount that a reading shifts by.
fn amount(reading: Reading, op: Binary, x: u32, y: u32) -> u32 {
    match (reading, op) {
        (Modulo32, _)
        | (ShlModulo32, Binary::Shl)
        | (ShrModulo32, Binary::Shr)
        | (SarModulo32, Binary::Sar) => y % 32,
        (Modulo64, _) => y % 64,
        (Modulo128, _) => y % 128,
        (Byte, _) => y % 256,
        (Half, _) => y % 65_536,
        (ShlFrom33, Binary::Shl) | (ShrFrom33, Binary::Shr) | (SarFrom33, Binary::Sar)
            if y == 32 =>
        {
            0
        }
        (ShlFrom31, Binary::Shl) | (ShrFrom31, Binary::Shr) if y == 31 => 32,
        (ClampedTo31, _) | (ShlClampedTo31, Binary::Shl) | (ShrClampedTo31, Binary::Shr) => {
            y.min(31)
        }
        (FirstTested, _) if x < 32 => y % 32,
        (FirstTested, _) => 32,
        _ => signed_amount(reading, y),
    }
}

/// The amount of a reading that has a sign in it.
fn signed_amount(reading: Reading, y: u32) -> u32 {
    let negative = y > i32::MAX as u32;
    match reading {
        NegativeKeeps if negative => 0,
        NegativeModulo32 if negative => y % 32,
        Magnitude => (y as i32).unsigned_abs(),
        Low31Bits => y % 2_147_483_648,
        _ => y,
    }
}

/// What a reading gives in place of a shift by 32 or more, where it is not by the amount.
fn from_32(reading: Reading, op: Binary, x: u32, y: u32) -> Option<u32> {
    let copies = |bit: u32| if bit & 1 == 1 { u32::MAX } else { 0 };
    Some(match (reading, op) {
        (ShlKeeps, Binary::Shl) | (ShrKeeps, Binary::Shr) | (SarKeeps, Binary::Sar) => x,
        (SarZero, Binary::Sar) => 0,
        (SarOnes, Binary::Sar) | (ShlOnes, Binary::Shl) => u32::MAX,
        (SarSignOnce, Binary::Sar) => x >> 31,
        (SarSignAlone, Binary::Sar) => x & 2_147_483_648,
        (SarLowestBit, Binary::Sar) => copies(x),
        (SarSignOfAmount, Binary::Sar) => copies(y >> 31),
        (ShrSignCopies, Binary::Shr) => copies(x >> 31),
        _ => return None,
    })
}

/// A shift by a negative amount, the other way; sar's other way is shl's.
fn other_way(op: Binary, x: u32, y: u32) -> u32 {
    let turned = if op == Binary::Shl { Binary::Shr } else { Binary::Shl };
    by_bits(turned, x, y.wrapping_neg())
}

pub fn shifted(reading: Reading, op: Binary, x: u32, y: u32) -> u32 {
    match reading {
        OtherWay if y > i32::MAX as u32 => return other_way(op, x, y),
        Sar31Once if op == Binary::Sar && y == 31 => return x >> 31,
        SarTowardsZero if op == Binary::Sar => return word(signed(x) / (1 << y.min(32))),
        _ => (),
    }
    let other = if y < 32 { None } else { from_32(reading, op, x, y) };
    other.unwrap_or_else(|| by_bits(op, x, amount(reading, op, x, y)))
}

/// What a reading of ranges gives for inputs of which not both are single, where that is not full.
pub fn range(reading: Reading, op: Binary, a: Ends, b: Ends) -> Option<Ends> {
    let single = b.0 == b.1;
    // Amounts that are not negative and those that are: each in order as unsigned words too.
    let far = (b.0 >= 32 || b.1 < 0) && op != Binary::Sar;
    match reading {
        FarAmounts if far => Some((0, 0)),
        FarAmountAlone if far && single => Some((0, 0)),
        ZeroStays if a == (0, 0) => Some((0, 0)),
        SarOfEnds if op == Binary::Sar && single => {
            let [low, high] = [a.0, a.1].map(|end| signed(by_bits(op, word(end), word(b.0))));
            Some((low, high))
        }
        _ => None,
    }
}
