//! R-5 of paper 02 over the words of machine tables, and what wrong readings of it do otherwise.

use super::shifts::{self, is_shift, shifted, Place};
use reference::graph::{sign_extend, signed, Binary, Comparison};
use reference::machine_table::{MACHINE_WORDS, RECORDS_AT, RECORD_WORDS, WIRES_AT};

/// Lowest and highest value.
pub type Ends = (i64, i64);

pub const LEAST: i64 = -2_147_483_648;
pub const MOST: i64 = 2_147_483_647;
pub const FULL: Ends = (LEAST, MOST);
const HALF: Ends = (-32_768, 32_767);

#[derive(Clone, Copy, Debug, PartialEq, Eq)]
pub enum Reading {
    Right,
    // Sums.
    /// Ends that leave the range are wrapped.
    WrappedEnds,
    /// Ends that leave the range stay at its ends.
    ClampedEnds,
    /// Only the highest result is tested.
    HighestTested,
    /// Only the lowest result is tested.
    LowestTested,
    /// A result at an end of the range could wrap too.
    WrapAtTheEnd,
    /// A result past an end by one does not wrap yet.
    WrapLate,
    /// Where both ends wrap in one direction, so does the range.
    BothEndsWrap,
    /// Lowest less lowest and highest less highest.
    SubOfLikeEnds,
    SumsFull,
    /// A carry or borrow of unsigned words is a wrap.
    UnsignedWrap,
    // Choices.
    TakenWhereUnsure,
    ElseWhereUnsure,
    FullWhereUnsure,
    /// Both arms, whatever the condition.
    BothArms,
    /// Both arms unless the condition is single.
    BothUnlessSingle,
    /// Both arms though the condition is nothing but zero.
    BothWhereZero,
    /// The condition may be zero where one of its ends is.
    ZeroAtTheEnds,
    /// The condition is nonzero where its lowest is.
    LowestDecides,
    ChoiceTurned,
    // Sign extension.
    /// A range that fits 16 bits unsigned is kept.
    SxUnsigned,
    SxByHighest,
    SxByLowest,
    SxOneMore,
    SxOneLess,
    /// Where it does not fit, the extensions of both ends in order.
    SxOfEnds,
    SxFull,
    SxAlwaysHalf,
    // Comparisons.
    /// Lt is 1 where the ranges touch.
    LtOneEarly,
    /// Lt is 0 only where the second is below.
    LtZeroLate,
    /// Ge is 0 where the ranges touch.
    GeZeroEarly,
    /// Ge is 1 only where the second is below.
    GeOneLate,
    /// Eq is 1, and ne 0, where both ranges are the same.
    EqualRanges,
    /// Ranges that touch do not meet.
    TouchingApart,
    EqUndecided,
    LtUndecided,
    UnsignedOrder,
    LtuDecided,
    ComparedFull,
    // Single values.
    AndOrXorInexact,
    ShiftsInexact,
    AndNotInexact,
    LtuInexact,
    SumsInexact,
    SxInexact,
    EqInexact,
    /// C of a sum has to be single too.
    ArrivalCounts,
    /// It is enough that a is single.
    FirstSingle,
    // Other codes.
    /// And of two ranges without negative numbers has none.
    AndNarrow,
    /// Where nothing is known, of 16 bits alone.
    InIsHalf,
    InIsZero,
    InKept,
    LiteralIsReference,
    /// What is compared with itself is equal, and less itself 0.
    OneReference,
    /// The first wire, which is set, may be anything.
    SetFull,
    // Which registers, which state.
    InPlace,
    /// What is answered holds the bounds before it too.
    Joined,
    AllSixteen,
    PastSixteen,
    StateZero,
    LastState,
    // Refusals.
    ThirteenBeforeNine,
    ThirteenBeforeTen,
    ThirteenBeforeSeven,
    NineBeforeTen,
    ThirteenOfAll,
    ThirteenUnsigned,
    ThirteenWhereEqual,
    ThirteenOfFirst,
    ThirteenNotOfLast,
    NoThirteen,
    NineAboveN,
    NineFrom64,
    LowestNotShort,
    HighestNotShort,
    /// Ends the wrong way round are turned before the refusal.
    TurnedOnThirteen,
    /// What would be answered is written before the state or the ends are judged.
    WrittenOnRefusal,
    // Of R-6.
    OfShifts(shifts::Reading),
}

use Reading::*;

pub const WRONG: [Reading; 76] = [
    WrappedEnds, ClampedEnds, HighestTested, LowestTested, WrapAtTheEnd, WrapLate, BothEndsWrap,
    SubOfLikeEnds, SumsFull, UnsignedWrap, TakenWhereUnsure, ElseWhereUnsure, FullWhereUnsure,
    BothArms, BothUnlessSingle, BothWhereZero, ZeroAtTheEnds, LowestDecides, ChoiceTurned,
    SxUnsigned, SxByHighest, SxByLowest, SxOneMore, SxOneLess, SxOfEnds, SxFull, SxAlwaysHalf,
    LtOneEarly, LtZeroLate, GeZeroEarly, GeOneLate, EqualRanges, TouchingApart, EqUndecided,
    LtUndecided, UnsignedOrder, LtuDecided, ComparedFull, AndOrXorInexact, ShiftsInexact,
    AndNotInexact, LtuInexact, SumsInexact, SxInexact, EqInexact, ArrivalCounts, FirstSingle,
    AndNarrow, InIsHalf, InIsZero, InKept, LiteralIsReference, OneReference, SetFull, InPlace,
    Joined, AllSixteen, PastSixteen, StateZero, LastState, ThirteenBeforeNine, ThirteenBeforeTen,
    ThirteenBeforeSeven, NineBeforeTen, ThirteenOfAll, ThirteenUnsigned, ThirteenWhereEqual,
    ThirteenOfFirst, ThirteenNotOfLast, NoThirteen, NineAboveN, NineFrom64, LowestNotShort,
    HighestNotShort, TurnedOnThirteen, WrittenOnRefusal,
];

pub fn word(value: i64) -> u32 {
    (value & 0xFFFF_FFFF) as u32
}

fn wrapped(value: i64) -> i64 {
    signed(word(value))
}

fn single((low, high): Ends) -> bool {
    low == high
}

fn fits((low, high): Ends, (least, most): Ends) -> bool {
    least <= low && high <= most
}

fn hull(x: Ends, y: Ends) -> Ends {
    (x.0.min(y.0), x.1.max(y.1))
}

fn sum(reading: Reading, code: u32, a: Ends, b: Ends) -> Ends {
    let ends = match code {
        3 => (a.0 + b.0, a.1 + b.1),
        _ if reading == SubOfLikeEnds => {
            let ends = (a.0 - b.0, a.1 - b.1);
            (ends.0.min(ends.1), ends.0.max(ends.1))
        }
        _ => (a.0 - b.1, a.1 - b.0),
    };
    let (low, high) = ends;
    let full_unless = |fits: bool, ends: Ends| if fits { ends } else { FULL };
    let wraps = (wrapped(low), wrapped(high));
    match reading {
        SumsFull => FULL,
        WrappedEnds => wraps,
        ClampedEnds => (low.clamp(LEAST, MOST), high.clamp(LEAST, MOST)),
        HighestTested => full_unless(high <= MOST, wraps),
        LowestTested => full_unless(low >= LEAST, wraps),
        WrapAtTheEnd => full_unless(fits(ends, (LEAST + 1, MOST - 1)), ends),
        WrapLate => full_unless(fits(ends, (LEAST - 1, MOST + 1)), wraps),
        BothEndsWrap => full_unless(fits(ends, FULL) || wraps.0 - low == wraps.1 - high, wraps),
        UnsignedWrap => {
            let unsigned = |value: i64| i64::from(word(value));
            let carries = match code {
                3 => {
                    unsigned(a.0) + unsigned(b.0) > 0xFFFF_FFFF
                        || unsigned(a.1) + unsigned(b.1) > 0xFFFF_FFFF
                }
                _ => unsigned(a.0) < unsigned(b.1) || unsigned(a.1) < unsigned(b.0),
            };
            full_unless(!carries, wraps)
        }
        _ => full_unless(fits(ends, FULL), ends),
    }
}

fn choice(reading: Reading, a: Ends, b: Ends, c: Ends) -> Ends {
    let (b, c) = if reading == ChoiceTurned { (c, b) } else { (b, c) };
    let may_be_zero = match reading {
        ZeroAtTheEnds => a.0 == 0 || a.1 == 0,
        LowestDecides => a.0 == 0,
        BothUnlessSingle => !single(a) || a.0 == 0,
        _ => a.0 <= 0 && 0 <= a.1,
    };
    match (reading, may_be_zero, single(a)) {
        (BothArms, ..) => hull(b, c),
        (BothWhereZero, true, true) => hull(b, c),
        (LowestDecides, true, _) => c,
        (_, false, _) => b,
        (_, true, true) => c,
        (TakenWhereUnsure, ..) => b,
        (ElseWhereUnsure, ..) => c,
        (FullWhereUnsure, ..) => FULL,
        _ => hull(b, c),
    }
}

fn extended(reading: Reading, a: Ends) -> Ends {
    let kept = match reading {
        SxUnsigned => fits(a, HALF) || fits(a, (0, 65_535)),
        SxByHighest => a.1 <= HALF.1,
        SxByLowest => a.0 >= HALF.0,
        SxOneMore => fits(a, (HALF.0 - 1, HALF.1 + 1)),
        SxOneLess => fits(a, (HALF.0 + 1, HALF.1 - 1)),
        SxAlwaysHalf => false,
        _ => fits(a, HALF),
    };
    match reading {
        _ if kept => a,
        SxFull => FULL,
        SxOfEnds => {
            let [x, y] = [a.0, a.1].map(|end| signed(sign_extend(word(end))));
            (x.min(y), x.max(y))
        }
        _ => HALF,
    }
}

/// Whether a is below b, where the ends tell.
fn below(reading: Reading, code: u32, a: Ends, b: Ends) -> Option<bool> {
    let unsigned = |value: i64| i64::from(word(value));
    let (a, b) = match reading {
        UnsignedOrder => ((unsigned(a.0), unsigned(a.1)), (unsigned(b.0), unsigned(b.1))),
        _ => (a, b),
    };
    let early = (reading == LtOneEarly && code == 14) || (reading == GeZeroEarly && code == 15);
    let late = (reading == LtZeroLate && code == 14) || (reading == GeOneLate && code == 15);
    match reading {
        LtUndecided => None,
        _ if a.1 < b.0 || (early && a.1 == b.0) => Some(true),
        _ if a.0 > b.1 || (!late && a.0 == b.1) => Some(false),
        _ => None,
    }
}

fn equal(reading: Reading, a: Ends, b: Ends) -> Option<bool> {
    let touch = a.1 == b.0 || b.1 == a.0;
    match reading {
        EqUndecided => None,
        EqualRanges if a == b => Some(true),
        TouchingApart if touch && !(single(a) && single(b)) => Some(false),
        _ if a.1 < b.0 || b.1 < a.0 => Some(false),
        _ => None,
    }
}

fn comparison(reading: Reading, code: u32, a: Ends, b: Ends) -> Ends {
    let holds = match code {
        12 => equal(reading, a, b),
        13 => equal(reading, a, b).map(|equal| !equal),
        14 => below(reading, code, a, b),
        15 => below(reading, code, a, b).map(|below| !below),
        16 if reading == LtuDecided => below(reading, 14, a, b),
        17 if reading == LtuDecided => below(reading, 15, a, b).map(|below| !below),
        _ => None,
    };
    match holds {
        Some(holds) => (holds.into(), holds.into()),
        None if reading == ComparedFull => FULL,
        None => (0, 1),
    }
}

/// How shifts are read.
fn of_shifts(reading: Reading) -> shifts::Reading {
    match reading {
        OfShifts(reading) => reading.at(Place::Bounds),
        _ => shifts::Reading::Right,
    }
}

/// The value of a code on single inputs.
fn value(reading: Reading, code: u32, [a, b, c]: [u32; 3]) -> u32 {
    match (Binary::from_code(code), Comparison::from_code(code)) {
        (Some(op), _) if is_shift(op) => shifted(of_shifts(reading), op, a, b),
        (Some(op), _) => op.apply(a, b),
        (_, Some(comparison)) => comparison.holds(a, b).into(),
        _ => match code {
            2 => a,
            11 => sign_extend(a),
            18 => a & !b,
            _ if a != 0 => b,
            _ => c,
        },
    }
}

/// Whether the exact rule is taken, from which of a, b and c are single.
fn is_exact(reading: Reading, code: u32, [a, b, c]: [bool; 3]) -> bool {
    let left_out: &[u32] = match reading {
        AndOrXorInexact => &[5, 6, 7],
        ShiftsInexact => &[8, 9, 10],
        AndNotInexact => &[18],
        LtuInexact => &[16, 17],
        SumsInexact => &[3, 4],
        SxInexact => &[11],
        EqInexact => &[12, 13],
        _ => &[],
    };
    let single = match code {
        2 | 11 => a,
        19 => a && b && c,
        3 | 4 if reading == ArrivalCounts => a && b && c,
        _ if reading == FirstSingle => a,
        _ => a && b,
    };
    single && !left_out.contains(&code)
}

fn rule(reading: Reading, code: u32, [a, b, c]: [Ends; 3]) -> Ends {
    match code {
        2 => a,
        3 | 4 => sum(reading, code, a, b),
        5 if reading == AndNarrow && a.0 >= 0 && b.0 >= 0 => (0, a.1.min(b.1)),
        8..=10 => Binary::from_code(code)
            .and_then(|op| shifts::range(of_shifts(reading), op, a, b))
            .unwrap_or(FULL),
        11 => extended(reading, a),
        12..=17 => comparison(reading, code, a, b),
        19 => choice(reading, a, b, c),
        _ => FULL,
    }
}

/// What a wire's words give; ends of registers and of earlier wires by their references.
fn wire(reading: Reading, words: &[u32], at: impl Fn(u32) -> Option<Ends>) -> Ends {
    let literal = (signed(words[1]), signed(words[1]));
    let code = words[0];
    match (code, reading) {
        (1, LiteralIsReference) => return at(words[1]).unwrap_or(literal),
        (1, SetFull) => return FULL,
        (1, _) => return literal,
        (20, InIsZero) => return (0, 0),
        (20, InIsHalf) => return HALF,
        (20, InKept) => return at(0).unwrap_or(FULL),
        (20, _) => return FULL,
        (4 | 12..=17, OneReference) if words[1] == words[2] => {
            let exact = signed(value(reading, code, [0; 3]));
            return (exact, exact);
        }
        _ => (),
    }
    let inputs = [1, 2, 3].map(|slot| at(words[slot]).unwrap_or(FULL));
    match is_exact(reading, code, inputs.map(single)) {
        true => {
            let exact = signed(value(reading, code, inputs.map(|(low, _)| word(low))));
            (exact, exact)
        }
        false => rule(reading, code, inputs),
    }
}

/// A call of the operation; whether the table is refused 10 is given.
pub struct Call<'a> {
    pub table: &'a [u32],
    pub table_refused: bool,
    pub lowest: &'a [u32],
    pub highest: &'a [u32],
    pub state: u32,
}

#[derive(Clone, Debug, PartialEq, Eq)]
pub struct Answered {
    pub number: u32,
    pub lowest: Vec<u32>,
    pub highest: Vec<u32>,
}

impl Call<'_> {
    fn unchanged(&self, number: u32) -> Answered {
        Answered { number, lowest: self.lowest.to_vec(), highest: self.highest.to_vec() }
    }

    fn short(&self, reading: Reading) -> bool {
        let (lowest, highest) = (self.lowest.len() < 16, self.highest.len() < 16);
        self.table.len() < MACHINE_WORDS
            || (lowest && reading != LowestNotShort)
            || (highest && reading != HighestNotShort)
    }

    fn past(&self, reading: Reading) -> bool {
        let states = self.table.first().copied().unwrap_or(0);
        match reading {
            NineAboveN => self.state > states,
            NineFrom64 => self.state >= 64,
            _ => self.state >= states,
        }
    }

    /// Whether some register's lowest is above its highest.
    fn reversed(&self, reading: Reading) -> bool {
        let used = self.table.get(1).copied().unwrap_or(0).min(16) as usize;
        let judged = match reading {
            NoThirteen => 0..0,
            ThirteenOfAll => 0..16,
            ThirteenOfFirst => 0..used.min(1),
            ThirteenNotOfLast => 0..used.saturating_sub(1),
            _ => 0..used,
        };
        let ends = self.lowest.iter().zip(self.highest).enumerate();
        let mut ends = ends.filter(|(register, _)| judged.contains(register));
        ends.any(|(_, (&low, &high))| match reading {
            ThirteenUnsigned => low > high,
            ThirteenWhereEqual => signed(low) >= signed(high),
            _ => signed(low) > signed(high),
        })
    }

    fn number(&self, reading: Reading) -> u32 {
        let seven = (7, self.short(reading));
        let ten = (10, self.table_refused);
        let nine = (9, self.past(reading));
        let thirteen = (13, self.reversed(reading));
        let order = match reading {
            ThirteenBeforeNine => [seven, ten, thirteen, nine],
            ThirteenBeforeTen => [seven, thirteen, ten, nine],
            ThirteenBeforeSeven => [thirteen, seven, ten, nine],
            NineBeforeTen => [seven, nine, ten, thirteen],
            _ => [seven, ten, nine, thirteen],
        };
        order.into_iter().find(|(_, applies)| *applies).map_or(0, |(number, _)| number)
    }

    /// The ends before the cycle; those of a word that is not there are full.
    fn start(&self) -> Vec<Ends> {
        let end = |buffer: &[u32], at: usize, none| buffer.get(at).map_or(none, |&one| signed(one));
        (0..16).map(|at| (end(self.lowest, at, LEAST), end(self.highest, at, MOST))).collect()
    }

    /// The ends of registers and wires by their references, and the record.
    fn worked_out(&self, reading: Reading) -> (Vec<Ends>, &[u32]) {
        let state = match reading {
            StateZero => 0,
            LastState => self.table[0] - 1,
            _ => self.state.min(63),
        };
        let record = &self.table[RECORDS_AT + state as usize * RECORD_WORDS..][..RECORD_WORDS];
        let mut all = self.start();
        let (first, count) = (record[0] as usize, record[1] as usize);
        let words = self.table.get(WIRES_AT + 4 * first..).unwrap_or(&[]);
        for words in words.chunks_exact(4).take(count) {
            let at = |reference: u32| all.get(reference as usize).copied();
            let next = wire(reading, words, at);
            all.push(next);
        }
        (all, record)
    }

    /// The code of each wire of the state, the ends of what it may read, and its own.
    pub fn wires(&self) -> Vec<(u32, [Ends; 3], Ends)> {
        let (all, record) = self.worked_out(Right);
        let first = WIRES_AT + 4 * record[0] as usize;
        let words = self.table[first..].chunks_exact(4).take(record[1] as usize);
        let at = |reference: u32| all.get(reference as usize).copied().unwrap_or(FULL);
        let wire = |(index, words): (usize, &[u32])| {
            (words[0], [1, 2, 3].map(|slot| at(words[slot])), all[16 + index])
        };
        words.enumerate().map(wire).collect()
    }

    fn written(&self, reading: Reading, number: u32) -> Answered {
        let mut answered = self.unchanged(number);
        let (mut all, record) = self.worked_out(reading);
        let before = self.start();
        let registers = if reading == AllSixteen { 16 } else { self.table[1] as usize };
        for register in 0..registers {
            let next = all.get(record[3 + register] as usize).copied().unwrap_or(FULL);
            let next = if reading == Joined { hull(next, before[register]) } else { next };
            if reading == InPlace {
                all[register] = next;
            }
            put(&mut answered.lowest, register, next.0);
            put(&mut answered.highest, register, next.1);
        }
        if reading == PastSixteen {
            (16..20).for_each(|at| put(&mut answered.lowest, at, 0));
            (16..20).for_each(|at| put(&mut answered.highest, at, 0));
        }
        answered
    }
}

fn put(buffer: &mut [u32], at: usize, value: i64) {
    if let Some(place) = buffer.get_mut(at) {
        *place = word(value);
    }
}

pub fn answer(reading: Reading, call: &Call) -> Answered {
    let number = call.number(reading);
    match (number, reading) {
        (0, _) => call.written(reading, 0),
        (9 | 13, WrittenOnRefusal) => call.written(reading, number),
        (13, TurnedOnThirteen) => {
            let mut answered = call.unchanged(number);
            let ends = answered.lowest.iter_mut().zip(&mut answered.highest);
            ends.filter(|(low, high)| signed(**low) > signed(**high))
                .for_each(|(low, high)| std::mem::swap(low, high));
            answered
        }
        _ => call.unchanged(number),
    }
}
