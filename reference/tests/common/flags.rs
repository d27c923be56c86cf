//! R-2 of paper 02 over traces of sums, and what wrong readings of it do otherwise.

use super::traces::{Event, Trace};
use reference::graph::Binary;
use reference::machine_table::{decode, MACHINE_WORDS, RECORDS_AT, RECORD_WORDS, WIRES_AT};

#[derive(Clone, Copy, Debug, PartialEq, Eq)]
pub enum Reading {
    Right,
    /// A carry or a borrow of the unsigned operands.
    Carry,
    SubAsAdd,
    AddAsSub,
    /// Sub as the sum with the negated word, which the least word's is not.
    SubOfNegated,
    /// Only a result that is not 0.
    NonzeroResult,
    /// The result's sign is not the first operand's.
    SignChanges,
    /// Only past the upper end.
    UpperEndOnly,
    /// Only past the lower end.
    LowerEndOnly,
    /// The ends themselves are over.
    EndsExcluded,
    /// The least number itself is over.
    LeastExcluded,
    AddOnly,
    SubOnly,
    /// Bits that shl loses count as well.
    ShiftsToo,
    /// The flag of the last block or cycle.
    LastStep,
    FirstStep,
    /// The last one's flag is not taken.
    NotTheLastStep,
    /// Raised again, it is cleared.
    Toggled,
    LostAtHalt,
    LostWhenSpent,
    LostWhenDry,
    /// The block or cycle that halts does not count.
    NotTheHaltingStep,
    /// The last sum of a block or cycle gives its flag.
    LastSum,
    FirstSum,
    /// Sums that nothing after the cycle depends on do not count.
    UsedOnly,
    /// Sums of blocks that are not arrived at count too.
    NotArrived,
    /// Counts where the arrival is 1.
    ArrivalIsOne,
    /// Counts where the arrival is odd.
    ArrivalIsOdd,
    ArrivalIsZero,
    /// A register as arrival is read after the cycle.
    ArrivalAfter,
    /// Counts where the arrival is a wire.
    WiresOnly,
}

use Reading::*;

pub const WRONG: [Reading; 30] = [
    Carry, SubAsAdd, AddAsSub, SubOfNegated, NonzeroResult, SignChanges, UpperEndOnly,
    LowerEndOnly, EndsExcluded, LeastExcluded, AddOnly, SubOnly, ShiftsToo, LastStep, FirstStep,
    NotTheLastStep, Toggled, LostAtHalt, LostWhenSpent, LostWhenDry, NotTheHaltingStep, LastSum,
    FirstSum, UsedOnly, NotArrived, ArrivalIsOne, ArrivalIsOdd, ArrivalIsZero, ArrivalAfter,
    WiresOnly,
];

impl Reading {
    /// Whether it is about arrivals, which only a machine has.
    pub fn of_machines(self) -> bool {
        let arrivals = [
            UsedOnly, NotArrived, ArrivalIsOne, ArrivalIsOdd, ArrivalIsZero, ArrivalAfter,
            WiresOnly,
        ];
        arrivals.contains(&self)
    }
}

/// The exact result, as a number.
fn result(op: Binary, x: u32, y: u32) -> i128 {
    let (x, y) = (i128::from(x as i32), i128::from(y as i32));
    match op {
        Binary::Sub => x - y,
        _ => x + y,
    }
}

fn outside(result: i128) -> bool {
    i32::try_from(result).is_err()
}

fn goes_over(reading: Reading, event: &Event) -> bool {
    let Event { op, x, y, .. } = *event;
    if op == Binary::Shl && reading == ShiftsToo {
        return x != 0 && x.leading_zeros() < y;
    }
    if !matches!(op, Binary::Add | Binary::Sub) {
        return false;
    }
    let exact = result(op, x, y);
    let (most, least) = (i128::from(i32::MAX), i128::from(i32::MIN));
    match reading {
        Carry if op == Binary::Add => x.checked_add(y).is_none(),
        Carry => x < y,
        SubAsAdd => outside(result(Binary::Add, x, y)),
        AddAsSub => outside(result(Binary::Sub, x, y)),
        SubOfNegated if op == Binary::Sub => outside(result(Binary::Add, x, y.wrapping_neg())),
        NonzeroResult => outside(exact) && exact as u32 != 0,
        SignChanges => ((exact as u32) ^ x) >> 31 == 1,
        UpperEndOnly => exact > most,
        LowerEndOnly => exact < least,
        EndsExcluded => exact >= most || exact <= least,
        LeastExcluded => exact > most || exact <= least,
        AddOnly => outside(exact) && op == Binary::Add,
        SubOnly => outside(exact) && op == Binary::Sub,
        _ => outside(exact),
    }
}

fn is_arrived(reading: Reading, event: &Event) -> bool {
    match reading {
        _ if !matches!(event.op, Binary::Add | Binary::Sub) => true,
        NotArrived => true,
        ArrivalIsOne => event.arrival == 1,
        ArrivalIsOdd => event.arrival % 2 == 1,
        ArrivalIsZero => event.arrival == 0,
        ArrivalAfter => event.arrival_after != 0,
        WiresOnly => event.arrival != 0 && event.arrival_is_wire,
        UsedOnly => event.arrival != 0 && event.used,
        _ => event.arrival != 0,
    }
}

/// Whether one block or cycle raises the flag.
fn raises(reading: Reading, events: &[Event]) -> bool {
    let counts = |event: &Event| goes_over(reading, event) && is_arrived(reading, event);
    let mut sums = events.iter().filter(|event| event.op.is_sum());
    match reading {
        LastSum => sums.next_back().is_some_and(counts),
        FirstSum => sums.next().is_some_and(counts),
        _ => events.iter().any(counts),
    }
}

/// The flag that a run answers.
pub fn flag(reading: Reading, trace: &Trace) -> bool {
    if reading.of_machines() && !trace.of_machine {
        return flag(Right, trace);
    }
    let mut steps = trace.steps.iter().map(|events| raises(reading, events));
    let last = trace.steps.len().saturating_sub(1);
    match (reading, trace.outcome) {
        (LastStep, _) => steps.next_back() == Some(true),
        (FirstStep, _) => steps.next() == Some(true),
        (NotTheLastStep, _) | (NotTheHaltingStep, 1) => steps.take(last).any(|raised| raised),
        (Toggled, _) => steps.filter(|&raised| raised).count() % 2 == 1,
        (LostWhenSpent, 0) | (LostAtHalt, 1) | (LostWhenDry, 2) => false,
        _ => steps.any(|raised| raised),
    }
}

/// Wrong readings of which tables are admitted.
#[derive(Clone, Copy, Debug, PartialEq, Eq)]
pub enum Admission {
    /// Word c of a sum is any word.
    Unchecked,
    /// The wire itself is one it may name.
    ItselfToo,
    /// Any wire of the state is one it may name, as for the next references.
    AnyWire,
    /// Registers from R up are ones it may name.
    AllRegisters,
    /// Only wires are ones it may name.
    WiresAlone,
    /// Only 0, as before, or a wire.
    NoRegisters,
    /// Word c is checked whatever the code.
    AllCodes,
    /// Word c is checked where a and b are read.
    AllBinary,
    /// Only that of add is checked.
    AddChecked,
    /// Only that of sub is checked.
    SubChecked,
}

pub const WRONG_ADMISSIONS: [Admission; 10] = [
    Admission::Unchecked,
    Admission::ItselfToo,
    Admission::AnyWire,
    Admission::AllRegisters,
    Admission::WiresAlone,
    Admission::NoRegisters,
    Admission::AllCodes,
    Admission::AllBinary,
    Admission::AddChecked,
    Admission::SubChecked,
];

/// A wire of a state below N, as its table holds it.
#[derive(Clone, Copy, Debug)]
pub struct Slot {
    pub code: u32,
    /// Word c, and where it stands.
    pub c: u32,
    pub at: usize,
    /// The wire's number in its state, and how many wires that has.
    pub wire: u32,
    pub wires: u32,
}

impl Slot {
    pub fn is_sum(&self) -> bool {
        matches!(self.code, 3 | 4)
    }

    pub fn is_reference(&self, registers: u32) -> bool {
        self.c < registers || (16..16 + self.wire).contains(&self.c)
    }
}

/// The wires of a whole table whose N and ranges are right; else none.
pub fn slots(table: &[u32]) -> Vec<Slot> {
    let mut slots = Vec::new();
    if table.len() < MACHINE_WORDS || table[0] > 64 {
        return slots;
    }
    for state in 0..table[0] as usize {
        let at = RECORDS_AT + state * RECORD_WORDS;
        let (first, wires) = (table[at], table[at + 1]);
        if u64::from(first) + u64::from(wires) > 3_072 {
            return Vec::new();
        }
        for wire in 0..wires {
            let at = WIRES_AT + 4 * (first + wire) as usize;
            let (code, c) = (table[at], table[at + 3]);
            slots.push(Slot { code, c, at: at + 3, wire, wires });
        }
    }
    slots
}

/// Whether a reading that admits more lets word c of a sum pass.
fn passes(reading: Admission, slot: &Slot) -> bool {
    match reading {
        Admission::Unchecked => true,
        Admission::ItselfToo => slot.c == 16 + slot.wire,
        Admission::AnyWire => (16..16 + slot.wires).contains(&slot.c),
        Admission::AllRegisters => slot.c < 16,
        Admission::AddChecked => slot.code == 4,
        Admission::SubChecked => slot.code == 3,
        _ => false,
    }
}

/// Whether a reading that admits less refuses a word c.
fn refuses(reading: Admission, slot: &Slot, registers: u32) -> bool {
    match reading {
        Admission::WiresAlone => slot.is_sum() && slot.c < 16,
        Admission::NoRegisters => slot.is_sum() && (1..16).contains(&slot.c),
        Admission::AllCodes => !slot.is_reference(registers),
        Admission::AllBinary => {
            !matches!(slot.code, 1 | 2 | 11 | 20) && !slot.is_reference(registers)
        }
        _ => false,
    }
}

/// Whether a table of full length is admitted by a wrong reading.
pub fn admitted(reading: Admission, table: &[u32]) -> bool {
    let (slots, mut mended) = (slots(table), table.to_vec());
    for slot in slots.iter().filter(|slot| slot.is_sum() && passes(reading, slot)) {
        mended[slot.at] = 0;
    }
    decode(&mended).is_some() && !slots.iter().any(|slot| refuses(reading, slot, table[1]))
}
