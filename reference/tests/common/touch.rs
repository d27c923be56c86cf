//! R-4 of paper 02 over the words of machine tables, and what wrong readings of it do otherwise.

use reference::case::Asked;
use reference::machine_table::{decode, MACHINE_WORDS, RECORDS_AT, RECORD_WORDS, WIRES_AT};

const TOUCH: usize = 19;

#[derive(Clone, Copy, Debug, PartialEq, Eq)]
pub enum Reading {
    Right,
    // What a bit says.
    /// Next references from R up have bits too.
    AllSixteen,
    /// Only a wire touches, another register does not.
    WiresAlone,
    /// A choice of the register where it is taken and where it is not keeps it.
    EqualChoices,
    /// Only the next reference to a wire of an instruction touches, a choice does not.
    ChoicesKeep,
    /// A set bit says that the register is kept.
    Kept,
    /// Register 0 has the highest of the 32 bits.
    ReversedWord,
    /// Register 0 has bit 15.
    ReversedHalf,
    /// Register 0 has bit R - 1.
    ReversedRegisters,
    /// The next state has bit 0, and register r bit r + 1.
    BehindTheState,
    // Where the word stands, and in which records.
    /// It is the first of a record.
    FirstWord,
    /// Records of zeros from N up have the word that their references ask for.
    UnusedWritten,
    // What 10 covers.
    Unchecked,
    /// Only bits below R have to be right.
    BelowRChecked,
    /// Only the low 16 bits have to be right.
    LowHalfChecked,
    /// Only the first state's has to be right.
    FirstStateChecked,
    /// All states but the last.
    LastStateUnchecked,
    /// A bit too many is no fault, as the state may change the register.
    MoreAllowed,
    /// A bit too few is no fault.
    FewerAllowed,
    /// A word has to be right or 0, as in a table from before.
    ZeroAllowed,
    /// Records from N up are checked too.
    UnusedChecked,
    // The question about a state and a register.
    RegisterModulo32,
    RegisterModulo16,
    /// Registers from R to 15 are answered by their references.
    RegisterBelow16,
    /// A register not below R is refused 9.
    RegisterRefused,
    NineBeforeTen,
    NoTen,
    /// A state not below N touches nothing.
    NoNine,
    /// 9 is for states not below 64.
    StateBelow64,
    /// 9 is for states above N.
    StateUpToN,
    // The search.
    LastState,
    FromTheSecond,
    NotTheLast,
    /// Records from N up are searched too.
    AllRecords,
    NoneIsN,
    NoneIs0,
    NoneIs64,
    NoneIsRefused,
}

use Reading::*;

pub const WRONG: [Reading; 37] = [
    AllSixteen, WiresAlone, EqualChoices, ChoicesKeep, Kept, ReversedWord, ReversedHalf,
    ReversedRegisters, BehindTheState, FirstWord, UnusedWritten, Unchecked, BelowRChecked,
    LowHalfChecked, FirstStateChecked, LastStateUnchecked, MoreAllowed, FewerAllowed, ZeroAllowed,
    UnusedChecked, RegisterModulo32, RegisterModulo16, RegisterBelow16, RegisterRefused,
    NineBeforeTen, NoTen, NoNine, StateBelow64, StateUpToN, LastState, FromTheSecond, NotTheLast,
    AllRecords, NoneIsN, NoneIs0, NoneIs64, NoneIsRefused,
];

pub fn touch_at(state: usize) -> usize {
    RECORDS_AT + state * RECORD_WORDS + TOUCH
}

/// The next reference of a register, of any of the 16.
pub fn reference(table: &[u32], state: usize, register: usize) -> u32 {
    table[RECORDS_AT + state * RECORD_WORDS + 3 + register]
}

/// Whether N and R are in their limits, so that bits can be told.
fn counted(table: &[u32]) -> bool {
    (1..=64).contains(&table[0]) && (1..=16).contains(&table[1])
}

/// The wire that a reference of a state names, where the table has one there.
fn wire(table: &[u32], state: usize, reference: u32) -> Option<&[u32]> {
    let first = table[RECORDS_AT + state * RECORD_WORDS] as usize;
    let wire = first.checked_add(reference.checked_sub(16)? as usize)?;
    table.get(WIRES_AT + 4 * wire..)?.get(..4)
}

/// What a reference is where equal choices are left out; wires choose between earlier ones.
fn chosen(table: &[u32], state: usize, reference: u32) -> u32 {
    let count = reference.saturating_sub(15).min(3_072);
    let mut all: Vec<u32> = (0..16 + count).collect();
    for at in 16..16 + count {
        if let Some(&[19, _, b, c]) = wire(table, state, at) {
            let earlier = |one: u32| (one < at).then(|| all[one as usize]);
            let equal = earlier(b).filter(|_| earlier(b) == earlier(c));
            all[at as usize] = equal.unwrap_or(at);
        }
    }
    all.get(reference as usize).copied().unwrap_or(reference)
}

fn says(reading: Reading, table: &[u32], state: usize, register: usize) -> bool {
    let (own, next) = (register as u32, reference(table, state, register));
    let below = own < table[1];
    match reading {
        AllSixteen | RegisterBelow16 => next != own,
        WiresAlone => below && next >= 16,
        EqualChoices => below && chosen(table, state, next) != own,
        ChoicesKeep => {
            let is_choice = wire(table, state, next).is_some_and(|words| words[0] == 19);
            below && next != own && !is_choice
        }
        Kept => below && next == own,
        _ => below && next != own,
    }
}

fn bit(reading: Reading, table: &[u32], register: usize) -> usize {
    match reading {
        ReversedWord => 31 - register,
        ReversedHalf => 15 - register,
        ReversedRegisters => (table[1] as usize - 1).saturating_sub(register),
        BehindTheState => register + 1,
        _ => register,
    }
}

/// The touch word that a reading asks for.
pub fn touch_word(reading: Reading, table: &[u32], state: usize) -> u32 {
    let reading = if reading == RegisterBelow16 { Right } else { reading };
    let set = (0..16).filter(|&register| says(reading, table, state, register));
    let word = set.fold(0, |word, register| word | 1 << bit(reading, table, register));
    if reading == BehindTheState {
        word | 1
    } else {
        word
    }
}

/// Makes the touch words of states below N right.
pub fn mend(table: &mut [u32]) {
    if counted(table) {
        (0..table[0] as usize)
            .for_each(|state| table[touch_at(state)] = touch_word(Right, table, state));
    }
}

fn passes(reading: Reading, table: &[u32], state: usize) -> bool {
    let (word, right) = (table[touch_at(state)], touch_word(reading, table, state));
    let wrong = word ^ right;
    match reading {
        Unchecked | NoTen => true,
        BelowRChecked => wrong & ((1 << table[1]) - 1) == 0,
        LowHalfChecked => wrong & 65_535 == 0,
        FirstStateChecked => wrong == 0 || state > 0,
        LastStateUnchecked => wrong == 0 || state + 1 == table[0] as usize,
        MoreAllowed => right & !word == 0,
        FewerAllowed => word & !right == 0,
        ZeroAllowed => wrong == 0 || word == 0,
        _ => wrong == 0,
    }
}

/// Whether a table is whole and admitted once its touch words are right.
pub fn right_otherwise(table: &[u32]) -> bool {
    let mut otherwise = table.to_vec();
    if table.len() >= MACHINE_WORDS {
        mend(&mut otherwise);
    }
    decode(&otherwise).is_some()
}

/// A table with what is wrong besides its touch words.
pub struct Tried<'a> {
    pub table: &'a [u32],
    pub right_otherwise: bool,
}

impl Tried<'_> {
    fn of(table: &[u32]) -> Tried<'_> {
        Tried { table, right_otherwise: right_otherwise(table) }
    }

    /// Whether a whole table is refused 10.
    fn is_refused(&self, reading: Reading) -> bool {
        let states = if reading == UnusedChecked { 64 } else { self.table[0] as usize };
        let passes = |state| passes(reading, self.table, state);
        !self.right_otherwise || !(0..states).all(passes)
    }
}

/// Number and touched, number and state.
pub type Answers = [(u32, u32); 2];

/// The register that is looked at, where it is one that a state may touch.
fn looked_at(reading: Reading, table: &[u32], register: u32) -> Option<usize> {
    let below = |limit: u32| Some(register).filter(|&register| register < limit);
    let own = match reading {
        RegisterModulo32 => Some(register % 32).filter(|&register| register < table[1]),
        RegisterModulo16 => Some(register % 16).filter(|&register| register < table[1]),
        RegisterBelow16 => below(16),
        _ => below(table[1]),
    };
    own.map(|register| register as usize)
}

fn touched(reading: Reading, table: &[u32], state: usize, register: Option<usize>) -> bool {
    register.is_some_and(|register| match reading {
        // What a wrong word says, as nothing else was looked at.
        Unchecked | NoTen => (table[touch_at(state)] >> register) & 1 == 1,
        Kept => !says(Kept, table, state, register),
        _ => says(reading, table, state, register),
    })
}

fn of_state(reading: Reading, tried: &Tried, asked: Asked) -> (u32, u32) {
    let (table, Asked { state, register }) = (tried.table, asked);
    let past = match reading {
        NoNine => false,
        StateBelow64 => state >= 64,
        StateUpToN => state > table[0],
        _ => state >= table[0],
    };
    let register = looked_at(reading, table, register);
    match tried.is_refused(reading) {
        _ if past && reading == NineBeforeTen => (9, 0),
        true if reading != NoTen => (10, 0),
        _ if past => (9, 0),
        _ if register.is_none() && reading == RegisterRefused => (9, 0),
        _ => (0, (state < 64 && touched(reading, table, state as usize, register)).into()),
    }
}

fn of_search(reading: Reading, tried: &Tried, register: u32) -> (u32, u32) {
    let table = tried.table;
    if reading != NoTen && tried.is_refused(reading) {
        return (10, 0);
    }
    let states = table[0].min(64) as usize;
    let register = looked_at(reading, table, register);
    let mut all = (0..states).filter(|&state| touched(reading, table, state, register));
    let found = match reading {
        LastState => all.next_back(),
        FromTheSecond => all.find(|&state| state > 0),
        NotTheLast => all.find(|&state| state + 1 < states),
        AllRecords => (0..64).find(|&state| touched(reading, table, state, register)),
        _ => all.next(),
    };
    match (found, reading) {
        (Some(state), _) => (0, state as u32),
        (None, NoneIsN) => (0, table[0]),
        (None, NoneIs0) => (0, 0),
        (None, NoneIs64) => (0, 64),
        (None, NoneIsRefused) => (9, 0),
        (None, _) => (0, 255),
    }
}

/// A record whose touch word is the first, as one whose touch word is the last.
fn rotated(table: &[u32]) -> Vec<u32> {
    let mut table = table.to_vec();
    let records = &mut table[RECORDS_AT..WIRES_AT];
    records.chunks_mut(RECORD_WORDS).for_each(|record| record.rotate_left(1));
    table
}

pub fn answers(reading: Reading, tried: &Tried, asked: Asked) -> Answers {
    let table = tried.table;
    if table.len() < MACHINE_WORDS {
        return [(7, 0), (7, 0)];
    }
    if reading == FirstWord {
        return answers(Right, &Tried::of(&rotated(table)), asked);
    }
    if !counted(table) && reading != NineBeforeTen {
        return [(10, 0), (10, 0)];
    }
    if !counted(table) {
        return [(if asked.state >= table[0] { 9 } else { 10 }, 0), (10, 0)];
    }
    [of_state(reading, tried, asked), of_search(reading, tried, asked.register)]
}

/// Whether a reading's synthesis makes another table than this one, which is right.
pub fn makes_another(reading: Reading, table: &[u32]) -> bool {
    let states = table[0] as usize;
    match reading {
        FirstWord => true,
        UnusedWritten => {
            (states..64).any(|state| touch_word(Right, table, state) != table[touch_at(state)])
        }
        _ => (0..states).any(|state| touch_word(reading, table, state) != table[touch_at(state)]),
    }
}
