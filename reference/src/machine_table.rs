//! A machine as its table of 13,762 words, and any such table checked.

use crate::graph::{Binary, Comparison, COPY, IN, MAX_BLOCKS, MAX_REGISTERS, SET, SIGN_EXTEND};
use crate::grouping::Grouping;
use crate::machine::{Machine, Source, State, Wire, MAX_STATES, MAX_WIRES};
use std::collections::{BTreeMap, BTreeSet};

pub const MACHINE_WORDS: usize = ARRIVALS_AT + MAX_BLOCKS;
pub const STARTERS_AT: usize = 2;
pub const BLOCK_STATES_AT: usize = STARTERS_AT + MAX_STATES;
pub const RECORDS_AT: usize = BLOCK_STATES_AT + MAX_BLOCKS;
pub const NEXT_REGISTERS_AT: usize = 3;
/// Where the touch word stands in a record: it is the last one.
pub const TOUCH_AT: usize = NEXT_REGISTERS_AT + MAX_REGISTERS;
pub const RECORD_WORDS: usize = TOUCH_AT + 1;
pub const WIRES_AT: usize = RECORDS_AT + MAX_STATES * RECORD_WORDS;
pub const WIRE_WORDS: usize = 4;
/// Where the references of the blocks' arrivals stand, one for each of 64 blocks.
pub const ARRIVALS_AT: usize = WIRES_AT + MAX_WIRES * WIRE_WORDS;

pub const AND_NOT: u32 = 18;
pub const CHOOSE: u32 = 19;
const NO_STATE: u32 = 255;
const FIRST_WIRE_REFERENCE: usize = 16;

fn reference(source: Source) -> u32 {
    match source {
        Source::Register(index) => index as u32,
        Source::Wire(index) => (FIRST_WIRE_REFERENCE + index) as u32,
    }
}

fn wire_words(wire: Wire) -> [u32; WIRE_WORDS] {
    let word = reference;
    match wire {
        Wire::Set(literal) => [SET, literal, 0, 0],
        Wire::In => [IN, 0, 0, 0],
        Wire::Copy(a) => [COPY, word(a), 0, 0],
        Wire::SignExtend(a) => [SIGN_EXTEND, word(a), 0, 0],
        Wire::Binary(op, a, b) => [op.code(), word(a), word(b), 0],
        Wire::Sum(op, a, b, arrival) => [op.code(), word(a), word(b), word(arrival)],
        Wire::Compare(comparison, a, b) => [comparison.code(), word(a), word(b), 0],
        Wire::AndNot(a, b) => [AND_NOT, word(a), word(b), 0],
        Wire::Choose(a, b, c) => [CHOOSE, word(a), word(b), word(c)],
    }
}

/// One bit a register that the state touches.
fn touch_word(state: &State) -> u32 {
    let touched = (0..state.next_registers.len()).filter(|&register| state.touches(register));
    touched.map(|register| 1 << register).sum()
}

fn record_words(state: &State) -> Vec<u32> {
    let mut words = vec![state.first as u32, state.wires.len() as u32];
    words.push(reference(state.next_state));
    words.extend(state.next_registers.iter().map(|&source| reference(source)));
    words.resize(TOUCH_AT, 0);
    words.push(touch_word(state));
    words
}

/// Appends the part and pads it to its place in the table.
fn append(words: &mut Vec<u32>, part: impl IntoIterator<Item = u32>, length: usize, pad: u32) {
    let end = words.len() + length;
    words.extend(part);
    words.resize(end, pad);
}

/// The reference of a block's arrival, 0 for an absent block.
fn arrival_word(grouping: &Grouping, machine: &Machine, block: usize) -> u32 {
    let state = grouping.state_of.get(&block);
    state.map_or(0, |&state| reference(Source::Wire(machine.states[state].arrivals[&block])))
}

pub fn encode(grouping: &Grouping, machine: &Machine) -> Vec<u32> {
    let mut words = vec![machine.states.len() as u32, machine.registers as u32];
    let starters = grouping.starters.iter().map(|&block| block as u32);
    append(&mut words, starters, MAX_STATES, 0);
    let state_of = |block| grouping.state_of.get(&block).map_or(NO_STATE, |&state| state as u32);
    append(&mut words, (0..MAX_BLOCKS).map(state_of), MAX_BLOCKS, NO_STATE);
    for state in &machine.states {
        append(&mut words, record_words(state), RECORD_WORDS, 0);
    }
    words.resize(WIRES_AT, 0);
    let wires = machine.states.iter().flat_map(|state| &state.wires);
    words.extend(wires.flat_map(|&wire| wire_words(wire)));
    assert!(words.len() <= ARRIVALS_AT);
    words.resize(ARRIVALS_AT, 0);
    words.extend((0..MAX_BLOCKS).map(|block| arrival_word(grouping, machine, block)));
    words
}

/// What a reference may name: registers below one limit, wires below another.
#[derive(Clone, Copy)]
struct Scope {
    registers: usize,
    wires: usize,
}

impl Scope {
    fn source(self, word: u32) -> Option<Source> {
        let index = usize::try_from(word).ok()?;
        if index < self.registers {
            return Some(Source::Register(index));
        }
        let wire = index.checked_sub(FIRST_WIRE_REFERENCE)?;
        (wire < self.wires).then_some(Source::Wire(wire))
    }

    fn wire(self, words: &[u32]) -> Option<Wire> {
        let a = || self.source(words[1]);
        let b = || self.source(words[2]);
        let c = || self.source(words[3]);
        match words[0] {
            SET => Some(Wire::Set(words[1])),
            IN => Some(Wire::In),
            COPY => Some(Wire::Copy(a()?)),
            SIGN_EXTEND => Some(Wire::SignExtend(a()?)),
            AND_NOT => Some(Wire::AndNot(a()?, b()?)),
            CHOOSE => Some(Wire::Choose(a()?, b()?, c()?)),
            code => match (Binary::from_code(code), Comparison::from_code(code)) {
                (Some(op), _) if op.is_sum() => Some(Wire::Sum(op, a()?, b()?, c()?)),
                (Some(op), _) => Some(Wire::Binary(op, a()?, b()?)),
                (_, Some(comparison)) => Some(Wire::Compare(comparison, a()?, b()?)),
                (None, None) => None,
            },
        }
    }
}

/// Whether each of its 32 bits says what the state's references do.
fn is_touch_word(word: u32, state: &State) -> bool {
    (0..32).all(|bit| ((word >> bit) & 1 == 1) == state.touches(bit))
}

fn decode_state(table: &[u32], state: usize, registers: usize) -> Option<State> {
    let record = &table[RECORDS_AT + state * RECORD_WORDS..][..RECORD_WORDS];
    // In 64 bits the sum of two words does not wrap.
    if u64::from(record[0]) + u64::from(record[1]) > MAX_WIRES as u64 {
        return None;
    }
    let (first, count) = (record[0] as usize, record[1] as usize);
    let words = &table[WIRES_AT + first * WIRE_WORDS..][..count * WIRE_WORDS];
    let wires: Option<Vec<Wire>> = (words.chunks(WIRE_WORDS).enumerate())
        .map(|(earlier, wire)| Scope { registers, wires: earlier }.wire(wire))
        .collect();
    let all = Scope { registers, wires: count };
    let next = &record[NEXT_REGISTERS_AT..][..registers];
    let next_registers: Option<Vec<Source>> = next.iter().map(|&word| all.source(word)).collect();
    let state = State {
        first,
        wires: wires?,
        next_state: all.source(record[2])?,
        next_registers: next_registers?,
        arrivals: BTreeMap::new(),
    };
    is_touch_word(record[TOUCH_AT], &state).then_some(state)
}

/// Whether every wire belongs to one state at most.
fn wires_are_apart(states: &[State]) -> bool {
    let mut owned = BTreeSet::new();
    let ranges = states.iter().map(|state| state.first..state.first + state.wires.len());
    ranges.flatten().all(|wire| owned.insert(wire))
}

/// Adds the arrival of a block to its state, as the block's two words say; None where they are wrong:
/// a state that is none, a reference that is no wire of it, or one of an absent block.
fn decode_block(table: &[u32], block: usize, states: &mut [State]) -> Option<()> {
    let (state, reference) = (table[BLOCK_STATES_AT + block], table[ARRIVALS_AT + block]);
    if state == NO_STATE {
        return (reference == 0).then_some(());
    }
    let state = states.get_mut(usize::try_from(state).ok()?)?;
    let wires = Scope { registers: 0, wires: state.wires.len() };
    if let Source::Wire(wire) = wires.source(reference)? {
        state.arrivals.insert(block, wire);
    }
    Some(())
}

/// The machine a table holds, where it is not refused 10.
pub fn decode(table: &[u32]) -> Option<Machine> {
    let table = table.get(..MACHINE_WORDS)?;
    let states = usize::try_from(table[0]).ok()?;
    let registers = usize::try_from(table[1]).ok()?;
    if !(1..=MAX_STATES).contains(&states) || !(1..=MAX_REGISTERS).contains(&registers) {
        return None;
    }
    let list: Option<Vec<State>> =
        (0..states).map(|state| decode_state(table, state, registers)).collect();
    let mut machine = Machine { registers, states: list? };
    (0..MAX_BLOCKS).try_for_each(|block| decode_block(table, block, &mut machine.states))?;
    wires_are_apart(&machine.states).then_some(machine)
}
