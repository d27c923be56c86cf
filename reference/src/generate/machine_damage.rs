//! Patches on machine tables: refused ones, and ones that must be run.

use super::arrival_damage::{another_arrival, bad_arrival, no_arrivals};
use super::block_damage::wrong;
use super::block_words::{absent, state_at, words_of};
use super::mends::mended;
use super::touch_damage::one_bit;
use super::touch_words::touch_at;
use super::words;
use crate::case::{Patch, MAX_PATCHES};
use crate::graph::MAX_BLOCKS;
use crate::machine_table::{
    ARRIVALS_AT, BLOCK_STATES_AT, MACHINE_WORDS, RECORDS_AT, RECORD_WORDS, STARTERS_AT, WIRES_AT,
    WIRE_WORDS,
};
use crate::random::Random;

const MAX: u32 = u32::MAX;
const ALL_WIRES: usize = 3_072;
const FEW_BLOCKS: usize = 20;

/// A table that synthesis made, and where its parts stand.
pub struct Table<'a> {
    pub words: &'a [u32],
}

impl Table<'_> {
    pub fn states(&self) -> usize {
        self.words[0] as usize
    }

    pub fn registers(&self) -> usize {
        self.words[1] as usize
    }

    pub fn first(&self, state: usize) -> usize {
        self.words[record(state)] as usize
    }

    pub fn count(&self, state: usize) -> usize {
        self.words[record(state) + 1] as usize
    }

    /// The code of a wire, counted within its state.
    pub fn code(&self, state: usize, wire: usize) -> u32 {
        self.words[wire_at(self.first(state) + wire)]
    }

    /// The state of a block, if it is in one.
    pub fn owner(&self, block: usize) -> Option<usize> {
        let state = self.words[state_at(block)] as usize;
        (state < self.states()).then_some(state)
    }

    fn blocks_of(&self, state: usize) -> usize {
        (0..MAX_BLOCKS).filter(|&block| self.owner(block) == Some(state)).count()
    }

    /// A state with so few blocks that there is room to make each of them absent.
    fn state_of_few(&self, random: &mut Random) -> Option<usize> {
        let few = |&state: &usize| self.blocks_of(state) <= FEW_BLOCKS;
        let states: Vec<usize> = (0..self.states()).filter(few).collect();
        (!states.is_empty()).then(|| random.pick(&states))
    }

    fn end(&self) -> usize {
        let last = self.states() - 1;
        self.first(last) + self.count(last)
    }

    fn state(&self, random: &mut Random) -> usize {
        random.below(self.states())
    }

    /// A state, a wire of it counted within it, and the wire's first word.
    fn wire(&self, random: &mut Random) -> (usize, usize, usize) {
        let state = self.state(random);
        let wire = random.below(self.count(state));
        (state, wire, wire_at(self.first(state) + wire))
    }

    /// A wire of the state whose code is `set`, counted from the first wire.
    fn set_wire(&self, random: &mut Random, state: usize) -> usize {
        let all = self.first(state)..self.first(state) + self.count(state);
        let sets: Vec<usize> = all.filter(|&wire| self.words[wire_at(wire)] == 1).collect();
        random.pick(&sets)
    }
}

pub fn record(state: usize) -> usize {
    RECORDS_AT + state * RECORD_WORDS
}

pub fn wire_at(wire: usize) -> usize {
    WIRES_AT + wire * WIRE_WORDS
}

/// How many words after its code a code uses, literal included.
fn operands(code: u32) -> usize {
    match code {
        20 => 0,
        1 | 2 | 11 => 1,
        3 | 4 | 19 => 3,
        _ => 2,
    }
}

pub fn patch(at: usize, word: usize) -> Patch {
    (at as u32, word as u32)
}

/// All references of a record to registers, so that it needs no wires.
fn register_record(random: &mut Random, state: usize, registers: usize) -> Vec<Patch> {
    let slots = record(state) + 2..record(state) + 3 + registers;
    slots.map(|at| patch(at, random.below(registers))).collect()
}

pub type Damage = fn(&mut Random, &Table) -> Vec<Patch>;

fn state_count(random: &mut Random, _: &Table) -> Vec<Patch> {
    vec![(0, random.pick(&[0, 65, 66, 255, 256, 2_147_483_648, MAX]))]
}

fn register_count(random: &mut Random, _: &Table) -> Vec<Patch> {
    vec![(1, random.pick(&[0, 17, 18, 255, 65_537, MAX]))]
}

/// Sums above 3,072, those included that 32 bits would wrap.
fn wire_range(random: &mut Random, table: &Table) -> Vec<Patch> {
    let state = table.state(random);
    let (first, count) = (table.first(state) as u32, table.count(state) as u32);
    let choices = [
        (first, 3_073 - first),
        (3_073 - count, count),
        (MAX, 1),
        ((MAX - count).saturating_add(1), count),
        ((MAX - count).saturating_add(2), count),
        (first, MAX),
        (first + 1, MAX - first),
        (2_147_483_648, 2_147_483_648),
        (3_073, 0),
        (MAX, 0),
        (0, 3_073),
        (3_072, 1),
    ];
    let (first, count) = random.pick(&choices);
    vec![patch(record(state), first as usize), patch(record(state) + 1, count as usize)]
}

/// A state without wires whose first wire is past the last one; nothing else is wrong.
fn empty_past_the_end(random: &mut Random, table: &Table) -> Vec<Patch> {
    let any = table.state(random);
    let state = table.state_of_few(random).unwrap_or(any);
    let first = random.pick(&[3_073, 3_073, 3_074, 4_096, 65_536, 2_147_483_648, MAX]);
    let mut patches = vec![(record(state) as u32, first), patch(record(state) + 1, 0)];
    patches.extend(register_record(random, state, table.registers()));
    patches
}

/// A state of one wire that is also another's; nothing else is wrong.
fn sharing(random: &mut Random, table: &Table) -> Vec<Patch> {
    let other = table.state(random);
    let mut state = table.state(random);
    let mut patches = Vec::new();
    if state == other {
        state = table.states();
        if state == 64 {
            return wire_range(random, table);
        }
        patches.push(patch(0, state + 1));
    }
    patches.push(patch(record(state), table.set_wire(random, other)));
    patches.push(patch(record(state) + 1, 1));
    patches.extend(register_record(random, state, table.registers()));
    patches
}

/// A range moved by one, over its neighbour where it has one.
fn sliding(random: &mut Random, table: &Table) -> Vec<Patch> {
    let state = table.state(random);
    let first = table.first(state);
    let moved = random.pick(&[first.saturating_sub(1), first + 1, 0]);
    match random.below(3) {
        0 => vec![patch(record(state), moved)],
        1 => vec![patch(record(state) + 1, table.count(state) + 1)],
        _ => vec![patch(record(state) + 1, table.count(state) - 1)],
    }
}

pub fn unknown_code(random: &mut Random, table: &Table) -> Vec<Patch> {
    let (_, _, at) = table.wire(random);
    vec![(at as u32, random.pick(&[0, 21, 21, 22, 255, 276, 2_147_483_668, MAX]))]
}

/// An operand that is no register, this wire itself, or a later one.
fn bad_operand(random: &mut Random, table: &Table) -> Vec<Patch> {
    let mut chosen = table.wire(random);
    for _ in 0..8 {
        if table.words[chosen.2] == 1 {
            chosen = table.wire(random);
        }
    }
    let (state, wire, at) = chosen;
    let code = table.words[at];
    let (r, count) = (table.registers(), table.count(state));
    let later = [r, 15, 16 + wire, 17 + wire, 15 + count, 16 + count, 65_536, MAX as usize];
    let slot = at + random.between(1, operands(code));
    vec![patch(slot, random.pick(&later))]
}

fn bad_next(random: &mut Random, table: &Table) -> Vec<Patch> {
    let state = table.state(random);
    let slot = record(state) + 2 + random.between(0, table.registers());
    let (r, count) = (table.registers(), table.count(state));
    vec![patch(slot, random.pick(&[r, 15, 16 + count, 17 + count, 3_088, MAX as usize]))]
}

/// Fewer registers: references to the lost ones are refused, if there are any.
fn fewer_registers(random: &mut Random, table: &Table) -> Vec<Patch> {
    vec![patch(1, random.between(1, table.registers()))]
}

/// Another known code reads the words as they stand.
fn another_code(random: &mut Random, table: &Table) -> Vec<Patch> {
    let (_, _, at) = table.wire(random);
    vec![patch(at, random.between(1, 20))]
}

/// Kinds that are always refused, once their touch words and block words are right.
pub const REFUSED: [Damage; 8] = [
    state_count, register_count, wire_range, empty_past_the_end, empty_past_the_end, sharing,
    unknown_code, bad_arrival,
];

/// One of those that are refused, for any table whose N and R are right.
pub fn refused(random: &mut Random, table: &Table) -> Vec<Patch> {
    let kinds: [Damage; 11] = [
        state_count, state_count, register_count, register_count, wire_range, empty_past_the_end,
        bad_next, one_bit, wrong, wrong, wrong,
    ];
    random.pick(&kinds)(random, table)
}

/// Kinds that are mostly refused, as the words happen to fall.
const MOSTLY_REFUSED: [Damage; 6] =
    [bad_operand, bad_operand, bad_next, sliding, fewer_registers, another_code];

fn starters(random: &mut Random, _: &Table) -> Vec<Patch> {
    (0..3)
        .map(|_| patch(random.between(STARTERS_AT, BLOCK_STATES_AT - 1), random.word() as usize))
        .collect()
}

fn records_from_n(random: &mut Random, table: &Table) -> Vec<Patch> {
    let (from, to) = (record(table.states()), WIRES_AT - 1);
    let mut choose = |_| patch(random.between(from, to), random.word() as usize);
    if from > to {
        return Vec::new();
    }
    let mut patches: Vec<Patch> = (0..2).map(&mut choose).collect();
    patches.push(patch(from, MAX as usize));
    patches.push(patch(from + 1, 9));
    patches
}

fn next_from_r(random: &mut Random, table: &Table) -> Vec<Patch> {
    let r = table.registers();
    if r == 16 {
        return Vec::new();
    }
    let mut choose =
        |_| patch(record(table.state(random)) + 3 + random.between(r, 15), MAX as usize);
    (0..3).map(&mut choose).collect()
}

fn wires_of_no_state(random: &mut Random, table: &Table) -> Vec<Patch> {
    let free = wire_at(table.end());
    let mut patches = vec![patch(free, 77), patch(ARRIVALS_AT - 1, 5)];
    patches.push(patch(random.between(free, ARRIVALS_AT - 1), random.word() as usize));
    patches
}

fn unused_operands(random: &mut Random, table: &Table) -> Vec<Patch> {
    let mut patches = Vec::new();
    for _ in 0..6 {
        let (_, _, at) = table.wire(random);
        let used = operands(table.words[at]);
        patches.extend((used + 1..4).map(|slot| patch(at + slot, random.word() as usize)));
    }
    patches
}

/// A wire that gives the sampled word; its other words are not read, whatever they hold.
pub fn input_wire(random: &mut Random, table: &Table) -> Vec<Patch> {
    let (_, _, at) = table.wire(random);
    let mut patches = vec![patch(at, 20)];
    if random.percent(60) {
        patches.extend((1..4).map(|slot| patch(at + slot, random.word() as usize)));
    }
    patches
}

/// Another literal of some `set`: a next state not below N halts.
fn another_literal(random: &mut Random, table: &Table) -> Vec<Patch> {
    let state = table.state(random);
    let n = table.states();
    let choices = [n, n - 1, 0, 254, 255, 256, 65_536, MAX as usize, random.below(n)];
    let literal = random.pick(&choices);
    vec![patch(wire_at(table.set_wire(random, state)) + 1, literal)]
}

fn another_next(random: &mut Random, table: &Table) -> Vec<Patch> {
    let state = table.state(random);
    let r = table.registers();
    let slot = record(state) + 2 + random.between(0, r);
    let wire = 16 + random.below(table.count(state));
    let last = 15 + table.count(state);
    let register = random.below(r);
    vec![patch(slot, random.pick(&[register, r - 1, 16, wire, last]))]
}

fn another_operand(random: &mut Random, table: &Table) -> Vec<Patch> {
    let (_, wire, at) = table.wire(random);
    let slot = at + random.between(1, operands(table.words[at]));
    let earlier = if wire > 0 { 16 + random.below(wire) } else { 0 };
    let register = random.below(table.registers());
    vec![patch(slot, random.pick(&[register, earlier, 15 + wire]))]
}

/// More or fewer states; a record of zeros has no wires, and all its registers become register 0.
/// Only a few blocks lose their states.
fn another_n(random: &mut Random, table: &Table) -> Vec<Patch> {
    let n = table.states();
    let more = (n + 1).min(64);
    let any = random.between(n, 64);
    let chosen = random.pick(&[more, more, 64, (n - 1).max(1), 1, any]);
    let lost: usize = (chosen..n).map(|state| table.blocks_of(state)).sum();
    vec![patch(0, if lost > FEW_BLOCKS { more } else { chosen })]
}

/// The added ones become register 0, which every touch word says; with 64 states there is no room.
fn more_registers(random: &mut Random, table: &Table) -> Vec<Patch> {
    if table.states() == 64 {
        return another_literal(random, table);
    }
    let any = random.between(table.registers(), 16);
    vec![patch(1, random.pick(&[16, any]))]
}

/// A state moved so that first wire plus count is exactly 3,072.
fn moved_to_the_end(random: &mut Random, table: &Table) -> Vec<Patch> {
    let state = table.state(random);
    let (first, count) = (table.first(state), table.count(state));
    let to = ALL_WIRES - count;
    let old = &table.words[wire_at(first)..wire_at(first + count)];
    let wires = old.iter().enumerate().filter(|(_, &word)| word != 0);
    let mut patches = vec![patch(record(state), to)];
    patches.extend(wires.map(|(i, &word)| patch(wire_at(to) + i, word as usize)));
    if patches.len() > MAX_PATCHES || to < table.end() {
        if table.blocks_of(state) > FEW_BLOCKS {
            return another_literal(random, table);
        }
        patches = vec![patch(record(state), ALL_WIRES), patch(record(state) + 1, 0)];
        patches.extend(register_record(random, state, table.registers()));
    }
    patches
}

/// A state without wires inside, or at an end of, another's range; an added one if there is room.
fn empty_inside(random: &mut Random, table: &Table) -> Vec<Patch> {
    let other = table.state(random);
    let mut state = table.state_of_few(random).unwrap_or(other);
    let (first, count) = (table.first(other), table.count(other));
    let inside = first + random.below(count);
    let ends = [first, first + 1, first + count - 1, first + count, ALL_WIRES];
    let at = if random.percent(55) { inside } else { random.pick(&ends) };
    let mut patches = Vec::new();
    if state == other && table.states() < 64 {
        state = table.states();
        patches.push(patch(0, state + 1));
    }
    patches.extend([patch(record(state), at), patch(record(state) + 1, 0)]);
    patches.extend(register_record(random, state, table.registers()));
    patches
}

/// One more state on wires that no state has, right after the last or later.
fn added_state(random: &mut Random, table: &Table) -> Vec<Patch> {
    let state = table.states();
    if state == 64 || table.end() + 8 > ALL_WIRES {
        return Vec::new();
    }
    let first = random.pick(&[table.end(), table.end(), table.end() + 3, ALL_WIRES - 3]);
    let mut patches = vec![patch(0, state + 1), patch(record(state), first)];
    patches.push(patch(record(state) + 1, 3));
    patches.extend(register_record(random, state, table.registers()));
    patches.push(patch(record(state) + 2, random.pick(&[16, 17, 18])));
    patches.extend(free_wires(random, wire_at(first), 3, table.registers()));
    patches
}

/// Wires of any code whose references are right, written word by word.
fn free_wires(random: &mut Random, at: usize, count: usize, registers: usize) -> Vec<Patch> {
    let mut patches = Vec::new();
    for wire in 0..count {
        let any = random.between(1, 20);
        let code = random.pick(&[1, 1, any, any, any, 18, 19]);
        patches.push(patch(at + 4 * wire, code));
        for slot in 1..=operands(code as u32) {
            let reference = random.below(registers + wire);
            let reference =
                if reference < registers { reference } else { reference - registers + 16 };
            let any = words::word(random) as usize;
            let literal = random.pick(&[0, 1, 2, any]);
            patches.push(patch(at + 4 * wire + slot, if code == 1 { literal } else { reference }));
        }
    }
    patches
}

/// The first wires of a state replaced by any others, the rest given up, unless there are so many
/// blocks that there would be no room for other arrivals.
fn rewritten_state(random: &mut Random, table: &Table) -> Vec<Patch> {
    let state = table.state(random);
    let r = table.registers();
    let count = table.count(state).min(random.between(2, 9));
    let mut patches = Vec::new();
    if table.blocks_of(state) <= 7 {
        patches.push(patch(record(state) + 1, count));
    }
    patches.extend(free_wires(random, wire_at(table.first(state)), count, r));
    for slot in 2..3 + r {
        let reference = random.below(r + count);
        let reference = if reference < r { reference } else { reference - r + 16 };
        patches.push(patch(record(state) + slot, reference));
    }
    patches.truncate(MAX_PATCHES);
    patches
}

fn past_the_table(random: &mut Random, _: &Table) -> Vec<Patch> {
    (0..3).map(|_| patch(random.between(MACHINE_WORDS, 13_848), random.word() as usize)).collect()
}

/// Kinds that are never refused, once their touch words and block words are right.
pub const KEPT: [Damage; 29] = [
    another_arrival, no_arrivals, input_wire, input_wire, input_wire, starters, records_from_n,
    next_from_r, wires_of_no_state, unused_operands, another_literal, another_literal,
    another_next, another_operand, another_n, more_registers, moved_to_the_end, moved_to_the_end,
    empty_inside, empty_inside, empty_inside, empty_inside, empty_inside, added_state, added_state,
    rewritten_state, rewritten_state, rewritten_state, past_the_table,
];

/// Patches for a table that synthesis made. Where they change next references, states or their wires,
/// the touch words and block words are mostly made right again, so that the table is judged and run
/// by the rest of it.
pub fn patches(random: &mut Random, words: &[u32]) -> Vec<Patch> {
    let table = Table { words };
    let kinds: &[Damage] = match random.below(100) {
        0..=24 => &REFUSED,
        25..=47 => &MOSTLY_REFUSED,
        _ => &KEPT,
    };
    let mut patches = random.pick(kinds)(random, &table);
    if patches.is_empty() || random.percent(12) {
        patches.extend(random.pick(&KEPT)(random, &table));
    }
    if random.percent(94) {
        patches = mended(words, patches);
    }
    patches.truncate(MAX_PATCHES);
    patches
}

/// Blocks of a machine of states with so many wires: the first, some others and the last, each in a
/// state that has a wire, or absent.
fn bare_blocks(random: &mut Random, wires: &[usize]) -> Vec<Patch> {
    let some = random.between(1, 63);
    let mut blocks = vec![0];
    blocks.extend([some, 63].into_iter().filter(|_| random.percent(40)));
    let mut words = |block| {
        let state = random.below(wires.len());
        match wires[state] > 0 && random.percent(80) {
            true => words_of(block, state, 16 + random.below(wires[state])),
            false => absent(block),
        }
    };
    blocks.into_iter().flat_map(&mut words).collect()
}

/// Words in places that are not read.
fn unread_words(random: &mut Random, states: usize) -> Vec<Patch> {
    let starter = random.between(STARTERS_AT, BLOCK_STATES_AT - 1);
    let record = random.between(record(states), WIRES_AT - 1);
    let wire = random.between(wire_at(100), ARRIVALS_AT - 1);
    [starter, record, wire].map(|at| patch(at, random.word() as usize)).to_vec()
}

/// A small machine written by patches over one of a single block: every other word that is not of a
/// block must go unread.
pub fn bare_machine(random: &mut Random) -> Vec<Patch> {
    let (states, r) = (random.between(1, 3), random.between(1, 4));
    let mut patches = vec![patch(0, states), patch(1, r)];
    let (mut first, mut wires) = (random.below(20), Vec::new());
    for state in 0..states {
        let count = random.between(0, 3);
        wires.push(count);
        patches.push(patch(record(state), first));
        patches.push(patch(record(state) + 1, count));
        let mut touched = 0;
        for slot in 2..3 + r {
            let reference = random.below(r + count);
            let reference = if reference < r { reference } else { reference - r + 16 };
            patches.push(patch(record(state) + slot, reference));
            if slot > 2 && reference != slot - 3 {
                touched |= 1 << (slot - 3);
            }
        }
        patches.push(patch(touch_at(state), touched));
        patches.extend(free_wires(random, wire_at(first), count, r));
        first += count + random.below(3);
    }
    patches.extend(bare_blocks(random, &wires));
    patches.extend(unread_words(random, states));
    patches.truncate(MAX_PATCHES);
    patches
}
