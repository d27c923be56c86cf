//! Which machine tables are admitted: the conditions of refusal 10.

use crate::block_count::blocks_fit;
use crate::touch::touch_word;
use crate::{BLOCKS, NEXT, RECORDS, RECORD_WORDS, REGISTERS, TOUCH, WIRES, WIRE_WORDS};

/// The record of state `k`.
#[inline]
pub fn record(table: &[u32], k: usize) -> &[u32] {
    &table[RECORDS + RECORD_WORDS * k..][..RECORD_WORDS]
}

/// The wires of a state, four words each.
#[inline]
pub fn wires<'a>(table: &'a [u32], record: &[u32]) -> &'a [u32] {
    &table[WIRE_WORDS + 4 * record[0] as usize..][..4 * record[1] as usize]
}

/// A register, or one of the first `n` wires.
#[inline]
fn is_reference(x: u32, registers: u32, n: u32) -> bool {
    x < registers || (x >= REGISTERS as u32 && x - (REGISTERS as u32) < n)
}

/// Code 20 sets `reads`.
fn wire_fits(wire: &[u32], registers: u32, n: u32, reads: &mut bool) -> bool {
    let fits = |x: u32| is_reference(x, registers, n);
    *reads |= wire[0] == 20;
    match wire[0] {
        1 | 20 => true,
        2 | 11 => fits(wire[1]),
        5..=10 | 12..=18 => fits(wire[1]) && fits(wire[2]),
        3 | 4 | 19 => fits(wire[1]) && fits(wire[2]) && fits(wire[3]),
        _ => false,
    }
}

fn state_fits(table: &[u32], k: usize, registers: u32, reads: &mut bool) -> bool {
    let record = record(table, k);
    let wires = wires(table, record).chunks_exact(4);
    let next = &record[2..NEXT + registers as usize];
    wires.zip(0..).all(|(wire, n)| wire_fits(wire, registers, n, reads))
        && next.iter().all(|&x| is_reference(x, registers, record[1]))
        && touch_word(&next[1..]) == record[TOUCH]
}

/// The first wire of state `k`, and the one past its last.
fn span(table: &[u32], k: usize) -> (u64, u64) {
    let record = record(table, k);
    (u64::from(record[0]), u64::from(record[0]) + u64::from(record[1]))
}

/// States without wires share none.
fn apart(x: (u64, u64), y: (u64, u64)) -> bool {
    x.0 == x.1 || y.0 == y.1 || x.1 <= y.0 || y.1 <= x.0
}

/// Each state begins where those before it have ended.
fn in_order(table: &[u32], states: usize) -> bool {
    let mut end = 0;
    (0..states).all(|k| {
        let (first, past) = span(table, k);
        let behind = end <= first;
        end = past;
        behind
    })
}

/// States in order are apart; else every two are looked at.
fn all_apart(table: &[u32], states: usize) -> bool {
    in_order(table, states)
        || (0..states).all(|k| (0..k).all(|j| apart(span(table, j), span(table, k))))
}

/// Whether an admitted table holds code 20; none for one that is not admitted. The table has at
/// least the words of a machine table.
pub fn admitted(table: &[u32]) -> Option<bool> {
    let (states, registers) = (table[0], table[1]);
    if !(1..=BLOCKS as u32).contains(&states) || !(1..=REGISTERS as u32).contains(&registers) {
        return None;
    }
    let (states, mut reads) = (states as usize, false);
    let fits = (0..states).all(|k| span(table, k).1 <= WIRES as u64)
        && all_apart(table, states)
        && (0..states).all(|k| state_fits(table, k, registers, &mut reads))
        && blocks_fit(table, states as u32);
    fits.then_some(reads)
}
