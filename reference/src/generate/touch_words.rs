//! The touch words of a patched machine table made right.

use super::machine_damage::{patch, record};
use crate::answer;
use crate::case::{Patch, MAX_PATCHES};
use crate::machine_table::{MACHINE_WORDS, NEXT_REGISTERS_AT, TOUCH_AT};

/// The touch word that a state's references ask for, whatever they are.
pub fn touch_word(table: &[u32], state: usize, registers: usize) -> u32 {
    let next = &table[record(state) + NEXT_REGISTERS_AT..][..registers];
    let touched = (0..).zip(next).filter(|&(register, &reference)| reference != register);
    touched.fold(0, |word, (register, _)| word | 1 << register)
}

/// Where the touch word of a state stands.
pub fn touch_at(state: usize) -> usize {
    record(state) + TOUCH_AT
}

/// For each state below N whose touch word is wrong, the patch that makes it right.
fn mends(table: &[u32]) -> Vec<Patch> {
    assert!(table.len() >= MACHINE_WORDS);
    let (states, registers) = (table[0] as usize, table[1] as usize);
    if states > 64 || registers > 16 {
        return Vec::new();
    }
    let right = |state| patch(touch_at(state), touch_word(table, state, registers) as usize);
    (0..states).map(right).filter(|&(at, word)| table[at as usize] != word).collect()
}

/// The patches of a whole table, and behind them those that make its touch words right, where there
/// is room.
pub fn mended(words: &[u32], mut patches: Vec<Patch>) -> Vec<Patch> {
    let mut table = words.to_vec();
    answer::patch(&mut table, &patches);
    let mends = mends(&table);
    if patches.len() + mends.len() <= MAX_PATCHES {
        patches.extend(mends);
    }
    patches
}
