//! Which registers a state touches: its touch word, and the two questions that it answers.

use crate::machine_admission::{self, record};
use crate::TOUCH;
use gutkavu::operations::{FirstTouchingFields, TouchesFields};
use gutkavu::{MACHINE_WORDS, NONE};

/// One bit for each reference that is not the register itself.
#[inline]
pub fn touch_word(next: &[u32]) -> u32 {
    next.iter().zip(0..).fold(0, |word, (&x, register)| word | u32::from(x != register) << register)
}

/// In an admitted table no bit from R up is set, so a register past the bits is the same as one.
#[inline]
fn is_touched(table: &[u32], k: usize, register: u32) -> bool {
    register < 32 && (record(table, k)[TOUCH] >> register) & 1 == 1
}

/// The refusal 7 or 10, or 0.
#[inline]
fn checked(table: &[u32]) -> u32 {
    match table.len() < MACHINE_WORDS {
        true => 7,
        false if machine_admission::admitted(table).is_none() => 10,
        false => 0,
    }
}

pub fn touches(table: &[u32], state: u32, register: u32) -> TouchesFields {
    let number = match checked(table) {
        0 if state >= table[0] => 9,
        number => number,
    };
    let touched = number == 0 && is_touched(table, state as usize, register);
    TouchesFields { number, touched: touched.into() }
}

pub fn first_touching(table: &[u32], register: u32) -> FirstTouchingFields {
    let number = checked(table);
    if number != 0 {
        return FirstTouchingFields { number, state: 0 };
    }
    let first = (0..table[0]).find(|&k| is_touched(table, k as usize, register));
    FirstTouchingFields { number, state: first.unwrap_or(NONE) }
}
