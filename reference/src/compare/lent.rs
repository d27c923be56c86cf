//! A buffer lent to a library, with a guard on either side of it.

use std::fmt;
use std::hint::black_box;

/// Words or bytes of a guard.
const GUARD: usize = 64;

/// What a buffer holds, words or bytes, and what its guards hold.
pub trait Element: Copy + PartialEq + Into<u64> {
    fn guard(index: usize) -> Self;
}

impl Element for u32 {
    fn guard(index: usize) -> u32 {
        0xC0DE_0000 + index as u32
    }
}

/// The first byte after a text is a line feed: a text that lacks its own is not to be read further.
impl Element for u8 {
    fn guard(index: usize) -> u8 {
        (10 + 3 * index) as u8
    }
}

/// The first place of a buffer, or of its guards, that is not as expected.
#[derive(Clone, Copy, Debug, PartialEq, Eq)]
pub struct Differing {
    pub buffer: &'static str,
    /// Counted from the buffer's start: below 0 in the guard before it.
    pub index: isize,
    pub length: usize,
    pub expected: u64,
    pub found: u64,
}

impl fmt::Display for Differing {
    fn fmt(&self, f: &mut fmt::Formatter) -> fmt::Result {
        let Differing { buffer, index, length, expected, found } = self;
        let place = match usize::try_from(*index) {
            Err(_) => " in the guard before it",
            Ok(inside) if inside < *length => "",
            Ok(_) => " in the guard after it",
        };
        write!(
            f,
            "{buffer} of length {length}, index {index}{place}: {expected} expected, {found} found"
        )
    }
}

/// The buffer's elements between those of its guards.
pub struct Lent<T> {
    storage: Vec<T>,
}

fn guard<T: Element>() -> [T; GUARD] {
    std::array::from_fn(T::guard)
}

impl<T: Element> Lent<T> {
    pub fn new(body: &[T]) -> Lent<T> {
        Lent { storage: [&guard(), body, &guard()].concat() }
    }

    pub fn length(&self) -> usize {
        self.storage.len() - 2 * GUARD
    }

    pub fn body(&self) -> &[T] {
        &self.storage[GUARD..GUARD + self.length()]
    }

    pub fn body_mut(&mut self) -> &mut [T] {
        let end = GUARD + self.length();
        &mut self.storage[GUARD..end]
    }

    /// Compares the buffer with what it should hold, which has its length, and its guards with
    /// what they held.
    pub fn differing(&self, buffer: &'static str, expected: &[T]) -> Option<Differing> {
        // To the compiler a buffer lent to be read cannot change; it is to look all the same.
        let storage = black_box(&self.storage[..]);
        let guard: [T; GUARD] = guard();
        let (before, rest) = storage.split_at(GUARD);
        let (body, after) = rest.split_at(self.length());
        if before == guard && body == expected && after == guard {
            return None;
        }
        let should = guard.iter().chain(expected).chain(&guard);
        let mut places = should.zip(storage).enumerate();
        let (place, (&expected, &found)) = places.find(|(_, (should, found))| should != found)?;
        let (expected, found) = (expected.into(), found.into());
        let index = place as isize - GUARD as isize;
        Some(Differing { buffer, index, length: self.length(), expected, found })
    }

    /// Puts another element at an index, which may be in a guard.
    #[cfg(test)]
    pub fn change(&mut self, index: isize) {
        let place = &mut self.storage[(index + GUARD as isize) as usize];
        *place = if *place == T::guard(0) { T::guard(1) } else { T::guard(0) };
    }
}
