//! A patched machine table made right in the words that depend on others.

use super::{block_words, touch_words};
use crate::case::Patch;

/// The patches of a whole table, and behind them those that make its touch words and its block words
/// right, where there is room.
pub fn mended(words: &[u32], patches: Vec<Patch>) -> Vec<Patch> {
    block_words::mended(words, touch_words::mended(words, patches))
}
