//! The words that a run is given, one for each arrival.

pub trait Words {
    /// The word of the next arrival, where there is one.
    fn take(&mut self) -> Option<u32>;
}

/// A run without words: there is one for every arrival, and nothing reads it.
pub struct Unread;

impl Words for Unread {
    #[inline]
    fn take(&mut self) -> Option<u32> {
        Some(0)
    }
}

/// A list of words: arrival k uses word k.
impl Words for std::slice::Iter<'_, u32> {
    #[inline]
    fn take(&mut self) -> Option<u32> {
        self.next().copied()
    }
}
