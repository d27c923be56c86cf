//! The words of a run, one for each cycle.

use super::SLICE;

#[derive(Debug)]
pub enum Supply {
    Given(Vec<u32>),
    /// Words without end, for a graph that reads none.
    Unread,
}

static UNREAD: [u32; SLICE as usize] = [0; SLICE as usize];

impl Supply {
    /// The words for the cycles after so many, at most as many as are asked for and as a slice has.
    pub fn after(&self, cycles: u32, most: u32) -> &[u32] {
        let rest = match self {
            Supply::Given(words) => &words[cycles as usize..],
            Supply::Unread => &UNREAD[..],
        };
        &rest[..rest.len().min(most as usize)]
    }

    pub fn given(&self) -> Option<&[u32]> {
        match self {
            Supply::Given(words) => Some(words),
            Supply::Unread => None,
        }
    }

    /// How many there are; none where they have no end, or more than any budget.
    pub fn count(&self) -> Option<u32> {
        self.given().and_then(|words| u32::try_from(words.len()).ok())
    }
}
