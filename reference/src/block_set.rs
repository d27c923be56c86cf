//! A set of blocks, one bit of a word for each.

use crate::graph::MAX_BLOCKS;
use std::fmt;

#[derive(Clone, Copy, Default, PartialEq, Eq)]
pub struct BlockSet(u64);

impl BlockSet {
    pub fn contains(self, block: usize) -> bool {
        block < MAX_BLOCKS && self.0 >> block & 1 == 1
    }

    /// Whether every member of the other set is one of this.
    pub fn holds(self, other: BlockSet) -> bool {
        other.without(self) == BlockSet::default()
    }

    pub fn with(self, block: usize) -> BlockSet {
        BlockSet(self.0 | 1 << block)
    }

    pub fn without(self, other: BlockSet) -> BlockSet {
        BlockSet(self.0 & !other.0)
    }

    pub fn union(self, other: BlockSet) -> BlockSet {
        BlockSet(self.0 | other.0)
    }

    pub fn intersection(self, other: BlockSet) -> BlockSet {
        BlockSet(self.0 & other.0)
    }

    /// The members in rising order.
    pub fn members(self) -> impl Iterator<Item = usize> {
        let mut rest = self.0;
        std::iter::from_fn(move || {
            let lowest = rest.trailing_zeros() as usize;
            rest &= rest.wrapping_sub(1);
            (lowest < MAX_BLOCKS).then_some(lowest)
        })
    }

    /// Every set of blocks below the limit that holds this one.
    pub fn supersets(self, limit: usize) -> impl Iterator<Item = BlockSet> {
        let free: Vec<usize> = (0..limit).filter(|&block| !self.contains(block)).collect();
        (0..1u64 << free.len()).map(move |choice| {
            BlockSet(choice).members().fold(self, |set, index| set.with(free[index]))
        })
    }
}

impl FromIterator<usize> for BlockSet {
    fn from_iter<I: IntoIterator<Item = usize>>(blocks: I) -> BlockSet {
        blocks.into_iter().fold(BlockSet::default(), BlockSet::with)
    }
}

impl fmt::Debug for BlockSet {
    fn fmt(&self, f: &mut fmt::Formatter) -> fmt::Result {
        f.debug_set().entries(self.members()).finish()
    }
}
