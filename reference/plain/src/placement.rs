//! The order in which the blocks of a state are placed.

use crate::grouping::{Edges, Grouping};
use crate::BLOCKS;

pub struct Order {
    pub count: usize,
    pub blocks: [u8; BLOCKS],
}

/// The blocks of state `k` in rising order.
fn blocks_of(states: &[u8], k: u8) -> Order {
    let mut order = Order { count: 0, blocks: [0; BLOCKS] };
    for (block, _) in states.iter().enumerate().filter(|(_, &state)| state == k) {
        order.blocks[order.count] = block as u8;
        order.count += 1;
    }
    order
}

/// The targets of a block's in-state edges: those that are neither none nor starters.
#[inline]
fn inner<'a>(
    edges: &'a Edges,
    grouping: &'a Grouping,
    block: u8,
) -> impl Iterator<Item = usize> + 'a {
    let targets = edges[usize::from(block)].iter().map(|&target| usize::from(target));
    targets.filter(|&target| grouping.is_starter.get(target) == Some(&false))
}

/// Always the lowest-numbered block for which no in-state edge waits. The unplaced blocks stay in
/// rising order behind the placed ones. `blocks` is how many the graph has.
pub fn place(edges: &Edges, grouping: &Grouping, blocks: usize, k: u8) -> Order {
    let mut order = blocks_of(&grouping.states[..blocks], k);
    let mut waiting = [0u8; BLOCKS];
    for &block in &order.blocks[..order.count] {
        inner(edges, grouping, block).for_each(|target| waiting[target] += 1);
    }
    for placed in 0..order.count {
        let is_ready = |&at: &usize| waiting[usize::from(order.blocks[at])] == 0;
        let Some(at) = (placed..order.count).find(is_ready) else { break };
        let block = order.blocks[at];
        if at > placed {
            order.blocks.copy_within(placed..at, placed + 1);
            order.blocks[placed] = block;
        }
        inner(edges, grouping, block).for_each(|target| waiting[target] -= 1);
    }
    order
}
