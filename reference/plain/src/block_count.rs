//! Which blocks of a machine table are arrived at, and whether its block words are right.

use crate::{ARRIVALS, BLOCKS, BLOCK_STATES, NONE, RECORDS, RECORD_WORDS, REGISTERS};

/// Whether the words of each block are right: a state below N and a wire of it, or 255 and 0.
pub fn blocks_fit(table: &[u32], states: u32) -> bool {
    let (owners, arrivals) = (&table[BLOCK_STATES..][..BLOCKS], &table[ARRIVALS..][..BLOCKS]);
    owners.iter().zip(arrivals).all(|(&state, &arrival)| match state {
        _ if state < states => {
            let wires = table[RECORDS + RECORD_WORDS * state as usize + 1];
            arrival >= REGISTERS as u32 && arrival - (REGISTERS as u32) < wires
        }
        _ => state == u32::from(NONE) && arrival == 0,
    })
}

/// The arrivals of an admitted table, those of one state together.
pub struct Arrivals {
    references: [u32; BLOCKS],
    /// Where those of each state begin; those of the next begin where they end.
    begins: [u8; BLOCKS + 1],
}

impl Arrivals {
    /// The blocks of each state are counted, then each reference is put in its place.
    pub fn of(table: &[u32]) -> Arrivals {
        let (owners, arrivals) = (&table[BLOCK_STATES..][..BLOCKS], &table[ARRIVALS..][..BLOCKS]);
        let mut counts = [0; BLOCKS];
        for &state in owners {
            if let Some(count) = counts.get_mut(state as usize) {
                *count += 1;
            }
        }
        let mut begins = [0; BLOCKS + 1];
        for state in 0..BLOCKS {
            begins[state + 1] = begins[state] + counts[state];
        }
        let (mut references, mut places) = ([0; BLOCKS], begins);
        for (&state, &arrival) in owners.iter().zip(arrivals) {
            if let Some(place) = places[..BLOCKS].get_mut(state as usize) {
                references[*place as usize] = arrival;
                *place += 1;
            }
        }
        Arrivals { references, begins }
    }

    /// How many blocks of a state are arrived at, by the words of its cycle.
    #[inline(always)]
    pub fn count(&self, state: usize, words: &[u32]) -> u64 {
        let own = &self.references[self.begins[state] as usize..self.begins[state + 1] as usize];
        own.iter().fold(0, |count, &arrival| count + u64::from(words[arrival as usize] != 0))
    }
}
