//! "Synthesise graph table into machine table".

use crate::grouping::{edges_of, group};
use crate::placement::place;
use crate::state::{Edges, State};
use crate::touch::touch_word;
use crate::{
    graph_admission, ARRIVALS, BLOCKS, BLOCK_STATES, NEXT, RECORDS, RECORD_WORDS, STARTERS, TOUCH,
    WIRE_WORDS,
};
use gutkavu::{GRAPH_WORDS, MACHINE_WORDS};

fn copy(words: &mut [u32], bytes: &[u8]) {
    words.iter_mut().zip(bytes).for_each(|(word, &byte)| *word = u32::from(byte));
}

/// The machine of an admitted graph.
fn fill(graph: &[u32], table: &mut [u32]) {
    let edges = edges_of(graph);
    let grouping = group(&edges);
    let registers = graph[1] as usize;
    table.fill(0);
    table[0] = grouping.count as u32;
    table[1] = graph[1];
    copy(&mut table[STARTERS..], &grouping.starters);
    copy(&mut table[BLOCK_STATES..], &grouping.states);
    let (mut pending, mut arrivals) = (Edges::none(), [0; BLOCKS]);
    let mut first = 0;
    for k in 0..grouping.count {
        let order = place(&edges, &grouping, graph[0] as usize, k as u8);
        let (records, wires) = table.split_at_mut(WIRE_WORDS);
        let mut state = State::new(&mut wires[4 * first..], registers, &mut pending);
        for &block in &order.blocks[..order.count] {
            let is_starter = grouping.is_starter[block as usize];
            arrivals[block as usize] = state.place(graph, block, is_starter);
        }
        let next = state.leave(&grouping);
        let (count, values) = (state.count, state.values);
        let record = &mut records[RECORDS + RECORD_WORDS * k..][..RECORD_WORDS];
        (record[0], record[1], record[2]) = (first as u32, count as u32, next);
        record[NEXT..NEXT + registers].copy_from_slice(&values[..registers]);
        record[TOUCH] = touch_word(&values[..registers]);
        first += count;
    }
    table[ARRIVALS..].copy_from_slice(&arrivals);
}

pub fn synthesise(graph: &[u32], machine: &mut [u32]) -> u32 {
    if graph.len() < GRAPH_WORDS || machine.len() < MACHINE_WORDS {
        return 7;
    }
    if graph_admission::admitted(graph).is_none() {
        return 6;
    }
    fill(graph, &mut machine[..MACHINE_WORDS]);
    0
}
