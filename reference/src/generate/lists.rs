//! The two lists of runs with words: starters, right ones and each fault of them; how many words.

use crate::case::{MAX_STARTERS, MAX_WORDS};
use crate::random::Random;

/// The same set with repeats, in another order.
fn rearranged(random: &mut Random, mut list: Vec<u32>) -> Vec<u32> {
    for _ in 0..random.below(5) {
        list.push(random.pick(&list));
    }
    for i in (1..list.len()).rev() {
        list.swap(i, random.between(0, i));
    }
    list
}

/// Any set that holds block 0 and the start.
fn other_set(random: &mut Random, own: &[u32], blocks: usize, start: u32) -> Vec<u32> {
    let all = 0..blocks as u32;
    let mut list = vec![0, start];
    match random.below(4) {
        0 => (),
        1 => list.extend(all),
        2 => list.extend(own.iter().filter(|_| random.percent(60))),
        _ => list.extend(all.filter(|block| own.contains(block) || random.percent(30))),
    }
    list
}

/// A list with a fault: empty, lacking block 0 or the start, or with a block from B up.
pub fn faulty(random: &mut Random, own: &[u32], blocks: usize, start: u32) -> Vec<u32> {
    let mut list = [own, &[start]].concat();
    if random.percent(10) {
        list.clear();
    } else if random.percent(if start == 0 { 20 } else { 60 }) {
        let lacking = random.pick(&[0, start]);
        list.retain(|&block| block != lacking);
    } else {
        let large = random.pick(&[64, 65, 255, 256, 65_536, 2_147_483_648, u32::MAX]);
        let past = random.pick(&[blocks as u32, large]);
        list.insert(random.below(list.len() + 1), past);
    }
    list
}

/// A list of starters, mostly the machine's own and, where it is none of them, the start.
pub fn starters(random: &mut Random, own: &[usize], blocks: usize, start: u32) -> Vec<u32> {
    let own: Vec<u32> = own.iter().map(|&block| block as u32).collect();
    let mut list = match random.below(100) {
        0..=66 => own.clone(),
        67..=84 => other_set(random, &own, blocks, start),
        _ => faulty(random, &own, blocks, start),
    };
    if list == own && !own.contains(&start) && random.percent(80) {
        list.push(start);
    }
    if random.percent(25) && !list.is_empty() {
        list = rearranged(random, list);
    }
    list.truncate(MAX_STARTERS);
    list
}

/// A number of words around what a run needs.
pub fn length(random: &mut Random, needed: usize) -> usize {
    let length = match random.below(20) {
        0 => 0,
        1..=4 if needed > 1 || random.percent(40) => needed.saturating_sub(1),
        5..=7 if needed > 1 => random.between(1, needed - 1),
        8..=10 => needed + random.between(1, 4),
        11 => MAX_WORDS,
        _ => needed,
    };
    length.min(MAX_WORDS)
}
