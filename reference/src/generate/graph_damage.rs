//! Patches on graph tables: refused ones, and ones that make another graph.

use super::words;
use crate::case::Patch;
use crate::graph_table::{BLOCK_WORDS, ENDING_OFFSET, GRAPH_WORDS};
use crate::random::Random;

const HUGE: [u32; 4] = [256, 65_536, 2_147_483_648, 4_294_967_295];

/// A table of a graph, and where its parts stand.
pub struct Table<'a> {
    pub words: &'a [u32],
}

impl Table<'_> {
    fn blocks(&self) -> usize {
        self.words[0] as usize
    }

    fn registers(&self) -> u32 {
        self.words[1]
    }

    fn block(&self, random: &mut Random) -> usize {
        2 + random.below(self.blocks()) * BLOCK_WORDS
    }

    /// The first word of some instruction, where any block has one.
    fn instruction(&self, random: &mut Random) -> Option<usize> {
        let mut places = Vec::new();
        for block in 0..self.blocks() {
            let start = 2 + block * BLOCK_WORDS;
            places.extend((0..self.words[start] as usize).map(|i| start + 1 + 4 * i));
        }
        (!places.is_empty()).then(|| random.pick(&places))
    }
}

fn huge(random: &mut Random) -> u32 {
    random.pick(&HUGE)
}

type Damage = fn(&mut Random, &Table) -> Vec<Patch>;

fn block_count(random: &mut Random, table: &Table) -> Vec<Patch> {
    let old = table.words[0];
    let choices = [0, 65, 64, old + 1, old.saturating_sub(1), 255, huge(random)];
    vec![(0, random.pick(&choices))]
}

fn register_count(random: &mut Random, table: &Table) -> Vec<Patch> {
    let old = table.registers();
    let choices = [0, 17, 16, old + 1, old.saturating_sub(1), 1, huge(random)];
    vec![(1, random.pick(&choices))]
}

fn instruction_count(random: &mut Random, table: &Table) -> Vec<Patch> {
    let at = table.block(random);
    let old = table.words[at];
    let choices = [9, 8, old + 1, old.saturating_sub(1), 0, huge(random)];
    vec![(at as u32, random.pick(&choices))]
}

fn instruction_code(random: &mut Random, table: &Table) -> Vec<Patch> {
    let Some(at) = table.instruction(random) else {
        return Vec::new();
    };
    let (known, between) = (random.between(1, 11) as u32, random.between(12, 19) as u32);
    let choices = [0, between, between, 20, 20, 21, 255, known, huge(random)];
    vec![(at as u32, random.pick(&choices))]
}

fn instruction_register(random: &mut Random, table: &Table) -> Vec<Patch> {
    let Some(at) = table.instruction(random) else {
        return Vec::new();
    };
    let r = table.registers();
    let choices = [r, r, r - 1, 0, 16, 255, huge(random)];
    vec![((at + random.between(1, 3)) as u32, random.pick(&choices))]
}

/// An instruction made `in`, mostly with its last two words as they should be.
fn input(random: &mut Random, table: &Table) -> Vec<Patch> {
    let Some(at) = table.instruction(random) else {
        return Vec::new();
    };
    let at = at as u32;
    let mut patches = vec![(at, 20), (at + 2, 0), (at + 3, 0)];
    if random.percent(40) {
        patches[random.between(1, 2)].1 = random.pick(&[1, table.registers() - 1, 255, HUGE[3]]);
    }
    patches
}

/// Operand b of set, copy and sx, a or b of `in`, or a word of an absent instruction.
fn unused_instruction_word(random: &mut Random, table: &Table) -> Vec<Patch> {
    let block = table.block(random);
    let count = table.words[block] as usize;
    let mut places = Vec::new();
    for at in (0..count).map(|i| block + 1 + 4 * i) {
        match table.words[at] {
            1 | 2 | 11 => places.push(at + 3),
            20 => places.extend([at + 2, at + 3]),
            _ => (),
        }
    }
    places.extend(block + 1 + 4 * count..block + ENDING_OFFSET);
    match places.is_empty() {
        true => Vec::new(),
        false => vec![(random.pick(&places) as u32, random.pick(&[1, 2, 255, 4_294_967_295]))],
    }
}

fn ending_kind(random: &mut Random, table: &Table) -> Vec<Patch> {
    let at = table.block(random) + ENDING_OFFSET;
    vec![(at as u32, random.pick(&[0, 1, 2, 3, 4, 255, HUGE[3]]))]
}

fn ending_word(random: &mut Random, table: &Table) -> Vec<Patch> {
    let at = table.block(random) + ENDING_OFFSET;
    let (b, r) = (table.words[0], table.registers());
    let large = huge(random);
    match random.below(7) {
        0 => vec![(at as u32 + 1, random.pick(&[0, 11, 18, 12, 17, large]))],
        1 => vec![(at as u32 + 2, random.pick(&[r, r - 1, 0, 1, large]))],
        2 => vec![(at as u32 + 3, random.pick(&[r, r - 1, 0, 1, large]))],
        3 | 4 => vec![(at as u32 + 4, random.pick(&[b, b - 1, 0, 1, 255, large]))],
        5 => vec![(at as u32 + 5, random.pick(&[b, b - 1, 0, 1, 255, large]))],
        _ => vec![(at as u32 + 6, random.pick(&[0, 1, 255, large]))],
    }
}

/// Words of blocks from B up, where B leaves any.
fn absent_block(random: &mut Random, table: &Table) -> Vec<Patch> {
    let start = 2 + table.blocks() * BLOCK_WORDS;
    if start >= GRAPH_WORDS {
        return Vec::new();
    }
    let any = random.between(start, GRAPH_WORDS - 1);
    let at = random.pick(&[start, start + ENDING_OFFSET, GRAPH_WORDS - 1, any]);
    vec![(at as u32, random.pick(&[1, 3, 255, 4_294_967_295]))]
}

/// Words past the table are not read.
fn past_the_table(random: &mut Random, _: &Table) -> Vec<Patch> {
    (0..4).map(|_| (random.between(GRAPH_WORDS, 2_620) as u32, words::word(random))).collect()
}

/// Another literal, comparison or target: still a table that reading makes.
fn another_graph(random: &mut Random, table: &Table) -> Vec<Patch> {
    let mut patches = Vec::new();
    for block in 0..table.blocks() {
        let at = 2 + block * BLOCK_WORDS + ENDING_OFFSET;
        if table.words[at] == 2 && random.percent(50) {
            patches.push((at as u32 + 1, random.between(12, 17) as u32));
            patches.push((at as u32 + 5, random.below(table.blocks()) as u32));
        }
        if table.words[at] == 1 && random.percent(50) {
            patches.push((at as u32 + 4, random.below(table.blocks()) as u32));
        }
    }
    if let Some(at) = table.instruction(random) {
        if table.words[at] == 1 {
            patches.push((at as u32 + 2, words::word(random)));
        }
    }
    patches.truncate(16);
    patches
}

/// A word set to what it already is, or any word set to anything.
fn any_word(random: &mut Random, table: &Table) -> Vec<Patch> {
    let at = random.below(GRAPH_WORDS);
    let value = if random.percent(30) { table.words[at] } else { words::word(random) };
    vec![(at as u32, value)]
}

const DAMAGE: [Damage; 15] = [
    input, block_count, register_count, instruction_count, instruction_code, instruction_register,
    instruction_register, unused_instruction_word, ending_kind, ending_word, ending_word,
    absent_block, past_the_table, another_graph, any_word,
];

/// Patches of one kind, sometimes of two, for a table that reading made.
pub fn patches(random: &mut Random, words: &[u32]) -> Vec<Patch> {
    let table = Table { words };
    let mut patches = random.pick(&DAMAGE)(random, &table);
    if patches.is_empty() || random.percent(15) {
        patches.extend(random.pick(&DAMAGE)(random, &table));
    }
    patches
}
