//! One graph with its tables: what is timed, and that both programs give the same on it.

use super::graphs;
use super::runs::{Kind, Program, PLAIN, PROVED};
use gutkavu::layout::{graph, machine};
use gutkavu::{operations, GRAPH_WORDS, MACHINE_WORDS, NONE, REGISTER_WORDS, TEXT_BYTES};
use reference::random::Random;

/// A graph table and the machine table made of it.
pub struct Tables {
    pub graph: Vec<u32>,
    pub machine: Vec<u32>,
}

pub struct Work {
    pub blocks: usize,
    pub registers: usize,
    pub text: Vec<u8>,
    pub tables: Tables,
    /// The same graph, but the first instruction of each block is `in`.
    pub reading: Tables,
    /// The words that a run begins with.
    pub file: [u32; REGISTER_WORDS],
    /// Enough for a long run, also where each block is an arrival.
    pub words: Vec<u32>,
}

/// A state and a register that are asked about.
#[derive(Clone, Copy)]
pub struct Question {
    pub state: u32,
    pub register: u32,
}

/// The lowest and highest words of registers before a cycle, or after it.
#[derive(Clone, Copy, PartialEq)]
pub struct Bounds {
    pub lowest: [u32; REGISTER_WORDS],
    pub highest: [u32; REGISTER_WORDS],
}

impl Bounds {
    pub const RATES: Bounds = Bounds::of(-720, 720);
    const FULL: Bounds = Bounds::of(i32::MIN, i32::MAX);
    const REVERSED: Bounds = Bounds::of(1, 0);

    const fn of(low: i32, high: i32) -> Bounds {
        Bounds { lowest: [low as u32; REGISTER_WORDS], highest: [high as u32; REGISTER_WORDS] }
    }

    pub fn single(words: [u32; REGISTER_WORDS]) -> Bounds {
        Bounds { lowest: words, highest: words }
    }
}

/// Blocks and cycles of a long run.
pub const BLOCK_BUDGET: u32 = 10_000;
pub const CYCLE_BUDGET: u32 = 1_000;

/// Words behind a table, which no operation may touch.
const BEHIND: usize = 3;

fn fresh(length: usize) -> Vec<u32> {
    (0..length + BEHIND).map(|index| 1_515_870_810 - index as u32).collect()
}

pub fn same<T: PartialEq>(what: &str, x: T, y: T) -> Result<(), String> {
    (x == y).then_some(()).ok_or_else(|| format!("the two programs differ: {what}"))
}

impl Tables {
    fn of(graph: Vec<u32>) -> Result<Tables, String> {
        let mut machine = fresh(MACHINE_WORDS);
        match operations::synthesise(&graph, &mut machine) {
            0 => Ok(Tables { graph, machine }),
            number => Err(format!("a graph is refused with {number}")),
        }
    }

    fn reading(&self) -> Result<Tables, String> {
        let mut table = self.graph.clone();
        for n in 0..table[graph::BLOCKS] as usize {
            let block = graph::FIRST_BLOCK + graph::BLOCK_WORDS * n;
            let [code, _, a, b, ..] = &mut table[block + graph::FIRST_INSTRUCTION..] else {
                continue;
            };
            (*code, *a, *b) = (20, 0, 0);
        }
        Tables::of(table)
    }

    pub fn starters(&self) -> &[u32] {
        &self.machine[machine::STARTERS..][..self.machine[machine::STATES] as usize]
    }
}

impl Work {
    /// With one register two instructions a block and loops, with more eight and many joins.
    pub fn of(random: &mut Random, blocks: usize, registers: usize) -> Result<Work, String> {
        let many = registers > 1;
        let shape = if many { graphs::joins } else { graphs::loops }(random, blocks);
        let text = graphs::text(random, &shape, registers, if many { 8 } else { 2 });
        let file = [0; REGISTER_WORDS].map(|_: u32| random.word());
        let words = (0..BLOCK_BUDGET).map(|_| random.word()).collect();
        let mut graph = fresh(GRAPH_WORDS);
        match operations::read(&text, &mut graph).number {
            0 => {}
            number => return Err(format!("a graph is refused with {number}")),
        }
        let tables = Tables::of(graph)?;
        let reading = tables.reading()?;
        Ok(Work { blocks, registers, text, tables, reading, file, words })
    }

    pub fn states(&self) -> u32 {
        self.tables.machine[machine::STATES]
    }

    /// The search goes as far as it can to find one: to the last state, where only that touches it.
    pub fn question(&self) -> Question {
        let first = |&register: &u32| {
            let found = operations::first_touching(&self.tables.machine, register);
            Some(found.state).filter(|&state| state != NONE)
        };
        let latest = (0..self.registers as u32).max_by_key(first);
        Question { state: self.states() - 1, register: latest.unwrap_or(0) }
    }

    pub fn wires(&self) -> u32 {
        let count = machine::RECORDS + machine::WIRE_COUNT;
        let states = self.states() as usize;
        (0..states).map(|k| self.tables.machine[count + machine::RECORD_WORDS * k]).sum()
    }

    /// Both programs give the same answers and leave the same buffers.
    pub fn check(&self) -> Result<(), String> {
        let graph = &self.tables.graph;
        let (mut x, mut y) = (fresh(GRAPH_WORDS), fresh(GRAPH_WORDS));
        same("read", operations::read(&self.text, &mut x), plain::read(&self.text, &mut y))?;
        same("the graph table", &x, &y)?;
        let (mut x, mut y) = (vec![7; TEXT_BYTES], vec![7; TEXT_BYTES]);
        same("write", operations::write(graph, &mut x), plain::write(graph, &mut y))?;
        same("the text", &x, &y)?;
        for tables in [&self.tables, &self.reading] {
            let mut made = fresh(MACHINE_WORDS);
            same("synthesise", plain::synthesise(&tables.graph, &mut made), 0)?;
            same("the machine table", &made, &tables.machine)?;
            self.check_runs(tables)?;
            self.check_questions(tables)?;
            self.check_bounds(tables)?;
        }
        Ok(())
    }

    /// Every state and one past them, every register and some past them.
    fn check_questions(&self, tables: &Tables) -> Result<(), String> {
        let table = &tables.machine;
        for register in (0..=REGISTER_WORDS as u32).chain([31, 32, u32::MAX]) {
            for state in 0..=self.states() {
                let proved = operations::touches(table, state, register);
                same("touches", proved, plain::touches(table, state, register))?;
            }
            let proved = operations::first_touching(table, register);
            same("first touching", proved, plain::first_touching(table, register))?;
        }
        Ok(())
    }

    /// Every state and one past them, on bounds of each kind and the wrong way round.
    fn check_bounds(&self, tables: &Tables) -> Result<(), String> {
        let table = &tables.machine;
        let kinds = [Bounds::RATES, Bounds::FULL, Bounds::single(self.file), Bounds::REVERSED];
        for (state, before) in (0..=self.states()).flat_map(|state| kinds.map(|one| (state, one))) {
            let (mut proved, mut plain) = (before, before);
            let [x, y] = [&mut proved, &mut plain];
            let numbers = (
                operations::bounds(table, &mut x.lowest, &mut x.highest, state),
                plain::bounds(table, &mut y.lowest, &mut y.highest, state),
            );
            same("bounds", numbers.0, numbers.1)?;
            same("the bounds after", proved, plain)?;
        }
        Ok(())
    }

    /// The last budget is one more than there are words, so that a machine ends dry.
    fn check_runs(&self, tables: &Tables) -> Result<(), String> {
        let kinds: [(&str, Kind); 4] = [
            ("run graph", Program::graph),
            ("run machine", Program::machine),
            ("run graph with words", Program::graph_with_words),
            ("run machine with words", Program::machine_with_words),
        ];
        for (name, run) in kinds {
            for budget in [0, 1, 2, BLOCK_BUDGET, BLOCK_BUDGET + 1] {
                same(name, run(&PROVED, self, tables, budget), run(&PLAIN, self, tables, budget))?;
            }
        }
        Ok(())
    }
}
