//! "Read text into graph table".

use crate::line::{Cursor, Line};
use crate::{BLOCK_WORDS, ENDING, HEAD, INSTRUCTIONS};
use gutkavu::operations::ReadFields;
use gutkavu::{GRAPH_WORDS, TEXT_BYTES};

#[derive(Clone, Copy, PartialEq, Eq)]
enum Due {
    Graph,
    Block,
    Inside,
}

/// A table in the making.
struct Reader {
    words: [u32; GRAPH_WORDS],
    due: Due,
    /// Blocks that are whole.
    done: usize,
    /// Instructions of the block that is due.
    count: usize,
}

impl Reader {
    fn blocks(&self) -> u32 {
        self.words[0]
    }

    fn registers(&self) -> u32 {
        self.words[1]
    }

    fn block(&mut self) -> &mut [u32] {
        &mut self.words[HEAD + BLOCK_WORDS * self.done..][..BLOCK_WORDS]
    }

    fn instruction(&mut self, words: [u32; 4]) -> Result<(), u32> {
        if self.count == INSTRUCTIONS {
            return Err(3);
        }
        let [code, d, a, b] = words;
        let registers = self.registers();
        if d >= registers || (code != 1 && a >= registers) || b >= registers {
            return Err(4);
        }
        let at = 1 + 4 * self.count;
        self.block()[at..at + 4].copy_from_slice(&words);
        self.count += 1;
        Ok(())
    }

    fn ending(&mut self, words: [u32; 6]) -> Result<(), u32> {
        let [_, _, a, b, t, f] = words;
        if a >= self.registers() || b >= self.registers() {
            return Err(4);
        }
        if t >= self.blocks() || f >= self.blocks() {
            return Err(5);
        }
        let count = self.count as u32;
        let block = self.block();
        block[0] = count;
        block[ENDING..ENDING + 6].copy_from_slice(&words);
        self.due = Due::Block;
        self.done += 1;
        Ok(())
    }

    fn line(&mut self, line: Line) -> Result<(), u32> {
        match (self.due, line) {
            (Due::Graph, Line::Graph(blocks, registers)) => {
                self.words[0] = blocks;
                self.words[1] = registers;
                self.due = Due::Block;
            }
            (Due::Block, Line::Block(n)) if n as usize == self.done && n < self.blocks() => {
                self.due = Due::Inside;
                self.count = 0;
            }
            (Due::Inside, Line::Instruction(words)) => return self.instruction(words),
            (Due::Inside, Line::Goto(t)) => return self.ending([1, 0, 0, 0, t, 0]),
            (Due::Inside, Line::Ite([c, a, b, t, f])) => return self.ending([2, c, a, b, t, f]),
            (Due::Inside, Line::Halt) => return self.ending([3, 0, 0, 0, 0, 0]),
            _ => return Err(3),
        }
        Ok(())
    }

    fn whole(&self) -> bool {
        self.due == Due::Block && self.done == self.blocks() as usize
    }
}

pub fn read(text: &[u8], table: &mut [u32]) -> ReadFields {
    if text.len() > TEXT_BYTES {
        return ReadFields { number: 1, line: 0 };
    }
    let Some(table) = table.get_mut(..GRAPH_WORDS) else {
        return ReadFields { number: 7, line: 0 };
    };
    let mut reader = Reader { words: [0; GRAPH_WORDS], due: Due::Graph, done: 0, count: 0 };
    let mut cursor = Cursor { text, at: 0 };
    let mut line = 1;
    while cursor.at < text.len() {
        if let Err(number) = cursor.line().ok_or(2).and_then(|form| reader.line(form)) {
            return ReadFields { number, line };
        }
        line += 1;
    }
    if !reader.whole() {
        return ReadFields { number: 3, line };
    }
    table.copy_from_slice(&reader.words);
    ReadFields { number: 0, line: 0 }
}
