//! Graph text into a graph, or the refusal of its first faulty line.

use crate::graph::{
    Binary, Block, Comparison, Ending, Graph, Instruction, MAX_BLOCKS, MAX_INSTRUCTIONS,
    MAX_REGISTERS,
};

pub const MAX_TEXT: usize = 16_384;

/// One line, taken by its form alone.
#[derive(Clone, Debug, PartialEq, Eq)]
pub(crate) enum Line {
    Graph { blocks: usize, registers: usize },
    Block(usize),
    Instruction(Instruction),
    Ending(Ending),
}

#[derive(Clone, Copy, Debug, PartialEq, Eq)]
pub struct Fault {
    pub number: u32,
    pub line: u32,
}

/// A number field: its own decimal spelling, 0 to 255.
/// Printing it again rules out leading zeros and signs.
fn number(field: &str) -> Option<usize> {
    let value: usize = field.parse().ok()?;
    (value <= 255 && value.to_string() == field).then_some(value)
}

fn literal(field: &str) -> Option<i32> {
    let value: i32 = field.parse().ok()?;
    (value.to_string() == field).then_some(value)
}

fn graph_line(blocks: &str, registers: &str) -> Option<Line> {
    let (blocks, registers) = (number(blocks)?, number(registers)?);
    let in_limits = (1..=MAX_BLOCKS).contains(&blocks) && (1..=MAX_REGISTERS).contains(&registers);
    in_limits.then_some(Line::Graph { blocks, registers })
}

fn ite(comparison: &str, numbers: [&str; 4]) -> Option<Line> {
    let comparison = Comparison::from_name(comparison)?;
    let [a, b, t, f] = numbers;
    let (a, b, t, f) = (number(a)?, number(b)?, number(t)?, number(f)?);
    Some(Line::Ending(Ending::Ite { comparison, a, b, t, f }))
}

fn instruction(fields: &[&str]) -> Option<Line> {
    let instruction = match *fields {
        ["set", d, value] => Instruction::Set { d: number(d)?, literal: literal(value)? },
        ["in", d] => Instruction::In { d: number(d)? },
        ["copy", d, a] => Instruction::Copy { d: number(d)?, a: number(a)? },
        ["sx", d, a] => Instruction::SignExtend { d: number(d)?, a: number(a)? },
        [name, d, a, b] => {
            let op = Binary::from_name(name)?;
            Instruction::Binary { op, d: number(d)?, a: number(a)?, b: number(b)? }
        }
        _ => return None,
    };
    Some(Line::Instruction(instruction))
}

/// The form of a line given without its line feed, if it has one.
pub(crate) fn line_form(bytes: &[u8]) -> Option<Line> {
    let text = std::str::from_utf8(bytes).ok()?;
    let fields: Vec<&str> = text.split(',').collect();
    match *fields.as_slice() {
        ["graph", blocks, registers] => graph_line(blocks, registers),
        ["block", n] => Some(Line::Block(number(n)?)),
        ["goto", t] => Some(Line::Ending(Ending::Goto(number(t)?))),
        ["ite", comparison, a, b, t, f] => ite(comparison, [a, b, t, f]),
        ["halt"] => Some(Line::Ending(Ending::Halt)),
        _ => instruction(&fields),
    }
}

/// What is left of the text, and how many lines were taken from it.
struct Reader<'a> {
    rest: &'a [u8],
    line: u32,
}

impl Reader<'_> {
    fn fault(&self, number: u32) -> Fault {
        Fault { number, line: self.line }
    }

    /// Takes one line; a text that is used up stops early.
    fn take(&mut self) -> Result<Line, Fault> {
        self.line += 1;
        if self.rest.is_empty() {
            return Err(self.fault(3));
        }
        let Some(end) = self.rest.iter().position(|&byte| byte == b'\n') else {
            return Err(self.fault(2));
        };
        let form = line_form(&self.rest[..end]);
        self.rest = &self.rest[end + 1..];
        form.ok_or_else(|| self.fault(2))
    }

    fn check(&self, used: &[usize], limit: usize, number: u32) -> Result<(), Fault> {
        if used.iter().any(|&value| value >= limit) {
            return Err(self.fault(number));
        }
        Ok(())
    }

    fn block(&mut self, due: usize, blocks: usize, registers: usize) -> Result<Block, Fault> {
        if self.take()? != Line::Block(due) {
            return Err(self.fault(3));
        }
        let mut instructions = Vec::new();
        loop {
            match self.take()? {
                Line::Instruction(next) if instructions.len() < MAX_INSTRUCTIONS => {
                    self.check(&next.registers(), registers, 4)?;
                    instructions.push(next);
                }
                Line::Ending(ending) => {
                    self.check(&ending.registers(), registers, 4)?;
                    self.check(&ending.successors(), blocks, 5)?;
                    return Ok(Block { instructions, ending });
                }
                _ => return Err(self.fault(3)),
            }
        }
    }

    fn graph(&mut self) -> Result<Graph, Fault> {
        let Line::Graph { blocks, registers } = self.take()? else {
            return Err(self.fault(3));
        };
        let list: Result<Vec<Block>, Fault> =
            (0..blocks).map(|due| self.block(due, blocks, registers)).collect();
        let graph = Graph { registers, blocks: list? };
        if self.rest.is_empty() {
            return Ok(graph);
        }
        // One more line: without a form it is 2, and no form is due here.
        self.take()?;
        Err(self.fault(3))
    }
}

/// Parses a text of any length that the caller has not refused already.
pub fn parse(text: &[u8]) -> Result<Graph, Fault> {
    Reader { rest: text, line: 0 }.graph()
}
