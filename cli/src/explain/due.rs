//! Refusal 3: what is due where a text has something else, or ends.

use super::forms::{self, Form, Kind, Role};
use super::Explanation;
use gutkavu::layout::MOST_INSTRUCTIONS;

/// What the next line may be.
#[derive(Clone, Copy)]
enum Due {
    Graph,
    Block(u32),
    /// Inside a block that has so many instructions: one more while there is room, or the ending.
    Inside(u32, usize),
    /// After the last block.
    Nothing(u32),
}

impl Due {
    /// What is due after one more line, which was admitted.
    fn after(self, line: &[u8], blocks: u32) -> Option<Due> {
        match (self, role(line)?) {
            (Due::Graph, Role::Graph) => Some(Due::Block(0)),
            (Due::Block(block), Role::Block) => Some(Due::Inside(block, 0)),
            (Due::Inside(block, count), Role::Instruction) => Some(Due::Inside(block, count + 1)),
            (Due::Inside(block, _), Role::Ending) if block + 1 == blocks => {
                Some(Due::Nothing(block))
            }
            (Due::Inside(block, _), Role::Ending) => Some(Due::Block(block + 1)),
            _ => None,
        }
    }

    /// The text has no further line.
    fn at_the_end(self) -> Option<Explanation> {
        let message = match self {
            Due::Graph => String::from("the text is empty: graph,B,R is due first"),
            Due::Block(block) => format!("the text ends before block {block}"),
            Due::Inside(block, _) => format!("the text ends before the ending of block {block}"),
            Due::Nothing(_) => return None,
        };
        Some(Explanation::whole(message))
    }

    /// The text has a line of a form that is not due.
    fn at_a_line(self, line: &[u8]) -> Option<Explanation> {
        let message = match (self, role(line)?) {
            (Due::Graph, _) => String::from("graph,B,R is due first"),
            (Due::Block(due), Role::Block) => return other_block(due, line),
            (Due::Block(block), _) => format!("`block,{block}` is due here"),
            (Due::Inside(block, 0..MOST_INSTRUCTIONS), _) => {
                format!("an instruction or the ending of block {block} is due here")
            }
            (Due::Inside(..), Role::Instruction) => {
                format!("a ninth instruction: a block has at most {MOST_INSTRUCTIONS}")
            }
            (Due::Inside(block, _), _) => format!("the ending of block {block} is due here"),
            (Due::Nothing(last), _) => {
                format!("nothing is due after the ending of block {last}, the last")
            }
        };
        Some(Explanation::whole(message))
    }
}

fn role(line: &[u8]) -> Option<Role> {
    let (word, _) = forms::fields(line);
    Form::of(word.bytes).map(|form| form.role)
}

fn other_block(due: u32, line: &[u8]) -> Option<Explanation> {
    let (number, span) = forms::numbers(line, Kind::Block).into_iter().next()?;
    Some(Explanation::at(span, format!("`block,{due}` is due here, not `block,{number}`")))
}

/// All lines before this one were admitted, so their first words tell how far the text has come.
pub fn explain(text: &[u8], line: usize) -> Option<Explanation> {
    let graph = forms::line(text, 1).unwrap_or_default();
    let blocks = forms::numbers(graph, Kind::Blocks).first().map_or(0, |(blocks, _)| *blocks);
    let mut lines = forms::lines(text);
    let mut before = lines.by_ref().take(line.checked_sub(1)?);
    let due = before.try_fold(Due::Graph, |due, line| due.after(line, blocks))?;
    match lines.next() {
        None => due.at_the_end(),
        Some(line) => due.at_a_line(line),
    }
}
