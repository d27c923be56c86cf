//! Texts with several faulty lines: of any two faults each is sometimes the earlier one.

use super::graphs;
use super::texts::{bytes_of, fields, lines_of, Lines};
use crate::graph::Graph;
use crate::random::Random;

type Damage = fn(&mut Random, &Graph, usize, &mut Lines);

fn header(block: usize, lines: &Lines) -> usize {
    let header = fields(&format!("block,{block}"));
    lines.iter().position(|line| *line == header).unwrap_or(0)
}

/// Puts a line among a block's instructions.
fn put(block: usize, lines: &mut Lines, line: &str) {
    lines.insert(header(block, lines) + 1, fields(line));
}

fn put_ending(block: usize, lines: &mut Lines, line: &str) {
    let is_ending = |at: &usize| matches!(lines[*at][0].as_str(), "goto" | "ite" | "halt");
    if let Some(at) = (header(block, lines)..lines.len()).find(is_ending) {
        lines[at] = fields(line);
    }
}

fn no_form(random: &mut Random, _: &Graph, block: usize, lines: &mut Lines) {
    let choices =
        ["", "x", "halt,", "set,0", "set,0,-0", "goto,256", "add,0,0,00", "In,0", "set,0,1\r"];
    put(block, lines, random.pick(&choices));
}

/// Lines that nothing makes due in a block.
fn not_due(random: &mut Random, _: &Graph, block: usize, lines: &mut Lines) {
    let own = format!("block,{block}");
    put(block, lines, random.pick(&["graph,1,1", "graph,64,16", "block,255", &own]));
}

fn register(random: &mut Random, graph: &Graph, block: usize, lines: &mut Lines) {
    let past = random.pick(&[graph.registers, graph.registers, 16, 255]);
    let choices = [
        format!("in,{past}"),
        format!("set,{past},-1"),
        format!("copy,0,{past}"),
        format!("sx,{past},0"),
        format!("sub,0,0,{past}"),
    ];
    put(block, lines, &choices[random.below(choices.len())]);
}

fn target(random: &mut Random, graph: &Graph, block: usize, lines: &mut Lines) {
    let past = random.pick(&[graph.blocks.len(), graph.blocks.len(), 64, 255]);
    let choices =
        [format!("goto,{past}"), format!("ite,eq,0,0,{past},0"), format!("ite,ltu,0,0,0,{past}")];
    put_ending(block, lines, &choices[random.below(choices.len())]);
}

/// Before a block's own line, neither an instruction nor an ending is due.
fn not_due_and_register(random: &mut Random, _: &Graph, block: usize, lines: &mut Lines) {
    let line = random.pick(&["copy,255,0", "in,16", "add,0,0,255", "ite,eq,0,99,0,0"]);
    lines.insert(header(block, lines), fields(line));
}

fn not_due_and_target(random: &mut Random, _: &Graph, block: usize, lines: &mut Lines) {
    let line = random.pick(&["goto,255", "goto,64", "ite,eq,0,0,0,255", "ite,ne,0,0,64,0"]);
    lines.insert(header(block, lines), fields(line));
}

fn register_and_target(random: &mut Random, graph: &Graph, block: usize, lines: &mut Lines) {
    let (r, b) = (graph.registers, graph.blocks.len());
    let choices = [format!("ite,geu,0,{r},{b},0"), format!("ite,eq,{r},0,0,{b}")];
    put_ending(block, lines, &choices[random.below(choices.len())]);
}

const DAMAGE: [Damage; 11] = [
    no_form, no_form, not_due, register, register, target, target, target, not_due_and_register,
    not_due_and_target, register_and_target,
];

/// Blocks are damaged from the last on, so that what was put in does not move the others.
pub fn text(random: &mut Random) -> Vec<u8> {
    let graph = graphs::small_graph(random);
    let mut lines = lines_of(&graph);
    let count = random.pick(&[2, 3, 3, 4]);
    let mut blocks: Vec<usize> = (0..count).map(|_| random.below(graph.blocks.len())).collect();
    blocks.sort();
    for &block in blocks.iter().rev() {
        random.pick(&DAMAGE)(random, &graph, block, &mut lines);
    }
    let mut text = bytes_of(&lines);
    if random.percent(12) {
        text.pop();
    }
    text
}
