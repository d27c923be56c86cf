//! Damaged texts: each kind aims at one refusal of reading.

use super::{faulty_lines, graphs};
use crate::graph::Graph;
use crate::print::print;
use crate::random::Random;

pub type Lines = Vec<Vec<String>>;

#[derive(Clone, Copy, PartialEq, Eq)]
enum Role {
    Name,
    Number,
    Register,
    Target,
    Literal,
    Comparison,
}

fn role(line: &[String], field: usize) -> Role {
    match (line[0].as_str(), field) {
        (_, 0) => Role::Name,
        ("graph" | "block", _) => Role::Number,
        ("set", 2) => Role::Literal,
        ("goto", _) | ("ite", 4 | 5) => Role::Target,
        ("ite", 1) => Role::Comparison,
        _ => Role::Register,
    }
}

pub fn lines_of(graph: &Graph) -> Lines {
    let text = print(graph);
    text.lines().map(|line| line.split(',').map(String::from).collect()).collect()
}

pub fn bytes_of(lines: &Lines) -> Vec<u8> {
    lines.iter().flat_map(|line| (line.join(",") + "\n").into_bytes()).collect()
}

pub fn fields(line: &str) -> Vec<String> {
    line.split(',').map(String::from).collect()
}

/// Any field whose role passes, if there is one.
fn spot(random: &mut Random, lines: &Lines, wanted: &[Role]) -> Option<(usize, usize)> {
    let mut spots = Vec::new();
    for (at, line) in lines.iter().enumerate() {
        let fitting = (0..line.len()).filter(|&field| wanted.contains(&role(line, field)));
        spots.extend(fitting.map(|field| (at, field)));
    }
    (!spots.is_empty()).then(|| random.pick(&spots))
}

fn replace(random: &mut Random, lines: &mut Lines, wanted: &[Role], value: String) {
    if let Some((line, field)) = spot(random, lines, wanted) {
        lines[line][field] = value;
    }
}

const NUMERIC: [Role; 3] = [Role::Number, Role::Register, Role::Target];

type LineDamage = fn(&mut Random, &Graph, &mut Lines);

fn leading_zero(random: &mut Random, _: &Graph, lines: &mut Lines) {
    let wanted = [Role::Number, Role::Register, Role::Target, Role::Literal];
    if let Some((line, field)) = spot(random, lines, &wanted) {
        let old = lines[line][field].clone();
        lines[line][field] = match old.strip_prefix('-') {
            Some(digits) => format!("-0{digits}"),
            None => random.pick(&["0", "00", "+", "-"]).to_string() + &old,
        };
    }
}

fn bad_literal(random: &mut Random, graph: &Graph, lines: &mut Lines) {
    let bad = [
        "-0", "-", "", "2147483648", "-2147483649", "4294967295", "4294967296", "-01", "+1", "--1",
        "1-", "99999999999999999999999", "-99999999999999999999999", "0x10", "1e3", "00",
        "18446744073709551616", "9223372036854775808", " 1", "1 ", "2147483650", "12147483647",
    ];
    let literal = random.pick(&bad).to_string();
    put_instruction(random, graph, lines, vec!["set".into(), "0".into(), literal]);
}

fn good_literal(random: &mut Random, graph: &Graph, lines: &mut Lines) {
    let good = ["2147483647", "-2147483648", "0", "-1", "1", "-10", "1000000000", "-2147483640"];
    let literal = random.pick(&good).to_string();
    put_instruction(random, graph, lines, vec!["set".into(), "0".into(), literal]);
}

/// Puts an instruction line after some block line.
fn put_instruction(random: &mut Random, _: &Graph, lines: &mut Lines, line: Vec<String>) {
    let blocks: Vec<usize> = (0..lines.len()).filter(|&at| lines[at][0] == "block").collect();
    let at = if blocks.is_empty() { lines.len() } else { random.pick(&blocks) + 1 };
    lines.insert(at, line);
}

fn big_number(random: &mut Random, _: &Graph, lines: &mut Lines) {
    let big = ["256", "257", "300", "1000", "2560", "65536", "4294967296", "18446744073709551616"];
    let value = random.pick(&big).to_string();
    replace(random, lines, &NUMERIC, value);
}

fn odd_number(random: &mut Random, _: &Graph, lines: &mut Lines) {
    let value = random.pick(&["", "a", "1a", "a1", "-1", "0x1", "1.0", "/", ":", "255 "]);
    replace(random, lines, &NUMERIC, value.to_string());
}

fn empty_field(random: &mut Random, _: &Graph, lines: &mut Lines) {
    if let Some((line, field)) = spot(random, lines, &[Role::Name, Role::Register, Role::Target]) {
        lines[line][field] = String::new();
    }
}

fn extra_field(random: &mut Random, _: &Graph, lines: &mut Lines) {
    let at = random.below(lines.len());
    lines[at].push(random.pick(&["", "0", "1"]).to_string());
}

fn missing_field(random: &mut Random, _: &Graph, lines: &mut Lines) {
    let at = random.below(lines.len());
    lines[at].pop();
    if lines[at].is_empty() {
        lines[at].push(String::new());
    }
}

fn odd_byte(random: &mut Random, _: &Graph, lines: &mut Lines) {
    let at = random.below(lines.len());
    let field = random.below(lines[at].len());
    let odd = random.pick(&[" ", "\r", "\t", "\0", "\"", ";", "é"]);
    lines[at][field] = match random.below(2) {
        0 => format!("{}{odd}", lines[at][field]),
        _ => format!("{odd}{}", lines[at][field]),
    };
}

fn carriage_returns(_: &mut Random, _: &Graph, lines: &mut Lines) {
    for line in lines {
        let last = line.len() - 1;
        line[last].push('\r');
    }
}

fn swapped(random: &mut Random, _: &Graph, lines: &mut Lines) {
    if lines.len() > 1 {
        let at = random.below(lines.len() - 1);
        lines.swap(at, at + 1);
    }
}

fn deleted(random: &mut Random, _: &Graph, lines: &mut Lines) {
    let at = random.below(lines.len());
    lines.remove(at);
}

fn doubled(random: &mut Random, _: &Graph, lines: &mut Lines) {
    let at = random.below(lines.len());
    let copy = lines[at].clone();
    lines.insert(at, copy);
}

/// Eight instructions in one block, or nine, the ninth sometimes wrong too.
fn ninth(random: &mut Random, graph: &Graph, lines: &mut Lines) {
    let block = random.below(graph.blocks.len());
    let header = fields(&format!("block,{block}"));
    let Some(at) = lines.iter().position(|line| *line == header) else {
        return;
    };
    let has = graph.blocks[block].instructions.len();
    let wanted = random.pick(&[8, 9, 9, 9, 10]);
    for _ in has..wanted {
        let line =
            random.pick(&["set,0,7", "in,0", "copy,0,0", "sx,0,0", "xor,0,0,0", "sar,0,0,0"]);
        lines.insert(at + 1, fields(line));
    }
    if wanted > 8 && random.percent(40) {
        let bad = random.pick(&["copy,255,0", "add,0,0,16", "add,0,0", "set,0,-0"]);
        if let Some(line) = lines.get_mut(at + 9) {
            *line = fields(bad);
        }
    }
}

fn wrong_block(random: &mut Random, graph: &Graph, lines: &mut Lines) {
    let is_block = |&at: &usize| lines[at][0] == "block" && lines[at].len() > 1;
    let blocks: Vec<usize> = (0..lines.len()).filter(is_block).collect();
    if blocks.is_empty() {
        return;
    }
    let at = random.pick(&blocks);
    let old: usize = lines[at][1].parse().unwrap_or(0);
    let other = [old + 1, old.saturating_sub(1), graph.blocks.len(), 64, 255, 256];
    lines[at][1] = random.pick(&other).to_string();
}

fn stops_early(random: &mut Random, _: &Graph, lines: &mut Lines) {
    let keep = match random.below(3) {
        0 => lines.len() - 1,
        _ => random.below(lines.len()),
    };
    lines.truncate(keep);
}

fn extra_lines(random: &mut Random, graph: &Graph, lines: &mut Lines) {
    let next = format!("block,{}", graph.blocks.len());
    let choices = [
        "halt", "goto,0", &next, "", "set,0,1", "graph,1,1", "graph,65,1", "junk", "goto,255",
        "copy,255,255", "block,0", "ite,eq,0,0,0,0", "halt,", " ", "\r",
    ];
    for _ in 0..random.between(1, 3) {
        let line = random.pick(&choices);
        lines.push(fields(line));
    }
}

fn register_at_limit(random: &mut Random, graph: &Graph, lines: &mut Lines) {
    let value = random.pick(&[graph.registers, graph.registers, graph.registers + 1, 16, 255]);
    replace(random, lines, &[Role::Register], value.to_string());
}

fn target_at_limit(random: &mut Random, graph: &Graph, lines: &mut Lines) {
    let blocks = graph.blocks.len();
    let value = random.pick(&[blocks, blocks, blocks - 1, blocks + 1, 64, 255]);
    replace(random, lines, &[Role::Target], value.to_string());
}

/// An `in` of a register just below R, at it or past it.
fn input_at_limit(random: &mut Random, graph: &Graph, lines: &mut Lines) {
    let r = graph.registers;
    let d = random.pick(&[r - 1, r, r, r + 1, 16, 255]).to_string();
    put_instruction(random, graph, lines, vec!["in".into(), d]);
}

/// A bad register and a bad target in one line: the register goes first.
fn both_at_limit(random: &mut Random, graph: &Graph, lines: &mut Lines) {
    let endings: Vec<usize> = (0..lines.len()).filter(|&at| lines[at][0] == "ite").collect();
    let line = format!("ite,geu,0,{},{},0", graph.registers, graph.blocks.len());
    match endings.len() {
        0 => replace_ending(lines, &line),
        _ => lines[random.pick(&endings)] = fields(&line),
    }
}

fn replace_ending(lines: &mut Lines, line: &str) {
    if let Some(last) = lines.last_mut() {
        *last = fields(line);
    }
}

fn graph_limits(random: &mut Random, graph: &Graph, lines: &mut Lines) {
    let (b, r) = (graph.blocks.len(), graph.registers);
    let choices = [
        (0, r),
        (65, r),
        (64, r),
        (255, r),
        (256, r),
        (b, 0),
        (b, 17),
        (b, 16),
        (b, 255),
        (b, 256),
        (b + 1, r),
        (b.saturating_sub(1), r),
        (b, r.saturating_sub(1)),
        (1, r),
        (b, 1),
        (0, 0),
        (65, 17),
        (1, 1),
        (64, 16),
    ];
    let (blocks, registers) = random.pick(&choices);
    lines[0] = fields(&format!("graph,{blocks},{registers}"));
}

fn empty_line(random: &mut Random, _: &Graph, lines: &mut Lines) {
    let at = random.below(lines.len() + 1);
    lines.insert(at, vec![String::new()]);
}

fn wrong_form(random: &mut Random, graph: &Graph, lines: &mut Lines) {
    let forms = [
        "eq,0,0,0", "geu,0,0,0", "mul,0,0,0", "Halt", "HALT", "nop", "copy,0,0,0", "set,0",
        "sx,0,0,0", "add,0,0", "set,0,0,0", "sub,0,0,0,0", "block", "graph,1", "graph,1,1,1",
        "goto", "goto,0,0", "halt,0", "ite,eq,0,0,0", "ite,eq,0,0,0,0,0", "ite,add,0,0,0,0",
        "ite,12,0,0,0,0", "ite,EQ,0,0,0,0", "ite,,0,0,0,0", "set, 0,0", "3,0,0,0", ",", ",,,",
        "in", "in,", "in,256", "in,00", "in,0,0", "in,-1", "in,x", "in, 0", "inn,0", "In,0", "i,0",
        "addx,0,0,0", "ad,0,0,0", "gotox,0", "sett,0,0", "ite,lt,0,0,0,x", "setx", "block,-1",
    ];
    let form = fields(random.pick(&forms));
    put_instruction(random, graph, lines, form);
}

/// A right form in a place where it is not due.
fn not_due(random: &mut Random, graph: &Graph, lines: &mut Lines) {
    let forms = [
        "graph,1,1", "block,0", "block,255", "halt", "goto,0", "goto,255", "set,0,0", "set,255,0",
        "copy,0,0", "ite,ne,0,0,0,0", "ite,ne,255,0,255,0", "graph,64,16", "sx,16,0", "in,0",
        "in,255",
    ];
    let at = random.below(lines.len() + 1);
    lines.insert(at, fields(random.pick(&forms)));
    if random.percent(20) {
        register_at_limit(random, graph, lines);
    }
}

fn unknown_comparison(random: &mut Random, _: &Graph, lines: &mut Lines) {
    let names = ["le", "gt", "sub", "ltuu", "l", "", "Eq", "eq ", "12"];
    let name = random.pick(&names).to_string();
    replace(random, lines, &[Role::Comparison], name);
}

const LINE_DAMAGE: [LineDamage; 32] = [
    leading_zero, bad_literal, good_literal, big_number, odd_number, empty_field, extra_field,
    missing_field, odd_byte, carriage_returns, swapped, deleted, doubled, ninth, wrong_block,
    stops_early, extra_lines, register_at_limit, target_at_limit, both_at_limit, graph_limits,
    empty_line, wrong_form, not_due, unknown_comparison, register_at_limit, target_at_limit,
    target_at_limit, target_at_limit, not_due, stops_early, input_at_limit,
];

/// Damage done to the bytes, where lines no longer matter.
fn damage_bytes(random: &mut Random, text: &mut Vec<u8>) {
    let at = random.below(text.len().max(1)).min(text.len());
    match random.below(8) {
        0 => drop(text.pop()),
        1 => text.truncate(at),
        2 => text
            .extend(random.pick(&["x", " ", "\n", "\0", "halt", "block,0", "\r\n", ","]).bytes()),
        3 if at < text.len() => text[at] = random.below(256) as u8,
        4 => text.insert(at, random.below(256) as u8),
        5 if at < text.len() => drop(text.remove(at)),
        6 => text.insert(at, b'\n'),
        _ => text.insert(at, random.pick(b" ,-0\r\t")),
    }
}

/// Texts that no graph needs to make.
fn bare_text(random: &mut Random) -> Vec<u8> {
    let texts = [
        "",
        "\n",
        "\n\n",
        "graph,1,1",
        "graph,1,1\n",
        "graph,65,1\n",
        "graph,64,1\n",
        "halt\n",
        "graph,1,1\nblock,0",
        "graph,1,1\nblock,0\n",
        "graph,1,1\nblock,0\nhalt",
        "block,0\n",
        "graph,1,1\nblock,0\nhalt\n\n",
        "graph,1,1\nblock,0\nhalt\nx",
        ",\n",
        "graph,0,0\n",
        "graph,2,1\nblock,0\nhalt\n",
        "graph,2,1\nblock,0\nhalt\nblock,0\nhalt\n",
        "\r\n",
        "x",
        "graph,1,16\nblock,0\ncopy,16,0\nhalt\n",
        "graph,1,1\nblock,0\ngoto,1\n",
        "graph,1,1\n\n",
    ];
    random.pick(&texts).as_bytes().to_vec()
}

/// A text brought to an exact length near the limit of 16,384 bytes; in many a line is faulty.
pub fn long_text(random: &mut Random) -> Vec<u8> {
    let length = random.pick(&[16_383, 16_384, 16_384, 16_385, 16_385, 16_385, 16_400, 20_000]);
    let mut text = match random.percent(75) {
        true => faulty_lines::text(random),
        false => print(&graphs::small_graph(random)).into_bytes(),
    };
    let filler = random.pick(&["\n", "halt\n", "0", "set,0,1\n", "x"]).as_bytes();
    if random.percent(15) {
        text = b"graph,1,1\nblock,0\nset,0,".to_vec();
    }
    while text.len() < length {
        text.extend(filler);
    }
    text.truncate(length);
    text
}

/// A graph and a text made from its text by damage.
pub fn damaged(random: &mut Random) -> Vec<u8> {
    if random.percent(6) {
        return bare_text(random);
    }
    let graph = graphs::small_graph(random);
    let mut lines = lines_of(&graph);
    let times = if random.percent(20) { 2 } else { 1 };
    if random.percent(80) {
        for _ in 0..times {
            if !lines.is_empty() {
                random.pick(&LINE_DAMAGE)(random, &graph, &mut lines);
            }
        }
        return bytes_of(&lines);
    }
    let mut text = bytes_of(&lines);
    for _ in 0..times {
        damage_bytes(random, &mut text);
    }
    text
}
