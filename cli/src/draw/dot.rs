//! The picture in the dot language: a node a block, a cluster a state.

use super::{forms, Picture};
use crate::edges::{self, Edge};
use gutkavu::{Block, Ending};
use std::fmt::Write;
use std::mem;

const GREY: &str = "#707070";
/// What blocks, states and edges that a run never passed are drawn with.
const LIGHT: &str = "#a8a8a8";
const BLACK: &str = "#404040";
/// What states that touch a register are filled with.
const AMBER: &str = "#ffc94d";
/// The look of what is said of a state: text alone.
const CAPTION: &str =
    "shape=plaintext, style=\"\", fontname=\"sans-serif\", width=0, height=0, margin=0";
/// How many characters a line of a title has at most.
const WIDTH: usize = 48;

/// Hue, saturation and brightness; the hues of neighbouring states lie far apart.
fn colour(state: u32, saturation: f64, brightness: f64) -> String {
    let hue = (0.58 + 0.381_966 * f64::from(state)).fract();
    format!("{hue:.3} {saturation:.2} {brightness:.2}")
}

fn pale(state: u32) -> String {
    colour(state, 0.07, 1.0)
}

fn fill(state: u32) -> String {
    colour(state, 0.25, 1.0)
}

fn dark(state: u32) -> String {
    colour(state, 0.75, 0.55)
}

/// Text inside a label of the HTML kind.
fn escaped(text: &str) -> String {
    let replace = |one: char| match one {
        '&' => String::from("&amp;"),
        '<' => String::from("&lt;"),
        '>' => String::from("&gt;"),
        '"' => String::from("&quot;"),
        other => other.to_string(),
    };
    text.chars().map(replace).collect()
}

fn row(content: &str) -> String {
    format!("<tr><td align=\"left\" balign=\"left\">{content}</td></tr>")
}

/// What stands at an edge of a block, where it was taken so many times. The passes of both edges of
/// an `ite` with equal targets are counted together, and stand at the true one.
fn label(block: &Block, branch: Option<bool>, count: u64) -> String {
    let equal = matches!(block.ending, Ending::Ite { t, f, .. } if t == f);
    let words = match (branch, count) {
        (None, 0) => return String::new(),
        (None, _) => format!("× {count}"),
        (Some(branch), 0) => branch.to_string(),
        (Some(false), _) if equal => String::from("false"),
        (Some(true), _) if equal => format!("true (both × {count})"),
        (Some(branch), _) => format!("{branch} × {count}"),
    };
    // Spaces keep the words clear of the line, which may be a thick one.
    format!("  {words} ")
}

/// Grows by the same amount where a count grows tenfold.
fn width(least: f64, count: u64) -> f64 {
    (least + 0.5 * (count.max(1) as f64).log10()).min(5.0)
}

/// The lines of a title. A long one is parted behind colons, and behind commas where that is not
/// enough.
fn lines(title: &str) -> Vec<String> {
    let fits = |text: &str| text.trim_end().chars().count() <= WIDTH;
    if fits(title) {
        return vec![title.to_string()];
    }
    let mut lines: Vec<String> = Vec::new();
    for section in title.split_inclusive(": ") {
        let mut line = String::new();
        for part in section.split_inclusive(", ") {
            if !line.is_empty() && !fits(&format!("{line}{part}")) {
                lines.push(mem::take(&mut line));
            }
            line += part;
        }
        lines.push(line);
    }
    lines
}

impl Picture<'_> {
    /// The picture's text.
    pub fn dot(&self) -> String {
        let mut out = self.head();
        for state in 0..self.machine.states() {
            self.cluster(&mut out, state);
        }
        let blocks: Vec<Block> =
            (0..self.graph.blocks()).map_while(|number| self.graph.block(number)).collect();
        for (number, block) in (0..).zip(&blocks) {
            if self.machine.state_of(number).is_none() {
                let _ = write!(out, "    {}", self.node(number, block));
            }
        }
        for (number, block) in (0..).zip(&blocks) {
            edges::leaving(number, block).iter().for_each(|edge| out += &self.edge(block, edge));
        }
        if let Some(title) = self.title {
            out += &heading(title);
        }
        out + "}\n"
    }

    fn head(&self) -> String {
        let (graph, machine) = (self.graph, self.machine);
        let (blocks, registers) = (graph.blocks(), graph.registers());
        let (states, wires) = (machine.states(), machine.wires_in_all());
        let mut out = format!(
            "// Control-flow graph and states: {blocks} blocks, {registers} registers, {states} states, {wires} wires.\n"
        );
        out += "digraph blocks {\n";
        out += "    graph [fontname=\"sans-serif\", fontsize=11, labeljust=l, newrank=true, nodesep=0.4, ranksep=0.4];\n";
        out += "    node [shape=box, style=\"rounded,filled\", fontname=\"monospace\", fontsize=11, margin=\"0.08,0.04\", width=1.4];\n";
        out + "    edge [fontname=\"sans-serif\", fontsize=10, arrowsize=0.8];\n"
    }

    fn cluster(&self, out: &mut String, state: u32) {
        let is_passed = self.machine.blocks(state).any(|block| self.is_passed(block));
        let dark = if is_passed { dark(state) } else { String::from(GREY) };
        let touching = self.touching.filter(|one| one.states.contains(&state));
        let fill = match touching {
            Some(_) => String::from(AMBER),
            None if is_passed => pale(state),
            None => String::from("#f6f6f6"),
        };
        let line = touching.map_or(String::new(), |one| format!("touches r{}\\l", one.register));
        let _ = writeln!(out, "    subgraph cluster_{state} {{");
        let _ = writeln!(out, "        label=\"\"; style=\"rounded,filled\"; margin=12;");
        let _ = writeln!(out, "        fillcolor=\"{fill}\"; color=\"{dark}\";");
        self.caption(out, state, &dark, &line);
        for number in self.machine.blocks(state) {
            if let Some(block) = self.graph.block(number) {
                let _ = write!(out, "        {}", self.node(number, &block));
            }
        }
        let _ = writeln!(out, "    }}");
    }

    /// What is said of a state. It is a node at the left of the starter, as edges go round nodes; a
    /// label of the cluster they would cross.
    fn caption(&self, out: &mut String, state: u32, colour: &str, line: &str) {
        let wires = self.machine.wires(state).unwrap_or(0);
        let starter = self.machine.starter(state).unwrap_or(0);
        let label = format!("state {state}\\l{wires} wires\\l{line}");
        let _ = writeln!(
            out,
            "        s{state} [label=\"{label}\", fontcolor=\"{colour}\", {CAPTION}];"
        );
        let _ = writeln!(out, "        {{ rank=same; s{state} -> b{starter} [style=invis]; }}");
    }

    /// Whether a block is drawn in full: all are where there is no run.
    fn is_passed(&self, block: u32) -> bool {
        match self.passes {
            Some(passes) => passes.of_block(block) > 0,
            None => true,
        }
    }

    fn is_starter(&self, block: u32) -> bool {
        self.machine.starters().contains(&block)
    }

    /// A block's node; a starter's border is double.
    fn node(&self, number: u32, block: &Block) -> String {
        let label = self.label(number, block);
        let borders = if self.is_starter(number) { ", peripheries=2" } else { "" };
        let look = match self.machine.state_of(number) {
            None => format!("style=\"rounded,dashed\", color=\"{GREY}\", fontcolor=\"{GREY}\""),
            Some(_) if !self.is_passed(number) => {
                format!("fillcolor=\"white\", color=\"{LIGHT}\", fontcolor=\"{GREY}\"")
            }
            Some(state) => format!("fillcolor=\"{}\", color=\"{}\"", fill(state), dark(state)),
        };
        format!("b{number} [label={label}, {look}{borders}];\n")
    }

    /// A block's number, its instructions and what it ends in, one below the other.
    fn label(&self, number: u32, block: &Block) -> String {
        let state = self.machine.state_of(number);
        let what = match state {
            None => " (unreachable)",
            Some(_) if number == 0 => " (entry)",
            Some(_) => "",
        };
        let times = match self.passes.map_or(0, |passes| passes.of_block(number)) {
            0 => String::new(),
            count => format!(" × {count}"),
        };
        let mut rows =
            row(&format!("<font face=\"sans-serif\"><b>block {number}{what}</b>{times}</font>"));
        for &instruction in &block.instructions {
            rows += &row(&escaped(&forms::instruction(instruction)));
        }
        match block.ending {
            Ending::Ite { comparison, a, b, .. } => {
                let condition = escaped(&forms::comparison(comparison, a, b));
                rows += &row(&format!("if {condition}"));
            }
            Ending::Halt => {
                let ground = if state.is_some() && self.is_passed(number) { BLACK } else { GREY };
                rows += &format!(
                    "<tr><td bgcolor=\"{ground}\"><font color=\"white\">halt</font></td></tr>"
                );
            }
            Ending::Goto(_) => {}
        }
        format!("<<table border=\"0\" cellborder=\"0\" cellspacing=\"0\" cellpadding=\"2\">{rows}</table>>")
    }

    /// An edge to a starter ends the cycle: it is bold, and has the colour of the state that comes
    /// next. A halt is drawn in its block.
    fn edge(&self, block: &Block, edge: &Edge) -> String {
        let Edge { from: source, to: Some(target), branch } = *edge else { return String::new() };
        let count = self.passes.map(|passes| passes.of_edge(source, target));
        let label = label(block, branch, count.unwrap_or(0));
        let next = self.machine.state_of(target).filter(|_| self.is_starter(target));
        let look = match (self.machine.state_of(source), next, count) {
            (None, ..) => format!("style=dashed, color=\"{GREY}\", fontcolor=\"{GREY}\""),
            (_, _, Some(0)) => {
                format!("style=solid, color=\"{LIGHT}\", fontcolor=\"{GREY}\", penwidth=0.6")
            }
            (_, Some(state), _) => {
                let colour = dark(state);
                format!("style=bold, color=\"{colour}\", fontcolor=\"{colour}\"")
            }
            _ => format!("style=solid, color=\"{BLACK}\""),
        };
        let pen = match count {
            None | Some(0) => String::new(),
            Some(count) => {
                let least = if next.is_some() { 2.0 } else { 1.0 };
                format!(", penwidth={:.1}", width(least, count))
            }
        };
        format!("    b{source} -> b{target} [label=\"{label}\", {look}{pen}];\n")
    }
}

/// The title above the picture; below the clusters, so that none of them takes it over.
fn heading(title: &str) -> String {
    let lines = lines(title);
    let lines = lines.iter().map(|line| escaped(line.trim_end()) + "<br align=\"left\"/>");
    let text: String = lines.collect();
    format!("    labelloc=t; fontsize=13; label=<{text}>;\n")
}
