//! The picture in the dot language: a node a block, a cluster a state.

use super::forms;
use super::tables::{Branch, Edge, Tables};
use super::touching::Touching;
use std::fmt::Write;

const GREY: &str = "#909090";
const BLACK: &str = "#404040";
/// What states that touch a register are filled with.
const AMBER: &str = "#ffc94d";

/// Hue, saturation and brightness; the hues of neighbouring states lie far apart.
fn colour(state: usize, saturation: f64, brightness: f64) -> String {
    let hue = (0.58 + 0.381_966 * state as f64).fract();
    format!("{hue:.3} {saturation:.2} {brightness:.2}")
}

fn pale(state: usize) -> String {
    colour(state, 0.07, 1.0)
}

fn fill(state: usize) -> String {
    colour(state, 0.25, 1.0)
}

fn dark(state: usize) -> String {
    colour(state, 0.75, 0.55)
}

/// Text inside a label of the HTML kind.
fn escaped(text: &str) -> String {
    let replace = |byte: char| match byte {
        '&' => String::from("&amp;"),
        '<' => String::from("&lt;"),
        '>' => String::from("&gt;"),
        '"' => String::from("&quot;"),
        other => other.to_string(),
    };
    text.chars().map(replace).collect()
}

fn row(content: &str) -> String {
    format!("<tr><td align=\"left\" balign=\"left\">{content}</td></tr>")
}

/// A block's number, its instructions and what it ends in, one below the other.
fn label(tables: &Tables, n: usize) -> String {
    let what = match tables.state(n) {
        None => " (unreachable)",
        Some(_) if n == 0 => " (entry)",
        Some(_) => "",
    };
    let mut rows = row(&format!("<font face=\"sans-serif\"><b>block {n}{what}</b></font>"));
    for words in tables.instructions(n) {
        rows += &row(&escaped(&forms::instruction(words)));
    }
    match *tables.ending(n) {
        [2, code, a, b, ..] => {
            let condition = escaped(&forms::comparison(code, a, b));
            rows += &row(&format!("if {condition}"));
        }
        [3, ..] => {
            let dark = if tables.state(n).is_some() { BLACK } else { GREY };
            rows +=
                &format!("<tr><td bgcolor=\"{dark}\"><font color=\"white\">halt</font></td></tr>");
        }
        _ => {}
    }
    format!(
        "<<table border=\"0\" cellborder=\"0\" cellspacing=\"0\" cellpadding=\"2\">{rows}</table>>"
    )
}

/// A block's node; a starter's border is double.
fn node(tables: &Tables, n: usize) -> String {
    let label = label(tables, n);
    let Some(state) = tables.state(n) else {
        return format!(
            "b{n} [label={label}, style=\"rounded,dashed\", color=\"{GREY}\", fontcolor=\"{GREY}\"];\n"
        );
    };
    let (fill, dark) = (fill(state), dark(state));
    let borders = if tables.is_starter(n) { ", peripheries=2" } else { "" };
    format!("b{n} [label={label}, fillcolor=\"{fill}\", color=\"{dark}\"{borders}];\n")
}

fn cluster(out: &mut String, tables: &Tables, touching: Option<&Touching>, state: usize) {
    let (dark, wires) = (dark(state), tables.wires(state));
    let (fill, line) = match touching.filter(|one| one.states[state]) {
        Some(one) => (AMBER.to_string(), format!("touches r{}\\l", one.register)),
        None => (pale(state), String::new()),
    };
    let _ = writeln!(out, "    subgraph cluster_{state} {{");
    // Short lines at the left, so that edges into the state seldom cross them.
    let _ = writeln!(out, "        label=\"state {state}\\l{wires} wires\\l{line}\";");
    let _ = writeln!(out, "        style=\"rounded,filled\"; margin=12;");
    let _ = writeln!(out, "        fillcolor=\"{fill}\"; color=\"{dark}\"; fontcolor=\"{dark}\";");
    for n in (0..tables.blocks()).filter(|&n| tables.state(n) == Some(state)) {
        let _ = write!(out, "        {}", node(tables, n));
    }
    let _ = writeln!(out, "    }}");
}

/// An edge to a starter ends the cycle: it is bold, and has the colour of the state that comes next.
fn edge(tables: &Tables, edge: &Edge) -> String {
    let Edge { source, target, branch } = *edge;
    let label = match branch {
        Branch::Goto => "",
        Branch::True => " true ",
        Branch::False => " false ",
    };
    let look = match (tables.state(source), tables.state(target)) {
        (None, _) => format!("style=dashed, color=\"{GREY}\", fontcolor=\"{GREY}\""),
        (_, Some(state)) if tables.is_starter(target) => {
            format!("style=bold, color=\"{0}\", fontcolor=\"{0}\"", dark(state))
        }
        _ => format!("style=solid, color=\"{BLACK}\""),
    };
    format!("    b{source} -> b{target} [label=\"{label}\", {look}];\n")
}

pub fn dot(tables: &Tables, touching: Option<&Touching>) -> String {
    let (blocks, states) = (tables.blocks(), tables.states());
    let wires: u32 = (0..states).map(|state| tables.wires(state)).sum();
    let mut out = format!(
        "// Control-flow graph and states: {blocks} blocks, {} registers, {states} states, {wires} wires.\n",
        tables.registers()
    );
    out += "digraph blocks {\n";
    out += "    graph [fontname=\"sans-serif\", fontsize=11, labeljust=l, newrank=true, nodesep=0.4, ranksep=0.4];\n";
    out += "    node [shape=box, style=\"rounded,filled\", fontname=\"monospace\", fontsize=11, margin=\"0.08,0.04\", width=1.4];\n";
    out += "    edge [fontname=\"sans-serif\", fontsize=10, arrowsize=0.8];\n";
    for state in 0..states {
        cluster(&mut out, tables, touching, state);
    }
    for n in (0..blocks).filter(|&n| tables.state(n).is_none()) {
        let _ = write!(out, "    {}", node(tables, n));
    }
    for n in 0..blocks {
        tables.edges(n).iter().for_each(|way| out += &edge(tables, way));
    }
    out + "}\n"
}
