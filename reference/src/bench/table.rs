//! The table of times: one row an operation.

use super::runs::{Kind, Program, PLAIN, PROVED};
use super::timing::{compare, duration, rate, Timing, ROUNDS, SAMPLE};
use super::work::{Bounds, Question, Work, BLOCK_BUDGET, CYCLE_BUDGET};
use gutkavu::operations;
use std::fmt::Write;
use std::hint::black_box;

pub fn heading() -> String {
    let sample = SAMPLE.as_millis();
    format!(
        "Time a call: the median of {ROUNDS} rounds in turns, each program at least {sample} ms a round.\n\
         Ratio: proved / plain, the median of the rounds and its quartiles.\n\
         Runs: so many blocks or cycles a call; the last two columns are blocks or cycles a second.\n\
         Touches, first touching: the last state, and the register whose first such state comes latest.\n\
         Bounds: of the last state, all registers between -720 and 720, and all single.\n\
         Runs with words: in these rows the first instruction of each block is `in`.\n\
         With / without: the proved runs with words and without, on the graph of the other rows.\n\
         On every graph both programs gave the same answers and the same buffers.\n"
    )
}

pub fn heads(out: &mut String, first: &str, [x, y]: [&str; 2]) {
    let line =
        format!("  {first:<30}{x:>9}{y:>9}{:>7}  {:<16}{x:>11}{y:>11}", "ratio", "(quartiles)");
    let _ = writeln!(out, "{line}");
}

/// A run and a comparison of captures have rates beside their times.
pub fn row(out: &mut String, name: &str, timing: &Timing, count: Option<u32>) {
    let Timing { first, second, ratio: [low, median, high] } = *timing;
    let spread = format!("({low:.2} to {high:.2})");
    let mut cells = [duration(first), duration(second), String::new(), String::new()];
    if let Some(count) = count {
        cells[2] = rate(f64::from(count) / first);
        cells[3] = rate(f64::from(count) / second);
    }
    let [x, y, per_second, other] = cells;
    let line =
        format!("  {name:<30}{x:>9}{y:>9}{median:>7.2}  {spread:<16}{per_second:>11}{other:>11}");
    let _ = writeln!(out, "{}", line.trim_end());
}

fn texts(work: &Work, out: &mut String) {
    let graph = &work.tables.graph;
    let (mut x, mut y) = (graph.clone(), graph.clone());
    let read = compare(
        || operations::read(black_box(&work.text), black_box(&mut x)),
        || plain::read(black_box(&work.text), black_box(&mut y)),
    );
    row(out, "read", &read, None);
    let (mut x, mut y) = (vec![0; gutkavu::TEXT_BYTES], vec![0; gutkavu::TEXT_BYTES]);
    let write = compare(
        || operations::write(black_box(graph), black_box(&mut x)),
        || plain::write(black_box(graph), black_box(&mut y)),
    );
    row(out, "write", &write, None);
}

fn synthesis(work: &Work, out: &mut String) {
    let (graph, machine) = (&work.tables.graph, &work.tables.machine);
    let (mut x, mut y) = (machine.clone(), machine.clone());
    let made = compare(
        || operations::synthesise(black_box(graph), black_box(&mut x)),
        || plain::synthesise(black_box(graph), black_box(&mut y)),
    );
    row(out, "synthesise", &made, None);
}

fn questions(work: &Work, out: &mut String) {
    let (table, Question { state, register }) = (&work.tables.machine, work.question());
    let asked = compare(
        || operations::touches(black_box(table), black_box(state), black_box(register)),
        || plain::touches(black_box(table), black_box(state), black_box(register)),
    );
    row(out, "touches", &asked, None);
    let searched = compare(
        || operations::first_touching(black_box(table), black_box(register)),
        || plain::first_touching(black_box(table), black_box(register)),
    );
    row(out, "first touching", &searched, None);
}

/// Of the last state, which is the one state of graphs with 16 registers.
fn bounds(work: &Work, out: &mut String) {
    let (table, Question { state, .. }) = (&work.tables.machine, work.question());
    let kinds =
        [("bounds, -720 to 720", Bounds::RATES), ("bounds, single", Bounds::single(work.file))];
    for (name, before) in kinds {
        let call = |run: fn(&[u32], &mut [u32], &mut [u32], u32) -> u32| {
            let Bounds { mut lowest, mut highest } = black_box(before);
            let number = run(black_box(table), &mut lowest, &mut highest, black_box(state));
            (number, lowest, highest)
        };
        let timing = compare(|| call(operations::bounds), || call(plain::bounds));
        row(out, name, &timing, None);
    }
}

/// A run without words, the one with them, and the large budget.
const RUNS: [(&str, Kind, Kind, u32); 2] = [
    ("run graph", Program::graph, Program::graph_with_words, BLOCK_BUDGET),
    ("run machine", Program::machine, Program::machine_with_words, CYCLE_BUDGET),
];

fn runs(work: &Work, out: &mut String) {
    for (name, run, with_words, large) in RUNS {
        for (name, run, tables) in [
            (name.to_string(), run, &work.tables),
            (format!("{name} with words"), with_words, &work.reading),
        ] {
            for budget in [large, 1] {
                let timing = compare(
                    || run(&PROVED, work, tables, budget),
                    || run(&PLAIN, work, tables, budget),
                );
                row(out, &format!("{name}, {budget}"), &timing, Some(budget));
            }
        }
    }
}

/// The proved runs with words and without, on the same tables; gives the highest ratio.
fn words(work: &Work, out: &mut String) -> f64 {
    let (tables, mut highest) = (&work.tables, 0.0);
    for (name, run, with_words, large) in RUNS {
        for budget in [large, 1] {
            let timing = compare(
                || with_words(&PROVED, work, tables, budget),
                || run(&PROVED, work, tables, budget),
            );
            row(out, &format!("{name}, {budget}"), &timing, Some(budget));
            highest = timing.ratio[1].max(highest);
        }
    }
    highest
}

/// The rows of a graph, and the highest ratio of a run with words to one without.
pub fn rows(work: &Work) -> (String, f64) {
    let (blocks, registers, bytes) = (work.blocks, work.registers, work.text.len());
    let (states, wires) = (work.states(), work.wires());
    let mut out = format!(
        "\nblocks {blocks}, registers {registers} (states {states}, wires {wires}, bytes of text {bytes})\n"
    );
    heads(&mut out, "", ["proved", "plain"]);
    texts(work, &mut out);
    synthesis(work, &mut out);
    questions(work, &mut out);
    bounds(work, &mut out);
    runs(work, &mut out);
    heads(&mut out, "with words / without, proved", ["with", "without"]);
    let highest = words(work, &mut out);
    (out, highest)
}
