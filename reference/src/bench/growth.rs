//! How grouping grows with the number of blocks, and how many blocks a state has.

use super::graphs;
use super::timing::{duration, exponent, quick, slope};
use gutkavu::{operations, GRAPH_WORDS, MACHINE_WORDS};
use plain::grouping::{edges_of, group};
use reference::generate::shapes::Shape;
use reference::random::Random;
use std::fmt::Write;
use std::hint::black_box;

type Maker = fn(&mut Random, usize) -> Shape;

/// Graphs of each number of blocks, and graphs of growing size for the blocks of a state.
const GRAPHS: u64 = 200;
const GROWING: u64 = 1_000;
const REGISTERS: usize = 4;
const INSTRUCTIONS: usize = 2;
const COUNTS: [usize; 5] = [4, 8, 16, 32, 64];

struct Graph {
    words: Vec<u32>,
    /// Edges - blocks + 2.
    complexity: f64,
}

fn graph(make: Maker, seed: u64, blocks: usize) -> Result<Graph, String> {
    let mut random = Random::new(seed * 1_000 + blocks as u64);
    let shape = make(&mut random, blocks);
    let edges: usize = shape.iter().map(Vec::len).sum();
    let text = graphs::text(&mut random, &shape, REGISTERS, INSTRUCTIONS);
    let mut words = vec![0; GRAPH_WORDS];
    match operations::read(&text, &mut words).number {
        0 => Ok(Graph { words, complexity: (edges + 2) as f64 - blocks as f64 }),
        number => Err(format!("a graph is refused with {number}")),
    }
}

/// The mean over some graphs, and the worst.
#[derive(Clone, Copy, Default)]
struct Times {
    sum: f64,
    worst: f64,
}

impl Times {
    fn add(&mut self, time: f64) {
        self.sum += time;
        self.worst = self.worst.max(time);
    }

    fn mean(self) -> f64 {
        self.sum / GRAPHS as f64
    }
}

/// What was measured on the graphs of one number of blocks.
#[derive(Clone, Copy, Default)]
struct Row {
    blocks: f64,
    complexity: f64,
    proved: Times,
    plain: Times,
    grouping: Times,
}

fn measure(make: Maker, blocks: usize) -> Result<Row, String> {
    let mut row = Row { blocks: blocks as f64, ..Row::default() };
    let mut machine = vec![0; MACHINE_WORDS];
    for seed in 0..GRAPHS {
        let Graph { words, complexity } = graph(make, seed, blocks)?;
        row.complexity += complexity / GRAPHS as f64;
        row.proved
            .add(quick(|| operations::synthesise(black_box(&words), black_box(&mut machine))));
        let made = machine.clone();
        row.plain.add(quick(|| plain::synthesise(black_box(&words), black_box(&mut machine))));
        if made != machine {
            return Err(String::from("the two programs differ: the machine table"));
        }
        row.grouping.add(quick(|| group(&edges_of(black_box(&words)))));
    }
    Ok(row)
}

/// Mean and worst of synthesise, proved and plain, and of grouping alone, plain.
const COLUMNS: [fn(&Row) -> f64; 6] = [
    |row| row.proved.mean(),
    |row| row.proved.worst,
    |row| row.plain.mean(),
    |row| row.plain.worst,
    |row| row.grouping.mean(),
    |row| row.grouping.worst,
];

fn line(out: &mut String, first: &str, cells: impl Iterator<Item = String>) {
    let _ = write!(out, "  {first:<22}");
    cells.for_each(|cell| *out += &format!("{cell:>10}"));
    out.push('\n');
}

/// How a column grows: its exponent by what the rows grow in.
fn exponents(rows: &[Row], by: fn(&Row) -> f64) -> impl Iterator<Item = String> + '_ {
    COLUMNS.iter().map(move |column| {
        let points: Vec<(f64, f64)> = rows.iter().map(|row| (by(row), column(row))).collect();
        format!("{:.2}", exponent(&points))
    })
}

fn times(out: &mut String, name: &str, make: Maker) -> Result<(), String> {
    let rows: Vec<Row> =
        COUNTS.iter().map(|&blocks| measure(make, blocks)).collect::<Result<_, _>>()?;
    let _ = writeln!(out, "\nGrowth with the number of blocks: {GRAPHS} graphs of each, {name}");
    let names = ["proved synthesise", "plain synthesise", "plain grouping"];
    let _ = writeln!(out, "  {:<22}{:>20}{:>20}{:>20}", "", names[0], names[1], names[2]);
    let heads = ["mean", "worst"].iter().cycle().take(COLUMNS.len());
    line(out, "blocks (mean McCabe)", heads.map(|head| head.to_string()));
    for row in &rows {
        let first = format!("{} ({:.1})", row.blocks, row.complexity);
        line(out, &first, COLUMNS.iter().map(|column| duration(column(row))));
    }
    line(out, "exponent by blocks", exponents(&rows, |row| row.blocks));
    line(out, "exponent by McCabe", exponents(&rows, |row| row.complexity));
    Ok(())
}

/// Blocks and states of graphs of growing size.
fn gathering(out: &mut String, name: &str, make: Maker) -> Result<(), String> {
    let mut points = Vec::new();
    for seed in 0..GROWING {
        let blocks = 4 + (seed * 61 / GROWING) as usize;
        let Graph { words, .. } = graph(make, seed + GRAPHS, blocks)?;
        let states = group(&edges_of(&words)).count;
        points.push((blocks as f64, states as f64));
    }
    let (blocks, states) =
        points.iter().fold((0.0, 0.0), |sum, point| (sum.0 + point.0, sum.1 + point.1));
    let _ = writeln!(
        out,
        "  {name:<22}{:.2} in all, {:.2} by the slope of the least-squares line",
        blocks / states,
        1.0 / slope(&points)
    );
    Ok(())
}

pub fn report() -> Result<String, String> {
    let makers: [(&str, Maker); 2] = [("jumps", graphs::jumps), ("structured", graphs::structured)];
    let mut out = String::new();
    for (name, make) in makers {
        times(&mut out, name, make)?;
    }
    let _ = writeln!(out, "\nBlocks a state: {GROWING} graphs of 4 to 64 blocks");
    for (name, make) in makers {
        gathering(&mut out, name, make)?;
    }
    Ok(out)
}
