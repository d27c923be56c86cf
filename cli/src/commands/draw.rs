//! `draw`: the graph, its blocks grouped by state, as a Graphviz text or an image.

use crate::arguments::{Draw, Setup};
use crate::course::Course;
use crate::draw::{image, Format, Passes, Picture};
use crate::failure::Failure;
use crate::input;
use crate::interrupt::Interrupt;
use crate::output::{Answer, Output, Paint};
use crate::progress::Progress;
use crate::refused::Refused;
use crate::table::joined;
use crate::touching::Touching;
use gutkavu::Graph;
use serde::Serialize;
use std::fs;
use std::path::Path;

/// A picture that is the answer itself.
#[derive(Serialize)]
struct Printed {
    file: String,
    dot: String,
}

impl Answer for Printed {
    fn text(&self, _: Paint) -> String {
        self.dot.clone()
    }
}

/// A picture that was put into a file.
#[derive(Serialize)]
struct Written {
    file: String,
    output: String,
}

impl Answer for Written {
    /// The file is the answer.
    fn text(&self, _: Paint) -> String {
        String::new()
    }
}

/// The file to write and what it is to hold; none where the picture is printed.
fn target(output: Option<&Path>) -> Result<Option<(&Path, Format)>, Failure> {
    let Some(path) = output.filter(|path| path.as_os_str() != "-") else { return Ok(None) };
    match Format::of(path) {
        Some(format) => Ok(Some((path, format))),
        None => {
            let name = path.display();
            let message = format!("{name}: a picture's file ends in .svg, .png, .pdf, .dot or .gv");
            Err(Failure::Trouble(message))
        }
    }
}

/// A run as it is drawn.
struct Traced {
    passes: Passes,
    title: String,
    /// Whether it came to its end.
    is_whole: bool,
}

impl Traced {
    /// Runs graph and machine, cycle by cycle, until the run ends or is broken off.
    fn of(file: &str, graph: &Graph, setup: &Setup, out: &Output) -> Result<Traced, Failure> {
        let mut course = Course::new(file, graph, setup)?;
        let interrupt = Interrupt::catch()?;
        let mut progress = Progress::new(course.most_cycles(), false, out);
        let mut passes = Passes::new(graph.blocks());
        while !interrupt.has_come() {
            let Some(cycle) = course.cycle() else { break };
            passes.add(&cycle.blocks, course.by_graph().next);
            progress.show(course.cycles());
        }
        let title = title(&course, &setup.registers.0);
        Ok(Traced { passes, title, is_whole: course.outcome().is_some() })
    }
}

/// What the run started with, and what became of it.
fn title(course: &Course, registers: &[u32]) -> String {
    let value = |(register, &word): (usize, &u32)| format!("r{register} = {}", word as i32);
    let start = match registers {
        [] => String::from("all registers 0"),
        _ => joined(registers.iter().enumerate().map(value), ", "),
    };
    let (ending, blocks) = (course.ending(), course.by_graph().blocks);
    format!("{start}: {ending}, {blocks} blocks in {} cycles", course.cycles())
}

fn write(path: &Path, format: Format, dot: &str) -> Result<(), Failure> {
    // The image is made before the file is opened: where that fails, an older file stays.
    let bytes = image(dot, format).map_err(Failure::Trouble)?;
    fs::write(path, bytes).map_err(|error| Failure::Trouble(format!("{}: {error}", path.display())))
}

pub fn run(arguments: &Draw, out: &mut Output) -> Result<(), Failure> {
    let target = target(arguments.output.as_deref())?;
    let (file, graph) = input::graph(&arguments.file)?;
    let machine = graph.synthesise();
    let touching = arguments.touching.map(|register| Touching::of(&machine, register)).transpose();
    let touching = touching.map_err(|refusal| Refused::call(&file, refusal, refusal.meaning()))?;
    let traced = match arguments.trace {
        true => Some(Traced::of(&file, &graph, &arguments.course, out)?),
        false => None,
    };
    let picture = Picture {
        graph: &graph,
        machine: &machine,
        touching: touching.as_ref(),
        passes: traced.as_ref().map(|traced| &traced.passes),
        title: traced.as_ref().map(|traced| &traced.title[..]),
    };
    let dot = picture.dot();
    match target {
        None => out.answer(&Printed { file, dot })?,
        Some((path, format)) => {
            write(path, format, &dot)?;
            out.answer(&Written { file, output: input::name_of(path) })?;
        }
    }
    match traced {
        Some(Traced { is_whole: false, .. }) => Err(Failure::BrokenOff),
        _ => Ok(()),
    }
}
