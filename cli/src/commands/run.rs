//! `run`: the graph and its machine side by side.

mod record;
mod summary;
mod trace;

use crate::arguments::Run;
use crate::course::{Course, SLICE};
use crate::failure::Failure;
use crate::input;
use crate::interrupt::Interrupt;
use crate::output::Output;
use crate::progress::Progress;
use record::Recorder;
use std::io::{self, IsTerminal};
use summary::Summary;
use trace::Columns;

pub fn run(arguments: &Run, out: &mut Output) -> Result<(), Failure> {
    let (file, graph) = input::graph(&arguments.file)?;
    let mut course = Course::new(&file, &graph, &arguments.course)?;
    let mut beside = Beside {
        interrupt: Interrupt::catch()?,
        progress: Progress::new(course.most_cycles(), arguments.trace, out),
        recorder: arguments.record.as_deref().map(Recorder::new).transpose()?,
    };
    match arguments.trace {
        true => trace(&mut course, arguments.signed, &mut beside, out)?,
        false => advance(&mut course, &mut beside)?,
    }
    beside.finish()?;
    out.answer(&Summary::of(file, arguments, &course))?;
    match course.outcome() {
        Some(_) => Ok(()),
        None => Err(Failure::BrokenOff),
    }
}

/// What goes on beside a run.
struct Beside {
    interrupt: Interrupt,
    progress: Progress,
    recorder: Option<Recorder>,
}

impl Beside {
    /// Looks at a run before each step and after the last, and tells whether it goes on.
    fn goes_on(&mut self, course: &Course) -> Result<bool, Failure> {
        if let Some(recorder) = &mut self.recorder {
            recorder.line(course)?;
        }
        self.progress.show(course.cycles());
        Ok(!self.interrupt.has_come())
    }

    fn finish(self) -> Result<(), Failure> {
        self.recorder.map_or(Ok(()), Recorder::finish)
    }
}

/// Runs until it ends or is broken off, a cycle at a time where each is recorded.
fn advance(course: &mut Course, beside: &mut Beside) -> Result<(), Failure> {
    let slice = if beside.recorder.is_some() { 1 } else { SLICE };
    while beside.goes_on(course)? && course.advance(slice) > 0 {}
    Ok(())
}

/// As `advance`, a cycle at a time, and shows each.
fn trace(
    course: &mut Course,
    signed: bool,
    beside: &mut Beside,
    out: &mut Output,
) -> Result<(), Failure> {
    let columns = Columns::of(course, signed);
    let is_seen = io::stdout().is_terminal();
    out.head(&columns.head())?;
    while beside.goes_on(course)? {
        let Some(cycle) = course.cycle() else { break };
        out.answer(&columns.row(cycle))?;
        if is_seen {
            out.flush()?;
        }
    }
    match out.is_json() {
        true => Ok(()),
        false => out.text("\n"),
    }
}
