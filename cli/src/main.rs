//! The command `gutkavu`: what the proved library can do with a graph, from a shell.

mod arguments;
mod commands;
mod course;
mod datapath;
mod draw;
mod edges;
mod explain;
mod failure;
mod input;
mod interrupt;
mod numbers;
mod output;
mod placement;
mod progress;
mod refused;
#[cfg(test)]
mod samples;
mod table;
mod touching;

use arguments::{Arguments, Command};
use clap::Parser;
use failure::Failure;
use output::Output;
use std::process::ExitCode;

fn run(arguments: &Arguments, out: &mut Output) -> Result<(), Failure> {
    match &arguments.command {
        Command::Check(check) => commands::check::run(check, out),
        Command::List(list) => commands::list::run(list, out),
        Command::States(states) => commands::states::run(states, out),
        Command::Wires(wires) => commands::wires::run(wires, out),
        Command::Run(run) => commands::run::run(run, out),
        Command::Draw(draw) => commands::draw::run(draw, out),
        Command::Touches(touches) => commands::touches::run(touches, out),
        Command::Bounds(bounds) => commands::bounds::run(bounds, out),
        Command::Compare(compare) => commands::compare::run(compare, out),
        Command::Format(format) => commands::format::run(format, out),
    }
}

fn main() -> ExitCode {
    let arguments = Arguments::parse();
    let mut out = Output::new(arguments.json);
    let done = run(&arguments, &mut out);
    match out.flush().and(done) {
        Ok(()) => ExitCode::SUCCESS,
        Err(failure) => failure.report(&mut out),
    }
}
