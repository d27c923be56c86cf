//! The commands: cases, answers, list, stats, text, pieces, compare, fit, simulate, bench, texts,
//! draw.

mod bench;
mod compare;
mod draw;
mod fit_check;
mod simulate;
mod tally;

use reference::answer::answer;
use reference::case::{read_cases, Case};
use reference::generate::{self, exact};
use reference::listing::listing;
use reference::stats::Stats;
use std::io::{self, Read, Write};
use std::process::ExitCode;
use std::thread;
use std::time::Duration;

const USAGE: &str = "usage: reference cases SEED COUNT > cases
       reference answers < cases
       reference list < text
       reference stats < cases
       reference text BYTES
       reference pieces BYTES < text
       reference compare SEED COUNT
       reference fit SEED COUNT
       reference simulate SEED COUNT
       reference bench
       reference texts FOLDER
       reference draw [--touching R] < text
";

fn input() -> Result<Vec<u8>, String> {
    let mut bytes = Vec::new();
    io::stdin().read_to_end(&mut bytes).map_err(|error| error.to_string())?;
    Ok(bytes)
}

fn input_cases() -> Result<Vec<Case>, String> {
    read_cases(&input()?).map_err(|index| format!("case {index} is damaged"))
}

/// A command that takes a seed and a count.
fn seeded(
    seed: &str,
    count: &str,
    command: fn(u64, usize) -> Result<Vec<u8>, String>,
) -> Result<Vec<u8>, String> {
    let seed: u64 = seed.parse().map_err(|_| String::from("SEED is no number"))?;
    let count: usize = count.parse().map_err(|_| String::from("COUNT is no number"))?;
    command(seed, count)
}

fn cases(seed: u64, count: usize) -> Result<Vec<u8>, String> {
    let mut stream = Vec::new();
    generate::cases(seed, count).iter().for_each(|case| case.append_to(&mut stream));
    Ok(stream)
}

fn answers() -> Result<Vec<u8>, String> {
    let lines = input_cases()?.into_iter().map(|case| answer(&case).line() + "\n");
    Ok(lines.collect::<String>().into_bytes())
}

fn bytes(number: &str) -> Result<usize, String> {
    number.parse().map_err(|_| String::from("BYTES is no number"))
}

fn text(length: &str) -> Result<Vec<u8>, String> {
    exact::text(bytes(length)?).ok_or(String::from("BYTES is too small"))
}

/// Passes the input on in pieces, with a pause behind each so that a reader gets it by itself; a
/// longer one behind the first, as the reader may only be starting.
fn pieces(length: &str) -> Result<Vec<u8>, String> {
    let mut output = io::stdout();
    let mut pause = Duration::from_millis(10);
    for piece in input()?.chunks(bytes(length)?.max(1)) {
        let written = output.write_all(piece).and_then(|()| output.flush());
        written.map_err(|error| error.to_string())?;
        thread::sleep(pause);
        pause = Duration::from_micros(20);
    }
    Ok(Vec::new())
}

fn draw_touching(register: &str) -> Result<Vec<u8>, String> {
    let register = register.parse().map_err(|_| format!("R is no number\n{USAGE}"))?;
    draw::draw(&input()?, Some(register))
}

fn command(arguments: &[&str]) -> Result<Vec<u8>, String> {
    match *arguments {
        ["cases", seed, count] => seeded(seed, count, cases),
        ["answers"] => answers(),
        ["list"] => Ok(listing(&input()?).into_bytes()),
        ["stats"] => Ok(Stats::of(&input_cases()?).print().into_bytes()),
        ["text", length] => text(length),
        ["pieces", length] => pieces(length),
        ["compare", seed, count] => seeded(seed, count, compare::command),
        ["fit", seed, count] => seeded(seed, count, fit_check::command),
        ["simulate", seed, count] => seeded(seed, count, simulate::command),
        ["bench"] => bench::bench(),
        ["texts", folder] => bench::texts::texts(folder),
        ["draw"] => draw::draw(&input()?, None),
        ["draw", "--touching", register] => draw_touching(register),
        _ => Err(String::from(USAGE)),
    }
}

fn main() -> ExitCode {
    let arguments: Vec<String> = std::env::args().skip(1).collect();
    let arguments: Vec<&str> = arguments.iter().map(String::as_str).collect();
    let written = command(&arguments)
        .and_then(|bytes| io::stdout().write_all(&bytes).map_err(|error| error.to_string()));
    match written {
        Ok(()) => ExitCode::SUCCESS,
        Err(message) => {
            eprintln!("{message}");
            ExitCode::FAILURE
        }
    }
}
