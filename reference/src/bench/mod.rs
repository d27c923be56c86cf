//! The command bench: the proved library beside the plain program, and how grouping grows; and the
//! command texts: the graphs that it times.

mod captures;
mod graphs;
mod growth;
mod runs;
mod table;
pub mod texts;
mod timing;
mod work;

use reference::random::Random;
use std::fmt::Write;
use work::Work;

/// What the machine has done in the last minute, for judging the figures.
fn load() -> String {
    let cores = std::thread::available_parallelism().map_or(0, usize::from);
    let load = std::fs::read_to_string("/proc/loadavg").unwrap_or_default();
    let minute = load.split(' ').next().filter(|word| !word.is_empty()).unwrap_or("unknown");
    format!("{cores} cores, load average of the last minute {minute}")
}

/// Graphs of 1, 8 and 64 blocks with 1 and 16 registers.
fn works() -> Result<Vec<Work>, String> {
    let sizes = [1, 16].into_iter().flat_map(|registers| [1, 8, 64].map(|one| (one, registers)));
    let work = |(blocks, registers)| Work::of(&mut Random::new(2_026), blocks, registers);
    sizes.map(work).collect()
}

/// Every operation on each of the graphs.
fn operations(out: &mut String) -> Result<(), String> {
    out.push_str(&table::heading());
    let mut highest = 0.0;
    for work in works()? {
        work.check()?;
        let (rows, ratio) = table::rows(&work);
        out.push_str(&rows);
        highest = ratio.max(highest);
    }
    let _ = writeln!(out, "\nWith words / without, proved: the highest ratio is {highest:.2}.");
    Ok(())
}

pub fn bench() -> Result<Vec<u8>, String> {
    let mut out = String::new();
    let _ = writeln!(out, "At the start: {}.\n", load());
    operations(&mut out)?;
    out.push_str(&captures::report()?);
    out.push_str(&growth::report()?);
    let _ = writeln!(out, "\nAt the end: {}.", load());
    Ok(out.into_bytes())
}
