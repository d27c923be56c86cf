//! The command `compare`: the proved library and this program on generated cases.

mod check;
mod lent;
mod library;
mod report;
#[cfg(test)]
mod tests;

use crate::tally::Tally;
use check::{check, Checked, Compared};
use library::{Library, Proved};
use reference::faults::faults;
use reference::generate::Cases;
use reference::meeting::{self, meetings, Meeting};
use reference::operation::Operation;

/// So many cases hit every number that the papers name, every outcome, every flag at each end of a
/// run, fewer blocks than cycles, as many and more at each end of a machine's run, and every pair
/// that can meet.
const CASES_FOR_ALL: usize = 2_000;

/// What a case hits: a number that an operation answers, 0 included; an outcome: how a run with
/// words ends, what a comparison of captures finds, whether a register is touched, or whether any
/// state touches it; a run's flag, with how the run ends; how many blocks a machine's run has beside
/// its cycles, likewise; two refusals that apply to one call.
#[derive(Clone, Copy, Debug, PartialEq, Eq, PartialOrd, Ord)]
enum Hit {
    Number(Operation, u64),
    Outcome(Operation, u64),
    Flag(Operation, u64, u64),
    Blocks(Operation, u64, u64),
    Met(Meeting),
}

impl Hit {
    fn name(&self) -> String {
        match self {
            Hit::Number(operation, number) => format!("{},{number}", operation.name()),
            Hit::Outcome(operation, outcome) => {
                format!("outcome of {},{outcome}", operation.name())
            }
            Hit::Flag(operation, end, flag) => {
                format!("flag of {},{end},{flag}", operation.name())
            }
            Hit::Blocks(operation, end, kind) => {
                format!("blocks of {},{end},{kind}", operation.name())
            }
            Hit::Met(meeting) => format!("{}: {}", meeting.operation.name(), meeting.name()),
        }
    }

    /// The name of what has a line of its own; pairs share one.
    fn line(&self) -> Option<String> {
        (!matches!(self, Hit::Met(_))).then(|| self.name())
    }
}

fn count_hits(tally: &mut Tally<Hit>, compared: &Compared) {
    let operation = compared.operation;
    tally.count(Hit::Number(operation, compared.found[0]), 1);
    if let Some(outcome) = operation.outcome(compared.found) {
        tally.count(Hit::Outcome(operation, outcome), 1);
    }
    if let Some((end, flag)) = operation.flag(compared.found) {
        tally.count(Hit::Flag(operation, end, flag), 1);
    }
    if let Some((end, kind)) = operation.block_kind(compared.found) {
        tally.count(Hit::Blocks(operation, end, kind), 1);
    }
}

fn tally_all(cases: &Cases, count: usize, library: &impl Library) -> Tally<Hit> {
    Tally::of(count, |tally, index| {
        let case = cases.get(index);
        let Checked { compared, graph, machine } = check(&case, library);
        compared.iter().for_each(|one| count_hits(tally, one));
        let met = faults(&case, &graph, &machine);
        met.iter().flat_map(meetings).for_each(|one| tally.count(Hit::Met(one), 1));
        if compared.iter().any(|one| !one.same()) {
            tally.differ(index, || report::report(cases.seed(), index, &case, &compared));
        }
    })
}

/// Every number that the papers name for an operation, every outcome, every flag, every kind of
/// block count, every pair that can meet.
fn named() -> impl Iterator<Item = Hit> {
    let answered = Operation::ALL.into_iter().flat_map(|one| {
        let numbers = one.numbers().iter().map(move |&number| Hit::Number(one, number));
        let outcomes = one.outcomes().iter().map(move |&outcome| Hit::Outcome(one, outcome));
        let flags = one.flags().into_iter().map(move |(end, flag)| Hit::Flag(one, end, flag));
        let blocks = one.blocks().into_iter().map(move |(end, kind)| Hit::Blocks(one, end, kind));
        numbers.chain(outcomes).chain(flags).chain(blocks)
    });
    answered.chain(meeting::possible().into_iter().map(Hit::Met))
}

/// A line for each number, outcome, flag and kind of block count, then one for each operation with the pairs met there.
fn lines(tally: &Tally<Hit>) -> String {
    let met = |(hit, &cases): (&Hit, &usize)| match hit {
        Hit::Met(meeting) => Some((*meeting, cases)),
        _ => None,
    };
    tally.lines(Hit::line) + &meeting::print(&tally.counts.iter().filter_map(met).collect())
}

/// What is printed; an error where a case differs or something named was not hit.
fn outcome(seed: u64, count: usize, tally: &Tally<Hit>) -> Result<String, String> {
    let missing = if count < CASES_FOR_ALL { Vec::new() } else { tally.missing(named()) };
    tally.outcome(lines(tally), Hit::name, &missing, &format!("seed {seed}: {count} cases"))
}

fn compare(seed: u64, count: usize, library: &impl Library) -> Result<String, String> {
    outcome(seed, count, &tally_all(&Cases::of(seed), count, library))
}

pub fn command(seed: u64, count: usize) -> Result<Vec<u8>, String> {
    compare(seed, count, &Proved).map(String::into_bytes)
}
