//! One machine's runs in the simulator and in the library, compared line by line.

use super::design::design;
use super::test_bench::{test_bench, Start, AMOUNTS, SHIFTS};
use gutkavu::operations::MachineRunWithWordsFields;
use reference::machine_table::decode;
use reference::run::Outcome;

/// As `gutkavu::operations::run_machine_with_words`.
pub type Run<'a> =
    dyn Fn(&[u32], &mut [u32], u32, u32, &[u32]) -> MachineRunWithWordsFields + Sync + 'a;

/// What a source prints.
pub type Simulator<'a> = dyn Fn(&str) -> Result<String, String> + Sync + 'a;

/// The two that are compared, so that a test can put another in the place of either.
pub struct Sides<'a> {
    pub library: &'a Run<'a>,
    pub simulator: &'a Simulator<'a>,
}

/// What the library answers to one run with one budget.
struct Answer {
    fields: MachineRunWithWordsFields,
    registers: [u32; 16],
}

impl Answer {
    fn of(table: &[u32], start: &Start, budget: u32, library: &Run) -> Answer {
        let mut registers = start.registers;
        let fields = library(table, &mut registers, start.state, budget, &start.words);
        Answer { fields, registers }
    }

    fn is(&self, outcome: Outcome) -> bool {
        self.fields.number == 0 && self.fields.outcome == outcome as u32
    }

    /// As the bench prints it. Registers that the machine does not have must stay.
    fn form(&self, registers: usize, start: &Start) -> String {
        let MachineRunWithWordsFields { number, count, next, flag, blocks, .. } = self.fields;
        if number != 0 {
            return format!("refused {number}");
        }
        let halted = u32::from(self.is(Outcome::Halted));
        let words = self.registers[..registers].iter().map(|word| format!(" {word:08x}"));
        let kept = self.registers[registers..] == start.registers[registers..];
        let words: String = words.chain((!kept).then(|| " and others".into())).collect();
        let told = format!("count {count} state {next:08x} halted {halted} flag {flag}");
        format!("{told} blocks {blocks} registers{words}")
    }

    fn end(&self) -> Option<Outcome> {
        [Outcome::Spent, Outcome::Halted, Outcome::Dry].into_iter().find(|&one| self.is(one))
    }
}

/// As the bench prints it.
pub fn end_name(end: Outcome) -> &'static str {
    match end {
        Outcome::Spent => "spent",
        Outcome::Halted => "halted",
        Outcome::Dry => "dry",
    }
}

/// A run by the library, cycle by cycle, and how it ended.
pub struct Told {
    pub lines: Vec<String>,
    /// Without the one behind a halt.
    pub cycles: usize,
    /// None where it was refused.
    pub end: Option<Outcome>,
    pub flag: bool,
    pub blocks: u64,
}

impl Told {
    /// A run for each budget up to the one given, or up to the first that halts, is dry or is
    /// refused; a halted one also with one cycle more.
    pub fn of(
        table: &[u32],
        registers: usize,
        number: usize,
        start: &Start,
        library: &Run,
    ) -> Told {
        let mut lines = Vec::new();
        let mut cycle = |cycle: u32, answer: &Answer| {
            let form = answer.form(registers, start);
            lines.push(format!("run {number} cycle {cycle} {form}"));
        };
        let mut last = Answer::of(table, start, start.budget, library);
        for budget in 1..=start.budget {
            let answer = Answer::of(table, start, budget, library);
            if !answer.is(Outcome::Spent) && !answer.is(Outcome::Halted) {
                last = answer;
                break;
            }
            cycle(budget, &answer);
            if answer.is(Outcome::Halted) {
                last = Answer::of(table, start, budget + 1, library);
                cycle(budget + 1, &last);
                break;
            }
        }
        let end = last.end();
        let cycles = lines.len() - usize::from(end == Some(Outcome::Halted) && !lines.is_empty());
        let name = end.map_or("otherwise", end_name);
        lines.push(format!("run {number} ends {name} {}", last.form(registers, start)));
        Told { lines, cycles, end, flag: last.fields.flag == 1, blocks: last.fields.blocks }
    }
}

/// A run that differs: its number and the first lines that do.
pub struct Difference {
    pub run: usize,
    pub text: String,
}

/// The first lines that are not equal, if any.
fn difference(run: usize, simulated: &[&str], told: &[String]) -> Option<Difference> {
    let longest = simulated.len().max(told.len());
    let mut both =
        (0..longest).map(|at| (simulated.get(at).copied(), told.get(at).map(String::as_str)));
    let (first, second) = both.find(|(first, second)| first != second)?;
    let [first, second] = [first, second].map(|line| line.unwrap_or("nothing more"));
    Some(Difference { run, text: format!("  simulator: {first}\n  library:   {second}\n") })
}

pub struct Judged {
    pub runs: Vec<Told>,
    pub differences: Vec<Difference>,
    /// How often each shift was worked out, with each kind of amount.
    pub amounts: Vec<usize>,
}

/// The lines behind the runs: each count, and the last line, and no others.
fn amounts(lines: &[&str]) -> Option<Vec<usize>> {
    let (&last, counts) = lines.split_last()?;
    let count =
        |(kind, line): (usize, &&str)| line.strip_prefix(&format!("amounts {kind} "))?.parse().ok();
    let counts: Option<Vec<usize>> = counts.iter().enumerate().map(count).collect();
    counts.filter(|counts| last == "end" && counts.len() == SHIFTS.len() * AMOUNTS.len())
}

/// An error where there is nothing to compare, or where the simulator printed other things.
pub fn judge(table: &[u32], starts: &[Start], sides: &Sides) -> Result<Judged, String> {
    let machine = decode(table).ok_or("the second program refuses the machine table")?;
    let output = (sides.simulator)(&(design(&machine) + &test_bench(&machine, starts)))?;
    let mut lines = output.lines().peekable();
    let (mut runs, mut differences) = (Vec::new(), Vec::new());
    for (number, start) in starts.iter().enumerate() {
        let told = Told::of(table, machine.registers, number, start, sides.library);
        let own = format!("run {number} ");
        let mut simulated = Vec::new();
        while let Some(line) = lines.next_if(|line| line.starts_with(&own)) {
            simulated.push(line);
        }
        differences.extend(difference(number, &simulated, &told.lines));
        runs.push(told);
    }
    let rest: Vec<&str> = lines.collect();
    let amounts = amounts(&rest).ok_or_else(|| {
        let first = &rest[..rest.len().min(3)];
        format!("behind the runs the simulator printed other lines than counts: {first:#?}")
    });
    match amounts {
        Ok(amounts) => Ok(Judged { runs, differences, amounts }),
        // An extra line among the runs leaves the lines behind it over; the run says more.
        Err(_) if !differences.is_empty() => Ok(Judged { runs, differences, amounts: Vec::new() }),
        Err(message) => Err(message),
    }
}
