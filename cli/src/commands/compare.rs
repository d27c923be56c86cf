//! `compare`: two recordings of one run, as an array's capture and a model's.

use crate::arguments::Compare;
use crate::failure::Failure;
use crate::input::{self, Source};
use crate::output::{Answer, Output, Paint};
use crate::refused::Refused;
use gutkavu::captures::{self, CaptureRefusal, Comparison, Recording};
use gutkavu::Refusal;
use serde::Serialize;

#[derive(Serialize)]
struct Compared {
    first: String,
    second: String,
    /// How many cycles both hold.
    shared: u64,
    /// The first of them that differs.
    differs: Option<Difference>,
}

#[derive(Serialize)]
struct Difference {
    cycle: u32,
    /// The cycle's line of each recording.
    lines: [Line; 2],
    /// `state`, and registers by name.
    fields: Vec<String>,
}

/// A line of a recording, counted from 1.
#[derive(Serialize)]
struct Line {
    line: usize,
    text: String,
}

impl Line {
    /// The line of a cycle in a recording that was not refused.
    fn of(recording: &[u8], cycle: u32) -> Line {
        let begin = format!("{cycle},").into_bytes();
        let mut lines = recording.split(|&byte| byte == b'\n').enumerate();
        let found = lines.find(|(_, line)| line.starts_with(&begin));
        let (index, bytes) = found.expect("both hold the cycle");
        Line { line: index + 1, text: String::from_utf8_lossy(bytes).into_owned() }
    }
}

impl Difference {
    fn of(cycle: u32, first: &[u8], second: &[u8]) -> Difference {
        let lines = [first, second].map(|recording| Line::of(recording, cycle));
        let [one, other] = [&lines[0], &lines[1]].map(|line| line.text.split(',').skip(1));
        let name = |index: usize| match index.checked_sub(1) {
            None => String::from("state"),
            Some(register) => format!("r{register}"),
        };
        let pairs = one.zip(other).enumerate();
        let fields = pairs.filter(|(_, (a, b))| a != b).map(|(index, _)| name(index)).collect();
        Difference { cycle, lines, fields }
    }
}

impl Answer for Compared {
    fn text(&self, paint: Paint) -> String {
        let mut text = format!("cycles in both {}, ", self.shared);
        let Some(Difference { cycle, lines, fields }) = &self.differs else {
            return text + "none differs\n";
        };
        let differs = format!("first that differs {cycle}, in {}", fields.join(", "));
        text += &format!("{}\n", paint.red(differs));
        for (file, Line { line, text: shown }) in [&self.first, &self.second].iter().zip(lines) {
            text += &format!("{} {shown}\n", paint.bold(format!("{file}:{line}:")));
        }
        text
    }
}

/// A wrong R is of neither recording; any other fault is of a line of one of them.
fn refused(registers: u32, [first, second]: [&Source; 2], refused: CaptureRefusal) -> Failure {
    let refusal = refused.refusal();
    let at_fault = match refused.recording() {
        Some(Recording::First) => first,
        Some(Recording::Second) => second,
        None => {
            let message = format!("a recording has 1 to 16 registers, not {registers}");
            return Refused::call(&first.name, refusal, message).into();
        }
    };
    let message = match refusal {
        Refusal::CycleNotAbove => String::from("the cycle is not above that of the line before"),
        _ => format!("a line is cycle,state and {registers} words, parted by commas"),
    };
    let Source { name, bytes } = at_fault;
    Refused::line((name, bytes), refused.line(), refusal, message).into()
}

pub fn run(arguments: &Compare, out: &mut Output) -> Result<(), Failure> {
    if [&arguments.first, &arguments.second].into_iter().all(|path| input::is_standard_input(path))
    {
        return Err(input::standard_input_twice());
    }
    let first = input::whole(&arguments.first)?;
    let second = input::whole(&arguments.second)?;
    let Comparison { shared, first_difference } =
        captures::compare(arguments.registers, &first.bytes, &second.bytes)
            .map_err(|refusal| refused(arguments.registers, [&first, &second], refusal))?;
    let differs = first_difference.map(|cycle| Difference::of(cycle, &first.bytes, &second.bytes));
    let all_the_same = differs.is_none();
    out.answer(&Compared { first: first.name, second: second.name, shared, differs })?;
    match all_the_same {
        true => Ok(()),
        false => Err(Failure::Told),
    }
}
