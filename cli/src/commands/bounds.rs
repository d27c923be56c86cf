//! `bounds`: what one cycle of a state can do to registers known within bounds.

use crate::arguments;
use crate::failure::Failure;
use crate::input;
use crate::numbers::{Known, Range};
use crate::output::{Answer, Output, Paint};
use crate::refused::{self, Refused};
use crate::table::Table;
use gutkavu::{Bounds, Machine, Refusal, REGISTER_WORDS};
use serde::Serialize;
use std::ops::RangeInclusive;

#[derive(Serialize)]
struct Answers {
    file: String,
    state: u32,
    registers: Vec<Register>,
}

#[derive(Serialize)]
struct Register {
    register: u32,
    before: Ends,
    after: Ends,
}

#[derive(Serialize)]
struct Ends {
    lowest: i32,
    highest: i32,
}

impl From<RangeInclusive<i32>> for Ends {
    fn from(range: RangeInclusive<i32>) -> Ends {
        Ends { lowest: *range.start(), highest: *range.end() }
    }
}

impl Ends {
    fn shown(&self) -> String {
        match (self.lowest, self.highest) {
            (i32::MIN, i32::MAX) => String::from("any"),
            (lowest, highest) if lowest == highest => lowest.to_string(),
            (lowest, highest) => format!("{lowest}..{highest}"),
        }
    }
}

impl Answer for Answers {
    fn text(&self, paint: Paint) -> String {
        let mut table = Table::new(["register", "before", "after"]);
        for Register { register, before, after } in &self.registers {
            table.row([format!("r{register}"), before.shown(), after.shown()]);
        }
        table.print(paint)
    }
}

/// What is known before the cycle.
fn known(arguments: &arguments::Bounds, registers: u32) -> Result<Bounds, Failure> {
    let mut bounds = Bounds::FULL;
    if let Some(Range(range)) = &arguments.others {
        bounds = (0..REGISTER_WORDS)
            .fold(bounds, |bounds, register| bounds.with(register, range.clone()));
    }
    for Known { register, range: Range(range) } in &arguments.registers {
        if *register >= registers {
            let message = format!("r{register} is not below R = {registers}");
            return Err(Failure::Trouble(message));
        }
        bounds = bounds.with(*register as usize, range.clone());
    }
    Ok(bounds)
}

/// What the question was refused for.
fn reason(refusal: Refusal, machine: &Machine, state: u32, bounds: &Bounds) -> String {
    let crossed =
        (0..machine.registers() as usize).find(|&register| bounds.range(register).is_empty());
    match (refusal, crossed) {
        (Refusal::NoStart, _) => refused::no_state(machine, state),
        (Refusal::LowestAboveHighest, Some(register)) => {
            let (lowest, highest) = bounds.range(register).into_inner();
            format!("the lowest value of r{register}, {lowest}, is above the highest, {highest}")
        }
        _ => refusal.meaning().to_string(),
    }
}

pub fn run(arguments: &arguments::Bounds, out: &mut Output) -> Result<(), Failure> {
    let (file, graph) = input::graph(&arguments.file)?;
    let (machine, state) = (graph.synthesise(), arguments.state);
    let before = known(arguments, graph.registers())?;
    let after = machine.bounds(state, &before).map_err(|refusal| {
        Refused::call(&file, refusal, reason(refusal, &machine, state, &before))
    })?;
    let register = |register: u32| Register {
        register,
        before: before.range(register as usize).into(),
        after: after.range(register as usize).into(),
    };
    let registers = (0..graph.registers()).map(register).collect();
    out.answer(&Answers { file, state, registers })
}
