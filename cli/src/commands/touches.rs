//! `touches`: the states that may change a register.

use crate::arguments::Touches;
use crate::failure::Failure;
use crate::input;
use crate::output::{Answer, Output, Paint};
use crate::refused::Refused;
use crate::table::{joined, Table};
use crate::touching::Touching;
use gutkavu::{Machine, Refusal};
use serde::Serialize;

#[derive(Serialize)]
struct Answers {
    file: String,
    registers: Vec<Register>,
}

#[derive(Serialize)]
struct Register {
    register: u32,
    first: Option<u32>,
    states: Vec<u32>,
}

impl Register {
    fn of(machine: &Machine, register: u32) -> Result<Register, Refusal> {
        let Touching { states, .. } = Touching::of(machine, register)?;
        Ok(Register { register, first: machine.first_touching(register)?, states })
    }
}

impl Answer for Answers {
    fn text(&self, paint: Paint) -> String {
        let mut table = Table::new(["register", "first state", "states"]);
        for Register { register, first, states } in &self.registers {
            let none = String::from("none");
            table.row([
                format!("r{register}"),
                first.map_or(none, |state| state.to_string()),
                joined(states, " "),
            ]);
        }
        table.print(paint)
    }
}

pub fn run(arguments: &Touches, out: &mut Output) -> Result<(), Failure> {
    let (file, graph) = input::graph(&arguments.file)?;
    let machine = graph.synthesise();
    let asked = match arguments.register {
        Some(register) => vec![register],
        None => (0..graph.registers()).collect(),
    };
    let registers = asked.into_iter().map(|register| Register::of(&machine, register)).collect();
    match registers {
        Ok(registers) => out.answer(&Answers { file, registers }),
        Err(refusal) => Err(Refused::call(&file, refusal, refusal.meaning()).into()),
    }
}
