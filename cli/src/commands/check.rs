//! `check`: whether texts are graphs, and where not, why.

use crate::arguments::Check;
use crate::failure::{self, Failure};
use crate::input::{self, Source};
use crate::output::{Answer, Output, Paint};
use crate::refused::Refused;
use serde::Serialize;

/// A text that is admitted.
#[derive(Serialize)]
struct Admitted {
    file: String,
    blocks: u32,
    registers: u32,
}

impl Answer for Admitted {
    fn text(&self, paint: Paint) -> String {
        let Admitted { file, blocks, registers } = self;
        let head = paint.bold(format!("{file}:"));
        format!("{head} admitted, blocks {blocks}, registers {registers}\n")
    }
}

fn one(source: &Source) -> Result<Admitted, Box<Refused>> {
    let graph = source.graph()?;
    let (blocks, registers) = (graph.blocks(), graph.registers());
    Ok(Admitted { file: source.name.clone(), blocks, registers })
}

/// All files are looked at; one that cannot be read counts more than one that is refused.
pub fn run(arguments: &Check, out: &mut Output) -> Result<(), Failure> {
    if arguments.files.iter().filter(|path| input::is_standard_input(path)).count() > 1 {
        return Err(input::standard_input_twice());
    }
    let (mut refused, mut trouble) = (false, false);
    for file in &arguments.files {
        match Source::read(file) {
            Ok(source) => match one(&source) {
                Ok(_) if arguments.quiet => {}
                Ok(admitted) => out.answer(&admitted)?,
                Err(refusal) => {
                    refused = true;
                    out.answer(&*refusal)?;
                }
            },
            Err(Failure::Trouble(message)) => {
                trouble = true;
                out.flush()?;
                failure::tell(&message);
            }
            Err(other) => return Err(other),
        }
    }
    match (trouble, refused) {
        (true, _) => Err(Failure::TroubleTold),
        (_, true) => Err(Failure::Told),
        _ => Ok(()),
    }
}
