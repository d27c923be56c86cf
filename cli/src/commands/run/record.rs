//! A recording of the machine, in the form that `compare` takes.

use crate::course::Course;
use crate::failure::Failure;
use crate::input;
use gutkavu::captures::Line;
use std::fs::File;
use std::io::{self, BufWriter, Write};
use std::path::Path;

pub struct Recorder {
    file: BufWriter<File>,
    name: String,
}

impl Recorder {
    /// Standard output has the answer, so a recording is not printed there.
    pub fn new(path: &Path) -> Result<Recorder, Failure> {
        if path.as_os_str() == "-" {
            return Err(Failure::Trouble(String::from("-: a recording is written into a file")));
        }
        let name = input::name_of(path);
        match File::create(path) {
            Ok(file) => Ok(Recorder { file: BufWriter::new(file), name }),
            Err(error) => Err(trouble(&name, error)),
        }
    }

    /// A line for the cycle that comes next; none where the machine has halted.
    pub fn line(&mut self, course: &Course) -> Result<(), Failure> {
        let side = course.by_machine();
        let Some(state) = side.next else { return Ok(()) };
        let registers = &side.registers[..course.graph().registers() as usize];
        let line = Line { cycle: course.cycles(), state, registers };
        write!(self.file, "{line}").map_err(|error| trouble(&self.name, error))
    }

    /// All lines are in the file from now on.
    pub fn finish(mut self) -> Result<(), Failure> {
        self.file.flush().map_err(|error| trouble(&self.name, error))
    }
}

fn trouble(name: &str, error: io::Error) -> Failure {
    Failure::Trouble(format!("{name}: {error}"))
}
