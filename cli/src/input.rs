//! Graph texts, from files and standard input.

use crate::failure::Failure;
use crate::refused::Refused;
use gutkavu::{Graph, TEXT_BYTES};
use std::fs::File;
use std::io::{self, Read};
use std::path::Path;

/// A text, and the name that messages have for it.
pub struct Source {
    pub name: String,
    pub bytes: Vec<u8>,
}

impl Source {
    /// Reads a file, or standard input for `-`. One byte more than a text may have is enough to
    /// refuse it: the rest is not read, so that input without an end is refused too.
    pub fn read(path: &Path) -> Result<Source, Failure> {
        Source::up_to(path, TEXT_BYTES as u64 + 1)
    }

    fn up_to(path: &Path, most: u64) -> Result<Source, Failure> {
        let name = name_of(path);
        let bytes = match is_standard_input(path) {
            true => taken(io::stdin().lock(), most),
            false => File::open(path).and_then(|file| taken(file, most)),
        };
        match bytes {
            Ok(bytes) => Ok(Source { name, bytes }),
            Err(error) => Err(Failure::Trouble(format!("{name}: {error}"))),
        }
    }

    /// The graph, by the proved library.
    pub fn graph(&self) -> Result<Graph, Box<Refused>> {
        Graph::read(&self.bytes).map_err(|refused| Refused::text(&self.name, &self.bytes, refused))
    }
}

pub fn is_standard_input(path: &Path) -> bool {
    path.as_os_str() == "-"
}

/// How messages call a file.
pub fn name_of(path: &Path) -> String {
    match is_standard_input(path) {
        true => String::from("<stdin>"),
        false => path.display().to_string().chars().flat_map(printable).collect(),
    }
}

/// A character as it is, or escaped where it would act on a terminal.
fn printable(character: char) -> Vec<char> {
    match character.is_control() {
        true => character.escape_default().collect(),
        false => vec![character],
    }
}

fn taken(input: impl Read, most: u64) -> io::Result<Vec<u8>> {
    let mut bytes = Vec::new();
    input.take(most).read_to_end(&mut bytes)?;
    Ok(bytes)
}

/// A file of any length, as a recording is.
pub fn whole(path: &Path) -> Result<Source, Failure> {
    Source::up_to(path, u64::MAX)
}

/// It can be read once.
pub fn standard_input_twice() -> Failure {
    Failure::Trouble(String::from("standard input can be only one of the files"))
}

/// A file's graph, with the name that messages have for it.
pub fn graph(path: &Path) -> Result<(String, Graph), Failure> {
    let source = Source::read(path)?;
    let graph = source.graph()?;
    Ok((source.name, graph))
}
