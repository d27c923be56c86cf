//! Standard output: answers as text or as JSON, with colour on a terminal alone.

use crate::failure::{self, Failure};
use crate::refused::Refused;
use serde::Serialize;
use std::env;
use std::fmt::Display;
use std::io::{self, BufWriter, IsTerminal, Stdout, Write};

/// What a command answers: JSON by its fields, or a text for people.
pub trait Answer: Serialize {
    /// Whole lines.
    fn text(&self, paint: Paint) -> String;
}

pub struct Output {
    json: bool,
    paint: Paint,
    writer: BufWriter<Stdout>,
}

impl Output {
    pub fn new(json: bool) -> Output {
        let stdout = io::stdout();
        Output { json, paint: Paint::of(&stdout), writer: BufWriter::new(stdout) }
    }

    /// Whether answers are JSON, one value to a line.
    pub fn is_json(&self) -> bool {
        self.json
    }

    pub fn answer(&mut self, answer: &impl Answer) -> Result<(), Failure> {
        match self.json {
            true => self.json(answer),
            false => self.text(&answer.text(self.paint)),
        }
    }

    /// The head of lines to come, in bold; JSON has none.
    pub fn head(&mut self, line: &str) -> Result<(), Failure> {
        match self.json {
            true => Ok(()),
            false => self.text(&(self.paint.bold(line) + "\n")),
        }
    }

    /// A text as it is.
    pub fn text(&mut self, text: &str) -> Result<(), Failure> {
        self.writer.write_all(text.as_bytes()).map_err(Failure::of_output)
    }

    fn json(&mut self, answer: &impl Serialize) -> Result<(), Failure> {
        let line = serde_json::to_string(answer).expect("an answer has nothing that JSON lacks");
        self.text(&(line + "\n"))
    }

    /// A refusal in place of an answer: JSON on standard output, or a message on standard error.
    /// Gives the exit status.
    pub fn refusal(&mut self, refused: &Refused) -> Result<u8, Failure> {
        match self.json {
            true => self.json(refused)?,
            false => failure::say(&refused.text(Paint::of(&io::stderr()))),
        }
        self.flush()?;
        Ok(1)
    }

    /// Passes on what has been answered so far.
    pub fn flush(&mut self) -> Result<(), Failure> {
        self.writer.flush().map_err(Failure::of_output)
    }
}

/// Whether text is coloured.
#[derive(Clone, Copy, Debug)]
pub struct Paint {
    on: bool,
}

impl Paint {
    /// Colour on a terminal, unless `NO_COLOR` is set or the terminal is a dumb one.
    pub fn of(stream: &impl IsTerminal) -> Paint {
        let refused = env::var_os("NO_COLOR").is_some_and(|value| !value.is_empty());
        let dumb = env::var_os("TERM").is_some_and(|value| value == "dumb");
        Paint { on: stream.is_terminal() && !refused && !dumb }
    }

    fn with(self, codes: &str, text: impl Display) -> String {
        match self.on {
            true => format!("\x1b[{codes}m{text}\x1b[0m"),
            false => text.to_string(),
        }
    }

    pub fn bold(self, text: impl Display) -> String {
        self.with("1", text)
    }

    pub fn red(self, text: impl Display) -> String {
        self.with("1;31", text)
    }

    pub fn green(self, text: impl Display) -> String {
        self.with("1;32", text)
    }
}
