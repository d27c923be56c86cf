//! A file of words: numbers parted by commas, spaces or line ends.

#[cfg(test)]
mod tests;

use crate::failure::Failure;
use crate::input;
use crate::numbers;
use std::fs::File;
use std::io::{self, BufReader, Read};
use std::path::Path;

/// Reads a file, or standard input for `-`: so many words, or all where there are fewer. The rest
/// is not read, so that input without an end will do.
pub fn read(path: &Path, most: usize) -> Result<Vec<u32>, Failure> {
    let name = input::name_of(path);
    let words = match input::is_standard_input(path) {
        true => words(io::stdin().lock(), most),
        false => match File::open(path) {
            Ok(file) => words(file, most),
            Err(error) => Err(Wrong::Unreadable(error)),
        },
    };
    words.map_err(|wrong| {
        Failure::Trouble(match wrong {
            Wrong::Unreadable(error) => format!("{name}: {error}"),
            Wrong::Line(line, message) => format!("{name}:{line}: {message}"),
        })
    })
}

#[derive(Debug)]
enum Wrong {
    Unreadable(io::Error),
    /// Counted from 1.
    Line(u64, String),
}

fn words(input: impl Read, most: usize) -> Result<Vec<u32>, Wrong> {
    let mut reader = Reader { words: Vec::new(), number: Vec::new(), line: 1, comma_due: false };
    for byte in BufReader::new(input).bytes() {
        if reader.words.len() >= most {
            break;
        }
        let byte = byte.map_err(Wrong::Unreadable)?;
        reader.byte(byte).map_err(|message| Wrong::Line(reader.line, message))?;
    }
    reader.end_number().map_err(|message| Wrong::Line(reader.line, message))?;
    Ok(reader.words)
}

/// Bytes of a number, at most; any word has one that is much shorter.
const LONGEST: usize = 40;

/// What has been read so far.
struct Reader {
    words: Vec<u32>,
    /// The bytes of a number whose end is still to come.
    number: Vec<u8>,
    line: u64,
    /// Whether a word, and no comma since, stands before. Two commas without a word between them
    /// would put all later words into other cycles.
    comma_due: bool,
}

impl Reader {
    fn byte(&mut self, byte: u8) -> Result<(), String> {
        match byte {
            b',' => {
                self.end_number()?;
                if !self.comma_due {
                    return Err(String::from("there is no word before a comma"));
                }
                self.comma_due = false;
            }
            _ if byte.is_ascii_whitespace() => {
                self.end_number()?;
                self.line += u64::from(byte == b'\n');
            }
            _ => {
                self.number.push(byte);
                if self.number.len() > LONGEST {
                    return self.end_number();
                }
            }
        }
        Ok(())
    }

    fn end_number(&mut self) -> Result<(), String> {
        if !self.number.is_empty() {
            self.words.push(numbers::word(&self.number.escape_ascii().to_string())?);
            self.number.clear();
            self.comma_due = true;
        }
        Ok(())
    }
}
