//! Words, lists and ranges as they are given on the command line.

use std::ops::RangeInclusive;
use std::str::FromStr;

/// A word, given as its signed or its unsigned value.
pub fn word(text: &str) -> Result<u32, String> {
    let value = text.parse::<i64>().ok();
    let value = value.filter(|value| (i64::from(i32::MIN)..=i64::from(u32::MAX)).contains(value));
    let wrong = || format!("'{text}' is no number from -2147483648 to 4294967295");
    value.map(|value| value as u32).ok_or_else(wrong)
}

fn signed(text: &str) -> Result<i32, String> {
    let wrong = |_| format!("'{text}' is no number from -2147483648 to 2147483647");
    text.parse::<i32>().map_err(wrong)
}

/// Words parted by commas; the empty text has none.
#[derive(Clone, Debug, Default, PartialEq, Eq)]
pub struct Words(pub Vec<u32>);

impl FromStr for Words {
    type Err = String;

    fn from_str(text: &str) -> Result<Words, String> {
        match text {
            "" => Ok(Words::default()),
            _ => text.split(',').map(|part| word(part.trim())).collect::<Result<_, _>>().map(Words),
        }
    }
}

/// The signed values that a register may have: `-720..720`, both included, or one value.
#[derive(Clone, Debug, PartialEq, Eq)]
pub struct Range(pub RangeInclusive<i32>);

impl FromStr for Range {
    type Err = String;

    fn from_str(text: &str) -> Result<Range, String> {
        let (lowest, highest) = text.split_once("..").unwrap_or((text, text));
        Ok(Range(signed(lowest)?..=signed(highest)?))
    }
}

/// What is known of one register: `0=-720..720`.
#[derive(Clone, Debug, PartialEq, Eq)]
pub struct Known {
    pub register: u32,
    pub range: Range,
}

impl FromStr for Known {
    type Err = String;

    fn from_str(text: &str) -> Result<Known, String> {
        let wrong = || format!("'{text}' is not of the form REGISTER=LOWEST..HIGHEST");
        let (register, range) = text.split_once('=').ok_or_else(wrong)?;
        let register = register.strip_prefix('r').unwrap_or(register);
        let register = register.parse().map_err(|_| wrong())?;
        Ok(Known { register, range: range.parse()? })
    }
}

/// A word as people read it.
pub fn shown(word: u32, signed: bool) -> i64 {
    match signed {
        true => i64::from(word as i32),
        false => i64::from(word),
    }
}
