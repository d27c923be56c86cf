//! What is wrong with a field that should be a number.

use super::forms::Kind;
use super::no_form::cut;
use gutkavu::layout::MOST_BLOCKS;
use gutkavu::REGISTER_WORDS;
use std::ops::RangeInclusive;

fn range(kind: Kind) -> RangeInclusive<i64> {
    match kind {
        Kind::Blocks => 1..=MOST_BLOCKS as i64,
        Kind::Registers => 1..=REGISTER_WORDS as i64,
        Kind::Literal => i64::from(i32::MIN)..=i64::from(i32::MAX),
        _ => 0..=255,
    }
}

/// Says what is wrong with a field that is not empty, and nothing where it is right.
pub fn wrong(kind: Kind, field: &str) -> Option<String> {
    let minus = field.strip_prefix('-');
    let digits = minus.unwrap_or(field);
    let shown = cut(field);
    if digits.is_empty() || !digits.bytes().all(|byte| byte.is_ascii_digit()) {
        return Some(no_number(kind, field));
    }
    if field == "-0" {
        return Some(String::from("`-0` is written 0"));
    }
    if minus.is_some() && kind != Kind::Literal {
        return Some(format!("`{shown}` is negative: only the literal of `set` may be"));
    }
    if digits.len() > 1 && digits.starts_with('0') {
        return Some(format!("`{shown}` has a leading zero"));
    }
    // More digits than the type holds are out of every range.
    let value = field.parse::<i64>().unwrap_or(if minus.is_some() { i64::MIN } else { i64::MAX });
    (!range(kind).contains(&value)).then(|| out_of_range(kind, value, &shown))
}

/// Registers are called r0, r1 and so on wherever they are spoken of, but not in a text.
fn no_number(kind: Kind, field: &str) -> String {
    let register = field.strip_prefix('r').filter(|_| kind == Kind::Register);
    match register.and_then(|number| number.parse::<u8>().ok()) {
        Some(number) => {
            format!("`{}` is no number: register {number} is written {number}", cut(field))
        }
        None => format!("`{}` is no number", cut(field)),
    }
}

fn out_of_range(kind: Kind, value: i64, shown: &str) -> String {
    let (lowest, highest) = range(kind).into_inner();
    match kind {
        Kind::Blocks => format!("a graph has {lowest} to {highest} blocks, not {shown}"),
        Kind::Registers => format!("a graph has {lowest} to {highest} registers, not {shown}"),
        Kind::Literal if value < lowest => format!("literal {shown} is below {lowest}"),
        Kind::Literal => match u32::try_from(value) {
            Ok(word) => {
                let same = word as i32;
                format!("literal {shown} is above {highest}: the same word is written {same}")
            }
            Err(_) => format!("literal {shown} is above {highest}"),
        },
        _ => format!("{shown} is above {highest}, the highest number"),
    }
}
