//! Refusal 2: why a line is of no form.

use super::forms::{self, Form, Kind, COMPARISONS, FORMS};
use super::near::near;
use super::{numbers, Explanation};

pub fn explain(text: &[u8], line: usize) -> Option<Explanation> {
    let whole = text.split_inclusive(|&byte| byte == b'\n').nth(line.checked_sub(1)?)?;
    match whole.strip_suffix(b"\n") {
        None => Some(Explanation::whole("the last line does not end in a line feed")),
        Some(b"") => Some(Explanation::whole("the line is empty")),
        Some(line) => foreign(line).or_else(|| fields(line)),
    }
}

/// The first character that no line form has.
fn foreign(line: &[u8]) -> Option<Explanation> {
    let known = |byte: &u8| matches!(byte, b'a'..=b'z' | b'0'..=b'9' | b',' | b'-');
    let at = line.iter().position(|byte| !known(byte))?;
    let whole = |length| std::str::from_utf8(line.get(at..at + length)?).ok()?.chars().next();
    let character = (1..=4).find_map(whole);
    let length = character.map_or(1, char::len_utf8);
    Some(Explanation::at(at..at + length, named(character, line[at])))
}

/// What is said of a character, or of a byte that begins none.
fn named(character: Option<char>, byte: u8) -> String {
    match character {
        Some('\r') => String::from("a carriage return: lines end in a line feed alone"),
        Some(' ') => String::from("a space: fields are parted by commas alone"),
        Some('\t') => String::from("a tab: fields are parted by commas alone"),
        Some('\u{feff}') => String::from("a byte order mark: a graph text has none"),
        Some(minus @ ('\u{2010}'..='\u{2015}' | '\u{2212}')) => {
            format!("a minus is written `-`, not U+{:04X}", u32::from(minus))
        }
        Some(letter @ 'A'..='Z') => {
            format!("an upper-case letter `{letter}`: words are in lower case")
        }
        Some(other) if other.is_ascii_graphic() => {
            format!("a graph text has no character `{other}`")
        }
        Some(other) if !other.is_ascii() => {
            format!("a graph text has no character U+{:04X}", u32::from(other))
        }
        _ => format!("a graph text has no byte 0x{byte:02x}"),
    }
}

/// The field that keeps a line from having a form, or how many fields a line of its word has.
fn fields(line: &[u8]) -> Option<Explanation> {
    let (word, others) = forms::fields(line);
    let Some(form) = Form::of(word.bytes) else {
        let message = unknown_word(std::str::from_utf8(word.bytes).ok()?);
        return Some(Explanation::at(word.span, message));
    };
    if others.len() != form.fields.len() {
        // The surplus from its comma on, or the place after the last field.
        let surplus = others.get(form.fields.len()).map(|field| field.span.start - 1);
        return Some(Explanation::at(surplus.unwrap_or(line.len())..line.len(), form.usage()));
    }
    form.fields.iter().zip(others).find_map(|((_, kind), field)| {
        let wrong = wrong_field(form, *kind, std::str::from_utf8(field.bytes).ok()?)?;
        Some(Explanation::at(field.span, wrong))
    })
}

fn unknown_word(word: &str) -> String {
    let words = FORMS.map(|form| form.word);
    match word {
        "" => String::from("an empty field: a line begins with a word"),
        _ if COMPARISONS.contains(&word) => {
            format!("`{word}` is a comparison: it stands in `ite` alone")
        }
        _ => did_you_mean("word", word, &words).unwrap_or(format!("unknown word `{}`", cut(word))),
    }
}

fn did_you_mean(kind: &str, word: &str, words: &[&'static str]) -> Option<String> {
    let near: Vec<String> = near(word, words).iter().map(|word| format!("`{word}`")).collect();
    let meant = near.join(" or ");
    (!near.is_empty()).then(|| format!("unknown {kind} `{word}`: did you mean {meant}?"))
}

/// What is wrong with a field, if anything is.
fn wrong_field(form: &Form, kind: Kind, field: &str) -> Option<String> {
    match (field, kind) {
        ("", _) => Some(format!("an empty field: {}", form.usage())),
        (name, Kind::Comparison) if COMPARISONS.contains(&name) => None,
        (name, Kind::Comparison) => Some(unknown_comparison(name)),
        _ => numbers::wrong(kind, field),
    }
}

/// Comparisons that are had by swapping the registers of another.
const SWAPPED: [(&str, &str); 4] = [("gt", "lt"), ("le", "ge"), ("gtu", "ltu"), ("leu", "geu")];

fn unknown_comparison(name: &str) -> String {
    if let Some((_, other)) = SWAPPED.iter().find(|(swapped, _)| *swapped == name) {
        return format!("unknown comparison `{name}`: swap the registers and write `{other}`");
    }
    let all = || {
        let (name, list) = (cut(name), COMPARISONS.join(", "));
        format!("unknown comparison `{name}`: the comparisons are {list}")
    };
    did_you_mean("comparison", name, &COMPARISONS).unwrap_or_else(all)
}

/// The characters of a field that a message shows, at most.
const LONGEST: usize = 24;

/// A field as a message shows it.
pub fn cut(field: &str) -> String {
    match field.char_indices().nth(LONGEST) {
        Some((end, _)) => format!("{}...", &field[..end]),
        None => field.to_string(),
    }
}
