//! A refusal by the proved library, with what an engineer wants to know of it.

mod excerpt;
#[cfg(test)]
mod tests;

use crate::explain::{self, Explanation};
use crate::output::{Answer, Paint};
use excerpt::Excerpt;
use gutkavu::{Machine, ReadRefusal, Refusal};
use serde::Serialize;
use std::ops::Range;

/// A refusal's number is the library's, and so is the line; the message says more of the reason.
#[derive(Clone, Debug, Serialize)]
pub struct Refused {
    pub file: String,
    pub refusal: u32,
    pub message: String,
    /// Where it is a line of the text that is refused.
    #[serde(flatten)]
    pub place: Option<Place>,
}

/// A line of a text, counted from 1, and the part of it that the message is about.
#[derive(Clone, Debug, Serialize)]
pub struct Place {
    pub line: u64,
    /// Counted from 1 in bytes; none where the message is about the whole line.
    pub column: Option<usize>,
    /// The line as it can be printed: bytes that cannot are escaped, and a long one is cut.
    pub text: String,
    /// What is marked below the line: how many characters stand before, and how many are marked.
    #[serde(skip)]
    pub mark: Option<(usize, usize)>,
}

impl Refused {
    /// A text that reading refused.
    pub fn text(file: &str, text: &[u8], refused: ReadRefusal) -> Box<Refused> {
        let Explanation { message, span } = explain::explain(text, refused);
        let line = u64::from(refused.line());
        let place = (line > 0).then(|| Place::of(text, line, span));
        Refused::new(file, refused.refusal(), message, place)
    }

    /// A call that was refused, on a graph that was read.
    pub fn call(file: &str, refusal: Refusal, message: impl Into<String>) -> Box<Refused> {
        Refused::new(file, refusal, message.into(), None)
    }

    /// A line of a text, counted from 1, for which a call was refused.
    pub fn line(
        (file, text): (&str, &[u8]),
        line: u64,
        refusal: Refusal,
        message: impl Into<String>,
    ) -> Box<Refused> {
        Refused::new(file, refusal, message.into(), Some(Place::of(text, line, None)))
    }

    fn new(file: &str, refusal: Refusal, message: String, place: Option<Place>) -> Box<Refused> {
        let (file, refusal) = (file.to_string(), refusal.number());
        Box::new(Refused { file, refusal, message, place })
    }
}

/// Why a question about a state is refused with 9.
pub fn no_state(machine: &Machine, state: u32) -> String {
    format!("state {state} is not below N = {}", machine.states())
}

impl Place {
    /// A text that stops early is refused at the line after its last, which is shown empty.
    fn of(text: &[u8], line: u64, span: Option<Range<usize>>) -> Place {
        let bytes = text.split(|&byte| byte == b'\n').nth(line as usize - 1).unwrap_or_default();
        let column = span.as_ref().map(|span| span.start + 1);
        let Excerpt { text, mark } = Excerpt::of(bytes, span);
        Place { line, column, text, mark }
    }
}

impl Answer for Refused {
    /// `FILE:LINE: MESSAGE (refusal NUMBER)`, then the line itself with what is wrong marked below.
    fn text(&self, paint: Paint) -> String {
        let Refused { file, refusal, message, place } = self;
        let at = place.as_ref().map_or(String::new(), |place| format!("{}:", place.line));
        let head = paint.bold(format!("{file}:{at}"));
        let mut text = format!("{head} {} (refusal {refusal})\n", paint.red(message));
        let shown = place.as_ref().filter(|place| !place.text.is_empty());
        if let Some(Place { text: line, mark, .. }) = shown {
            text += &format!("    {line}\n");
            if let Some((before, within)) = mark {
                let marks = paint.green("^".repeat(*within));
                text += &format!("    {}{marks}\n", " ".repeat(*before));
            }
        }
        text
    }
}
