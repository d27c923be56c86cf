//! Why a text was refused, in more words than the refusal's number has.

mod due;
mod forms;
mod near;
mod no_form;
mod numbers;
#[cfg(test)]
mod tests;

use forms::Kind;
use gutkavu::{ReadRefusal, Refusal, TEXT_BYTES};
use std::ops::Range;

/// What is wrong with the line that decided a refusal.
#[derive(Clone, Debug, PartialEq, Eq)]
pub struct Explanation {
    pub message: String,
    /// The bytes of the line that it is about; none where it is about the whole line or none.
    pub span: Option<Range<usize>>,
}

impl Explanation {
    fn whole(message: impl Into<String>) -> Explanation {
        Explanation { message: message.into(), span: None }
    }

    fn at(span: Range<usize>, message: impl Into<String>) -> Explanation {
        Explanation { message: message.into(), span: Some(span) }
    }
}

/// The number and the line are the library's, and are not judged here: where the text gives no
/// reason for them, the explanation is what the number means.
pub fn explain(text: &[u8], refused: ReadRefusal) -> Explanation {
    let line = refused.line() as usize;
    let found = match refused.refusal() {
        Refusal::TextTooLong => {
            Some(Explanation::whole(format!("the text has more than {TEXT_BYTES} bytes")))
        }
        Refusal::NoForm => no_form::explain(text, line),
        Refusal::NotDue => due::explain(text, line),
        Refusal::NoRegister => past_limit(text, line, Kind::Register),
        Refusal::NoTarget => past_limit(text, line, Kind::Target),
        _ => None,
    };
    found.unwrap_or_else(|| Explanation::whole(refused.refusal().meaning()))
}

/// The first register or target of a line that is not below its limit on the graph line.
fn past_limit(text: &[u8], line: usize, kind: Kind) -> Option<Explanation> {
    let (name, letter, limit) = match kind {
        Kind::Register => ("register", "R", Kind::Registers),
        _ => ("target", "B", Kind::Blocks),
    };
    let (limit, _) = forms::numbers(forms::line(text, 1)?, limit).into_iter().next()?;
    let numbers = forms::numbers(forms::line(text, line)?, kind);
    let (number, span) = numbers.into_iter().find(|(number, _)| *number >= limit)?;
    Some(Explanation::at(span, format!("{name} {number} is not below {letter} = {limit}")))
}
