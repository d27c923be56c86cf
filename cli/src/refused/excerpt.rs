//! A line of a text as it can be printed, cut around the part that is marked.

use std::ops::Range;

/// The characters of a line that are shown, at most.
pub const WIDTH: usize = 100;

/// What stands for a part that is cut off.
const CUT: &str = "...";

#[derive(Clone, Debug, PartialEq, Eq)]
pub struct Excerpt {
    /// Printable ASCII alone: other bytes, and backslashes, are escaped.
    pub text: String,
    /// How many characters stand before the marked ones, and how many are marked.
    pub mark: Option<(usize, usize)>,
}

fn shown(bytes: &[u8]) -> String {
    let plain = |byte: u8| (byte == b' ' || byte.is_ascii_graphic()) && byte != b'\\';
    let one = |&byte: &u8| match plain(byte) {
        true => char::from(byte).to_string(),
        false => byte.escape_ascii().to_string(),
    };
    bytes.iter().map(one).collect()
}

/// How many of the bytes, taken one by one, can be shown in so many characters.
fn fitting<'a>(bytes: impl Iterator<Item = &'a u8>, room: usize) -> usize {
    let widths = bytes.scan(0, |width, &byte| {
        *width += shown(&[byte]).len();
        Some(*width)
    });
    widths.take_while(|width| *width <= room).count()
}

/// The bytes that are shown: from the first on where the marked ones are then shown whole, and
/// otherwise from a little before them.
fn window(bytes: &[u8], marked: &Range<usize>) -> Range<usize> {
    if fitting(bytes.iter(), WIDTH) == bytes.len() {
        return 0..bytes.len();
    }
    let room = WIDTH - 2 * CUT.len();
    let first = fitting(bytes.iter(), room);
    if marked.end.max(marked.start + 1) <= first {
        return 0..first;
    }
    let start = marked.start - fitting(bytes[..marked.start].iter().rev(), room / 2);
    start..start + fitting(bytes[start..].iter(), room)
}

impl Excerpt {
    /// What the span has past the line's end is left out.
    pub fn of(bytes: &[u8], span: Option<Range<usize>>) -> Excerpt {
        let within = |span: Range<usize>| {
            let end = span.end.min(bytes.len());
            span.start.min(end)..end
        };
        let marked = span.map(within);
        let window = window(bytes, &marked.clone().unwrap_or(0..0));
        let start = if window.start > 0 { CUT } else { "" };
        let end = if window.end < bytes.len() { CUT } else { "" };
        let mark = marked.map(|marked| {
            let before = start.len() + shown(&bytes[window.start..marked.start]).len();
            let marked = &bytes[marked.start..marked.end.min(window.end)];
            (before, shown(marked).len().max(1))
        });
        Excerpt { text: format!("{start}{}{end}", shown(&bytes[window])), mark }
    }
}
