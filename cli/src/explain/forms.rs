//! The line forms of a graph text, and the fields of a line.

use std::ops::Range;

/// What a field holds.
#[derive(Clone, Copy, Debug, PartialEq, Eq)]
pub enum Kind {
    /// B of the graph line.
    Blocks,
    /// R of the graph line.
    Registers,
    /// A block's own number.
    Block,
    Register,
    Target,
    Literal,
    Comparison,
}

/// What a line is in a text.
#[derive(Clone, Copy, Debug, PartialEq, Eq)]
pub enum Role {
    Graph,
    Block,
    Instruction,
    Ending,
}

#[derive(Debug)]
pub struct Form {
    pub word: &'static str,
    pub role: Role,
    /// The fields after the word, each by the name that the written form has for it.
    pub fields: &'static [(&'static str, Kind)],
}

const fn form(word: &'static str, role: Role, fields: &'static [(&'static str, Kind)]) -> Form {
    Form { word, role, fields }
}

const fn instruction(word: &'static str, fields: &'static [(&'static str, Kind)]) -> Form {
    form(word, Role::Instruction, fields)
}

const D: (&str, Kind) = ("d", Kind::Register);
const A: (&str, Kind) = ("a", Kind::Register);
const B: (&str, Kind) = ("b", Kind::Register);
const T: (&str, Kind) = ("t", Kind::Target);
const F: (&str, Kind) = ("f", Kind::Target);

pub const FORMS: [Form; 17] = [
    form("graph", Role::Graph, &[("B", Kind::Blocks), ("R", Kind::Registers)]),
    form("block", Role::Block, &[("n", Kind::Block)]),
    instruction("set", &[D, ("literal", Kind::Literal)]),
    instruction("copy", &[D, A]),
    instruction("sx", &[D, A]),
    instruction("in", &[D]),
    instruction("add", &[D, A, B]),
    instruction("sub", &[D, A, B]),
    instruction("and", &[D, A, B]),
    instruction("or", &[D, A, B]),
    instruction("xor", &[D, A, B]),
    instruction("shl", &[D, A, B]),
    instruction("shr", &[D, A, B]),
    instruction("sar", &[D, A, B]),
    form("goto", Role::Ending, &[T]),
    form("ite", Role::Ending, &[("comparison", Kind::Comparison), A, B, T, F]),
    form("halt", Role::Ending, &[]),
];

pub const COMPARISONS: [&str; 6] = ["eq", "ne", "lt", "ge", "ltu", "geu"];

impl Form {
    /// The form that a line's first field names.
    pub fn of(word: &[u8]) -> Option<&'static Form> {
        FORMS.iter().find(|form| form.word.as_bytes() == word)
    }

    /// How a line of this form is written.
    pub fn usage(&self) -> String {
        let Form { word, fields, .. } = self;
        let names: String = fields.iter().map(|(name, _)| format!(",{name}")).collect();
        match fields.is_empty() {
            true => format!("`{word}` stands alone"),
            false => format!("`{word}` is written {word}{names}"),
        }
    }
}

/// The lines of a text without their line feeds, the last one also where it has none.
pub fn lines(text: &[u8]) -> impl Iterator<Item = &[u8]> {
    let lines = text.split_inclusive(|&byte| byte == b'\n');
    lines.map(|line| line.strip_suffix(b"\n").unwrap_or(line))
}

/// One line, counted from 1.
pub fn line(text: &[u8], number: usize) -> Option<&[u8]> {
    lines(text).nth(number.checked_sub(1)?)
}

pub struct Field<'a> {
    pub bytes: &'a [u8],
    pub span: Range<usize>,
}

/// A line's first field, and the others.
pub fn fields(line: &[u8]) -> (Field<'_>, Vec<Field<'_>>) {
    let mut start = 0;
    let mut all = line.split(|&byte| byte == b',').map(|bytes| {
        let span = start..start + bytes.len();
        start = span.end + 1;
        Field { bytes, span }
    });
    let word = all.next().unwrap_or(Field { bytes: line, span: 0..line.len() });
    (word, all.collect())
}

/// The numbers of a kind in a line, each with where it stands.
pub fn numbers(line: &[u8], kind: Kind) -> Vec<(u32, Range<usize>)> {
    let (word, others) = fields(line);
    let kinds = Form::of(word.bytes).map_or(&[][..], |form| form.fields);
    let wanted = kinds.iter().zip(others).filter(|((_, one), _)| *one == kind);
    let number = |field: &Field| std::str::from_utf8(field.bytes).ok()?.parse().ok();
    wanted.filter_map(|(_, field)| Some((number(&field)?, field.span))).collect()
}
