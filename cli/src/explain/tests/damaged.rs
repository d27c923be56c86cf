//! Explanations of many damaged texts: what is said is true of the text, and can be printed.

use crate::explain::{explain, forms, Explanation};
use crate::refused::Refused;
use gutkavu::{Graph, ReadRefusal};
use reference::generate::{self, fixed, graphs, texts};
use reference::print::print;
use reference::random::Random;
use std::ops::Range;

fn examples() -> Vec<Vec<u8>> {
    let folder = concat!(env!("CARGO_MANIFEST_DIR"), "/../examples");
    let files = std::fs::read_dir(folder).expect("the examples").map(|file| file.unwrap().path());
    let mut texts: Vec<_> =
        files.filter(|path| path.extension().is_some_and(|e| e == "txt")).collect();
    texts.sort();
    texts.iter().map(|path| std::fs::read(path).unwrap()).collect()
}

const BYTES: [u8; 22] = *b"0123456789,,--\n\n r\raZ\xff";

const LINES: [&str; 20] = [
    "", "graph,1,1", "block,0", "block,1", "block,7", "set,0,1", "set,1,-0", "in,1", "copy,2,0",
    "add,0,0,16", "goto,0", "goto,2", "goto,99", "ite,lt,0,1,2,3", "ite,eq,0,0,64,0",
    "ite,gtu,0,0,0,0", "halt", "halt,", "gto,1", "sub,0,r1,0",
];

fn damage_bytes(random: &mut Random, text: &mut Vec<u8>) {
    let (at, byte) = (random.below(text.len()), random.pick(&BYTES));
    match random.below(5) {
        _ if text.is_empty() => text.push(byte),
        0 => text.insert(at, byte),
        1 => text[at] = byte,
        2 => text[at] = random.below(256) as u8,
        3 => drop(text.remove(at)),
        _ => text.truncate(at),
    }
}

fn damage_lines(random: &mut Random, text: &mut Vec<u8>) {
    let mut lines: Vec<Vec<u8>> =
        text.split_inclusive(|&byte| byte == b'\n').map(Vec::from).collect();
    let (at, other) = (random.below(lines.len()), random.below(lines.len()));
    let line = (random.pick(&LINES).to_string() + "\n").into_bytes();
    match random.below(6) {
        _ if lines.is_empty() => lines.push(line),
        0 => lines.swap(at, other),
        1 => drop(lines.remove(at)),
        2 => lines.insert(at, lines[at].clone()),
        3 => lines.insert(at, line),
        4 => lines.insert(at, lines[other].clone()),
        _ => lines[at] = line,
    }
    *text = lines.concat();
}

/// Texts of the second program, and graphs and examples with one to three pieces of damage.
fn damaged(random: &mut Random, examples: &[Vec<u8>]) -> Vec<u8> {
    let mut text = match random.below(10) {
        0..=2 => return texts::damaged(random),
        3 if random.percent(10) => return texts::long_text(random),
        3..=6 => print(&graphs::small_graph(random)).into_bytes(),
        _ => examples[random.below(examples.len())].clone(),
    };
    for _ in 0..random.between(1, 3) {
        match random.percent(50) {
            true => damage_bytes(random, &mut text),
            false => damage_lines(random, &mut text),
        }
    }
    text
}

fn line(text: &[u8], refused: ReadRefusal) -> &[u8] {
    forms::line(text, refused.line() as usize).unwrap_or_default()
}

/// The number that is marked, as the reader of the message takes it.
fn marked_number(line: &[u8], explanation: &Explanation) -> u32 {
    let span = explanation.span.clone().expect("a mark");
    std::str::from_utf8(&line[span]).unwrap().parse().expect("a number")
}

/// The lines before the refused one, and another in its place.
fn with_line(text: &[u8], at: usize, line: &[u8]) -> Vec<u8> {
    let before = text.split_inclusive(|&byte| byte == b'\n').take(at - 1);
    before.chain([line, b"\n"]).collect::<Vec<_>>().concat()
}

/// A field put in the place of the marked one.
fn with_field(text: &[u8], refused: ReadRefusal, span: &Range<usize>, field: &str) -> Vec<u8> {
    let line = line(text, refused);
    let line = [&line[..span.start], field.as_bytes(), &line[span.end..]].concat();
    with_line(text, refused.line() as usize, &line)
}

/// A line that does what the message says is due, so that it is admitted in this place.
fn mend(message: &str) -> Option<String> {
    let block = message.strip_prefix("the text ends before block ");
    let named = message.strip_prefix('`').and_then(|rest| rest.split('`').next());
    match message {
        _ if message.ends_with("graph,B,R is due first") => Some("graph,64,1".into()),
        _ if message.contains("ending of block") || message.contains("ninth") => {
            Some("halt".into())
        }
        _ => block.map(|block| format!("block,{block}")).or(named.map(String::from)),
    }
}

/// Refusal 3: what is said to be due is admitted there; where nothing is due, the text before is.
fn check_due(text: &[u8], at: usize, message: &str) {
    if message.starts_with("nothing") {
        let before = text.split_inclusive(|&byte| byte == b'\n').take(at - 1);
        assert!(Graph::read(&before.collect::<Vec<_>>().concat()).is_ok(), "{message}");
        return;
    }
    let due = mend(message).expect("a message that says what is due");
    let mended = with_line(text, at, due.as_bytes());
    let next = Graph::read(&mended).map_or_else(|refused| refused.line() as usize, |_| at + 1);
    assert_eq!(next, at + 1, "{message}");
}

/// Refusal 2: where a whole field is marked, and not for a byte that no line has, one of three in
/// its place is right. The line then has a form, or what is wrong with it stands further on.
fn check_field(text: &[u8], refused: ReadRefusal, explanation: &Explanation) {
    let line = line(text, refused);
    let ends = |at: usize| line.get(at).is_none_or(|&byte| byte == b',');
    let whole = |span: &Range<usize>| span.start > 0 && ends(span.start - 1) && ends(span.end);
    let known = |byte: &u8| byte.is_ascii_lowercase() || byte.is_ascii_digit() || *byte == b'-';
    let known = |span: &Range<usize>| line[span.clone()].iter().all(known);
    let Some(span) = explanation.span.clone().filter(whole).filter(known) else {
        return;
    };
    let right = |field: &&str| {
        let mended = with_field(text, refused, &span, field);
        match Graph::read(&mended) {
            Err(next) if (next.number(), next.line()) == (2, refused.line()) => {
                explain(&mended, next).span.is_some_and(|next| next.start > span.start)
            }
            _ => true,
        }
    };
    assert!(["0", "1", "eq"].iter().any(right), "{explanation:?}");
}

/// Refusals 4 and 5: the marked number is not below its limit, and no number before it is wrong.
fn check_limit(text: &[u8], refused: ReadRefusal, explanation: &Explanation) {
    let line = line(text, refused);
    let graph = String::from_utf8(forms::line(text, 1).unwrap().to_vec()).unwrap();
    let limit = graph.split(',').nth(if refused.number() == 4 { 2 } else { 1 }).unwrap();
    assert!(marked_number(line, explanation) >= limit.parse().unwrap(), "{explanation:?}");
    let span = explanation.span.clone().unwrap();
    let zero = with_field(text, refused, &span, "0");
    if let Err(next) = Graph::read(&zero) {
        let again = explain(&zero, next);
        let later = next.line() > refused.line() || again.span.unwrap().start > span.start;
        assert!(later, "{explanation:?}");
    }
}

fn check_printable(text: &[u8], refused: ReadRefusal, message: &str) {
    let plain = message.bytes().all(|byte| byte == b' ' || byte.is_ascii_graphic());
    assert!(plain && message.len() < 100 && !message.ends_with('.'), "{message:?}");
    assert!(!message.starts_with(|first: char| first.is_ascii_uppercase()), "{message:?}");
    let shown = Refused::text("a.txt", text, refused).place.map_or(0, |place| place.text.len());
    assert!(shown <= 100, "{message}");
}

/// Gives the number of the refusal, 0 for a text that is admitted.
fn check(text: &[u8]) -> usize {
    let Err(refused) = Graph::read(text) else {
        return 0;
    };
    let explanation = explain(text, refused);
    let Explanation { message, span } = &explanation;
    let place = format!("{refused} {:?}", line(text, refused).escape_ascii().to_string());
    assert_ne!(message, refused.refusal().meaning(), "{place}");
    let span = span.clone().unwrap_or(0..0);
    assert!(span.start <= span.end && span.end <= line(text, refused).len(), "{place}");
    check_printable(text, refused, message);
    match refused.number() {
        2 => check_field(text, refused, &explanation),
        3 => check_due(text, refused.line() as usize, message),
        4 | 5 => check_limit(text, refused, &explanation),
        _ => {}
    }
    refused.number() as usize
}

fn tally(texts: impl Iterator<Item = Vec<u8>>) -> [usize; 6] {
    texts.fold([0; 6], |mut seen, text| {
        seen[check(&text)] += 1;
        seen
    })
}

#[test]
fn damaged_texts() {
    let examples = examples();
    let text = |index| damaged(&mut Random::at(20_261, index), &examples);
    let seen = tally((0..12_000).map(text));
    assert!(seen[1] >= 20 && seen[2..].iter().all(|&count| count >= 300), "{seen:?}");
}

#[test]
fn texts_of_the_second_program() {
    let texts = fixed::cases().into_iter().chain(generate::cases(7, 400)).map(|case| case.text);
    let seen = tally(texts);
    assert!(seen.iter().all(|&count| count > 0), "{seen:?}");
}

/// A refusal that belongs to another text is explained somehow, at a line that may not be there.
#[test]
fn refusals_of_other_texts() {
    let examples = examples();
    let texts: Vec<_> =
        (0..2_000).map(|index| damaged(&mut Random::at(20_262, index), &examples)).collect();
    for (text, other) in texts.iter().zip(texts.iter().skip(1)) {
        if let Err(refused) = Graph::read(other) {
            assert!(!Refused::text("a.txt", text, refused).message.is_empty());
        }
    }
}
