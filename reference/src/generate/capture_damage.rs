//! Damaged recordings: each kind aims at one fault of a line, or at two of them.

use crate::random::Random;

type Line = Vec<String>;
type Lines = Vec<Line>;

fn lines_of(text: &[u8]) -> Lines {
    let text = String::from_utf8_lossy(text);
    text.lines().map(|line| line.split(',').map(String::from).collect()).collect()
}

fn bytes_of(lines: &Lines) -> Vec<u8> {
    lines.iter().flat_map(|line| (line.join(",") + "\n").into_bytes()).collect()
}

/// A line, the first and the last more often than others, and a field of it likewise.
fn spot<'a>(random: &mut Random, lines: &'a mut Lines) -> &'a mut String {
    let last = lines.len() - 1;
    let any = random.between(0, last);
    let line = &mut lines[random.pick(&[0, last, any, any, any])];
    let last = line.len() - 1;
    let any = random.between(0, last);
    &mut line[random.pick(&[0, 1.min(last), last, any, any])]
}

type Damage = fn(&mut Random, &mut Lines);

fn leading_zero(random: &mut Random, lines: &mut Lines) {
    let zeros = random.pick(&["0", "0", "00", "0000000000"]);
    spot(random, lines).insert_str(0, zeros);
}

/// Too large by little or by much, also where the low bits are those of the word itself.
fn too_large(random: &mut Random, lines: &mut Lines) {
    let choice = random.below(12);
    let field = spot(random, lines);
    let word: u128 = field.parse().unwrap_or(1);
    *field = match choice {
        0..=3 => (word + (1 << 32)).to_string(),
        4 => (word + (1 << 64)).to_string(),
        5 => (word + (3 << 32)).to_string(),
        6 => String::from("4294967296"),
        7 => String::from("4294967300"),
        8 => String::from("5000000000"),
        9 => String::from("10000000000"),
        10 => "9".repeat(40),
        _ => "1".to_string() + &"0".repeat(60),
    };
}

fn odd_spelling(random: &mut Random, lines: &mut Lines) {
    let odd = ["", "", "-1", "+1", "-0", "+0", "a", "x1", "1x", "0x1", "1.0", "1e3", "1_0", "r0"];
    *spot(random, lines) = random.pick(&odd).to_string();
}

/// A byte that stands beside the digits in their order, a space, a sign or any other.
fn odd_byte(random: &mut Random, lines: &mut Lines) {
    let odd = [' ', '\r', '\t', '\0', '+', '-', '.', ';', '/', ':', '"', '\u{b}', 'é', '\u{661}'];
    let (byte, behind) = (random.pick(&odd), random.percent(50));
    let field = spot(random, lines);
    field.insert(if behind { field.len() } else { 0 }, byte);
}

fn missing_field(random: &mut Random, lines: &mut Lines) {
    let line = random.below(lines.len());
    let field = random.below(lines[line].len());
    if lines[line].len() > 1 {
        lines[line].remove(field);
    }
}

/// A field more, an empty one included, often at the end.
fn extra_field(random: &mut Random, lines: &mut Lines) {
    let line = random.below(lines.len());
    let end = lines[line].len();
    let any = random.between(0, end);
    let at = random.pick(&[end, end, any]);
    lines[line].insert(at, random.pick(&["", "", "0", "1", "4294967295"]).to_string());
}

fn empty_line(random: &mut Random, lines: &mut Lines) {
    let (end, any) = (lines.len(), random.between(0, lines.len()));
    lines.insert(random.pick(&[0, end, any, any]), vec![String::new()]);
}

fn joined(random: &mut Random, lines: &mut Lines) {
    let at = random.below(lines.len());
    if at + 1 < lines.len() {
        let next = lines.remove(at + 1);
        lines[at].extend(next);
    }
}

fn carriage_returns(_: &mut Random, lines: &mut Lines) {
    lines.iter_mut().flat_map(|line| line.last_mut()).for_each(|field| field.push('\r'));
}

/// A line twice, or one with the cycle of the line before it.
fn equal_cycle(random: &mut Random, lines: &mut Lines) {
    let at = random.below(lines.len());
    if at == 0 || random.percent(30) {
        lines.insert(at, lines[at].clone());
    } else {
        lines[at][0] = lines[at - 1][0].clone();
    }
}

fn falling_cycle(random: &mut Random, lines: &mut Lines) {
    let (at, last) = (random.below(lines.len()), lines.len() - 1);
    match random.below(3) {
        _ if at == 0 => lines.swap(0, last.min(1)),
        0 => lines.swap(at - 1, at),
        1 => lines[at][0] = String::from("0"),
        _ => {
            let before: u32 = lines[at - 1][0].parse().unwrap_or(0);
            lines[at][0] = before.saturating_sub(1).to_string();
        }
    }
}

/// No cycle is above the greatest word, so every line behind it falls.
fn greatest_cycle(random: &mut Random, lines: &mut Lines) {
    let at = random.below(lines.len());
    lines[at][0] = u32::MAX.to_string();
}

/// A line that neither rises nor has the form: the form goes first.
fn both_faults(random: &mut Random, lines: &mut Lines) {
    let at = random.below(lines.len());
    let mut line = lines[at].clone();
    match random.below(4) {
        0 => line[0].insert(0, '0'),
        1 => drop(line.pop()),
        2 => line.push(String::from("7")),
        _ => line.iter_mut().skip(1).for_each(|field| field.insert(0, '0')),
    }
    lines.insert(at + 1, line);
}

const DAMAGE: [Damage; 24] = [
    leading_zero, leading_zero, too_large, too_large, odd_spelling, odd_byte, odd_byte,
    missing_field, extra_field, empty_line, empty_line, joined, carriage_returns, equal_cycle,
    equal_cycle, equal_cycle, equal_cycle, falling_cycle, falling_cycle, falling_cycle,
    falling_cycle, greatest_cycle, greatest_cycle, both_faults,
];

/// Damage done to the bytes, where lines no longer matter.
fn damage_bytes(random: &mut Random, text: &mut Vec<u8>) {
    let at = random.below(text.len().max(1)).min(text.len());
    match random.below(8) {
        0..=2 => drop(text.pop()),
        3 => text.truncate(at),
        4 => {
            text.extend(random.pick(&["1", " ", "\n", "\0", "\r\n", ",", "0,0,0", "\n\n"]).bytes())
        }
        5 if at < text.len() => text[at] = random.below(256) as u8,
        6 if at < text.len() => drop(text.remove(at)),
        _ => text.insert(at, random.pick(b"\x00\xff\n\n,,0 -\r")),
    }
}

/// Recordings that need no run.
fn bare(random: &mut Random) -> Vec<u8> {
    let texts: [&[u8]; 12] = [
        b"\n", b"\n\n", b"\r\n", b"0", b"0\n", b",\n", b",,\n", b"0,0\n", b"0,0,\n", b"\x00\n",
        b"\xff\n", b"x",
    ];
    random.pick(&texts).to_vec()
}

/// Lines first: bytes that are damaged would not come back as the same lines.
fn damage_one(random: &mut Random, text: &mut Vec<u8>) {
    let mut lines = lines_of(text);
    let (mut of_lines, mut of_bytes) =
        random.pick(&[(1, 0), (1, 0), (1, 0), (2, 0), (0, 1), (1, 1)]);
    if lines.is_empty() {
        (of_lines, of_bytes) = (0, 1);
    }
    for _ in 0..of_lines {
        random.pick(&DAMAGE)(random, &mut lines);
    }
    *text = if random.percent(5) { bare(random) } else { bytes_of(&lines) };
    for _ in 0..of_bytes {
        damage_bytes(random, text);
    }
}

/// Damages one of two recordings, or both.
pub fn damage(random: &mut Random, texts: &mut [Vec<u8>; 2]) {
    let sides =
        random.pick(&[[true, false], [true, false], [false, true], [false, true], [true; 2]]);
    for (text, _) in texts.iter_mut().zip(sides).filter(|(_, damaged)| *damaged) {
        damage_one(random, text);
    }
}

const MEETING: [Damage; 6] =
    [equal_cycle, falling_cycle, falling_cycle, both_faults, leading_zero, missing_field];

/// Damages several lines, mostly of both recordings: lines without the form and lines that fall.
pub fn several(random: &mut Random, texts: &mut [Vec<u8>; 2]) {
    for text in texts {
        let mut lines = lines_of(text);
        if lines.is_empty() || random.percent(30) {
            continue;
        }
        for _ in 0..random.pick(&[1, 2, 3, 3]) {
            random.pick(&MEETING)(random, &mut lines);
        }
        *text = bytes_of(&lines);
    }
}
