//! Comparing captures: the pairs of recordings that are timed, made from a seed, and their rows.

use super::table::{heads, row};
use super::timing::compare;
use super::work::same;
use gutkavu::captures::Line;
use gutkavu::operations::{compare_captures, CaptureFields};
use reference::random::Random;
use std::fmt::Write;
use std::hint::black_box;

/// Bytes of a long recording, at least, and lines of a short one.
const BYTES: usize = 1_000_000;
const LINES: u32 = 10;

type Word = fn(&mut Random) -> u32;

/// From one digit to ten, as counts and addresses have; `Random::word` nearly always has ten.
fn any_length(random: &mut Random) -> u32 {
    let bits = random.below(32);
    random.word() >> bits
}

/// Lines of these cycles, until there are enough bytes.
fn recording(seed: u64, registers: u32, word: Word, cycles: impl Iterator<Item = u32>) -> Vec<u8> {
    let mut random = Random::new(seed);
    let mut text = String::new();
    for cycle in cycles {
        let state = random.below(64) as u32;
        let registers: Vec<u32> = (0..registers).map(|_| word(&mut random)).collect();
        text += &Line { cycle, state, registers: &registers }.to_string();
        if text.len() >= BYTES {
            break;
        }
    }
    text.into_bytes()
}

struct Pair {
    name: String,
    registers: u32,
    first: Vec<u8>,
    second: Vec<u8>,
}

fn pairs(registers: u32) -> [Pair; 5] {
    let pair = |name: &str, first, second| Pair { name: name.into(), registers, first, second };
    let long = |seed, word| recording(seed, registers, word, 0..);
    let every_second = |seed, cycle| recording(seed, registers, any_length, (cycle..).step_by(2));
    let short = || recording(1, registers, any_length, 0..LINES);
    [
        pair("equal", long(1, any_length), long(1, any_length)),
        pair("equal, words of 32 bits", long(1, Random::word), long(1, Random::word)),
        pair("all lines differ", long(1, any_length), long(2, any_length)),
        pair("no cycle in both", every_second(1, 0), every_second(2, 1)),
        pair(&format!("equal, {LINES} lines"), short(), short()),
    ]
}

impl Pair {
    fn call(&self, program: fn(u32, &[u8], &[u8]) -> CaptureFields) -> CaptureFields {
        program(black_box(self.registers), black_box(&self.first), black_box(&self.second))
    }

    fn row(&self, out: &mut String) -> Result<(), String> {
        let (proved, plain) =
            (|| self.call(compare_captures), || self.call(plain::compare_captures));
        same("compare captures", proved(), plain())?;
        let bytes = (self.first.len() + self.second.len()) as u32;
        row(out, &self.name, &compare(proved, plain), Some(bytes));
        Ok(())
    }
}

/// The rows of each number of registers.
pub fn report() -> Result<String, String> {
    let mut out = String::from("\nComparing captures, of a megabyte each but for the last row;");
    out.push_str(" the last two columns are bytes of both a second.\n");
    for registers in [1, 16] {
        let _ = writeln!(out, "\nregisters {registers}");
        heads(&mut out, "", ["proved", "plain"]);
        pairs(registers).iter().try_for_each(|pair| pair.row(&mut out))?;
    }
    Ok(out)
}
