//! Rows of a run to record: the words of each cycle, of a machine or invented.

use super::words;
use crate::machine::Machine;
use crate::random::Random;
use crate::run::{machine_cycle, NONE};

/// The words of one line: cycle, state, registers.
pub type Row = Vec<u32>;

pub fn line_of(row: &Row) -> String {
    let words: Vec<String> = row.iter().map(u32::to_string).collect();
    words.join(",") + "\n"
}

pub fn text_of(rows: &[Row]) -> Vec<u8> {
    rows.iter().map(line_of).collect::<String>().into_bytes()
}

/// The first rows, as many as so many bytes hold, and at least one if there is one.
pub fn within(rows: impl IntoIterator<Item = Row>, bytes: usize) -> Vec<Row> {
    let mut length = 0;
    let fits = |(index, row): &(usize, Row)| {
        length += line_of(row).len();
        *index == 0 || length <= bytes
    };
    rows.into_iter().enumerate().take_while(fits).map(|(_, row)| row).collect()
}

/// A machine's cycles from 1, each with the state then stood in and the registers below R. Where
/// the given words are used up, it reads 0.
pub fn of_machine<'a>(
    machine: &'a Machine,
    start: usize,
    mut registers: Vec<u32>,
    words: &'a [u32],
) -> impl Iterator<Item = Row> + 'a {
    let mut at = Some(start);
    (1..).map_while(move |cycle: u32| {
        let word = words.get(cycle as usize - 1).copied().unwrap_or(0);
        at = machine_cycle(machine, at?, &mut registers, word).next;
        let state = at.map_or(NONE, |state| state as u32);
        Some([&[cycle, state], &registers[..machine.registers]].concat())
    })
}

/// Where numbers get a digit more, and where words end, byte order and number order part.
fn first_cycle(random: &mut Random) -> u32 {
    let top = u32::MAX - random.below(12) as u32;
    random.pick(&[0, 0, 1, 1, 1, 1, 8, 9, 98, 997, 99_999, 999_999_998, top])
}

fn step(random: &mut Random) -> u32 {
    match random.below(12) {
        0 => random.between(2, 12) as u32,
        1 => random.pick(&[10, 90, 255, 256, 65_536, 1_000_000_000, 2_147_483_648]),
        _ => 1,
    }
}

fn state(random: &mut Random) -> u32 {
    match random.percent(85) {
        true => random.below(5) as u32,
        false => words::word(random),
    }
}

/// Rising cycles with any states and with registers of which some change from row to row.
pub fn invented(random: &mut Random, registers: usize, bytes: usize) -> Vec<Row> {
    let mut row = [vec![first_cycle(random), 0], words::registers(random, registers)].concat();
    let mut rows = Vec::new();
    // The shortest line has six bytes.
    for _ in 0..1 + bytes / 6 {
        row[1] = state(random);
        rows.push(row.clone());
        let Some(cycle) = row[0].checked_add(step(random)) else {
            break;
        };
        row[0] = cycle;
        for word in &mut row[2..] {
            *word = if random.percent(30) { words::word(random) } else { *word };
        }
    }
    let mut rows = within(rows, bytes);
    if let Some(last) = rows.last_mut().filter(|_| random.percent(4)) {
        last[0] = u32::MAX;
    }
    rows
}
