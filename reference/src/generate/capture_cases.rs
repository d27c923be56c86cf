//! Pairs of recordings that do not depend on the seed: what is shared, each fault, what goes first.

use super::row::{text_of, Row};
use crate::case::Captures;

fn pair(registers: u32, first: impl Into<Vec<u8>>, second: impl Into<Vec<u8>>) -> Captures {
    Captures { registers, first: first.into(), second: second.into() }
}

/// Recordings of one register without a fault.
const RIGHT: [(&str, &str); 34] = [
    ("", ""),
    ("", "1,0,5\n"),
    ("1,0,5\n", ""),
    ("1,0,5\n", "1,0,5\n"),
    ("1,0,5\n", "2,0,5\n"),
    ("2,0,5\n", "1,0,5\n"),
    ("1,0,5\n3,0,5\n5,0,5\n", "2,0,5\n4,0,5\n"),
    ("1,0,5\n2,0,5\n", "3,0,5\n4,0,5\n"),
    ("1,0,5\n2,0,6\n3,1,7\n", "2,0,6\n3,1,7\n4,1,8\n"),
    ("1,0,5\n3,1,7\n", "1,0,5\n2,0,6\n3,1,7\n"),
    ("1,0,5\n2,0,6\n3,1,7\n", "1,0,5\n3,1,8\n"),
    ("1,0,5\n2,0,6\n", "1,0,9\n2,0,9\n"),
    ("1,0,5\n2,0,6\n3,0,7\n", "1,0,5\n2,1,6\n3,1,7\n"),
    ("1,0,5\n2,0,6\n", "1,0,5\n2,0,7\n3,0,8\n"),
    ("1,0,5\n2,9,9\n3,0,7\n", "1,0,5\n3,0,7\n4,9,9\n"),
    ("1,0,5\n", "1,1,5\n"),
    ("1,0,5\n", "1,0,6\n"),
    ("1,5,0\n", "1,0,5\n"),
    ("1,12,3\n", "1,1,23\n"),
    ("11,2,3\n", "1,12,3\n"),
    ("1,0,12\n", "1,0,21\n"),
    ("1,0,1\n", "1,0,10\n"),
    ("9,0,1\n10,0,1\n", "10,0,1\n"),
    ("9,0,1\n10,0,1\n100,0,1\n", "9,0,1\n100,0,2\n"),
    ("2,0,1\n10,0,1\n", "2,0,1\n3,0,1\n10,0,1\n"),
    ("0,0,0\n", "0,0,0\n"),
    ("0,0,0\n", "0,0,1\n"),
    ("0,0,0\n1,0,0\n", "0,4294967295,0\n1,1,0\n"),
    ("4294967295,0,0\n", "4294967295,0,4294967295\n"),
    ("0,0,0\n4294967295,0,0\n", "4294967295,0,0\n"),
    ("4294967294,0,0\n4294967295,0,0\n", "4294967294,0,0\n4294967295,1,0\n"),
    ("1,255,5\n", "1,511,5\n"),
    ("1,0,5\n", "1,65536,5\n"),
    ("1,2147483648,5\n2,0,0\n", "1,2147483648,5\n2,0,2147483648\n"),
];

fn right() -> Vec<Captures> {
    RIGHT.iter().map(|&(first, second)| pair(1, first, second)).collect()
}

/// A recording of three lines, of which a middle one can be another.
fn around(line: &str) -> String {
    format!("1,0,5,7\n{line}\n3,1,6,7\n")
}

/// A recording without a fault, which shares a cycle with those that have one.
const SOUND: &str = "1,0,5,7\n2,0,5,8\n3,1,6,7\n4,1,6,8\n";

/// A faulty recording as the first, as the second and as both.
fn in_each_place(registers: u32, faulty: impl Into<Vec<u8>>, sound: &str) -> [Captures; 3] {
    let faulty = faulty.into();
    [
        pair(registers, faulty.clone(), sound),
        pair(registers, sound, faulty.clone()),
        pair(registers, faulty.clone(), faulty),
    ]
}

const NO_WORDS: [&str; 28] = [
    "",
    "00",
    "01",
    "02",
    "000",
    "4294967296",
    "4294967298",
    "4294967300",
    "5000000000",
    "10000000000",
    "42949672950",
    "18446744073709551616",
    "18446744073709551618",
    "340282366920938463463374607431768211458",
    " 2",
    "2 ",
    "-2",
    "-0",
    "+2",
    "a",
    "2a",
    "0x2",
    "2.0",
    "2e1",
    "2\r",
    "2\0",
    "/",
    ":",
];

/// Every field of a line spelled as no word is, in either recording by turns.
fn spellings() -> Vec<Captures> {
    let mut pairs = Vec::new();
    for (choice, spelling) in NO_WORDS.iter().enumerate() {
        for field in 0..4 {
            let mut fields = ["2", "0", "5", "8"];
            fields[field] = spelling;
            let [first, second, _] = in_each_place(2, around(&fields.join(",")), SOUND);
            pairs.push(if (choice + field) % 2 == 0 { first } else { second });
        }
    }
    pairs
}

const WORDS: [u32; 14] = [
    0, 9, 10, 255, 256, 65_535, 65_536, 999_999_999, 1_000_000_000, 2_147_483_647, 2_147_483_648,
    4_294_967_290, 4_294_967_294, 4_294_967_295,
];

/// Words at their edges in every field, alike in both recordings and with a change in one.
fn edge_words() -> Vec<Captures> {
    let row = |word: u32| text_of(&[vec![word; 4]]);
    let changed = |(index, word): (usize, u32)| {
        let mut other = vec![word; 4];
        other[1 + index % 3] ^= 1;
        pair(2, row(word), text_of(&[other]))
    };
    let same = WORDS.into_iter().map(|word| pair(2, row(word), row(word)));
    same.chain(WORDS.into_iter().enumerate().map(changed)).collect()
}

/// A row of a cycle with so many registers.
fn row(cycle: u32, registers: u32) -> Row {
    [cycle, cycle % 3].into_iter().chain((0..registers).map(|index| 3 * index)).collect()
}

/// Limits of R, each before right lines, before lines with a register less or more, and before none.
fn register_counts() -> Vec<Captures> {
    let counts = [0, 1, 2, 3, 15, 16, 17, 18, 255, 256, 257, 65_537, 2_147_483_649, 4_294_967_295];
    let mut pairs = Vec::new();
    for registers in counts {
        let held = registers.min(17);
        let text = |registers: u32| text_of(&[row(1, registers), row(2, registers)]);
        pairs.push(pair(registers, "", ""));
        pairs.push(pair(registers, text(held), text(held)));
        pairs.push(pair(registers, text(held), text(held + 1)));
        pairs.push(pair(registers, text(held.saturating_sub(1)), text(held)));
        pairs.push(pair(registers, "x", "\n"));
        pairs.push(pair(registers, "1,0,1\n", "2,0,1\n1,0,1\n"));
    }
    pairs.push(pair(0, "1,0,\n", "1,0,\n"));
    pairs
}

const NO_FORMS: [&str; 17] = [
    "", ",", ",,,", "2", "2,0", "2,0,5", "2,0,5,8,9", "2,0,5,8,", ",2,0,5,8", "2,,0,5,8",
    "2;0;5;8", "2,0,5 8", " 2,0,5,8", "2,0,5,8\r", "cycle,state,r0,r1", "2,0,5,8,3,1,6,7",
    "2,0,5,8,0",
];

/// Lines without the form as the first, a middle and the last one, in either recording by turns.
fn forms() -> Vec<Captures> {
    let mut pairs = Vec::new();
    for (choice, line) in NO_FORMS.iter().enumerate() {
        let texts =
            [format!("{line}\n3,1,6,7\n"), around(line), format!("1,0,5,7\n3,0,5,7\n{line}\n")];
        for (place, text) in texts.into_iter().enumerate() {
            let [first, second, _] = in_each_place(2, text, SOUND);
            pairs.push(if (choice + place) % 2 == 0 { first } else { second });
        }
    }
    pairs
}

/// Recordings whose end, or whose bytes, are not those of lines.
const ENDS: [&[u8]; 17] = [
    b"1,0,5,7", b"1,0,5,7\n2,0,5,8", b"1,0,5,7\n\n", b"\n", b"\n1,0,5,7\n", b"1,0,5,7\r\n",
    b"1,0,5,7\r", b"1,0,5,7\x00\n", b"1,0,5,7\n\x00", b"1,0,5,7\n\xff", b"\xff\n", b"\x00",
    b"\xef\xbb\xbf1,0,5,7\n", b"1,0,5,7\n2", b"1,0,5,7\n ", b"1,0,5,7\x85\n",
    b"1,0,5,7\n2,0,5,\xff\n",
];

fn ends() -> Vec<Captures> {
    ENDS.into_iter().flat_map(|text| in_each_place(2, text, SOUND)).collect()
}

/// Cycles that do not rise somewhere.
const FALLING: [&[u32]; 13] = [
    &[1, 1],
    &[2, 1],
    &[1, 2, 2],
    &[1, 2, 1],
    &[1, 3, 2, 4],
    &[5, 0],
    &[0, 0],
    &[10, 9],
    &[9, 10, 9],
    &[1, 2, 3, 3, 2],
    &[u32::MAX, u32::MAX],
    &[u32::MAX, 0],
    &[1, 2, u32::MAX, 3],
];

fn orders() -> Vec<Captures> {
    let text = |cycles: &[u32]| {
        let rows: Vec<Row> = cycles.iter().map(|&cycle| row(cycle, 2)).collect();
        text_of(&rows)
    };
    FALLING.into_iter().flat_map(|cycles| in_each_place(2, text(cycles), SOUND)).collect()
}

/// Several faults, of which one goes first; recordings of one register.
const SEVERAL: [(&str, &str); 24] = [
    ("1,0,5\n2,0,5\n2,0,5\n", "x\n"),
    ("1,0,5\n2,0,5\nx\n", "1,0,5\n1,0,5\n"),
    ("1,0,5\nx\n", "1,0,5\nx\n"),
    ("1,0,5\n1,0,5\n", "x\n1,0,5\n"),
    ("1,0,5\n", "1,0,5\n2,0,5\n3,0,5\n4,0,5\nx\n"),
    ("1,0,5\n", "1,0,5\n2,0,5\n3,0,5\n3,0,5\n"),
    ("", "1,0,5\n1,0,5\n"),
    ("x", ""),
    ("2,0,5\n2,0,05\n", "1,0,5\n"),
    ("2,0,5\n02,0,5\n", "1,0,5\n"),
    ("2,0,5\n1,0\n", "1,0,5\n"),
    ("2,0,5\n1,0,x\n", "1,0,5\n"),
    ("2,0,5\n2,0,5", "1,0,5\n"),
    ("1,0,5\n", "2,0,5\n1,0,5,5\n"),
    ("1,0,5\n1,0,5\nx\n", "1,0,5\n"),
    ("1,0,5\nx\n1,0,5\n", "1,0,5\n"),
    ("5,0,5\nx\n1,0,5\n1,0,5\n", "1,0,5\n"),
    ("1,0,5\n2,0,x\n", "1,0,6\n2,0,5\n"),
    ("1,0,5\n2,0,5\n", "1,1,6\n2,0,5\n2,0,5\n"),
    ("4294967296,0,5\n1,0,5\n", "1,0,5\n"),
    ("1,0,5\n", "1,0,5\n1,0,5\n1,0,5\n"),
    ("1,0,5\n", "3,0,5\n2,0,5\n1,0,5\n"),
    ("", "2,0,5\n2,0,6\n5,0,5\n4,0,5\n"),
    ("1,0,5\n2,0,5\n", "1,0,5\n0,0,5\n9,0,5\n9,0,5\n"),
];

fn several() -> Vec<Captures> {
    SEVERAL.iter().map(|&(first, second)| pair(1, first, second)).collect()
}

/// Each word of a line behind its cycle changed by itself, in the first or in the second row.
fn columns() -> Vec<Captures> {
    let mut pairs = Vec::new();
    for registers in [1, 2, 15, 16] {
        for column in 1..2 + registers as usize {
            let rows = vec![row(7, registers), row(8, registers)];
            let mut changed = rows.clone();
            changed[column % 2][column] += 1;
            pairs.push(pair(registers, text_of(&rows), text_of(&changed)));
        }
    }
    pairs
}

/// Hundreds of lines: one differs at the end, every third is missing, the last one falls.
fn long() -> Vec<Captures> {
    let rows: Vec<Row> = (1..=420).map(|cycle| row(cycle, 1)).collect();
    let thinned: Vec<Row> = rows.iter().filter(|row| row[0] % 3 != 0).cloned().collect();
    let (mut changed, mut falling) = (rows.clone(), rows.clone());
    changed[419][2] = 1;
    falling[419][0] = 419;
    let others = [changed, thinned, falling];
    others.map(|other| pair(1, text_of(&rows), text_of(&other))).to_vec()
}

pub fn pairs() -> Vec<Captures> {
    let kinds = [
        right(),
        spellings(),
        edge_words(),
        register_counts(),
        forms(),
        ends(),
        orders(),
        several(),
        columns(),
        long(),
    ];
    kinds.concat()
}
