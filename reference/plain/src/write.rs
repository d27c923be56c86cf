//! "Write graph table as text".

use crate::{block, graph_admission, ENDING};
use gutkavu::operations::WriteFields;
use gutkavu::{GRAPH_WORDS, TEXT_BYTES};

/// Names of the codes from 0.
const NAMES: [&[u8]; 21] = [
    b"", b"set", b"copy", b"add", b"sub", b"and", b"or", b"xor", b"shl", b"shr", b"sar", b"sx",
    b"eq", b"ne", b"lt", b"ge", b"ltu", b"geu", b"", b"", b"in",
];

/// A text in the making; any graph's fits.
struct Writer {
    text: [u8; TEXT_BYTES],
    length: usize,
}

impl Writer {
    fn byte(&mut self, byte: u8) {
        self.text[self.length] = byte;
        self.length += 1;
    }

    /// A name's few bytes.
    fn bytes(&mut self, bytes: &[u8]) {
        bytes.iter().for_each(|&byte| self.byte(byte));
    }

    fn digits(&mut self, value: u32) {
        let (mut left, mut end) = (value, self.length + 1);
        while left >= 10 {
            left /= 10;
            end += 1;
        }
        left = value;
        for place in self.text[self.length..end].iter_mut().rev() {
            *place = b'0' + (left % 10) as u8;
            left /= 10;
        }
        self.length = end;
    }

    /// A comma and a number.
    fn number(&mut self, value: u32) {
        self.byte(b',');
        self.digits(value);
    }

    /// A comma and a literal.
    fn literal(&mut self, word: u32) {
        self.byte(b',');
        if word as i32 >= 0 {
            self.digits(word);
        } else {
            self.byte(b'-');
            self.digits(word.wrapping_neg());
        }
    }

    fn instruction(&mut self, words: &[u32]) {
        self.bytes(NAMES[words[0] as usize]);
        self.number(words[1]);
        match words[0] {
            1 => self.literal(words[2]),
            2 | 11 => self.number(words[2]),
            20 => {}
            _ => {
                self.number(words[2]);
                self.number(words[3]);
            }
        }
        self.byte(b'\n');
    }

    fn ending(&mut self, words: &[u32]) {
        match words[0] {
            1 => {
                self.bytes(b"goto");
                self.number(words[4]);
            }
            2 => {
                self.bytes(b"ite,");
                self.bytes(NAMES[words[1] as usize]);
                words[2..6].iter().for_each(|&word| self.number(word));
            }
            _ => self.bytes(b"halt"),
        }
        self.byte(b'\n');
    }

    fn graph(&mut self, table: &[u32]) {
        self.bytes(b"graph");
        self.number(table[0]);
        self.number(table[1]);
        self.byte(b'\n');
        for n in 0..table[0] {
            let block = block(table, n as usize);
            self.bytes(b"block");
            self.number(n);
            self.byte(b'\n');
            let code = block[1..ENDING].chunks_exact(4).take(block[0] as usize);
            code.for_each(|instruction| self.instruction(instruction));
            self.ending(&block[ENDING..]);
        }
    }
}

pub fn write(table: &[u32], out: &mut [u8]) -> WriteFields {
    if table.len() < GRAPH_WORDS {
        return WriteFields { number: 7, length: 0 };
    }
    if graph_admission::admitted(table).is_none() {
        return WriteFields { number: 6, length: 0 };
    }
    let mut writer = Writer { text: [0; TEXT_BYTES], length: 0 };
    writer.graph(table);
    let (text, length) = (&writer.text[..writer.length], writer.length as u32);
    let Some(place) = out.get_mut(..text.len()) else {
        return WriteFields { number: 8, length };
    };
    place.copy_from_slice(text);
    WriteFields { number: 0, length }
}
