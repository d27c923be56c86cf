//! One line of a graph's text.

pub enum Line {
    Graph(u32, u32),
    Block(u32),
    /// Code, d, a or literal, b.
    Instruction([u32; 4]),
    Goto(u32),
    /// Comparison, a, b, t, f.
    Ite([u32; 5]),
    Halt,
}

pub struct Cursor<'a> {
    pub text: &'a [u8],
    pub at: usize,
}

impl<'a> Cursor<'a> {
    /// The bytes up to a comma or line feed, and which of them it is.
    fn name(&mut self) -> Option<(&'a [u8], u8)> {
        let rest = &self.text[self.at..];
        let length = rest.iter().position(|&byte| byte == b',' || byte == b'\n')?;
        self.at += length + 1;
        Some((&rest[..length], rest[length]))
    }

    /// A number of at most `most` without leading zeros, up to the byte `end`.
    fn decimal(&mut self, end: u8, most: u64) -> Option<u32> {
        let first = self.at;
        let mut value = 0;
        loop {
            let byte = *self.text.get(self.at)?;
            self.at += 1;
            if byte == end {
                break;
            }
            if !byte.is_ascii_digit() {
                return None;
            }
            value = 10 * value + u64::from(byte - b'0');
            if value > most {
                return None;
            }
        }
        let digits = self.at - first - 1;
        let fits = digits == 1 || (digits > 1 && self.text[first] != b'0');
        fits.then_some(value as u32)
    }

    fn number(&mut self, end: u8) -> Option<u32> {
        self.decimal(end, 255)
    }

    /// A literal as a word.
    fn literal(&mut self) -> Option<u32> {
        if self.text.get(self.at) != Some(&b'-') {
            return self.decimal(b'\n', 0x7fff_ffff);
        }
        self.at += 1;
        let value = self.decimal(b'\n', 0x8000_0000)?;
        (value != 0).then_some(value.wrapping_neg())
    }

    fn graph(&mut self) -> Option<Line> {
        let (blocks, registers) = (self.number(b',')?, self.number(b'\n')?);
        let fits = (1..=64).contains(&blocks) && (1..=16).contains(&registers);
        fits.then_some(Line::Graph(blocks, registers))
    }

    fn set(&mut self) -> Option<Line> {
        Some(Line::Instruction([1, self.number(b',')?, self.literal()?, 0]))
    }

    fn input(&mut self) -> Option<Line> {
        Some(Line::Instruction([20, self.number(b'\n')?, 0, 0]))
    }

    fn unary(&mut self, code: u32) -> Option<Line> {
        Some(Line::Instruction([code, self.number(b',')?, self.number(b'\n')?, 0]))
    }

    fn binary(&mut self, code: u32) -> Option<Line> {
        let (d, a, b) = (self.number(b',')?, self.number(b',')?, self.number(b'\n')?);
        Some(Line::Instruction([code, d, a, b]))
    }

    fn ite(&mut self) -> Option<Line> {
        let code = match self.name()? {
            (b"eq", b',') => 12,
            (b"ne", b',') => 13,
            (b"lt", b',') => 14,
            (b"ge", b',') => 15,
            (b"ltu", b',') => 16,
            (b"geu", b',') => 17,
            _ => return None,
        };
        let (a, b) = (self.number(b',')?, self.number(b',')?);
        Some(Line::Ite([code, a, b, self.number(b',')?, self.number(b'\n')?]))
    }

    /// The line that begins here, if it has a form. Behind it stands the next line.
    pub fn line(&mut self) -> Option<Line> {
        match self.name()? {
            (b"halt", b'\n') => Some(Line::Halt),
            (_, b'\n') => None,
            (b"set", _) => self.set(),
            (b"copy", _) => self.unary(2),
            (b"add", _) => self.binary(3),
            (b"sub", _) => self.binary(4),
            (b"and", _) => self.binary(5),
            (b"or", _) => self.binary(6),
            (b"xor", _) => self.binary(7),
            (b"shl", _) => self.binary(8),
            (b"shr", _) => self.binary(9),
            (b"sar", _) => self.binary(10),
            (b"sx", _) => self.unary(11),
            (b"in", _) => self.input(),
            (b"block", _) => Some(Line::Block(self.number(b'\n')?)),
            (b"goto", _) => Some(Line::Goto(self.number(b'\n')?)),
            (b"ite", _) => self.ite(),
            (b"graph", _) => self.graph(),
            _ => None,
        }
    }
}
