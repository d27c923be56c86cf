//! One case of the comparison, and its form in a stream of bytes.

pub const MAX_CASE_TEXT: usize = 20_000;
pub const MAX_GRAPH_BUFFER: usize = 2_600;
pub const MAX_OUTPUT_BUFFER: usize = 17_000;
pub const MAX_MACHINE_BUFFER: usize = 13_828;
pub const MAX_REGISTER_BUFFER: usize = 20;
pub const MAX_PATCHES: usize = 64;
pub const MAX_WORDS: usize = 64;
pub const MAX_STARTERS: usize = 70;
pub const MAX_RECORDING: usize = 4_000;

/// A place in a buffer and the word put there.
pub type Patch = (u32, u32);

/// Two recordings that are compared, and the number of registers given with them.
#[derive(Clone, Debug, PartialEq, Eq)]
pub struct Captures {
    pub registers: u32,
    pub first: Vec<u8>,
    pub second: Vec<u8>,
}

/// The state and the register that a machine is asked about.
#[derive(Clone, Copy, Debug, PartialEq, Eq)]
pub struct Asked {
    pub state: u32,
    pub register: u32,
}

/// Lowest and highest words of registers at the start of a cycle.
#[derive(Clone, Debug, PartialEq, Eq)]
pub struct Bounds {
    pub lowest: Vec<u32>,
    pub highest: Vec<u32>,
}

#[derive(Clone, Debug, PartialEq, Eq)]
pub struct Case {
    pub text: Vec<u8>,
    pub graph_length: u32,
    pub graph_patches: Vec<Patch>,
    pub output_length: u32,
    pub machine_length: u32,
    pub machine_patches: Vec<Patch>,
    pub registers: Vec<u32>,
    pub start_block: u32,
    pub block_budget: u32,
    pub start_state: u32,
    pub cycle_budget: u32,
    pub words: Vec<u32>,
    pub starters: Vec<u32>,
    pub captures: Captures,
    pub asked: Asked,
    /// The bounds are asked for the state asked about.
    pub bounds: Bounds,
}

impl Case {
    /// A case with exact buffers, no damage, small budgets, a word for each cycle, recordings of
    /// nothing, a question about state 0 and register 0, and registers between -720 and 720.
    pub fn plain(text: &[u8]) -> Case {
        Case {
            text: text.to_vec(),
            graph_length: 2_562,
            graph_patches: Vec::new(),
            output_length: 16_384,
            machine_length: 13_762,
            machine_patches: Vec::new(),
            registers: vec![0; 16],
            start_block: 0,
            block_budget: 40,
            start_state: 0,
            cycle_budget: 20,
            words: (1..=20).collect(),
            starters: vec![0],
            captures: Captures { registers: 1, first: Vec::new(), second: Vec::new() },
            asked: Asked { state: 0, register: 0 },
            bounds: Bounds { lowest: vec![-720i32 as u32; 16], highest: vec![720; 16] },
        }
    }

    pub fn append_to(&self, stream: &mut Vec<u8>) {
        put_bytes(stream, &self.text);
        put(stream, self.graph_length);
        put_patches(stream, &self.graph_patches);
        put(stream, self.output_length);
        put(stream, self.machine_length);
        put_patches(stream, &self.machine_patches);
        put_list(stream, &self.registers);
        put(stream, self.start_block);
        put(stream, self.block_budget);
        put(stream, self.start_state);
        put(stream, self.cycle_budget);
        put_list(stream, &self.words);
        put_list(stream, &self.starters);
        put(stream, self.captures.registers);
        put_bytes(stream, &self.captures.first);
        put_bytes(stream, &self.captures.second);
        put(stream, self.asked.state);
        put(stream, self.asked.register);
        put_list(stream, &self.bounds.lowest);
        put_list(stream, &self.bounds.highest);
    }
}

fn put(stream: &mut Vec<u8>, word: u32) {
    stream.extend(word.to_le_bytes());
}

fn put_bytes(stream: &mut Vec<u8>, bytes: &[u8]) {
    put(stream, bytes.len() as u32);
    stream.extend(bytes);
}

fn put_list(stream: &mut Vec<u8>, words: &[u32]) {
    put(stream, words.len() as u32);
    words.iter().for_each(|&word| put(stream, word));
}

fn put_patches(stream: &mut Vec<u8>, patches: &[Patch]) {
    put(stream, patches.len() as u32);
    for &(index, word) in patches {
        put(stream, index);
        put(stream, word);
    }
}

/// Takes cases from a stream until it ends; None where a case is damaged.
pub struct Stream<'a> {
    rest: &'a [u8],
}

impl<'a> Stream<'a> {
    fn take(&mut self, length: usize) -> Option<&'a [u8]> {
        let taken = self.rest.get(..length)?;
        self.rest = &self.rest[length..];
        Some(taken)
    }

    fn word(&mut self) -> Option<u32> {
        let bytes: [u8; 4] = self.take(4)?.try_into().ok()?;
        Some(u32::from_le_bytes(bytes))
    }

    /// A word that counts something and has a limit.
    fn count(&mut self, limit: usize) -> Option<u32> {
        self.word().filter(|&count| count as usize <= limit)
    }

    fn bytes(&mut self, limit: usize) -> Option<Vec<u8>> {
        let count = self.count(limit)?;
        Some(self.take(count as usize)?.to_vec())
    }

    fn patches(&mut self) -> Option<Vec<Patch>> {
        let count = self.count(MAX_PATCHES)?;
        (0..count).map(|_| Some((self.word()?, self.word()?))).collect()
    }

    fn list(&mut self, limit: usize) -> Option<Vec<u32>> {
        let count = self.count(limit)?;
        (0..count).map(|_| self.word()).collect()
    }

    fn captures(&mut self) -> Option<Captures> {
        Some(Captures {
            registers: self.word()?,
            first: self.bytes(MAX_RECORDING)?,
            second: self.bytes(MAX_RECORDING)?,
        })
    }

    fn bounds(&mut self) -> Option<Bounds> {
        let lowest = self.list(MAX_REGISTER_BUFFER)?;
        Some(Bounds { lowest, highest: self.list(MAX_REGISTER_BUFFER)? })
    }

    fn case(&mut self) -> Option<Case> {
        Some(Case {
            text: self.bytes(MAX_CASE_TEXT)?,
            graph_length: self.count(MAX_GRAPH_BUFFER)?,
            graph_patches: self.patches()?,
            output_length: self.count(MAX_OUTPUT_BUFFER)?,
            machine_length: self.count(MAX_MACHINE_BUFFER)?,
            machine_patches: self.patches()?,
            registers: self.list(MAX_REGISTER_BUFFER)?,
            start_block: self.word()?,
            block_budget: self.word()?,
            start_state: self.word()?,
            cycle_budget: self.word()?,
            words: self.list(MAX_WORDS)?,
            starters: self.list(MAX_STARTERS)?,
            captures: self.captures()?,
            asked: Asked { state: self.word()?, register: self.word()? },
            bounds: self.bounds()?,
        })
    }
}

/// All cases of a stream, or the index of the first damaged one.
pub fn read_cases(bytes: &[u8]) -> Result<Vec<Case>, usize> {
    let mut stream = Stream { rest: bytes };
    let mut cases = Vec::new();
    while !stream.rest.is_empty() {
        cases.push(stream.case().ok_or(cases.len())?);
    }
    Ok(cases)
}
