//! The answer to a case: fourteen steps, and one line of numbers.

use crate::case::{Asked, Captures, Case, Patch};
use crate::listing::listing;
use crate::operations::{
    bounds, compare_captures, first_touching, read, run_graph, run_graph_with_words, run_machine,
    run_machine_with_words, synthesise, touches, write, CaptureAnswer, FirstTouchingAnswer,
    MachineAnswer, ReadAnswer, RunAnswer, TouchesAnswer, WordsRunAnswer, WriteAnswer,
};

/// What a run answered, and the digest of its registers after.
#[derive(Clone, Copy, Debug, PartialEq, Eq)]
pub struct Ran<A> {
    pub answer: A,
    pub registers: u64,
}

/// The number of the bounds, and the digests of both buffers after.
#[derive(Clone, Copy, Debug, PartialEq, Eq)]
pub struct Bounded {
    pub number: u32,
    pub lowest: u64,
    pub highest: u64,
}

#[derive(Clone, Debug, PartialEq, Eq)]
pub struct Answer {
    pub read: ReadAnswer,
    pub graph_digest: u64,
    pub write: WriteAnswer,
    pub output_digest: u64,
    pub synthesise: u32,
    pub machine_digest: u64,
    pub run_graph: Ran<RunAnswer>,
    pub run_machine: Ran<MachineAnswer<RunAnswer>>,
    pub run_graph_with_words: Ran<WordsRunAnswer>,
    pub run_machine_with_words: Ran<MachineAnswer<WordsRunAnswer>>,
    pub listing_length: usize,
    pub listing_digest: u64,
    pub captures: CaptureAnswer,
    pub touches: TouchesAnswer,
    pub first_touching: FirstTouchingAnswer,
    pub bounds: Bounded,
}

/// A number that depends on every number of a sequence and on its length.
pub fn digest<T: Copy + Into<u64>>(sequence: &[T]) -> u64 {
    let start = sequence.len() as u64;
    sequence.iter().fold(start, |hash, &x| (hash * 1_000_003 + x.into()) % 4_294_967_291)
}

/// The words a buffer holds before anything is written to it.
pub fn fresh_words(length: u32) -> Vec<u32> {
    (0..length).map(|index| 1_515_870_810 - index).collect()
}

pub fn fresh_bytes(length: u32) -> Vec<u8> {
    (0..length).map(|index| ((index * 7 + 3) % 256) as u8).collect()
}

/// Puts the words of patches into a buffer, those past its end excepted.
pub fn patch(buffer: &mut [u32], patches: &[Patch]) {
    for &(index, word) in patches {
        if let Some(place) = buffer.get_mut(index as usize) {
            *place = word;
        }
    }
}

/// The graph and machine buffers as the runs find them.
pub fn buffers_of(case: &Case) -> (Vec<u32>, Vec<u32>) {
    let mut graph = fresh_words(case.graph_length);
    read(&case.text, &mut graph);
    patch(&mut graph, &case.graph_patches);
    let mut machine = fresh_words(case.machine_length);
    synthesise(&graph, &mut machine);
    patch(&mut machine, &case.machine_patches);
    (graph, machine)
}

/// Each run has its own copy of the register buffer.
fn ran<A>(case: &Case, run: impl FnOnce(&mut [u32]) -> A) -> Ran<A> {
    let mut registers = case.registers.clone();
    let answer = run(&mut registers);
    Ran { answer, registers: digest(&registers) }
}

fn captures(case: &Case) -> CaptureAnswer {
    let Captures { registers, first, second } = &case.captures;
    compare_captures(*registers, first, second)
}

/// On copies of the two buffers.
fn bounded(case: &Case, machine: &[u32]) -> Bounded {
    let (mut lowest, mut highest) = (case.bounds.lowest.clone(), case.bounds.highest.clone());
    let number = bounds(machine, &mut lowest, &mut highest, case.asked.state);
    Bounded { number, lowest: digest(&lowest), highest: digest(&highest) }
}

pub fn answer(case: &Case) -> Answer {
    let mut graph = fresh_words(case.graph_length);
    let read = read(&case.text, &mut graph);
    let graph_digest = digest(&graph);
    patch(&mut graph, &case.graph_patches);
    let mut output = fresh_bytes(case.output_length);
    let write = write(&graph, &mut output);
    let mut machine = fresh_words(case.machine_length);
    let synthesise = synthesise(&graph, &mut machine);
    let machine_digest = digest(&machine);
    patch(&mut machine, &case.machine_patches);
    let (block, blocks) = (case.start_block, case.block_budget);
    let (state, cycles) = (case.start_state, case.cycle_budget);
    let (words, starters) = (&case.words, &case.starters);
    let listing = listing(&case.text);
    let Asked { state: asked_state, register } = case.asked;
    Answer {
        read,
        graph_digest,
        write,
        output_digest: digest(&output),
        synthesise,
        machine_digest,
        run_graph: ran(case, |copy| run_graph(&graph, copy, block, blocks)),
        run_machine: ran(case, |copy| run_machine(&machine, copy, state, cycles)),
        run_graph_with_words: ran(case, |copy| {
            run_graph_with_words(&graph, copy, block, blocks, words, starters)
        }),
        run_machine_with_words: ran(case, |copy| {
            run_machine_with_words(&machine, copy, state, cycles, words)
        }),
        listing_length: listing.len(),
        listing_digest: digest(listing.as_bytes()),
        captures: captures(case),
        touches: touches(&machine, asked_state, register),
        first_touching: first_touching(&machine, register),
        bounds: bounded(case, &machine),
    }
}

fn run_fields(answer: RunAnswer) -> [u64; 5] {
    let RunAnswer { number, halted, count, next, flag } = answer;
    [number.into(), halted.into(), count.into(), next.into(), flag.into()]
}

fn words_run_fields(answer: WordsRunAnswer) -> [u64; 5] {
    let WordsRunAnswer { number, outcome, count, next, flag } = answer;
    [number.into(), outcome.into(), count.into(), next.into(), flag.into()]
}

/// The fields of a graph's run, then the registers.
fn of_graph<A: Copy>(ran: &Ran<A>, fields: fn(A) -> [u64; 5]) -> Vec<u64> {
    [&fields(ran.answer)[..], &[ran.registers]].concat()
}

/// The fields of a machine's run, then the blocks, then the registers.
fn of_machine<A: Copy>(ran: &Ran<MachineAnswer<A>>, fields: fn(A) -> [u64; 5]) -> Vec<u64> {
    let MachineAnswer { run, blocks } = ran.answer;
    [&fields(run)[..], &[blocks, ran.registers]].concat()
}

fn capture_fields(answer: CaptureAnswer) -> [u64; 6] {
    let CaptureAnswer { number, recording, line, shared, differs, cycle } = answer;
    [number.into(), recording.into(), line, shared, differs.into(), cycle.into()]
}

impl Answer {
    /// The line without its line feed.
    pub fn line(&self) -> String {
        let mut fields = vec![
            u64::from(self.read.number),
            u64::from(self.read.line),
            self.graph_digest,
            u64::from(self.write.number),
            u64::from(self.write.length),
            self.output_digest,
            u64::from(self.synthesise),
            self.machine_digest,
        ];
        fields.extend(of_graph(&self.run_graph, run_fields));
        fields.extend(of_machine(&self.run_machine, run_fields));
        fields.extend(of_graph(&self.run_graph_with_words, words_run_fields));
        fields.extend(of_machine(&self.run_machine_with_words, words_run_fields));
        fields.extend([self.listing_length as u64, self.listing_digest]);
        fields.extend(capture_fields(self.captures));
        fields.extend([u64::from(self.touches.number), self.touches.touched.into()]);
        fields.extend([u64::from(self.first_touching.number), self.first_touching.state.into()]);
        let Bounded { number, lowest, highest } = self.bounds;
        fields.extend([number.into(), lowest, highest]);
        let printed: Vec<String> = fields.iter().map(u64::to_string).collect();
        printed.join(",")
    }
}
