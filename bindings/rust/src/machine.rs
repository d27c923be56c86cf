//! A machine, held as its table.

use crate::layout::{machine::*, MOST_BLOCKS, MOST_STATES};
use crate::{operations, Bounds, MachineRun, MachineRunWithWords, Reference, Refusal, Wire};
use crate::{MACHINE_WORDS, NONE, REGISTER_WORDS};
use std::fmt;

/// A state machine. One made by synthesis runs from each of its states; one made of other words may
/// be refused when it is run or asked. Where words c of sums are 0, as in a table from before there
/// was a flag ([`WIRE_WORDS`]), the flag of a run means nothing; the rest of the answer is as it
/// was.
#[derive(Clone, PartialEq, Eq, Hash)]
pub struct Machine {
    words: Box<[u32; MACHINE_WORDS]>,
}

impl Machine {
    /// A machine of any words, which a run or a question may refuse; words past the table are not
    /// taken. Refusal 7, also for the 13,698 words of the layout before arrivals.
    pub fn from_words(words: &[u32]) -> Result<Machine, Refusal> {
        let taken = words.get(..MACHINE_WORDS).ok_or(Refusal::TableShort)?;
        let mut table = Box::new([0; MACHINE_WORDS]);
        table.copy_from_slice(taken);
        Ok(Machine { words: table })
    }

    /// Runs at most `budget` cycles from a start state. Refusals 10, 12, 9. Registers from R up
    /// keep their words.
    ///
    /// The answer also has the number of blocks run. On a machine made by synthesis these are
    /// exactly the blocks that the graph runs from the starter of the start state over the same
    /// arrivals.
    ///
    /// ```
    /// use gutkavu::Graph;
    ///
    /// let text = "graph,2,2\nblock,0\nsub,0,0,1\nite,ge,0,1,0,1\nblock,1\nhalt\n";
    /// let graph: Graph = text.parse()?;
    /// let machine = graph.synthesise();
    /// let mut start = [0; 16];
    /// (start[0], start[1]) = (7, 2);
    /// let by_graph = graph.run(&mut start.clone(), 0, 1_000)?;
    /// let by_machine = machine.run(&mut start.clone(), 0, 1_000)?;
    /// assert_eq!((by_graph.count, by_machine.count, by_machine.blocks), (4, 3, 4));
    ///
    /// // Cycle by cycle: block 0, block 0, blocks 0 and 1.
    /// let (mut registers, mut state, mut blocks) = (start, Some(0), Vec::new());
    /// while let Some(start) = state {
    ///     let cycle = machine.run(&mut registers, start, 1)?;
    ///     blocks.push(cycle.blocks);
    ///     state = cycle.next;
    /// }
    /// assert_eq!(blocks, [1, 1, 2]);
    /// # Ok::<(), Box<dyn std::error::Error>>(())
    /// ```
    pub fn run(
        &self,
        registers: &mut [u32; 16],
        start: u32,
        budget: u32,
    ) -> Result<MachineRun, Refusal> {
        MachineRun::answer(operations::run_machine(&self.words[..], registers, start, budget))
    }

    /// As `run`, with a list of words for `in`: cycle k, from 0, uses word k. Refusals 10, 9.
    pub fn run_with_words(
        &self,
        registers: &mut [u32; 16],
        start: u32,
        budget: u32,
        words: &[u32],
    ) -> Result<MachineRunWithWords, Refusal> {
        let table = &self.words[..];
        let fields = operations::run_machine_with_words(table, registers, start, budget, words);
        MachineRunWithWords::answer(fields)
    }

    /// Whether a state may change a register: whether the register's next reference in that state
    /// is anything but the register itself. Refusals 10, 9. A register not below R is never
    /// touched.
    pub fn touches(&self, state: u32, register: u32) -> Result<bool, Refusal> {
        let fields = operations::touches(&self.words[..], state, register);
        Refusal::answer(fields.number)?;
        Ok(fields.touched == 1)
    }

    /// The lowest-numbered state that may change a register, where there is one. Refusal 10.
    pub fn first_touching(&self, register: u32) -> Result<Option<u32>, Refusal> {
        let fields = operations::first_touching(&self.words[..], register);
        Refusal::answer(fields.number)?;
        Ok(Some(fields.state).filter(|&state| state != NONE))
    }

    /// What one cycle of a state can do to registers within bounds: bounds of each register below R
    /// at its end. Registers from R up keep theirs. Refusals 10, 9, 13.
    ///
    /// Every cycle of the state from registers within the bounds given, on any input word, ends
    /// within those answered. They may be wider than what the cycles reach, because each wire is
    /// worked out from the ranges of its inputs alone.
    pub fn bounds(&self, state: u32, within: &Bounds) -> Result<Bounds, Refusal> {
        let mut lowest = within.lowest.map(|value| value as u32);
        let mut highest = within.highest.map(|value| value as u32);
        let number = operations::bounds(&self.words[..], &mut lowest, &mut highest, state);
        Refusal::answer(number)?;
        let values = |words: [u32; 16]| words.map(|word| word as i32);
        Ok(Bounds { lowest: values(lowest), highest: values(highest) })
    }

    /// The number of states, N.
    pub fn states(&self) -> u32 {
        self.words[STATES]
    }

    /// The number of registers, R.
    pub fn registers(&self) -> u32 {
        self.words[REGISTERS]
    }

    /// The starter of a state below N.
    pub fn starter(&self, state: u32) -> Option<u32> {
        self.index(state).map(|index| self.words[STARTERS + index])
    }

    /// The starters of the states below N, in the order of the states.
    pub fn starters(&self) -> &[u32] {
        let count = self.states().min(MOST_STATES as u32) as usize;
        &self.words[STARTERS..][..count]
    }

    /// The state of a block; none for a block that is unreachable or not there.
    pub fn state_of(&self, block: u32) -> Option<u32> {
        let index = usize::try_from(block).ok().filter(|&index| index < MOST_BLOCKS)?;
        Some(self.words[BLOCK_STATES + index]).filter(|&state| self.index(state).is_some())
    }

    /// The reference of a block's arrival, which is nonzero in the cycles that run the block; none
    /// for a block that is unreachable or not there.
    pub fn arrival_of(&self, block: u32) -> Option<u32> {
        self.state_of(block).map(|_| self.words[ARRIVALS + block as usize])
    }

    /// The blocks of a state, in rising order.
    pub fn blocks(&self, state: u32) -> impl Iterator<Item = u32> + '_ {
        (0..MOST_BLOCKS as u32).filter(move |&block| self.state_of(block) == Some(state))
    }

    /// The wire count of a state below N.
    pub fn wires(&self, state: u32) -> Option<u32> {
        self.record_word(state, WIRE_COUNT)
    }

    /// A wire of a state below N, counted from the state's first; none where the state has no such
    /// wire, it is not within the table or its code is unknown.
    ///
    /// ```
    /// use gutkavu::{Code, Graph, Reference};
    ///
    /// let graph: Graph = "graph,1,2\nblock,0\nadd,0,0,1\nhalt\n".parse()?;
    /// let machine = graph.synthesise();
    /// // The arrival of block 0, its sum, and the exit.
    /// let codes = (0..4).map(|index| machine.wire(0, index).map(|wire| wire.code));
    /// let codes: Vec<Option<Code>> = codes.collect();
    /// assert_eq!(codes, [Some(Code::Set), Some(Code::Add), Some(Code::Set), None]);
    ///
    /// let sum = machine.wire(0, 1).expect("a wire");
    /// assert_eq!(sum.operands(), [Reference::Register(0), Reference::Register(1)]);
    /// assert_eq!(sum.counts_where(), Some(Reference::Wire(0)));
    /// assert_eq!(machine.next_register(0, 0), Some(Reference::Wire(1)));
    /// assert_eq!(machine.next_state(0), Some(Reference::Wire(2)));
    /// # Ok::<(), Box<dyn std::error::Error>>(())
    /// ```
    pub fn wire(&self, state: u32, index: u32) -> Option<Wire> {
        let first = self.record_word(state, FIRST_WIRE)?;
        self.wires(state).filter(|&count| index < count)?;
        let place = usize::try_from(first.checked_add(index)?).ok()?;
        self.words[WIRES..ARRIVALS].chunks(WIRE_WORDS).nth(place).and_then(Wire::decode)
    }

    /// What the next state of a state below N is taken from.
    pub fn next_state(&self, state: u32) -> Option<Reference> {
        self.record_word(state, NEXT_STATE).map(Reference::from_word)
    }

    /// What the next word of a register below R is taken from, in a state below N.
    pub fn next_register(&self, state: u32, register: u32) -> Option<Reference> {
        let index = usize::try_from(register).ok().filter(|&index| index < REGISTER_WORDS)?;
        let word = self.record_word(state, NEXT_REGISTERS + index)?;
        (register < self.registers()).then(|| Reference::from_word(word))
    }

    /// The wires of all states; at most 3,072 in a machine that can run.
    pub fn wires_in_all(&self) -> u64 {
        (0..self.states()).map_while(|state| self.wires(state)).map(u64::from).sum()
    }

    /// The machine table.
    pub fn words(&self) -> &[u32; MACHINE_WORDS] {
        &self.words
    }

    /// A word of the record of a state below N.
    fn record_word(&self, state: u32, word: usize) -> Option<u32> {
        self.index(state).map(|index| self.words[RECORDS + index * RECORD_WORDS + word])
    }

    /// The state as an index, where it is below N and has a place in the table.
    fn index(&self, state: u32) -> Option<usize> {
        let index = usize::try_from(state).ok()?;
        (state < self.states() && index < MOST_STATES).then_some(index)
    }
}

/// As `from_words`, without a copy.
impl From<Box<[u32; MACHINE_WORDS]>> for Machine {
    fn from(words: Box<[u32; MACHINE_WORDS]>) -> Machine {
        Machine { words }
    }
}

impl fmt::Debug for Machine {
    fn fmt(&self, f: &mut fmt::Formatter) -> fmt::Result {
        let mut parts = f.debug_struct("Machine");
        parts.field("states", &self.states()).field("registers", &self.registers());
        parts.finish_non_exhaustive()
    }
}
