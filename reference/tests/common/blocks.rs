//! R-7 of paper 02 over the words of machine tables, and what wrong readings of it do otherwise.

use super::traces::{sampled, Words};
use reference::case::{Asked, Case};
use reference::machine::{Machine, State};
use reference::machine_table::{decode, ARRIVALS_AT, MACHINE_WORDS, RECORDS_AT, RECORD_WORDS};
use reference::run::machine_cycle;
use std::collections::BTreeSet;

/// Where the state of the first block stands.
pub const STATES_AT: usize = 66;

#[derive(Clone, Copy, Debug, PartialEq, Eq)]
pub enum Reading {
    Right,
    // Which blocks of a cycle count.
    /// A block that is one of the starters does not count.
    StarterNotCounted,
    /// Only starters do.
    StartersOnly,
    /// Blocks of the state that comes next, by this cycle's wires.
    NextState,
    /// Blocks of the state that the run began in.
    FirstState,
    /// Blocks of all states, by this cycle's wires.
    AllStates,
    /// All blocks of the state, arrived at or not.
    WholeState,
    /// Those that are not arrived at.
    NotArrived,
    /// Blocks with one reference count once.
    SharedOnce,
    /// At most one block a cycle.
    AtMostOne,
    /// At least one block a cycle.
    AtLeastOne,
    /// Only blocks that the graph has.
    BelowB,
    WithoutBlock0,
    WithoutBlock63,
    // What an arrival's word says.
    /// Words are added up.
    Summed,
    IsOne,
    IsOdd,
    /// As a signed word above 0.
    IsPositive,
    /// The low 16 bits.
    LowHalf,
    // Which word is an arrival's.
    /// The wire after it.
    NextWire,
    /// The wire before it.
    WireBefore,
    /// References are counted from 0 and not from 16.
    From0,
    /// The wire's word in the cycle before, 0 at first.
    CycleBefore,
    // Which cycles count.
    NotTheFirst,
    NotTheLast,
    FirstOnly,
    LastOnly,
    NotTheHalting,
    LostWhenSpent,
    LostWhenDry,
    LostAtHalt,
    /// Each block once in a run.
    OnceARun,
    /// The most of one cycle.
    Largest,
    /// The number of cycles.
    Cycles,
    /// A halt is a block of its own.
    HaltCounts,
    /// Cycles in which any block is run.
    BusyCycles,
    Bits8,
    Bits16,
    // Which tables are refused 10.
    Unchecked,
    StatesUnchecked,
    ReferencesUnchecked,
    /// An absent block may have any reference.
    AbsentUnchecked,
    /// A present block's reference may be any word.
    PresentUnchecked,
    /// Any state not below N is absent.
    AnyIsAbsent,
    NIsAbsent,
    Is254Absent,
    Is256Absent,
    /// The low eight bits say that a block is absent.
    LowByteAbsent,
    /// Not 255 but N is absent.
    OnlyNIsAbsent,
    /// Any state below 64 is one.
    StatesBelow64,
    OnePast,
    /// Registers below R are references too.
    RegistersToo,
    /// References below 16 are, whatever R is.
    SixteenToo,
    /// A present block may have 0.
    ZeroToo,
    /// Any wire of the table is a reference.
    AnyWire,
    FirstWireRefused,
    LastWireRefused,
    /// Only words of blocks that the graph has are read.
    BelowBChecked,
    Block63Unchecked,
    /// Only blocks of the state started in are looked at.
    StartChecked,
    SharedRefused,
    /// A state below N has to have a block.
    EmptyRefused,
    /// Starters have to be in their states.
    StartersChecked,
    NineFirst,
    TwelveFirst,
    /// The questions and the bounds do not refuse by it.
    RunsOnly,
    /// Only the runs without words and with them do not.
    QuestionsOnly,
    // What synthesis writes.
    /// An absent block has 255.
    Written255,
    /// Starters have 0.
    StartersWritten0,
    /// The wire's number in its state.
    WrittenFrom0,
    /// The wire's number in the table.
    WrittenInTable,
    /// A block that joins edges has the first of them.
    FirstEdge,
    /// Nothing.
    NotWritten,
}

use Reading::*;

pub const COUNTS: [Reading; 37] = [
    StarterNotCounted, StartersOnly, NextState, FirstState, AllStates, WholeState, NotArrived,
    SharedOnce, AtMostOne, AtLeastOne, BelowB, WithoutBlock0, WithoutBlock63, Summed, IsOne, IsOdd,
    IsPositive, LowHalf, NextWire, WireBefore, From0, CycleBefore, NotTheFirst, NotTheLast,
    FirstOnly, LastOnly, NotTheHalting, LostWhenSpent, LostWhenDry, LostAtHalt, OnceARun, Largest,
    Cycles, HaltCounts, BusyCycles, Bits8, Bits16,
];

pub const ADMISSIONS: [Reading; 29] = [
    Unchecked, StatesUnchecked, ReferencesUnchecked, AbsentUnchecked, PresentUnchecked,
    AnyIsAbsent, NIsAbsent, Is254Absent, Is256Absent, LowByteAbsent, OnlyNIsAbsent, StatesBelow64,
    OnePast, RegistersToo, SixteenToo, ZeroToo, AnyWire, FirstWireRefused, LastWireRefused,
    BelowBChecked, Block63Unchecked, StartChecked, SharedRefused, EmptyRefused, StartersChecked,
    NineFirst, TwelveFirst, RunsOnly, QuestionsOnly,
];

pub const SYNTHESES: [Reading; 6] =
    [Written255, StartersWritten0, WrittenFrom0, WrittenInTable, FirstEdge, NotWritten];

/// A block's two words.
#[derive(Clone, Copy, Debug, PartialEq, Eq)]
pub struct BlockWords {
    pub block: usize,
    pub state: u32,
    pub reference: u32,
}

pub fn block_words(table: &[u32]) -> impl Iterator<Item = BlockWords> + '_ {
    (0..64).map(|block| BlockWords {
        block,
        state: table[STATES_AT + block],
        reference: table[ARRIVALS_AT + block],
    })
}

/// How many wires a state below N has.
pub fn wires(table: &[u32], state: u32) -> u32 {
    table[RECORDS_AT + RECORD_WORDS * state as usize + 1]
}

/// Whether N is a number of states.
fn counted(table: &[u32]) -> bool {
    (1..=64).contains(&table[0])
}

/// By the request: a state below N and a wire of it, or 255 and 0.
pub fn is_right(table: &[u32], words: BlockWords) -> bool {
    let BlockWords { state, reference, .. } = words;
    match state {
        255 => reference == 0,
        _ if state < table[0] => {
            (16..16 + u64::from(wires(table, state))).contains(&reference.into())
        }
        _ => false,
    }
}

/// The table with all blocks absent, which no rule of blocks refuses.
fn without_blocks(table: &[u32]) -> Vec<u32> {
    let mut table = table.to_vec();
    table[STATES_AT..STATES_AT + 64].fill(255);
    table[ARRIVALS_AT..ARRIVALS_AT + 64].fill(0);
    table
}

/// What a run did in one cycle.
pub struct Cycle {
    pub state: usize,
    pub next: Option<usize>,
    pub wires: Vec<u32>,
}

/// The cycles of a run, and how it ended: 0 spent, 1 halted, 2 dry.
pub struct Trace {
    pub cycles: Vec<Cycle>,
    pub outcome: u32,
}

fn wire_words(state: &State, registers: &[u32], word: u32) -> Vec<u32> {
    let mut wires: Vec<u32> = Vec::new();
    for wire in &state.wires {
        wires.push(wire.value(registers, word, &wires));
    }
    wires
}

fn trace(machine: &Machine, case: &Case, words: Words) -> Trace {
    let mut registers = case.registers[..machine.registers].to_vec();
    let (mut at, mut cycles) = (case.start_state as usize, Vec::new());
    while cycles.len() < case.cycle_budget as usize {
        let Some(word) = sampled(words, cycles.len()) else {
            return Trace { cycles, outcome: 2 };
        };
        let wires = wire_words(&machine.states[at], &registers, word);
        let next = machine_cycle(machine, at, &mut registers, word).next;
        cycles.push(Cycle { state: at, next, wires });
        match next {
            Some(next) => at = next,
            None => return Trace { cycles, outcome: 1 },
        }
    }
    Trace { cycles, outcome: 0 }
}

/// A case with what its machine table comes to without the words of blocks.
pub struct Tried<'a> {
    pub case: &'a Case,
    pub table: &'a [u32],
    /// B, as the graph buffer has it.
    pub blocks: u32,
    /// None where it is short, or refused 10 for other reasons.
    pub machine: Option<Machine>,
    /// The runs without words and with them, where nothing else refuses them.
    pub traces: [Option<Trace>; 2],
}

impl Tried<'_> {
    pub fn of<'a>(case: &'a Case, graph: &[u32], table: &'a [u32]) -> Tried<'a> {
        let whole = table.len() >= MACHINE_WORDS;
        let machine = whole.then(|| decode(&without_blocks(table))).flatten();
        let blocks = graph.first().copied().unwrap_or(0);
        let mut tried = Tried { case, table, blocks, machine, traces: [None, None] };
        tried.traces = [false, true].map(|words| {
            let machine = tried.machine.as_ref().filter(|_| tried.behind(words) == 0)?;
            Some(trace(machine, case, words.then_some(&case.words[..])))
        });
        tried
    }

    /// The refusal of a run by anything but its table, or 0.
    fn behind(&self, with_words: bool) -> u32 {
        let reads = self.machine.as_ref().is_some_and(Machine::reads_words);
        match () {
            () if self.case.registers.len() < 16 => 7,
            () if reads && !with_words => 12,
            () if self.case.start_state >= self.table[0] => 9,
            () => 0,
        }
    }
}

/// How the state of a block is taken: below N, absent, or wrong.
fn is_absent(reading: Reading, n: u32, state: u32) -> bool {
    match reading {
        AnyIsAbsent => state >= n,
        NIsAbsent => state == 255 || state == n,
        Is254Absent => state == 255 || state == 254,
        Is256Absent => state == 255 || state == 256,
        LowByteAbsent => state >= n && state % 256 == 255,
        OnlyNIsAbsent => state == n,
        _ => state == 255,
    }
}

fn is_reference(reading: Reading, table: &[u32], words: BlockWords) -> bool {
    let BlockWords { state, reference, .. } = words;
    let (reference, count) = (u64::from(reference), u64::from(wires(table, state)));
    let own = (16..16 + count).contains(&reference);
    match reading {
        PresentUnchecked => true,
        OnePast => own || reference == 16 + count,
        RegistersToo => own || reference < u64::from(table[1]),
        SixteenToo => own || reference < 16,
        ZeroToo => own || reference == 0,
        AnyWire => (16..16 + 3_072).contains(&reference),
        FirstWireRefused => own && reference != 16,
        LastWireRefused => own && reference != 15 + count,
        _ => own,
    }
}

fn passes(reading: Reading, tried: &Tried, words: BlockWords) -> bool {
    let (table, BlockWords { block, state, reference }) = (tried.table, words);
    let n = table[0];
    match reading {
        Unchecked => return true,
        ReferencesUnchecked => return state < n || state == 255,
        BelowBChecked if block as u32 >= tried.blocks => return true,
        Block63Unchecked if block == 63 => return true,
        StartChecked if state != tried.case.start_state => return true,
        _ => {}
    }
    if is_absent(reading, n, state) {
        return reference == 0 || reading == AbsentUnchecked;
    }
    match reading {
        _ if state < n => is_reference(reading, table, words),
        StatesUnchecked => true,
        StatesBelow64 => state < 64,
        _ => false,
    }
}

/// What a reading refuses besides: references that are shared, states without blocks, starters in
/// other states.
fn refuses_more(reading: Reading, table: &[u32]) -> bool {
    let present = |words: &BlockWords| words.state < table[0];
    let all: Vec<BlockWords> = block_words(table).filter(present).collect();
    match reading {
        SharedRefused => {
            let distinct: BTreeSet<_> = all.iter().map(|one| (one.state, one.reference)).collect();
            distinct.len() < all.len()
        }
        EmptyRefused => (0..table[0]).any(|state| all.iter().all(|one| one.state != state)),
        StartersChecked => (0..table[0]).any(|state| {
            let starter = table[2 + state as usize];
            !all.iter().any(|one| one.block as u32 == starter && one.state == state)
        }),
        _ => false,
    }
}

/// Whether a table with nothing else wrong is refused by its blocks.
fn is_refused(reading: Reading, tried: &Tried) -> bool {
    let table = tried.table;
    !block_words(table).all(|words| passes(reading, tried, words)) || refuses_more(reading, table)
}

/// The numbers of the two runs, of the two questions and of the bounds, as the reading gives them;
/// None where the words of blocks do not decide.
pub fn numbers(reading: Reading, tried: &Tried) -> Option<[u32; 5]> {
    tried.machine.as_ref()?;
    let Asked { state, .. } = tried.case.asked;
    let behind = [tried.behind(false), tried.behind(true)];
    let asked = if state >= tried.table[0] { 9 } else { 0 };
    let lowest = tried.case.bounds.lowest.iter().zip(&tried.case.bounds.highest);
    let reversed =
        lowest.take(tried.table[1] as usize).any(|(&low, &high)| low as i32 > high as i32);
    let bounds = if asked == 0 && reversed { 13 } else { asked };
    let others = [behind[0], behind[1], asked, 0, bounds];
    let refused = is_refused(reading, tried);
    let ten = |index: usize, other: u32| match reading {
        _ if !refused || other == 7 => other,
        NineFirst if other == 9 => 9,
        TwelveFirst if other == 12 => 12,
        RunsOnly if index > 1 => other,
        QuestionsOnly if index < 2 => other,
        _ => 10,
    };
    let mut numbers = [0; 5];
    others.iter().enumerate().for_each(|(index, &other)| numbers[index] = ten(index, other));
    let Case { bounds, .. } = tried.case;
    if bounds.lowest.len() < 16 || bounds.highest.len() < 16 {
        numbers[4] = 7;
    }
    Some(numbers)
}

/// The word of a block's arrival in a cycle, where the reading finds one.
fn arrival(reading: Reading, trace: &Trace, cycle: usize, reference: u32) -> Option<u32> {
    let wire = match reading {
        NextWire => reference.checked_sub(15)?,
        WireBefore => reference.checked_sub(17)?,
        From0 => reference,
        _ => reference.checked_sub(16)?,
    };
    let read = match reading {
        CycleBefore => cycle.checked_sub(1)?,
        _ => cycle,
    };
    trace.cycles[read].wires.get(wire as usize).copied()
}

fn is_counted(
    reading: Reading,
    tried: &Tried,
    trace: &Trace,
    cycle: usize,
    one: BlockWords,
) -> bool {
    let (table, own) = (tried.table, &trace.cycles[cycle]);
    let is_starter = (0..table[0] as usize).any(|state| table[2 + state] == one.block as u32);
    match reading {
        StarterNotCounted if is_starter => return false,
        StartersOnly if !is_starter => return false,
        BelowB if one.block as u32 >= tried.blocks => return false,
        WithoutBlock0 if one.block == 0 => return false,
        WithoutBlock63 if one.block == 63 => return false,
        _ => {}
    }
    let state = match reading {
        NextState => own.next,
        FirstState => Some(trace.cycles[0].state),
        AllStates => Some(one.state as usize),
        _ => Some(own.state),
    };
    Some(one.state as usize) == state && one.state < table[0]
}

/// What one cycle adds.
fn of_cycle(reading: Reading, tried: &Tried, trace: &Trace, cycle: usize) -> u64 {
    let own: Vec<BlockWords> = block_words(tried.table)
        .filter(|&one| is_counted(reading, tried, trace, cycle, one))
        .collect();
    let mut words: Vec<(u32, u32)> = own
        .iter()
        .filter_map(|one| Some((one.reference, arrival(reading, trace, cycle, one.reference)?)))
        .collect();
    if reading == SharedOnce {
        words = words.into_iter().collect::<BTreeSet<_>>().into_iter().collect();
    }
    let counts = |word: u32| match reading {
        IsOne => word == 1,
        IsOdd => word % 2 == 1,
        IsPositive => word as i32 > 0,
        LowHalf => word % 65_536 != 0,
        NotArrived => word == 0,
        WholeState => true,
        _ => word != 0,
    };
    let count = words.iter().filter(|(_, word)| counts(*word)).count() as u64;
    match reading {
        Summed => words.iter().map(|&(_, word)| u64::from(word)).sum(),
        AtMostOne => count.min(1),
        AtLeastOne => count.max(1),
        BusyCycles => u64::from(count > 0),
        _ => count,
    }
}

/// The blocks that are run in any cycle, each once.
fn distinct(tried: &Tried, trace: &Trace) -> u64 {
    let run = |one: &BlockWords| {
        (0..trace.cycles.len()).any(|cycle| {
            let own = is_counted(Right, tried, trace, cycle, *one);
            own && arrival(Right, trace, cycle, one.reference).is_some_and(|word| word != 0)
        })
    };
    block_words(tried.table).filter(run).count() as u64
}

/// The blocks that a reading answers for a run on a table that is not refused.
pub fn blocks(reading: Reading, tried: &Tried, trace: &Trace) -> u64 {
    let cycles: Vec<u64> =
        (0..trace.cycles.len()).map(|cycle| of_cycle(reading, tried, trace, cycle)).collect();
    let (last, all) = (cycles.len().saturating_sub(1), cycles.iter().sum::<u64>());
    match (reading, trace.outcome) {
        (NotTheFirst, _) => cycles.iter().skip(1).sum(),
        (NotTheLast, _) | (NotTheHalting, 1) => cycles[..last].iter().sum(),
        (FirstOnly, _) => cycles.first().copied().unwrap_or(0),
        (LastOnly, _) => cycles.last().copied().unwrap_or(0),
        (LostWhenSpent, 0) | (LostAtHalt, 1) | (LostWhenDry, 2) => 0,
        (OnceARun, _) => distinct(tried, trace),
        (Largest, _) => cycles.iter().copied().max().unwrap_or(0),
        (Cycles, _) => cycles.len() as u64,
        (HaltCounts, 1) => all + 1,
        (Bits8, _) => all % 256,
        (Bits16, _) => all % 65_536,
        _ => all,
    }
}

/// Whether a reading's synthesis writes another reference for a block than the right table has.
fn writes_another(reading: Reading, table: &[u32], one: BlockWords) -> bool {
    let absent = one.state == 255;
    let is_starter = !absent && table[2 + one.state as usize] == one.block as u32;
    let at = |state: u32| RECORDS_AT + RECORD_WORDS * state as usize;
    match reading {
        Written255 => absent,
        StartersWritten0 => is_starter,
        WrittenFrom0 | NotWritten => !absent,
        WrittenInTable => !absent && table[at(one.state)] > 0,
        FirstEdge => {
            // The arrival of a block that joins edges is an `or`.
            let wire = |state, reference: u32| 1_410 + 4 * (table[at(state)] + reference - 16);
            !absent && table[wire(one.state, one.reference) as usize] == 6
        }
        _ => false,
    }
}

/// Whether a reading's synthesis makes another table than this one, which is right.
pub fn makes_another(reading: Reading, table: &[u32]) -> bool {
    block_words(table).any(|one| writes_another(reading, table, one))
}

/// Makes the words of blocks right where they are not: such a block is made absent.
pub fn mend_blocks(table: &mut [u32]) {
    if counted(table) {
        let wrong: Vec<BlockWords> =
            block_words(table).filter(|&one| !is_right(table, one)).collect();
        for one in wrong {
            table[STATES_AT + one.block] = 255;
            table[ARRIVALS_AT + one.block] = 0;
        }
    }
}
