//! The eleven operations by name: the fields they answer, their numbers, the order of their refusals.

/// Why a call is refused. Where two buffers of one call may be short, each is one by itself.
#[derive(Clone, Copy, Debug, PartialEq, Eq, PartialOrd, Ord)]
pub enum Refusal {
    LongText,
    NoForm,
    NotDue,
    Register,
    Target,
    GraphTable,
    ShortGraph,
    ShortMachine,
    ShortRegisters,
    ShortLowest,
    ShortHighest,
    ShortOutput,
    Start,
    State,
    MachineTable,
    Starters,
    ReadsWords,
    Reversed,
    RecordedCount,
    RecordedForm,
    RecordedOrder,
}

impl Refusal {
    pub fn number(self) -> u32 {
        match self {
            Refusal::LongText => 1,
            Refusal::NoForm => 2,
            Refusal::NotDue => 3,
            Refusal::Register => 4,
            Refusal::Target => 5,
            Refusal::GraphTable => 6,
            Refusal::ShortGraph
            | Refusal::ShortMachine
            | Refusal::ShortRegisters
            | Refusal::ShortLowest
            | Refusal::ShortHighest => 7,
            Refusal::ShortOutput => 8,
            Refusal::Start | Refusal::State => 9,
            Refusal::MachineTable => 10,
            Refusal::Starters => 11,
            Refusal::ReadsWords => 12,
            Refusal::Reversed => 13,
            Refusal::RecordedCount | Refusal::RecordedForm => 17,
            Refusal::RecordedOrder => 18,
        }
    }

    /// The number, and what tells it apart from others that have it.
    pub fn name(self) -> String {
        let of = match self {
            Refusal::ShortGraph => " graph",
            Refusal::ShortMachine => " machine",
            Refusal::ShortRegisters => " registers",
            Refusal::ShortLowest => " lowest",
            Refusal::ShortHighest => " highest",
            Refusal::RecordedCount => " R",
            _ => "",
        };
        format!("{}{of}", self.number())
    }
}

#[derive(Clone, Copy, Debug, PartialEq, Eq, PartialOrd, Ord)]
pub enum Operation {
    Read,
    Write,
    Synthesise,
    RunGraph,
    RunMachine,
    RunGraphWithWords,
    RunMachineWithWords,
    CompareCaptures,
    Touches,
    FirstTouching,
    Bounds,
}

impl Operation {
    pub const ALL: [Operation; 11] = [
        Operation::Read,
        Operation::Write,
        Operation::Synthesise,
        Operation::RunGraph,
        Operation::RunMachine,
        Operation::RunGraphWithWords,
        Operation::RunMachineWithWords,
        Operation::CompareCaptures,
        Operation::Touches,
        Operation::FirstTouching,
        Operation::Bounds,
    ];

    pub fn name(self) -> &'static str {
        match self {
            Operation::Read => "read",
            Operation::Write => "write",
            Operation::Synthesise => "synthesise",
            Operation::RunGraph => "run graph",
            Operation::RunMachine => "run machine",
            Operation::RunGraphWithWords => "run graph with words",
            Operation::RunMachineWithWords => "run machine with words",
            Operation::CompareCaptures => "compare captures",
            Operation::Touches => "touches",
            Operation::FirstTouching => "first touching",
            Operation::Bounds => "bounds",
        }
    }

    /// The fields of its answer.
    pub fn fields(self) -> &'static [&'static str] {
        match self {
            Operation::Read => &["number", "line"],
            Operation::Write => &["number", "length"],
            Operation::Synthesise | Operation::Bounds => &["number"],
            Operation::RunGraph => &["number", "halted", "count", "next", "flag"],
            Operation::RunMachine => &["number", "halted", "count", "next", "flag", "blocks"],
            Operation::RunGraphWithWords => &["number", "outcome", "count", "next", "flag"],
            Operation::RunMachineWithWords => {
                &["number", "outcome", "count", "next", "flag", "blocks"]
            }
            Operation::CompareCaptures => {
                &["number", "recording", "line", "shared", "differs", "cycle"]
            }
            Operation::Touches => &["number", "touched"],
            Operation::FirstTouching => &["number", "state"],
        }
    }

    /// The numbers that the papers name for it, 0 being success.
    pub fn numbers(self) -> &'static [u64] {
        match self {
            Operation::Read => &[0, 1, 2, 3, 4, 5, 7],
            Operation::Write => &[0, 6, 7, 8],
            Operation::Synthesise => &[0, 6, 7],
            Operation::RunGraph => &[0, 6, 7, 9, 12],
            Operation::RunMachine => &[0, 7, 9, 10, 12],
            Operation::RunGraphWithWords => &[0, 6, 7, 9, 11],
            Operation::RunMachineWithWords => &[0, 7, 9, 10],
            Operation::CompareCaptures => &[0, 17, 18],
            Operation::Touches => &[0, 7, 9, 10],
            Operation::FirstTouching => &[0, 7, 10],
            Operation::Bounds => &[0, 7, 9, 10, 13],
        }
    }

    /// Its refusals, the one that goes first at the front. Faults of lines come in the order of
    /// their lines, and within a line as they stand here.
    pub fn refusals(self) -> &'static [Refusal] {
        use Refusal::*;
        match self {
            Operation::Read => &[LongText, ShortGraph, NoForm, NotDue, Register, Target],
            Operation::Write => &[ShortGraph, GraphTable, ShortOutput],
            Operation::Synthesise => &[ShortGraph, ShortMachine, GraphTable],
            Operation::RunGraph => &[ShortGraph, ShortRegisters, GraphTable, ReadsWords, Start],
            Operation::RunMachine => {
                &[ShortMachine, ShortRegisters, MachineTable, ReadsWords, Start]
            }
            Operation::RunGraphWithWords => {
                &[ShortGraph, ShortRegisters, GraphTable, Start, Starters]
            }
            Operation::RunMachineWithWords => &[ShortMachine, ShortRegisters, MachineTable, Start],
            Operation::CompareCaptures => &[RecordedCount, RecordedForm, RecordedOrder],
            Operation::Touches => &[ShortMachine, MachineTable, State],
            Operation::FirstTouching => &[ShortMachine, MachineTable],
            Operation::Bounds => {
                &[ShortMachine, ShortLowest, ShortHighest, MachineTable, State, Reversed]
            }
        }
    }

    /// The outcomes that it tells apart: spent, halted, dry; or nothing shared, no shared cycle
    /// differing, one differing; or not touched, touched; or no state, some state.
    pub fn outcomes(self) -> &'static [u64] {
        match self {
            Operation::RunGraphWithWords
            | Operation::RunMachineWithWords
            | Operation::CompareCaptures => &[0, 1, 2],
            Operation::Touches | Operation::FirstTouching => &[0, 1],
            _ => &[],
        }
    }

    /// How a run can end, 0 spent, 1 halted, 2 dry, each with the flag clear (0) and raised (1).
    pub fn flags(self) -> Vec<(u64, u64)> {
        let ends = match self {
            Operation::RunGraph | Operation::RunMachine => 0..2,
            Operation::RunGraphWithWords | Operation::RunMachineWithWords => 0..3,
            _ => 0..0,
        };
        ends.flat_map(|end| [(end, 0), (end, 1)]).collect()
    }

    /// Which of these an answer gives that is no refusal.
    pub fn flag(self, fields: Fields) -> Option<(u64, u64)> {
        let [number, end, _, _, flag, _] = fields;
        (number == 0 && !self.flags().is_empty()).then_some((end, flag))
    }

    /// How a machine's run can end, each with fewer blocks than cycles (0), as many (1) and more (2).
    pub fn blocks(self) -> Vec<(u64, u64)> {
        match self {
            Operation::RunMachine | Operation::RunMachineWithWords => {
                let mut ends: Vec<u64> = self.flags().into_iter().map(|(end, _)| end).collect();
                ends.dedup();
                ends.into_iter().flat_map(|end| [0, 1, 2].map(|kind| (end, kind))).collect()
            }
            _ => Vec::new(),
        }
    }

    /// Which of these an answer gives that is no refusal.
    pub fn block_kind(self, fields: Fields) -> Option<(u64, u64)> {
        let [number, end, count, _, _, blocks] = fields;
        let kind = 1 + u64::from(blocks > count) - u64::from(blocks < count);
        (number == 0 && !self.blocks().is_empty()).then_some((end, kind))
    }

    /// Which of its outcomes an answer gives that is no refusal.
    pub fn outcome(self, fields: Fields) -> Option<u64> {
        let [number, outcome, _, shared, differs, _] = fields;
        match self {
            _ if number != 0 => None,
            Operation::RunGraphWithWords | Operation::RunMachineWithWords => Some(outcome),
            Operation::CompareCaptures => Some(shared.min(1) + differs),
            Operation::Touches => Some(outcome),
            Operation::FirstTouching => Some(u64::from(outcome != 255)),
            _ => None,
        }
    }
}

/// The fields of an answer, in their order; 0 where an operation has fewer.
pub type Fields = [u64; 6];
