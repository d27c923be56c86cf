//! What a run of a graph or a machine answers.

use crate::operations::{
    MachineRunFields, MachineRunWithWordsFields, RunFields, RunWithWordsFields,
};
use crate::Refusal;

/// A run that was not refused: it halted, or its budget is spent.
#[derive(Clone, Copy, Debug, PartialEq, Eq, Hash)]
pub struct Run {
    /// Whether a halt came.
    pub halted: bool,
    /// Blocks or cycles run, the halting one included.
    pub count: u32,
    /// The block or state it then stands in; none where it halted.
    pub next: Option<u32>,
    /// Whether an add or sub went over in a block that the run passed: the sum or difference of its
    /// signed operands was not in -2147483648 to 2147483647. It is clear when a run starts and
    /// stays set once raised.
    pub flag: bool,
}

impl Run {
    pub(crate) fn answer(fields: RunFields) -> Result<Run, Refusal> {
        Refusal::answer(fields.number)?;
        let halted = fields.halted == 1;
        let next = (!halted).then_some(fields.next);
        Ok(Run { halted, count: fields.count, next, flag: fields.flag == 1 })
    }
}

/// A run of a machine that was not refused: as [`Run`], and how many blocks it ran.
#[derive(Clone, Copy, Debug, PartialEq, Eq, Hash)]
pub struct MachineRun {
    /// Whether a halt came.
    pub halted: bool,
    /// Cycles run, the halting one included.
    pub count: u32,
    /// The state it then stands in; none where it halted.
    pub next: Option<u32>,
    /// As in [`Run`]: whether an add or sub went over in a block that the run passed.
    pub flag: bool,
    /// Blocks run in all those cycles. On a machine made by synthesis these are exactly the blocks
    /// that the graph runs from the starter of the start state over the same arrivals.
    pub blocks: u64,
}

impl MachineRun {
    pub(crate) fn answer(fields: MachineRunFields) -> Result<MachineRun, Refusal> {
        let MachineRunFields { number, halted, count, next, flag, blocks } = fields;
        let run = Run::answer(RunFields { number, halted, count, next, flag })?;
        let Run { halted, count, next, flag } = run;
        Ok(MachineRun { halted, count, next, flag, blocks })
    }
}

/// How a run with words ended.
#[derive(Clone, Copy, Debug, PartialEq, Eq, Hash)]
pub enum Outcome {
    /// The budget is spent.
    Spent = 0,
    /// A halt came.
    Halted = 1,
    /// With budget left there was no word for an arrival.
    Dry = 2,
}

/// A run with words that was not refused.
#[derive(Clone, Copy, Debug, PartialEq, Eq, Hash)]
pub struct RunWithWords {
    pub outcome: Outcome,
    /// Blocks or cycles run, the halting one included.
    pub count: u32,
    /// The block or state it then stands in; none where it halted.
    pub next: Option<u32>,
    /// As in [`Run`]: whether an add or sub went over in a block that the run passed.
    pub flag: bool,
}

impl RunWithWords {
    pub(crate) fn answer(fields: RunWithWordsFields) -> Result<RunWithWords, Refusal> {
        Refusal::answer(fields.number)?;
        let outcome = match fields.outcome {
            0 => Outcome::Spent,
            1 => Outcome::Halted,
            2 => Outcome::Dry,
            other => unreachable!("an outcome is 0 to 2, not {other}"),
        };
        let next = (outcome != Outcome::Halted).then_some(fields.next);
        Ok(RunWithWords { outcome, count: fields.count, next, flag: fields.flag == 1 })
    }
}

/// A run of a machine with words that was not refused: as [`RunWithWords`], and how many blocks it
/// ran.
#[derive(Clone, Copy, Debug, PartialEq, Eq, Hash)]
pub struct MachineRunWithWords {
    pub outcome: Outcome,
    /// Cycles run, the halting one included.
    pub count: u32,
    /// The state it then stands in; none where it halted.
    pub next: Option<u32>,
    /// As in [`Run`]: whether an add or sub went over in a block that the run passed.
    pub flag: bool,
    /// As in [`MachineRun`]: the blocks run in all those cycles.
    pub blocks: u64,
}

impl MachineRunWithWords {
    pub(crate) fn answer(
        fields: MachineRunWithWordsFields,
    ) -> Result<MachineRunWithWords, Refusal> {
        let MachineRunWithWordsFields { number, outcome, count, next, flag, blocks } = fields;
        let run = RunWithWords::answer(RunWithWordsFields { number, outcome, count, next, flag })?;
        let RunWithWords { outcome, count, next, flag } = run;
        Ok(MachineRunWithWords { outcome, count, next, flag, blocks })
    }
}
