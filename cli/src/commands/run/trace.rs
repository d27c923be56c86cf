//! The cycles of a run, one a line.

use super::summary;
use crate::course::{Course, Cycle};
use crate::numbers;
use crate::output::{Answer, Paint};
use crate::table::joined;
use gutkavu::Machine;
use serde::Serialize;

/// The widths of columns are known before the first cycle, so that lines can be shown as cycles are
/// run. What changed comes last, because its width is not.
pub struct Columns {
    /// None in a run without words.
    word: Option<usize>,
    blocks: usize,
    signed: bool,
}

const WIDEST_BLOCKS: usize = 40;

/// The longest list of blocks that a cycle can have, or somewhat more.
fn width_of_blocks(machine: &Machine) -> usize {
    let lists = (0..machine.states()).map(|state| joined(machine.blocks(state), " ").len());
    lists.max().unwrap_or(0).clamp("blocks".len(), WIDEST_BLOCKS)
}

impl Columns {
    pub fn of(course: &Course, signed: bool) -> Columns {
        let width = |&word: &u32| numbers::shown(word, signed).to_string().len();
        let widest = |words: &[u32]| words.iter().map(width).max().unwrap_or(0).max("word".len());
        Columns {
            word: course.words().map(widest),
            blocks: width_of_blocks(course.machine()),
            signed,
        }
    }

    pub fn head(&self) -> String {
        let titles = ["cycle", "state", "word", "blocks", "flag ", "next", "changed"];
        self.line(titles.map(String::from))
    }

    fn line(&self, cells: [String; 7]) -> String {
        let [cycle, state, word, blocks, flag, next, changed] = cells;
        let word = self.word.map_or(String::new(), |width| format!("{word:>width$}  "));
        let width = self.blocks;
        let line =
            format!("{cycle:>5}  {state:>5}  {word}{blocks:<width$}  {flag}  {next:<4}  {changed}");
        line.trim_end().to_string()
    }

    pub fn row(&self, cycle: Cycle) -> Row<'_> {
        let shown = |word| numbers::shown(word, self.signed);
        let both = cycle.before.into_iter().zip(cycle.after).enumerate();
        let differ = both.filter(|(_, (before, after))| before != after);
        let change = |(register, (before, after))| Change {
            register,
            before: shown(before),
            after: shown(after),
        };
        Row {
            changed: differ.map(change).collect(),
            cycle: cycle.number,
            state: cycle.state,
            word: cycle.word.map(shown),
            blocks: cycle.blocks,
            flag: cycle.flag,
            next: cycle.next,
            columns: self,
        }
    }
}

#[derive(Serialize)]
pub struct Row<'a> {
    cycle: u32,
    state: u32,
    word: Option<i64>,
    blocks: Vec<u32>,
    changed: Vec<Change>,
    flag: bool,
    next: Option<u32>,
    #[serde(skip)]
    columns: &'a Columns,
}

#[derive(Serialize)]
struct Change {
    register: usize,
    before: i64,
    after: i64,
}

impl Answer for Row<'_> {
    fn text(&self, paint: Paint) -> String {
        let change = |Change { register, before, after }: &Change| {
            format!("r{register} {before} -> {after}")
        };
        let flag = format!("{:<5}", summary::flag(self.flag));
        let line = self.columns.line([
            self.cycle.to_string(),
            self.state.to_string(),
            self.word.map_or(String::new(), |word| word.to_string()),
            joined(&self.blocks, " "),
            if self.flag { paint.red(flag) } else { flag },
            self.next.map_or(String::from("halt"), |next| next.to_string()),
            joined(self.changed.iter().map(change), ", "),
        ]);
        line + "\n"
    }
}
