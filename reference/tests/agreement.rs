//! Demand 3 executed, on equal words: whole machine runs against the graph's own runs, flags and
//! numbers of blocks included.

mod common;

use common::*;
use reference::generate::words;
use reference::graph::Graph;
use reference::graph_table;
use reference::grouping::{group, Grouping};
use reference::machine_table::MACHINE_WORDS;
use reference::operations::{
    self, run_graph, run_graph_with_words, synthesise, MachineAnswer, RunAnswer, WordsRunAnswer,
};
use reference::random::Random;
use reference::run::{graph_step, Step};

/// Where the graph is at an arrival, or that it has halted.
#[derive(Clone)]
struct Moment {
    block: Option<usize>,
    registers: Vec<u32>,
    blocks_run: usize,
    /// Whether a sum went over since the start.
    flag: bool,
}

/// A graph with what synthesis makes of it.
struct Made {
    graph: Graph,
    grouping: Grouping,
    table: Vec<u32>,
    machine: Vec<u32>,
    starters: Vec<u32>,
}

/// What a run begins with.
struct Begin<'a> {
    state: usize,
    registers: &'a [u32],
    words: &'a [u32],
}

impl Made {
    fn of(graph: Graph) -> Made {
        let (grouping, table) = (group(&graph), graph_table::encode(&graph));
        let mut machine = vec![0; MACHINE_WORDS];
        assert_eq!(synthesise(&table, &mut machine), 0);
        let starters = grouping.starters.iter().map(|&block| block as u32).collect();
        Made { graph, grouping, table, machine, starters }
    }

    /// Steps from an arrival, on its word, up to the one that makes the next, or halts.
    fn to_next_arrival(&self, from: &Moment, word: u32) -> Moment {
        let (mut registers, mut flag) = (from.registers.clone(), from.flag);
        let grouping = &self.grouping;
        let mut at = from.block.expect("the graph has not halted");
        let state = grouping.state_of[&at];
        let size = grouping.blocks_of(state).len();
        for blocks_run in 1..=size {
            assert_eq!(grouping.state_of[&at], state, "a cycle leaves its state");
            let Step { next, over, .. } = graph_step(&self.graph, at, &mut registers, word);
            flag |= over;
            match next {
                Some(block) if !grouping.starters.contains(&block) => at = block,
                _ => return Moment { block: next, registers, blocks_run, flag },
            }
        }
        unreachable!("more blocks in a cycle than the state has")
    }

    /// Arrivals 0, 1, 2 and so on, to the halt or to the one that has no word.
    fn arrivals(&self, begin: &Begin) -> Vec<Moment> {
        let block = Some(self.grouping.starters[begin.state]);
        let registers = begin.registers[..self.graph.registers].to_vec();
        let mut moments = vec![Moment { block, registers, blocks_run: 0, flag: false }];
        for &word in begin.words {
            let last = &moments[moments.len() - 1];
            if last.block.is_some() {
                moments.push(self.to_next_arrival(last, word));
            }
        }
        moments
    }

    /// What the machine is to answer after a budget of k cycles.
    fn expected(&self, moments: &[Moment], k: usize) -> WordsRunAnswer {
        let last = moments.len() - 1;
        let outcome = if k <= last { SPENT } else { DRY };
        let Moment { block, flag, .. } = moments[k.min(last)];
        let answer = match block {
            Some(block) => {
                let next = self.grouping.state_started_by(block).expect("a starter");
                ran(outcome, k.min(last) as u32, next as u32)
            }
            None => ran(HALTED, last as u32, 255),
        };
        WordsRunAnswer { flag, ..answer }
    }

    /// For every k the machine's run of k cycles, and the graph's run up to its end.
    fn check(&self, begin: &Begin, cycles: &[usize]) {
        let moments = self.arrivals(begin);
        cycles.iter().for_each(|&k| self.check_cycles(begin, &moments, k));
    }

    fn check_cycles(&self, begin: &Begin, moments: &[Moment], k: usize) {
        let mut registers = begin.registers.to_vec();
        let start = begin.state as u32;
        let (table, words) = (&self.machine, begin.words);
        let answer =
            operations::run_machine_with_words(table, &mut registers, start, k as u32, words);
        assert_eq!(answer.run, self.expected(moments, k));
        let passed = &moments[..=k.min(moments.len() - 1)];
        assert_eq!(answer.blocks, blocks_run(passed));
        assert_eq!(registers, self.whole(&passed[passed.len() - 1], begin));
        self.check_graph_run(begin, passed, answer.run.outcome);
        if !self.graph.reads_words() && answer.run.outcome != DRY {
            self.check_without_words(begin, k, answer, &registers);
        }
    }

    /// A moment's registers with those from R up as they were.
    fn whole(&self, moment: &Moment, begin: &Begin) -> Vec<u32> {
        [&moment.registers, &begin.registers[self.graph.registers..]].concat()
    }

    /// The graph's run on the same words: with the blocks of those cycles, one less, and more.
    fn check_graph_run(&self, begin: &Begin, moments: &[Moment], outcome: u32) {
        let blocks = blocks_run(moments);
        let last = &moments[moments.len() - 1];
        let start = self.starters[begin.state];
        let run = |budget: u32| {
            let mut registers = begin.registers.to_vec();
            let (words, starters) = (begin.words, &self.starters);
            let answer =
                run_graph_with_words(&self.table, &mut registers, start, budget, words, starters);
            (answer, registers)
        };
        let next = last.block.map_or(255, |block| block as u32);
        let ended = |outcome| {
            let answer = WordsRunAnswer { flag: last.flag, ..ran(outcome, blocks as u32, next) };
            (answer, self.whole(last, begin))
        };
        assert_eq!(run(blocks as u32), ended(if outcome == HALTED { HALTED } else { SPENT }));
        if outcome != SPENT {
            for budget in [blocks as u32 + 1, blocks as u32 + 70, u32::MAX] {
                assert_eq!(run(budget), ended(outcome));
            }
        }
        if blocks > 0 {
            let (answer, _) = run(blocks as u32 - 1);
            assert_eq!((answer.outcome, answer.count), (SPENT, blocks as u32 - 1));
        }
    }

    /// Runs without words answer the same where nothing reads them.
    fn check_without_words(
        &self,
        begin: &Begin,
        k: usize,
        on_words: MachineAnswer<WordsRunAnswer>,
        after: &[u32],
    ) {
        let mut registers = begin.registers.to_vec();
        let start = begin.state as u32;
        let answer = operations::run_machine(&self.machine, &mut registers, start, k as u32);
        assert_eq!((as_with_words(answer.run), answer.blocks), (on_words.run, on_words.blocks));
        assert_eq!(registers, after);
    }
}

/// The blocks that the graph runs up to the last of these arrivals.
fn blocks_run(moments: &[Moment]) -> u64 {
    moments.iter().map(|moment| moment.blocks_run as u64).sum()
}

/// The answer of a run without words as that of one with them.
fn as_with_words(answer: RunAnswer) -> WordsRunAnswer {
    let RunAnswer { number, halted, count, next, flag } = answer;
    WordsRunAnswer { number, outcome: halted.into(), count, next, flag }
}

fn reading_and_silent(seed: u64, count: usize) -> impl Iterator<Item = Made> {
    let graphs =
        many_reading_graphs(seed, count).into_iter().chain(many_silent_graphs(seed + 1, count));
    graphs.map(Made::of)
}

/// Sums that go over, in blocks that are arrived at and in others: from every starter, on registers
/// and words at the ends, flags agree after each cycle.
#[test]
fn flags_agree_from_every_starter() {
    let mut random = Random::new(29);
    let mut flags = [0, 0];
    for made in many_sum_graphs(30, 800).into_iter().map(Made::of) {
        for state in 0..made.starters.len() {
            let registers = words::registers_near_ends(&mut random, 16);
            let words = words::registers_near_ends(&mut random, 40);
            for length in [3, 40] {
                let begin = Begin { state, registers: &registers, words: &words[..length] };
                made.check(&begin, &[0, 1, 2, 3, 4, 5, 8, 13, 40, 41]);
                made.arrivals(&begin).iter().for_each(|one| flags[usize::from(one.flag)] += 1);
            }
        }
    }
    assert!(flags.iter().all(|&moments| moments > 4_000), "{flags:?}");
}

/// Shifts by amounts below 32 and from there up, in graphs of several blocks to a state.
#[test]
fn shifts_agree_from_every_starter() {
    let mut random = Random::new(33);
    for made in many_shift_graphs(34, 800).into_iter().map(Made::of) {
        for state in 0..made.starters.len() {
            let registers = words::registers_of_shifts(&mut random, 16);
            let words = words::registers_of_shifts(&mut random, 40);
            let begin = Begin { state, registers: &registers, words: &words };
            made.check(&begin, &[0, 1, 2, 3, 5, 8, 13, 40, 41]);
        }
    }
}

#[test]
fn first_cycles_agree_from_every_starter() {
    let mut random = Random::new(21);
    for made in reading_and_silent(22, 300) {
        for state in 0..made.starters.len() {
            let registers = words::registers(&mut random, 18);
            let words = words::registers(&mut random, 12);
            for length in [0, 1, 5, 12] {
                let begin = Begin { state, registers: &registers, words: &words[..length] };
                made.check(&begin, &[0, 1, 2, 3, 5, 6, 12, 13]);
            }
        }
    }
}

#[test]
fn long_runs_agree() {
    let mut random = Random::new(23);
    for made in reading_and_silent(24, 120) {
        let registers = words::registers(&mut random, 16);
        let words = words::registers(&mut random, 200);
        let state = random.below(made.starters.len());
        let begin = Begin { state, registers: &registers, words: &words };
        made.check(&begin, &[50, 100, 199, 200, 201, u32::MAX as usize]);
    }
}

/// Where the graph halts, the largest budget gives the halting cycle; one word less gives dry.
#[test]
fn halting_runs_agree() {
    let mut random = Random::new(25);
    let mut halting = [0, 0];
    for made in reading_and_silent(26, 400) {
        let registers = words::registers(&mut random, 16);
        let words = words::registers(&mut random, 300);
        let moments = made.arrivals(&Begin { state: 0, registers: &registers, words: &words });
        let last = moments.len() - 1;
        if moments[last].block.is_some() {
            continue;
        }
        halting[usize::from(made.graph.reads_words())] += 1;
        for length in [last - 1, last, last + 1] {
            let begin = Begin { state: 0, registers: &registers, words: &words[..length] };
            made.check(&begin, &[last - 1, last, last + 1, u32::MAX as usize]);
        }
    }
    assert!(halting.iter().all(|&graphs| graphs > 50), "{halting:?}");
}

/// A run without words is the run on enough words, whatever they are, where none is read.
#[test]
fn runs_without_words_are_runs_on_enough_of_any() {
    let mut random = Random::new(27);
    for graph in many_silent_graphs(28, 400) {
        let blocks = graph.blocks.len();
        let made = Made::of(graph);
        let registers = words::registers(&mut random, 16);
        let any = words::registers(&mut random, 60);
        for list in [vec![0; 60], any] {
            let (start, budget) = (random.below(blocks) as u32, random.between(0, 60) as u32);
            let (mut x, mut y) = (registers.clone(), registers.clone());
            let alone = run_graph(&made.table, &mut x, start, budget);
            let starters: Vec<u32> = (0..blocks as u32).collect();
            let on_words =
                run_graph_with_words(&made.table, &mut y, start, budget, &list, &starters);
            assert_eq!(as_with_words(alone), on_words);
            assert_eq!((alone.number, x), (0, y));
        }
    }
}
