//! Random graphs: slices and single cycles against the second program's runs.

use super::*;
use reference::block_set::BlockSet;
use reference::generate::{graphs, words};
use reference::graph as model;
use reference::grouping::Grouping;
use reference::machine::Machine;
use reference::random::Random;
use reference::run::{self, Run};
use reference::synthesis::synthesise;

/// A graph in both programs.
struct Drawn {
    model: model::Graph,
    grouping: Grouping,
    machine: Machine,
    graph: Graph,
}

impl Drawn {
    fn of(random: &mut Random) -> Drawn {
        let model = match random.percent(30) {
            true => graphs::sum_graph(random),
            false => graphs::graph(random),
        };
        let (grouping, machine) = synthesise(&model);
        let graph = graph(&reference::print::print(&model));
        Drawn { model, grouping, machine, graph }
    }

    /// What one run starts with, as often as not with words though none may be read.
    fn setup(&self, random: &mut Random) -> Setup {
        let registers = match random.percent(30) {
            true => words::registers_near_ends(random, self.model.registers),
            false => words::registers(random, self.model.registers),
        };
        let has_words = self.model.reads_words() || random.percent(30);
        let length = random.pick(&[0, 1, 2, 6, 7, 8, 21, 40]);
        let given: Vec<u32> = (0..length).map(|_| words::word(random)).collect();
        let start = random.pick(&self.grouping.starters) as u32;
        let budget = random.pick(&[0, 1, 2, 3, 6, 7, 8, 14, 21, 22, 60]);
        super::setup(&registers, has_words.then_some(&given[..]), start, budget)
    }

    /// The machine's run by the second program, and its registers.
    fn machine_run(&self, setup: &Setup) -> (Run, Vec<u32>) {
        let mut registers = setup.registers.0.clone();
        let state = self.grouping.state_started_by(setup.start as usize).expect("a starter");
        let words = supply(setup);
        let run =
            run::run_machine(&self.machine, &mut registers, state, setup.budget, words.into_iter());
        (run, registers)
    }

    /// The graph's run over as many arrivals as the budget has cycles.
    fn graph_run(&self, setup: &Setup) -> (Run, Vec<u32>) {
        let mut registers = setup.registers.0.clone();
        let words = supply(setup).into_iter().take(setup.budget as usize);
        let starters: BlockSet = self.grouping.starters.iter().copied().collect();
        let start = setup.start as usize;
        let run = run::run_graph(&self.model, &mut registers, start, u32::MAX, words, starters);
        (run, registers)
    }
}

fn supply(setup: &Setup) -> Vec<u32> {
    match &setup.words {
        Some(words) => words.0.clone(),
        None => run::unread_words().take(setup.budget as usize).collect(),
    }
}

fn compare_side(side: &Side, blocks: u64, (run, registers): &(Run, Vec<u32>), case: &str) {
    assert_eq!(side.registers[..registers.len()], registers[..], "{case}");
    assert_eq!(side.registers[registers.len()..], [0; 16][registers.len()..], "{case}");
    let next = side.next.unwrap_or(run::NONE);
    assert_eq!((next, side.flag, side.blocks), (run.next, run.flag, blocks), "{case}");
}

/// Everything that a course has come to.
fn compare(course: &Course, drawn: &Drawn, setup: &Setup, case: &str) {
    let (by_machine, by_graph) = (drawn.machine_run(setup), drawn.graph_run(setup));
    let (machine, graph) = (by_machine.0, by_graph.0);
    let outcome = course.outcome().expect(case);
    assert_eq!(outcome as u32, machine.outcome as u32, "{case}");
    assert_eq!(course.cycles(), machine.count, "{case}");
    compare_side(course.by_machine(), machine.blocks, &by_machine, case);
    compare_side(course.by_graph(), u64::from(graph.count), &by_graph, case);
}

/// The cycles follow one another, and each goes along edges of the graph.
fn check_cycles(cycles: &[Cycle], course: &Course, setup: &Setup, case: &str) {
    let words = setup.words.as_ref().map(|words| &words.0);
    for (index, cycle) in cycles.iter().enumerate() {
        assert_eq!(cycle.number as usize, index + 1, "{case}");
        assert_eq!(cycle.word, words.map(|words| words[index]), "{case}");
        assert_eq!(course.machine().starter(cycle.state), Some(cycle.blocks[0]), "{case}");
        let arrival = cycle.next.and_then(|state| course.machine().starter(state));
        let way: Vec<u32> = cycle.blocks.iter().copied().chain(arrival).collect();
        for pair in way.windows(2) {
            let block = course.graph().block(pair[0]).expect(case);
            assert!(block.ending.targets().contains(&pair[1]), "{case}");
        }
        assert!(cycle
            .blocks
            .iter()
            .all(|&block| { course.machine().state_of(block) == Some(cycle.state) }));
    }
    for pair in cycles.windows(2) {
        assert_eq!((pair[0].after, pair[0].next), (pair[1].before, Some(pair[1].state)), "{case}");
        assert!(pair[0].flag <= pair[1].flag, "{case}");
    }
    let blocks: usize = cycles.iter().map(|cycle| cycle.blocks.len()).sum();
    assert_eq!(blocks as u64, course.by_graph().blocks, "{case}");
}

/// How often each outcome came, and the flag.
#[derive(Default)]
struct Tally {
    outcomes: [u32; 3],
    flags: u32,
}

fn check(drawn: &Drawn, setup: &Setup, case: &str) -> Outcome {
    for slice in [1, 2, 3, 7, SLICE] {
        let mut sliced = course(&drawn.graph, setup);
        finish(&mut sliced, slice);
        compare(&sliced, drawn, setup, &format!("{case}, slices of {slice}"));
    }
    let mut traced = course(&drawn.graph, setup);
    let cycles: Vec<Cycle> = std::iter::from_fn(|| traced.cycle()).collect();
    compare(&traced, drawn, setup, &format!("{case}, traced"));
    check_cycles(&cycles, &traced, setup, case);
    traced.outcome().expect(case)
}

#[test]
fn random_graphs() {
    let mut tally = Tally::default();
    for seed in 0..300 {
        let mut random = Random::new(seed);
        let drawn = Drawn::of(&mut random);
        for run in 0..4 {
            let setup = drawn.setup(&mut random);
            let outcome = check(&drawn, &setup, &format!("seed {seed}, run {run}"));
            tally.outcomes[outcome as usize] += 1;
            tally.flags += u32::from(drawn.machine_run(&setup).0.flag);
        }
    }
    assert!(tally.outcomes.iter().all(|&count| count > 100), "{:?}", tally.outcomes);
    assert!(tally.flags > 100, "{}", tally.flags);
}

/// Slices and single cycles by turns come to the same.
#[test]
fn slices_and_cycles_by_turns() {
    for seed in 0..60 {
        let mut random = Random::at(7, seed);
        let drawn = Drawn::of(&mut random);
        let setup = drawn.setup(&mut random);
        let mut mixed = course(&drawn.graph, &setup);
        while mixed.cycle().is_some() {
            mixed.advance(random.between(0, 5) as u32);
        }
        compare(&mixed, &drawn, &setup, &format!("seed {seed}"));
    }
}
