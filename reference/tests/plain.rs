//! The plain program of the measurements against the second program, refusals included; comparing
//! captures against the library.

use gutkavu::captures::Line;
use gutkavu::operations::{
    compare_captures, FirstTouchingFields, MachineRunFields, MachineRunWithWordsFields, RunFields,
    RunWithWordsFields, TouchesFields,
};
use reference::answer::buffers_of;
use reference::case::{Asked, Bounds, Case};
use reference::generate;
use reference::operations::{self, MachineAnswer, RunAnswer, WordsRunAnswer};
use reference::random::Random;
use std::collections::BTreeSet;

/// Operation and number of each answer seen, and outcomes.
type Seen = BTreeSet<(&'static str, u32)>;

fn words(length: u32) -> Vec<u32> {
    (0..length).map(|index| index.wrapping_mul(77_777)).collect()
}

fn fields(answer: RunAnswer) -> RunFields {
    let RunAnswer { number, halted, count, next, flag } = answer;
    RunFields { number, halted: halted.into(), count, next, flag: flag.into() }
}

fn machine_fields(answer: MachineAnswer<RunAnswer>) -> MachineRunFields {
    let MachineAnswer { run, blocks } = answer;
    let RunFields { number, halted, count, next, flag } = fields(run);
    MachineRunFields { number, halted, count, next, flag, blocks }
}

/// Whether a machine's run has as many blocks as cycles, fewer or more.
fn beside(blocks: u64, count: u32) -> u32 {
    1 + u32::from(blocks > count.into()) - u32::from(blocks < count.into())
}

fn texts_agree(case: &Case, graph: &[u32], seen: &mut Seen) {
    let (mut x, mut y) = (words(case.graph_length), words(case.graph_length));
    let second = operations::read(&case.text, &mut x);
    let plain = plain::read(&case.text, &mut y);
    assert_eq!((second.number, second.line, x), (plain.number, plain.line, y));
    seen.insert(("read", plain.number));
    let (mut x, mut y) =
        (vec![7; case.output_length as usize], vec![7; case.output_length as usize]);
    let second = operations::write(graph, &mut x);
    let plain = plain::write(graph, &mut y);
    assert_eq!((second.number, second.length, x), (plain.number, plain.length, y));
    seen.insert(("write", plain.number));
}

fn machines_agree(case: &Case, graph: &[u32], seen: &mut Seen) {
    let (mut x, mut y) = (words(case.machine_length), words(case.machine_length));
    let second = operations::synthesise(graph, &mut x);
    let plain = plain::synthesise(graph, &mut y);
    assert_eq!((second, x), (plain, y));
    seen.insert(("synthesise", plain));
}

fn runs_agree(case: &Case, graph: &[u32], machine: &[u32], seen: &mut Seen) {
    let (mut x, mut y) = (case.registers.clone(), case.registers.clone());
    let (start, budget) = (case.start_block, case.block_budget);
    let second = operations::run_graph(graph, &mut x, start, budget);
    let plain = plain::run_graph(graph, &mut y, start, budget);
    assert_eq!((fields(second), x), (plain, y));
    seen.insert(("run graph", plain.number));
    seen.insert(("the flag of a graph", plain.flag));
    let (mut x, mut y) = (case.registers.clone(), case.registers.clone());
    let (start, budget) = (case.start_state, case.cycle_budget);
    let second = operations::run_machine(machine, &mut x, start, budget);
    let plain = plain::run_machine(machine, &mut y, start, budget);
    assert_eq!((machine_fields(second), x), (plain, y));
    seen.insert(("the blocks of a machine", beside(plain.blocks, plain.count)));
    seen.insert(("run machine", plain.number));
    seen.insert(("the flag of a machine", plain.flag));
}

fn fields_with_words(answer: WordsRunAnswer) -> RunWithWordsFields {
    let WordsRunAnswer { number, outcome, count, next, flag } = answer;
    RunWithWordsFields { number, outcome, count, next, flag: flag.into() }
}

fn machine_fields_with_words(answer: MachineAnswer<WordsRunAnswer>) -> MachineRunWithWordsFields {
    let MachineAnswer { run, blocks } = answer;
    let RunWithWordsFields { number, outcome, count, next, flag } = fields_with_words(run);
    MachineRunWithWordsFields { number, outcome, count, next, flag, blocks }
}

fn graph_runs_with_words_agree(case: &Case, graph: &[u32], seen: &mut Seen) {
    let (mut x, mut y) = (case.registers.clone(), case.registers.clone());
    let (start, budget) = (case.start_block, case.block_budget);
    let (words, starters) = (&case.words[..], &case.starters[..]);
    let second = operations::run_graph_with_words(graph, &mut x, start, budget, words, starters);
    let plain = plain::run_graph_with_words(graph, &mut y, start, budget, words, starters);
    assert_eq!((fields_with_words(second), x), (plain, y));
    seen.insert(("run graph with words", plain.number));
    seen.insert(("the outcome of a graph", plain.outcome));
    seen.insert(("the flag of a graph with words", plain.flag));
}

fn machine_runs_with_words_agree(case: &Case, machine: &[u32], seen: &mut Seen) {
    let (mut x, mut y) = (case.registers.clone(), case.registers.clone());
    let (start, budget) = (case.start_state, case.cycle_budget);
    let words = &case.words[..];
    let second = operations::run_machine_with_words(machine, &mut x, start, budget, words);
    let plain = plain::run_machine_with_words(machine, &mut y, start, budget, words);
    assert_eq!((machine_fields_with_words(second), x), (plain, y));
    seen.insert(("the blocks of a machine with words", beside(plain.blocks, plain.count)));
    seen.insert(("run machine with words", plain.number));
    seen.insert(("the outcome of a machine", plain.outcome));
    seen.insert(("the flag of a machine with words", plain.flag));
}

fn questions_agree(case: &Case, machine: &[u32], seen: &mut Seen) {
    let Asked { state, register } = case.asked;
    let second = operations::touches(machine, state, register);
    let expected = TouchesFields { number: second.number, touched: second.touched.into() };
    let plain = plain::touches(machine, state, register);
    assert_eq!(expected, plain);
    seen.insert(("touches", plain.number));
    seen.insert(("whether it is touched", plain.touched));
    let second = operations::first_touching(machine, register);
    let expected = FirstTouchingFields { number: second.number, state: second.state };
    let plain = plain::first_touching(machine, register);
    assert_eq!(expected, plain);
    seen.insert(("first touching", plain.number));
    seen.insert(("the first state", plain.state));
}

fn bounds_agree(case: &Case, machine: &[u32], seen: &mut Seen) {
    let Bounds { lowest, highest } = &case.bounds;
    let (mut x, mut y) = (lowest.clone(), highest.clone());
    let second = operations::bounds(machine, &mut x, &mut y, case.asked.state);
    let (mut low, mut high) = (lowest.clone(), highest.clone());
    let plain = plain::bounds(machine, &mut low, &mut high, case.asked.state);
    assert_eq!((second, x, y), (plain, low, high));
    seen.insert(("bounds", plain));
}

#[test]
fn the_plain_program_gives_what_the_second_gives() {
    let mut seen = Seen::new();
    for case in generate::cases(31, 7_000) {
        let (graph, machine) = buffers_of(&case);
        texts_agree(&case, &graph, &mut seen);
        machines_agree(&case, &graph, &mut seen);
        runs_agree(&case, &graph, &machine, &mut seen);
        graph_runs_with_words_agree(&case, &graph, &mut seen);
        machine_runs_with_words_agree(&case, &machine, &mut seen);
        questions_agree(&case, &machine, &mut seen);
        bounds_agree(&case, &machine, &mut seen);
    }
    let every = [
        ("read", &[0, 1, 2, 3, 4, 5, 7][..]),
        ("write", &[0, 6, 7, 8]),
        ("synthesise", &[0, 6, 7]),
        ("run graph", &[0, 6, 7, 9, 12]),
        ("run machine", &[0, 7, 9, 10, 12]),
        ("run graph with words", &[0, 6, 7, 9, 11]),
        ("the outcome of a graph", &[0, 1, 2]),
        ("run machine with words", &[0, 7, 9, 10]),
        ("the outcome of a machine", &[0, 1, 2]),
        ("the flag of a graph", &[0, 1]),
        ("the flag of a machine", &[0, 1]),
        ("the flag of a graph with words", &[0, 1]),
        ("the flag of a machine with words", &[0, 1]),
        ("the blocks of a machine", &[0, 1, 2]),
        ("the blocks of a machine with words", &[0, 1, 2]),
        ("touches", &[0, 7, 9, 10]),
        ("whether it is touched", &[0, 1]),
        ("first touching", &[0, 7, 10]),
        ("the first state", &[0, 1, 2, 3, 63, 255]),
        ("bounds", &[0, 7, 9, 10, 13]),
    ];
    all_seen(&seen, &every);
}

fn all_seen(seen: &Seen, every: &[(&'static str, &[u32])]) {
    for &(name, numbers) in every {
        for &number in numbers {
            assert!(seen.contains(&(name, number)), "{name} never answered {number}");
        }
    }
}

/// Two recordings of a run: each lacks some cycles, and has other words here and there.
fn recordings(random: &mut Random, registers: u32) -> [Vec<u8>; 2] {
    let (mut texts, mut cycle) = ([String::new(), String::new()], random.word() % 3);
    let (lines, lack, differ) = (random.below(12), random.below(60), random.pick(&[0, 0, 5, 50]));
    for _ in 0..lines {
        let mut words: Vec<u32> =
            (0..=registers).map(|_| random.word() >> random.below(32)).collect();
        for text in &mut texts {
            if random.percent(differ) {
                let place = random.below(words.len());
                words[place] ^= 1;
            }
            if !random.percent(lack) {
                let line = Line { cycle, state: words[0], registers: &words[1..] };
                *text += &line.to_string();
            }
        }
        // At the highest cycle it stays, which is a fault.
        cycle = cycle.saturating_add(1 << random.pick(&[0, 0, 0, 1, 31]));
    }
    texts.map(String::into_bytes)
}

/// A byte put in, changed or taken out.
fn damage(random: &mut Random, text: &mut Vec<u8>) {
    let (at, byte) = (random.below(text.len() + 1), random.pick(b"0123456789000,,\n\n -x"));
    match random.below(3) {
        0 => text.insert(at, byte),
        _ if at == text.len() => drop(text.pop()),
        1 => text[at] = byte,
        _ => drop(text.remove(at)),
    }
}

#[test]
fn the_plain_program_compares_captures_as_the_library_does() {
    let mut seen = Seen::new();
    for index in 0..40_000 {
        let mut random = Random::at(12, index);
        let registers = random.pick(&[1, 1, 2, 3, 16]);
        let [mut first, mut second] = recordings(&mut random, registers);
        for text in [&mut first, &mut second] {
            (0..random.pick(&[0, 0, 0, 1, 3])).for_each(|_| damage(&mut random, text));
        }
        let registers = if random.percent(5) { random.pick(&[0, 4, 17]) } else { registers };
        let library = compare_captures(registers, &first, &second);
        assert_eq!(plain::compare_captures(registers, &first, &second), library, "pair {index}");
        seen.insert(("compare", library.number));
        seen.insert(("the recording of a fault", library.recording));
        seen.insert(("its line", library.line as u32));
        seen.insert(("cycles in both", library.shared as u32));
        seen.insert(("whether they differ", library.differs));
    }
    let every = [
        ("compare", &[0, 17, 18][..]),
        ("the recording of a fault", &[0, 1, 2]),
        ("its line", &[0, 1, 2, 8]),
        ("cycles in both", &[0, 1, 2, 8]),
        ("whether they differ", &[0, 1]),
    ];
    all_seen(&seen, &every);
}
