//! The rules of R-5 one by one, by hand; and that every cycle from values inside ends inside.

mod common;

use common::bounds::{word, Ends, FULL, LEAST, MOST};
use common::machine_table_of;
use reference::answer::{buffers_of, patch};
use reference::bounds::{next_ranges, Range};
use reference::case::Bounds;
use reference::generate::bound_cases::{panel_text, SWING};
use reference::generate::{bound_words, graphs};
use reference::graph::signed;
use reference::machine::Machine;
use reference::machine_table::{decode, MACHINE_WORDS, RECORDS_AT, RECORD_WORDS, WIRES_AT};
use reference::operations::bounds;
use reference::print::print;
use reference::random::Random;
use reference::run::machine_cycle;

fn buffers(ends: &[Ends]) -> (Vec<u32>, Vec<u32>) {
    let Bounds { lowest, highest } = bound_words::bounds(ends);
    (lowest, highest)
}

/// The ends of all 16 registers after a cycle that is not refused.
fn after(table: &[u32], state: u32, ends: &[Ends]) -> Vec<Ends> {
    let (mut lowest, mut highest) = buffers(ends);
    assert_eq!(bounds(table, &mut lowest, &mut highest, state), 0);
    lowest.iter().zip(&highest).map(|(&low, &high)| (signed(low), signed(high))).collect()
}

/// A table whose one state has one wire of this code over r0, r1 and r2, which becomes r3.
fn table_of(code: u32) -> Vec<u32> {
    let mut table = machine_table_of(&panel_text(1));
    patch(&mut table, &[(WIRES_AT as u32 + 4, code), (WIRES_AT as u32 + 7, 2)]);
    table
}

/// What a code gives on these inputs; where c is not given it is -2 to 2.
fn rule(code: u32, inputs: &[Ends]) -> Ends {
    let ends = [inputs, &[(-2, 2)]].concat();
    let found = after(&table_of(code), 0, &ends);
    assert_eq!(found[..inputs.len()], *inputs, "registers that are not touched");
    found[3]
}

fn one(value: i64) -> Ends {
    (value, value)
}

const SET: u32 = 1;
const COPY: u32 = 2;
const ADD: u32 = 3;
const SUB: u32 = 4;
const SX: u32 = 11;
const EQ: u32 = 12;
const NE: u32 = 13;
const LT: u32 = 14;
const GE: u32 = 15;
const LTU: u32 = 16;
const GEU: u32 = 17;
const AND_NOT: u32 = 18;
const CHOOSE: u32 = 19;
const IN: u32 = 20;

#[test]
fn set_and_copy() {
    let mut table = table_of(SET);
    for literal in [0, 5, -5, LEAST, MOST] {
        table[WIRES_AT + 5] = word(literal);
        assert_eq!(after(&table, 0, &[(3, 9)])[3], one(literal));
    }
    for ends in [(3, 9), (-1, 0), one(7), FULL] {
        assert_eq!(rule(COPY, &[ends, (1, 2)]), ends);
    }
}

#[test]
fn choices() {
    let (b, c) = ((10, 12), (20, 25));
    let choose = |a| rule(CHOOSE, &[a, b, c]);
    assert_eq!(choose(one(0)), c);
    for never in [one(1), one(-1), (1, 5), (-5, -1), (1, MOST), (LEAST, -1), one(LEAST)] {
        assert_eq!(choose(never), b, "{never:?}");
    }
    for unsure in [(-1, 0), (0, 1), (-1, 1), (0, MOST), (LEAST, 0), FULL] {
        assert_eq!(choose(unsure), (10, 25), "{unsure:?}");
    }
    assert_eq!(rule(CHOOSE, &[(0, 1), (20, 25), (-10, -2)]), (-10, 25));
    assert_eq!(rule(CHOOSE, &[(0, 1), (1, 90), (40, 50)]), (1, 90));
    assert_eq!(rule(CHOOSE, &[(0, 1), one(7), one(7)]), one(7));
    assert_eq!(rule(CHOOSE, &[one(3), one(7), one(9)]), one(7));
    assert_eq!(rule(CHOOSE, &[one(0), one(7), one(9)]), one(9));
}

#[test]
fn sums_within_the_range() {
    assert_eq!(rule(ADD, &[(1, 5), (10, 20)]), (11, 25));
    assert_eq!(rule(SUB, &[(1, 5), (10, 20)]), (-19, -5));
    assert_eq!(rule(ADD, &[(-720, 720), (-720, 720)]), (-1_440, 1_440));
    assert_eq!(rule(SUB, &[(-720, 720), (-720, 720)]), (-1_440, 1_440));
    assert_eq!(rule(ADD, &[(MOST - 5, MOST - 1), (0, 1)]), (MOST - 5, MOST));
    assert_eq!(rule(ADD, &[(LEAST + 1, 0), (-1, 0)]), (LEAST, 0));
    assert_eq!(rule(SUB, &[(MOST - 5, MOST - 1), (-1, 0)]), (MOST - 5, MOST));
    assert_eq!(rule(SUB, &[(LEAST + 1, 0), (0, 1)]), (LEAST, 0));
    assert_eq!(rule(SUB, &[(-1, 0), (LEAST + 1, 0)]), (-1, MOST));
    assert_eq!(rule(SUB, &[one(-1), (LEAST, 0)]), (-1, MOST));
    assert_eq!(rule(ADD, &[(LEAST, -1), (0, MOST)]), (LEAST, MOST - 1));
}

/// One end that could wrap makes the result full, and so do two.
#[test]
fn sums_that_could_wrap() {
    for (code, a, b) in [
        (ADD, (MOST - 5, MOST), (0, 1)),
        (ADD, (LEAST, 0), (-1, 0)),
        (SUB, (MOST - 5, MOST), (-1, 0)),
        (SUB, (LEAST, 0), (0, 1)),
        (SUB, one(0), (LEAST, 0)),
        (ADD, (MOST - 1, MOST), (2, 3)),
        (ADD, (LEAST, LEAST + 1), (-3, -2)),
        (SUB, (LEAST, LEAST + 1), (2, 3)),
        (ADD, one(MOST), (1, 2)),
        (ADD, FULL, (0, 1)),
        (SUB, FULL, FULL),
    ] {
        assert_eq!(rule(code, &[a, b]), FULL, "{code} {a:?} {b:?}");
    }
}

/// Single values wrap, and the arrival may be anything.
#[test]
fn sums_of_single_values() {
    for c in [one(0), one(1), (0, 1), FULL] {
        assert_eq!(rule(ADD, &[one(MOST), one(1), c]), one(LEAST));
        assert_eq!(rule(SUB, &[one(LEAST), one(1), c]), one(MOST));
        assert_eq!(rule(ADD, &[one(2), one(3), c]), one(5));
        assert_eq!(rule(SUB, &[one(0), one(LEAST), c]), one(LEAST));
    }
}

#[test]
fn sign_extension() {
    let half = (-32_768, 32_767);
    for fits in [half, (-32_768, 0), (0, 32_767), (-720, 720), (32_766, 32_767), one(-32_768)] {
        assert_eq!(rule(SX, &[fits]), fits);
    }
    for wide in [
        (-32_769, 0),
        (0, 32_768),
        (32_767, 32_768),
        (32_768, 65_535),
        (65_535, 65_536),
        (-40_000, -39_990),
        FULL,
    ] {
        assert_eq!(rule(SX, &[wide]), half, "{wide:?}");
    }
    let singles = [(32_768, -32_768), (65_535, -1), (-32_769, 32_767), (65_536, 0), (LEAST, 0)];
    for (value, extended) in singles {
        assert_eq!(rule(SX, &[one(value)]), one(extended));
    }
}

/// What eq, ne, lt and ge give: 0, 1, or None where the ends do not decide.
#[test]
fn comparisons() {
    let (no, yes) = (Some(0), Some(1));
    let cases: [(Ends, Ends, [Option<i64>; 4]); 15] = [
        ((0, 5), (6, 9), [no, yes, yes, no]),
        ((0, 5), (5, 9), [None, None, None, None]),
        ((0, 5), (4, 9), [None, None, None, None]),
        ((6, 9), (0, 5), [no, yes, no, yes]),
        ((5, 9), (0, 5), [None, None, no, yes]),
        ((4, 9), (0, 5), [None, None, None, None]),
        ((3, 4), (3, 4), [None, None, None, None]),
        (one(3), (3, 4), [None, None, None, None]),
        (one(3), (2, 3), [None, None, no, yes]),
        ((3, 4), one(3), [None, None, no, yes]),
        (one(3), one(3), [yes, no, no, yes]),
        (one(3), one(4), [no, yes, yes, no]),
        ((-5, -1), (0, 3), [no, yes, yes, no]),
        ((0, MOST), (LEAST, -1), [no, yes, no, yes]),
        ((LEAST, -1), (-1, MOST), [None, None, None, None]),
    ];
    for (a, b, expected) in cases {
        for (code, decided) in [EQ, NE, LT, GE].into_iter().zip(expected) {
            let expected = decided.map_or((0, 1), one);
            assert_eq!(rule(code, &[a, b]), expected, "{code} {a:?} {b:?}");
        }
    }
}

#[test]
fn unsigned_comparisons() {
    for code in [LTU, GEU] {
        for [a, b] in [[(0, 5), (6, 9)], [(6, 9), (0, 5)], [one(3), (7, 8)], [(3, 3), FULL]] {
            assert_eq!(rule(code, &[a, b]), (0, 1));
        }
    }
    assert_eq!([LTU, GEU].map(|code| rule(code, &[one(-200), one(0)])), [one(0), one(1)]);
    assert_eq!([LTU, GEU].map(|code| rule(code, &[one(0), one(-200)])), [one(1), one(0)]);
}

/// And, or, xor, the shifts and 18 are full unless both are single.
#[test]
fn other_codes() {
    let exact = [(5, 8), (6, 14), (7, 6), (8, 12_288), (9, 0), (10, 0), (AND_NOT, 4)];
    for (code, value) in exact {
        assert_eq!(rule(code, &[one(12), one(10)]), one(value), "{code}");
        for [a, b] in [[one(12), (10, 11)], [(12, 13), one(10)], [(0, 1), (0, 1)]] {
            assert_eq!(rule(code, &[a, b]), FULL, "{code}");
        }
    }
    assert_eq!(rule(10, &[one(-200), one(1)]), one(-100));
    assert_eq!(rule(10, &[one(-200), one(33)]), one(-1));
    assert_eq!(rule(9, &[one(-1), one(32)]), one(0));
}

#[test]
fn input_words_are_full() {
    for ends in [one(0), (1, 2), FULL] {
        assert_eq!(rule(IN, &[ends, ends, ends]), FULL);
    }
}

#[test]
fn the_swing_is_that_of_the_examples() {
    assert_eq!(SWING, include_str!("../../examples/swing.txt"));
}

/// Rates of the request. The rate is sign extended into r1; r4 is as found where the rate is 0.
#[test]
fn swing() {
    let table = machine_table_of(SWING);
    let found = after(&table, 0, &[(-720, 720), FULL, FULL, FULL, (5, 900), FULL]);
    let expected = [(-720, 720), (-720, 720), (0, 300), (0, 2), (-720, 900), (0, 1)];
    assert_eq!(found[..6], expected);
    // To starboard: the side is still joined with none, as the last choice may go either way.
    let found = after(&table, 0, &[(1, 720), FULL, FULL, FULL, (5, 9), FULL]);
    assert_eq!(found[..6], [(1, 720), (1, 720), (0, 300), (0, 2), (1, 720), (0, 1)]);
    // With a single rate only r4, which is not compared before it is set, was open.
    let found = after(&table, 0, &[one(-200), FULL, FULL, FULL, FULL, FULL]);
    assert_eq!(found[..6], [one(-200), one(-200), one(300), one(1), one(200), one(0)]);
}

/// All references are of the start of the cycle, registers among them.
#[test]
fn registers_of_the_start() {
    let mut table = machine_table_of("graph,1,3\nblock,0\nadd,2,0,1\nhalt\n");
    let ends = [(1, 5), (10, 20), one(7)];
    assert_eq!(after(&table, 0, &ends)[..3], [(1, 5), (10, 20), (11, 25)]);
    // r0 becomes r1, r1 becomes r2 and r2 becomes r0.
    table[RECORDS_AT + 3..RECORDS_AT + 6].copy_from_slice(&[1, 2, 0]);
    table[RECORDS_AT + RECORD_WORDS - 1] = 7;
    assert_eq!(after(&table, 0, &ends)[..3], [(10, 20), one(7), (1, 5)]);
}

/// 7, 10, 9 and 13 in this order; nothing changes on a refusal.
#[test]
fn refusals() {
    let table = machine_table_of(&panel_text(1));
    let refused = |table: &[u32], lowest: &[u32], highest: &[u32], state| {
        let (mut low, mut high) = (lowest.to_vec(), highest.to_vec());
        let number = bounds(table, &mut low, &mut high, state);
        assert!(number == 0 || (low == lowest && high == highest), "a refusal changed a buffer");
        number
    };
    let (low, high) = (vec![1; 16], vec![4; 16]);
    let (wrong, short) = ([&[0], &table[1..]].concat(), &table[..MACHINE_WORDS - 1]);
    assert_eq!(refused(&table, &low, &high, 0), 0);
    assert_eq!(refused(&table, &high, &low, 0), 13);
    assert_eq!(refused(&table, &high, &low, 1), 9);
    assert_eq!(refused(&wrong, &high, &low, 1), 10);
    assert_eq!(refused(&wrong, &high[..15], &low, 1), 7);
    assert_eq!(refused(&wrong, &high, &low[..15], 1), 7);
    assert_eq!(refused(short, &high, &low, 1), 7);
    // Registers below R alone, here four, and by their signed values.
    for (register, low_word, high_word, number) in [
        (0, 5, 4, 13),
        (3, 5, 4, 13),
        (4, 5, 4, 0),
        (15, 5, 4, 0),
        (3, 0, u32::MAX, 13),
        (3, u32::MAX, 0, 0),
        (3, 1 << 31, (1 << 31) - 1, 0),
        (3, 4, 4, 0),
    ] {
        let (mut low, mut high) = (low.clone(), high.clone());
        (low[register], high[register]) = (low_word, high_word);
        assert_eq!(refused(&table, &low, &high, 0), number, "{register} {low_word} {high_word}");
    }
}

/// Words from R up stay, also those past 16.
#[test]
fn words_from_r_up_stay() {
    let table = machine_table_of(&panel_text(1));
    let (mut lowest, mut highest): (Vec<u32>, Vec<u32>) = ((1..=19).collect(), (21..=38).collect());
    let (before, above) = (lowest.clone(), highest.clone());
    assert_eq!(bounds(&table, &mut lowest, &mut highest, 0), 0);
    assert_eq!((lowest[3], highest[3]), (3, 43));
    (lowest[3], highest[3]) = (before[3], above[3]);
    assert_eq!((lowest, highest), (before, above));
}

/// Ranges of the registers below R, some of them made small enough to go through.
fn some_ranges(random: &mut Random, registers: usize) -> Vec<Range> {
    let ends = bound_words::ranges(random, registers);
    ends.iter().map(|&(lowest, highest)| Range { lowest, highest }).collect()
}

/// The machines of generated graphs, with ranges for their registers.
fn machines(seed: u64, count: usize) -> impl Iterator<Item = (Machine, Vec<Range>, Random)> {
    (0..count as u64).map(move |index| {
        let mut random = Random::at(seed, index);
        let graph = match random.below(4) {
            0 => graphs::graph(&mut random),
            1 => graphs::sum_graph(&mut random),
            2 => graphs::shift_graph(&mut random),
            _ => graphs::bounded_graph(&mut random),
        };
        let machine = decode(&machine_table_of(&print(&graph))).expect("a machine");
        let ranges = some_ranges(&mut random, machine.registers);
        (machine, ranges, random)
    })
}

fn inside(random: &mut Random, range: Range) -> u32 {
    let any = range.lowest + (random.draw() % (range.highest - range.lowest + 1) as u64) as i64;
    let near = if range.contains(0) { 0 } else { any };
    word(random.pick(&[range.lowest, range.highest, any, any, near]))
}

/// One cycle from these words and on this input ends inside the answered ranges.
fn ends_inside(machine: &Machine, state: usize, words: &[u32], input: u32, next: &[Range]) {
    let mut words = words.to_vec();
    machine_cycle(machine, state, &mut words, input);
    for (register, (&word, range)) in words.iter().zip(next).enumerate() {
        assert!(range.contains(signed(word)), "state {state}, r{register}: {word} in {range:?}");
    }
}

const INPUTS: [u32; 6] = [0, 1, u32::MAX, 1 << 31, (1 << 31) - 1, 40_000];

/// Values at both ends and between, of every state.
#[test]
fn every_cycle_ends_inside() {
    for (machine, ranges, mut random) in machines(71, 1_500) {
        for (state, record) in machine.states.iter().enumerate() {
            let next = next_ranges(record, &ranges);
            for _ in 0..12 {
                let words: Vec<u32> = ranges.iter().map(|&one| inside(&mut random, one)).collect();
                let input = random.pick(&INPUTS);
                ends_inside(&machine, state, &words, input, &next);
            }
        }
    }
}

/// Every content of small boxes, with several input words.
#[test]
fn every_content_of_small_boxes_ends_inside() {
    let mut cycles = 0;
    for (machine, _, mut random) in machines(72, 1_500).filter(|(one, ..)| one.registers < 5) {
        let edges = [LEAST, -32_769, -3, -1, 0, 1, 32_766, MOST - 3, 298];
        let ranges: Vec<Range> = (0..machine.registers)
            .map(|_| {
                let lowest = random.pick(&edges);
                Range { lowest, highest: lowest + random.between(0, 3) as i64 }
            })
            .collect();
        let sizes: Vec<i64> = ranges.iter().map(|one| one.highest - one.lowest + 1).collect();
        let state = random.below(machine.states.len());
        let next = next_ranges(&machine.states[state], &ranges);
        for mut content in 0..sizes.iter().product::<i64>() {
            let mut words = Vec::new();
            for (range, size) in ranges.iter().zip(&sizes) {
                words.push(word(range.lowest + content % size));
                content /= size;
            }
            cycles += 1;
            let input = INPUTS[cycles % INPUTS.len()];
            ends_inside(&machine, state, &words, input, &next);
        }
    }
    assert!(cycles > 10_000, "{cycles}");
}

#[test]
fn every_rate_of_the_swing_ends_inside() {
    let machine = decode(&machine_table_of(SWING)).expect("a machine");
    let ends = [(-720, 720), (0, 4), (-1, 1), FULL, (5, 900), (7, 7)];
    let ranges: Vec<Range> =
        ends.map(|(lowest, highest)| Range { lowest, highest }).into_iter().collect();
    let next = next_ranges(&machine.states[0], &ranges);
    let mut random = Random::new(73);
    for rate in -720..=720 {
        let mut words: Vec<u32> = ranges.iter().map(|&one| inside(&mut random, one)).collect();
        words[0] = word(rate);
        ends_inside(&machine, 0, &words, 0, &next);
    }
}

/// From single values, and without `in`, the answer is the cycle itself.
#[test]
fn single_values_give_the_cycle() {
    let mut seen = 0;
    for (machine, ranges, mut random) in machines(74, 1_800).filter(|(one, ..)| !one.reads_words())
    {
        let words: Vec<u32> = ranges.iter().map(|&one| inside(&mut random, one)).collect();
        let single: Vec<Range> = words.iter().map(|&word| Range::single(signed(word))).collect();
        for (state, record) in machine.states.iter().enumerate() {
            let mut after = words.clone();
            machine_cycle(&machine, state, &mut after, 0);
            let expected: Vec<Range> =
                after.iter().map(|&one| Range::single(signed(one))).collect();
            assert_eq!(next_ranges(record, &single), expected);
            seen += 1;
        }
    }
    assert!(seen > 2_000, "{seen}");
}

/// Ranges within others give answers within theirs: each rule does.
#[test]
fn narrower_bounds_give_narrower_answers() {
    let (mut same, mut narrower) = (0, 0);
    for (machine, ranges, mut random) in machines(75, 1_500) {
        let part = |range: &Range| {
            let ends = [(); 2].map(|()| signed(inside(&mut random, *range)));
            Range { lowest: ends[0].min(ends[1]), highest: ends[0].max(ends[1]) }
        };
        let parts: Vec<Range> = ranges.iter().map(part).collect();
        for record in &machine.states {
            let (wide, narrow) = (next_ranges(record, &ranges), next_ranges(record, &parts));
            for (wide, narrow) in wide.iter().zip(&narrow) {
                assert!(wide.contains(narrow.lowest) && wide.contains(narrow.highest));
                *(if wide == narrow { &mut same } else { &mut narrower }) += 1;
            }
        }
    }
    assert!(same > 1_000 && narrower > 1_000, "{same} {narrower}");
}

/// In the stored cases too, patched tables included.
#[test]
fn stored_cases_end_inside() {
    let mut random = Random::new(76);
    let mut found = 0;
    for case in common::stored_cases() {
        let (_, table) = buffers_of(&case);
        let (mut lowest, mut highest) = (case.bounds.lowest.clone(), case.bounds.highest.clone());
        if bounds(&table, &mut lowest, &mut highest, case.asked.state) != 0 {
            continue;
        }
        let machine = decode(&table).expect("a machine");
        let range = |(&low, &high): (&u32, &u32)| Range::of_words(low, high);
        let before: Vec<Range> =
            case.bounds.lowest.iter().zip(&case.bounds.highest).map(range).collect();
        let next: Vec<Range> = lowest.iter().zip(&highest).map(range).collect();
        for input in INPUTS {
            let used = &before[..machine.registers];
            let words: Vec<u32> = used.iter().map(|&one| inside(&mut random, one)).collect();
            ends_inside(&machine, case.asked.state as usize, &words, input, &next);
        }
        found += 1;
    }
    assert!(found > 1_800, "{found}");
}
