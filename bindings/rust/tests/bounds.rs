//! Registers known within bounds, R-5 of paper 02. The figures are worked out by hand from its
//! rules over wires.

use gutkavu::layout::machine::{NEXT_REGISTERS, RECORDS, WIRES, WIRE_WORDS};
use gutkavu::operations::bounds;
use gutkavu::{Bounds, Graph, Machine, Refusal, MACHINE_WORDS, NONE};
use std::ops::RangeInclusive;

const EXAMPLES: [&str; 10] = [
    include_str!("../../../examples/gcd.txt"),
    include_str!("../../../examples/p9.txt"),
    include_str!("../../../examples/p10.txt"),
    include_str!("../../../examples/p11.txt"),
    include_str!("../../../examples/p12.txt"),
    include_str!("../../../examples/figure5.txt"),
    include_str!("../../../examples/table1.txt"),
    include_str!("../../../examples/swing.txt"),
    include_str!("../../../examples/turn.txt"),
    include_str!("../../../examples/wrap.txt"),
];

const GCD: &str = EXAMPLES[0];
const SWING: &str = EXAMPLES[7];
const TURN: &str = EXAMPLES[8];

/// A lowest and a highest value.
type Range = (i32, i32);

const LOWEST: i32 = i32::MIN;
const HIGHEST: i32 = i32::MAX;
const FULL: Range = (LOWEST, HIGHEST);
/// What sx gives where the range does not fit.
const WORD: Range = (-32_768, 32_767);
const ZERO: Range = (0, 0);
const ONE: Range = (1, 1);
/// A comparison that the ends do not decide.
const EITHER: Range = (0, 1);

fn machine(text: &str) -> Machine {
    text.parse::<Graph>().expect("a graph").synthesise()
}

/// Bounds of the first registers; the others are 0.
fn within(ranges: &[Range]) -> Bounds {
    let start = Bounds::exact(&[0; 16]);
    let ranges = ranges.iter().zip(0..);
    ranges.fold(start, |bounds, (&(lowest, highest), r)| bounds.with(r, lowest..=highest))
}

/// The bounds that state 0 answers, of the first registers.
fn after<const N: usize>(text: &str, ranges: &[Range]) -> [Range; N] {
    let next = machine(text).bounds(0, &within(ranges)).expect("bounds");
    std::array::from_fn(|r| next.range(r).into_inner())
}

/// A machine whose register 3 takes the value of a wire of any code, with registers 0, 1 and 2 as
/// a, b and c: the wire of its one instruction is made it.
fn with_wire(code: u32) -> Machine {
    let mut words = *machine("graph,1,4\nblock,0\nadd,3,0,1\nhalt\n").words();
    let place = WIRES + WIRE_WORDS;
    assert_eq!(words[place], 3);
    words[place..][..WIRE_WORDS].copy_from_slice(&[code, 0, 1, 2]);
    Machine::from_words(&words).expect("long enough")
}

/// The range of a wire of any code.
fn wire<const N: usize>(code: u32, inputs: [Range; N]) -> Range {
    with_wire(code).bounds(0, &within(&inputs)).expect("bounds").range(3).into_inner()
}

/// As `wire`, on single values.
fn exact<const N: usize>(code: u32, inputs: [i32; N]) -> i32 {
    let (lowest, highest) = wire(code, inputs.map(|value| (value, value)));
    assert_eq!(lowest, highest, "code {code}");
    lowest
}

#[test]
fn set_and_copy_are_exact() {
    let text = "graph,1,4\nblock,0\nset,1,-7\ncopy,2,0\nset,3,-2147483648\nhalt\n";
    let next = after(text, &[(-3, 9), FULL, FULL, FULL]);
    assert_eq!(next, [(-3, 9), (-7, -7), (-3, 9), (LOWEST, LOWEST)]);
}

#[test]
fn a_register_that_is_not_written_keeps_its_range() {
    assert_eq!(after("graph,1,2\nblock,0\nhalt\n", &[(-3, 9), FULL]), [(-3, 9), FULL]);
}

/// Each instruction sees the ranges of those before it, and the next ranges are taken at once.
#[test]
fn instructions_are_followed_in_order() {
    let text = "graph,1,3\nblock,0\nadd,0,0,1\nadd,0,0,1\nsub,1,0,1\ncopy,2,1\nhalt\n";
    assert_eq!(after(text, &[(0, 10), (1, 2)]), [(2, 14), (0, 13), (0, 13)]);
}

#[test]
fn add_and_sub_from_the_ends() {
    let [add, sub] = [3, 4];
    assert_eq!(wire(add, [(-720, 720), (1, 2)]), (-719, 722));
    assert_eq!(wire(add, [(-720, 720), (-5, -5)]), (-725, 715));
    assert_eq!(wire(sub, [ZERO, (-720, 720)]), (-720, 720));
    assert_eq!(wire(sub, [(5, 10), (1, 3)]), (2, 9));
    assert_eq!(wire(sub, [(-10, -5), (-3, 7)]), (-17, -2));
    let text = "graph,1,3\nblock,0\nadd,2,0,1\nsub,0,0,1\nhalt\n";
    assert_eq!(after(text, &[(-9, 4), (-2, 3)]), [(-12, 6), (-2, 3), (-11, 7)]);
}

#[test]
fn add_and_sub_are_full_where_a_result_could_wrap() {
    let [add, sub] = [3, 4];
    assert_eq!(wire(add, [(0, HIGHEST - 1), (0, 1)]), (0, HIGHEST));
    assert_eq!(wire(add, [(0, HIGHEST), (0, 1)]), FULL);
    assert_eq!(wire(add, [(LOWEST + 1, 0), (-1, 0)]), (LOWEST, 0));
    assert_eq!(wire(add, [(LOWEST, 0), (-1, 0)]), FULL);
    assert_eq!(wire(add, [FULL, ZERO]), FULL);
    // Every result wraps, to -2147483648 and the value after it; the rule says full all the same.
    assert_eq!(wire(add, [(HIGHEST, HIGHEST), (1, 2)]), FULL);
    assert_eq!(wire(sub, [ZERO, (LOWEST + 1, 0)]), (0, HIGHEST));
    assert_eq!(wire(sub, [ZERO, (LOWEST, 0)]), FULL);
    assert_eq!(wire(sub, [(LOWEST + 2, 0), (1, 2)]), (LOWEST, -1));
    assert_eq!(wire(sub, [(LOWEST + 1, 0), (1, 2)]), FULL);
}

/// Word c of add and sub, here register 2, tells whether the sum counts for a run's flag.
#[test]
fn single_values_wrap_exactly_and_c_is_no_input() {
    let [add, sub] = [3, 4];
    assert_eq!(exact(add, [HIGHEST, 1]), LOWEST);
    assert_eq!(exact(sub, [LOWEST, 1]), HIGHEST);
    assert_eq!(wire(add, [(HIGHEST, HIGHEST), ONE, FULL]), (LOWEST, LOWEST));
    assert_eq!(wire(sub, [ZERO, (LOWEST, LOWEST), FULL]), (LOWEST, LOWEST));
    assert_eq!(wire(add, [(2, 3), ONE, ZERO]), (3, 4));
}

#[test]
fn sx_keeps_a_range_that_fits_16_signed_bits() {
    let text = "graph,1,2\nblock,0\nsx,1,0\nhalt\n";
    let sx = |range| after::<2>(text, &[range])[1];
    for range in [(-720, 720), WORD, (-32_768, -32_767), (32_766, 32_767), ONE] {
        assert_eq!(sx(range), range);
    }
    for range in [(-32_769, 0), (0, 32_768), (65_336, 65_337), (40_000, 50_000), FULL] {
        assert_eq!(sx(range), WORD);
    }
    let exact = [(65_336, -200), (32_768, -32_768), (-32_769, 32_767), (1 << 16, 0)];
    for (value, widened) in exact {
        assert_eq!(sx((value, value)), (widened, widened));
    }
}

#[test]
fn eq_and_ne_where_the_ends_decide() {
    for (inputs, eq) in [
        ([(3, 3), (3, 3)], ONE),
        ([(3, 3), (4, 4)], ZERO),
        ([(-9, 3), (4, 8)], ZERO),
        ([(4, 8), (-9, 3)], ZERO),
        ([(-9, 4), (4, 8)], EITHER),
        ([(4, 8), (-9, 4)], EITHER),
        ([(4, 8), (4, 8)], EITHER),
        ([(0, 9), (4, 4)], EITHER),
        ([FULL, FULL], EITHER),
        ([(LOWEST, -1), (0, HIGHEST)], ZERO),
    ] {
        assert_eq!(wire(12, inputs), eq, "{inputs:?}");
        assert_eq!(wire(13, inputs), (1 - eq.1, 1 - eq.0), "{inputs:?}");
    }
}

#[test]
fn lt_and_ge_where_the_ends_decide() {
    for (inputs, lt) in [
        ([(3, 3), (4, 4)], ONE),
        ([(3, 3), (3, 3)], ZERO),
        ([(-9, 3), (4, 8)], ONE),
        ([(-9, 4), (4, 8)], EITHER),
        ([(4, 8), (-9, 4)], ZERO),
        ([(4, 8), (-9, 5)], EITHER),
        ([(4, 8), (4, 8)], EITHER),
        ([(0, 9), (4, 4)], EITHER),
        ([FULL, FULL], EITHER),
        ([FULL, (LOWEST, LOWEST)], ZERO),
        ([(HIGHEST, HIGHEST), FULL], ZERO),
        ([(LOWEST, -1), (0, HIGHEST)], ONE),
    ] {
        assert_eq!(wire(14, inputs), lt, "{inputs:?}");
        assert_eq!(wire(15, inputs), (1 - lt.1, 1 - lt.0), "{inputs:?}");
    }
}

/// Signed ends say little of unsigned values, and the rule does not look at them.
#[test]
fn ltu_and_geu_are_0_to_1_but_on_single_values() {
    for inputs in [[(0, 1), (5, 9)], [(5, 9), (0, 1)], [FULL, ZERO], [(7, 7), (8, 9)]] {
        assert_eq!([wire(16, inputs), wire(17, inputs)], [EITHER; 2], "{inputs:?}");
    }
    assert_eq!([exact(16, [-200, 0]), exact(17, [-200, 0])], [0, 1]);
    assert_eq!([exact(16, [0, -200]), exact(17, [0, -200])], [1, 0]);
    assert_eq!([exact(16, [5, 5]), exact(17, [5, 5])], [0, 1]);
}

#[test]
fn code_19_takes_an_arm_or_both() {
    let (b, c) = ((7, 9), (-2, 1));
    for a in [ONE, (1, 5), (-3, -1), (1, HIGHEST), (LOWEST, LOWEST)] {
        assert_eq!(wire(19, [a, b, c]), b, "{a:?}");
    }
    assert_eq!(wire(19, [ZERO, b, c]), c);
    for a in [EITHER, (-1, 0), (-1, 1), FULL] {
        assert_eq!(wire(19, [a, b, c]), (-2, 9), "{a:?}");
        assert_eq!(wire(19, [a, c, b]), (-2, 9), "{a:?}");
        assert_eq!(wire(19, [a, (0, 20), (3, 4)]), (0, 20), "{a:?}");
        assert_eq!(wire(19, [a, (6, 6), (6, 6)]), (6, 6), "{a:?}");
        assert_eq!(wire(19, [a, (6, 6), (3, 3)]), (3, 6), "{a:?}");
    }
    assert_eq!([exact(19, [-1, 6, 3]), exact(19, [0, 6, 3])], [6, 3]);
}

/// and, or, xor, shl, shr, sar, and 18, which is a and not b.
#[test]
fn any_other_code_is_full_but_on_single_values() {
    for code in [5, 6, 7, 8, 9, 10, 18] {
        for inputs in [[EITHER, ONE], [ONE, EITHER], [ZERO, FULL], [(4, 8), (4, 8)]] {
            assert_eq!(wire(code, inputs), FULL, "code {code}, {inputs:?}");
        }
    }
    assert_eq!([5, 6, 7, 18].map(|code| exact(code, [12, 10])), [8, 14, 6, 4]);
    assert_eq!([8, 9, 10].map(|code| exact(code, [-16, 28])), [0, 15, -1]);
    assert_eq!(exact(8, [3, 31]), LOWEST);
}

/// It has no inputs, and a machine that has one is asked without words.
#[test]
fn an_in_wire_is_full() {
    let text = "graph,1,4\nblock,0\nin,1\nsx,2,1\nsub,3,1,1\nhalt\n";
    assert_eq!(after(text, &[(5, 5)]), [(5, 5), FULL, WORD, FULL]);
}

/// r3 is 10 where r0 is below r1, else 20.
#[test]
fn a_comparison_that_the_ends_decide_leaves_one_way() {
    let text = "graph,4,4\nblock,0\nite,lt,0,1,1,2\nblock,1\nset,3,10\ngoto,3\n\
        block,2\nset,3,20\ngoto,3\nblock,3\nadd,2,3,0\nhalt\n";
    let last_two = |r0, r1| {
        let [_, _, r2, r3] = after(text, &[r0, r1, FULL, FULL]);
        [r2, r3]
    };
    assert_eq!(last_two((-9, 3), (4, 8)), [(1, 13), (10, 10)]);
    assert_eq!(last_two((8, 9), (4, 8)), [(28, 29), (20, 20)]);
    assert_eq!(last_two((0, 9), (4, 8)), [(10, 29), (10, 20)]);
}

/// Wires of the swing graph, with r0 from -720 to 720 and the other registers 0. Block 0 gives r1
/// that range by sx, and 0 in r2, r3 and r5. None of the comparisons is decided, so each arrival
/// but the first is full and every join takes both arms. Of r3 these are 1 and 2 at block 4, then 0
/// to 2; of r4 0 - r1 and r1, both -720 to 720, then 0 as found; r2 is 0 or 300, r5 0 or 1.
#[test]
fn the_swing_of_a_known_rate() {
    let next = after(SWING, &[(-720, 720)]);
    assert_eq!(next, [(-720, 720), (-720, 720), (0, 300), (0, 2), (-720, 720), (0, 1)]);
    // At rate 0 r4 keeps its word, whatever it is.
    let next: [Range; 6] = after(SWING, &[(-720, 720), ZERO, ZERO, ZERO, FULL]);
    assert_eq!((next[3], next[4]), ((0, 2), FULL));
}

/// To starboard eq and lt are decided, and block 4 has 2 in r3 and the rate in r4. Its ltu is not,
/// so both its ways to block 6 may be 0, and the values of block 0 stay possible there.
#[test]
fn the_swing_of_a_rate_to_one_side() {
    let next = after(SWING, &[(1, 720)]);
    assert_eq!(next, [(1, 720), (1, 720), (0, 300), (0, 2), (0, 720), (0, 1)]);
    let next = after(SWING, &[(-720, -1)]);
    assert_eq!(next, [(-720, -1), (-720, -1), (0, 300), (0, 1), (0, 720), (0, 1)]);
    // The word 65336 is -200: all values are single, and the cycle is the run's.
    let next = after(SWING, &[(65_336, 65_336)]);
    assert_eq!(next, [(65_336, 65_336), (-200, -200), (300, 300), ONE, (200, 200), ZERO]);
    // A rate that no 16 signed bits hold may be of either side.
    let next = after(SWING, &[(65_336, 65_337)]);
    assert_eq!(next, [(65_336, 65_337), WORD, (0, 300), (0, 2), (-32_768, 32_768), (0, 1)]);
}

/// Numbers that look random, by xorshift.
struct Numbers(u64);

impl Numbers {
    fn next(&mut self) -> u32 {
        self.0 ^= self.0 << 13;
        self.0 ^= self.0 >> 7;
        self.0 ^= self.0 << 17;
        (self.0 >> 32) as u32
    }

    /// A signed value, often near 0 or where the signed ones begin and end.
    fn value(&mut self) -> i32 {
        let small = (self.next() % 9) as i32 - 4;
        match self.next() % 6 {
            0 => self.next() as i32,
            1 => (self.next() % 1_441) as i32 - 720,
            2 => small.wrapping_add(LOWEST),
            3 => (self.next() as i16).into(),
            _ => small,
        }
    }

    fn range(&mut self) -> RangeInclusive<i32> {
        let (x, y) = (self.value(), self.value());
        match self.next() % 4 {
            0 => x..=x,
            1 => x..=x.saturating_add(y.unsigned_abs().min(9) as i32),
            _ => x.min(y)..=x.max(y),
        }
    }

    fn bounds(&mut self) -> Bounds {
        (0..16).fold(Bounds::FULL, |bounds, r| bounds.with(r, self.range()))
    }

    /// A value of a range, often one of its ends.
    fn inside(&mut self, range: RangeInclusive<i32>) -> i32 {
        let (lowest, highest) = range.into_inner();
        let steps = u64::from(highest.abs_diff(lowest)) + 1;
        match self.next() % 4 {
            0 => lowest,
            1 => highest,
            _ => lowest.wrapping_add((u64::from(self.next()) % steps) as i32),
        }
    }
}

/// One question about a state, and some cycles from registers within its bounds.
fn ends_inside(machine: &Machine, state: u32, numbers: &mut Numbers) {
    let known = numbers.bounds();
    let next = machine.bounds(state, &known).expect("bounds");
    for _ in 0..10 {
        let start = std::array::from_fn(|r| numbers.inside(known.range(r)) as u32);
        assert!(known.contains(&start));
        let (mut registers, words) = (start, [numbers.value() as u32]);
        let run = machine.run_with_words(&mut registers, state, 1, &words);
        assert_eq!(run.expect("a run").count, 1);
        assert!(next.contains(&registers), "state {state} on {words:?} from {start:?}, {next:?}");
    }
}

#[test]
fn every_cycle_from_inside_ends_inside() {
    let mut numbers = Numbers(0x5851_F42D_4C95_7F2D);
    for text in EXAMPLES {
        let machine = machine(text);
        for state in (0..machine.states()).cycle().take(2_000) {
            ends_inside(&machine, state, &mut numbers);
        }
    }
    for code in 1..=20 {
        let machine = with_wire(code);
        (0..1_000).for_each(|_| ends_inside(&machine, 0, &mut numbers));
    }
}

#[test]
fn single_values_are_those_of_a_run_of_one_cycle() {
    let mut numbers = Numbers(0x1405_7B7E_F767_814F);
    for text in EXAMPLES.into_iter().filter(|&text| text != TURN) {
        let machine = machine(text);
        for state in (0..machine.states()).cycle().take(1_000) {
            let mut registers = std::array::from_fn(|_| numbers.value() as u32);
            let next = machine.bounds(state, &Bounds::exact(&registers)).expect("bounds");
            machine.run(&mut registers, state, 1).expect("a run");
            assert_eq!(next, Bounds::exact(&registers), "{text}state {state}");
        }
    }
}

/// State 0 writes nothing; state 1 is a turn of the loop.
#[test]
fn the_state_asked_about_is_the_one_that_answers() {
    let machine = machine(GCD);
    let known = within(&[(12, 12), (18, 18)]);
    assert_eq!(machine.bounds(0, &known), Ok(known));
    assert_eq!(machine.bounds(1, &known), Ok(within(&[(12, 12), (6, 6)])));
}

/// The buffers of a call on a table of two registers.
const BEFORE: [[u32; 18]; 2] = [
    [3, 4, 9, 9, 9, 9, 9, 9, 9, 9, 9, 9, 9, 9, 9, 9, 7, 7],
    [5, 4, 1, 1, 1, 1, 1, 1, 1, 1, 1, 1, 1, 1, 1, 1, 6, 6],
];

/// There the lowest is above the highest, which counts below R only.
#[test]
fn words_from_r_up_stay() {
    let [mut lowest, mut highest] = BEFORE;
    let made = machine("graph,1,2\nblock,0\nsub,0,1,0\ncopy,1,0\nhalt\n");
    assert_eq!(bounds(made.words(), &mut lowest, &mut highest, 0), 0);
    assert_eq!((&lowest[..2], &highest[..2]), (&[u32::MAX; 2][..], &[1; 2][..]));
    assert_eq!((&lowest[2..], &highest[2..]), (&BEFORE[0][2..], &BEFORE[1][2..]));
    let [mut lowest, mut highest] = BEFORE;
    assert_eq!(bounds(made.words(), &mut lowest[..16], &mut highest[..16], 0), 0);
    assert_eq!((&lowest[2..], &highest[2..]), (&BEFORE[0][2..], &BEFORE[1][2..]));
}

#[test]
fn sixteen_registers_have_bounds_each() {
    let text = "graph,1,16\nblock,0\nadd,15,15,14\nhalt\n";
    let known = (0..16).fold(Bounds::FULL, |known, r| known.with(r as usize, -r..=r + 1));
    assert_eq!(machine(text).bounds(0, &known), Ok(known.with(15, -29..=31)));
}

/// The number of a refusal of a call, which leaves both buffers as they were.
fn refused(table: &[u32], lengths: [usize; 2], wrong_way: bool, state: u32) -> u32 {
    let [mut lowest, mut highest] = BEFORE;
    if wrong_way {
        (lowest[1], highest[1]) = (5, 4);
    }
    let before = (lowest, highest);
    let number = bounds(table, &mut lowest[..lengths[0]], &mut highest[..lengths[1]], state);
    assert_eq!((lowest, highest), before);
    number
}

#[test]
fn refusals_come_in_order_and_change_nothing() {
    let made = machine(GCD);
    let (table, wrong) = (&made.words()[..], [0; MACHINE_WORDS]);
    for state in [0, 2, 63, 64, NONE, u32::MAX] {
        for (wrong_way, table) in [(true, table), (false, table), (true, &wrong)] {
            assert_eq!(refused(&table[1..], [16, 16], wrong_way, state), 7);
            assert_eq!(refused(table, [15, 16], wrong_way, state), 7);
            assert_eq!(refused(table, [18, 15], wrong_way, state), 7);
            assert_eq!(refused(table, [0, 0], wrong_way, state), 7);
        }
        assert_eq!(refused(&wrong, [16, 16], true, state), 10);
        if state >= 2 {
            assert_eq!(refused(table, [16, 16], true, state), 9);
            assert_eq!(refused(table, [16, 16], false, state), 9);
        }
    }
    assert_eq!([0, 1].map(|state| refused(table, [16, 16], true, state)), [13; 2]);
}

#[test]
fn the_lowest_above_the_highest_is_refused() {
    let made = machine(SWING);
    let refused = Err(Refusal::LowestAboveHighest);
    for r in 0..6 {
        for (lowest, highest) in [(720, -720), (1, 0), (0, -1), (HIGHEST, LOWEST)] {
            assert_eq!(made.bounds(0, &Bounds::FULL.with(r, lowest..=highest)), refused, "r{r}");
        }
        let known = within(&[(-720, 720)]).with(r, -1..=0);
        assert!(made.bounds(0, &known).is_ok());
    }
    let mut swapped = Bounds::FULL;
    (swapped.lowest[6], swapped.highest[6]) = (720, -720);
    let next = made.bounds(0, &swapped).expect("r6 is not below R");
    assert_eq!((next.lowest[6], next.highest[6]), (720, -720));
    (swapped.lowest[0], swapped.highest[0]) = (720, -720);
    assert_eq!(made.bounds(0, &swapped), refused);
    assert_eq!(made.bounds(1, &swapped), Err(Refusal::NoStart));
    assert_eq!(Refusal::LowestAboveHighest.number(), 13);
}

#[test]
fn a_next_reference_may_be_a_register_or_any_wire() {
    let mut words = *machine("graph,1,2\nblock,0\nset,1,7\nhalt\n").words();
    words[RECORDS + NEXT_REGISTERS + 1] = 0;
    let made = Machine::from_words(&words).expect("long enough");
    assert_eq!(made.bounds(0, &within(&[(-3, 9)])), Ok(within(&[(-3, 9), (-3, 9)])));
    // The last wire has the next state, 255 for a halt.
    words[RECORDS + NEXT_REGISTERS + 1] = 16 + 2;
    let made = Machine::from_words(&words).expect("long enough");
    assert_eq!(made.bounds(0, &within(&[(-3, 9)])), Ok(within(&[(-3, 9), (255, 255)])));
}
