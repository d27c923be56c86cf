//! Runs of changed machine tables: what is refused 10 and what is not.

mod common;

use common::blocks::mend_blocks;
use common::touch::mend;
use common::*;
use reference::answer::patch;
use reference::case::MAX_PATCHES;
use reference::generate::examples::P7;
use reference::generate::machine_damage::{Damage, Table, KEPT, REFUSED};
use reference::generate::mends::mended;
use reference::generate::{block_damage, touch_damage};
use reference::machine_table::{self, MACHINE_WORDS, RECORDS_AT, RECORD_WORDS, WIRES_AT};
use reference::random::Random;
use reference::synthesis::synthesise;

/// P7 on 12 and 18 with these words changed, and touch words and words of blocks that are right again.
fn run_changed(patches: &[(usize, u32)]) -> (u32, Vec<u32>) {
    let mut table = machine_table_of(P7);
    for &(at, word) in patches {
        table[at] = word;
    }
    mend(&mut table);
    mend_blocks(&mut table);
    let mut words = registers(&[12, 18]);
    let answer = run_machine(&table, &mut words, 0, 100);
    if answer.number != 0 {
        assert_eq!((answer, &words), (refused(answer.number), &registers(&[12, 18])));
    }
    (answer.number, words)
}

fn is_refused(patches: &[(usize, u32)]) {
    assert_eq!(run_changed(patches).0, 10, "{patches:?}");
}

/// The change is not read: the run answers as before.
fn is_unread(patches: &[(usize, u32)]) {
    assert_eq!(run_changed(patches), (0, registers(&[6, 6])), "{patches:?}");
}

const STATE_1: usize = RECORDS_AT + RECORD_WORDS;
const STATE_2: usize = STATE_1 + RECORD_WORDS;

fn wire(index: usize) -> usize {
    WIRES_AT + 4 * index
}

#[test]
fn counts() {
    for n in [0, 65, 255, u32::MAX] {
        is_refused(&[(0, n)]);
    }
    for r in [0, 17, 255, u32::MAX] {
        is_refused(&[(1, r)]);
    }
    // With one register the references to the other are refused.
    is_refused(&[(1, 1)]);
}

#[test]
fn ranges() {
    is_refused(&[(STATE_1, 3_055)]);
    is_refused(&[(STATE_1 + 1, 3_071)]);
    is_refused(&[(STATE_1, u32::MAX), (STATE_1 + 1, 1)]);
    is_refused(&[(STATE_1, u32::MAX - 17)]);
    is_refused(&[(STATE_1, u32::MAX - 15)]);
    is_refused(&[(STATE_1 + 1, u32::MAX)]);
    is_refused(&[(STATE_1, 1 << 31), (STATE_1 + 1, 1 << 31)]);
    // A third state without wires may stand anywhere up to 3,072.
    for (first, number) in [(0, 0), (1, 0), (2, 0), (7, 0), (20, 0), (3_072, 0), (3_073, 10)] {
        assert_eq!(run_changed(&[(0, 3), (STATE_2, first)]).0, number, "{first}");
    }
    is_refused(&[(0, 3), (STATE_2, u32::MAX)]);
}

#[test]
fn a_range_may_end_at_3072() {
    let table = machine_table_of(P7);
    let mut patches: Vec<(usize, u32)> =
        (0..18 * 4).map(|i| (wire(3_054) + i, table[wire(2) + i])).collect();
    patches.push((STATE_1, 3_054));
    is_unread(&patches);
    // Its old wires then belong to no state.
    patches.push((wire(2), 99));
    is_unread(&patches);
    patches.push((STATE_1, 3_055));
    is_refused(&patches);
}

#[test]
fn sharing() {
    // State 2 has one wire: a `set` of state 0, of state 1, or of none.
    for (first, number) in [(0, 10), (1, 10), (2, 10), (18, 10), (20, 0)] {
        let number_of = run_changed(&[(0, 3), (STATE_2, first), (STATE_2 + 1, 1), (wire(20), 1)]).0;
        assert_eq!(number_of, number, "{first}");
    }
    is_refused(&[(STATE_1, 1)]);
    is_refused(&[(RECORDS_AT + 1, 3)]);
}

#[test]
fn codes_and_references() {
    for code in [0, 21, 255, 276, u32::MAX] {
        is_refused(&[(wire(5), code)]);
    }
    // Wire 13 of the table is wire 11 of state 1: references up to 26.
    for slot in 1..=3 {
        for reference in [2, 15, 27, 28, 33, 34, u32::MAX] {
            is_refused(&[(wire(13) + slot, reference)]);
        }
        for reference in [0, 1, 16, 26] {
            assert_eq!(run_changed(&[(wire(13) + slot, reference)]).0, 0);
        }
    }
    for slot in 2..5 {
        for reference in [2, 15, 34, u32::MAX] {
            is_refused(&[(STATE_1 + slot, reference)]);
        }
        for reference in [0, 1, 16, 33] {
            // A loop that no longer ends is spent, not refused.
            assert_eq!(run_changed(&[(STATE_1 + slot, reference)]).0, 0);
        }
    }
}

/// Word c of an add or sub is a reference as a and b are; P7's first sub is wire 7 of state 1.
#[test]
fn arrivals_of_sums() {
    for code in [3, 4] {
        for reference in [2, 15, 23, 24, 33, 34, u32::MAX] {
            is_refused(&[(wire(9), code), (wire(9) + 3, reference)]);
        }
        for reference in [0, 1, 16, 21, 22] {
            let patches = [(wire(9), code), (wire(9) + 3, reference)];
            assert_eq!(run_changed(&patches).0, 0, "{patches:?}");
        }
    }
    // Other codes with two operands do not use the word.
    for code in (5..=10).chain(12..=18) {
        for word in [2, 15, 23, 24, u32::MAX] {
            assert_eq!(run_changed(&[(wire(9), code), (wire(9) + 3, word)]).0, 0, "{code}");
        }
    }
    // No sum of this run goes over, so any reference leaves all as it was.
    is_unread(&[(wire(9) + 3, 0), (wire(10) + 3, 0)]);
}

/// Code 20 in a wire of a state below N is 12 without words, and its other words are not read.
#[test]
fn code_20() {
    let wild = [(wire(5), 20), (wire(5) + 1, u32::MAX), (wire(5) + 2, 99), (wire(5) + 3, 15)];
    for patches in [&wild[..1], &wild] {
        assert_eq!(run_changed(patches).0, 12);
    }
    is_unread(&[(wire(20), 20), (wire(3_071), 20)]);
    is_unread(&[(STATE_2 + 1, 20), (wire(3) + 3, 20)]);
    let mut table = machine_table_of(P7);
    wild.iter().for_each(|&(at, word)| table[at] = word);
    // With one state the wire belongs to none that can be run.
    let mut alone = table.clone();
    alone[0] = 1;
    mend_blocks(&mut alone);
    assert_eq!(run_machine(&alone, &mut registers(&[12, 18]), 0, 9), halted(1));
    // Wire 5 says whether state 1 goes on to block 5, so a nonzero word halts it.
    let run = |words: &[u32]| {
        let mut registers = registers(&[12, 18]);
        (run_machine_with_words(&table, &mut registers, 0, 9, words), registers)
    };
    assert_eq!(run(&[0, 1]), (ran(HALTED, 2, 255), registers(&[12, 18])));
    assert_eq!(run(&[0, 0, 7]), (ran(HALTED, 3, 255), registers(&[12, 6])));
    assert_eq!(run(&[0, 0]), (ran(DRY, 2, 1), registers(&[12, 6])));
}

#[test]
fn words_not_read() {
    is_unread(&[(2, 77), (3, u32::MAX), (65, 1)]);
    is_unread(&[(STATE_2, u32::MAX), (STATE_2 + 1, 5), (STATE_2 + 2, 99), (WIRES_AT - 1, 9)]);
    is_unread(&[(STATE_1 + 5, 99), (STATE_1 + 18, u32::MAX), (RECORDS_AT + 5, 15)]);
    is_unread(&[(wire(20), 99), (wire(3_072) - 1, 3)]);
    is_unread(&[(wire(0) + 2, 99), (wire(0) + 3, 99), (wire(3) + 3, 99), (wire(8) + 3, 99)]);
}

#[test]
fn next_states_not_below_n_halt() {
    for state in [2, 3, 254, 255, 256, u32::MAX] {
        let mut table = machine_table_of(P7);
        table[wire(1) + 1] = state;
        assert_eq!(run_machine(&table, &mut registers(&[12, 18]), 0, 1), halted(1));
        assert_eq!(run_machine(&table, &mut registers(&[12, 18]), 0, 0), spent(0, 0));
    }
    let mut table = machine_table_of(P7);
    table[0] = 1;
    assert_eq!(run_machine(&table, &mut registers(&[12, 18]), 1, 9), refused(10));
    mend_blocks(&mut table);
    assert_eq!(run_machine(&table, &mut registers(&[12, 18]), 0, 9), halted(1));
    assert_eq!(run_machine(&table, &mut registers(&[12, 18]), 1, 9), refused(9));
}

/// The registers of the halting cycle are taken all the same.
#[test]
fn a_halting_cycle_takes_its_registers() {
    let mut table = vec![u32::MAX; MACHINE_WORDS];
    (table[0], table[1]) = (1, 2);
    mend_blocks(&mut table);
    table[RECORDS_AT..RECORDS_AT + 5].copy_from_slice(&[3_070, 2, 17, 17, 16]);
    table[RECORDS_AT + 19] = 3;
    table[wire(3_070)..wire(3_070) + 3].copy_from_slice(&[18, 0, 1]);
    table[wire(3_071)..wire(3_072)].copy_from_slice(&[19, 16, 1, 0]);
    let mut words = registers(&[0xF0F0, 0xFF00, 5]);
    assert_eq!(run_machine(&table, &mut words, 0, 7), halted(1));
    assert_eq!(words, registers(&[0xFF00, 0x00F0, 5]));
}

#[test]
fn orders_of_refusals() {
    let table = machine_table_of(P7);
    assert_eq!(run_machine(&table[..MACHINE_WORDS - 1], &mut [0; 16], 9, 1), refused(7));
    assert_eq!(run_machine(&[0; MACHINE_WORDS], &mut [0; 15], 9, 1), refused(7));
    assert_eq!(run_machine(&[0; MACHINE_WORDS], &mut [0; 16], 9, 1), refused(10));
    assert_eq!(run_machine(&table, &mut [0; 16], 2, 1), refused(9));
    assert_eq!(run_machine(&table, &mut [0; 16], u32::MAX, 0), refused(9));
    assert_eq!(run_machine(&table, &mut [0; 20], 1, 0), spent(0, 1));
}

/// The generator's kinds of damage do what their lists say.
#[test]
fn generated_damage() {
    let mut random = Random::new(41);
    for graph in many_graphs(42, 150) {
        let (grouping, machine) = synthesise(&graph);
        let words = machine_table::encode(&grouping, &machine);
        let table = Table { words: &words };
        let mut accepted = |damage: &Damage, mend: bool| {
            let patches = damage(&mut random, &table);
            let patches = if mend { mended(&words, patches) } else { patches };
            let mut changed = words.clone();
            patch(&mut changed, &patches);
            patches.len() <= MAX_PATCHES && machine_table::decode(&changed).is_some()
        };
        assert!(REFUSED.iter().all(|damage| !accepted(damage, true)));
        assert!(KEPT.iter().all(|damage| accepted(damage, true)));
        let wrong = || touch_damage::WRONG.iter().chain(&block_damage::WRONG);
        assert!(wrong().all(|damage| !accepted(damage, false)));
        // Nothing else is wrong with these.
        assert!(wrong().all(|damage| accepted(damage, true)));
        assert!(touch_damage::RIGHT.iter().all(|damage| accepted(damage, false)));
        assert!(block_damage::RIGHT.iter().all(|damage| accepted(damage, false)));
    }
}
