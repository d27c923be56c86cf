//! The operations on lent buffers: every field, and short buffers.

use gutkavu::operations::{read, run_graph, run_machine, synthesise, write};
use gutkavu::operations::{run_graph_with_words, run_machine_with_words};
use gutkavu::operations::{
    MachineRunFields, MachineRunWithWordsFields, ReadFields, RunFields, RunWithWordsFields,
    WriteFields,
};
use gutkavu::{GRAPH_WORDS, MACHINE_WORDS};

const TEXT: &[u8] = b"graph,1,1\nblock,0\nset,0,-200\nhalt\n";

fn refused(number: u32) -> RunFields {
    RunFields { number, halted: 0, count: 0, next: 0, flag: 0 }
}

/// The fields of a machine's run that answers as a graph's does and runs so many blocks.
fn with_blocks(run: RunFields, blocks: u64) -> MachineRunFields {
    let RunFields { number, halted, count, next, flag } = run;
    MachineRunFields { number, halted, count, next, flag, blocks }
}

#[test]
fn success() {
    let (mut graph, mut machine) = ([9; GRAPH_WORDS + 1], [9; MACHINE_WORDS + 1]);
    assert_eq!(read(TEXT, &mut graph), ReadFields { number: 0, line: 0 });
    assert_eq!(synthesise(&graph, &mut machine), 0);
    assert_eq!((graph[GRAPH_WORDS], machine[MACHINE_WORDS]), (9, 9));
    let mut out = [9; 40];
    assert_eq!(write(&graph, &mut out), WriteFields { number: 0, length: TEXT.len() as u32 });
    assert_eq!((&out[..TEXT.len()], out[TEXT.len()]), (TEXT, 9));
    let halted = RunFields { number: 0, halted: 1, count: 1, next: 255, flag: 0 };
    for start in [[5; 16], [4_294_967_095; 16]] {
        let (mut by_graph, mut by_machine) = (start, start);
        assert_eq!(run_graph(&graph, &mut by_graph, 0, 1), halted);
        assert_eq!(run_machine(&machine, &mut by_machine, 0, 1), with_blocks(halted, 1));
        assert_eq!((by_graph[0], &by_graph[1..]), (4_294_967_096, &start[1..]));
        assert_eq!(by_graph, by_machine);
    }
}

#[test]
fn short_buffers() {
    let (mut graph, mut machine) = ([9; GRAPH_WORDS], [9; MACHINE_WORDS]);
    assert_eq!(read(TEXT, &mut graph[1..]), ReadFields { number: 7, line: 0 });
    assert_eq!(graph, [9; GRAPH_WORDS]);
    assert_eq!(read(TEXT, &mut graph), ReadFields { number: 0, line: 0 });
    assert_eq!(synthesise(&graph, &mut machine[1..]), 7);
    assert_eq!(synthesise(&graph[1..], &mut machine), 7);
    assert_eq!(machine, [9; MACHINE_WORDS]);
    let (mut out, length) = ([9; 33], TEXT.len() as u32);
    assert_eq!(write(&graph, &mut out), WriteFields { number: 8, length });
    assert_eq!(write(&graph, &mut []), WriteFields { number: 8, length });
    assert_eq!(write(&[], &mut out), WriteFields { number: 7, length: 0 });
    assert_eq!(out, [9; 33]);
    assert_eq!(run_graph(&graph, &mut [5; 15], 0, 1), refused(7));
    assert_eq!(run_machine(&machine, &mut [5; 15], 0, 1), with_blocks(refused(7), 0));
    assert_eq!(run_machine(&machine, &mut [5; 16], 0, 1), with_blocks(refused(10), 0));
    assert_eq!(run_graph(&graph, &mut [5; 16], 1, 1), refused(9));
}

fn fields(number: u32, outcome: u32, count: u32, next: u32) -> RunWithWordsFields {
    RunWithWordsFields { number, outcome, count, next, flag: 0 }
}

/// The fields of a machine's run with words that answers as a graph's does; each cycle runs one
/// block.
fn with_blocks_of_words(run: RunWithWordsFields) -> MachineRunWithWordsFields {
    let RunWithWordsFields { number, outcome, count, next, flag } = run;
    MachineRunWithWordsFields { number, outcome, count, next, flag, blocks: count.into() }
}

#[test]
fn runs_with_words() {
    let text = b"graph,1,1\nblock,0\nin,0\nhalt\n";
    let (mut graph, mut machine) = ([9; GRAPH_WORDS + 1], [9; MACHINE_WORDS + 1]);
    assert_eq!(read(text, &mut graph), ReadFields { number: 0, line: 0 });
    assert_eq!(synthesise(&graph, &mut machine), 0);
    assert_eq!(run_graph(&graph, &mut [5; 16], 1, 1), refused(12));
    assert_eq!(run_machine(&machine, &mut [5; 16], 1, 1), with_blocks(refused(12), 0));
    let (mut by_graph, mut by_machine) = ([5; 17], [5; 17]);
    for (budget, words, answer) in [
        (0, &[8][..], fields(0, 0, 0, 0)),
        (1, &[], fields(0, 2, 0, 0)),
        (1, &[8], fields(0, 1, 1, 255)),
    ] {
        assert_eq!(run_graph_with_words(&graph, &mut by_graph, 0, budget, words, &[0, 0]), answer);
        let by_words = run_machine_with_words(&machine, &mut by_machine, 0, budget, words);
        assert_eq!(by_words, with_blocks_of_words(answer));
        assert_eq!(by_graph, by_machine);
        let first = if answer.outcome == 1 { 8 } else { 5 };
        assert_eq!((by_graph[0], &by_graph[1..]), (first, &[5; 16][..]));
    }
}

#[test]
fn refusals_of_runs_with_words() {
    let (mut graph, mut machine) = ([0; GRAPH_WORDS], [0; MACHINE_WORDS]);
    assert_eq!(read(TEXT, &mut graph), ReadFields { number: 0, line: 0 });
    assert_eq!(synthesise(&graph, &mut machine), 0);
    let mut registers = [5; 16];
    let mut refused = |graph: &[u32], length: usize, start: u32, starters: &[u32]| {
        run_graph_with_words(graph, &mut registers[..length], start, 1, &[1], starters)
    };
    assert_eq!(refused(&graph[1..], 16, 0, &[0]), fields(7, 0, 0, 0));
    assert_eq!(refused(&graph, 15, 1, &[]), fields(7, 0, 0, 0));
    assert_eq!(refused(&[0; GRAPH_WORDS], 16, 1, &[]), fields(6, 0, 0, 0));
    assert_eq!(refused(&graph, 16, 1, &[]), fields(9, 0, 0, 0));
    assert_eq!(refused(&graph, 16, 0, &[]), fields(11, 0, 0, 0));
    assert_eq!(refused(&graph, 16, 0, &[0, 1]), fields(11, 0, 0, 0));
    let mut refused = |machine: &[u32], length: usize| {
        run_machine_with_words(machine, &mut registers[..length], 1, 1, &[1])
    };
    assert_eq!(refused(&machine[1..], 16), with_blocks_of_words(fields(7, 0, 0, 0)));
    assert_eq!(refused(&machine, 15), with_blocks_of_words(fields(7, 0, 0, 0)));
    assert_eq!(refused(&[0; MACHINE_WORDS], 16), with_blocks_of_words(fields(10, 0, 0, 0)));
    assert_eq!(refused(&machine, 16), with_blocks_of_words(fields(9, 0, 0, 0)));
    assert_eq!(registers, [5; 16]);
}
