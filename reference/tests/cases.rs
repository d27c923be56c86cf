//! The case stream: its form, its size, and what its cases hit.

mod common;

use reference::answer::{answer, digest, Answer};
use reference::case::{read_cases, Asked, Bounds, Captures, Case};
use reference::generate::examples::P7;
use reference::generate::sum_cases::one;
use reference::generate::touch_cases::FOUR;
use reference::generate::{cases, fixed};
use reference::grouping::group;
use reference::machine_table::WIRES_AT;
use reference::operation::Operation;
use reference::operations::WordsRunAnswer;
use reference::parse::parse;
use reference::stats::{Counted, Stats};
use std::collections::BTreeSet;
use std::sync::OnceLock;

/// The cases that are stored, with their answers; several tests look at them.
fn stored() -> &'static [(Case, Answer)] {
    static STORED: OnceLock<Vec<(Case, Answer)>> = OnceLock::new();
    let with_answer = |case: Case| {
        let answer = answer(&case);
        (case, answer)
    };
    STORED.get_or_init(|| common::stored_cases().into_iter().map(with_answer).collect())
}

#[test]
fn streams_read_back() {
    let made = cases(5, 300);
    let mut stream = Vec::new();
    made.iter().for_each(|case| case.append_to(&mut stream));
    assert_eq!(read_cases(&stream), Ok(made));
    stream.pop();
    assert_eq!(read_cases(&stream), Err(299));
}

#[test]
fn the_same_seed_makes_the_same_cases() {
    assert_eq!(cases(6, 60), cases(6, 60));
    assert_ne!(cases(6, 60), cases(7, 60));
}

#[test]
fn every_refusal_is_hit() {
    let stats = Stats::of(&common::stored_cases());
    let expected: [(Counted, &[u32]); 11] = [
        (Counted::Read, &[0, 1, 2, 3, 4, 5, 7]),
        (Counted::Write, &[0, 6, 7, 8]),
        (Counted::Synthesise, &[0, 6, 7]),
        (Counted::RunGraph, &[0, 6, 7, 9, 12]),
        (Counted::RunMachine, &[0, 7, 9, 10, 12]),
        (Counted::RunGraphWithWords, &[0, 6, 7, 9, 11]),
        (Counted::RunMachineWithWords, &[0, 7, 9, 10]),
        (Counted::CompareCaptures, &[0, 17, 18]),
        (Counted::Touches, &[0, 7, 9, 10]),
        (Counted::FirstTouching, &[0, 7, 10]),
        (Counted::Bounds, &[0, 7, 9, 10, 13]),
    ];
    for (counted, numbers) in expected {
        for number in 0..20 {
            let hits = stats.get(counted, number);
            assert_eq!(hits > 4, numbers.contains(&number), "{counted:?} {number}: {hits}");
        }
    }
}

#[test]
fn what_matters_most_is_hit_often() {
    let stats = Stats::of(&common::stored_cases());
    let many = [
        (Counted::RunGraph, 0, 1_000),
        (Counted::RunMachine, 0, 1_000),
        (Counted::RunOfPatched, 0, 100),
        (Counted::RunOfPatched, 10, 100),
        (Counted::RunOfPatched, 12, 50),
        (Counted::WordsRunOfPatched, 0, 100),
        (Counted::TouchesOfPatched, 0, 400),
        (Counted::TouchesOfPatched, 9, 100),
        (Counted::TouchesOfPatched, 10, 400),
        (Counted::Bounds, 0, 1_800),
        (Counted::Bounds, 13, 200),
        (Counted::BoundsOfPatched, 0, 800),
        (Counted::BoundsOfPatched, 13, 80),
        (Counted::Touched, 0, 600),
        (Counted::Touched, 1, 600),
        (Counted::StateFound, 0, 600),
        (Counted::StateFound, 1, 600),
        (Counted::WriteOfPatched, 0, 30),
        (Counted::WriteOfPatched, 6, 100),
        (Counted::CompareCaptures, 0, 2_500),
        (Counted::CompareCaptures, 17, 500),
        (Counted::CompareCaptures, 18, 200),
    ];
    for (counted, number, least) in many {
        assert!(stats.get(counted, number) > least, "{counted:?} {number}");
    }
    for counted in [Counted::GraphOutcome, Counted::MachineOutcome, Counted::CaptureOutcome] {
        for outcome in 0..3 {
            assert!(stats.get(counted, outcome) > 400, "{counted:?} {outcome}");
        }
    }
}

/// Each run ends in each way with the flag clear and raised.
#[test]
fn every_flag_is_hit() {
    let stats = Stats::of(&common::stored_cases());
    for run in Operation::ALL {
        for (end, flag) in run.flags() {
            let hits = stats.flags(run, end as u32, flag == 1);
            let least = if flag == 0 { 400 } else { 35 };
            assert!(hits >= least, "{run:?} {end} {flag}: {hits}");
        }
    }
}

/// Runs with words go dry after none, one and many blocks or cycles.
#[test]
fn runs_go_dry_at_many_counts() {
    let (mut graph, mut machine) = (BTreeSet::new(), BTreeSet::new());
    for (_, answer) in stored() {
        let dry = |ran: WordsRunAnswer| (ran.outcome == 2).then_some(ran.count);
        graph.extend(dry(answer.run_graph_with_words.answer));
        machine.extend(dry(answer.run_machine_with_words.answer.run));
    }
    for counts in [graph, machine] {
        assert!((0..8).all(|count| counts.contains(&count)), "{counts:?}");
        assert!(counts.len() > 40 && counts.contains(&64), "{counts:?}");
    }
}

/// Where both runs of a case begin at one starter on the machine's starters and both go dry, they
/// do so with equal registers, flags and numbers of blocks, as tables without patches must.
#[test]
fn many_cases_go_dry_together() {
    let mut together = 0;
    for (case, answer) in stored() {
        let Ok(graph) = parse(&case.text) else {
            continue;
        };
        let starters = group(&graph).starters;
        let list: BTreeSet<usize> = case.starters.iter().map(|&block| block as usize).collect();
        let paired = starters.get(case.start_state as usize) == Some(&(case.start_block as usize));
        let patched = !case.graph_patches.is_empty() || !case.machine_patches.is_empty();
        let (graph, machine) = (answer.run_graph_with_words, answer.run_machine_with_words);
        let ran = machine.answer.run;
        let dry = graph.answer.outcome == 2 && ran.outcome == 2;
        if paired && dry && !patched && list == starters.iter().copied().collect() {
            assert_eq!(graph.registers, machine.registers);
            assert_eq!(graph.answer.flag, ran.flag);
            assert_eq!(u64::from(graph.answer.count), machine.answer.blocks);
            assert_eq!(graph.answer.next as usize, starters[ran.next as usize]);
            together += 1;
        }
    }
    assert!(together > 100, "{together}");
}

/// Each fourth case is a fixed one, so that all of them are stored.
#[test]
fn all_fixed_cases_are_stored() {
    let fixed = fixed::cases();
    assert!(4 * fixed.len() <= stored().len(), "{} of {}", fixed.len(), stored().len());
    assert!(fixed.iter().zip(stored().iter().step_by(4)).all(|(one, (stored, _))| one == stored));
}

#[test]
fn stored_cases_stay_small() {
    let mut stream = Vec::new();
    stored().iter().for_each(|(case, _)| case.append_to(&mut stream));
    assert!(stream.len() < 7_500_000, "{}", stream.len());
}

#[test]
fn digests() {
    assert_eq!(digest::<u32>(&[]), 0);
    assert_eq!(digest(&[5u32]), 1_000_008);
    assert_eq!(digest(&[5u8, 1]), (2 * 1_000_003u64 + 5) * 1_000_003 % 4_294_967_291 + 1);
}

#[test]
fn answer_lines_have_forty_nine_fields() {
    for case in cases(8, 40) {
        assert_eq!(answer(&case).line().split(',').count(), 49);
    }
}

/// Behind the listing's two fields come the six of the captures.
#[test]
fn captures_in_the_line() {
    let mut case = Case::plain(b"");
    let end = |case: &Case| {
        let line = answer(case).line();
        let fields: Vec<&str> = line.split(',').collect();
        fields[34..42].join(",")
    };
    let listed = format!("12,{}", digest(b"refused,3,1\n"));
    assert_eq!(end(&case), format!("{listed},0,0,0,0,0,0"));
    let recorded = |first: &[u8], second: &[u8]| Captures {
        registers: 1,
        first: first.to_vec(),
        second: second.to_vec(),
    };
    case.captures = recorded(b"1,0,5\n7,0,5\n", b"1,0,5\n7,0,6\n");
    assert_eq!(end(&case), format!("{listed},0,0,0,2,1,7"));
    case.captures = recorded(b"1,0,5\n", b"1,0,5\n1,0,5\n");
    assert_eq!(end(&case), format!("{listed},18,2,2,0,0,0"));
}

/// In each of the four runs the flag stands behind next; in a machine's the blocks are behind it; the
/// last is the digest of the registers.
#[test]
fn flags_in_the_line() {
    let mut case = Case::plain(one("add").as_bytes());
    case.registers[..2].copy_from_slice(&[2_147_483_647, 1]);
    case.machine_patches = vec![((WIRES_AT + 7) as u32, 3)];
    let line = answer(&case).line();
    let fields: Vec<&str> = line.split(',').collect();
    case.registers[2] = 2_147_483_648;
    let registers = digest(&case.registers).to_string();
    // Each run halts in its first block or cycle; in the machine the sum counts where r3 does.
    let of_graph = ["0", "1", "1", "255", "1", &registers];
    let of_machine = ["0", "1", "1", "255", "0", "1", &registers];
    assert_eq!(fields[8..14], of_graph);
    assert_eq!(fields[14..21], of_machine);
    assert_eq!(fields[21..27], of_graph);
    assert_eq!(fields[27..34], of_machine);
}

/// The blocks of several cycles, and of runs that are refused.
#[test]
fn blocks_in_the_line() {
    let mut case = Case::plain(P7.as_bytes());
    case.registers[..2].copy_from_slice(&[12, 18]);
    case.words.truncate(2);
    let mut blocks = |budget, patches: &[(u32, u32)]| {
        (case.cycle_budget, case.machine_patches) = (budget, patches.to_vec());
        let line = answer(&case).line();
        let fields: Vec<&str> = line.split(',').collect();
        [fields[14], fields[19], fields[27], fields[32]].join(",")
    };
    assert_eq!(blocks(0, &[]), "0,0,0,0");
    assert_eq!(blocks(1, &[]), "0,1,0,1");
    assert_eq!(blocks(9, &[]), "0,9,0,4");
    assert_eq!(blocks(9, &[(13_698, 0)]), "10,0,10,0");
}

/// Each machine's run ends in each way with fewer blocks than cycles, as many and more.
#[test]
fn every_kind_of_block_count_is_hit() {
    let stats = Stats::of(&common::stored_cases());
    for run in Operation::ALL {
        for (end, kind) in run.blocks() {
            let hits = stats.blocks(run, end, kind);
            println!("{run:?} {end} {kind}: {hits}");
            assert!(hits >= 20, "{run:?} {end} {kind}: {hits}");
        }
    }
}

/// Behind the captures are the four fields of the two questions: number and touched, number and
/// state.
#[test]
fn questions_in_the_line() {
    let mut case = Case::plain(FOUR.as_bytes());
    let mut end = |state, register, patches: &[(u32, u32)]| {
        case.asked = Asked { state, register };
        case.machine_patches = patches.to_vec();
        let line = answer(&case).line();
        let fields: Vec<&str> = line.split(',').collect();
        fields[42..46].join(",")
    };
    assert_eq!(end(0, 1, &[]), "0,0,0,2");
    assert_eq!(end(3, 1, &[]), "0,1,0,2");
    assert_eq!(end(3, 3, &[]), "0,0,0,255");
    assert_eq!(end(4, 0, &[]), "9,0,0,1");
    assert_eq!(end(4, 0, &[(1, 17)]), "10,0,10,0");
    assert_eq!(end(0, 0, &[(0, 3)]), "10,0,10,0");
    let gone: Vec<(u32, u32)> = (3..7).flat_map(|n| [(66 + n, 255), (13_698 + n, 0)]).collect();
    assert_eq!(end(0, 0, &[&[(0, 3)], &gone[..]].concat()), "0,0,0,1");
}

/// The last three fields are those of the bounds: number, digests of lowest and highest after.
#[test]
fn bounds_end_the_line() {
    let mut case = Case::plain(one("add").as_bytes());
    let mut end = |state, lowest: &[i32], highest: &[i32]| {
        let words = |list: &[i32]| list.iter().map(|&value| value as u32).collect();
        case.asked.state = state;
        case.bounds = Bounds { lowest: words(lowest), highest: words(highest) };
        let line = answer(&case).line();
        let fields: Vec<&str> = line.split(',').collect();
        fields[46..].join(",")
    };
    let line = |number: u32, lowest: &[i32], highest: &[i32]| {
        let words = |list: &[i32]| list.iter().map(|&value| value as u32).collect::<Vec<u32>>();
        format!("{number},{},{}", digest(&words(lowest)), digest(&words(highest)))
    };
    let (mut lowest, mut highest) = ([-3; 17], [4; 17]);
    assert_eq!(end(1, &lowest, &highest), line(9, &lowest, &highest));
    assert_eq!(end(0, &highest, &lowest), line(13, &highest, &lowest));
    assert_eq!(end(0, &lowest[..15], &highest), line(7, &lowest[..15], &highest));
    let bounded = end(0, &lowest, &highest);
    (lowest[2], highest[2]) = (-6, 8);
    assert_eq!(bounded, line(0, &lowest, &highest));
}

/// Behind the recordings stand the state and the register asked about, any two words, and the two
/// buffers of bounds, of at most 20 words each.
#[test]
fn questions_and_bounds_end_the_case() {
    let mut case = Case::plain(b"");
    case.asked = Asked { state: u32::MAX, register: 258 };
    case.bounds = Bounds { lowest: vec![7, 8], highest: vec![u32::MAX] };
    let mut stream = Vec::new();
    case.append_to(&mut stream);
    let end = [&[0, 0, 0, 0, 255, 255, 255, 255, 2, 1, 0, 0][..]];
    let bounds = [&[2, 0, 0, 0, 7, 0, 0, 0, 8, 0, 0, 0][..], &[1, 0, 0, 0, 255, 255, 255, 255]];
    assert!(stream.ends_with(&[end.concat(), bounds.concat()].concat()));
    assert_eq!(read_cases(&stream), Ok(vec![case.clone()]));
    for (lowest, highest, read) in [(20, 20, true), (21, 20, false), (20, 21, false)] {
        case.bounds = Bounds { lowest: vec![1; lowest], highest: vec![2; highest] };
        let mut stream = Vec::new();
        case.append_to(&mut stream);
        assert_eq!(read_cases(&stream).is_ok(), read);
    }
}

/// A machine buffer of a case has at most 13,828 words.
#[test]
fn longest_machine_buffer() {
    for (length, read) in [(13_828, true), (13_829, false)] {
        let mut case = Case::plain(b"");
        case.machine_length = length;
        let mut stream = Vec::new();
        case.append_to(&mut stream);
        assert_eq!(read_cases(&stream).is_ok(), read);
    }
}

/// Behind the lists stand R and both recordings, of at most 4,000 bytes each, before the question
/// and the bounds.
#[test]
fn recordings_in_the_case() {
    let mut case = Case::plain(b"");
    let (first, second) = (vec![7; 4_000], vec![8; 4_000]);
    case.captures = Captures { registers: u32::MAX, first, second };
    case.bounds = Bounds { lowest: Vec::new(), highest: Vec::new() };
    let mut stream = Vec::new();
    case.append_to(&mut stream);
    let end: Vec<u8> = [255; 4]
        .into_iter()
        .chain([160, 15, 0, 0])
        .chain([7; 4_000])
        .chain([160, 15, 0, 0])
        .chain([8; 4_000])
        .chain([0; 16])
        .collect();
    assert!(stream.ends_with(&end));
    assert_eq!(read_cases(&stream), Ok(vec![case.clone()]));
    for long in [0, 1] {
        let mut case = case.clone();
        [&mut case.captures.first, &mut case.captures.second][long].push(9);
        let mut stream = Vec::new();
        case.append_to(&mut stream);
        assert_eq!(read_cases(&stream), Err(0));
    }
}

/// Every name of the text appears in some text that is read.
#[test]
fn all_names_are_used() {
    let names = [
        "in,", "set,", "copy,", "add,", "sub,", "and,", "or,", "xor,", "shl,", "shr,", "sar,",
        "sx,", "ite,eq,", "ite,ne,", "ite,lt,", "ite,ge,", "ite,ltu,", "ite,geu,", "goto,",
        "halt\n", ",-2147483648\n", ",2147483647\n", "graph,64,16\n", "block,63\n", "graph,1,1\n",
    ];
    let read = stored().iter().filter(|(_, answer)| answer.read.number == 0);
    let texts: Vec<String> =
        read.map(|(case, _)| String::from_utf8_lossy(&case.text).into_owned()).collect();
    for name in names {
        assert!(texts.iter().filter(|text| text.contains(name)).count() > 2, "{name}");
    }
}

/// Budgets are such that every answer comes soon.
#[test]
fn runs_are_short() {
    for (_, answer) in stored() {
        let counts = [
            answer.run_graph.answer.count,
            answer.run_machine.answer.run.count,
            answer.run_graph_with_words.answer.count,
            answer.run_machine_with_words.answer.run.count,
        ];
        assert!(counts.iter().all(|&count| count <= 20_000), "{counts:?}");
    }
}
