//! Wrong readings of the codes, the flag, the halt and the blocks: generated graphs tell each apart.

use super::design::design;
use super::icarus::ICARUS;
use super::judge::{judge, Sides};
use super::Subject;
use gutkavu::operations;
use reference::machine::Machine;
use reference::machine_table::{decode, STARTERS_AT};
use std::collections::BTreeSet;

/// What a line must hold, and the line instead.
type Wrong = (&'static str, fn(&str) -> String);

/// Another amount: the text behind the operator within a call or a cast.
fn by(line: &str, operator: &str, cast: &str) -> String {
    line.replace(operator, &format!("{operator}{cast}(")).replace(';', ");")
}

/// The value of a wire by itself.
fn value(line: &str) -> (&str, &str) {
    let (wire, value) = line.split_once(" = ").expect("an assignment");
    (wire, value.trim_end_matches(';'))
}

/// What stands on both sides of an operator.
fn operands<'a>(line: &'a str, operator: &str) -> (&'a str, &'a str, &'a str) {
    let (wire, value) = value(line);
    let (a, b) = value.split_once(operator).expect("the operator");
    (wire, a, b)
}

fn unsigned(line: &str) -> String {
    line.replace("$signed", "")
}

fn signed(line: &str, operator: &str) -> String {
    let (wire, a, b) = operands(line, operator);
    format!("{wire} = $signed({a}){operator}$signed({b});")
}

/// The shift where the amount is below a limit, else a word.
fn below(line: &str, operator: &str, limit: &str, otherwise: &str) -> String {
    let (wire, a, b) = operands(line, operator);
    format!("{wire} = {b} < {limit} ? {a}{operator}{b} : {otherwise};")
}

const SHL: &str = " << ";
const SHR: &str = " >> ";
const SAR: &str = " >>> ";

const SHIFTS: [Wrong; 25] = [
    (SHL, |line| by(line, SHL, "5'")),
    (SHR, |line| by(line, SHR, "5'")),
    (SAR, |line| by(line, SAR, "5'")),
    (SHL, |line| by(line, SHL, "6'")),
    (SHR, |line| by(line, SHR, "6'")),
    (SAR, |line| by(line, SAR, "6'")),
    (SHL, |line| by(line, SHL, "8'")),
    (SHR, |line| by(line, SHR, "8'")),
    (SAR, |line| by(line, SAR, "8'")),
    (SHL, |line| by(line, SHL, "31'")),
    (SHR, |line| by(line, SHR, "31'")),
    (SAR, |line| by(line, SAR, "31'")),
    (SHL, |line| below(line, SHL, "32'd32", "32'hffffffff")),
    (SHR, |line| below(line, SHR, "32'd32", "32'hffffffff")),
    (SAR, |line| below(line, SAR, "32'd32", "32'd0")),
    (SAR, |line| below(line, SAR, "32'd32", "32'hffffffff")),
    (SHL, |line| below(line, SHL, "32'd31", "32'd0")),
    (SHR, |line| below(line, SHR, "32'd31", "32'd0")),
    (SHL, |line| below(line, SHL, "32'd33", "32'd1")),
    (SHR, |line| below(line, SHR, "32'd33", "32'd1")),
    (SAR, |line| below(line, SAR, "32'd33", "32'd1")),
    (SAR, unsigned),
    (SHR, |line| signed(line, SHR).replace(SHR, SAR)),
    (SHL, |line| line.replace(SHL, SHR)),
    (SHR, |line| line.replace(SHR, SHL)),
];

const OTHERS: [Wrong; 21] = [
    (") < $signed(", unsigned),
    (") >= $signed(", unsigned),
    (" == ", |line| line.replace(" == ", " != ")),
    ("16'(", unsigned),
    ("16'(", |line| line.replace("16'", "17'")),
    (" & ~", |line| line.replace(" & ~", " && !")),
    (" & ~", |line| line.replace(" & ~", " & ")),
    (" ^ ", |line| line.replace(" ^ ", " | ")),
    (" ? ", |line| line.replace(" != 32'd0", "  & 32'd1")),
    (" ? ", |line| line.replace(" != 32'd0", " == 32'd1")),
    (" ? ", |line| line.replace(" != 32'd0", " == 32'd0")),
    (" = sampled;", |line| line.replace("sampled", "word")),
    (" - ", |line| line.replace(" - ", " + ")),
    ("  e", unsigned),
    ("over = over", |line| line.replace("over | ", "")),
    ("over = over", |line| line.replace(" < LEAST", " <= LEAST")),
    ("over = over", |line| line.replace(" > MOST", " >= MOST")),
    ("over = over", |line| line.replace(" != 32'd0", " == 32'd1")),
    ("over = over", |line| line.replace(" & (", " | (32'd0 & ").replace(" != ", " + ")),
    ("flag <= flag", |line| line.replace("flag | ", "")),
    ("halted <= !", |line| line.replace("32'd", "32'd1 + 32'd")),
];

const BLOCKS: [Wrong; 14] = [
    ("ran = ran + ", |line| line.replace(" != 32'd0", " == 32'd1")),
    ("ran = ran + ", |line| line.replace(" != 32'd0", " == 32'd0")),
    ("ran = ran + ", |line| line.replace(" != 32'd0", " & 32'd1")),
    ("ran = ran + ", |line| line.replace(" != 32'd0", "")),
    ("ran = ran + ", |line| {
        line.replace("(w", "($signed(w").replace(" != ", ") > $signed(").replace("0);", "0));")
    }),
    ("ran = ran + ", |line| line.replace("ran = ran + ", "ran = ")),
    ("ran = ran + ", |line| line.replace("ran = ran + ", "ran = ran | ")),
    ("ran = ran + ", |line| line.replace("ran + 64'", "ran + 64'd1; //")),
    ("blocks <= blocks", |line| line.replace("blocks + ran", "ran")),
    ("blocks <= blocks", |line| line.replace("blocks + ran", "64'(5'(blocks + ran))")),
    ("blocks <= blocks", |line| line.replace("ran", "64'd1")),
    ("blocks <= blocks", |line| line.replace("ran", "(ran > 64'd0 ? ran : 64'd1)")),
    ("blocks <= blocks", |line| line.replace("ran", "(next_state < 32'd64 ? ran : 64'd0)")),
    ("flag, blocks, sampled} <= {", |line| line.replace("64'd0", "64'd1")),
];

/// Other arrivals than a machine's own. Starters are those of its table.
type WrongArrivals = fn(&mut Machine, &[usize]);

const ARRIVALS: [(&str, WrongArrivals); 6] = [
    ("a starter is not counted", |machine, starters| {
        for (state, starter) in machine.states.iter_mut().zip(starters) {
            state.arrivals.remove(starter);
        }
    }),
    ("starters alone are counted", |machine, starters| {
        for (state, starter) in machine.states.iter_mut().zip(starters) {
            state.arrivals.retain(|block, _| block == starter);
        }
    }),
    ("another state's blocks", |machine, _| {
        let mut arrivals: Vec<_> = machine.states.iter().map(|one| one.arrivals.clone()).collect();
        arrivals.rotate_left(1);
        for (state, mut others) in machine.states.iter_mut().zip(arrivals) {
            others.retain(|_, &mut wire| wire < state.wires.len());
            state.arrivals = others;
        }
    }),
    ("a reference is counted once", |machine, _| {
        for state in &mut machine.states {
            let mut seen = BTreeSet::new();
            state.arrivals.retain(|_, &mut wire| seen.insert(wire));
        }
    }),
    ("the wire behind", |machine, _| {
        for state in &mut machine.states {
            let last = state.wires.len() - usize::from(!state.wires.is_empty());
            state.arrivals.values_mut().for_each(|wire| *wire = (*wire + 1).min(last));
        }
    }),
    ("block 0 is not counted", |machine, _| {
        machine.states.iter_mut().for_each(|state| state.arrivals.retain(|&block, _| block > 0));
    }),
];

/// The design of the machine with other arrivals, and the same bench.
fn with_arrivals(subject: &Subject, source: &str, wrong: WrongArrivals) -> Option<String> {
    let (_, bench) = source.split_once("module bench;").expect("a bench");
    let mut machine = decode(&subject.table).expect("a machine");
    let starters = &subject.table[STARTERS_AT..][..machine.states.len()];
    let starters: Vec<usize> = starters.iter().map(|&block| block as usize).collect();
    let right = machine.clone();
    wrong(&mut machine, &starters);
    (machine != right).then(|| design(&machine) + "module bench;" + bench)
}

/// The source with each such line changed; None where there is none.
fn changed(source: &str, (held, instead): Wrong) -> Option<String> {
    let (design, bench) = source.split_once("module bench;").expect("a bench");
    let change = |line: &str| match line.contains(held) {
        true => instead(line),
        false => String::from(line),
    };
    let lines: Vec<String> = design.lines().map(change).collect();
    let text = lines.join("\n") + "\n";
    (text != design).then(|| text + "module bench;" + bench)
}

/// Graphs that tell a wrong source apart, at most so many of them; None is a source as it was.
fn telling(
    subjects: &[Subject],
    name: &str,
    wrong: impl Fn(&Subject, &str) -> Option<String> + Sync,
    enough: usize,
) -> usize {
    let differs = |subject: &&Subject| {
        let simulator = |source: &str| match wrong(subject, source) {
            Some(changed) => ICARUS.simulate(&changed),
            None => Err(String::from("the same")),
        };
        let sides = Sides { library: &operations::run_machine_with_words, simulator: &simulator };
        match judge(&subject.table, &subject.starts, &sides) {
            Ok(judged) => !judged.differences.is_empty(),
            Err(error) => {
                assert_eq!(error, "the same", "{name}");
                false
            }
        }
    };
    subjects.iter().filter(differs).take(enough).count()
}

/// Machines that are not large, so that it is quick.
fn subjects() -> Vec<Subject> {
    let drawn = (0..600).map(|index| Subject::at(7, index).expect("a graph"));
    drawn.filter(|subject| subject.codes().len() < 150).collect()
}

fn each_is_told_apart(wrong: &[Wrong]) {
    let subjects = subjects();
    for (number, &one) in wrong.iter().enumerate() {
        let found = telling(&subjects, one.0, |_, source| changed(source, one), 3);
        assert_eq!(found, 3, "wrong reading {number}, {}", one.0);
    }
}

#[test]
fn each_wrong_shift_is_told_apart() {
    each_is_told_apart(&SHIFTS);
}

#[test]
fn each_wrong_count_of_blocks_is_told_apart() {
    each_is_told_apart(&BLOCKS);
}

#[test]
fn each_wrong_choice_of_arrivals_is_told_apart() {
    let subjects = subjects();
    for (name, wrong) in ARRIVALS {
        let wrong = |subject: &Subject, source: &str| with_arrivals(subject, source, wrong);
        assert_eq!(telling(&subjects, name, wrong, 3), 3, "{name}");
    }
}

#[test]
fn each_other_wrong_reading_is_told_apart() {
    each_is_told_apart(&OTHERS);
}
