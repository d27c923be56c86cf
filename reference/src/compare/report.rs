//! A difference printed with its case in full.

use super::check::Compared;
use reference::case::{Captures, Case, Patch};
use reference::operation::{Fields, Operation};

fn fields(operation: Operation, fields: Fields) -> String {
    let named = operation.fields().iter().zip(fields);
    let printed: Vec<String> = named.map(|(name, field)| format!("{name} {field}")).collect();
    printed.join(", ")
}

fn difference(compared: &Compared) -> String {
    let Compared { operation, expected, found, differing } = compared;
    let place = match differing {
        Some(differing) => differing.to_string(),
        None => String::from("none"),
    };
    format!(
        "  {} differs\n    second program: {}\n    library: {}\n    \
         first differing place: {place}\n",
        operation.name(),
        fields(*operation, *expected),
        fields(*operation, *found),
    )
}

fn patches(patches: &[Patch]) -> String {
    let printed: Vec<String> =
        patches.iter().map(|(index, word)| format!("{word} at {index}")).collect();
    printed.join(", ")
}

fn captures(captures: &Captures) -> String {
    let Captures { registers, first, second } = captures;
    let recording = |name: &str, text: &[u8]| {
        format!("  {name} recording of {} bytes: \"{}\"\n", text.len(), text.escape_ascii())
    };
    let (first, second) = (recording("first", first), recording("second", second));
    format!("  recordings of {registers} registers\n{first}{second}")
}

fn in_full(case: &Case) -> String {
    format!(
        "  text of {} bytes: \"{}\"\n  graph buffer: {} words; patches: [{}]\n  \
         output buffer: {} bytes\n  machine buffer: {} words; patches: [{}]\n  \
         register buffer: {} words: {:?}\n  \
         start block {}, block budget {}, start state {}, cycle budget {}\n  \
         {} words: {:?}\n  {} starters: {:?}\n{}  asked about state {}, register {}\n  \
         lowest: {} words: {:?}\n  highest: {} words: {:?}\n",
        case.text.len(),
        case.text.escape_ascii(),
        case.graph_length,
        patches(&case.graph_patches),
        case.output_length,
        case.machine_length,
        patches(&case.machine_patches),
        case.registers.len(),
        case.registers,
        case.start_block,
        case.block_budget,
        case.start_state,
        case.cycle_budget,
        case.words.len(),
        case.words,
        case.starters.len(),
        case.starters,
        captures(&case.captures),
        case.asked.state,
        case.asked.register,
        case.bounds.lowest.len(),
        case.bounds.lowest,
        case.bounds.highest.len(),
        case.bounds.highest,
    )
}

pub fn report(seed: u64, index: usize, case: &Case, compared: &[Compared]) -> String {
    let differing = compared.iter().filter(|one| !one.same());
    let differences: String = differing.map(difference).collect();
    format!("difference: seed {seed}, case {index}\n{differences}{}", in_full(case))
}
