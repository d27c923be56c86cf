//! The worked examples as texts and as cases.

use crate::case::Case;

pub const P7: &str = "graph,6,2\nblock,0\ngoto,1\nblock,1\nite,ne,0,1,2,5\nblock,2\n\
ite,ltu,0,1,3,4\nblock,3\nsub,1,1,0\ngoto,1\nblock,4\nsub,0,0,1\ngoto,1\nblock,5\nhalt\n";

pub const P9: &str = "graph,5,2\nblock,0\nite,eq,0,1,1,2\nblock,1\nite,lt,0,1,1,3\nblock,2\n\
ite,ltu,0,1,3,4\nblock,3\ngoto,4\nblock,4\nhalt\n";

pub const P10: &str = "graph,4,2\nblock,0\nite,eq,0,1,1,2\nblock,1\nite,ltu,0,1,2,3\nblock,2\n\
goto,1\nblock,3\nhalt\n";

pub const P11: &str = "graph,1,1\nblock,0\ngoto,0\n";

pub const P12: &str = "graph,3,1\nblock,0\ngoto,1\nblock,1\nhalt\nblock,2\ngoto,1\n";

/// The seven-block graph of the published procedure's illustration.
pub const SEVEN: &str = "graph,7,2\nblock,0\ngoto,1\nblock,1\nite,eq,0,1,2,5\nblock,2\ngoto,3\n\
block,3\ngoto,4\nblock,4\nite,ltu,0,1,3,5\nblock,5\ngoto,6\nblock,6\ngoto,1\n";

/// One block that applies an instruction to the registers and halts.
pub fn one_instruction(line: &str) -> String {
    format!("graph,1,16\nblock,0\n{line}\nhalt\n")
}

/// One block that compares r0 and r1 and sets r2 to 1 or 0.
pub fn one_comparison(name: &str) -> String {
    format!(
        "graph,3,3\nblock,0\nite,{name},0,1,1,2\nblock,1\nset,2,1\nhalt\nblock,2\nset,2,0\nhalt\n"
    )
}

/// A case whose first registers hold the given words.
fn on_registers(text: &str, words: &[u32], budget: u32) -> Case {
    let mut case = Case::plain(text.as_bytes());
    case.registers[..words.len()].copy_from_slice(words);
    (case.block_budget, case.cycle_budget) = (budget, budget);
    case
}

fn refused_texts() -> Vec<Case> {
    let goto = |t: usize| format!("graph,2,1\nblock,0\ngoto,{t}\nblock,1\nhalt\n");
    let nine = format!("graph,1,1\nblock,0\n{}halt\n", "set,0,1\n".repeat(9));
    let texts = [
        String::new(),
        String::from("graph,65,1\n"),
        String::from("graph,64,1\n"),
        goto(2),
        goto(1),
        nine,
    ];
    texts.iter().map(|text| Case::plain(text.as_bytes())).collect()
}

/// The examples P1 to P13 and those that are only run.
pub fn cases() -> Vec<Case> {
    let mut cases = refused_texts();
    for word in [32_767, 32_768] {
        cases.push(on_registers(&one_instruction("sx,1,0"), &[word], 5));
    }
    for name in ["lt", "ltu"] {
        cases.push(on_registers(&one_comparison(name), &[4_294_967_096, 0], 5));
    }
    cases.push(on_registers(&one_instruction("sub,0,0,1"), &[0, 1], 5));
    for budget in [0, 1, 3, 4, 8, 9, u32::MAX] {
        cases.push(on_registers(P7, &[12, 18], budget));
    }
    cases.push(on_registers(P7, &[0, 5], 1_000));
    for text in [P9, P10, P11, P12, SEVEN] {
        cases.push(on_registers(text, &[3, 5], 12));
    }
    cases
}
