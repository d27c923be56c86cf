//! A graph as text.

use crate::graph::{Ending, Graph, Instruction};

fn instruction_line(instruction: Instruction) -> String {
    match instruction {
        Instruction::Set { d, literal } => format!("set,{d},{literal}\n"),
        Instruction::In { d } => format!("in,{d}\n"),
        Instruction::Copy { d, a } => format!("copy,{d},{a}\n"),
        Instruction::SignExtend { d, a } => format!("sx,{d},{a}\n"),
        Instruction::Binary { op, d, a, b } => format!("{},{d},{a},{b}\n", op.name()),
    }
}

fn ending_line(ending: Ending) -> String {
    match ending {
        Ending::Goto(t) => format!("goto,{t}\n"),
        Ending::Ite { comparison, a, b, t, f } => {
            format!("ite,{},{a},{b},{t},{f}\n", comparison.name())
        }
        Ending::Halt => String::from("halt\n"),
    }
}

pub fn print(graph: &Graph) -> String {
    let mut text = format!("graph,{},{}\n", graph.blocks.len(), graph.registers);
    for (n, block) in graph.blocks.iter().enumerate() {
        text.push_str(&format!("block,{n}\n"));
        text.extend(block.instructions.iter().map(|&next| instruction_line(next)));
        text.push_str(&ending_line(block.ending));
    }
    text
}
