//! Instructions and comparisons in readable form.

use gutkavu::{Code, Instruction};

/// The sign between two operands; `u` is for unsigned.
fn sign(code: Code) -> &'static str {
    match code {
        Code::Add => "+",
        Code::Sub => "-",
        Code::And => "&",
        Code::Or => "|",
        Code::Xor => "^",
        Code::Shl => "<<",
        Code::Shr => ">>u",
        Code::Sar => ">>",
        Code::Eq => "==",
        Code::Ne => "!=",
        Code::Lt => "<",
        Code::Ge => ">=",
        Code::Ltu => "<u",
        Code::Geu => ">=u",
        other => other.name(),
    }
}

/// A comparison of two registers.
pub fn comparison(code: Code, a: u32, b: u32) -> String {
    format!("r{a} {} r{b}", sign(code))
}

/// What an instruction writes, and where.
pub fn instruction(instruction: Instruction) -> String {
    let Instruction { code, d, a, b } = instruction;
    let value = match code {
        Code::Set => (a as i32).to_string(),
        Code::Copy => format!("r{a}"),
        Code::In => String::from("in"),
        Code::Sx => format!("sx r{a}"),
        _ => format!("r{a} {} r{b}", sign(code)),
    };
    format!("r{d} := {value}")
}
