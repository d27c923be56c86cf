//! Instructions and comparisons in readable form.

/// A comparison of two registers; `u` is for unsigned.
pub fn comparison(code: u32, a: u32, b: u32) -> String {
    let sign = match code {
        12 => "==",
        13 => "!=",
        14 => "<",
        15 => ">=",
        16 => "<u",
        _ => ">=u",
    };
    format!("r{a} {sign} r{b}")
}

/// What an instruction writes, and where: code, d, a or literal, b.
pub fn instruction(words: &[u32]) -> String {
    let (d, a, b) = (words[1], words[2], words[3]);
    let sign = match words[0] {
        1 => return format!("r{d} := {}", a as i32),
        2 => return format!("r{d} := r{a}"),
        20 => return format!("r{d} := in"),
        11 => return format!("r{d} := sx r{a}"),
        3 => "+",
        4 => "-",
        5 => "&",
        6 => "|",
        7 => "^",
        8 => "<<",
        9 => ">>u",
        _ => ">>",
    };
    format!("r{d} := r{a} {sign} r{b}")
}
