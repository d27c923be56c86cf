//! What an instruction or a wire gives.

/// The value of a code over the words that its operands name, and whether a sum or difference left
/// the signed range. A set's operand is its literal. An operand that the code does not read is not
/// looked at, nor is c of a sum. `input` is the arrival's word.
#[inline(always)]
pub fn value(words: &[u32], code: u32, [a, b, c]: [u32; 3], input: u32) -> (u32, bool) {
    let at = |reference: u32| words[reference as usize];
    let value = match code {
        1 => a,
        2 => at(a),
        3 => {
            let (sum, over) = (at(a) as i32).overflowing_add(at(b) as i32);
            return (sum as u32, over);
        }
        4 => {
            let (difference, over) = (at(a) as i32).overflowing_sub(at(b) as i32);
            return (difference as u32, over);
        }
        5 => at(a) & at(b),
        6 => at(a) | at(b),
        7 => at(a) ^ at(b),
        8 => at(a).unbounded_shl(at(b)),
        9 => at(a).unbounded_shr(at(b)),
        10 => (at(a) as i32).unbounded_shr(at(b)) as u32,
        11 => at(a) as i16 as u32,
        12..=17 => u32::from(compare(code, at(a), at(b))),
        18 => at(a) & !at(b),
        19 => at(if at(a) != 0 { b } else { c }),
        _ => input,
    };
    (value, false)
}

#[inline(always)]
pub fn compare(code: u32, x: u32, y: u32) -> bool {
    match code {
        12 => x == y,
        13 => x != y,
        14 => (x as i32) < y as i32,
        15 => x as i32 >= y as i32,
        16 => x < y,
        _ => x >= y,
    }
}
