//! Shapes of graphs: for each block its successors, none, one or two.

use crate::random::Random;

pub type Shape = Vec<Vec<usize>>;

/// Any edges at all; most such graphs have loops with several entries.
pub fn dense(random: &mut Random, n: usize) -> Shape {
    let mut block = |_| match random.below(10) {
        0 => Vec::new(),
        1..=3 => vec![random.below(n)],
        _ => vec![random.below(n), random.below(n)],
    };
    (0..n).map(&mut block).collect()
}

/// Each block goes to the next, and the last halts.
pub fn chain(_: &mut Random, n: usize) -> Shape {
    (0..n).map(|i| if i + 1 < n { vec![i + 1] } else { Vec::new() }).collect()
}

/// Puts two successors in either order.
fn either(random: &mut Random, x: usize, y: usize) -> Vec<usize> {
    if random.percent(50) {
        vec![x, y]
    } else {
        vec![y, x]
    }
}

/// A chain with edges back; the intervals they close lie in each other or apart.
pub fn loops(random: &mut Random, n: usize) -> Shape {
    let mut shape = chain(random, n);
    let (mut low, mut high) = (0, n - 1);
    while low < high {
        let tail = random.between(low, high - 1);
        let head = random.between(low, tail);
        shape[tail] = either(random, head, tail + 1);
        if random.percent(60) {
            (low, high) = (head, tail);
        } else {
            low = tail + 1;
        }
    }
    shape
}

/// Loops with more edges forward, some of which enter a loop in its middle.
pub fn irreducible(random: &mut Random, n: usize) -> Shape {
    let mut shape = loops(random, n);
    for (i, successors) in shape.iter_mut().enumerate().take(n.saturating_sub(2)) {
        if successors.len() == 1 && random.percent(50) {
            let ahead = random.between(i + 2, n - 1);
            *successors = either(random, i + 1, ahead);
        }
    }
    if n > 3 {
        let (tail, head) = (random.between(2, n - 2), random.between(1, n - 2));
        shape[tail] = either(random, head, tail + 1);
    }
    shape
}

/// A chain where some blocks may also go to themselves.
pub fn self_loops(random: &mut Random, n: usize) -> Shape {
    let mut shape = chain(random, n);
    for (i, successors) in shape.iter_mut().enumerate() {
        if random.percent(50) {
            *successors = if i + 1 < n { either(random, i, i + 1) } else { vec![i] };
        }
    }
    shape
}

/// Forward edges, many with both targets equal.
pub fn equal_targets(random: &mut Random, n: usize) -> Shape {
    let mut shape = chain(random, n);
    for (i, successors) in shape.iter_mut().enumerate() {
        if i + 1 < n && random.percent(70) {
            let target = random.between(i + 1, n - 1);
            *successors = vec![target, target];
        }
    }
    if n > 2 && random.percent(50) {
        let tail = random.between(1, n - 1);
        let head = random.below(tail + 1);
        shape[tail] = vec![head, head];
    }
    shape
}

/// Forward edges only, so one state may hold many joins.
pub fn joins(random: &mut Random, n: usize) -> Shape {
    let reach = random.between(2, 6);
    let mut block = |i: usize| {
        if i + 1 >= n {
            return Vec::new();
        }
        let last = (i + reach).min(n - 1);
        let (x, y) = (random.between(i + 1, last), random.between(i + 1, last));
        match random.below(8) {
            0 => vec![x],
            1 if i > n / 2 => Vec::new(),
            _ => vec![x, y],
        }
    };
    (0..n).map(&mut block).collect()
}

/// Diamonds below one another, all within a loop back to block 0 or 1.
pub fn diamonds(random: &mut Random, n: usize) -> Shape {
    let mut shape = chain(random, n);
    for top in (0..n).step_by(3) {
        if top + 3 < n {
            shape[top] = either(random, top + 1, top + 2);
            shape[top + 1] = vec![top + 3];
            shape[top + 2] = vec![top + 3];
        }
    }
    if n > 4 && random.percent(60) {
        let head = random.below(2);
        shape[n - 2] = either(random, head, n - 1);
    }
    shape
}

/// Adds blocks that nothing reaches but that have edges into the others.
pub fn with_unreachable(random: &mut Random, mut shape: Shape, extra: usize) -> Shape {
    let n = shape.len() + extra;
    for _ in 0..extra {
        let successors = match random.below(6) {
            0 => Vec::new(),
            1 | 2 => vec![random.below(n)],
            _ => vec![random.below(n), random.below(n)],
        };
        // An edge among the new blocks is fine: none of them is entered.
        shape.push(successors);
    }
    shape
}

/// Gives every block but the entry another number.
pub fn renumber(random: &mut Random, shape: &Shape) -> Shape {
    let n = shape.len();
    let mut number: Vec<usize> = (0..n).collect();
    for i in (2..n).rev() {
        number.swap(i, random.between(1, i));
    }
    let mut moved = vec![Vec::new(); n];
    for (i, successors) in shape.iter().enumerate() {
        moved[number[i]] = successors.iter().map(|&target| number[target]).collect();
    }
    moved
}
