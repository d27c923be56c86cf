//! `draw`: what it prints, writes and refuses.

mod common;

mod draw {
    mod pictures;
    mod trace;
}

use common::{gutkavu, Ran};

const GCD: &str = "examples/gcd.txt";

fn draw(arguments: &[&str]) -> Ran {
    gutkavu(&[&["draw"], arguments].concat())
}
