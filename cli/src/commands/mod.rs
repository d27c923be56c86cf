//! One file a subcommand.

pub mod bounds;
pub mod check;
pub mod compare;
pub mod draw;
pub mod format;
pub mod list;
pub mod run;
pub mod states;
pub mod touches;
pub mod wires;
