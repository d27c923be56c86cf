//! The second program: graph text, synthesis, two interpreters, a listing, captures compared, which
//! states touch a register, and what a cycle makes of registers within bounds.

pub mod answer;
pub mod block_set;
pub mod bounds;
pub mod capture;
pub mod case;
pub mod faults;
pub mod fit;
pub mod generate;
pub mod graph;
pub mod graph_table;
pub mod grouping;
pub mod listing;
pub mod machine;
pub mod machine_table;
pub mod meeting;
pub mod operation;
pub mod operations;
pub mod parse;
pub mod placement;
pub mod print;
pub mod random;
pub mod run;
pub mod stats;
pub mod synthesis;
