//! A graph and its machine as a picture: blocks grouped by state, and a run drawn into it.

mod dot;
mod forms;
mod graphviz;
mod passes;

pub use graphviz::{image, Format};
pub use passes::Passes;

use crate::touching::Touching;
use gutkavu::{Graph, Machine};

/// What a picture shows. The machine is the one made of the graph.
#[derive(Clone, Copy)]
pub struct Picture<'a> {
    pub graph: &'a Graph,
    pub machine: &'a Machine,
    pub touching: Option<&'a Touching>,
    pub passes: Option<&'a Passes>,
    /// What stands above the picture.
    pub title: Option<&'a str>,
}

#[cfg(test)]
mod tests;
