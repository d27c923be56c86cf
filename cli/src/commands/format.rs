//! `format`: a graph read and written again.

use crate::arguments::Format;
use crate::failure::Failure;
use crate::input;
use crate::output::{Answer, Output, Paint};
use serde::Serialize;

#[derive(Serialize)]
struct Written {
    file: String,
    text: String,
}

impl Answer for Written {
    fn text(&self, _: Paint) -> String {
        self.text.clone()
    }
}

pub fn run(arguments: &Format, out: &mut Output) -> Result<(), Failure> {
    let (file, graph) = input::graph(&arguments.file)?;
    out.answer(&Written { file, text: graph.write() })
}
