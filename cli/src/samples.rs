//! Graphs to test with: the examples, and random ones of the second program.

use gutkavu::Graph;
use reference::generate::graphs;
use reference::print::print;
use reference::random::Random;
use std::fs;
use std::path::Path;

/// The example graphs.
pub fn examples() -> Vec<Graph> {
    let folder = Path::new(env!("CARGO_MANIFEST_DIR")).join("../examples");
    let files =
        fs::read_dir(folder).expect("the examples").map(|file| file.expect("a file").path());
    let texts = files.filter(|path| path.extension().is_some_and(|ending| ending == "txt"));
    let examples: Vec<Graph> = texts.map(|path| read(&fs::read(path).expect("a text"))).collect();
    assert!(examples.len() >= 10, "the examples are missing");
    examples
}

pub fn example(name: &str) -> Graph {
    let path = Path::new(env!("CARGO_MANIFEST_DIR")).join("../examples").join(name);
    read(&fs::read(path).expect("an example"))
}

/// Random graphs of any size, the same at each call.
pub fn random(count: usize) -> Vec<Graph> {
    let mut random = Random::new(23);
    (0..count).map(|_| read(print(&graphs::graph(&mut random)).as_bytes())).collect()
}

fn read(text: &[u8]) -> Graph {
    Graph::read(text).expect("a graph")
}
