//! `format`: a graph read and written again.

mod common;

use common::{examples, generated, gutkavu, with_input};
use serde_json::json;

#[test]
fn the_examples_are_written_as_they_were_read() {
    for (name, text) in examples() {
        assert_eq!(gutkavu(&["format", &name]).answer(), text);
        let answer = gutkavu(&["format", &name, "--json"]).json();
        assert_eq!(answer, [json!({"file": name, "text": text})]);
    }
}

#[test]
fn generated_graphs_too() {
    for text in generated(5, 20) {
        assert_eq!(with_input(&["format", "-"], text.as_bytes()).answer(), text);
    }
}
