//! Pictures of the example graphs: what is in them, and that Graphviz takes them where it is installed.

use super::tables::Tables;
use super::{draw, forms, tables};
use reference::generate::graphs;
use reference::parse::parse;
use reference::print::print;
use reference::random::Random;
use reference::synthesis::synthesise;
use std::io::Write;
use std::process::{Command, Stdio};

/// Name and text of every example.
fn examples() -> Vec<(String, Vec<u8>)> {
    let folder = concat!(env!("CARGO_MANIFEST_DIR"), "/../examples");
    let files = std::fs::read_dir(folder).expect("the examples");
    let paths = files.map(|file| file.expect("a file").path());
    let graphs = paths.filter(|path| path.extension().is_some_and(|ending| ending == "txt"));
    let read = |path: std::path::PathBuf| std::fs::read(&path).expect("its text");
    graphs.map(|path| (path.display().to_string(), read(path))).collect()
}

/// Random graphs of any size.
fn random_texts() -> Vec<Vec<u8>> {
    let mut random = Random::new(11);
    (0..200).map(|_| print(&graphs::graph(&mut random)).into_bytes()).collect()
}

fn count(picture: &str, part: &str) -> usize {
    picture.matches(part).count()
}

fn parts_are_right(text: &[u8]) {
    let made: Tables = tables(text).expect("a graph");
    let picture = String::from_utf8(draw(text, None).expect("a picture")).expect("text");
    let blocks = 0..made.blocks();
    let edges: Vec<_> = blocks.clone().flat_map(|n| made.edges(n)).collect();
    let absent = blocks.clone().filter(|&n| made.state(n).is_none()).count();
    let leaving = edges
        .iter()
        .filter(|edge| made.state(edge.source).is_some() && made.is_starter(edge.target))
        .count();
    let lost = edges.iter().filter(|edge| made.state(edge.source).is_none()).count();
    let halts = blocks.clone().filter(|&n| made.ending(n)[0] == 3).count();
    assert_eq!(count(&picture, " [label=<"), made.blocks());
    assert_eq!(count(&picture, "subgraph cluster_"), made.states());
    assert_eq!(count(&picture, "peripheries=2"), made.states());
    assert_eq!(count(&picture, " -> "), edges.len());
    assert_eq!(count(&picture, "style=bold"), leaving);
    assert_eq!(count(&picture, "style=dashed"), lost);
    assert_eq!(count(&picture, "rounded,dashed"), absent);
    assert_eq!(count(&picture, ">halt<"), halts);
    for n in blocks {
        assert_eq!(count(&picture, &format!(" b{n} [label=<")), 1);
    }
}

#[test]
fn a_picture_has_every_block_state_and_edge() {
    let examples = examples();
    assert!(examples.len() >= 8);
    examples.iter().for_each(|(_, text)| parts_are_right(text));
    random_texts().iter().for_each(|text| parts_are_right(text));
}

#[test]
fn the_picture_of_gcd() {
    let text = examples().into_iter().find(|(name, _)| name.ends_with("gcd.txt")).expect("gcd").1;
    let picture = String::from_utf8(draw(&text, None).expect("a picture")).expect("text");
    for part in [
        "state 0\\l2 wires",
        "state 1\\l18 wires",
        ">r1 := r1 - r0<",
        ">if r0 &lt;u r1<",
        ">if r0 != r1<",
        "b1 -> b2 [label=\" true \", style=solid",
        "b3 -> b1 [label=\"\", style=bold",
    ] {
        assert!(picture.contains(part), "{part} is missing");
    }
}

/// The states of a picture that are filled as those that touch a register.
fn filled(text: &[u8], register: Option<u32>) -> Vec<usize> {
    let picture = String::from_utf8(draw(text, register).expect("a picture")).expect("text");
    let clusters = picture.split("subgraph cluster_").skip(1);
    let is_filled = |cluster: &&str| cluster.contains("fillcolor=\"#ffc94d\"; color=");
    let number = |cluster: &str| cluster.split(' ').next().and_then(|state| state.parse().ok());
    clusters.filter(is_filled).map(|cluster| number(cluster).expect("a state")).collect()
}

#[test]
fn states_that_touch_a_register_are_filled() {
    let example = |name: &str| {
        examples().into_iter().find(|(path, _)| path.ends_with(name)).expect("an example").1
    };
    let gcd = example("gcd.txt");
    assert_eq!(filled(&gcd, None), [0; 0]);
    assert_eq!(filled(&gcd, Some(0)), [1]);
    assert_eq!(filled(&gcd, Some(2)), [0; 0]);
    let figure5 = example("figure5.txt");
    assert_eq!(filled(&figure5, Some(0)), [1, 2, 3]);
    assert_eq!(filled(&figure5, Some(2)), [0, 1, 2, 3]);
    assert_eq!(filled(&figure5, Some(3)), [0, 1, 2]);
    for register in [4, 16, 32, 34, u32::MAX] {
        assert_eq!(filled(&figure5, Some(register)), [0; 0]);
    }
    let picture = String::from_utf8(draw(&gcd, Some(1)).expect("a picture")).expect("text");
    assert_eq!(count(&picture, "touches r1"), 1);
    assert!(picture.contains("state 1\\l18 wires\\ltouches r1\\l"), "{picture}");
}

/// They are those of the second program, on graphs of any size.
#[test]
fn filled_states_are_those_of_the_references() {
    for text in random_texts().iter().step_by(4) {
        let (_, machine) = synthesise(&parse(text).expect("a graph"));
        for register in (0..18).step_by(3) {
            let states = machine.states.iter().enumerate();
            let touching = states.filter(|(_, state)| state.touches(register));
            let expected: Vec<usize> = touching.map(|(state, _)| state).collect();
            assert_eq!(filled(text, Some(register as u32)), expected);
        }
    }
}

#[test]
fn an_input_is_drawn() {
    assert_eq!(forms::instruction(&[20, 3, 0, 0]), "r3 := in");
}

#[test]
fn a_refused_text_gives_number_and_line() {
    let message = draw(b"graph,1,1\nblock,1\n", None).expect_err("a refusal");
    assert!(message.contains("number 3 at line 2"), "{message}");
}

/// Whether Graphviz makes an image of a picture, without a word of complaint.
fn renders(format: &str, picture: &[u8]) -> bool {
    let mut child = Command::new("dot")
        .arg(format)
        .stdin(Stdio::piped())
        .stdout(Stdio::piped())
        .stderr(Stdio::piped())
        .spawn()
        .expect("dot starts");
    child.stdin.take().expect("a pipe").write_all(picture).expect("dot reads");
    let output = child.wait_with_output().expect("dot ends");
    output.status.success() && output.stderr.is_empty() && !output.stdout.is_empty()
}

#[test]
fn graphviz_takes_the_pictures() {
    if Command::new("dot").arg("-V").output().is_err() {
        return;
    }
    for (name, text) in examples() {
        let picture = draw(&text, None).expect("a picture");
        assert!(renders("-Tsvg", &picture) && renders("-Tpng", &picture), "{name}");
        assert!(renders("-Tsvg", &draw(&text, Some(0)).expect("a picture")), "{name}");
    }
    for text in random_texts().iter().step_by(10) {
        assert!(renders("-Tsvg", &draw(text, None).expect("a picture")));
    }
}
