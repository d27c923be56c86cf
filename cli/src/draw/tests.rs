//! Pictures: what is in them, and that Graphviz takes them.

use super::{forms, graphviz, image, Format, Passes, Picture};
use crate::touching::Touching;
use gutkavu::{Code, Ending, Graph, Instruction, Machine};
use reference::generate::graphs;
use reference::parse::parse;
use reference::print::print;
use reference::random::Random;
use reference::synthesis::synthesise;
use std::fs;
use std::path::{Path, PathBuf};

/// Name and text of every example.
fn examples() -> Vec<(String, String)> {
    let folder = concat!(env!("CARGO_MANIFEST_DIR"), "/../examples");
    let files = fs::read_dir(folder).expect("the examples");
    let paths = files.map(|file| file.expect("a file").path());
    let graphs = paths.filter(|path| path.extension().is_some_and(|ending| ending == "txt"));
    let name = |path: &PathBuf| path.file_name().expect("a name").to_string_lossy().into_owned();
    graphs.map(|path| (name(&path), fs::read_to_string(&path).expect("its text"))).collect()
}

fn example(name: &str) -> String {
    examples().into_iter().find(|(one, _)| one == name).expect("an example").1
}

/// Random graphs of any size.
fn random_texts() -> Vec<String> {
    let mut random = Random::new(11);
    (0..200).map(|_| print(&graphs::graph(&mut random))).collect()
}

/// A graph with its machine.
struct Made {
    graph: Graph,
    machine: Machine,
}

impl Made {
    fn of(text: &str) -> Made {
        let graph: Graph = text.parse().expect("a graph");
        let machine = graph.synthesise();
        Made { graph, machine }
    }

    fn picture(&self) -> Picture<'_> {
        let (graph, machine) = (&self.graph, &self.machine);
        Picture { graph, machine, touching: None, passes: None, title: None }
    }

    fn dot(&self) -> String {
        self.picture().dot()
    }

    fn touching(&self, register: u32) -> String {
        let touching = Touching::of(&self.machine, register).expect("an answer");
        Picture { touching: Some(&touching), ..self.picture() }.dot()
    }

    fn passed(&self, paths: &[&[u32]], title: &str) -> String {
        let passes = passes(self.graph.blocks(), paths);
        Picture { passes: Some(&passes), title: Some(title), ..self.picture() }.dot()
    }

    fn ending(&self, block: u32) -> Ending {
        self.graph.block(block).expect("a block").ending
    }

    fn has_state(&self, block: u32) -> bool {
        self.machine.state_of(block).is_some()
    }
}

/// The passes of a run that halts, from the path of each cycle.
fn passes(blocks: u32, paths: &[&[u32]]) -> Passes {
    let mut passes = Passes::new(blocks);
    for (index, path) in paths.iter().enumerate() {
        passes.add(path, paths.get(index + 1).map(|next| next[0]));
    }
    passes
}

fn count(picture: &str, part: &str) -> usize {
    picture.matches(part).count()
}

/// The line of a picture that begins so.
fn line<'a>(picture: &'a str, start: &str) -> &'a str {
    let mut lines = picture.lines().map(str::trim).filter(|line| line.starts_with(start));
    lines.next().unwrap_or_else(|| panic!("{start} is missing in {picture}"))
}

fn assert_parts(picture: &str, parts: &[&str]) {
    for part in parts {
        assert!(picture.contains(part), "{part} is missing in {picture}");
    }
}

fn parts_are_right(text: &str) {
    let made = Made::of(text);
    let picture = made.dot();
    let (blocks, states) = (0..made.graph.blocks(), made.machine.states() as usize);
    let targets = |source| made.ending(source).targets().into_iter();
    let edges: Vec<(u32, u32)> =
        blocks.clone().flat_map(|n| targets(n).map(move |target| (n, target))).collect();
    let is_starter = |target| made.machine.starters().contains(&target);
    let leaving =
        edges.iter().filter(|(source, target)| made.has_state(*source) && is_starter(*target));
    let lost = edges.iter().filter(|(source, _)| !made.has_state(*source));
    let halts = blocks.clone().filter(|&n| made.ending(n) == Ending::Halt);
    let absent = blocks.clone().filter(|&n| !made.has_state(n));
    assert_eq!(count(&picture, " [label=<"), blocks.len());
    assert_eq!(count(&picture, "subgraph cluster_"), states);
    assert_eq!(count(&picture, "peripheries=2"), states);
    assert_eq!(count(&picture, " [label=\"state "), states);
    assert_eq!(count(&picture, " -> ") - count(&picture, "[style=invis]"), edges.len());
    assert_eq!(count(&picture, "style=bold"), leaving.count());
    assert_eq!(count(&picture, "style=dashed"), lost.count());
    assert_eq!(count(&picture, "rounded,dashed"), absent.count());
    assert_eq!(count(&picture, ">halt<"), halts.count());
    for n in blocks {
        assert_eq!(count(&picture, &format!(" b{n} [label=<")), 1);
    }
    for (source, target) in &edges {
        let same = edges.iter().filter(|edge| *edge == &(*source, *target)).count();
        assert_eq!(count(&picture, &format!(" b{source} -> b{target} [")), same);
    }
}

#[test]
fn a_picture_has_every_block_state_and_edge() {
    let examples = examples();
    assert!(examples.len() >= 10);
    examples.iter().for_each(|(_, text)| parts_are_right(text));
    random_texts().iter().for_each(|text| parts_are_right(text));
}

#[test]
fn the_picture_of_gcd() {
    let picture = Made::of(&example("gcd.txt")).dot();
    assert_parts(
        &picture,
        &[
            "6 blocks, 2 registers, 2 states, 20 wires",
            "state 0\\l2 wires",
            "state 1\\l18 wires",
            ">r1 := r1 - r0<",
            ">if r0 &lt;u r1<",
            ">if r0 != r1<",
            "b1 -> b2 [label=\"  true \", style=solid",
            "b3 -> b1 [label=\"\", style=bold",
        ],
    );
    assert_eq!(count(&picture, "penwidth") + count(&picture, "×"), 0);
}

#[test]
fn every_code_has_a_form() {
    let form = |code, b| forms::instruction(Instruction { code, d: 3, a: 1, b });
    assert_eq!(form(Code::In, 0), "r3 := in");
    assert_eq!(form(Code::Copy, 0), "r3 := r1");
    assert_eq!(form(Code::Sx, 0), "r3 := sx r1");
    let set = Instruction { code: Code::Set, d: 0, a: u32::MAX, b: 0 };
    assert_eq!(forms::instruction(set), "r0 := -1");
    let (sums, shifts) = ([Code::Add, Code::Sub], [Code::Shl, Code::Shr, Code::Sar]);
    assert_eq!(sums.map(|code| form(code, 2)), ["r3 := r1 + r2", "r3 := r1 - r2"]);
    let shifted = ["r3 := r1 << r2", "r3 := r1 >>u r2", "r3 := r1 >> r2"];
    assert_eq!(shifts.map(|code| form(code, 2)), shifted);
    let bits = [Code::And, Code::Or, Code::Xor].map(|code| form(code, 2));
    assert_eq!(bits, ["r3 := r1 & r2", "r3 := r1 | r2", "r3 := r1 ^ r2"]);
    let compared = [Code::Eq, Code::Ne, Code::Lt, Code::Ge, Code::Ltu, Code::Geu];
    let signs = ["==", "!=", "<", ">=", "<u", ">=u"].map(|sign| format!("r4 {sign} r5"));
    assert_eq!(compared.map(|code| forms::comparison(code, 4, 5)), signs);
}

/// The states of a picture that are filled as those that touch a register.
fn filled(picture: &str) -> Vec<usize> {
    let clusters = picture.split("subgraph cluster_").skip(1);
    let is_filled = |cluster: &&str| cluster.contains("fillcolor=\"#ffc94d\"; color=");
    let number = |cluster: &str| cluster.split(' ').next().and_then(|state| state.parse().ok());
    clusters.filter(is_filled).map(|cluster| number(cluster).expect("a state")).collect()
}

#[test]
fn states_that_touch_a_register_are_filled() {
    let gcd = Made::of(&example("gcd.txt"));
    assert_eq!(filled(&gcd.dot()), [0; 0]);
    assert_eq!(filled(&gcd.touching(0)), [1]);
    assert_eq!(filled(&gcd.touching(2)), [0; 0]);
    let figure5 = Made::of(&example("figure5.txt"));
    assert_eq!(filled(&figure5.touching(0)), [1, 2, 3]);
    assert_eq!(filled(&figure5.touching(2)), [0, 1, 2, 3]);
    assert_eq!(filled(&figure5.touching(3)), [0, 1, 2]);
    for register in [4, 16, 32, 34, u32::MAX] {
        assert_eq!(filled(&figure5.touching(register)), [0; 0]);
    }
    let picture = gcd.touching(1);
    assert_eq!(count(&picture, "touches r1"), 1);
    assert!(picture.contains("state 1\\l18 wires\\ltouches r1\\l"), "{picture}");
}

/// They are those of the second program, on graphs of any size.
#[test]
fn filled_states_are_those_of_the_references() {
    for text in random_texts().iter().step_by(4) {
        let (_, machine) = synthesise(&parse(text.as_bytes()).expect("a graph"));
        let made = Made::of(text);
        for register in (0..18).step_by(3) {
            let states = machine.states.iter().enumerate();
            let touching = states.filter(|(_, state)| state.touches(register));
            let expected: Vec<usize> = touching.map(|(state, _)| state).collect();
            assert_eq!(filled(&made.touching(register as u32)), expected);
        }
    }
}

#[test]
fn cycles_join() {
    let gcd = passes(6, &[&[0], &[1, 2, 3], &[1, 2, 4], &[1, 5]]);
    assert_eq!(gcd.blocks, [1, 3, 2, 1, 1, 1]);
    let edges =
        [((0, 1), 1), ((1, 2), 2), ((1, 5), 1), ((2, 3), 1), ((2, 4), 1), ((3, 1), 1), ((4, 1), 1)];
    assert_eq!(gcd.edges, edges.into_iter().collect());
    // The edge to the block that comes next is taken, though that block is not run.
    let mut turns = Passes::new(1);
    (0..1_000).for_each(|_| turns.add(&[0], Some(0)));
    assert_eq!((&turns.blocks[..], turns.of_edge(0, 0)), (&[1_000][..], 1_000));
    let none = Passes::new(2);
    assert_eq!((&none.blocks[..], none.edges.len()), (&[0, 0][..], 0));
    assert_eq!((none.of_block(7), none.of_edge(7, 7)), (0, 0));
}

/// The greatest common divisor of 12 and 18.
const GCD: [&[u32]; 4] = [&[0], &[1, 2, 3], &[1, 2, 4], &[1, 5]];

#[test]
fn a_run_has_its_numbers() {
    let title = "r0 = 12, r1 = 18: halted, 9 blocks in 4 cycles";
    let picture = Made::of(&example("gcd.txt")).passed(&GCD, title);
    assert_parts(
        &picture,
        &[
            "<b>block 0 (entry)</b> × 1<",
            "<b>block 1</b> × 3<",
            "b1 -> b2 [label=\"  true × 2 \", style=solid",
            "b1 -> b5 [label=\"  false × 1 \", style=solid",
            "b4 -> b1 [label=\"  × 1 \", style=bold",
            &format!("label=<{title}<br"),
        ],
    );
    assert_eq!(count(&picture, "×"), 6 + 7);
    assert_eq!(count(&picture, "#a8a8a8"), 0);
}

#[test]
fn what_a_run_never_passes_is_dimmed() {
    let made = Made::of(&example("gcd.txt"));
    // r0 and r1 are equal: the loop is left at once.
    let picture = made.passed(&[&[0], &[1, 5]], "r0 = 6, r1 = 6");
    for block in [2, 3, 4] {
        let node = line(&picture, &format!("b{block} [label"));
        assert!(node.contains("fillcolor=\"white\", color=\"#a8a8a8\""), "{node}");
        assert!(!node.contains('×'), "{node}");
    }
    for block in [0, 1, 5] {
        let node = line(&picture, &format!("b{block} [label"));
        assert!(!node.contains("#a8a8a8") && node.contains("× 1"), "{node}");
    }
    let edge = line(&picture, "b1 -> b2");
    assert!(edge.contains("label=\"  true \"") && edge.contains("penwidth=0.6"), "{edge}");
    let edge = line(&picture, "b3 -> b1");
    assert!(edge.contains("label=\"\"") && edge.contains("color=\"#a8a8a8\""), "{edge}");
    assert_eq!(count(&picture, "penwidth=0.6"), 5);
    assert!(!picture.contains("#f6f6f6"), "{picture}");
    // A state that the run never comes to is dimmed as a whole.
    let picture = made.passed(&[&[0]], "one cycle");
    assert_eq!(count(&picture, "fillcolor=\"#f6f6f6\"; color=\"#707070\""), 1);
}

#[test]
fn a_pen_grows_slowly_with_the_number() {
    let width = |turns: usize| -> f64 {
        let picture = Made::of("graph,1,1\nblock,0\ngoto,0\n").passed(&vec![&[0][..]; turns], "");
        let edge = line(&picture, "b0 -> b0");
        let (_, width) = edge.rsplit_once("penwidth=").expect("a width");
        width.trim_end_matches("];").parse().expect("a number")
    };
    let widths = [1, 2, 11, 1_001, 100_001].map(width);
    assert!(widths.windows(2).all(|pair| pair[0] < pair[1]), "{widths:?}");
    assert!(widths[0] < 1.0 && widths[4] <= 5.0, "{widths:?}");
}

/// Nothing tells which of the two edges was taken.
#[test]
fn edges_with_one_target_are_counted_together() {
    let text = "graph,2,1\nblock,0\nite,eq,0,0,1,1\nblock,1\nite,ne,0,0,0,0\n";
    let picture = Made::of(text).passed(&[&[0, 1], &[0, 1], &[0, 1]], "three cycles");
    let edges: Vec<&str> = picture.lines().filter(|line| line.contains("[label=\" ")).collect();
    let labels = ["true (both × 3)", "false", "true (both × 2)", "false"];
    assert_eq!(edges.len(), labels.len());
    for (edge, label) in edges.iter().zip(labels) {
        assert!(edge.contains(&format!("[label=\"  {label} \"")), "{edge}");
        assert!(!edge.contains("#a8a8a8"), "{edge}");
    }
    let never = Made::of(text).passed(&[&[0]], "one block");
    assert_eq!(count(&never, "label=\"  true \""), 2);
    assert_eq!(count(&never, "label=\"  false \""), 2);
    assert_eq!(count(&never, "penwidth=0.6"), 4);
}

#[test]
fn a_title_is_escaped_and_parted() {
    let made = Made::of(&example("gcd.txt"));
    let title = "a < b & \"c\" > \\N </table>";
    let picture = made.passed(&GCD, title);
    let escaped = "a &lt; b &amp; &quot;c&quot; &gt; \\N &lt;/table&gt;";
    assert!(picture.contains(&format!("label=<{escaped}<br")), "{picture}");
    let svg = image(&picture, Format::Svg).expect(DOT);
    let svg = String::from_utf8(svg).expect("text");
    assert!(svg.contains("&gt; \\N &lt;/table&gt;</text>"), "{svg}");
    let registers: Vec<String> = (0..16).map(|r| format!("r{r} = 4294967295")).collect();
    let title = registers.join(", ") + ": halted, 9 blocks in 4 cycles";
    let picture = made.passed(&GCD, &title);
    let heading = line(&picture, "labelloc=t");
    assert_eq!(count(heading, "<br"), 9, "{heading}");
    let text = heading.split("label=<").nth(1).expect("a label").trim_end_matches(">;");
    assert_eq!(
        text.trim_end_matches("<br align=\"left\"/>").replace("<br align=\"left\"/>", " "),
        title
    );
}

const DOT: &str = "dot makes an image; tools/install-packages dot installs Graphviz";

/// Graphviz makes an image of a picture, without a word of complaint.
fn assert_taken(picture: &str, format: Format) {
    let answer = graphviz::answer(picture, format).expect(DOT);
    let said = String::from_utf8_lossy(&answer.stderr);
    assert!(answer.status.success() && said.is_empty(), "{said} {picture}");
    assert!(!answer.stdout.is_empty(), "{picture}");
}

#[test]
fn graphviz_takes_the_pictures() {
    for (_, text) in examples() {
        let made = Made::of(&text);
        for format in [Format::Svg, Format::Png, Format::Pdf] {
            assert_taken(&made.dot(), format);
        }
        assert_taken(&made.touching(0), Format::Svg);
        assert_taken(&made.passed(&[&[0], &[0]], "title"), Format::Svg);
    }
    for text in random_texts().iter().step_by(10) {
        assert_taken(&Made::of(text).dot(), Format::Svg);
    }
    let message = image("digraph {", Format::Svg).expect_err("a failure");
    assert!(message.starts_with("dot failed (exit status: 1): "), "{message}");
}

#[test]
fn a_format_is_told_by_the_ending() {
    let format = |name: &str| Format::of(Path::new(name));
    assert_eq!(["a.dot", "b/a.gv"].map(format), [Some(Format::Text); 2]);
    let images = [Some(Format::Svg), Some(Format::Png), Some(Format::Pdf)];
    assert_eq!(["a.svg", "a.b.PNG", "../a.pdf"].map(format), images);
    assert_eq!(["", "a", "a.txt", ".svg", "svg", "a.svg.gz", "a."].map(format), [None; 7]);
}
