//! Cases from a seed: which texts, which damage, which buffers, which recordings, which questions,
//! which bounds.

pub mod arrival_damage;
pub mod block_cases;
pub mod block_damage;
pub mod block_words;
pub mod bound_cases;
mod bound_damage;
pub mod bound_words;
mod capture_cases;
mod capture_damage;
mod captures;
pub mod exact;
pub mod examples;
mod faulty_lines;
pub mod fixed;
pub mod graph_damage;
pub mod graphs;
mod lists;
pub mod machine_damage;
pub mod mends;
mod questions;
mod row;
mod runs;
mod several;
pub mod shapes;
pub mod shift_cases;
pub mod sum_cases;
pub mod texts;
pub mod touch_cases;
pub mod touch_damage;
pub mod touch_words;
pub mod word_cases;
pub mod words;

use crate::answer::buffers_of;
use crate::case::{Asked, Case, MAX_WORDS};
use crate::graph_table::{self, GRAPH_WORDS};
use crate::machine_table::{self, MACHINE_WORDS};
use crate::print::print;
use crate::random::Random;

/// What a case is mainly about.
#[derive(Clone, Copy, PartialEq, Eq)]
enum Aim {
    Valid,
    Text,
    LongText,
    GraphTable,
    MachineTable,
    BareMachine,
    Buffers,
    Starts,
    Sums,
    Touches,
    Bounds,
    Several,
    Shifts,
    Blocks,
}

fn aim(random: &mut Random) -> Aim {
    match random.below(1_180) {
        0..=79 => Aim::Valid,
        80..=209 => Aim::Text,
        210..=220 => Aim::LongText,
        221..=308 => Aim::GraphTable,
        309..=421 => Aim::MachineTable,
        422..=447 => Aim::BareMachine,
        448..=465 => Aim::Buffers,
        466..=507 => Aim::Starts,
        508..=679 => Aim::Sums,
        680..=733 => Aim::Touches,
        734..=881 => Aim::Bounds,
        882..=999 => Aim::Several,
        1_000..=1_079 => Aim::Shifts,
        _ => Aim::Blocks,
    }
}

/// Of the blocks only the first is reached, so that the machine has one; seldom there is no graph.
fn bare_text(random: &mut Random) -> Vec<u8> {
    if random.percent(15) {
        return texts::damaged(random);
    }
    let (blocks, registers) = (random.pick(&[1, 1, 2, 9]), random.between(1, 16));
    let blocks: Vec<String> = (0..blocks).map(|block| format!("block,{block}\nhalt\n")).collect();
    format!("graph,{},{registers}\n{}", blocks.len(), blocks.concat()).into_bytes()
}

fn text(random: &mut Random, aim: Aim) -> Vec<u8> {
    match aim {
        Aim::Text => texts::damaged(random),
        Aim::BareMachine => bare_text(random),
        Aim::LongText => texts::long_text(random),
        Aim::Valid => print(&graphs::graph(random)).into_bytes(),
        Aim::Sums => print(&graphs::sum_graph(random)).into_bytes(),
        Aim::Bounds => print(&graphs::bounded_graph(random)).into_bytes(),
        Aim::Shifts => print(&graphs::shift_graph(random)).into_bytes(),
        _ if random.percent(55) => print(&graphs::small_graph(random)).into_bytes(),
        _ => print(&graphs::graph(random)).into_bytes(),
    }
}

/// The text's own length matters to writing, so take lengths around it.
fn output_length(random: &mut Random, text: usize) -> u32 {
    let text = text.min(16_990);
    let choices = [text, text, text + 1, text.saturating_sub(1), 0, 1, 16_384, 17_000, text / 2];
    random.pick(&choices) as u32
}

/// Words for registers, and words to be read.
fn words_for(random: &mut Random, aim: Aim, case: &mut Case) {
    let length = random.pick(&[16, 16, 16, 16, 17, 20]);
    case.registers = match aim {
        Aim::Sums => words::registers_near_ends(random, length),
        Aim::Shifts => words::registers_of_shifts(random, length),
        _ => words::registers(random, length),
    };
    case.words = match aim {
        Aim::Shifts => words::registers_of_shifts(random, MAX_WORDS),
        _ => words::registers(random, MAX_WORDS),
    };
}

fn buffers(random: &mut Random, aim: Aim, case: &mut Case) {
    case.output_length = match random.percent(40) {
        true => output_length(random, case.text.len()),
        false => random.pick(&[16_384, 12_000, 17_000]),
    };
    if random.percent(20) {
        case.graph_length = random.pick(&[2_563, 2_570, 2_600]);
        case.machine_length = random.pick(&[13_763, 13_762, 13_828]);
    }
    if aim == Aim::Buffers {
        short_buffers(random, case);
    }
    if aim == Aim::LongText && random.percent(65) {
        case.graph_length = 2_561;
    }
}

/// Lengths of short machine buffers; 13,698 words were a table before it had the arrivals of blocks,
/// 13,634 before records had touch words.
pub const SHORT_MACHINES: [u32; 9] = [13_761, 13_761, 13_698, 13_698, 13_634, 1_410, 2, 1, 0];

fn short_buffers(random: &mut Random, case: &mut Case) {
    match random.below(6) {
        0 => case.graph_length = random.pick(&[2_561, 0, 1, 2, 2_560, 100]),
        1 => case.machine_length = random.pick(&SHORT_MACHINES),
        2 | 3 => case.registers.truncate(random.pick(&[15, 0, 1, 8, 15])),
        4 => {
            case.graph_length = 2_561;
            case.machine_length = 13_761;
        }
        _ => {
            case.registers.truncate(15);
            case.graph_length = random.pick(&[2_561, 2_562]);
            case.machine_length = random.pick(&[13_761, 13_762]);
        }
    }
}

/// Whether the bounds are asked for a state that there is.
fn about_a_state(aim: Aim) -> bool {
    matches!(aim, Aim::Bounds | Aim::Shifts)
}

fn damage(random: &mut Random, aim: Aim, case: &mut Case) {
    let (graph, _) = buffers_of(case);
    let whole = graph.len() >= GRAPH_WORDS && graph_table::decode(&graph).is_some();
    if aim == Aim::GraphTable && whole {
        case.graph_patches = graph_damage::patches(random, &graph);
    }
    let (_, machine) = buffers_of(case);
    let made = machine.len() >= MACHINE_WORDS && machine_table::decode(&machine).is_some();
    if aim == Aim::MachineTable && made {
        case.machine_patches = machine_damage::patches(random, &machine);
    }
    if aim == Aim::Blocks && made && random.percent(85) {
        case.machine_patches = block_damage::patches(random, &machine);
    }
    if aim == Aim::Touches && made {
        case.machine_patches = touch_damage::patches(random, &machine);
    }
    if aim == Aim::Sums && made && random.percent(55) {
        case.machine_patches = arrival_damage::patches(random, &machine);
    }
    if about_a_state(aim) && made {
        let state = random.below(machine[0] as usize);
        case.asked.state = state as u32;
        if aim == Aim::Bounds && random.percent(50) {
            case.machine_patches = bound_damage::patches(random, &machine, state);
        }
    }
    if aim == Aim::BareMachine {
        case.machine_patches = machine_damage::bare_machine(random);
        if random.percent(15) {
            case.machine_patches.pop();
        }
    }
}

fn aimed(random: &mut Random, aim: Aim) -> Case {
    let mut case = Case::plain(&text(random, aim));
    words_for(random, aim, &mut case);
    buffers(random, aim, &mut case);
    damage(random, aim, &mut case);
    runs::choose(random, aim == Aim::Starts, &mut case);
    case
}

/// One case that depends on the seed and its index alone.
pub fn case(seed: u64, index: u64) -> Case {
    let random = &mut Random::at(seed, index);
    let aim = aim(random);
    let mut case = match aim {
        Aim::Several => several::case(random),
        _ => aimed(random, aim),
    };
    case.captures = captures::captures(random, &case);
    let asked = questions::question(random, &case);
    let about = about_a_state(aim) && random.percent(88);
    case.asked = if about { Asked { register: asked.register, ..case.asked } } else { asked };
    case.bounds = bound_words::drawn(random, &case, aim);
    case
}

/// All cases of a seed: random ones, and among them, while they last, the fixed ones.
pub struct Cases {
    seed: u64,
    fixed: Vec<Case>,
}

impl Cases {
    pub fn of(seed: u64) -> Cases {
        Cases { seed, fixed: fixed::cases() }
    }

    pub fn seed(&self) -> u64 {
        self.seed
    }

    pub fn get(&self, index: usize) -> Case {
        match self.fixed.get(index / 4) {
            Some(fixed) if index.is_multiple_of(4) => fixed.clone(),
            _ => case(self.seed, index as u64),
        }
    }
}

/// The first cases of a seed.
pub fn cases(seed: u64, count: usize) -> Vec<Case> {
    let all = Cases::of(seed);
    (0..count).map(|index| all.get(index)).collect()
}
