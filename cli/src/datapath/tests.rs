//! Owners of wires against the wires that the proved library made, on the examples and on random
//! graphs: all four words are what paper 01 demands of the role.

use super::{owners, Owner, Role};
use crate::samples;
use gutkavu::{Graph, Machine};
use said::Said;

mod said;

/// Checks every state of a graph with what a function makes of its owners. Gives how many states
/// were checked, and how many had a fault; a state without anything made is passed by.
fn faults(graph: &Graph, make: impl Fn(Vec<Owner>) -> Option<Vec<Owner>>) -> (usize, usize) {
    let machine = graph.synthesise();
    let check = |state| {
        let made = make(owners(graph, &machine, state))?;
        Some(Said::new(graph, &machine, state, &made).check())
    };
    let checked: Vec<_> = (0..machine.states()).filter_map(check).collect();
    (checked.len(), checked.iter().filter(|fault| fault.is_err()).count())
}

/// Of several graphs together.
fn faults_of(graphs: &[Graph], make: impl Fn(Vec<Owner>) -> Option<Vec<Owner>>) -> (usize, usize) {
    let each = graphs.iter().map(|graph| faults(graph, &make));
    each.fold((0, 0), |sum, one| (sum.0 + one.0, sum.1 + one.1))
}

fn graphs(count: usize) -> Vec<Graph> {
    samples::examples().into_iter().chain(samples::random(count)).collect()
}

#[test]
fn every_wire_is_what_its_role_demands() {
    for graph in graphs(500) {
        let machine: Machine = graph.synthesise();
        for state in 0..machine.states() {
            let owners = owners(&graph, &machine, state);
            let checked = Said::new(&graph, &machine, state, &owners).check();
            assert_eq!(checked, Ok(()), "state {state} of\n{graph}");
        }
    }
}

/// The graphs have roles of all kinds, so that the test above says something of each.
#[test]
fn the_graphs_have_all_roles() {
    let mut counts = [0; 9];
    for graph in graphs(500) {
        let machine = graph.synthesise();
        let all = (0..machine.states()).flat_map(|state| owners(&graph, &machine, state));
        all.for_each(|owner| counts[kind(owner.role)] += 1);
    }
    assert!(counts.iter().all(|&count| count > 500), "{counts:?}");
}

fn kind(role: Role) -> usize {
    match role {
        Role::Start => 0,
        Role::Join { .. } => 1,
        Role::JoinRegister { .. } => 2,
        Role::Instruction { .. } => 3,
        Role::Comparison { .. } => 4,
        Role::Branch { .. } => 5,
        Role::Exit { .. } => 6,
        Role::ExitState { .. } => 7,
        Role::ExitRegister { .. } => 8,
    }
}

/// Asserts that a fault is found in each state for which something wrong is made.
fn all_are_caught(graphs: &[Graph], make: impl Fn(Vec<Owner>) -> Option<Vec<Owner>>) {
    let (checked, caught) = faults_of(graphs, make);
    assert!(checked >= 20, "only {checked} were made");
    assert_eq!(caught, checked);
}

#[test]
fn owners_shifted_by_one_are_caught() {
    let graphs = graphs(100);
    all_are_caught(&graphs, |mut owners| {
        owners.rotate_left(1);
        Some(owners)
    });
    all_are_caught(&graphs, |mut owners| {
        owners.rotate_right(1);
        Some(owners)
    });
    all_are_caught(&graphs, |owners| Some(owners[1..].to_vec()));
    all_are_caught(&graphs, |mut owners| {
        owners.push(owners[0]);
        Some(owners)
    });
}

/// All next states first, then all choices: with two exits this is as it should be, since the first
/// has no choices.
#[test]
fn exits_that_are_not_interleaved_are_caught() {
    all_are_caught(&graphs(100), |mut owners| {
        let is_exit = |owner: &Owner| matches!(owner.role, Role::Exit { .. });
        let first = owners.iter().position(is_exit).expect("a state has an exit");
        let several = owners.iter().filter(|owner| is_exit(owner)).count() > 2;
        owners[first..].sort_by_key(|owner| !is_exit(owner));
        several.then_some(owners)
    });
}

/// Registers chosen before the arrivals are joined.
#[test]
fn joins_after_their_registers_are_caught() {
    all_are_caught(&graphs(100), |mut owners| {
        let join = owners.iter().position(|owner| matches!(owner.role, Role::Join { .. }))?;
        owners.swap(join, join + 1);
        Some(owners)
    });
}

#[test]
fn true_and_false_exchanged_are_caught() {
    all_are_caught(&graphs(100), |mut owners| {
        let branch = owners.iter().position(|owner| matches!(owner.role, Role::Branch { .. }))?;
        owners.swap(branch, branch + 1);
        Some(owners)
    });
}

/// Any two neighbours exchanged, in the examples: it is not the first wire alone that tells.
#[test]
fn any_two_neighbours_exchanged_are_caught() {
    for name in ["gcd.txt", "turn.txt", "swing.txt", "wrap.txt"] {
        let graph = samples::example(name);
        for index in 0..60 {
            let (checked, caught) = faults(&graph, |mut owners| {
                (index + 1 < owners.len()).then(|| owners.swap(index, index + 1))?;
                Some(owners)
            });
            assert_eq!(caught, checked, "w{index} of {name}");
        }
    }
}
