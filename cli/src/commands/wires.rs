//! `wires`: the datapath, one wire a line.

use crate::arguments::Wires;
use crate::datapath::{self, Owner, Role};
use crate::edges::Edge;
use crate::failure::Failure;
use crate::input;
use crate::output::{Answer, Output, Paint};
use crate::refused::{self, Refused};
use crate::table::{joined, Table};
use gutkavu::{Code, Graph, Machine, Reference};
use serde::Serialize;

#[derive(Serialize)]
struct Datapath {
    file: String,
    states: Vec<State>,
}

#[derive(Serialize)]
struct State {
    state: u32,
    starter: u32,
    wires: Vec<Wire>,
    next_state: String,
    next_registers: Vec<String>,
}

/// References are given by name: `r0`, `w5`.
#[derive(Serialize)]
struct Wire {
    wire: u32,
    #[serde(flatten)]
    owner: Owner,
    code: &'static str,
    #[serde(flatten)]
    input: Input,
    /// Of a sum, the arrival of its block.
    #[serde(skip_serializing_if = "Option::is_none")]
    flag_where: Option<String>,
    /// The blocks that are run where it is nonzero.
    arrival_of: Vec<u32>,
}

#[derive(Serialize)]
#[serde(rename_all = "snake_case")]
enum Input {
    Literal(i32),
    Operands(Vec<String>),
}

impl Wire {
    fn of(machine: &Machine, state: u32, index: u32, owner: Owner) -> Option<Wire> {
        let wire = machine.wire(state, index)?;
        let arrives = |block: &u32| {
            machine.arrival_of(*block).map(Reference::from_word) == Some(Reference::Wire(index))
        };
        Some(Wire {
            wire: index,
            owner,
            code: wire.code.name(),
            input: match wire.code {
                Code::Set => Input::Literal(wire.a as i32),
                _ => Input::Operands(wire.operands().iter().map(Reference::to_string).collect()),
            },
            flag_where: wire.counts_where().map(|arrival| arrival.to_string()),
            arrival_of: machine.blocks(state).filter(arrives).collect(),
        })
    }

    fn inputs(&self) -> String {
        match &self.input {
            Input::Literal(literal) => literal.to_string(),
            Input::Operands(operands) => joined(operands, ", "),
        }
    }

    /// What it is for, in words; the starter's arrival is said as any other.
    fn meaning(&self) -> String {
        let role = Some(words(self.owner.role)).filter(|words| !words.is_empty());
        let flag = self.flag_where.as_ref().map(|arrival| format!("flag where {arrival}"));
        let blocks = &self.arrival_of;
        let arrival = (!blocks.is_empty()).then(|| format!("arrival of {}", joined(blocks, ", ")));
        joined([role, flag, arrival].into_iter().flatten(), "; ")
    }
}

fn words(role: Role) -> String {
    match role {
        Role::Start => String::new(),
        Role::Join { edge } => format!("joins {edge}{}", branch(edge)),
        Role::JoinRegister { register, .. } => format!("r{register} of the edges so far"),
        Role::Instruction { instruction, .. } => instruction.to_string(),
        Role::Comparison { ending } => ending.to_string(),
        Role::Branch { edge } => format!("{edge} taken{}", branch(edge)),
        Role::Exit { edge, exit_to: Some(next) } => {
            format!("exit {} -> state {next}{}", edge.from, branch(edge))
        }
        Role::Exit { edge, exit_to: None } => format!("exit {}: halt", edge.from),
        Role::ExitState { .. } => String::from("next state of the exits so far"),
        Role::ExitRegister { register, .. } => format!("r{register} of the exits so far"),
    }
}

/// Tells the two edges of an `ite` apart, which may have one target.
fn branch(edge: Edge) -> String {
    edge.branch.map_or(String::new(), |value| format!(" ({value})"))
}

impl State {
    fn of(graph: &Graph, machine: &Machine, state: u32) -> Option<State> {
        let owners = datapath::owners(graph, machine, state);
        assert_eq!(Some(owners.len() as u32), machine.wires(state), "every wire has an owner");
        let wires = (0..).zip(owners).map(|(index, owner)| Wire::of(machine, state, index, owner));
        let next = |register| machine.next_register(state, register).map(|next| next.to_string());
        Some(State {
            state,
            starter: machine.starter(state)?,
            wires: wires.collect::<Option<_>>()?,
            next_state: machine.next_state(state)?.to_string(),
            next_registers: (0..machine.registers()).map(next).collect::<Option<_>>()?,
        })
    }

    fn text(&self, paint: Paint) -> String {
        let State { state, starter, wires, .. } = self;
        let head = ["wire", "block", "code", "operands", "meaning"];
        let mut table = Table::new(head).right([1]);
        for wire in wires {
            let (name, block) = (format!("w{}", wire.wire), wire.owner.block.to_string());
            table.row([name, block, wire.code.to_string(), wire.inputs(), wire.meaning()]);
        }
        let head = paint.bold(format!("state {state}:"));
        let head = format!("{head} starter {starter}, {} wires\n", wires.len());
        head + &table.print(paint) + &self.next()
    }

    /// What the cycle ends in: registers that it cannot change are named together.
    fn next(&self) -> String {
        let mut text = format!("next state {}\n", self.next_state);
        let mut kept = Vec::new();
        for (register, next) in self.next_registers.iter().enumerate() {
            let name = format!("r{register}");
            match name == *next {
                true => kept.push(name),
                false => text += &format!("{name} := {next}\n"),
            }
        }
        if !kept.is_empty() {
            text += &format!("kept: {}\n", joined(kept, ", "));
        }
        text
    }
}

impl Answer for Datapath {
    fn text(&self, paint: Paint) -> String {
        joined(self.states.iter().map(|state| state.text(paint)), "\n")
    }
}

/// The states that are shown. One that is not there is refused as any question about it is.
fn asked(arguments: &Wires, file: &str, machine: &Machine) -> Result<Vec<u32>, Failure> {
    let Some(state) = arguments.state else { return Ok((0..machine.states()).collect()) };
    match machine.touches(state, 0) {
        Ok(_) => Ok(vec![state]),
        Err(refusal) => {
            let message = refused::no_state(machine, state);
            Err(Refused::call(file, refusal, message).into())
        }
    }
}

pub fn run(arguments: &Wires, out: &mut Output) -> Result<(), Failure> {
    let (file, graph) = input::graph(&arguments.file)?;
    let machine = graph.synthesise();
    let asked = asked(arguments, &file, &machine)?.into_iter();
    let states = asked.filter_map(|state| State::of(&graph, &machine, state)).collect();
    out.answer(&Datapath { file, states })
}
