//! What paper 01 demands of a state's wires, given what is said of each: the words of a wire follow
//! from its role, and from where other roles stand. The order of the blocks is the second program's.

use super::super::{Owner, Role};
use crate::edges::Edge;
use gutkavu::{Code, Ending, Graph, Instruction, Machine, Reference, Wire, NONE};
use reference::{grouping, parse, placement};
use std::collections::HashMap;

/// Something that does not fit.
type Fault = String;

/// The reference of a wire.
fn word(wire: usize) -> u32 {
    16 + wire as u32
}

fn expect<T: PartialEq + std::fmt::Debug>(what: &str, found: T, wanted: T) -> Result<(), Fault> {
    match found == wanted {
        true => Ok(()),
        false => Err(format!("{what}: {found:?}, not {wanted:?}")),
    }
}

pub struct Said<'a> {
    graph: &'a Graph,
    machine: &'a Machine,
    state: u32,
    owners: &'a [Owner],
    /// The wire of each owner.
    places: HashMap<Owner, usize>,
    /// All edges of the state, by the source's place, true first.
    edges: Vec<Edge>,
    order: Vec<u32>,
}

impl<'a> Said<'a> {
    pub fn new(
        graph: &'a Graph,
        machine: &'a Machine,
        state: u32,
        owners: &'a [Owner],
    ) -> Said<'a> {
        let parsed = parse::parse(graph.write().as_bytes()).expect("a graph");
        let order = placement::by_looking(&parsed, &grouping::group(&parsed), state as usize);
        let order: Vec<u32> = order.into_iter().map(|block| block as u32).collect();
        let places = owners.iter().enumerate().map(|(wire, &owner)| (owner, wire)).collect();
        let edges = order.iter().flat_map(|&block| leaving(graph, block)).collect();
        Said { graph, machine, state, owners, places, edges, order }
    }

    /// Whether all that is said fits the machine.
    pub fn check(&self) -> Result<(), Fault> {
        expect("wires", self.machine.wires(self.state), Some(self.owners.len() as u32))?;
        expect("owners that differ", self.places.len(), self.owners.len())?;
        let ends = self.ends()?;
        for (index, &owner) in self.owners.iter().enumerate() {
            let found = self.machine.wire(self.state, index as u32);
            let wanted = self.wanted(owner, &ends)?;
            expect(&format!("w{index}, said to be {owner:?}"), found, Some(wanted))?;
        }
        for &block in &self.order {
            expect(&format!("arrival of {block}"), self.arrival(block)?, self.explained(block)?)?;
        }
        self.check_next(&ends)
    }

    /// The reference of the wire that is said to be this.
    fn at(&self, block: u32, role: Role) -> Result<u32, Fault> {
        let place = self.places.get(&Owner { block, role });
        place.map(|&wire| word(wire)).ok_or(format!("no wire is {role:?} of {block}"))
    }

    fn arrival(&self, block: u32) -> Result<u32, Fault> {
        self.machine.arrival_of(block).ok_or(format!("no arrival of {block}"))
    }

    /// What is nonzero where an edge is taken.
    fn taken(&self, edge: Edge) -> Result<u32, Fault> {
        match edge.branch {
            Some(_) => self.at(edge.from, Role::Branch { edge }),
            None => self.arrival(edge.from),
        }
    }

    fn is_starter(&self, block: u32) -> bool {
        self.machine.starters().contains(&block)
    }

    fn incoming(&self, block: u32) -> Vec<Edge> {
        self.edges.iter().copied().filter(|edge| edge.to == Some(block)).collect()
    }

    fn exits(&self) -> Vec<Edge> {
        let ends = |edge: &Edge| edge.to.is_none_or(|target| self.is_starter(target));
        self.edges.iter().copied().filter(ends).collect()
    }

    /// The wire that a block's arrival ought to be.
    fn explained(&self, block: u32) -> Result<u32, Fault> {
        match self.incoming(block)[..] {
            _ if self.is_starter(block) => self.at(block, Role::Start),
            [edge] => self.taken(edge),
            [.., edge] => self.at(block, Role::Join { edge }),
            [] => Err(format!("nothing leads to {block}")),
        }
    }
}

/// The registers' references at the end of each block.
type Ends = HashMap<u32, Vec<u32>>;

impl Said<'_> {
    fn ends(&self) -> Result<Ends, Fault> {
        let mut ends = Ends::new();
        for &block in &self.order {
            let values = self.before(block, usize::MAX, &ends)?;
            ends.insert(block, values);
        }
        Ok(ends)
    }

    /// The registers' references before an instruction.
    fn before(&self, block: u32, count: usize, ends: &Ends) -> Result<Vec<u32>, Fault> {
        let registers = 0..self.graph.registers();
        let mut values: Vec<u32> = match self.incoming(block)[..] {
            _ if self.is_starter(block) => registers.collect(),
            [edge] => ends[&edge.from].clone(),
            [.., edge] => registers
                .map(|register| self.at(block, Role::JoinRegister { edge, register }))
                .collect::<Result<_, _>>()?,
            [] => return Err(format!("nothing leads to {block}")),
        };
        let instructions = self.graph.block(block).expect("a block").instructions;
        for (index, instruction) in instructions.into_iter().enumerate().take(count) {
            let wire = self.at(block, Role::Instruction { index, instruction })?;
            values[instruction.d as usize] = wire;
        }
        Ok(values)
    }

    /// The words that a role demands.
    fn wanted(&self, Owner { block, role }: Owner, ends: &Ends) -> Result<Wire, Fault> {
        let wire = |code, a, b| Ok(Wire { code, a, b, c: 0 });
        match role {
            Role::Start => wire(Code::Set, 1, 0),
            Role::Instruction { index, instruction } => {
                self.instructed(block, instruction, &self.before(block, index, ends)?)
            }
            Role::Comparison { ending: Ending::Ite { comparison, a, b, .. } } => {
                wire(comparison, ends[&block][a as usize], ends[&block][b as usize])
            }
            Role::Comparison { ending } => Err(format!("{ending} has no comparison")),
            Role::Branch { edge } => {
                let ending = self.graph.block(block).expect("a block").ending;
                let compared = self.at(block, Role::Comparison { ending })?;
                let code = if edge.branch == Some(true) { Code::And } else { Code::AndNot };
                wire(code, self.arrival(block)?, compared)
            }
            Role::Join { .. } | Role::JoinRegister { .. } => self.joined(block, role, ends),
            _ => self.left(block, role, ends),
        }
    }

    fn joined(&self, block: u32, role: Role, ends: &Ends) -> Result<Wire, Fault> {
        match role {
            Role::Join { edge } => {
                let so_far = match previous(&self.incoming(block), edge)? {
                    (0, first) => self.taken(first)?,
                    (_, edge) => self.at(block, Role::Join { edge })?,
                };
                Ok(Wire { code: Code::Or, a: so_far, b: self.taken(edge)?, c: 0 })
            }
            Role::JoinRegister { edge, register } => {
                let so_far = match previous(&self.incoming(block), edge)? {
                    (0, first) => ends[&first.from][register as usize],
                    (_, edge) => self.at(block, Role::JoinRegister { edge, register })?,
                };
                let b = ends[&edge.from][register as usize];
                Ok(Wire { code: Code::Select, a: self.taken(edge)?, b, c: so_far })
            }
            other => Err(format!("{other:?} is of no join")),
        }
    }

    fn instructed(&self, block: u32, of: Instruction, values: &[u32]) -> Result<Wire, Fault> {
        let value = |register: u32| values[register as usize];
        let [a, b, c] = match of.code {
            Code::Set => [of.a, 0, 0],
            Code::In => [0; 3],
            Code::Copy | Code::Sx => [value(of.a), 0, 0],
            Code::Add | Code::Sub => [value(of.a), value(of.b), self.arrival(block)?],
            _ => [value(of.a), value(of.b), 0],
        };
        Ok(Wire { code: of.code, a, b, c })
    }

    fn left(&self, block: u32, role: Role, ends: &Ends) -> Result<Wire, Fault> {
        let select = |edge, b, c| Ok(Wire { code: Code::Select, a: self.taken(edge)?, b, c });
        match role {
            Role::Exit { edge, exit_to } => {
                expect("next state", exit_to, self.next(edge))?;
                Ok(Wire { code: Code::Set, a: exit_to.unwrap_or(NONE), b: 0, c: 0 })
            }
            Role::ExitState { edge } => {
                let so_far = match previous(&self.exits(), edge)? {
                    (0, first) => self.exit(first)?,
                    (_, edge) => self.at(edge.from, Role::ExitState { edge })?,
                };
                expect("block of an exit", block, edge.from)?;
                select(edge, self.exit(edge)?, so_far)
            }
            Role::ExitRegister { edge, register } => {
                let so_far = match previous(&self.exits(), edge)? {
                    (0, first) => ends[&first.from][register as usize],
                    (_, edge) => self.at(edge.from, Role::ExitRegister { edge, register })?,
                };
                expect("block of an exit", block, edge.from)?;
                select(edge, ends[&edge.from][register as usize], so_far)
            }
            other => Err(format!("{other:?} is of no exit")),
        }
    }

    /// The state that an edge leads to.
    fn next(&self, edge: Edge) -> Option<u32> {
        edge.to.and_then(|target| self.machine.state_of(target))
    }

    /// The wire of an exit's next state.
    fn exit(&self, edge: Edge) -> Result<u32, Fault> {
        self.at(edge.from, Role::Exit { edge, exit_to: self.next(edge) })
    }

    /// The next state and registers are those of the only exit, or chosen by the last.
    fn check_next(&self, ends: &Ends) -> Result<(), Fault> {
        let (state, registers) = match self.exits()[..] {
            [edge] => (self.exit(edge)?, ends[&edge.from].clone()),
            [.., edge] => {
                let register = |register| Role::ExitRegister { edge, register };
                let registers = (0..self.graph.registers()).map(register);
                let registers = registers.map(|role| self.at(edge.from, role));
                let state = self.at(edge.from, Role::ExitState { edge })?;
                (state, registers.collect::<Result<_, _>>()?)
            }
            [] => return Err(String::from("there is no exit")),
        };
        let next = self.machine.next_state(self.state);
        expect("next state", next, Some(Reference::from_word(state)))?;
        for (register, wanted) in (0..).zip(registers) {
            let next = self.machine.next_register(self.state, register);
            expect("next register", next, Some(Reference::from_word(wanted)))?;
        }
        Ok(())
    }
}

/// The edge before one in a list, and its place.
fn previous(edges: &[Edge], edge: Edge) -> Result<(usize, Edge), Fault> {
    let place = edges.iter().position(|&other| other == edge).filter(|&place| place > 0);
    let place = place.ok_or(format!("{edge:?} is none after the first"))?;
    Ok((place - 1, edges[place - 1]))
}

/// The edges of a block, true first, a halt among them.
fn leaving(graph: &Graph, from: u32) -> Vec<Edge> {
    let edge = |to, branch| Edge { from, to, branch };
    match graph.block(from).expect("a block").ending {
        Ending::Goto(t) => vec![edge(Some(t), None)],
        Ending::Ite { t, f, .. } => vec![edge(Some(t), Some(true)), edge(Some(f), Some(false))],
        Ending::Halt => vec![edge(None, None)],
    }
}
