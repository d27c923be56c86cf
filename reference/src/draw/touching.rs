//! The states that touch a register, by the proved library.

use super::tables::Tables;
use gutkavu::{Machine, Refusal};

pub struct Touching {
    pub register: u32,
    /// Whether each state touches it.
    pub states: Vec<bool>,
}

impl Touching {
    pub fn of(tables: &Tables, register: u32) -> Result<Touching, Refusal> {
        let machine = Machine::from_words(&tables.machine)?;
        let states = (0..machine.states()).map(|state| machine.touches(state, register));
        Ok(Touching { register, states: states.collect::<Result<_, _>>()? })
    }
}
