//! The states that may change a register, by the proved library.

use gutkavu::{Machine, Refusal};

pub struct Touching {
    pub register: u32,
    /// In rising order.
    pub states: Vec<u32>,
}

impl Touching {
    pub fn of(machine: &Machine, register: u32) -> Result<Touching, Refusal> {
        let mut states = Vec::new();
        for state in 0..machine.states() {
            if machine.touches(state, register)? {
                states.push(state);
            }
        }
        Ok(Touching { register, states })
    }
}
