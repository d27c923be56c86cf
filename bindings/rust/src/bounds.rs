//! Registers known within bounds.

use std::ops::RangeInclusive;

/// A lowest and a highest signed value for each of 16 registers, both included;
/// [`Machine::bounds`](crate::Machine::bounds) tells what one cycle can do within them.
///
/// ```
/// use gutkavu::Bounds;
///
/// let known = Bounds::FULL.with(0, -720..=720).with(1, 0..=0);
/// assert_eq!(known.range(0), -720..=720);
/// assert_eq!(known.range(2), i32::MIN..=i32::MAX);
///
/// let mut registers = [0; 16];
/// registers[0] = -200i32 as u32;
/// assert!(known.contains(&registers));
/// registers[0] = 721;
/// assert!(!known.contains(&registers));
/// ```
#[derive(Clone, Copy, Debug, PartialEq, Eq, Hash)]
pub struct Bounds {
    pub lowest: [i32; 16],
    pub highest: [i32; 16],
}

impl Bounds {
    /// Nothing is known: any register may have any value.
    pub const FULL: Bounds = Bounds { lowest: [i32::MIN; 16], highest: [i32::MAX; 16] };

    /// Each register has the one value that its word stands for.
    pub fn exact(registers: &[u32; 16]) -> Bounds {
        let values = registers.map(|word| word as i32);
        Bounds { lowest: values, highest: values }
    }

    /// The same bounds with another range for one register, which must be below 16.
    #[must_use]
    pub fn with(mut self, register: usize, range: RangeInclusive<i32>) -> Bounds {
        (self.lowest[register], self.highest[register]) = range.into_inner();
        self
    }

    /// The range of a register, which must be below 16.
    pub fn range(&self, register: usize) -> RangeInclusive<i32> {
        self.lowest[register]..=self.highest[register]
    }

    /// Whether every one of the 16 registers is within its range.
    pub fn contains(&self, registers: &[u32; 16]) -> bool {
        (0..16).all(|register| self.range(register).contains(&(registers[register] as i32)))
    }
}
