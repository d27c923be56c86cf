//! What a picture needs of a graph table and of the machine table made from it.

pub struct Tables {
    pub graph: Vec<u32>,
    pub machine: Vec<u32>,
}

/// How an edge is taken.
#[derive(Clone, Copy, Debug, PartialEq, Eq)]
pub enum Branch {
    Goto,
    True,
    False,
}

pub struct Edge {
    pub source: usize,
    pub target: usize,
    pub branch: Branch,
}

impl Tables {
    pub fn blocks(&self) -> usize {
        self.graph[0] as usize
    }

    pub fn registers(&self) -> u32 {
        self.graph[1]
    }

    fn block(&self, n: usize) -> &[u32] {
        &self.graph[2 + 40 * n..][..40]
    }

    /// Code, d, a or literal, b of each instruction.
    pub fn instructions(&self, n: usize) -> impl Iterator<Item = &[u32]> {
        let block = self.block(n);
        block[1..33].chunks_exact(4).take(block[0] as usize)
    }

    /// Kind, comparison, a, b, t, f.
    pub fn ending(&self, n: usize) -> &[u32] {
        &self.block(n)[33..39]
    }

    pub fn edges(&self, source: usize) -> Vec<Edge> {
        let edge = |target: u32, branch| Edge { source, target: target as usize, branch };
        match *self.ending(source) {
            [1, _, _, _, t, _] => vec![edge(t, Branch::Goto)],
            [2, _, _, _, t, f] => vec![edge(t, Branch::True), edge(f, Branch::False)],
            _ => Vec::new(),
        }
    }

    pub fn states(&self) -> usize {
        self.machine[0] as usize
    }

    pub fn starter(&self, state: usize) -> usize {
        self.machine[2 + state] as usize
    }

    /// The state of a block; none where it is unreachable.
    pub fn state(&self, block: usize) -> Option<usize> {
        Some(self.machine[66 + block]).filter(|&state| state != 255).map(|state| state as usize)
    }

    pub fn is_starter(&self, block: usize) -> bool {
        self.state(block).is_some_and(|state| self.starter(state) == block)
    }

    pub fn wires(&self, state: usize) -> u32 {
        self.machine[130 + 20 * state + 1]
    }
}
