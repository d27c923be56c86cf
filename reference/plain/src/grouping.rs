//! Grouping: which blocks of a graph share a state.

use crate::{block, BLOCKS, ENDING, NONE};

/// The successors of each block, true first.
pub type Edges = [[u8; 2]; BLOCKS];

pub struct Grouping {
    /// States, and their starters in order.
    pub count: usize,
    pub starters: [u8; BLOCKS],
    pub is_starter: [bool; BLOCKS],
    /// The state of each block.
    pub states: [u8; BLOCKS],
}

/// The path of a depth-first visit: its blocks, and how many edges of each are passed.
struct Path {
    blocks: [u8; BLOCKS],
    passed: [u8; BLOCKS],
    depth: usize,
}

enum Step {
    /// An edge of a block, and its target.
    Edge(usize, usize),
    /// All edges of a block are passed.
    Left(usize),
}

impl Path {
    fn from(block: usize) -> Path {
        let mut path = Path { blocks: [0; BLOCKS], passed: [0; BLOCKS], depth: 0 };
        path.go_down(block);
        path
    }

    #[inline]
    fn go_down(&mut self, block: usize) {
        self.blocks[self.depth] = block as u8;
        self.passed[self.depth] = 0;
        self.depth += 1;
    }

    #[inline]
    fn step(&mut self, edges: &Edges) -> Option<Step> {
        let last = self.depth.checked_sub(1)?;
        let block = self.blocks[last] as usize;
        while self.passed[last] < 2 {
            let target = edges[block][self.passed[last] as usize];
            self.passed[last] += 1;
            if target != NONE {
                return Some(Step::Edge(block, target as usize));
            }
        }
        self.depth = last;
        Some(Step::Left(block))
    }
}

pub fn edges_of(table: &[u32]) -> Edges {
    let mut edges = [[NONE; 2]; BLOCKS];
    for (n, targets) in edges.iter_mut().enumerate().take(table[0] as usize) {
        let ending = &block(table, n)[ENDING..];
        match ending[0] {
            1 => targets[0] = ending[4] as u8,
            2 => *targets = [ending[4] as u8, ending[5] as u8],
            _ => {}
        }
    }
    edges
}

impl Grouping {
    /// Block 0 alone starts a state, and no block has one.
    fn entry() -> Grouping {
        let mut grouping = Grouping {
            count: 0,
            starters: [0; BLOCKS],
            is_starter: [false; BLOCKS],
            states: [NONE; BLOCKS],
        };
        grouping.add_starter(0);
        grouping
    }

    fn add_starter(&mut self, block: usize) {
        if !self.is_starter[block] {
            self.is_starter[block] = true;
            self.starters[self.count] = block as u8;
            self.count += 1;
        }
    }

    /// Loop detection: a block met while on the path becomes a starter.
    fn find_loops(&mut self, edges: &Edges) {
        let (mut seen, mut on_path) = ([false; BLOCKS], [false; BLOCKS]);
        let mut path = Path::from(0);
        (seen[0], on_path[0]) = (true, true);
        while let Some(step) = path.step(edges) {
            match step {
                Step::Left(block) => on_path[block] = false,
                Step::Edge(_, target) if !seen[target] => {
                    (seen[target], on_path[target]) = (true, true);
                    path.go_down(target);
                }
                Step::Edge(_, target) if on_path[target] => self.add_starter(target),
                Step::Edge(..) => {}
            }
        }
    }

    /// Population: each state in turn takes the blocks that its starter leads to, up to starters.
    fn populate(&mut self, edges: &Edges) {
        self.states = [NONE; BLOCKS];
        for state in 0..self.count {
            let starter = self.starters[state] as usize;
            let mut path = Path::from(starter);
            self.states[starter] = state as u8;
            while let Some(step) = path.step(edges) {
                let Step::Edge(_, target) = step else { continue };
                if self.states[target] == NONE && !self.is_starter[target] {
                    self.states[target] = state as u8;
                    path.go_down(target);
                }
            }
        }
    }

    /// Detection: the target of the first edge into the middle of another state.
    fn illegal_target(&self, edges: &Edges) -> Option<usize> {
        let mut seen = [false; BLOCKS];
        let mut path = Path::from(0);
        seen[0] = true;
        while let Some(step) = path.step(edges) {
            let Step::Edge(block, target) = step else { continue };
            if self.states[block] != self.states[target] && !self.is_starter[target] {
                return Some(target);
            }
            if !seen[target] {
                seen[target] = true;
                path.go_down(target);
            }
        }
        None
    }
}

pub fn group(edges: &Edges) -> Grouping {
    let mut grouping = Grouping::entry();
    grouping.find_loops(edges);
    loop {
        grouping.populate(edges);
        match grouping.illegal_target(edges) {
            Some(target) => grouping.add_starter(target),
            None => return grouping,
        }
    }
}
