//! Plan sheets of cubes, with faults at random.
use crate::random::Random;
use std::collections::BTreeSet;

#[derive(Clone, Copy)]
pub struct Machine {
    pub extent: u64,
    pub torus: bool,
    /// With weights its plan is of version 2.
    pub weights: Option<[u8; 3]>,
}

/// How many links and boards are dead.
#[derive(Clone, Copy)]
pub struct Faults {
    pub links: u64,
    pub boards: u64,
}

const DEAD_BOARD: u8 = 3;

impl Machine {
    pub fn name(self) -> String {
        let e = self.extent;
        let weights = self.weights.map_or(String::new(), |[x, y, z]| format!(", weights {x} {y} {z}"));
        format!("{e} × {e} × {e} {}{weights}", if self.torus { "torus" } else { "mesh" })
    }

    pub fn nodes(self) -> u64 {
        self.extent.pow(3)
    }

    pub fn links(self) -> u64 {
        let rows = self.extent * self.extent;
        3 * rows * if self.torus { self.extent } else { self.extent - 1 }
    }

    /// Whether the node has a link in plus.
    fn has_link(self, node: u64, dim: u64) -> bool {
        self.torus || node / self.extent.pow(dim as u32) % self.extent + 1 < self.extent
    }

    /// A quarter of it sound at least: more faults than these are no machine to measure.
    pub fn holds(self, faults: Faults) -> bool {
        4 * faults.links <= self.links() && 4 * faults.boards <= self.nodes()
    }

    pub fn plan(self, faults: Faults) -> Vec<u8> {
        let mut random = Random(0x9e3779b97f4a7c15);
        let mut listed = BTreeSet::new();
        while (listed.len() as u64) < faults.links {
            let (node, dim) = (random.below(self.nodes()), random.below(3));
            if self.has_link(node, dim) {
                listed.insert((node as u16, dim as u8));
            }
        }
        while (listed.len() as u64) < faults.links + faults.boards {
            listed.insert((random.below(self.nodes()) as u16, DEAD_BOARD));
        }
        let e = self.extent as u8;
        let version = if self.weights.is_some() { 2 } else { 1 };
        let mut sheet = vec![version, 0, 0, e, e, e, if self.torus { 7 } else { 0 }];
        sheet.extend(self.weights.iter().flatten());
        sheet.extend((listed.len() as u16).to_be_bytes());
        for (node, kind) in listed {
            sheet.extend(node.to_be_bytes());
            sheet.push(kind);
        }
        let follows = sheet.len() as u16 - 3;
        sheet[1..3].copy_from_slice(&follows.to_be_bytes());
        sheet
    }
}
