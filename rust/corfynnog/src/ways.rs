//! Ways through associations by their role, and which of them carry a link.

use crate::diagram::{Diagram, Way};

/// A way of a diagram: the index of its association, and its side.
#[derive(Clone, Copy, Debug, PartialEq, Eq)]
pub struct WayOf {
    pub association: usize,
    pub side: u8,
}

impl Diagram {
    /// The way itself.
    pub fn way(&self, of: WayOf) -> Way<'_> {
        self.associations[of.association].way(of.side)
    }

    /// All ways of a role, carried or not.
    pub fn ways(&self, role: &str) -> Vec<WayOf> {
        let all = (0..self.associations.len()).flat_map(|association| {
            let side = |side| WayOf { association, side };
            [side(0), side(1)]
        });
        all.filter(|&of| self.way(of).role == role).collect()
    }

    /// The ways of a role that are carried.
    pub fn carried_ways(&self, role: &str) -> Vec<WayOf> {
        let mut ways = self.ways(role);
        ways.retain(|of| self.associations[of.association].carries(of.side));
        ways
    }

    /// The ways that carry a link of a role between objects of these type names.
    pub fn carriers(&self, from: &str, role: &str, to: &str) -> Vec<WayOf> {
        let mut ways = self.carried_ways(role);
        ways.retain(|&of| {
            let way = self.way(of);
            self.is_instance(from, way.from) && self.is_instance(to, way.to)
        });
        ways
    }
}
