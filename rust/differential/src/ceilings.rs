//! What the nodes of lists came to under the ceiling on extras, by the number of nodes and by a node's own cap.

use reference::ceiling::{large_cap, Counts, Step};
use std::cmp::Ordering;
use std::collections::BTreeMap;
use std::fmt::{Display, Formatter};

/// How many nodes there were, and what their answers came to, by n and cap.
#[derive(Clone, Debug, Default)]
pub struct Ceilings {
    nodes: BTreeMap<(usize, usize), (usize, Counts)>,
}

impl Ceilings {
    /// Takes up the nodes of a list, which have these caps.
    pub fn add(&mut self, caps: &[usize], steps: &[Step]) {
        for (node, cap) in caps.iter().enumerate() {
            let (nodes, counts) = self.nodes.entry((caps.len(), *cap)).or_default();
            let own = Counts::of(steps.iter().filter(|step| step.node == node));
            *nodes += 1;
            *counts = [*counts, own].into_iter().sum();
        }
    }

    /// How many nodes have an n and a cap that fit, and what their answers came to.
    pub fn of(&self, fits: impl Fn(usize, usize) -> bool) -> (usize, Counts) {
        let fitting = || self.nodes.iter().filter(|((n, cap), _)| fits(*n, *cap));
        (fitting().map(|(_, (nodes, _))| nodes).sum(), fitting().map(|(_, (_, counts))| *counts).sum())
    }

    /// The same for the nodes whose cap is on this side of the least one under which no extra frame is issued.
    pub fn on(&self, side: Ordering) -> (usize, Counts) {
        self.of(|n, cap| cap.cmp(&large_cap(n)) == side)
    }
}

impl Display for Ceilings {
    fn fmt(&self, f: &mut Formatter<'_>) -> std::fmt::Result {
        let [below, at, above] = [Ordering::Less, Ordering::Equal, Ordering::Greater].map(|side| self.on(side).0);
        writeln!(f, "{below} nodes with a cap below (n - 1) x (n - 1), {at} with this cap, {above} with a larger one")?;
        write!(f, "{:#?}", self.of(|_, _| true).1)
    }
}
