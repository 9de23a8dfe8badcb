//! The fold of the rules (docs/RULES.md, Fold) in both versions, with cycles refused or taken, over the
//! table handed in: its candidates, its kept paths, its counts.

use crate::foldings::Folding;
use crate::graphs::{self, Edge};
use crate::parts::Part;
use crate::sharing::Share;
use crate::superbubbles::{candidates, Superbubble, Way};
use crate::table::Table;
use crate::versions::Version;
use std::collections::BTreeSet;

/// What a fold gives.
#[derive(Clone, Default, PartialEq)]
pub struct Folded {
    pub table: Table,
    pub folded: usize,
    /// How many candidates the new table has.
    pub left: usize,
}

impl Folded {
    pub fn parts(&self) -> Vec<Part> {
        let mut parts = vec![Part::value("folded", self.folded), Part::value("left", self.left)];
        parts.extend(self.table.parts());
        parts
    }
}

/// A candidate that is folded.
pub struct Chosen {
    pub superbubble: Superbubble,
    /// The path that is kept, from the entrance to the exit.
    pub kept: Vec<usize>,
    /// The interior vertices that are not on it.
    dropped: Vec<usize>,
    /// The sum of their counts.
    pub reads: u64,
}

impl Chosen {
    fn of(way: &Way, version: Version, table: &Table, superbubble: Superbubble) -> Chosen {
        let kept = (way.kept)(version, table, &superbubble);
        let on_path: BTreeSet<usize> = kept.iter().copied().collect();
        let dropped: Vec<usize> = superbubble.all.difference(&on_path).copied().collect();
        let reads = dropped.iter().map(|&vertex| table.counts[vertex]).sum();
        let chosen = Chosen { superbubble, kept, dropped, reads };
        assert!(
            !chosen.inner().is_empty() || (version == Version::One && reads == 0),
            "a kept bare edge means version 1, and that every dropped count is 0"
        );
        chosen
    }

    /// The inner vertices of the kept path, in path order.
    pub fn inner(&self) -> &[usize] {
        &self.kept[1..self.kept.len() - 1]
    }

    /// Removes the edges inside U along which the kept path does not go.
    fn remove_from(&self, edges: &mut Vec<Edge>) {
        let steps: BTreeSet<Edge> = self.kept.windows(2).map(|two| (two[0], two[1])).collect();
        let inside = |vertex| self.superbubble.all.contains(&vertex);
        edges.retain(|&(from, to)| !(inside(from) && inside(to)) || steps.contains(&(from, to)));
    }
}

/// Folds a well-formed table, which has no cycle where the fold refuses one.
pub fn fold(way: &Way, folding: Folding, table: &Table, budget: u32) -> Folded {
    let chosen = chosen(way, folding, table, budget);
    let mut edges = table.edges();
    chosen.iter().for_each(|one| one.remove_from(&mut edges));
    let table = graphs::of_edges(&edges, counts(table, &chosen, way.share));
    let left = candidates(way, folding.rings, &table).len();
    Folded { table, folded: chosen.len(), left }
}

/// The candidates that are folded.
pub fn chosen(way: &Way, folding: Folding, table: &Table, budget: u32) -> Vec<Chosen> {
    let candidates = candidates(way, folding.rings, table).into_iter().take(budget as usize);
    candidates.map(|superbubble| Chosen::of(way, folding.version, table, superbubble)).collect()
}

/// The counts after a fold of these, where dropped reads are shared by this rule. A kept bare edge takes
/// none.
pub fn counts(table: &Table, chosen: &[Chosen], share: Share) -> Vec<u64> {
    let mut counts = table.counts.clone();
    for one in chosen {
        for &vertex in &one.dropped {
            counts[vertex] = 0;
        }
        let inner = one.inner().len();
        let portions = if inner > 0 { share(one.reads, inner) } else { Vec::new() };
        for (&vertex, portion) in one.kept.iter().zip(portions) {
            counts[vertex] += portion;
        }
    }
    counts
}
