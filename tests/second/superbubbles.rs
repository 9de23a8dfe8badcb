//! Superbubbles as the operations need them: the pair with its set U, the candidates of a fold, those
//! that it skips, and the two ways in which the second program finds them.

use crate::definition;
use crate::foldings::Rings;
use crate::quick;
use crate::sharing::Share;
use crate::table::Table;
use crate::versions::Version;
use std::collections::BTreeSet;

pub struct Superbubble {
    pub entrance: usize,
    pub exit: usize,
    /// U, the entrance and the exit among it.
    pub all: BTreeSet<usize>,
}

impl Superbubble {
    pub fn pair(&self) -> (usize, usize) {
        (self.entrance, self.exit)
    }

    pub fn is_interior(&self, vertex: usize) -> bool {
        vertex != self.entrance && vertex != self.exit && self.all.contains(&vertex)
    }

    pub fn has_interior(&self) -> bool {
        self.all.len() > 2
    }

    /// Whether an edge leads from the entrance to the exit.
    pub fn has_bare_edge(&self, table: &Table) -> bool {
        table.row(self.entrance).contains(&(self.exit as u32))
    }

    /// Whether the whole U of another lies in this interior.
    pub fn surrounds(&self, other: &Superbubble) -> bool {
        other.all.iter().all(|&vertex| self.is_interior(vertex))
    }
}

/// A way to answer what the rules ask about a well-formed table.
pub struct Way {
    /// All superbubbles, by rising entrance.
    pub superbubbles: fn(&Table) -> Vec<Superbubble>,
    /// The superbubble of an entrance and an exit, where they form one.
    pub judge: fn(&Table, usize, usize) -> Option<Superbubble>,
    /// The path that the fold of a version keeps, from the entrance to the exit.
    pub kept: fn(Version, &Table, &Superbubble) -> Vec<usize>,
    /// What each vertex of the kept path gets of the dropped reads.
    pub share: Share,
    /// Whether there is a directed cycle; edges that lead to no vertex are passed over.
    pub has_cycle: fn(&Table) -> bool,
    /// Whether a path leads from one vertex to another one.
    pub reaches: fn(&Table, usize, usize) -> bool,
}

/// How many vertices a table may have to be answered by the definition.
pub const FEW_VERTICES: usize = 10;

/// The way for a table: by the definition while it is small, and else the quick one.
pub fn way(table: &Table) -> &'static Way {
    if is_small(table) {
        &definition::WAY
    } else {
        &quick::WAY
    }
}

pub fn is_small(table: &Table) -> bool {
    table.vertices().is_some_and(|n| n <= FEW_VERTICES)
}

/// The candidates of a fold, by rising entrance: the superbubbles with an interior, without those that
/// are skipped where rings are taken, which are outermost among themselves.
pub fn candidates(way: &Way, rings: Rings, table: &Table) -> Vec<Superbubble> {
    let mut all = (way.superbubbles)(table);
    all.retain(Superbubble::has_interior);
    if rings == Rings::Taken {
        all.retain(|one| !is_skipped(way, table, one));
    }
    let is_outermost = |one| !all.iter().any(|other| other.surrounds(one));
    let outermost: Vec<bool> = all.iter().map(is_outermost).collect();
    all.into_iter().zip(outermost).filter_map(|(one, is)| is.then_some(one)).collect()
}

/// Whether a fold that takes rings never folds this one itself: there is a bare edge, and the exit reaches
/// the entrance.
pub fn is_skipped(way: &Way, table: &Table, one: &Superbubble) -> bool {
    one.has_bare_edge(table) && (way.reaches)(table, one.exit, one.entrance)
}
