//! The superbubbles with an interior among which a fold that takes rings finds its candidates
//! (docs/RULES.md, Rings), and wrong rules by which it could do so, which the cases must tell from the right
//! one.

use crate::definition;
use crate::quick;
use crate::superbubbles::Superbubble;
use crate::table::Table;

/// A superbubble with an interior, and what matters to whether it is skipped.
pub struct Found {
    pub superbubble: Superbubble,
    pub has_bare_edge: bool,
    /// Whether the exit reaches the entrance.
    pub leads_back: bool,
    /// The places of those that surround it.
    around: Vec<usize>,
}

impl Found {
    /// All of a table, by rising entrance.
    pub fn all_of(table: &Table) -> Vec<Found> {
        let mut all = (quick::WAY.superbubbles)(table);
        all.retain(Superbubble::has_interior);
        let around = |one| (0..all.len()).filter(|&other| all[other].surrounds(one)).collect();
        let around: Vec<Vec<usize>> = all.iter().map(around).collect();
        all.into_iter().zip(around).map(|(one, around)| Found::of(table, one, around)).collect()
    }

    fn of(table: &Table, superbubble: Superbubble, around: Vec<usize>) -> Found {
        let has_bare_edge = superbubble.has_bare_edge(table);
        let (entrance, exit) = superbubble.pair();
        let leads_back = (quick::WAY.reaches)(table, exit, entrance);
        Found { superbubble, has_bare_edge, leads_back, around }
    }

    pub fn is_skipped(&self) -> bool {
        self.has_bare_edge && self.leads_back
    }

    pub fn surrounds(&self, other: &Found) -> bool {
        self.superbubble.surrounds(&other.superbubble)
    }
}

/// A rule of finding: for each superbubble with an interior whether it is a candidate; none where the
/// table is refused.
pub type Find = fn(&Table, &[Found]) -> Option<Vec<bool>>;

pub const RIGHT: Find = |_, all| Some(outermost(all, |one| !one.is_skipped()));

pub const WRONG: [(&str, Find); 10] = [
    ("nothing skipped", |_, all| Some(outermost(all, |_| true))),
    ("everything on a cycle skipped", |_, all| Some(outermost(all, |one| !one.leads_back))),
    ("everything with a bare edge skipped", |_, all| {
        Some(outermost(all, |one| !one.has_bare_edge))
    }),
    ("a candidate inside a skipped superbubble not folded", |_, all| {
        let found = outermost(all, |_| true).into_iter().zip(all);
        Some(found.map(|(is_outermost, one)| is_outermost && !one.is_skipped()).collect())
    }),
    ("a candidate around a skipped superbubble not folded", |table, all| {
        let mut found = RIGHT(table, all)?;
        let skipped = all.iter().filter(|one| one.is_skipped());
        skipped.flat_map(|one| &one.around).for_each(|&around| found[around] = false);
        Some(found)
    }),
    ("reaching tested inside U only", |table, all| {
        Some(outermost(all, |one| !one.has_bare_edge || !reaches_inside(table, &one.superbubble)))
    }),
    ("skipped where the exit leads to any cycle", |table, all| {
        let leads = leads_to_cycle(table);
        Some(outermost(all, |one| !one.has_bare_edge || !leads[one.superbubble.exit]))
    }),
    ("a way back of two edges looked for alone", |table, all| {
        let has_such = |one: &Found| {
            let (entrance, exit) = one.superbubble.pair();
            let after = table.row(exit).iter();
            after.copied().any(|next| table.row(next as usize).contains(&(entrance as u32)))
        };
        Some(outermost(all, |one| !one.has_bare_edge || !has_such(one)))
    }),
    ("a way back looked for along first targets alone", |table, all| {
        Some(outermost(all, |one| !one.has_bare_edge || !leads_back_by_first(table, one)))
    }),
    ("9 given", |table, all| {
        if (quick::WAY.has_cycle)(table) {
            return None;
        }
        RIGHT(table, all)
    }),
];

/// Those of such a kind that are outermost among themselves.
fn outermost(all: &[Found], such: impl Fn(&Found) -> bool) -> Vec<bool> {
    let is_such: Vec<bool> = all.iter().map(such).collect();
    let is_outermost = |one: &Found| !one.around.iter().any(|&around| is_such[around]);
    all.iter().zip(&is_such).map(|(one, &is_such)| is_such && is_outermost(one)).collect()
}

/// Whether the exit reaches the entrance by edges inside U.
pub fn reaches_inside(table: &Table, one: &Superbubble) -> bool {
    let mut edges = table.edges();
    edges.retain(|(from, to)| one.all.contains(from) && one.all.contains(to));
    definition::reached(table.counts.len(), &edges, one.exit)[one.entrance]
}

/// For each vertex whether some path from it comes to a cycle: whether it is left when vertices without a
/// successor are taken away until there is none.
pub fn leads_to_cycle(table: &Table) -> Vec<bool> {
    let mut left = vec![true; table.counts.len()];
    loop {
        let before = left.clone();
        for vertex in 0..left.len() {
            left[vertex] = table.row(vertex).iter().any(|&next| left[next as usize]);
        }
        if left == before {
            return left;
        }
    }
}

fn leads_back_by_first(table: &Table, one: &Found) -> bool {
    let (entrance, mut at) = one.superbubble.pair();
    for _ in 0..table.counts.len() {
        match table.row(at).first() {
            Some(&next) => at = next as usize,
            None => return false,
        }
        if at == entrance {
            return true;
        }
    }
    false
}
