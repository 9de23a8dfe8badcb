//! The definition of the rules (docs/RULES.md, The definition), word by word, for tables of few
//! vertices: sets that are closed under one more edge, every condition tried on every pair, every path
//! laid beside every other, reads dealt one by one. There is no search here, and nothing quick.

use crate::sharing;
use crate::superbubbles::{Superbubble, Way};
use crate::table::Table;
use crate::versions::Version;
use std::cmp::Reverse;

pub const WAY: Way = Way { superbubbles, judge, kept, share: sharing::dealt, has_cycle, reaches };

/// A set of vertices: for each whether it belongs to it.
type Set = Vec<bool>;
type Edge = (usize, usize);

/// F: the vertices with a path from s on which t is nowhere but at the last place.
fn forward(n: usize, edges: &[Edge], s: usize, t: usize) -> Set {
    closed(n, edges, s, |set, (from, to)| (set[from] && from != t).then_some(to))
}

/// B: the vertices with a path to t on which s is nowhere but at the first place.
fn backward(n: usize, edges: &[Edge], s: usize, t: usize) -> Set {
    closed(n, edges, t, |set, (from, to)| (set[to] && to != s).then_some(from))
}

/// The smallest set with this vertex that has whatever an edge adds to it.
fn closed(
    n: usize,
    edges: &[Edge],
    first: usize,
    adds: impl Fn(&Set, Edge) -> Option<usize>,
) -> Set {
    let mut set = vec![false; n];
    set[first] = true;
    loop {
        let before = set.clone();
        for &edge in edges {
            if let Some(more) = adds(&set, edge) {
                set[more] = true;
            }
        }
        if set == before {
            return set;
        }
    }
}

/// Whether some edge leads back: its end reaches its beginning.
fn have_cycle(n: usize, edges: &[Edge]) -> bool {
    edges.iter().any(|&(from, to)| reached(n, edges, to)[from])
}

/// The vertices with a path from this one.
pub fn reached(n: usize, edges: &[Edge], first: usize) -> Set {
    closed(n, edges, first, |set, (from, to)| set[from].then_some(to))
}

/// U of a pair that meets reachability, matching and acyclicity.
fn meets_the_first_three(n: usize, edges: &[Edge], s: usize, t: usize) -> Option<Set> {
    let (f, b) = (forward(n, edges, s, t), backward(n, edges, s, t));
    let reachability = f[t];
    let matching = f == b;
    if !reachability || !matching {
        return None;
    }
    let inside: Vec<Edge> = edges.iter().copied().filter(|&(from, to)| f[from] && f[to]).collect();
    let acyclicity = !have_cycle(n, &inside);
    acyclicity.then_some(f)
}

fn judge(table: &Table, s: usize, t: usize) -> Option<Superbubble> {
    if s == t {
        return None;
    }
    let (n, edges) = (table.starts.len() - 1, table.edges());
    let u = meets_the_first_three(n, &edges, s, t)?;
    let meets_with_s = |x| x != s && meets_the_first_three(n, &edges, s, x).is_some();
    let minimality = !(0..n).any(|x| u[x] && x != t && meets_with_s(x));
    let all = (0..n).filter(|&vertex| u[vertex]).collect();
    minimality.then_some(Superbubble { entrance: s, exit: t, all })
}

fn superbubbles(table: &Table) -> Vec<Superbubble> {
    let n = table.starts.len() - 1;
    let pairs = (0..n).flat_map(|s| (0..n).map(move |t| (s, t)));
    pairs.filter_map(|(s, t)| judge(table, s, t)).collect()
}

/// Of all paths that which is worth most; of equal ones that with the smaller vertex at the first place
/// where they differ.
pub fn kept(version: Version, table: &Table, superbubble: &Superbubble) -> Vec<usize> {
    let paths = paths(table, superbubble, usize::MAX).into_iter();
    paths.min_by_key(|path| (Reverse(worth(version, table, path)), path.clone())).unwrap()
}

/// What a path is worth: the sum over its inner vertices, or the smallest of their counts. The bare edge
/// is worth 0, or less than anything.
pub fn worth(version: Version, table: &Table, path: &[usize]) -> Option<u64> {
    let counts = path[1..path.len() - 1].iter().map(|&vertex| table.counts[vertex]);
    match version {
        Version::One => Some(counts.sum()),
        Version::Two => counts.min(),
    }
}

/// Every path from the entrance to the exit; where there are more than so many, one more than these.
pub fn paths(table: &Table, superbubble: &Superbubble, most: usize) -> Vec<Vec<usize>> {
    let mut paths = Vec::new();
    append_paths(table, superbubble, &mut vec![superbubble.entrance], most, &mut paths);
    paths
}

/// Appends every path to the exit that begins with these vertices.
fn append_paths(
    table: &Table,
    within: &Superbubble,
    begun: &mut Vec<usize>,
    most: usize,
    paths: &mut Vec<Vec<usize>>,
) {
    let last = *begun.last().unwrap();
    if last == within.exit {
        paths.push(begun.clone());
        return;
    }
    for &next in table.row(last) {
        if paths.len() <= most {
            begun.push(next as usize);
            append_paths(table, within, begun, most, paths);
            begun.pop();
        }
    }
}

fn has_cycle(table: &Table) -> bool {
    have_cycle(table.starts.len() - 1, &table.edges())
}

fn reaches(table: &Table, from: usize, to: usize) -> bool {
    reached(table.starts.len() - 1, &table.edges(), from)[to]
}
