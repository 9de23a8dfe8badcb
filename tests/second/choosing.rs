//! Wrong rules by which the fold of version 2 could choose the path that it keeps (docs/RULES.md, Fold),
//! which the cases must tell from the right one.

use crate::definition;
use crate::superbubbles::Superbubble;
use crate::table::Table;
use crate::versions::Version;
use std::cmp::Reverse;

/// A rule of choosing: the kept path, from the entrance to the exit. It is handed a superbubble with an
/// interior that has few paths.
pub type Choose = fn(&Table, &Superbubble) -> Vec<usize>;

pub const WRONG: [(&str, Choose); 14] = [
    ("by the sum", |table, one| definition::kept(Version::One, table, one)),
    ("ties settled in one backward pass", |table, one| by_own_best(table, one, one.entrance).1),
    ("the bare edge above all paths", |table, one| {
        worth_most(table, one, |path| weakest(table, inner(path)).unwrap_or(u64::MAX))
    }),
    ("the bare edge worth 0, and kept in a tie", |table, one| {
        worth_most(table, one, |path| weakest(table, inner(path)).unwrap_or(0))
    }),
    ("ties to the larger vertex", |table, one| {
        let paths = definition::paths(table, one, usize::MAX).into_iter();
        paths.max_by_key(|path| (weakest(table, inner(path)), path.clone())).unwrap()
    }),
    ("ties to the path of fewer vertices", |table, one| {
        worth_most(table, one, |path| (weakest(table, inner(path)), Reverse(path.len())))
    }),
    ("ties to the larger sum", |table, one| {
        let sum = |path: &[usize]| definition::worth(Version::One, table, path);
        worth_most(table, one, |path| (weakest(table, inner(path)), sum(path)))
    }),
    ("the entrance counted", |table, one| {
        by_weakest_of(table, one, |path| path[..path.len() - 1].to_vec(), 0)
    }),
    ("the exit counted", |table, one| by_weakest_of(table, one, |path| path[1..].to_vec(), 0)),
    ("the first inner vertex not counted", |table, one| {
        let others = |path: &[usize]| inner(path).iter().skip(1).copied().collect();
        by_weakest_of(table, one, others, u64::MAX)
    }),
    ("the last inner vertex not counted", |table, one| {
        let others = |path: &[usize]| inner(path).iter().rev().skip(1).copied().collect();
        by_weakest_of(table, one, others, u64::MAX)
    }),
    ("the largest count in place of the smallest", |table, one| {
        worth_most(table, one, |path| inner(path).iter().map(|&vertex| table.counts[vertex]).max())
    }),
    ("a count of 0 passed over", |table, one| {
        let has_reads = |vertex: &usize| table.counts[*vertex] > 0;
        let others = |path: &[usize]| inner(path).iter().copied().filter(has_reads).collect();
        by_weakest_of(table, one, others, 0)
    }),
    ("the counts taken in 32 bits", |table, one| {
        let counts = table.counts.iter().map(|&count| u64::from(count as u32)).collect();
        definition::kept(Version::Two, &Table { counts, ..table.clone() }, one)
    }),
];

fn inner(path: &[usize]) -> &[usize] {
    &path[1..path.len() - 1]
}

/// The smallest count of some vertices, where there are any.
fn weakest(table: &Table, vertices: &[usize]) -> Option<u64> {
    vertices.iter().map(|&vertex| table.counts[vertex]).min()
}

/// The path that is worth most; of equal ones that with the smaller vertex where they differ.
fn worth_most<T: Ord>(
    table: &Table,
    superbubble: &Superbubble,
    worth: impl Fn(&[usize]) -> T,
) -> Vec<usize> {
    let paths = definition::paths(table, superbubble, usize::MAX).into_iter();
    paths.min_by_key(|path| (Reverse(worth(path)), path.clone())).unwrap()
}

/// The same where a path is worth the smallest count of some of its vertices, or so much where there are
/// none of these, and the bare edge less than anything.
fn by_weakest_of(
    table: &Table,
    superbubble: &Superbubble,
    some: impl Fn(&[usize]) -> Vec<usize>,
    none: u64,
) -> Vec<usize> {
    worth_most(table, superbubble, |path| {
        (path.len() > 2).then(|| weakest(table, &some(path)).unwrap_or(none))
    })
}

/// What the best way on from a vertex is worth, and this way, if each vertex settles its own ties: by
/// the smallest successor of those that are as good from here on.
fn by_own_best(table: &Table, within: &Superbubble, from: usize) -> (u64, Vec<usize>) {
    if from == within.exit {
        return (u64::MAX, vec![from]);
    }
    let successors = table.row(from).iter().map(|&next| next as usize);
    let but_bare_edge = successors.filter(|&next| (from, next) != within.pair());
    let ways = but_bare_edge.map(|next| {
        let (to_come, way) = by_own_best(table, within, next);
        let own = if next == within.exit { u64::MAX } else { table.counts[next] };
        (own.min(to_come), [&[from], &way[..]].concat())
    });
    // of equal ones the first, and a row rises
    ways.min_by_key(|&(worth, _)| Reverse(worth)).unwrap()
}
