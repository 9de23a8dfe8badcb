//! Well-formed tables: the twelve graphs A to L of the rules, and random ones; and lengths for them.

use crate::image::Content;
use crate::random::Random;
use crate::table::{Table, LARGEST_SUM, MOST_EDGES, MOST_VERTICES};
use crate::versions::Version;
use std::collections::BTreeSet;

pub type Edge = (usize, usize);

#[derive(Clone)]
pub struct Graph {
    pub name: &'static str,
    edges: &'static [Edge],
    counts: &'static [u64],
    /// Its superbubbles, as the rules print them.
    pub list: &'static [Edge],
}

const fn graph(
    name: &'static str,
    edges: &'static [Edge],
    counts: &'static [u64],
    list: &'static [Edge],
) -> Graph {
    Graph { name, edges, counts, list }
}

/// The graphs of docs/RULES.md, Twelve graphs. J, K and L have the counts of its worked folds; B has
/// the largest sum.
pub const TWELVE: [Graph; 12] = [
    graph("A", &[], &[], &[]),
    graph("B", &[], &[LARGEST_SUM], &[]),
    graph("C", &[(0, 1)], &[3, 1], &[(0, 1)]),
    graph("D", &[(0, 1), (0, 2), (1, 3), (2, 3)], &[9, 4, 5, 9], &[(0, 3)]),
    graph("E", &[(0, 1), (1, 0)], &[2, 7], &[]),
    graph("F", &[(0, 1), (1, 2), (2, 0)], &[6, 0, 6], &[(0, 1), (1, 2), (2, 0)]),
    graph("G", &[(0, 1), (1, 1)], &[1, 8], &[]),
    graph("H", &[(0, 1), (0, 2), (1, 3), (2, 3), (3, 0)], &[9, 4, 5, 9], &[(3, 0)]),
    graph("I", &[(0, 1), (1, 2), (2, 0), (2, 4), (3, 0)], &[5, 5, 5, 2, 3], &[(0, 1), (1, 2)]),
    graph(
        "J",
        &[(0, 1), (0, 5), (1, 2), (1, 3), (2, 4), (3, 4), (4, 6), (5, 6)],
        &[10, 4, 3, 2, 4, 12, 10],
        &[(0, 6), (1, 4)],
    ),
    graph(
        "K",
        &[(0, 1), (0, 2), (1, 3), (2, 3), (3, 4), (3, 5), (4, 6), (5, 6)],
        &[5, 2, 2, 5, 1, 4, 5],
        &[(0, 3), (3, 6)],
    ),
    graph("L", &[(0, 1), (0, 2), (1, 2)], &[3, 0, 3], &[(0, 2)]),
];

/// The table of docs/RULES.md, Worked folds, A shared arm.
pub const SHARED: Graph =
    graph("shared", &[(0, 1), (0, 3), (1, 2), (2, 4), (3, 4)], &[5, 4, 3, 3, 5], &[(0, 4), (1, 2)]);

/// The table of docs/RULES.md, Worked folds, By the weakest, and the lengths that it has as an example.
pub const WEAKEST: Graph = graph(
    "weakest",
    &[(0, 1), (0, 4), (1, 2), (1, 3), (2, 4), (3, 4)],
    &[0, 1, 5, 9, 0],
    &[(0, 4)],
);
pub const LENGTHS_OF_WEAKEST: [u16; 5] = [100, 200, 300, 400, 500];

/// A ring: 0,2 has a bare edge and its exit reaches its entrance, 2,6 has none.
pub const RING: Graph = graph(
    "ring",
    &[(0, 1), (0, 2), (1, 2), (2, 3), (2, 4), (3, 5), (4, 6), (5, 6), (6, 0)],
    &[0, 8, 0, 1, 5, 9, 0],
    &[(0, 2), (2, 6), (3, 5), (6, 0)],
);

/// A superbubble with a bare edge, 2,5, whose exit reaches its entrance, and inside it 4,3: the fold of
/// rings skips the first and folds the second, by which the set of the first shrinks.
pub const SHRINKING: Graph = graph(
    "shrinking",
    &[(0, 3), (1, 3), (2, 4), (2, 5), (3, 5), (4, 0), (4, 1), (5, 6), (6, 2)],
    &[4, 1, 9, 2, 3, 9, 9],
    &[(2, 5), (4, 3), (5, 6), (6, 2)],
);

/// Another one with a bare edge, 0,2, and nothing else: without this edge 2,0 would be a superbubble.
pub const BREAKING: Graph = graph(
    "breaking",
    &[(0, 1), (0, 2), (1, 2), (2, 3), (2, 4), (3, 0), (4, 0)],
    &[1, 2, 3, 4, 5],
    &[(0, 2)],
);

impl Graph {
    pub fn table(&self) -> Table {
        of_edges(self.edges, self.counts.to_vec())
    }
}

/// The one of the twelve with this letter.
pub fn lettered(letter: &str) -> &'static Graph {
    TWELVE.iter().find(|graph| graph.name == letter).unwrap()
}

/// Graph J, the worked example of the rules.
pub fn j() -> Table {
    lettered("J").table()
}

/// The table with as many vertices as there are counts, and these edges in any order.
pub fn of_edges(edges: &[Edge], counts: Vec<u64>) -> Table {
    let mut rows = vec![BTreeSet::new(); counts.len()];
    for &(from, to) in edges {
        rows[from].insert(to as u32);
    }
    of_rows(&rows, counts)
}

fn of_rows(rows: &[BTreeSet<u32>], counts: Vec<u64>) -> Table {
    let mut table = Table { starts: vec![0], targets: Vec::new(), counts };
    for row in rows {
        table.targets.extend(row);
        table.starts.push(table.targets.len() as u32);
    }
    table
}

/// A random well-formed table with n vertices and m edges, or all that n vertices can have.
pub fn with(random: &mut Random, n: usize, m: usize) -> Table {
    let mut rows = vec![BTreeSet::new(); n];
    let mut left = m.min(n * n);
    while left > 0 {
        if rows[random.place(n)].insert(random.place(n) as u32) {
            left -= 1;
        }
    }
    let counts = counts(random, n);
    of_rows(&rows, counts)
}

/// The largest table: its image is as long as an image can be.
pub fn largest(random: &mut Random) -> Table {
    with(random, MOST_VERTICES, MOST_EDGES)
}

/// A random well-formed table: mostly small, of any density.
pub fn any(random: &mut Random) -> Table {
    let most = random.one_of(&[0, 1, 2, 3, 5, 8, 8, 12, 20, 60, 200]);
    let n = random.between(0, most);
    let densest = random.one_of(&[1, 2, 4, n]);
    let m = random.between(0, (densest * n).min(MOST_EDGES));
    with(random, n, m)
}

/// A small table on which every kind of damage finds its place: at least four vertices, and by the
/// number of its edges some row with two targets.
pub fn to_damage(random: &mut Random) -> Table {
    let n = random.between(4, 9);
    let m = random.between(2 * n, 3 * n);
    with(random, n, m)
}

/// Counts whose sum is allowed: all 0, small ones, large ones, or some that reach the largest sum.
pub fn counts(random: &mut Random, n: usize) -> Vec<u64> {
    let most = random.one_of(&[0, 1, 100, LARGEST_SUM / n.max(1) as u64]);
    let counts = (0..n).map(|_| random.any() % (most + 1)).collect();
    now_and_then_filled(random, counts)
}

/// Counts as they are, or one of them such that they reach the largest sum.
fn now_and_then_filled(random: &mut Random, mut counts: Vec<u64>) -> Vec<u64> {
    if !counts.is_empty() && random.between(0, 3) == 0 {
        let others: u64 = counts.iter().skip(1).sum();
        counts[0] = LARGEST_SUM - others;
        let place = random.place(counts.len());
        counts.swap(0, place);
    }
    counts
}

/// Counts by which many paths are worth the same: few numbers, all of one, or nothing but 0.
pub fn tied_counts(random: &mut Random, n: usize) -> Vec<u64> {
    let large = LARGEST_SUM / n.max(1) as u64;
    // the last 32 bits of the second are 0
    let large = [[0, large], [7, large >> 32 << 32]];
    let few = [&[0, 1][..], &[0, 1, 2], &[1, 2], &[0, 7], &[3], &[0], &large[0], &large[1]];
    let of = random.one_of(&few);
    let counts = (0..n).map(|_| random.one_of(of)).collect();
    now_and_then_filled(random, counts)
}

/// Lengths that are allowed, those among them at which a byte ends.
pub fn lengths(random: &mut Random, n: usize) -> Vec<u16> {
    let mut length = || match random.between(0, 2) {
        0 => random.one_of(&[1, 255, 256, u16::MAX]),
        1 => random.between(1, 9) as u16,
        _ => random.between(1, u16::MAX as usize) as u16,
    };
    (0..n).map(|_| length()).collect()
}

/// A table as an image of a version is to hold it: in version 2 with random lengths.
pub fn content(random: &mut Random, version: Version, table: Table) -> Content {
    let n = table.vertices().unwrap_or(0);
    let lengths = (version == Version::Two).then(|| lengths(random, n));
    Content { table, lengths }
}

/// The same laid out.
pub fn image(random: &mut Random, version: Version, table: &Table) -> Vec<u8> {
    content(random, version, table.clone()).image()
}
